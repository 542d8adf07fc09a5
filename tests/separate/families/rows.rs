//! Requests about outage rows: every set of flags, each fault alone, two faults at once, bounds
//! and rooms of every kind; and boxes of rows as the solids of operations and point counts.

use super::ample;
use super::bodies::any_body;
use super::numbers::*;
use super::random::Random;
use super::refusals::{beyond_limit, blank};
use crate::admission::{Solid, LIMIT};
use crate::language::Request;
use crate::rows::{boxed, Row};

/// The lists that a box needs, in coordinates and corners.
const ROOM: (usize, usize) = (24, 36);

/// What a request for a box is made of: the row, and what may be wrong round it.
struct Asked {
    row: Row,
    mark: [u8; 2],
    length: usize,
    room: (usize, usize),
}

/// A group of cases. The number goes in turn through all there are.
type Group = fn(&mut Random, usize) -> Asked;

/// The groups, which are taken in turn. Their first cases, which make the family's first
/// requests, are chosen to shut out every slip, whatever the seed.
const GROUPS: [Group; 15] = [
    flag_sets,
    lengths,
    marks,
    high_flags,
    blanks,
    far,
    present,
    reversed,
    rooms,
    numbers,
    zeros_of_both_signs,
    |r, case| two_faults(r, case, &[[3, 4], [3, 12], [3, 13], [3, 8]]),
    |r, case| two_faults(r, case, &[[4, 12], [4, 13], [4, 8]]),
    |r, case| two_faults(r, case, &[[12, 13], [12, 8]]),
    |r, case| two_faults(r, case, &[[13, 8], [9, 3], [9, 4], [9, 12], [9, 13], [9, 8]]),
];

/// Three times in four a row, from each group in turn; then, in turn, an operation or a point
/// count with boxes.
pub fn in_turn(r: &mut Random, number: u64) -> Request {
    let (round, place) = (number as usize / 4, number as usize % 4);
    match place {
        3 if round % 2 == 0 => operation(r, round / 2),
        3 => count(r, round / 2),
        _ => {
            let turn = 3 * round + place;
            request(&GROUPS[turn % GROUPS.len()](r, turn / GROUPS.len()))
        }
    }
}

fn request(asked: &Asked) -> Request {
    let mut row = asked.row.bytes();
    row[..2].copy_from_slice(&asked.mark);
    // A longer one begins again.
    let bytes = row.iter().cycle().take(asked.length).copied().collect();
    let (coordinates, corners) = asked.room;
    Request::Box { bytes, coordinates, corners }
}

/// A unit number whose two bytes differ.
fn unit(r: &mut Random) -> u16 {
    let [low, other] = [r.below(256), 1 + r.below(255)];
    u16::from_le_bytes([low as u8, (low + other) as u8])
}

/// The two bounds of an axis, low below high, with these flags.
fn good_bounds(r: &mut Random, kind: Kind, flags: u8) -> [f64; 2] {
    let [open_low, open_high] = [flags & 1 == 1, flags & 2 == 2];
    loop {
        let (low, high) = (kind(r), kind(r));
        let standing_low = if open_low { -LIMIT } else { low };
        if standing_low < if open_high { LIMIT } else { high } {
            return [
                if open_low { blank(r) } else { low },
                if open_high { blank(r) } else { high },
            ];
        }
    }
}

/// A row without faults that has these flags.
fn good_row(r: &mut Random, flags: u8) -> Row {
    let kind = r.pick(&[integers as Kind, tenths, reals, extremes, zeros, tiniest]);
    let [x, y, z] = [0, 2, 4].map(|low| good_bounds(r, kind, flags >> low));
    Row { unit: unit(r), bounds: [x[0], x[1], y[0], y[1], z[0], z[1]], flags }
}

fn some_flags(r: &mut Random) -> u8 {
    r.below(64) as u8
}

/// A row without faults, and with room for its box.
fn good(r: &mut Random, flags: u8) -> Asked {
    let room = r.pick(&[ROOM, ROOM, (25, 37), (1_000, 2_000)]);
    Asked { row: good_row(r, flags), mark: *b"RW", length: 53, room }
}

fn some_good(r: &mut Random) -> Asked {
    let flags = some_flags(r);
    good(r, flags)
}

/// Puts a value where this bound stands, under a flag or not.
fn put(row: &mut Row, bound: usize, flagged: bool, value: f64) {
    row.flags = row.flags & !(1 << bound) | u8::from(flagged) << bound;
    row.bounds[bound] = value;
}

/// Puts two values where the bounds of this axis stand. A NaN stands for an open bound.
fn put_axis(r: &mut Random, row: &mut Row, axis: usize, values: [f64; 2]) {
    for (side, &value) in values.iter().enumerate() {
        let open = value.is_nan();
        put(row, 2 * axis + side, open, if open { blank(r) } else { value });
    }
}

/// Each of the 64 sets of flags, from the first bound's alone.
fn flag_sets(r: &mut Random, case: usize) -> Asked {
    good(r, ((case + 1) % 64) as u8)
}

/// Another length than 53 bytes.
fn lengths(r: &mut Random, case: usize) -> Asked {
    let lengths = [54, 52, 55, 0, 106, 51, 61, 1, 56, 2, 64, 3, 60, 4, 159, 45, 530, 44, 12, 20];
    Asked { length: lengths[case % lengths.len()], ..some_good(r) }
}

/// Another mark: either byte wrong, lower case, those of other records, or one bit changed.
fn marks(r: &mut Random, case: usize) -> Asked {
    let marks = [
        b"RX", b"SW", b"WR", b"rw", b"Rw", b"rW", b"RR", b"WW", b"R\0", b"\0W", b"\0\0", b"VX",
        b"FC", b"EN", b"HD", b"  ",
    ];
    let turn = case / 2 % 16;
    let changed = u16::from_be_bytes(*b"RW") ^ 1 << turn;
    let mark = if case % 2 == 0 { *marks[turn] } else { changed.to_be_bytes() };
    Asked { mark, ..some_good(r) }
}

/// Flag bits 6 and 7, each alone and both, over any others.
fn high_flags(r: &mut Random, case: usize) -> Asked {
    let mut asked = some_good(r);
    asked.row.flags |= [1 << 6, 1 << 7, 3 << 6][case % 3];
    asked
}

/// A blank without its flag at each bound: quiet and signalling, of both signs.
fn blanks(r: &mut Random, case: usize) -> Asked {
    let mut asked = some_good(r);
    let any = 1 << r.below(52);
    let payload = [1 << 51, 1, 1 << 51 | 1, (1 << 52) - 1, any][case / 6 % 5];
    let sign = [0, 1 << 63][case / 30 % 2];
    put(&mut asked.row, case % 6, false, f64::from_bits(sign | 0x7ff << 52 | payload));
    asked
}

/// A number out of range at each bound, under a flag or not.
fn far(r: &mut Random, case: usize) -> Asked {
    let mut asked = some_good(r);
    let next = ulps(LIMIT, 1);
    let any = r.pick(&[2e6, -2e6, f64::MAX, f64::MIN]);
    let values = [next, f64::NEG_INFINITY, -next, f64::INFINITY, any];
    put(&mut asked.row, case / 2 % 6, case % 2 == 0, values[case / 12 % values.len()]);
    asked
}

/// A value under a flag at each bound: the limits too, both zeros, and what is beyond the other
/// bound of the axis.
fn present(r: &mut Random, case: usize) -> Asked {
    let bound = case % 6;
    let flags = some_flags(r) & !(1 << bound);
    let mut asked = good(r, flags);
    let sign = if bound % 2 == 0 { -1.0 } else { 1.0 };
    let values =
        [asked.row.bounds[bound], sign * LIMIT, -sign * LIMIT, 0.0, -0.0, -sign * 1_000_000.0];
    put(&mut asked.row, bound, true, values[case / 6 % values.len()]);
    asked
}

/// Low not below high on each axis: equal, an ulp above or more, at the limits that open bounds
/// become, or all but.
fn reversed(r: &mut Random, case: usize) -> Asked {
    let mut asked = some_good(r);
    let [low, high] = good_bounds(r, reals, 0);
    let pairs = [
        [f64::NAN, -LIMIT],
        [LIMIT, f64::NAN],
        [low, low],
        [ulps(high, 1), high],
        [high, low],
        [LIMIT, -LIMIT],
        [LIMIT, LIMIT],
        [-LIMIT, -LIMIT],
        [f64::NAN, ulps(-LIMIT, 1)],
        [ulps(LIMIT, -1), f64::NAN],
    ];
    put_axis(r, &mut asked.row, case % 3, pairs[case / 3 % pairs.len()]);
    asked
}

/// Rooms that just suffice, rooms one short, none and much.
fn rooms(r: &mut Random, case: usize) -> Asked {
    let most = u32::MAX as usize;
    let rooms = [
        (24, 35),
        (23, 36),
        (24, 36),
        (most, 35),
        (23, 35),
        (24, 0),
        (23, most),
        (0, 36),
        (most, most),
        (0, 0),
        (25, 37),
        (24, 12),
        (8, 12),
        (36, 24),
        (24, most),
        (most, 36),
    ];
    Asked { room: rooms[case % rooms.len()], ..some_good(r) }
}

/// Bounds at the limit and next to it, both zeros, subnormal numbers, a low and the next number
/// up, and unit numbers with equal bytes.
fn numbers(r: &mut Random, case: usize) -> Asked {
    let low = extremes(r).min(ulps(LIMIT, -1));
    let pairs = [
        [-LIMIT, LIMIT],
        [-0.0, 1.0],
        [-1.0, -0.0],
        [low, ulps(low, 1)],
        [ulps(LIMIT, -1), LIMIT],
        [-LIMIT, ulps(-LIMIT, 1)],
        [0.0, TINIEST],
        [-TINIEST, -0.0],
        [ulps(f64::MIN_POSITIVE, -1), f64::MIN_POSITIVE],
        [f64::NAN, -0.0],
        [-0.0, f64::NAN],
        [f64::NAN, LIMIT],
        [-LIMIT, f64::NAN],
        [f64::NAN, ulps(-LIMIT, 1)],
        [ulps(LIMIT, -1), f64::NAN],
        [ulps(-LIMIT, 1), ulps(LIMIT, -1)],
        [-f64::MIN_POSITIVE, ulps(-f64::MIN_POSITIVE, 1)],
    ];
    let mut asked = some_good(r);
    for axis in 0..3 {
        put_axis(r, &mut asked.row, axis, pairs[(case + axis) % pairs.len()]);
    }
    asked.row.unit = r.pick(&[0, 1, 255, 256, 257, 0x7fff, 0x8000, 0xffff]);
    asked
}

/// Both zeros as low and high of each axis, in either order, and with the numbers next to them.
fn zeros_of_both_signs(r: &mut Random, case: usize) -> Asked {
    let pairs = [
        [-0.0, 0.0],
        [0.0, -0.0],
        [0.0, 0.0],
        [-0.0, -0.0],
        [-0.0, TINIEST],
        [0.0, TINIEST],
        [-TINIEST, -0.0],
        [-TINIEST, 0.0],
        [TINIEST, 0.0],
        [0.0, -TINIEST],
    ];
    let mut asked = some_good(r);
    put_axis(r, &mut asked.row, case % 3, pairs[case / 3 % pairs.len()]);
    asked
}

/// Puts in a fault that is refused by this number, at this bound if it is one of bounds.
fn put_fault(r: &mut Random, asked: &mut Asked, number: u8, bound: usize) {
    match number {
        3 => put(&mut asked.row, bound, false, blank(r)),
        4 => put(&mut asked.row, bound, r.once_in(2), beyond_limit(r)),
        12 => put(&mut asked.row, bound, true, extremes(r)),
        13 => {
            let high = integers(r);
            let low = r.pick(&[high, ulps(high, 1), high + 1.0]);
            put_axis(r, &mut asked.row, bound / 2, [low, high]);
        }
        8 => asked.room = r.pick(&[(23, 36), (24, 35), (0, 0)]),
        _ => match r.below(4) {
            0 => asked.length = r.pick(&[0, 52, 54]),
            1 => asked.mark = r.pick(&[*b"RX", *b"SW", *b"VX"]),
            _ => asked.row.flags |= r.pick(&[1 << 6, 1 << 7, 3 << 6]),
        },
    }
}

/// Each of these pairs of faults, on two axes or on one: first the one that is refused in the
/// higher bound, then in the lower one.
fn two_faults(r: &mut Random, case: usize, pairs: &[[u8; 2]]) -> Asked {
    let ([refused, other], turn) = (pairs[case % pairs.len()], case / pairs.len());
    let [lower, higher] = match turn / 2 % 4 {
        // A 13 takes the whole axis.
        3 if refused != 13 && other != 13 => r.pick(&[[0, 1], [2, 3], [4, 5]]),
        axes => [[0, 1], [1, 2], [0, 2]][axes % 3].map(|axis| 2 * axis + r.below(2)),
    };
    let mut asked = some_good(r);
    put_fault(r, &mut asked, refused, if turn % 2 == 0 { higher } else { lower });
    put_fault(r, &mut asked, other, if turn % 2 == 0 { lower } else { higher });
    asked
}

fn some_good_row(r: &mut Random) -> Row {
    let flags = some_flags(r);
    good_row(r, flags)
}

/// The box of a row; another row's if this one is refused.
fn box_of(r: &mut Random, row: &Row) -> Solid {
    let made = boxed(&row.bytes(), ROOM.0, ROOM.1);
    made.map(|boxed| boxed.solid).unwrap_or_else(|_| {
        let row = some_good_row(r);
        box_of(r, &row)
    })
}

/// The row with each bound that is not open changed.
fn changed(row: &Row, mut change: impl FnMut(usize, f64) -> f64) -> Row {
    let mut row = *row;
    for bound in 0..6 {
        if !row.bounds[bound].is_nan() {
            row.bounds[bound] = change(bound, row.bounds[bound]);
        }
    }
    row
}

/// The row of a box that touches another one's on an axis, from above.
fn touching(r: &mut Random, row: &Row) -> Row {
    let axis = r.below(3);
    let low = row.standing(2 * axis + 1);
    let mut on = *row;
    put_axis(r, &mut on, axis, [low, (low + 1.0).min(LIMIT)]);
    on
}

/// Two boxes: any, with some bounds in common, the same, an ulp beside, one inside the other,
/// one with all bounds open, touching; or a box and any body.
fn two_solids(r: &mut Random, case: usize) -> (Solid, Solid) {
    let (row, other) = (some_good_row(r), some_good_row(r));
    let first = box_of(r, &row);
    let second = match case % 8 {
        0 => other,
        1 => changed(&row, |bound, value| if r.once_in(2) { other.standing(bound) } else { value }),
        2 => row,
        3 => changed(&row, |_, value| beside(r, value, 1)),
        4 => changed(&row, |bound, value| 0.75 * value + 0.25 * row.standing(bound ^ 1)),
        5 => good_row(r, 63),
        6 => touching(r, &row),
        _ => return (first, any_body(r)),
    };
    (first, box_of(r, &second))
}

fn operation(r: &mut Random, case: usize) -> Request {
    let (first, second) = two_solids(r, case);
    let (a, b) = if r.once_in(2) { (first, second) } else { (second, first) };
    Request::Op { code: (case / 8 % 3) as u32, a, b, room: ample() }
}

/// A point count in a box, the point on one axis at each bound, an ulp below and above it, in
/// the middle, and at either limit; on the others as a rule in the middle.
fn count(r: &mut Random, case: usize) -> Request {
    let row = some_good_row(r);
    let places = |axis: usize| {
        let [low, high] = [row.standing(2 * axis), row.standing(2 * axis + 1)];
        let middle = 0.5 * low + 0.5 * high;
        let next = |bound: f64, places: i64| ulps(bound, places).clamp(-LIMIT, LIMIT);
        [
            low,
            high,
            next(low, -1),
            next(low, 1),
            next(high, -1),
            next(high, 1),
            middle,
            -LIMIT,
            LIMIT,
        ]
    };
    let point = [0, 1, 2].map(|axis| {
        let places = places(axis);
        match case / 2 % 3 {
            turn if turn == axis => places[case / 6 % places.len()],
            _ if r.once_in(4) => r.pick(&places),
            _ => places[6],
        }
    });
    Request::Count { as_a: case % 2 == 1, point, solid: box_of(r, &row) }
}
