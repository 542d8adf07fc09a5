//! Outage rows (request 2026-02): the layout of a row, the checks in their order, and the box
//! solid that its six bounds make.

use crate::admission::{Answer, Refusal, Solid, Who, LIMIT};
use crate::house::number;
use crate::slips::{slip, Slip};

const ROW_BYTES: usize = 53;
const MARK: [u8; 2] = *b"RW";

/// Bounds are numbered as in the row: twice the axis, and 1 more for the high one.
const BOUNDS: usize = 6;
const BOX_CORNERS: usize = 8;
const BOX_COORDINATES: usize = 24;
const BOX_FACET_CORNERS: usize = 36;

/// What a row holds behind its mark.
#[derive(Clone, Copy)]
pub struct Row {
    pub unit: u16,
    /// "Six f64 (low x, high x, low y, high y, low z, high z)."
    pub bounds: [f64; BOUNDS],
    /// "Bits 0 to 5, in that order, say that the bound is open."
    pub flags: u8,
}

/// The box of a row, with the row's unit number.
pub struct Boxed {
    pub solid: Solid,
    pub unit: u16,
}

impl Row {
    /// The row's bytes, whatever it holds.
    pub fn bytes(&self) -> Vec<u8> {
        let mut bytes = MARK.to_vec();
        bytes.extend(self.unit.to_le_bytes());
        bytes.extend(self.bounds.iter().flat_map(|bound| bound.to_le_bytes()));
        bytes.push(self.flags);
        bytes
    }

    fn is_open(&self, bound: usize) -> bool {
        let flag = |bound: usize| self.flags >> bound & 1 == 1;
        match slip() {
            Slip::FlagsShifted => flag((bound + 1) % BOUNDS),
            Slip::BlankPasses => flag(bound) || self.bounds[bound].is_nan(),
            _ => flag(bound),
        }
    }

    /// The bound as it stands in the box: an open one "becomes the limit, negative for a low".
    pub fn standing(&self, bound: usize) -> f64 {
        match (self.is_open(bound), bound % 2) {
            (false, _) => self.bounds[bound],
            (true, 0) if slip() != Slip::OpenLowIsHigh => -LIMIT,
            (true, _) => LIMIT,
        }
    }
}

/// A row is neither a solid nor a point: its refusals are on nobody.
fn refusal(number: u8) -> Refusal {
    if slip() == Slip::RowOnSolid && number != 8 && number != 9 {
        return Refusal { number, who: Who::OnlySolid, place: 0 };
    }
    Refusal::on_nobody(number)
}

fn refuse_if(fault: bool, number: u8) -> Answer<()> {
    if fault {
        Err(refusal(number))
    } else {
        Ok(())
    }
}

fn has_length(bytes: &[u8]) -> bool {
    bytes.len() == ROW_BYTES || (slip() == Slip::LongRowTaken && bytes.len() > ROW_BYTES)
}

fn has_mark(bytes: &[u8]) -> bool {
    let looked_at = if slip() == Slip::HalfMark { 1 } else { 2 };
    bytes[..looked_at] == MARK[..looked_at]
}

/// 9 for another layout than this: "A row is 53 bytes, low byte first: the mark `RW`, a two-byte
/// unit number, six f64 and one flag byte." "9 (also for flag bits 6 and 7)."
fn layout(bytes: &[u8]) -> Answer<Row> {
    refuse_if(!has_length(bytes), 9)?;
    refuse_if(!has_mark(bytes), 9)?;
    let bound = |at: usize| f64::from_bits(number(&bytes[4 + 8 * at..][..8]));
    let (unit, flags) = (number(&bytes[2..4]) as u16, bytes[ROW_BYTES - 1]);
    refuse_if(flags >> BOUNDS != 0 && slip() != Slip::HighFlagBitsIgnored, 9)?;
    Ok(Row {
        unit: if slip() == Slip::UnitHighFirst { unit.swap_bytes() } else { unit },
        bounds: [0, 1, 2, 3, 4, 5]
            .map(|at| bound(if slip() == Slip::HighBeforeLow { at ^ 1 } else { at })),
        flags,
    })
}

/// 3: "a blank without its flag is refused".
fn blank_without_flag(row: &Row, bound: usize) -> bool {
    row.bounds[bound].is_nan() && !row.is_open(bound)
}

/// 4: above 1,048,576 or below -1,048,576, infinities included; under a flag as well.
fn out_of_range(row: &Row, bound: usize) -> bool {
    match slip() {
        Slip::FlaggedUnlimited if row.is_open(bound) => false,
        Slip::RowLimitRefused => row.bounds[bound].abs() >= LIMIT,
        _ => row.bounds[bound].abs() > LIMIT,
    }
}

/// 12: "flag set, value present".
fn value_under_flag(row: &Row, bound: usize) -> bool {
    row.is_open(bound) && !row.bounds[bound].is_nan() && slip() != Slip::PresentPasses
}

/// 13: "low not below high", once the limit stands for open bounds. An axis is looked at with
/// its high bound.
fn low_not_below_high(row: &Row, bound: usize) -> bool {
    if bound % 2 == 0 {
        return false;
    }
    let (low, high) = (row.standing(bound - 1), row.standing(bound));
    match slip() {
        Slip::BoundsSwapped => row.bounds[bound - 1] >= row.bounds[bound],
        Slip::EqualBoundsPass => low > high,
        Slip::RowZeroBits => low.total_cmp(&high).is_ge(),
        // No standing bound is a blank here.
        _ => low >= high,
    }
}

/// A check's number, and whether a bound has the fault.
type Check = (u8, fn(&Row, usize) -> bool);

/// 3, 4, 12, 13: each is looked for in all six bounds before the next.
fn check(row: &Row) -> Answer<()> {
    let blank: Check = (3, blank_without_flag);
    let far: Check = (4, out_of_range);
    let present: Check = (12, value_under_flag);
    let reversed: Check = (13, low_not_below_high);
    let checks = match slip() {
        Slip::LimitBeforeBlank => [far, blank, present, reversed],
        Slip::PresentBeforeLimit => [blank, present, far, reversed],
        Slip::ReversedBeforePresent => [blank, far, reversed, present],
        _ => [blank, far, present, reversed],
    };
    let look = |&(number, fault): &Check, bound| refuse_if(fault(row, bound), number);
    if slip() == Slip::BoundByBound {
        return (0..BOUNDS).try_for_each(|bound| checks.iter().try_for_each(|c| look(c, bound)));
    }
    checks.iter().try_for_each(|check| (0..BOUNDS).try_for_each(|bound| look(check, bound)))
}

/// 8, "last". The room is in coordinates and corners.
fn check_room(coordinates: usize, corners: usize) -> Answer<()> {
    let corners_short = corners < BOX_FACET_CORNERS && slip() != Slip::BoxCornersUnroomed;
    refuse_if(coordinates < BOX_COORDINATES || corners_short, 8)
}

/// "Refusals: 9, 3, 4, then 12, 13, and last 8."
pub fn boxed(bytes: &[u8], coordinates: usize, corners: usize) -> Answer<Boxed> {
    let room = check_room(coordinates, corners);
    if slip() == Slip::BoxRoomFirst {
        room?;
    }
    let row = layout(bytes)?;
    check(&row)?;
    room?;
    Ok(Boxed { solid: box_of(&row), unit: row.unit })
}

/// The unit number that goes with a refusal: 0, like all that follows in the line.
pub fn unit_of_refused(bytes: &[u8]) -> u16 {
    match layout(bytes) {
        Ok(row) if slip() == Slip::UnitOnRefusal => row.unit,
        _ => 0,
    }
}

/// Whether the corner is on the low (0) or the high (1) side of the axis: corners are numbered
/// "by x + 2y + 4z with 1 for high".
fn side(corner: usize, axis: usize) -> usize {
    corner >> axis & 1
}

/// A face of a box: all corners on this side of this axis.
#[derive(Clone, Copy)]
struct Face {
    axis: usize,
    side: usize,
}

fn box_of(row: &Row) -> Solid {
    let coordinate = |corner: usize, axis: usize| {
        let weight = if slip() == Slip::ZCountedFirst { 2 - axis } else { axis };
        let bound = row.standing(2 * axis + side(corner, weight));
        if slip() == Slip::RowZeroSignLost {
            bound + 0.0
        } else {
            bound
        }
    };
    let point = |corner: usize| [0, 1, 2].map(|axis| coordinate(corner, axis));
    let triangles = faces().flat_map(triangles_of);
    Solid {
        points: (0..BOX_CORNERS).flat_map(point).collect(),
        corners: triangles.flatten().map(|corner| corner as u32).collect(),
    }
}

/// "Faces come low before high for x, y, z."
fn faces() -> impl Iterator<Item = Face> {
    (0..6).map(|place| {
        if slip() == Slip::FacesBySide {
            Face { axis: place % 3, side: place / 3 }
        } else {
            Face { axis: place / 2, side: place % 2 }
        }
    })
}

/// "Each is cut by the diagonal through its lowest corner, the triangle with the face's
/// second-lowest corner first."
fn triangles_of(face: Face) -> Vec<[usize; 3]> {
    // From the lowest up.
    let corners: Vec<usize> =
        (0..BOX_CORNERS).filter(|&corner| side(corner, face.axis) == face.side).collect();
    let lowest = corners[0];
    let on_diagonal = |corner: &usize| corner == &lowest || (corner ^ lowest).count_ones() == 2;
    let (diagonal, beside): (Vec<usize>, Vec<usize>) = corners.into_iter().partition(on_diagonal);
    let cut: Vec<[usize; 3]> = if slip() == Slip::OtherDiagonal {
        diagonal.iter().map(|&corner| [beside[0], beside[1], corner]).collect()
    } else {
        beside.iter().map(|&corner| [diagonal[0], diagonal[1], corner]).collect()
    };
    let mut triangles: Vec<_> = cut.into_iter().map(|corners| turned(face, corners)).collect();
    if slip() == Slip::SecondLowestLast {
        triangles.reverse();
    }
    triangles
}

/// "Each turned outward and starting at its lowest corner."
fn turned(face: Face, mut corners: [usize; 3]) -> [usize; 3] {
    corners.sort();
    let inward = slip() == Slip::InwardFace && face.axis == 2 && face.side == 0;
    if is_outward(face, corners) == inward {
        corners.swap(1, 2);
    }
    if slip() == Slip::StartElsewhere {
        corners.rotate_left(1);
    }
    corners
}

/// Whether the normal of the triangle p,q,s points out of the box, as do those of the sample
/// table's T: along the axis on the high side, against it on the low side.
fn is_outward(face: Face, [p, q, s]: [usize; 3]) -> bool {
    let step = |to: usize, axis: usize| side(to, axis) as i32 - side(p, axis) as i32;
    let [next, last] = [(face.axis + 1) % 3, (face.axis + 2) % 3];
    let normal = step(q, next) * step(s, last) - step(q, last) * step(s, next);
    (normal > 0) == (face.side == 1)
}
