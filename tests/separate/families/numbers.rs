//! Kinds of coordinates from which the families make their points.

use super::random::Random;
use crate::admission::LIMIT;
use crate::crossings::Point;

/// A kind of coordinate.
pub type Kind = fn(&mut Random) -> f64;

pub const TINIEST: f64 = 5e-324;

/// -2 to 2: many ties.
pub fn few_integers(r: &mut Random) -> f64 {
    r.from_to(-2, 2) as f64
}

/// -5 to 5: some ties.
pub fn integers(r: &mut Random) -> f64 {
    r.from_to(-5, 5) as f64
}

/// Tenths, which are no f64 numbers: sums and differences round.
pub fn tenths(r: &mut Random) -> f64 {
    r.from_to(-9, 9) as f64 / 10.0
}

pub fn thirds(r: &mut Random) -> f64 {
    r.from_to(-6, 6) as f64 / 3.0
}

/// From -1 to 1, with all bits random.
pub fn reals(r: &mut Random) -> f64 {
    2.0 * r.share() - 1.0
}

/// Ones and both zeros, seldom the tiniest numbers: for signs of zero.
pub fn zeros(r: &mut Random) -> f64 {
    match r.below(12) {
        0 => r.pick(&[TINIEST, -TINIEST]),
        1 => r.pick(&[2.0, -2.0]),
        2 | 3 => 1.0,
        4 | 5 => -1.0,
        6..=8 => 0.0,
        _ => -0.0,
    }
}

/// The limit and what is next to it, subnormal numbers, both zeros, and numbers of any size
/// between.
pub fn extremes(r: &mut Random) -> f64 {
    let size = match r.below(8) {
        0 => LIMIT,
        1 => ulps(LIMIT, -r.from_to(1, 3)),
        2 => TINIEST * r.from_to(1, 5) as f64,
        3 => ulps(f64::MIN_POSITIVE, r.from_to(-2, 2)),
        4 => 0.0,
        5 => f64::from_bits(r.word() % LIMIT.to_bits()),
        6 => r.share() * LIMIT,
        _ => r.from_to(0, 3) as f64,
    };
    if r.once_in(2) {
        -size
    } else {
        size
    }
}

/// Small multiples of the tiniest number: interpolation rounds as coarsely as it can.
pub fn tiniest(r: &mut Random) -> f64 {
    TINIEST * r.from_to(-4, 4) as f64
}

/// The f64 number so many places above, or below if negative. Both zeros count as one place.
pub fn ulps(number: f64, places: i64) -> f64 {
    let bits = number.to_bits() as i64;
    let place = if bits < 0 { i64::MIN - bits } else { bits } + places;
    f64::from_bits(if place < 0 { i64::MIN - place } else { place } as u64)
}

/// The number moved by at most so many places, but not over the limit.
pub fn beside(r: &mut Random, number: f64, most: i64) -> f64 {
    ulps(number, r.from_to(-most, most)).clamp(-LIMIT, LIMIT)
}

pub fn point(r: &mut Random, kind: Kind) -> Point {
    [kind(r), kind(r), kind(r)]
}

pub fn points(r: &mut Random, kind: Kind, number: usize) -> Vec<Point> {
    (0..number).map(|_| point(r, kind)).collect()
}

/// The point a share of the way from p to q.
pub fn on_the_way(p: Point, q: Point, share: f64) -> Point {
    [0, 1, 2].map(|at| p[at] + share * (q[at] - p[at]))
}
