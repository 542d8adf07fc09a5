//! Pairs by where the boxes round their parts lie: touching, apart on one axis only, far apart,
//! one inside the other.

use super::bodies::*;
use super::numbers::*;
use super::pairs::Pair;
use super::random::Random;
use crate::admission::Solid;
use crate::crossings::Point;

/// The least and the greatest coordinates of a solid with vertices.
fn bounds(solid: &Solid) -> (Point, Point) {
    let points = points_of(solid);
    let with = |choose: fn(f64, f64) -> f64| {
        [0, 1, 2].map(|axis| points.iter().map(|p| p[axis]).reduce(choose).unwrap())
    };
    (with(f64::min), with(f64::max))
}

/// Of integers, so that boxes touch in truth, or of any numbers.
fn body(r: &mut Random) -> Solid {
    if r.once_in(2) {
        small_body(r, integers)
    } else {
        any_body(r)
    }
}

/// The solid moved along one axis until it lies this far behind the other.
fn behind(r: &mut Random, solid: &Solid, other: &Solid) -> Solid {
    let axis = r.below(3);
    let gap = r.pick(&[0.0, 0.0, 1.0, 2f64.powi(-40), 1000.0, -1.0]);
    let mut by = [0.0; 3];
    by[axis] = bounds(other).1[axis] - bounds(solid).0[axis] + gap;
    moved(solid, 1.0, by)
}

/// The solid made small or large and put round the middle of the other.
fn round(r: &mut Random, solid: &Solid, other: &Solid) -> Solid {
    let scale = r.pick(&[0.0625, 0.25, 4.0, 16.0]);
    let middle = |(low, high): (Point, Point)| [0, 1, 2].map(|axis| (low[axis] + high[axis]) / 2.0);
    let (own, there) = (middle(bounds(solid)), middle(bounds(other)));
    moved(solid, scale, [0, 1, 2].map(|axis| there[axis] - scale * own[axis]))
}

/// Two bodies that are apart, that touch, or one round the other; and often one of them with a
/// second part elsewhere, so that some edges and facets meet nothing.
pub fn apart(r: &mut Random) -> Pair {
    let (a, b) = (body(r), body(r));
    let b = if r.once_in(3) { round(r, &b, &a) } else { behind(r, &b, &a) };
    if r.once_in(2) {
        return (a, b);
    }
    let part = small_body(r, integers);
    let part = if r.once_in(2) { behind(r, &part, &b) } else { round(r, &part, &a) };
    let both = together(&[a, part]);
    if r.once_in(2) {
        (both, b)
    } else {
        (b, both)
    }
}
