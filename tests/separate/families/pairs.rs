//! Pairs of solids, A and B: integers, boxes, sums, plain reals, extremes, equal, touching,
//! flat and empty solids, results used again, and the largest sizes.

use super::ample;
use super::bodies::*;
use super::numbers::*;
use super::random::Random;
use crate::admission::{Solid, LIMIT, MOST_FACETS, MOST_VERTICES};
use crate::crossings::Point;
use crate::result::{operation, Outcome};

pub type Pair = (Solid, Solid);

/// Small integers: every coordinate meets equal ones of the other solid.
pub fn ties(r: &mut Random) -> Pair {
    let kind = r.pick(&[few_integers as Kind, integers]);
    (small_body(r, kind), small_body(r, kind))
}

/// Boxes: planes, edges and corners in common, and a box may be inside out or flat.
pub fn boxes(r: &mut Random) -> Pair {
    let kind = r.pick(&[few_integers as Kind, integers, thirds, tenths]);
    (some_blocks(r, kind), some_blocks(r, kind))
}

fn some_blocks(r: &mut Random, kind: Kind) -> Solid {
    let number = r.pick(&[1, 1, 1, 2, 3]);
    let parts: Vec<Solid> = (0..number).map(|_| block(point(r, kind), point(r, kind))).collect();
    together(&parts)
}

/// Ones, both zeros and the tiniest numbers: signs of zero in points and in the hold. Zeros
/// have any signs, or one for each axis; on one axis A's is plus and B's is minus, since then
/// D+ can be minus zero.
pub fn signed_zeros(r: &mut Random) -> Pair {
    let (a, b) = (body_of_zeros(r), body_of_zeros(r));
    if r.once_in(3) {
        return (a, b);
    }
    let (mut signs_a, mut signs_b) = ([-0.0; 3], [(); 3].map(|()| r.pick(&[0.0, -0.0])));
    let axis = r.below(3);
    (signs_a[axis], signs_b[axis]) = (0.0, -0.0);
    (with_zeros(&a, signs_a), with_zeros(&b, signs_b))
}

fn body_of_zeros(r: &mut Random) -> Solid {
    if r.once_in(3) {
        some_blocks(r, zeros)
    } else {
        small_body(r, zeros)
    }
}

fn with_zeros(solid: &Solid, signs: Point) -> Solid {
    changed(solid, |axis, number| if number == 0.0 { signs[axis] } else { number })
}

/// Sums of tetrahedra over shared vertices: counts beyond 1, below 0, and doubled facets.
pub fn sums(r: &mut Random) -> Pair {
    if r.once_in(3) {
        return many_times_round(r);
    }
    let kind = r.pick(&[few_integers as Kind, tenths, reals]);
    let points_a = points(r, kind, 7);
    let points_b = if r.once_in(3) { points_a.clone() } else { points(r, kind, 7) };
    let mut side = |points: &[Point]| {
        let (vertices, number) = (4 + r.below(4), 1 + r.below(6));
        sum_of_tetrahedra(r, &points[..vertices], number)
    };
    (side(&points_a), side(&points_b))
}

/// A tetrahedron several times over the same vertices, round another body or through it.
fn many_times_round(r: &mut Random) -> Pair {
    let once = moved(&t(), 1.0, [-1.0, -1.0, -1.0]);
    let round = Solid { corners: once.corners.repeat(2 + r.below(2)), ..once };
    let kind = r.pick(&[few_integers as Kind, tenths, reals]);
    let (a, b) = (mixed(r, &round), small_body(r, kind));
    if r.once_in(2) {
        (a, b)
    } else {
        (b, a)
    }
}

/// Plain reals: tetrahedra, hull-like bodies and tori that cross as a rule.
pub fn plain(r: &mut Random) -> Pair {
    (plain_body(r), plain_body(r))
}

fn plain_body(r: &mut Random) -> Solid {
    let body = match r.below(3) {
        0 => small_body(r, reals),
        1 => {
            let vertices = 5 + r.below(20);
            ball(r, vertices)
        }
        _ => {
            let (m, n) = (3 + r.below(3), 3 + r.below(3));
            torus(r, m, n)
        }
    };
    let by = point(r, reals).map(|number| 0.5 * number);
    moved(&body, 0.5 + r.share(), by)
}

/// The limit, subnormal numbers, both zeros.
pub fn limit(r: &mut Random) -> Pair {
    let kind = |r: &mut Random| r.pick(&[extremes as Kind, extremes, integers, tiniest]);
    let (kind_a, kind_b) = (kind(r), kind(r));
    (small_body(r, kind_a), small_body(r, kind_b))
}

/// The same solid twice: the same lists, or the same body otherwise numbered.
pub fn identical(r: &mut Random) -> Pair {
    let a = if r.once_in(2) { any_body(r) } else { pick_pair(r).0 };
    let b = if r.once_in(2) { a.clone() } else { mixed(r, &a) };
    (a, b)
}

/// Solids that touch in a facet, an edge or a vertex, or box on box.
pub fn touching(r: &mut Random) -> Pair {
    if r.once_in(3) {
        return block_on_block(r);
    }
    let kind = r.pick(&[integers as Kind, tenths, reals]);
    let a = small_body(r, kind);
    let mut points = points(r, kind, 4);
    let corners = a.facet(r.below(a.facets()));
    let common = 1 + r.below(3);
    corners[..common].iter().enumerate().for_each(|(at, &corner)| points[at] = a.point(corner));
    if r.once_in(2) {
        // The fourth vertex beyond the facet, away from A's first vertex.
        let middle = [0, 1, 2].map(|at| (points[0][at] + points[1][at] + points[2][at]) / 3.0);
        points[3] = on_the_way(a.point(0), middle, 2.0);
    }
    let b = mixed(r, &surface_over_four(&points));
    if r.once_in(2) {
        (a, b)
    } else {
        (b, a)
    }
}

fn surface_over_four(points: &[Point]) -> Solid {
    tetrahedron([points[0], points[1], points[2], points[3]])
}

fn block_on_block(r: &mut Random) -> Pair {
    let kind = r.pick(&[integers as Kind, tenths]);
    let (low, high) = (point(r, kind), point(r, kind));
    let axis = r.below(3);
    let (mut on_low, mut on_high) = (low, high);
    if r.once_in(2) {
        (on_low, on_high) = (point(r, kind), point(r, kind));
    }
    on_low[axis] = high[axis];
    on_high[axis] = high[axis] + kind(r);
    let (a, b) = (block(low, high), block(on_low, on_high));
    if r.once_in(2) {
        (a, b)
    } else {
        (b, a)
    }
}

/// Zero-area facets and duplicate vertices: few places for many vertices, all in a plane or
/// on a line, or facets twice, once each way round.
pub fn flat(r: &mut Random) -> Pair {
    (flat_body(r), if r.once_in(3) { any_body(r) } else { flat_body(r) })
}

fn flat_body(r: &mut Random) -> Solid {
    let kind = r.pick(&[few_integers as Kind, few_integers, tenths, zeros]);
    let vertices = 4 + r.below(5);
    let mut points = points(r, kind, vertices);
    match r.below(5) {
        0 => points.iter_mut().for_each(|point| point[2] = 1.0),
        1 => points.iter_mut().for_each(|point| point[2] = point[0]),
        2 => points.iter_mut().for_each(|point| *point = [point[0], 2.0 * point[0], -point[0]]),
        3 => return leaves(r, &points),
        _ => (0..vertices).for_each(|vertex| points[vertex] = points[r.below(vertex + 1).min(2)]),
    }
    let body = surface_over(r, &points);
    mixed(r, &body)
}

/// Facets without a body: each stands there once each way round.
fn leaves(r: &mut Random, points: &[Point]) -> Solid {
    let mut corners: Vec<u32> = Vec::new();
    for _ in 0..1 + r.below(4) {
        let mut vertices: Vec<u32> = (0..points.len() as u32).collect();
        r.shuffle(&mut vertices);
        corners.extend([
            vertices[0],
            vertices[1],
            vertices[2],
            vertices[2],
            vertices[1],
            vertices[0],
        ]);
    }
    Solid { corners, ..solid_of(points, &[]) }
}

/// Nothing, vertices without facets, and bodies with vertices that no facet uses.
pub fn empty(r: &mut Random) -> Pair {
    let (a, b) = (perhaps_nothing(r), perhaps_nothing(r));
    if r.once_in(3) {
        (a, any_body(r))
    } else if r.once_in(2) {
        (any_body(r), b)
    } else {
        (a, b)
    }
}

fn perhaps_nothing(r: &mut Random) -> Solid {
    let kind = r.pick(&[few_integers as Kind, zeros, reals]);
    let number = 1 + r.below(5);
    let unused = points(r, kind, number);
    match r.below(3) {
        0 => Solid::default(),
        1 => solid_of(&unused, &[]),
        _ => {
            let body = with_unused(&any_body(r), &unused);
            mixed(r, &body)
        }
    }
}

/// A pair of one of the small families, for those that make something else of it.
pub fn pick_pair(r: &mut Random) -> Pair {
    let makers: [fn(&mut Random) -> Pair; 8] =
        [ties, boxes, signed_zeros, sums, plain, limit, touching, flat];
    r.pick(&makers)(r)
}

fn solid_from(outcome: &Outcome) -> Solid {
    solid_of(&outcome.vertices, &outcome.triangles)
}

pub fn within_size(solid: &Solid) -> bool {
    solid.vertices() <= MOST_VERTICES && solid.facets() <= MOST_FACETS
}

/// A result used as A or B again, with another body or with one of those it came from.
pub fn again(r: &mut Random) -> Pair {
    let (a, b) = if r.once_in(3) { super::tight::by_an_ulp(r) } else { pick_pair(r) };
    let code = r.below(3) as u32;
    let made = operation(code, &a, &b, ample())
        .ok()
        .map(|outcome| solid_from(&outcome))
        .filter(within_size);
    let first = made.unwrap_or(a);
    let second = if r.once_in(2) { b } else { any_body(r) };
    if r.once_in(2) {
        (first, second)
    } else {
        (second, first)
    }
}

/// The largest sizes: 128 vertices, 256 facets; also vertices without facets, and grids.
pub fn largest(r: &mut Random) -> Pair {
    match r.below(24) {
        0 => (largest_body(r), largest_body(r)),
        1..=8 => (largest_body(r), small_body(r, reals)),
        9..=16 => (small_body(r, reals), largest_body(r)),
        17..=19 => {
            let (rows, columns) = (2 + r.below(2), 2 + r.below(2));
            super::rods::grid(r, rows, columns)
        }
        _ => (solid_of(&points(r, integers, MOST_VERTICES), &[]), any_body(r)),
    }
}

fn largest_body(r: &mut Random) -> Solid {
    let body = match r.below(4) {
        0 => torus(r, 8, 16),
        1 => ball(r, MOST_VERTICES),
        2 => {
            let vertices = 96 + r.below(33);
            let points = points(r, reals, vertices);
            sum_of_tetrahedra(r, &points, 64)
        }
        _ => {
            let parts: Vec<Solid> =
                (0..32).map(|_| tetrahedron([(); 4].map(|()| point(r, reals)))).collect();
            together(&parts)
        }
    };
    let scale = r.pick(&[1.0, 0.7, LIMIT / 2.0]);
    let by = point(r, reals).map(|number| 0.5 * scale * number);
    moved(&body, scale, by)
}
