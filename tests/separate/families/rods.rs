//! Grids of crossing rods: pairs whose results are as large as is asked for.

use super::ample;
use super::bodies::*;
use super::numbers::reals;
use super::pairs::Pair;
use super::random::Random;
use crate::admission::{Solid, MOST_FACETS, MOST_VERTICES};
use crate::result::operation;

/// A rod along x (axis 0) or y (axis 1) at this place on the other axis, at this height.
fn rod(r: &mut Random, axis: usize, place: f64, height: f64) -> Solid {
    let mut low = [-1.0, -1.0, height].map(|number| number + 0.1 * reals(r));
    let mut high = [20.0, 20.0, height + 0.5].map(|number| number + 0.1 * reals(r));
    low[1 - axis] = place + 0.1 * reals(r);
    high[1 - axis] = low[1 - axis] + 0.3 + 0.1 * reals(r);
    block(low, high)
}

/// Rods along x as A, and rods along y as B, each through all of the others.
pub fn grid(r: &mut Random, rows: usize, columns: usize) -> Pair {
    let a: Vec<Solid> = (0..rows).map(|row| rod(r, 0, row as f64, 0.0)).collect();
    let b: Vec<Solid> = (0..columns).map(|column| rod(r, 1, column as f64, 0.0)).collect();
    (together(&a), together(&b))
}

/// Needles along x as A, and needles along y as B, each through all of the others.
fn crossing_needles(r: &mut Random, rows: usize, columns: usize, times: usize) -> Pair {
    let a: Vec<Solid> = (0..rows).map(|row| needle(r, 0, row, times)).collect();
    let b: Vec<Solid> = (0..columns).map(|column| needle(r, 1, column, times)).collect();
    (together(&a), together(&b))
}

/// Edges that many facets cross, those of A and those of B, and more crossings in all than a short
/// list of them holds.
pub fn crossed(r: &mut Random) -> Pair {
    let (rows, columns) = r.pick(&[(1, 30), (30, 1), (2, 24), (24, 2), (13, 13), (20, 20)]);
    crossing_needles(r, rows, columns, 1)
}

/// A long thin tetrahedron along an axis, so many times over the same vertices.
fn needle(r: &mut Random, axis: usize, at: usize, times: usize) -> Solid {
    let points = [(-60.0, -0.2, 0.0), (-60.0, 0.2, 0.0), (70.0, 0.0, -0.2), (70.0, 0.0, 0.2)].map(
        |(far, aside, up)| {
            let mut point = [far, far, up + 0.02 * reals(r)];
            point[1 - axis] = at as f64 + aside + 0.02 * reals(r);
            point
        },
    );
    let once = tetrahedron(points);
    Solid { corners: once.corners.repeat(times), ..once }
}

/// Needles whose union has exactly these numbers of vertices and triangles: both solids get
/// vertices that no facet uses, and A gets facets twice, once each way round, all far away.
pub fn sized(r: &mut Random, vertices: usize, triangles: usize) -> Pair {
    loop {
        let (rows, columns) = r.pick(&[(3, 9), (4, 7), (4, 8), (3, 10)]);
        let (a, b) = crossing_needles(r, rows, columns, 1);
        let Ok(outcome) = operation(0, &a, &b, ample()) else { continue };
        let (Some(unused), Some(leaves)) = (
            vertices.checked_sub(outcome.vertices.len()),
            triangles.checked_sub(outcome.triangles.len()),
        ) else {
            continue;
        };
        let in_a = unused.min(MOST_VERTICES - a.vertices());
        if in_a >= 3
            && unused - in_a <= MOST_VERTICES - b.vertices()
            && leaves <= MOST_FACETS - a.facets()
        {
            return (enlarged(&a, in_a, leaves / 2), enlarged(&b, unused - in_a, 0));
        }
    }
}

/// The solid with vertices that no facet uses, far away, and with the facet of the first three
/// of them so many times, each time once each way round.
fn enlarged(solid: &Solid, unused: usize, leaves: usize) -> Solid {
    let first = solid.vertices() as u32;
    let far: Vec<[f64; 3]> = (0..unused).map(|number| [500.0, number as f64, 500.0]).collect();
    let mut solid = with_unused(solid, &far);
    (0..leaves).for_each(|_| solid.corners.extend([0, 1, 2, 0, 2, 1].map(|corner| first + corner)));
    solid
}

/// Crossing needles, each several times over: results above 16,384 vertices or 65,536
/// triangles, or not far below.
pub fn needles(r: &mut Random) -> Pair {
    let (number, times) = r.pick(&[(16, 2), (20, 2), (32, 2), (6, 8), (6, 8), (7, 8)]);
    crossing_needles(r, number, number, times)
}
