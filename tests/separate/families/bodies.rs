//! Closed bodies from which the families make their pairs.

use super::numbers::{on_the_way, point, points, reals, Kind};
use super::random::Random;
use crate::admission::Solid;
use crate::crossings::Point;

type Corners = [u32; 3];

/// The facets of the sample table's tetrahedron T.
const TETRAHEDRON: [Corners; 4] = [[0, 2, 1], [0, 1, 3], [0, 3, 2], [1, 2, 3]];

pub fn solid_of(points: &[Point], facets: &[Corners]) -> Solid {
    Solid {
        points: points.iter().flatten().copied().collect(),
        corners: facets.iter().flatten().copied().collect(),
    }
}

fn facets_of(solid: &Solid) -> Vec<Corners> {
    (0..solid.facets()).map(|facet| solid.facet(facet).map(|corner| corner as u32)).collect()
}

pub fn points_of(solid: &Solid) -> Vec<Point> {
    (0..solid.vertices()).map(|vertex| solid.point(vertex)).collect()
}

pub fn tetrahedron(points: [Point; 4]) -> Solid {
    solid_of(&points, &TETRAHEDRON)
}

/// The sample table's tetrahedron T.
pub fn t() -> Solid {
    tetrahedron([[0.0, 0.0, 0.0], [4.0, 0.0, 0.0], [0.0, 4.0, 0.0], [0.0, 0.0, 4.0]])
}

/// The axis-aligned box between two points.
pub fn block(low: Point, high: Point) -> Solid {
    let corner = |bits: usize| {
        [0, 1, 2].map(|axis| if bits >> axis & 1 == 0 { low[axis] } else { high[axis] })
    };
    let points: Vec<Point> = (0..8).map(corner).collect();
    let facets = [
        [0, 2, 3],
        [0, 3, 1],
        [4, 5, 7],
        [4, 7, 6],
        [0, 1, 5],
        [0, 5, 4],
        [2, 6, 7],
        [2, 7, 3],
        [0, 4, 6],
        [0, 6, 2],
        [1, 3, 7],
        [1, 7, 5],
    ];
    solid_of(&points, &facets)
}

/// The facets of a closed surface over so many vertices, at least four: a tetrahedron, one of
/// whose facets is split by each further vertex. Also each vertex's facet.
fn split_facets(r: &mut Random, vertices: usize) -> (Vec<Corners>, Vec<Corners>) {
    let mut facets = TETRAHEDRON.to_vec();
    let mut split = Vec::new();
    for vertex in 4..vertices as u32 {
        let at = r.below(facets.len());
        let [p, q, s] = facets[at];
        split.push(facets[at]);
        facets[at] = [p, q, vertex];
        facets.extend([[q, s, vertex], [s, p, vertex]]);
    }
    (facets, split)
}

/// A closed surface over any points, at least four.
pub fn surface_over(r: &mut Random, points: &[Point]) -> Solid {
    let (facets, _) = split_facets(r, points.len());
    solid_of(points, &facets)
}

/// A body of a few vertices with this kind of coordinates, sometimes inside out.
pub fn small_body(r: &mut Random, kind: Kind) -> Solid {
    let vertices = r.pick(&[4, 4, 4, 5, 6, 8]);
    let points = points(r, kind, vertices);
    let body = surface_over(r, &points);
    mixed(r, &body)
}

/// A hull-like body: each further vertex stands on the unit sphere over the facet it splits.
pub fn ball(r: &mut Random, vertices: usize) -> Solid {
    let mut points = vec![[0.0, 0.0, -1.0], [0.9, 0.1, 0.4], [-0.5, 0.8, 0.3], [-0.4, -0.8, 0.4]];
    let (facets, split) = split_facets(r, vertices);
    for corners in split {
        let [p, q, s] = corners.map(|corner| points[corner as usize]);
        let over = on_the_way(on_the_way(p, q, 0.3 + 0.4 * r.share()), s, 0.2 + 0.3 * r.share());
        let size = (over[0] * over[0] + over[1] * over[1] + over[2] * over[2]).sqrt();
        points.push(over.map(|number| number / size));
    }
    turned(r, &solid_of(&points, &facets))
}

/// The place on the unit circle at this part of the way round, from 0 to below 1.
fn on_circle(part: f64) -> (f64, f64) {
    let quarter = (4.0 * part) as usize;
    let t = 4.0 * part - quarter as f64;
    let (c, s) = ((1.0 - t * t) / (1.0 + t * t), 2.0 * t / (1.0 + t * t));
    [(c, s), (-s, c), (-c, -s), (s, -c)][quarter % 4]
}

/// A torus of m times n vertices and twice as many facets, m and n at least three.
pub fn torus(r: &mut Random, m: usize, n: usize) -> Solid {
    let thick = 0.2 + 0.3 * r.share();
    let mut points = Vec::new();
    let mut facets = Vec::new();
    for (i, j) in (0..m).flat_map(|i| (0..n).map(move |j| (i, j))) {
        let (c, s) = on_circle(i as f64 / m as f64);
        let (across, up) = on_circle(j as f64 / n as f64);
        points.push([c * (1.0 + thick * across), s * (1.0 + thick * across), thick * up]);
        let at = |i: usize, j: usize| (i % m * n + j % n) as u32;
        facets.push([at(i, j), at(i + 1, j), at(i + 1, j + 1)]);
        facets.push([at(i, j), at(i + 1, j + 1), at(i, j + 1)]);
    }
    turned(r, &solid_of(&points, &facets))
}

/// Tetrahedra over shared vertices, each either way round, some more than once: such a solid
/// may contain a point twice or -1 times.
pub fn sum_of_tetrahedra(r: &mut Random, points: &[Point], number: usize) -> Solid {
    let mut facets: Vec<Corners> = Vec::new();
    let mut vertices: Vec<u32> = (0..points.len() as u32).collect();
    for _ in 0..number {
        if !r.once_in(3) {
            r.shuffle(&mut vertices);
        }
        facets.extend(TETRAHEDRON.map(|corners| corners.map(|corner| vertices[corner as usize])));
    }
    solid_of(points, &facets)
}

/// Solids laid side by side in one.
pub fn together(parts: &[Solid]) -> Solid {
    let mut whole = Solid::default();
    for part in parts {
        let shift = whole.vertices() as u32;
        whole.points.extend(&part.points);
        whole.corners.extend(part.corners.iter().map(|corner| corner + shift));
    }
    whole
}

/// The same body with its facets in another order and begun at other corners, its vertices
/// numbered otherwise, and sometimes inside out.
pub fn mixed(r: &mut Random, solid: &Solid) -> Solid {
    let mut old: Vec<usize> = (0..solid.vertices()).collect();
    r.shuffle(&mut old);
    let points: Vec<Point> = old.iter().map(|&vertex| solid.point(vertex)).collect();
    let mut new = vec![0; old.len()];
    old.iter().enumerate().for_each(|(number, &vertex)| new[vertex] = number as u32);
    let mut facets = facets_of(solid);
    r.shuffle(&mut facets);
    let inside_out = r.once_in(4);
    for facet in &mut facets {
        *facet = facet.map(|corner| new[corner as usize]);
        facet.rotate_left(r.below(3));
        if inside_out {
            facet.reverse();
        }
    }
    solid_of(&points, &facets)
}

/// The same body with each coordinate changed.
pub fn changed(solid: &Solid, mut change: impl FnMut(usize, f64) -> f64) -> Solid {
    let points = solid.points.iter().enumerate().map(|(at, &number)| change(at % 3, number));
    Solid { points: points.collect(), corners: solid.corners.clone() }
}

pub fn moved(solid: &Solid, scale: f64, by: Point) -> Solid {
    changed(solid, |axis, number| scale * number + by[axis])
}

/// The body turned about a random axis, by a random unit quaternion.
fn turned(r: &mut Random, solid: &Solid) -> Solid {
    let [a, b, c, d] = [reals(r), reals(r), reals(r), reals(r) + 1.5];
    let size = a * a + b * b + c * c + d * d;
    let rows = [
        [d * d + a * a - b * b - c * c, 2.0 * (a * b - c * d), 2.0 * (a * c + b * d)],
        [2.0 * (a * b + c * d), d * d + b * b - a * a - c * c, 2.0 * (b * c - a * d)],
        [2.0 * (a * c - b * d), 2.0 * (b * c + a * d), d * d + c * c - a * a - b * b],
    ];
    let turn = |[x, y, z]: Point| rows.map(|row| (row[0] * x + row[1] * y + row[2] * z) / size);
    solid_of(&points_of(solid).into_iter().map(turn).collect::<Vec<_>>(), &facets_of(solid))
}

/// The body with this many vertices more, used by no facet.
pub fn with_unused(solid: &Solid, unused: &[Point]) -> Solid {
    let mut solid = solid.clone();
    solid.points.extend(unused.iter().flatten());
    solid
}

/// A body with coordinates of one of the usual kinds.
pub fn any_body(r: &mut Random) -> Solid {
    use super::numbers::{few_integers, integers, tenths, thirds};
    let kind = r.pick(&[few_integers as Kind, integers, tenths, thirds, reals]);
    match r.below(4) {
        0 => {
            let [low, high] = [point(r, kind), point(r, kind)];
            block(low, high)
        }
        1 => {
            let vertices = 5 + r.below(10);
            ball(r, vertices)
        }
        _ => small_body(r, kind),
    }
}
