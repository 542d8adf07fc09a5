//! Pairs of solids that are tight: apart by an ulp, vertices on the other's edges and facets,
//! and slivers. Rounding decides in them.

use super::bodies::*;
use super::numbers::*;
use super::pairs::Pair;
use super::random::Random;
use crate::admission::Solid;
use crate::crossings::{edge_edge, edge_facet, vertex_facet, Edge, Facet, HalfEdge, Point};

/// A body and the same body with its coordinates moved by an ulp: nearly coincident.
pub fn by_an_ulp(r: &mut Random) -> Pair {
    let a = any_body(r);
    let shift = r.pick(&[f64::EPSILON, -f64::EPSILON, f64::EPSILON / 2.0, 1e-12]);
    let axes = 1 + r.below(7);
    let how = r.below(4);
    let b = changed(&a, |axis, number| match how {
        0 if axes >> axis & 1 == 1 => number + shift,
        1 if axes >> axis & 1 == 1 => ulps(number, 1),
        2 => beside(r, number, 1),
        3 if r.once_in(4) => beside(r, number, 2),
        _ => number,
    });
    let b = if r.once_in(3) { mixed(r, &b) } else { b };
    if r.once_in(2) {
        (a, b)
    } else {
        (b, a)
    }
}

/// Vertices of one solid on the other's edges and facets, within an ulp: the interpolated
/// numbers run over their ends, so that p is taken.
pub fn incident(r: &mut Random) -> Pair {
    let kind = r.pick(&[reals as Kind, reals, tenths, thirds, extremes]);
    let a = small_body(r, kind);
    let number = r.pick(&[4, 4, 5, 6]);
    let points: Vec<Point> = (0..number)
        .map(|_| if r.once_in(4) { point(r, kind) } else { beside_facet(r, &a) })
        .collect();
    let b = surface_over(r, &points);
    let b = mixed(r, &b);
    if r.once_in(2) {
        (a, b)
    } else {
        (b, a)
    }
}

/// A point on an edge or a facet of the body, or an ulp beside.
fn beside_facet(r: &mut Random, body: &Solid) -> Point {
    let [p, q, s] = body.facet(r.below(body.facets())).map(|corner| body.point(corner));
    let any = r.share();
    let share = r.pick(&[0.5, any, any, 0.0, 1e-16, 1e-9, ulps(1.0, -1), ulps(1.0, -1)]);
    let on_edge = on_the_way(p, q, share);
    let on = if r.once_in(2) { on_edge } else { on_the_way(on_edge, s, r.share()) };
    on.map(|number| if r.once_in(2) { beside(r, number, 1) } else { number })
}

/// How many slivers are tried, seen from above, and how many heights for each.
const TRIES: usize = 400;
const HEIGHTS: usize = 40;

/// Five points along a line, in this order: p, s, r, e, q. A sliver is the facet p,r,q with
/// the edge from s to e almost along it.
type Sliver = [Point; 5];

fn edge_of([_, s, _, e, _]: Sliver) -> Edge {
    Edge { start: s, end: e }
}

fn facet_of([p, _, r, _, q]: Sliver) -> Facet {
    let half_edge = |start, end, along| HalfEdge { edge: Edge { start, end }, along };
    [half_edge(p, r, true), half_edge(r, q, true), half_edge(p, q, false)]
}

/// Long thin facets with an edge almost along them. Slivers are tried until the edge crosses
/// the facet twice by rounding, or at least has more than two lower crossings with it, so that
/// it matters which plus and which minus are taken.
pub fn slivers(r: &mut Random) -> Pair {
    let twice = r.once_in(2);
    let [p, s, t, e, q] = some_sliver(r, twice);
    let kind = r.pick(&[reals as Kind, few_integers]);
    let with_edge = tetrahedron([s, e, point(r, kind), point(r, kind)]);
    let with_facet = tetrahedron([p, t, q, point(r, kind)]);
    let (a, b) = (mixed(r, &with_edge), mixed(r, &with_facet));
    if r.once_in(2) {
        return (a, b);
    }
    // "B at least A" stays as it is when A and B change places and all signs are changed.
    let negated = |solid| changed(&solid, |_, number| -number);
    (negated(b), negated(a))
}

fn some_sliver(r: &mut Random, twice: bool) -> Sliver {
    let mut sliver = [[0.0; 3]; 5];
    for _ in 0..TRIES {
        let shares = shares(r);
        sliver = seen_from_above(r, shares);
        if lower_crossings(sliver) <= 2 {
            continue;
        }
        for _ in 0..HEIGHTS {
            // An edge crosses twice only where the heights lie on a line as well.
            let (on_line, up) = (twice || r.once_in(2), reals(r));
            (0..5).for_each(|at| sliver[at][2] = if on_line { shares[at] * up } else { reals(r) });
            match edge_facet(&edge_of(sliver), &facet_of(sliver)).count().abs() {
                0 => {}
                1 if twice => {}
                _ => return sliver,
            }
        }
    }
    sliver
}

/// Where the five points stand along the line: in order, the middle one near 0.
fn shares(r: &mut Random) -> [f64; 5] {
    let mut shares = [(); 5].map(|()| reals(r));
    shares.sort_by(f64::total_cmp);
    let middle = shares[2];
    shares = shares.map(|share| share - middle);
    shares[2] = 1e-16 * reals(r);
    shares
}

/// The five points seen from above: on a line through the origin or close to it, or an ulp
/// beside. Close to the origin, numbers lie closer together than interpolation is exact.
fn seen_from_above(r: &mut Random, shares: [f64; 5]) -> Sliver {
    let along = [reals(r), reals(r)];
    let aside = r.pick(&[0.0, 0.0, 0.0, 1e-16, 1e-3]);
    let base = [aside * reals(r), aside * reals(r)];
    shares.map(|share| {
        let [x, y] = [0, 1].map(|at| base[at] + share * along[at]);
        [x, beside(r, y, 1), 0.0]
    })
}

/// How many lower pairings of a sliver's edge and facet cross. Heights have no part in it.
fn lower_crossings(sliver: Sliver) -> usize {
    let (edge, facet) = (edge_of(sliver), facet_of(sliver));
    let in_facet = |end: &&Point| vertex_facet(**end, &facet).count() != 0;
    let crossed = |half_edge: &&HalfEdge| edge_edge(&edge, &half_edge.edge).count() != 0;
    [edge.start, edge.end].iter().filter(in_facet).count() + facet.iter().filter(crossed).count()
}
