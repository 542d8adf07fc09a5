//! Crossing counts and points: document 000's Table 1 and equations 1 to 6 as document 01
//! writes them, on bare points, edges and facets.

use crate::slips::{slip, Slip};
use crate::tally;

/// A point is three f64 numbers: head, flow and output, called x, y, z.
pub type Point = [f64; 3];

pub const HEAD: usize = 0;
const FLOW: usize = 1;
pub const OUTPUT: usize = 2;

/// An edge runs from its start to its end.
#[derive(Clone, Copy)]
pub struct Edge {
    pub start: Point,
    pub end: Point,
}

/// A half-edge of a facet: its edge, and whether it runs along it or against it.
#[derive(Clone, Copy)]
pub struct HalfEdge {
    pub edge: Edge,
    pub along: bool,
}

/// A facet: its three half-edges as stored.
pub type Facet = [HalfEdge; 3];

/// Two points, one on each thing.
#[derive(Clone, Copy, PartialEq)]
pub struct PointPair {
    pub a: Point,
    pub b: Point,
}

/// "A pairing either misses, or crosses with its count and two points, one on each thing."
#[derive(Clone, Copy)]
pub enum Crossing {
    Miss,
    Cross { count: i64, points: PointPair },
}

impl PointPair {
    /// The only test there is: B's coordinate is at least A's.
    fn at_least(&self, coordinate: usize) -> bool {
        if slip() == Slip::StrictTest {
            return self.b[coordinate] > self.a[coordinate];
        }
        self.b[coordinate] >= self.a[coordinate]
    }

    /// D+ or D-: B's coordinate less A's.
    fn less(&self, coordinate: usize) -> f64 {
        self.b[coordinate] - self.a[coordinate]
    }
}

impl Crossing {
    /// X.
    pub fn count(&self) -> i64 {
        match self {
            Crossing::Miss => 0,
            Crossing::Cross { count, .. } => *count,
        }
    }

    pub fn points(&self) -> Option<PointPair> {
        match self {
            Crossing::Miss => None,
            Crossing::Cross { points, .. } => Some(*points),
        }
    }

    /// "S equals X if X is not 0 and B's coordinate at the pair of points is at least A's;
    /// otherwise S is 0."
    pub fn s(&self, coordinate: usize) -> i64 {
        match self {
            Crossing::Cross { count, points } if points.at_least(coordinate) => *count,
            _ => 0,
        }
    }

    /// "A half-edge against its edge has the negated value and the same points."
    pub fn of_half_edge(self, along: bool) -> Crossing {
        match self {
            Crossing::Cross { count, points } if !along => {
                Crossing::Cross { count: -count, points }
            }
            same => same,
        }
    }
}

/// A lower pairing with its sign in the sum for X.
struct Lower {
    sign: i64,
    crossing: Crossing,
}

fn added(crossing: Crossing) -> Lower {
    Lower { sign: 1, crossing }
}

fn taken(crossing: Crossing) -> Lower {
    Lower { sign: -1, crossing }
}

/// The sum of S over lower pairings, each with its sign.
fn signed_sum(lower: &[Lower], coordinate: usize) -> i64 {
    lower.iter().map(|lower| lower.sign * lower.crossing.s(coordinate)).sum()
}

/// The crossing that the lower pairings make: those of A's parts first, then those of B's.
/// The coordinate is the one that S uses for the lower pairings.
fn from_lower(of_a: &[Lower], of_b: &[Lower], coordinate: usize) -> Crossing {
    let count = signed_sum(of_a, coordinate) + signed_sum(of_b, coordinate);
    if count == 0 {
        return Crossing::Miss;
    }
    match plus_and_minus(of_a, of_b, coordinate) {
        Some((plus, minus)) => {
            Crossing::Cross { count, points: interpolated(plus, minus, coordinate) }
        }
        // Never without a slip: document 000, Theorem 1.
        None => Crossing::Miss,
    }
}

/// "Among the lower pairings that have X not 0, take the first with B at least A (plus) and
/// the first with B below A (minus)."
fn plus_and_minus(
    of_a: &[Lower],
    of_b: &[Lower],
    coordinate: usize,
) -> Option<(PointPair, PointPair)> {
    let (first, then) = if slip() == Slip::BFirst { (of_b, of_a) } else { (of_a, of_b) };
    let crossed = first.iter().chain(then).filter_map(|lower| lower.crossing.points());
    let mut plus = crossed.clone().filter(|points| points.at_least(coordinate));
    let mut minus = crossed.filter(|points| !points.at_least(coordinate));
    let plus = if slip() == Slip::LastPlus { plus.next_back() } else { plus.next() };
    let minus = if slip() == Slip::LastMinus { minus.next_back() } else { minus.next() };
    Some((plus?, minus?))
}

/// "With D+ and D- as B's coordinate less A's at plus and at minus, t = D+ / (D+ - D-)."
fn interpolated(plus: PointPair, minus: PointPair, coordinate: usize) -> PointPair {
    if slip() == Slip::FromMinus {
        let t = minus.less(coordinate) / (minus.less(coordinate) - plus.less(coordinate));
        return PointPair { a: point_at(t, minus.a, plus.a), b: point_at(t, minus.b, plus.b) };
    }
    let t = plus.less(coordinate) / (plus.less(coordinate) - minus.less(coordinate));
    PointPair { a: point_at(t, plus.a, minus.a), b: point_at(t, plus.b, minus.b) }
}

fn point_at(t: f64, plus: Point, minus: Point) -> Point {
    if slip() == Slip::VertexShortcut && plus.map(f64::to_bits) == minus.map(f64::to_bits) {
        return plus;
    }
    std::array::from_fn(|coordinate| {
        held(number_at(t, plus[coordinate], minus[coordinate]), plus[coordinate], minus[coordinate])
    })
}

/// "Each coordinate of A's point is p - t*(p - m)." Each operation is rounded once to f64.
fn number_at(t: f64, p: f64, m: f64) -> f64 {
    match slip() {
        Slip::PlusTimes => p + t * (m - p),
        Slip::Fused => (-t).mul_add(p - m, p),
        _ => p - t * (p - m),
    }
}

/// "If the number lies between p and m, ends included, it stands; otherwise p is taken."
fn held(number: f64, p: f64, m: f64) -> f64 {
    let mut between = (p <= number && number <= m) || (m <= number && number <= p);
    if slip() == Slip::ZeroBits {
        let (low, high) = if p.total_cmp(&m).is_le() { (p, m) } else { (m, p) };
        between = low.total_cmp(&number).is_le() && number.total_cmp(&high).is_le();
    }
    if between || slip() == Slip::NoHold {
        return number;
    }
    tally::held();
    if slip() == Slip::HoldAtMinus {
        m
    } else {
        p
    }
}

/// "Two vertices: X = 1, the points are the vertices."
pub fn vertex_vertex(a: Point, b: Point) -> Crossing {
    Crossing::Cross { count: 1, points: PointPair { a, b } }
}

/// X(vA,eB) = S(vA,e) - S(vA,s).
pub fn vertex_edge(a: Point, b: &Edge) -> Crossing {
    from_lower(&[], &[taken(vertex_vertex(a, b.start)), added(vertex_vertex(a, b.end))], HEAD)
}

/// X(eA,vB) = S(s,vB) - S(e,vB).
pub fn edge_vertex(a: &Edge, b: Point) -> Crossing {
    from_lower(&[added(vertex_vertex(a.start, b)), taken(vertex_vertex(a.end, b))], &[], HEAD)
}

/// X(vA,fB) = - sum S(vA,h), from the vertex with each half-edge.
pub fn vertex_facet_from(half_edges: [Crossing; 3]) -> Crossing {
    from_lower(&[], &half_edges.map(taken), FLOW)
}

pub fn vertex_facet(a: Point, b: &Facet) -> Crossing {
    vertex_facet_from(b.map(|h| vertex_edge(a, &h.edge).of_half_edge(h.along)))
}

/// X(fA,vB) = sum S(h,vB), from each half-edge with the vertex.
pub fn facet_vertex_from(half_edges: [Crossing; 3]) -> Crossing {
    from_lower(&half_edges.map(added), &[], FLOW)
}

pub fn facet_vertex(a: &Facet, b: Point) -> Crossing {
    facet_vertex_from(a.map(|h| edge_vertex(&h.edge, b).of_half_edge(h.along)))
}

/// X(eA,eB) = S(eA's e,eB) - S(eA's s,eB) + S(eA,eB's e) - S(eA,eB's s), from A's start and
/// end with the edge of B, and the edge of A with B's start and end.
pub fn edge_edge_from([s_a, e_a]: [Crossing; 2], [s_b, e_b]: [Crossing; 2]) -> Crossing {
    from_lower(&[taken(s_a), added(e_a)], &[taken(s_b), added(e_b)], FLOW)
}

pub fn edge_edge(a: &Edge, b: &Edge) -> Crossing {
    edge_edge_from(
        [a.start, a.end].map(|end| vertex_edge(end, b)),
        [b.start, b.end].map(|end| edge_vertex(a, end)),
    )
}

/// X(eA,fB) = S(s,fB) - S(e,fB) - sum S(eA,h), from A's start and end with the facet, and the
/// edge with each half-edge.
pub fn edge_facet_from([s, e]: [Crossing; 2], half_edges: [Crossing; 3]) -> Crossing {
    highest(&[added(s), taken(e)], &half_edges.map(taken))
}

pub fn edge_facet(a: &Edge, b: &Facet) -> Crossing {
    let half_edges = b.map(|h| edge_edge(a, &h.edge).of_half_edge(h.along));
    edge_facet_from([a.start, a.end].map(|end| vertex_facet(end, b)), half_edges)
}

/// X(fA,eB) = S(fA,e) - S(fA,s) - sum S(h,eB), from each half-edge with the edge, and the
/// facet with B's start and end.
pub fn facet_edge_from(half_edges: [Crossing; 3], [s, e]: [Crossing; 2]) -> Crossing {
    highest(&half_edges.map(taken), &[taken(s), added(e)])
}

/// An edge with a facet: as any other pairing, and noted in the tally.
fn highest(of_a: &[Lower], of_b: &[Lower]) -> Crossing {
    let crossing = from_lower(of_a, of_b, OUTPUT);
    if let Crossing::Cross { count, points } = crossing {
        let lower = of_a.iter().chain(of_b).filter(|lower| lower.crossing.count() != 0);
        tally::edge_facet(count, lower.count());
        if slip() == Slip::CrossingsCapped {
            return Crossing::Cross { count: count.clamp(-1, 1), points };
        }
    }
    crossing
}

/// X(vA,B) = sum S(vA,f), from the vertex with each facet: how often B contains the vertex.
pub fn contained_in_b(facets: impl Iterator<Item = Crossing>) -> i64 {
    capped(facets.map(|crossing| crossing.s(OUTPUT)).sum())
}

/// X(A,vB) = - sum S(f,vB), from each facet with the vertex: how often A contains the vertex.
pub fn contained_in_a(facets: impl Iterator<Item = Crossing>) -> i64 {
    capped(-facets.map(|crossing| crossing.s(OUTPUT)).sum::<i64>())
}

/// A count stands as it is: "a badly shaped solid may contain a point twice or -1 times".
fn capped(count: i64) -> i64 {
    tally::contained(count);
    if slip() == Slip::CountsCapped {
        count.min(1)
    } else {
        count
    }
}
