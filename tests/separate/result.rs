//! The result of an operation: inclusion, vertices, composite edges, boundaries, triangles and
//! origins (document 000, section 2.5), and the part of a corner list that an origin shows.

use crate::admission::{admitted, check, Answer, Body, Refusal, Side, Solid, Who};
use crate::crossings::{Crossing, Point};
use crate::pairings::{each, Pairings};
use crate::slips::{slip, Slip};

/// The lengths of the lent lists: coordinates, corners, origins.
#[derive(Clone, Copy)]
pub struct Room {
    pub coordinates: usize,
    pub corners: usize,
    pub origins: usize,
}

/// What an operation answers: vertices, triangles, and the origin of each triangle.
#[derive(Default)]
pub struct Outcome {
    pub vertices: Vec<Point>,
    pub triangles: Vec<[u32; 3]>,
    pub origins: Vec<u32>,
}

/// "Each operation has three fixed numbers, cA, cB, cI."
#[derive(Clone, Copy)]
struct Operation {
    c_a: i64,
    c_b: i64,
    c_i: i64,
}

const UNION: Operation = Operation { c_a: 1, c_b: 1, c_i: -1 };
const INTERSECTION: Operation = Operation { c_a: 0, c_b: 0, c_i: 1 };
const DIFFERENCE: Operation = Operation { c_a: 1, c_b: 0, c_i: -1 };

fn operation_by(code: u32) -> Answer<Operation> {
    match code {
        0 => Ok(UNION),
        1 => Ok(INTERSECTION),
        2 if slip() == Slip::DifferenceSign => Ok(Operation { c_i: 1, ..DIFFERENCE }),
        2 => Ok(DIFFERENCE),
        _ => Err(Refusal::on_nobody(7)),
    }
}

/// "An operation checks 7, then A by 1 to 6, then B by 1 to 6, then 8."
pub fn operation(code: u32, a: &Solid, b: &Solid, room: Room) -> Answer<Outcome> {
    let who_b = if slip() == Slip::AForB { Who::A } else { Who::B };
    if slip() == Slip::CodeLast {
        check(a, Who::A).and(check(b, who_b))?;
    }
    let operation = operation_by(code)?;
    if slip() == Slip::OrderSwapped {
        check(b, who_b)?;
    }
    let (a, b) = (admitted(a, Who::A)?, admitted(b, who_b)?);
    let outcome = Making::new(operation, &a, &b).outcome();
    let short = 3 * outcome.vertices.len() > room.coordinates
        || 3 * outcome.triangles.len() > room.corners
        || (outcome.triangles.len() > room.origins && slip() != Slip::OriginsUnroomed);
    if short {
        Err(Refusal::on_nobody(8))
    } else {
        Ok(outcome)
    }
}

/// What may become a vertex of the result: its inclusion, and its number if that is not 0.
#[derive(Clone, Copy)]
struct Slot {
    inclusion: i64,
    number: u32,
}

/// A vertex of a composite edge with its signed end count.
struct End {
    number: u32,
    count: i64,
}

/// A piece of a composite edge, from a start to an end.
type Piece = (u32, u32);

fn turned((start, end): Piece) -> Piece {
    (end, start)
}

/// A result in the making.
struct Making<'s> {
    a: &'s Body,
    b: &'s Body,
    vertices: Vec<Point>,
    a_vertices: Vec<Slot>,
    /// By edge of A, then facet of B.
    edge_facet: Vec<Slot>,
    /// By facet of A, then edge of B.
    facet_edge: Vec<Slot>,
    b_vertices: Vec<Slot>,
}

impl<'s> Making<'s> {
    /// The vertices of the result, in their order.
    fn new(operation: Operation, a: &'s Body, b: &'s Body) -> Making<'s> {
        let Operation { c_a, c_b, c_i } = operation;
        let pairings = Pairings::of(a, b);
        let mut vertices = Vec::new();
        let mut keep = |inclusion, point| keep(&mut vertices, inclusion, point);
        let inclusion_a = |vertex| {
            if dropped(a, vertex) {
                0
            } else {
                c_a + c_i * pairings.contained_in_b(vertex)
            }
        };
        let a_vertices =
            (0..a.points.len()).map(|vertex| keep(inclusion_a(vertex), a.points[vertex])).collect();
        let mut crossed = |crossing| match crossing {
            Crossing::Miss => keep(0, [0.0; 3]),
            Crossing::Cross { count, points } => keep(c_i * count, new_vertex(points.a, points.b)),
        };
        let edge_facet = each(a.edges.len(), b.facets.len())
            .map(|(e, f)| crossed(pairings.edge_facet(e, f)))
            .collect();
        let facet_edge = each(a.facets.len(), b.edges.len())
            .map(|(f, e)| crossed(pairings.facet_edge(f, e)))
            .collect();
        let inclusion_b = |vertex| c_b + c_i * pairings.contained_in_a(vertex);
        let b_vertices =
            (0..b.points.len()).map(|vertex| keep(inclusion_b(vertex), b.points[vertex])).collect();
        Making { a, b, vertices, a_vertices, edge_facet, facet_edge, b_vertices }
    }

    /// Edge of A: start (minus its inclusion), end (its inclusion), then crossings by facet of B.
    fn pieces_of_a(&self, edge: usize) -> Vec<Piece> {
        let [start, end] = self.a.edge_ends[edge];
        let width = self.b.facets.len();
        let mut ends = vec![end_of(-1, self.a_vertices[start]), end_of(1, self.a_vertices[end])];
        ends.extend(self.edge_facet[edge * width..][..width].iter().map(|&slot| end_of(1, slot)));
        joined(&ends)
    }

    /// Edge of B: start (minus), end (plus), then crossings by facet of A.
    fn pieces_of_b(&self, edge: usize) -> Vec<Piece> {
        let [start, end] = self.b.edge_ends[edge];
        let width = self.b.edges.len();
        let mut ends = vec![end_of(-1, self.b_vertices[start]), end_of(1, self.b_vertices[end])];
        ends.extend(
            (0..self.a.facets.len()).map(|facet| end_of(1, self.facet_edge[facet * width + edge])),
        );
        if slip() == Slip::CrossingsFirst {
            ends.rotate_left(2);
        }
        joined(&ends)
    }

    /// Facet of A with facet of B: A's three half-edges (minus the inclusion with B's facet,
    /// signed as half-edges), then B's three (the inclusion with A's facet, signed so).
    fn pieces_of_pair(&self, facet_a: usize, facet_b: usize) -> Vec<Piece> {
        let sign = |side: Side| if side.along { 1 } else { -1 };
        let of_a = self.a.sides[facet_a].map(|side| {
            end_of(-sign(side), self.edge_facet[side.edge * self.b.facets.len() + facet_b])
        });
        let of_b = self.b.sides[facet_b].map(|side| {
            end_of(sign(side), self.facet_edge[facet_a * self.b.edges.len() + side.edge])
        });
        let [a, b, c] = of_a;
        let [d, e, f] = of_b;
        joined(&[a, b, c, d, e, f])
    }

    /// A's facets come first, then B's; with every triangle goes its origin.
    fn outcome(self) -> Outcome {
        let (a, b) = (self.a, self.b);
        let of_a: Vec<Vec<Piece>> = (0..a.edges.len()).map(|edge| self.pieces_of_a(edge)).collect();
        let of_b: Vec<Vec<Piece>> = (0..b.edges.len()).map(|edge| self.pieces_of_b(edge)).collect();
        let pairs = each(a.facets.len(), b.facets.len());
        let of_pairs: Vec<Vec<Piece>> = pairs.map(|(f, g)| self.pieces_of_pair(f, g)).collect();
        let width = b.facets.len();
        let mut outcome = Outcome::default();
        for facet in 0..a.facets.len() {
            let mut boundary = pieces_of_sides(&a.sides[facet], &of_a);
            boundary.extend(of_pairs[facet * width..][..width].iter().flatten());
            fan(&boundary, facet, &mut outcome);
        }
        for facet in 0..b.facets.len() {
            let with_a = (0..a.facets.len()).flat_map(|other| &of_pairs[other * width + facet]);
            let turn = |&piece| if slip() == Slip::NotTurned { piece } else { turned(piece) };
            let mut boundary: Vec<Piece> = with_a.map(turn).collect();
            boundary.extend(pieces_of_sides(&b.sides[facet], &of_b));
            let shift = if slip() == Slip::OriginsUnshifted { 0 } else { a.facets.len() };
            fan(&boundary, shift + facet, &mut outcome);
        }
        outcome.vertices = self.vertices;
        outcome
    }
}

/// "Vertices used by no facet are allowed": they are kept like any other.
fn dropped(a: &Body, vertex: usize) -> bool {
    slip() == Slip::UnusedDropped && a.edge_ends.iter().all(|ends| !ends.contains(&vertex))
}

/// "A new vertex in a result is A's point."
fn new_vertex(a: Point, b: Point) -> Point {
    if slip() == Slip::BPoint {
        b
    } else {
        a
    }
}

/// "Each only if its inclusion is not 0, copied once." Equal vertices stay apart.
fn keep(vertices: &mut Vec<Point>, inclusion: i64, point: Point) -> Slot {
    if inclusion == 0 {
        return Slot { inclusion, number: 0 };
    }
    if slip() == Slip::EqualMerged {
        if let Some(number) = vertices.iter().position(|other| *other == point) {
            return Slot { inclusion, number: number as u32 };
        }
    }
    vertices.push(point);
    Slot { inclusion, number: vertices.len() as u32 - 1 }
}

fn end_of(sign: i64, slot: Slot) -> End {
    End { number: slot.number, count: sign * slot.inclusion }
}

/// "A count n above 0 is n ends, below 0 it is that many starts. The first start is joined to
/// the first end, and so on." There are as many starts as ends: document 000, Theorem 2.
fn joined(ends: &[End]) -> Vec<Piece> {
    if ends.iter().all(|end| end.count == 0) {
        return Vec::new();
    }
    let times = |sign: i64| {
        let counted = ends.iter().filter(move |end| sign * end.count > 0);
        counted.flat_map(|end| (0..end.count.abs()).map(move |_| end.number))
    };
    let mut finish: Vec<u32> = times(1).collect();
    if slip() == Slip::JoinReversed {
        finish.reverse();
    }
    times(-1).zip(finish).collect()
}

/// "A half-edge against its edge has each piece turned round, in the same order."
fn pieces_of_sides(sides: &[Side; 3], of_edges: &[Vec<Piece>]) -> Vec<Piece> {
    let mut pieces = Vec::new();
    for side in sides {
        let of_edge = of_edges[side.edge].iter();
        match (side.along, slip()) {
            (true, _) => pieces.extend(of_edge),
            (false, Slip::AgainstReversed) => {
                pieces.extend(of_edge.rev().map(|&piece| turned(piece)))
            }
            (false, _) => pieces.extend(of_edge.map(|&piece| turned(piece))),
        }
    }
    pieces
}

/// "Let a be the smallest result number on that boundary; each boundary half-edge p→q, in
/// order, without a at either end gives the triangle a,p,q."
fn fan(boundary: &[Piece], origin: usize, outcome: &mut Outcome) {
    let numbers = boundary.iter().flat_map(|&(p, q)| [p, q]);
    let apex = if slip() == Slip::FirstApex {
        boundary.first().map(|piece| piece.0)
    } else {
        numbers.min()
    };
    let Some(a) = apex else { return };
    for &(p, q) in boundary.iter().filter(|&&(p, q)| p != a && q != a) {
        outcome.triangles.push([a, p, q]);
        outcome.origins.push(origin as u32);
    }
}

/// "The part of A's or of B's own corner list that holds that facet; an origin beyond both
/// (facet counts rounded down) shows the empty front of A's."
pub fn shown<'l>(a: &'l [u32], b: &'l [u32], origin: u32) -> &'l [u32] {
    let origin = origin as usize;
    let facets_a = if slip() == Slip::ShownUp { a.len().div_ceil(3) } else { a.len() / 3 };
    let facets_b = b.len() / 3;
    if origin < a.len() / 3 {
        &a[3 * origin..][..3]
    } else if origin >= facets_a && origin - facets_a < facets_b {
        &b[3 * (origin - facets_a)..][..3]
    } else {
        &a[..0]
    }
}
