//! Solids as given, refusals, the checks on one solid in their order, and admitted solids with
//! their edges.

use crate::crossings::{Edge, Facet, HalfEdge, Point};
use crate::slips::{slip, Slip};

pub const MOST_VERTICES: usize = 128;
pub const MOST_FACETS: usize = 256;
pub const LIMIT: f64 = 1_048_576.0;

/// Which it was that is refused: A, B, the only solid, the point, or none of them.
#[derive(Clone, Copy, PartialEq, Eq, Debug)]
pub enum Who {
    A,
    B,
    OnlySolid,
    Point,
    Nobody,
}

/// A refusal's number, "which it was (A, B, the only solid, or the point) and a place".
#[derive(Clone, Copy, PartialEq, Eq, Debug)]
pub struct Refusal {
    pub number: u8,
    pub who: Who,
    pub place: usize,
}

impl Refusal {
    /// A refusal on no solid and no point. "Others carry place 0."
    pub fn on_nobody(number: u8) -> Refusal {
        if number == 8 && slip() == Slip::PlaceWithRoom {
            return Refusal { number, who: Who::OnlySolid, place: 1 };
        }
        Refusal { number, who: Who::Nobody, place: 0 }
    }
}

pub type Answer<T> = Result<T, Refusal>;

/// A solid as given: a list of coordinates and a list of corners, of any length.
#[derive(Clone, Default)]
pub struct Solid {
    pub points: Vec<f64>,
    pub corners: Vec<u32>,
}

impl Solid {
    pub fn vertices(&self) -> usize {
        self.points.len() / 3
    }

    pub fn facets(&self) -> usize {
        self.corners.len() / 3
    }

    pub fn point(&self, vertex: usize) -> Point {
        [self.points[3 * vertex], self.points[3 * vertex + 1], self.points[3 * vertex + 2]]
    }

    pub fn facet(&self, facet: usize) -> [usize; 3] {
        [0, 1, 2].map(|corner| self.corners[3 * facet + corner] as usize)
    }

    /// "A facet p,q,r has the half-edges p→q, q→r, r→p."
    fn half_edges_of(&self, facet: usize) -> [(usize, usize); 3] {
        let [p, q, r] = self.facet(facet);
        [(p, q), (q, r), (r, p)]
    }

    /// The half-edges of all facets.
    fn half_edges(&self) -> impl Iterator<Item = (usize, usize)> + '_ {
        (0..self.facets()).flat_map(move |facet| self.half_edges_of(facet))
    }
}

/// The first of the faults that are found.
fn first<T>(mut faults: impl Iterator<Item = T>) -> Option<T> {
    if slip() == Slip::LastFault {
        faults.last()
    } else {
        faults.next()
    }
}

/// Refuses if there is a place with the fault.
fn refuse_at(place: Option<usize>, number: u8, who: Who) -> Answer<()> {
    place.map_or(Ok(()), |place| Err(Refusal { number, who, place }))
}

/// Refuses a solid for its sizes, with place 0.
fn refuse_if(fault: bool, number: u8, who: Who) -> Answer<()> {
    let who = if slip() == Slip::SizesOnNobody { Who::Nobody } else { who };
    refuse_at(fault.then_some(0), number, who)
}

/// 1: a list's length is not a multiple of three.
fn check_lengths(solid: &Solid, who: Who) -> Answer<()> {
    refuse_if(solid.points.len() % 3 != 0 || solid.corners.len() % 3 != 0, 1, who)
}

/// 2: more than 128 vertices or 256 facets.
pub fn check_size(solid: &Solid, who: Who) -> Answer<()> {
    refuse_if(solid.vertices() > MOST_VERTICES || solid.facets() > MOST_FACETS, 2, who)
}

/// The first vertex with such a coordinate.
fn first_vertex(coordinates: &[f64], fault: fn(f64) -> bool) -> Option<usize> {
    let coordinate = first((0..coordinates.len()).filter(|&at| fault(coordinates[at])))?;
    Some(if slip() == Slip::CoordinateForVertex { coordinate } else { coordinate / 3 })
}

/// 3: some coordinate is a NaN (a blank).
fn check_blanks(coordinates: &[f64], who: Who) -> Answer<()> {
    refuse_at(first_vertex(coordinates, f64::is_nan), 3, who)
}

/// 4: some coordinate is above 1,048,576 or below -1,048,576, infinities included.
fn check_limit(coordinates: &[f64], who: Who) -> Answer<()> {
    let out_of_range = match slip() {
        Slip::LimitRefused => |number| number >= LIMIT || number <= -LIMIT,
        _ => |number| number > LIMIT || number < -LIMIT,
    };
    refuse_at(first_vertex(coordinates, out_of_range), 4, who)
}

/// 3, then 4: over all vertices of a solid, or for a point, which is one vertex.
pub fn check_coordinates(coordinates: &[f64], who: Who) -> Answer<()> {
    let limit = check_limit(coordinates, who);
    match (slip(), limit) {
        (Slip::BlankLimitSwapped, _) => limit?,
        (Slip::BlankLimitByVertex, Err(refusal)) => {
            check_blanks(&coordinates[..3 * refusal.place + 3], who).and(limit)?
        }
        _ => {}
    }
    check_blanks(coordinates, who)?;
    limit
}

/// 10: a corner number is not below the vertex count. 11: a facet names a vertex twice.
/// "A facet being tested for 10 first."
fn corner_fault(solid: &Solid, facet: usize) -> Option<u8> {
    let too_high = solid.facet(facet).iter().any(|&corner| corner >= solid.vertices());
    let twice = solid.half_edges_of(facet).iter().any(|(from, to)| from == to);
    match slip() {
        Slip::FiveKept if too_high || twice => Some(5),
        Slip::TwiceFirst if twice => Some(11),
        _ if too_high => Some(10),
        Slip::TwiceNamed => None,
        _ if twice => Some(11),
        _ => None,
    }
}

/// 10 and 11: "the lower facet number wins".
fn check_corners(solid: &Solid, who: Who) -> Answer<()> {
    let faults =
        || (0..solid.facets()).filter_map(|facet| Some((corner_fault(solid, facet)?, facet)));
    let mut fault = first(faults());
    if slip() == Slip::HighAnywhereFirst {
        fault = faults().find(|&(number, _)| number == 10).or(fault);
    }
    fault.map_or(Ok(()), |(number, facet)| refuse_at(Some(facet), number, who))
}

/// 6: for some P and Q the half-edges P→Q and Q→P differ in number. The place is "the first
/// facet with a half-edge whose two directions differ in number".
fn check_closed(solid: &Solid, who: Who) -> Answer<()> {
    let n = solid.vertices();
    let mut numbers = vec![0; n * n];
    solid.half_edges().for_each(|(from, to)| numbers[from * n + to] += 1);
    let differ = |&(from, to): &(usize, usize)| {
        let (there, back) = (numbers[from * n + to], numbers[to * n + from]);
        there > back || (there < back && slip() != Slip::SurplusOnly)
    };
    let place = match slip() {
        Slip::FacetOfReturn | Slip::LowestPair => {
            slipped_place(solid, solid.half_edges().filter(differ))
        }
        _ => first(
            (0..solid.facets()).filter(|&facet| solid.half_edges_of(facet).iter().any(differ)),
        ),
    };
    refuse_at(place, 6, who)
}

/// A wrong place for 6, from the half-edges whose two directions differ in number.
fn slipped_place(solid: &Solid, mut open: impl Iterator<Item = (usize, usize)>) -> Option<usize> {
    let facet_with = |half_edge| {
        (0..solid.facets()).find(|&facet| solid.half_edges_of(facet).contains(&half_edge))
    };
    if slip() == Slip::LowestPair {
        return facet_with(open.min_by_key(|&(from, to)| (from.min(to), from.max(to)))?);
    }
    let (from, to) = open.next()?;
    facet_with((to, from)).or(facet_with((from, to)))
}

/// "The solid with no vertices is admitted; it means nothing, and a blank does not."
fn taken_for_empty(solid: &Solid) -> bool {
    let blanks = || solid.points.iter().all(|number| number.is_nan());
    slip() == Slip::BlankIsEmpty && !solid.points.is_empty() && blanks()
}

/// The checks on one solid, in their order: 1, 2, 3, 4, 10 and 11, 6.
pub fn check(solid: &Solid, who: Who) -> Answer<()> {
    if taken_for_empty(solid) {
        return Ok(());
    }
    check_lengths(solid, who)?;
    check_size(solid, who)?;
    check_coordinates(&solid.points, who)?;
    check_corners(solid, who)?;
    check_closed(solid, who)
}

/// A half-edge of an admitted solid by its edge's number.
#[derive(Clone, Copy)]
pub struct Side {
    pub edge: usize,
    pub along: bool,
}

/// An admitted solid with its edges, which are ordered by lower, then higher number.
#[derive(Default)]
pub struct Body {
    pub points: Vec<Point>,
    /// Start and end of each edge, by vertex number and as a bare edge.
    pub edge_ends: Vec<[usize; 2]>,
    pub edges: Vec<Edge>,
    /// The half-edges of each facet, by edge number and as a bare facet.
    pub sides: Vec<[Side; 3]>,
    pub facets: Vec<Facet>,
}

/// The admitted solid, or its refusal.
pub fn admitted(solid: &Solid, who: Who) -> Answer<Body> {
    check(solid, who)?;
    if taken_for_empty(solid) {
        return Ok(Body::default());
    }
    let points: Vec<Point> = (0..solid.vertices()).map(|vertex| solid.point(vertex)).collect();
    let (edge_ends, numbers) = edges_of(solid);
    let edges: Vec<Edge> =
        edge_ends.iter().map(|&[s, e]| Edge { start: points[s], end: points[e] }).collect();
    let side = |from: usize, to: usize| {
        let edge = numbers[from * points.len() + to];
        Side { edge, along: edge_ends[edge] == [from, to] }
    };
    let sides: Vec<[Side; 3]> = (0..solid.facets())
        .map(|facet| solid.half_edges_of(facet).map(|(from, to)| side(from, to)))
        .collect();
    let bare = |side: Side| HalfEdge { edge: edges[side.edge], along: side.along };
    let facets = sides.iter().map(|sides| sides.map(bare)).collect();
    Ok(Body { points, edge_ends, edges, sides, facets })
}

/// The edges in their order, and a table that gives the edge's number for two vertices.
/// "An edge joins two vertices that some half-edge joins; it starts at the lower number."
fn edges_of(solid: &Solid) -> (Vec<[usize; 2]>, Vec<usize>) {
    let n = solid.vertices();
    let mut starts = vec![None; n * n];
    for (from, to) in solid.half_edges() {
        let (low, high) = (from.min(to), from.max(to));
        let start = if slip() == Slip::HalfEdgeOwnWay { from } else { low };
        starts[low * n + high].get_or_insert(start);
    }
    let mut edges = Vec::new();
    let mut numbers = vec![0; n * n];
    for low in 0..n {
        for high in low..n {
            if let Some(start) = starts[low * n + high] {
                numbers[low * n + high] = edges.len();
                numbers[high * n + low] = edges.len();
                edges.push([start, low + high - start]);
            }
        }
    }
    (edges, numbers)
}
