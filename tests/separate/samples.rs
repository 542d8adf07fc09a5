//! The sample table's cases P1 to P13. Those on bare vertices, edges and facets have no
//! request in the case language.

use crate::admission::Solid;
use crate::crossings::*;
use crate::families::t;
use crate::language::{answer, Request};
use crate::result::Room;

/// T's last facet, 1,2,3: its last half-edge runs against its edge.
fn last_facet() -> Facet {
    let half_edge = |start: usize, end: usize, along| HalfEdge {
        edge: Edge { start: t().point(start), end: t().point(end) },
        along,
    };
    [half_edge(1, 2, true), half_edge(2, 3, true), half_edge(1, 3, false)]
}

fn p1() -> bool {
    vertex_vertex([2.0, 7.0, -3.0], [2.0, -5.0, 8.0]).s(HEAD) == 1
}

fn p2() -> bool {
    let a = Edge { start: [0.0, 0.0, 0.0], end: [4.0, 3.0, 0.0] };
    let b = Edge { start: [-4.0, 3.0, 1.0], end: [4.0, 1.0, 1.0] };
    let crossing = edge_edge(&a, &b);
    let points = PointPair { a: [2.0, 1.5, 0.0], b: [2.0, 1.5, 1.0] };
    crossing.count() == -1 && crossing.points() == Some(points) && crossing.s(OUTPUT) == -1
}

/// How often T contains the point, as the case language answers.
fn contains(as_a: bool, point: Point, count: &str) -> bool {
    answer(&Request::Count { as_a, point, solid: t() }) == format!("0 - 0 {count}\n")
}

/// The edge from (2,1,0.5) to this end with T's last facet.
fn with_last_facet(end: Point) -> Crossing {
    edge_facet(&Edge { start: [2.0, 1.0, 0.5], end }, &last_facet())
}

fn p9() -> bool {
    let crossing = with_last_facet([2.0, 1.0, 1.5]);
    let point = [2.0, 1.0, 1.0];
    crossing.count() == 1 && crossing.points() == Some(PointPair { a: point, b: point })
}

/// Whether the operation on A and nothing is answered by these lines.
fn with_nothing(code: u32, a: Solid, lines: &str) -> bool {
    let room = Room { coordinates: 12, corners: 12, origins: 4 };
    answer(&Request::Op { code, a, b: Solid::default(), room }) == lines
}

fn p11() -> bool {
    let zero = "0000000000000000";
    let four = "4010000000000000";
    let vertices = [[zero, zero, zero], [four, zero, zero], [zero, four, zero], [zero, zero, four]];
    let mut lines = "0 - 0 4 4\n".to_string();
    vertices.iter().for_each(|vertex| lines += &format!("v {}\n", vertex.join(" ")));
    lines += "t 0 2 1 0\nt 0 1 3 1\nt 0 3 2 2\nt 1 2 3 3\n";
    with_nothing(2, t(), &lines)
}

fn p13() -> bool {
    let vertex = Solid { points: vec![1.0, 2.0, 4.0], corners: Vec::new() };
    with_nothing(0, vertex, "0 - 0 1 0\nv 3ff0000000000000 4000000000000000 4010000000000000\n")
}

/// Each case with whether it holds.
pub fn cases() -> Vec<(&'static str, bool)> {
    vec![
        ("P1", p1()),
        ("P2", p2()),
        ("P3", contains(false, [2.0, 1.0, 0.5], "1")),
        ("P4", contains(false, [2.0, 1.0, 1.0], "1")),
        ("P5", contains(false, [2.0, 1.0, 0.0], "0")),
        ("P6", contains(false, [2.0, 1.0, 1.5], "0")),
        ("P7", contains(true, [2.0, 1.0, 1.0], "0")),
        ("P8", contains(true, [2.0, 1.0, 0.0], "1")),
        ("P9", p9()),
        ("P10", with_last_facet([2.0, 1.0, 1.0]).count() == 0),
        ("P11", p11()),
        ("P12", with_nothing(1, t(), "0 - 0 0 0\n")),
        ("P13", p13()),
    ]
}
