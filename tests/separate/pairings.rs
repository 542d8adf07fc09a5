//! All pairings of two admitted solids below the highest, each worked out once from those
//! below it, and the highest ones from them.

use crate::admission::{Body, Side};
use crate::crossings::*;

/// Rows and columns, row by row.
pub fn each(rows: usize, columns: usize) -> impl Iterator<Item = (usize, usize)> {
    (0..rows).flat_map(move |row| (0..columns).map(move |column| (row, column)))
}

/// Crossings of things of A, by row, with things of B, by column.
struct Table {
    columns: usize,
    crossings: Vec<Crossing>,
}

impl Table {
    fn of(rows: usize, columns: usize, crossing: impl Fn(usize, usize) -> Crossing) -> Table {
        Table {
            columns,
            crossings: each(rows, columns).map(|(row, column)| crossing(row, column)).collect(),
        }
    }

    fn at(&self, row: usize, column: usize) -> Crossing {
        self.crossings[row * self.columns + column]
    }
}

pub struct Pairings<'s> {
    a: &'s Body,
    b: &'s Body,
    vertex_facet: Table,
    edge_edge: Table,
    facet_vertex: Table,
}

impl<'s> Pairings<'s> {
    pub fn of(a: &'s Body, b: &'s Body) -> Pairings<'s> {
        let vertex_edge =
            Table::of(a.points.len(), b.edges.len(), |v, e| vertex_edge(a.points[v], &b.edges[e]));
        let edge_vertex =
            Table::of(a.edges.len(), b.points.len(), |e, v| edge_vertex(&a.edges[e], b.points[v]));
        let vertex_facet = Table::of(a.points.len(), b.facets.len(), |v, f| {
            vertex_facet_from(b.sides[f].map(|side| of_side(side, vertex_edge.at(v, side.edge))))
        });
        let facet_vertex = Table::of(a.facets.len(), b.points.len(), |f, v| {
            facet_vertex_from(a.sides[f].map(|side| of_side(side, edge_vertex.at(side.edge, v))))
        });
        let edge_edge = Table::of(a.edges.len(), b.edges.len(), |e, f| {
            let of_a = a.edge_ends[e].map(|end| vertex_edge.at(end, f));
            edge_edge_from(of_a, b.edge_ends[f].map(|end| edge_vertex.at(e, end)))
        });
        Pairings { a, b, vertex_facet, edge_edge, facet_vertex }
    }

    pub fn edge_facet(&self, edge: usize, facet: usize) -> Crossing {
        let ends = self.a.edge_ends[edge].map(|end| self.vertex_facet.at(end, facet));
        edge_facet_from(
            ends,
            self.b.sides[facet].map(|side| of_side(side, self.edge_edge.at(edge, side.edge))),
        )
    }

    pub fn facet_edge(&self, facet: usize, edge: usize) -> Crossing {
        let half_edges =
            self.a.sides[facet].map(|side| of_side(side, self.edge_edge.at(side.edge, edge)));
        facet_edge_from(
            half_edges,
            self.b.edge_ends[edge].map(|end| self.facet_vertex.at(facet, end)),
        )
    }

    pub fn contained_in_b(&self, vertex: usize) -> i64 {
        contained_in_b((0..self.b.facets.len()).map(|facet| self.vertex_facet.at(vertex, facet)))
    }

    pub fn contained_in_a(&self, vertex: usize) -> i64 {
        contained_in_a((0..self.a.facets.len()).map(|facet| self.facet_vertex.at(facet, vertex)))
    }
}

fn of_side(side: Side, crossing: Crossing) -> Crossing {
    crossing.of_half_edge(side.along)
}
