//! Requests with faults: every refusal, several at once, the same fault in several places, and
//! rooms that just suffice.

use super::ample;
use super::numbers::{extremes, integers, point, points, ulps, TINIEST};
use super::pairs::{largest, pick_pair};
use super::random::Random;
use crate::admission::{Solid, LIMIT, MOST_FACETS, MOST_VERTICES};
use crate::language::Request;
use crate::result::{operation as made, Room};

/// A NaN of any sign and payload.
pub fn blank(r: &mut Random) -> f64 {
    let any = r.word() >> 12 | 1;
    let payload = r.pick(&[1, 1 << 51, 1 << 51 | 1, (1 << 52) - 1, any]);
    f64::from_bits(r.pick(&[0x7ff << 52, 0xfff << 52]) | payload)
}

/// A number beyond the limit.
pub fn beyond_limit(r: &mut Random) -> f64 {
    let size = r.pick(&[ulps(LIMIT, 1), 2.0 * LIMIT, f64::MAX, f64::INFINITY]);
    if r.once_in(2) {
        -size
    } else {
        size
    }
}

/// A number below n, which is not 0: the first and the last more often than any other.
fn some_place(r: &mut Random, n: usize) -> usize {
    match r.below(6) {
        0 => 0,
        1 => n - 1,
        _ => r.below(n),
    }
}

/// A coordinate of some vertex; a solid without vertices gets one.
fn some_coordinate(r: &mut Random, solid: &mut Solid) -> usize {
    3 * some_vertex(r, solid) as usize + r.below(3)
}

/// One vertex too many, or many too many.
pub fn too_many_vertices(r: &mut Random, solid: &mut Solid) {
    let number = MOST_VERTICES + r.pick(&[1, 1, 2, 100]);
    while solid.points.len() < 3 * number {
        solid.points.extend(point(r, extremes));
    }
}

/// Some facets too many, closed or not.
pub fn too_many_facets(r: &mut Random, solid: &mut Solid) {
    let number = MOST_FACETS + r.pick(&[1, 2, 2, 50]);
    while solid.corners.len() < 3 * number {
        solid.corners.extend([0, 1, 2, 0, 2, 1]);
    }
}

/// A corner number at or above the vertex count.
fn too_high(r: &mut Random, solid: &Solid) -> u32 {
    let beyond = solid.vertices() as u32;
    r.pick(&[beyond, beyond + 1, 128, 256, 65_536, u32::MAX]).max(beyond)
}

/// The number of a vertex; a solid without vertices gets one.
fn some_vertex(r: &mut Random, solid: &mut Solid) -> u32 {
    if solid.vertices() == 0 {
        solid.points.extend([TINIEST; 3]);
    }
    some_place(r, solid.vertices()) as u32
}

/// A facet that names a vertex twice, or three times: its half-edges may balance all the same.
fn facet_twice(r: &mut Random, solid: &mut Solid) -> [u32; 3] {
    let [p, q] = [some_vertex(r, solid), some_vertex(r, solid)];
    r.pick(&[[p, p, q], [p, q, p], [q, p, p], [p, p, p]])
}

/// A facet with a number too high.
fn facet_high(r: &mut Random, solid: &mut Solid) -> [u32; 3] {
    let [p, q] = [some_vertex(r, solid), some_vertex(r, solid)];
    let high = too_high(r, solid);
    r.pick(&[[high, p, q], [p, high, q], [p, q, high]])
}

/// A facet with a number too high that names a vertex twice, or names that number twice.
fn facet_high_and_twice(r: &mut Random, solid: &mut Solid) -> [u32; 3] {
    let (p, high) = (some_vertex(r, solid), too_high(r, solid));
    r.pick(&[[p, p, high], [high, p, p], [p, high, p], [high, high, p], [high, p, high]])
}

/// Puts these facets in, each in its part of the list, so that they come in this order; in the
/// place of others if there are 256.
fn put_in(r: &mut Random, solid: &mut Solid, facets: &[[u32; 3]]) {
    let full = solid.facets() >= MOST_FACETS;
    let choice = if full { solid.facets() } else { solid.facets() + 1 };
    for (part, &facet) in facets.iter().enumerate().rev() {
        let [low, high] = [part, part + 1].map(|part| part * choice / facets.len());
        let at = 3 * (low + some_place(r, (high - low).max(1)));
        let behind = if full { at + 3 } else { at };
        solid.corners.splice(at..behind, facet).for_each(drop);
    }
}

/// A corner of some facet becomes too high.
fn one_high(r: &mut Random, solid: &mut Solid) {
    if solid.corners.is_empty() {
        solid.corners.extend([0, 1, 2]);
    }
    let at = some_place(r, solid.corners.len());
    solid.corners[at] = too_high(r, solid);
}

fn named_twice(r: &mut Random, solid: &mut Solid) {
    let facet = facet_twice(r, solid);
    put_in(r, solid, &[facet]);
}

fn high_and_twice(r: &mut Random, solid: &mut Solid) {
    let facet = facet_high_and_twice(r, solid);
    put_in(r, solid, &[facet]);
}

fn high_then_twice(r: &mut Random, solid: &mut Solid) {
    let facets = [facet_high(r, solid), facet_twice(r, solid)];
    put_in(r, solid, &facets);
}

fn twice_then_high(r: &mut Random, solid: &mut Solid) {
    let facets = [facet_twice(r, solid), facet_high(r, solid)];
    put_in(r, solid, &facets);
}

/// A facet left out, turned round or with another corner: open as a rule.
fn opened(r: &mut Random, solid: &mut Solid) {
    if solid.facets() == 0 {
        return;
    }
    let at = 3 * some_place(r, solid.facets());
    match r.below(3) {
        0 => drop(solid.corners.drain(at..at + 3)),
        1 => solid.corners.swap(at, at + 1),
        _ => solid.corners[at] = solid.corners[at].wrapping_add(1) % solid.vertices().max(1) as u32,
    }
}

/// A facet once more: both directions of its edges are there, and either may come first.
fn once_more(r: &mut Random, solid: &mut Solid) {
    if solid.facets() > 0 {
        let at = some_place(r, solid.facets());
        let facet = solid.facet(at).map(|corner| corner as u32);
        put_in(r, solid, &[facet]);
    }
}

/// Over three more vertices a facet, and behind it twice the same turned round: the first
/// half-edges that differ in number from their ways back are the fewer.
fn twice_back(r: &mut Random, solid: &mut Solid) {
    let p = solid.vertices() as u32;
    solid.points.extend(points(r, integers, 3).iter().flatten());
    put_in(r, solid, &[[p, p + 1, p + 2], [p + 1, p, p + 2], [p + 2, p + 1, p]]);
}

/// A list whose length is no multiple of three.
fn uneven(r: &mut Random, solid: &mut Solid) {
    let more = r.once_in(2);
    if r.once_in(2) {
        let length = solid.points.len();
        solid.points.resize(if more { length + 1 } else { length.saturating_sub(1) }, 0.0);
    } else {
        let length = solid.corners.len();
        solid.corners.resize(if more { length + 2 } else { length.saturating_sub(2) }, 0);
    }
}

fn one_far(r: &mut Random, solid: &mut Solid) {
    let at = some_coordinate(r, solid);
    solid.points[at] = beyond_limit(r);
}

fn one_blank(r: &mut Random, solid: &mut Solid) {
    let at = some_coordinate(r, solid);
    solid.points[at] = blank(r);
}

/// A number beyond the limit in the first half of the vertices, and a blank in the second.
fn far_then_blank(r: &mut Random, solid: &mut Solid) {
    let half = solid.points.len() / 6;
    if half == 0 {
        return one_blank(r, solid);
    }
    let [far, blank_at] = [some_place(r, half), half + some_place(r, half)];
    solid.points[3 * far + r.below(3)] = beyond_limit(r);
    solid.points[3 * blank_at + r.below(3)] = blank(r);
}

/// Blanks only: a blank solid, which is not the empty one.
fn all_blank(r: &mut Random, solid: &mut Solid) {
    solid.points = (0..solid.points.len()).map(|_| blank(r)).collect();
}

type Fault = fn(&mut Random, &mut Solid);

/// Faults that are refused by 3, 4, 10, 11 or 6.
const INNER_FAULTS: [Fault; 14] = [
    opened,
    once_more,
    twice_back,
    one_high,
    named_twice,
    high_and_twice,
    high_then_twice,
    twice_then_high,
    one_far,
    one_blank,
    all_blank,
    far_then_blank,
    opened,
    one_far,
];

/// Puts this fault into a solid in one place or in some.
fn put_in_places(r: &mut Random, solid: &mut Solid, fault: Fault) {
    for _ in 0..r.pick(&[1, 1, 2, 3]) {
        fault(r, solid);
    }
}

/// Puts a fault that is refused by 3, 4, 10, 11 or 6 into a solid, in one place or in some.
pub fn put_inner_fault(r: &mut Random, solid: &mut Solid) {
    let fault = r.pick(&INNER_FAULTS);
    put_in_places(r, solid, fault);
}

/// Puts one fault into a solid, or some of any kinds, or none.
pub fn put_faults(r: &mut Random, solid: &mut Solid) {
    for _ in 0..r.pick(&[0, 1, 1, 1, 1, 2, 2, 4]) {
        match r.below(10) {
            0 => too_many_facets(r, solid),
            1 => too_many_vertices(r, solid),
            2 => uneven(r, solid),
            _ => put_inner_fault(r, solid),
        }
    }
}

/// Puts faults into a solid that go by the request's number: those that have a place one after
/// the other, then some times any.
pub fn put_faults_in_turn(r: &mut Random, solid: &mut Solid, number: u64) {
    match INNER_FAULTS.get(number as usize % 20) {
        Some(&fault) => put_in_places(r, solid, fault),
        None => put_faults(r, solid),
    }
}

/// An operation with faults in the code, in A, in B and in the room.
pub fn operation(r: &mut Random, number: u64) -> Request {
    let (mut a, mut b) = pick_pair(r);
    let faulty = r.below(6);
    if faulty < 3 {
        put_faults(r, &mut a);
    }
    if faulty > 0 {
        put_faults_in_turn(r, &mut b, number);
    }
    let code = if r.once_in(3) {
        r.pick(&[3, 4, 85, 256, 257, 65_536, 1 << 31, u32::MAX])
    } else {
        r.below(3) as u32
    };
    let least = r.pick(&[0, 9_000, 9_000, 9_000]);
    Request::Op {
        code,
        a,
        b,
        room: Room { coordinates: least, corners: 2 * least, origins: least },
    }
}

/// A point count with faults in the point and in the solid.
pub fn count(r: &mut Random, number: u64) -> Request {
    let (mut solid, other) = pick_pair(r);
    put_faults_in_turn(r, &mut solid, number);
    let mut point = other.point(r.below(other.vertices()));
    for fault in [beyond_limit, blank] {
        if r.once_in(4) {
            point[r.below(3)] = fault(r);
        }
    }
    Request::Count { as_a: r.once_in(2), point, solid }
}

/// A solid with faults to be admitted, or without.
pub fn admit(r: &mut Random, number: u64) -> Request {
    let (mut solid, _) = if r.once_in(5) { largest(r) } else { pick_pair(r) };
    put_faults_in_turn(r, &mut solid, number);
    Request::Admit { solid }
}

/// Rooms that just suffice and rooms one short, for operations.
pub fn rooms(r: &mut Random, _: u64) -> Request {
    let (a, b) = pick_pair(r);
    let code = r.below(3) as u32;
    let mut room = ample();
    if let Ok(outcome) = made(code, &a, &b, room) {
        let (vertices, triangles) = (outcome.vertices.len(), outcome.triangles.len());
        room.coordinates = 3 * vertices;
        room.corners = 3 * triangles;
        room.origins = triangles;
    }
    match r.below(8) {
        0 => room.coordinates = room.coordinates.saturating_sub(1),
        1 => room.corners = room.corners.saturating_sub(1),
        2 | 3 => room.origins = room.origins.saturating_sub(1),
        4 => room.coordinates += 2,
        5 => room.corners = u32::MAX as usize,
        _ => {}
    }
    Request::Op { code, a, b, room }
}
