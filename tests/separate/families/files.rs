//! Requests about house files: read, written, and as input of the program `solid`.

use super::bodies::t;
use super::pairs::{largest, pick_pair, signed_zeros};
use super::random::Random;
use super::refusals::{blank, put_faults, put_faults_in_turn, too_many_facets, too_many_vertices};
use super::rods::sized;
use crate::admission::Solid;
use crate::house::records;
use crate::language::Request;

/// A solid whose lists are whole threes, as a file holds them: every fourth too large, the
/// others as a rule with faults.
fn solid_for_file(r: &mut Random, number: u64) -> Solid {
    let mut solid = if r.once_in(16) { largest(r).0 } else { pick_pair(r).0 };
    if number % 4 == 0 {
        r.pick(&[too_many_facets, too_many_vertices])(r, &mut solid);
    } else if !r.once_in(4) {
        put_faults_in_turn(r, &mut solid, number - number / 4 - 1);
    }
    solid.points.truncate(3 * solid.vertices());
    solid.corners.truncate(3 * solid.facets());
    solid
}

/// Another two bytes where a mark stands, or another byte anywhere.
fn damage(r: &mut Random, file: &mut [u8], vertices: usize) {
    let marks = [*b"VX", *b"FC", *b"EN", *b"vx", *b"XV", [0, 0], *b"NE"];
    let records = if file.len() > 26 * vertices { (file.len() - 26 * vertices) / 14 } else { 0 };
    let at = match r.below(3) {
        0 if vertices > 0 => 26 * r.below(vertices),
        1 => 26 * vertices + 14 * r.below(records + 1),
        _ => r.below(file.len()),
    };
    let mark = r.pick(&marks);
    file[at..].iter_mut().zip(mark).for_each(|(byte, new)| *byte = new);
}

/// A file with its records in another order: a vertex after a facet.
fn vertex_behind(r: &mut Random, solid: &Solid) -> Vec<u8> {
    let file = records(solid);
    let Some(vertex) = file.get(..26).filter(|_| solid.vertices() > 0 && solid.facets() > 0) else {
        return file;
    };
    let at = 26 * solid.vertices() + 14 * (1 + r.below(solid.facets()));
    [&file[26..at], vertex, &file[at..]].concat()
}

/// A house file, whole or with something wrong.
fn some_file(r: &mut Random, solid: &Solid) -> Vec<u8> {
    let mut file = records(solid);
    match r.below(17) {
        0 => file.truncate(r.below(file.len() + 1)),
        1 => damage(r, &mut file, solid.vertices()),
        2..=4 => file = vertex_behind(r, solid),
        5 => file.extend(r.pick(&[&b"EN"[..], b"VX", b"F", b"\0\0\0", b"ENEN"])),
        6 => file.splice(0..0, blank_record(r)).for_each(drop),
        _ => {}
    }
    file
}

fn blank_record(r: &mut Random) -> Vec<u8> {
    let blank = Solid { points: vec![1.0, blank(r), -0.0], corners: Vec::new() };
    records(&blank)[..26].to_vec()
}

/// The reader: whole and damaged files, rooms that just suffice and rooms one short. Of the
/// files that are too large, every second one lacks its last byte.
pub fn read(r: &mut Random, number: u64) -> Request {
    let solid = solid_for_file(r, number);
    let mut bytes = if number % 4 == 0 { records(&solid) } else { some_file(r, &solid) };
    if number % 8 == 4 {
        bytes.pop();
    }
    let (coordinates, corners) = (solid.points.len(), solid.corners.len());
    let (coordinates, corners) = match r.below(10) {
        0..=2 => (coordinates.saturating_sub(1), corners),
        3 => (coordinates, corners.saturating_sub(1)),
        4 => (coordinates, corners),
        5 => (r.below(400), r.below(800)),
        _ => (384, 768),
    };
    Request::Read { bytes, coordinates, corners }
}

/// A small file cut at every place, one after the other, for the reader and for the program.
pub fn cut(r: &mut Random, number: u64) -> Request {
    let file = records(&t());
    let kept = (number / 2) as usize % (file.len() + 1);
    if number % 2 == 0 {
        return Request::Read { bytes: file[..kept].to_vec(), coordinates: 12, corners: 12 };
    }
    let whole = if r.once_in(2) { file.clone() } else { Vec::new() };
    Request::Solid { bytes: [b"U", &whole[..], &file[..kept]].concat() }
}

/// The writer: solids with and without faults, rooms that just suffice and rooms one short.
pub fn written(r: &mut Random, number: u64) -> Request {
    let (mut solid, _) = match r.below(12) {
        0 => largest(r),
        1..=5 => signed_zeros(r),
        _ => pick_pair(r),
    };
    if r.once_in(2) {
        put_faults_in_turn(r, &mut solid, number);
    }
    let bytes = records(&solid).len();
    let room = match r.below(5) {
        0 => bytes - 1,
        1 => r.below(bytes + 1),
        2 => bytes + r.below(50),
        _ => bytes,
    };
    Request::Write { solid, room }
}

/// The letter, A's file, B's file, and what follows.
fn input_of(letter: u8, a: &[u8], b: &[u8], behind: &[u8]) -> Request {
    Request::Solid { bytes: [&[letter], a, b, behind].concat() }
}

/// The program: whole and damaged files, solids with faults, trailing bytes.
pub fn program(r: &mut Random, number: u64) -> Request {
    let (mut a, mut b) = pick_pair(r);
    let (faults, damaged) = (r.below(4), r.below(5));
    if faults & 1 == 1 {
        put_faults(r, &mut a);
    }
    if faults & 2 == 2 {
        put_faults_in_turn(r, &mut b, number);
    }
    let file_a = if damaged == 0 { some_file(r, &a) } else { records(&a) };
    let file_b = if damaged > 2 { some_file(r, &b) } else { records(&b) };
    let behind = if r.once_in(5) { r.pick(&[&b"\n"[..], b"EN", b"\0", b"VX"]) } else { b"" };
    input_of(r.pick(b"UID"), &file_a, &file_b, behind)
}

/// The program's letter: wrong, in lower case or missing, before right and wrong files.
pub fn letters(r: &mut Random, _: u64) -> Request {
    let short = [
        &b""[..],
        b"U",
        b"D",
        b"x",
        b"UEN",
        b"IENEN",
        b"DENEN",
        b"UENENE",
        b"\0ENEN",
        b"uENEN",
        b"EN",
        b"ENEN",
    ];
    if r.once_in(3) {
        return Request::Solid { bytes: r.pick(&short).to_vec() };
    }
    let (a, b) = pick_pair(r);
    let file_a = if r.once_in(2) { some_file(r, &a) } else { records(&a) };
    let behind = if r.once_in(2) { b"EN" } else { &b""[..] };
    input_of(r.pick(b"UuidiuduidABEVX \n\0\xff"), &file_a, &records(&b), behind)
}

/// An input just under, at or just over 32,768 bytes. With both layouts right its length is
/// odd, so that at the limit itself there is a fault besides.
pub fn byte_limit(r: &mut Random, _: u64) -> Request {
    let length = r.pick(&[32_765, 32_767, 32_767, 32_768, 32_769, 32_769, 32_770, 40_001]);
    let vertices = r.pick(&[20, 128, 1_100]);
    let a = records(&Solid { points: vec![0.5; 3 * vertices], corners: Vec::new() });
    // B's file: as many vertices as make the bytes that are left whole records of facets.
    let left = length - 1 - a.len() - 2;
    let vertices = (0..7).find(|vertices| (left - 26 * vertices) % 14 < 2).unwrap_or(0);
    let facets = (left - 26 * vertices) / 14;
    let b = records(&Solid { points: vec![-0.0; 3 * vertices], corners: vec![0; 3 * facets] });
    let behind = vec![b'E'; length - 1 - a.len() - b.len()];
    input_of(r.pick(b"UIDUIDUIDx"), &a, &b, &behind)
}

/// An input whose result has just so many vertices or triangles as there is room for, or more.
pub fn program_room(r: &mut Random, _: u64) -> Request {
    let sizes = [
        (511, 1_000),
        (512, 1_008),
        (512, 1_024),
        (513, 1_000),
        (512, 1_022),
        (510, 1_026),
        (500, 1_024),
    ];
    let (vertices, triangles) = r.pick(&sizes);
    let (a, b) = sized(r, vertices, triangles);
    let letter = if r.once_in(8) { r.pick(b"ID") } else { b'U' };
    input_of(letter, &records(&a), &records(&b), b"")
}
