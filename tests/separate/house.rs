//! The house file: reader and writer, and the line that the program `solid` prints.

use crate::admission::{check, check_size, Answer, Refusal, Solid, Who};
use crate::result::{operation, Room};
use crate::slips::{slip, Slip};

const MOST_BYTES: usize = 32_768;
const PROGRAM_VERTICES: usize = 512;
const PROGRAM_TRIANGLES: usize = 1_024;

/// A file's solid, with the bytes used, the end mark included.
pub struct File {
    pub solid: Solid,
    pub used: usize,
}

/// The record at the front of these bytes.
enum Record<'b> {
    Vertex(&'b [u8]),
    Facet(&'b [u8]),
    End,
}

/// "Each record begins where the one before it ended, with a two-byte mark."
fn record(bytes: &[u8]) -> Answer<Record<'_>> {
    let (mark, rest) = bytes.split_at_checked(2).ok_or(Refusal::on_nobody(9))?;
    match mark {
        b"VX" => rest.get(..24).map(Record::Vertex).ok_or(Refusal::on_nobody(9)),
        b"FC" => rest.get(..12).map(Record::Facet).ok_or(Refusal::on_nobody(9)),
        b"EN" => Ok(Record::End),
        _ => Err(Refusal::on_nobody(9)),
    }
}

/// "Numbers are low byte first."
pub fn number(bytes: &[u8]) -> u64 {
    bytes.iter().rev().fold(0, |number, &byte| number << 8 | u64::from(byte))
}

/// The whole layout, before anything is counted: 9, or what the file holds.
fn layout(bytes: &[u8]) -> Answer<File> {
    let mut solid = Solid::default();
    let mut used = 0;
    loop {
        match record(&bytes[used..])? {
            Record::Vertex(numbers) => {
                // "All VX come before all FC."
                if !solid.corners.is_empty() && slip() != Slip::MixedRecords {
                    return Err(Refusal::on_nobody(9));
                }
                solid.points.extend(numbers.chunks(8).map(|bytes| f64::from_bits(number(bytes))));
                used += 26;
            }
            Record::Facet(numbers) => {
                solid.corners.extend(numbers.chunks(4).map(|bytes| number(bytes) as u32));
                used += 14;
            }
            Record::End => {
                let used = if slip() == Slip::UsedWithoutEnd { used } else { used + 2 };
                return Ok(File { solid, used });
            }
        }
        if slip() == Slip::SizeFirst {
            check_size(&solid, Who::OnlySolid)?;
        }
    }
}

/// "Reader's order: 9, then 2, 8, 3 to 6." The room is in coordinates and corners.
pub fn read(bytes: &[u8], coordinates: usize, corners: usize) -> Answer<File> {
    let file = layout(bytes)?;
    let short = file.solid.points.len() > coordinates || file.solid.corners.len() > corners;
    let room = if short { Err(Refusal::on_nobody(8)) } else { Ok(()) };
    if slip() == Slip::RoomFirst {
        room?;
    }
    check_size(&file.solid, Who::OnlySolid)?;
    if slip() != Slip::RoomLast {
        room?;
    }
    check(&file.solid, Who::OnlySolid)?;
    room?;
    Ok(file)
}

/// The records of two lists, whatever they hold.
pub fn records(solid: &Solid) -> Vec<u8> {
    let mut bytes = Vec::new();
    for point in solid.points.chunks(3) {
        bytes.extend(b"VX");
        bytes.extend(point.iter().flat_map(|number| number.to_le_bytes()));
    }
    for facet in solid.corners.chunks(3) {
        bytes.extend(b"FC");
        bytes.extend(facet.iter().flat_map(|corner| corner.to_le_bytes()));
    }
    bytes.extend(b"EN");
    bytes
}

/// "The writer checks 1 to 6, then 8. Signs of zero are kept." The room is in bytes.
pub fn write(solid: &Solid, room: usize) -> Answer<Vec<u8>> {
    check(solid, Who::OnlySolid)?;
    let mut solid = solid.clone();
    if slip() == Slip::ZeroSignLost {
        solid.points.iter_mut().for_each(|number| *number += 0.0);
    }
    let bytes = records(&solid);
    if bytes.len() > room {
        Err(Refusal::on_nobody(8))
    } else {
        Ok(bytes)
    }
}

fn letter_code(letter: u8) -> Answer<u32> {
    match letter {
        b'U' => Ok(0),
        b'I' => Ok(1),
        b'D' => Ok(2),
        b'u' | b'i' | b'd' if slip() == Slip::LowerCase => letter_code(letter.to_ascii_uppercase()),
        _ => Err(Refusal::on_nobody(7)),
    }
}

/// A's file, then B's, then nothing.
fn two_files(bytes: &[u8]) -> Answer<(Solid, Solid)> {
    let a = layout(bytes)?;
    if slip() == Slip::LayoutByFile {
        check(&a.solid, Who::A)?;
    }
    let b = layout(&bytes[a.used..])?;
    if a.used + b.used < bytes.len() && slip() != Slip::TrailingTaken {
        return Err(Refusal::on_nobody(9));
    }
    Ok((a.solid, b.solid))
}

/// The program `solid`: the numbers of vertices and triangles for a whole standard input.
/// "No letter gives 9; an unknown letter gives 7 before the files are looked at; then input
/// over 32,768 bytes, a layout fault in either file or trailing bytes give 9; then come A's
/// other refusals, B's, and last 8."
pub fn program(input: &[u8]) -> Answer<(usize, usize)> {
    let (&letter, files) = input.split_first().ok_or(Refusal::on_nobody(9))?;
    if slip() == Slip::LetterLast {
        two_files(files)?;
    }
    let code = letter_code(letter)?;
    if input.len() > MOST_BYTES && slip() != Slip::BytesUnlimited {
        return Err(Refusal::on_nobody(9));
    }
    let (a, b) = two_files(files)?;
    let vertices =
        if slip() == Slip::ProgramRoom { PROGRAM_VERTICES - 1 } else { PROGRAM_VERTICES };
    let room = Room {
        coordinates: 3 * vertices,
        corners: 3 * PROGRAM_TRIANGLES,
        origins: PROGRAM_TRIANGLES,
    };
    let outcome = operation(code, &a, &b, room)?;
    Ok((outcome.vertices.len(), outcome.triangles.len()))
}
