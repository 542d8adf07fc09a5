//! The case language: requests read and written, and the answers to them
//! (tests/cases/README.md has the form).

use crate::admission::{admitted, check, check_coordinates, Answer, Solid, Who};
use crate::crossings::{contained_in_a, contained_in_b, facet_vertex, vertex_facet, Point};
use crate::house;
use crate::result::{operation, shown, Outcome, Room};
use crate::rows::{self, Boxed};
use crate::slips::{slip, Slip};
use std::fmt::Write;

/// Room lists longer than these are treated as being that long.
const ROOM_VERTICES: usize = 16_384;
const ROOM_TRIANGLES: usize = 65_536;

const REQUEST_WORDS: [&str; 8] = ["op", "count", "admit", "shown", "read", "write", "solid", "box"];

pub enum Request {
    Op { code: u32, a: Solid, b: Solid, room: Room },
    Count { as_a: bool, point: Point, solid: Solid },
    Admit { solid: Solid },
    Shown { a: Vec<u32>, b: Vec<u32>, origin: u32 },
    Read { bytes: Vec<u8>, coordinates: usize, corners: usize },
    Write { solid: Solid, room: usize },
    Solid { bytes: Vec<u8> },
    Box { bytes: Vec<u8>, coordinates: usize, corners: usize },
}

/// The words of a text, each with whether it is the first on its line.
pub struct Words<'t> {
    words: Vec<(&'t str, bool)>,
    at: usize,
}

impl<'t> Words<'t> {
    pub fn of(text: &'t str) -> Words<'t> {
        let line_words = |line: &'t str| {
            line.split_ascii_whitespace().enumerate().map(|(place, word)| (word, place == 0))
        };
        Words { words: text.split('\n').flat_map(line_words).collect(), at: 0 }
    }

    /// The next request; None at the end of the text, and Some(None) for one that cannot be
    /// read, after which the words stand at the next line that begins with a request word.
    pub fn request(&mut self) -> Option<Option<Request>> {
        self.words.get(self.at)?;
        let request = self.whole_request();
        if request.is_none() {
            let begins = |&(word, first): &(&str, bool)| first && REQUEST_WORDS.contains(&word);
            let skipped = self.words[self.at..].iter().position(begins);
            self.at = skipped.map_or(self.words.len(), |skipped| self.at + skipped);
        }
        Some(request)
    }

    fn whole_request(&mut self) -> Option<Request> {
        match self.one_of(&REQUEST_WORDS)? {
            "op" => Some(Request::Op {
                code: self.number()?,
                a: self.solid("ap", "ac")?,
                b: self.solid("bp", "bc")?,
                room: self.room()?,
            }),
            "count" => Some(Request::Count {
                as_a: self.one_of(&["A", "B"])? == "A",
                point: self.point()?,
                solid: self.solid("sp", "sc")?,
            }),
            "admit" => Some(Request::Admit { solid: self.solid("sp", "sc")? }),
            "shown" => Some(Request::Shown {
                a: self.corners("ac")?,
                b: self.corners("bc")?,
                origin: self.named_number("origin")?,
            }),
            "read" => Some(Request::Read {
                bytes: self.bytes()?,
                coordinates: self.named_number("room")?,
                corners: self.number()?,
            }),
            "write" => Some(Request::Write {
                solid: self.solid("sp", "sc")?,
                room: self.named_number("room")?,
            }),
            "solid" => Some(Request::Solid { bytes: self.bytes()? }),
            _ => Some(Request::Box {
                bytes: self.bytes()?,
                coordinates: self.named_number("room")?,
                corners: self.number()?,
            }),
        }
    }

    /// The next word as understood; a word that is not understood stays the next one.
    fn next<T>(&mut self, understand: impl FnOnce(&'t str) -> Option<T>) -> Option<T> {
        let understood = understand(self.words.get(self.at)?.0)?;
        self.at += 1;
        Some(understood)
    }

    fn one_of(&mut self, known: &[&str]) -> Option<&'t str> {
        self.next(|word| known.contains(&word).then_some(word))
    }

    fn number<N: std::str::FromStr>(&mut self) -> Option<N> {
        self.next(|word| {
            word.bytes().all(|digit| digit.is_ascii_digit()).then(|| word.parse().ok())?
        })
    }

    fn named_number<N: std::str::FromStr>(&mut self, name: &str) -> Option<N> {
        self.one_of(&[name])?;
        self.number()
    }

    fn coordinates(&mut self, name: &str) -> Option<Vec<f64>> {
        let length: usize = self.named_number(name)?;
        (0..length).map(|_| self.next(f64_of)).collect()
    }

    fn corners(&mut self, name: &str) -> Option<Vec<u32>> {
        let length: usize = self.named_number(name)?;
        (0..length).map(|_| self.number()).collect()
    }

    fn solid(&mut self, points: &str, corners: &str) -> Option<Solid> {
        Some(Solid { points: self.coordinates(points)?, corners: self.corners(corners)? })
    }

    fn point(&mut self) -> Option<Point> {
        self.one_of(&["pt"])?;
        self.one_of(&["3"])?;
        Some([self.next(f64_of)?, self.next(f64_of)?, self.next(f64_of)?])
    }

    fn room(&mut self) -> Option<Room> {
        Some(Room {
            coordinates: self.named_number("room")?,
            corners: self.number()?,
            origins: self.number()?,
        })
    }

    fn bytes(&mut self) -> Option<Vec<u8>> {
        let length: usize = self.named_number("bytes")?;
        if length == 0 {
            return Some(Vec::new());
        }
        self.next(|word| bytes_of(word).filter(|bytes| bytes.len() == length))
    }
}

fn lower_hex(word: &str) -> bool {
    word.bytes().all(|digit| matches!(digit, b'0'..=b'9' | b'a'..=b'f'))
}

/// An f64 is 16 lower-case hex digits of its bit pattern.
fn f64_of(word: &str) -> Option<f64> {
    let bits = u64::from_str_radix(word, 16).ok()?;
    (word.len() == 16 && lower_hex(word)).then(|| f64::from_bits(bits))
}

fn bytes_of(word: &str) -> Option<Vec<u8>> {
    if !lower_hex(word) || word.len() % 2 != 0 {
        return None;
    }
    (0..word.len() / 2).map(|at| u8::from_str_radix(&word[2 * at..][..2], 16).ok()).collect()
}

fn write_coordinates(text: &mut String, name: &str, list: &[f64]) {
    write!(text, " {name} {}", list.len()).unwrap();
    list.iter().for_each(|number| write!(text, " {:016x}", number.to_bits()).unwrap());
}

fn write_corners(text: &mut String, name: &str, list: &[u32]) {
    write!(text, " {name} {}", list.len()).unwrap();
    list.iter().for_each(|corner| write!(text, " {corner}").unwrap());
}

fn write_solid(text: &mut String, names: [&str; 2], solid: &Solid) {
    write_coordinates(text, names[0], &solid.points);
    write_corners(text, names[1], &solid.corners);
}

fn write_hex(text: &mut String, bytes: &[u8]) {
    bytes.iter().for_each(|byte| write!(text, "{byte:02x}").unwrap());
}

fn write_bytes(text: &mut String, bytes: &[u8]) {
    write!(text, " bytes {}", bytes.len()).unwrap();
    if !bytes.is_empty() {
        text.push(' ');
        write_hex(text, bytes);
    }
}

/// The request as one line.
pub fn written(request: &Request) -> String {
    let mut text = String::new();
    match request {
        Request::Op { code, a, b, room } => {
            write!(text, "op {code}").unwrap();
            write_solid(&mut text, ["ap", "ac"], a);
            write_solid(&mut text, ["bp", "bc"], b);
            write!(text, " room {} {} {}", room.coordinates, room.corners, room.origins).unwrap();
        }
        Request::Count { as_a, point, solid } => {
            text.push_str(if *as_a { "count A" } else { "count B" });
            write_coordinates(&mut text, "pt", point);
            write_solid(&mut text, ["sp", "sc"], solid);
        }
        Request::Admit { solid } => {
            text.push_str("admit");
            write_solid(&mut text, ["sp", "sc"], solid);
        }
        Request::Shown { a, b, origin } => {
            text.push_str("shown");
            write_corners(&mut text, "ac", a);
            write_corners(&mut text, "bc", b);
            write!(text, " origin {origin}").unwrap();
        }
        Request::Read { bytes, coordinates, corners } => {
            text.push_str("read");
            write_bytes(&mut text, bytes);
            write!(text, " room {coordinates} {corners}").unwrap();
        }
        Request::Write { solid, room } => {
            text.push_str("write");
            write_solid(&mut text, ["sp", "sc"], solid);
            write!(text, " room {room}").unwrap();
        }
        Request::Solid { bytes } => {
            text.push_str("solid");
            write_bytes(&mut text, bytes);
        }
        Request::Box { bytes, coordinates, corners } => {
            text.push_str("box");
            write_bytes(&mut text, bytes);
            write!(text, " room {coordinates} {corners}").unwrap();
        }
    }
    text
}

fn write_vertex(text: &mut String, [x, y, z]: Point) {
    writeln!(text, "v {:016x} {:016x} {:016x}", x.to_bits(), y.to_bits(), z.to_bits()).unwrap();
}

fn who_letter(who: Who) -> char {
    match who {
        Who::A => 'A',
        Who::B => 'B',
        Who::OnlySolid => 'S',
        Who::Point => 'P',
        Who::Nobody => '-',
    }
}

/// An answer's lines: `ANSWER WHO PLACE`, then as many zeros as there are counts, or what the
/// success writes.
fn lines<T>(answer: Answer<T>, zeros: &str, success: impl FnOnce(&mut String, T)) -> String {
    let mut text = String::new();
    match answer {
        Ok(made) => {
            text.push_str("0 - 0");
            success(&mut text, made);
        }
        Err(refusal) => {
            let who = who_letter(refusal.who);
            writeln!(text, "{} {who} {}{zeros}", refusal.number, refusal.place).unwrap();
        }
    }
    text
}

fn write_outcome(text: &mut String, outcome: Outcome) {
    writeln!(text, " {} {}", outcome.vertices.len(), outcome.triangles.len()).unwrap();
    outcome.vertices.iter().for_each(|&vertex| write_vertex(text, vertex));
    for ([a, b, c], origin) in outcome.triangles.iter().zip(&outcome.origins) {
        writeln!(text, "t {a} {b} {c} {origin}").unwrap();
    }
}

/// A solid's counts with the number behind them, and its lines `v` and `f`.
fn write_made(text: &mut String, solid: &Solid, behind: usize) {
    writeln!(text, " {} {} {behind}", solid.vertices(), solid.facets()).unwrap();
    (0..solid.vertices()).for_each(|vertex| write_vertex(text, solid.point(vertex)));
    for facet in 0..solid.facets() {
        let [a, b, c] = solid.facet(facet);
        writeln!(text, "f {a} {b} {c}").unwrap();
    }
}

fn write_file(text: &mut String, file: house::File) {
    write_made(text, &file.solid, file.used);
}

fn write_box(text: &mut String, boxed: Boxed) {
    write_made(text, &boxed.solid, usize::from(boxed.unit));
}

fn capped(room: Room) -> Room {
    Room {
        coordinates: room.coordinates.min(3 * ROOM_VERTICES),
        corners: room.corners.min(3 * ROOM_TRIANGLES),
        origins: room.origins.min(ROOM_TRIANGLES),
    }
}

/// "A point count checks the point by 3 and 4, then the solid by 1 to 6."
fn count(as_a: bool, point: Point, solid: &Solid) -> Answer<i64> {
    let who = match slip() {
        Slip::CountedAsLetter if as_a => Who::A,
        Slip::CountedAsLetter => Who::B,
        _ => Who::OnlySolid,
    };
    if slip() == Slip::PointLast {
        check(solid, who)?;
    }
    check_coordinates(&point, if slip() == Slip::PointIsSolid { who } else { Who::Point })?;
    let facets = admitted(solid, who)?.facets;
    Ok(if as_a {
        contained_in_a(facets.iter().map(|facet| facet_vertex(facet, point)))
    } else {
        contained_in_b(facets.iter().map(|facet| vertex_facet(point, facet)))
    })
}

/// The lines that answer a request, without the full stop.
pub fn answer(request: &Request) -> String {
    match request {
        Request::Op { code, a, b, room } => {
            lines(operation(*code, a, b, capped(*room)), " 0 0", write_outcome)
        }
        Request::Count { as_a, point, solid } => {
            lines(count(*as_a, *point, solid), " 0", |text, count| {
                writeln!(text, " {count}").unwrap()
            })
        }
        Request::Admit { solid } => {
            lines(check(solid, Who::OnlySolid), "", |text, ()| text.push('\n'))
        }
        Request::Shown { a, b, origin } => {
            let part = shown(a, b, *origin);
            let corners: String = part.iter().map(|corner| format!(" {corner}")).collect();
            format!("{}{corners}\n", part.len())
        }
        Request::Read { bytes, coordinates, corners } => {
            lines(house::read(bytes, *coordinates, *corners), " 0 0 0", write_file)
        }
        Request::Write { solid, room } => lines(house::write(solid, *room), " 0", |text, bytes| {
            write!(text, " {}\nb ", bytes.len()).unwrap();
            write_hex(text, &bytes);
            text.push('\n');
        }),
        Request::Solid { bytes } => program_line(house::program(bytes)),
        Request::Box { bytes, coordinates, corners } => {
            let zeros = format!(" 0 0 {}", rows::unit_of_refused(bytes));
            lines(rows::boxed(bytes, *coordinates, *corners), &zeros, write_box)
        }
    }
}

/// The program "prints one line: answer, vertices, triangles".
fn program_line(answer: Answer<(usize, usize)>) -> String {
    match answer {
        Ok((vertices, triangles)) => format!("0 {vertices} {triangles}\n"),
        Err(refusal) => format!("{} 0 0\n", refusal.number),
    }
}
