//! The families: random requests of many kinds, each made from a seed and a number alone.

mod bodies;
mod files;
mod nearby;
mod numbers;
mod pairs;
mod random;
mod refusals;
mod rods;
mod rows;
mod tight;

pub use self::bodies::t;
use self::numbers::{beside, on_the_way};
use self::pairs::Pair;
use self::random::Random;
use crate::admission::Solid;
use crate::crossings::Point;
use crate::language::Request;
use crate::result::Room;

pub struct Family {
    pub name: &'static str,
    make: fn(&mut Random, u64) -> Request,
}

/// Every family; what each is for stands at its maker.
pub const FAMILIES: [Family; 31] = [
    Family { name: "ties", make: |r, _| asked(r, pairs::ties) },
    Family { name: "boxes", make: |r, _| asked(r, pairs::boxes) },
    Family { name: "zeros", make: |r, _| asked(r, pairs::signed_zeros) },
    Family { name: "sums", make: |r, _| asked(r, pairs::sums) },
    Family { name: "plain", make: |r, _| asked(r, pairs::plain) },
    Family { name: "limit", make: |r, _| asked(r, pairs::limit) },
    Family { name: "ulp", make: |r, _| asked(r, tight::by_an_ulp) },
    Family { name: "identical", make: |r, _| asked(r, pairs::identical) },
    Family { name: "touching", make: |r, _| asked(r, pairs::touching) },
    Family { name: "flat", make: |r, _| asked(r, pairs::flat) },
    Family { name: "empty", make: |r, _| asked(r, pairs::empty) },
    Family { name: "slivers", make: |r, _| asked(r, tight::slivers) },
    Family { name: "incident", make: |r, _| asked(r, tight::incident) },
    Family { name: "apart", make: |r, _| asked(r, nearby::apart) },
    Family { name: "crossed", make: |r, _| asked(r, rods::crossed) },
    Family { name: "again", make: |r, _| asked(r, pairs::again) },
    Family { name: "largest", make: largest },
    Family { name: "contains", make: contains },
    Family { name: "rooms", make: refusals::rooms },
    Family { name: "refused-op", make: refusals::operation },
    Family { name: "refused-count", make: refusals::count },
    Family { name: "refused-admit", make: refusals::admit },
    Family { name: "shown", make: shown },
    Family { name: "files", make: files::read },
    Family { name: "cut", make: files::cut },
    Family { name: "written", make: files::written },
    Family { name: "program", make: files::program },
    Family { name: "letters", make: files::letters },
    Family { name: "byte-limit", make: files::byte_limit },
    Family { name: "program-room", make: files::program_room },
    Family { name: "rows", make: rows::in_turn },
];

/// Room for the result of any pair but the very largest.
pub fn ample() -> Room {
    Room { coordinates: 12_288, corners: 49_152, origins: 16_384 }
}

/// The operation on a pair of a family; once in ten times a point count in its first solid.
fn asked(r: &mut Random, pair: fn(&mut Random) -> Pair) -> Request {
    let (a, b) = pair(r);
    if r.once_in(10) {
        return count_in(r, a, &b);
    }
    Request::Op { code: r.below(3) as u32, a, b, room: ample() }
}

/// The largest sizes, and seldom results near or above the most that a room can hold.
fn largest(r: &mut Random, _: u64) -> Request {
    let (a, b) = if r.once_in(48) { rods::needles(r) } else { pairs::largest(r) };
    let most = r.pick(&[1 << 18, u32::MAX as usize]);
    let room = Room { coordinates: most, corners: most, origins: most };
    Request::Op { code: r.below(3) as u32, a, b, room }
}

/// Point counts in solids of all small families: at vertices, on edges and facets, and an ulp
/// beside.
fn contains(r: &mut Random, _: u64) -> Request {
    let (a, b) = match r.below(4) {
        0 => tight::incident(r),
        1 => tight::by_an_ulp(r),
        _ => pairs::pick_pair(r),
    };
    count_in(r, a, &b)
}

fn count_in(r: &mut Random, solid: Solid, other: &Solid) -> Request {
    let from = if other.vertices() > 0 && r.once_in(2) { other } else { &solid };
    let vertex = |r: &mut Random| {
        if from.vertices() == 0 {
            [0.5; 3]
        } else {
            from.point(r.below(from.vertices()))
        }
    };
    let (p, q, s) = (vertex(r), vertex(r), vertex(r));
    let place: Point = match r.below(4) {
        0 => p,
        1 => on_the_way(p, q, 0.5),
        2 => on_the_way(on_the_way(p, q, r.share()), s, r.share()),
        _ => p.map(|number| beside(r, number, 1)),
    };
    Request::Count { as_a: r.once_in(2), point: place, solid }
}

/// Any corner lists with any origins.
fn shown(r: &mut Random, _: u64) -> Request {
    let mut list = |most: usize| -> Vec<u32> {
        let length = r.below(most + 1);
        (0..length)
            .map(|_| if r.once_in(3) { u32::MAX - r.below(3) as u32 } else { r.below(200) as u32 })
            .collect()
    };
    let (a, b) = (list(17), list(17));
    let facets = (a.len() / 3 + b.len() / 3) as u32;
    let any = r.below(12) as u32;
    let ends = [0, a.len() as u32 / 3, facets.saturating_sub(1), facets, facets + 1];
    let origin =
        if r.once_in(2) { any } else { r.pick(&[&ends[..], &[1 << 31, u32::MAX]].concat()) };
    Request::Shown { a, b, origin }
}

impl Family {
    /// The request with this number, which depends on nothing but the seed, the family's name
    /// and the number.
    pub fn request(&self, seed: u64, number: u64) -> Request {
        (self.make)(&mut Random::new(self.name, seed, number), number)
    }
}

/// So many requests round all families, each with its family.
pub fn all(seed: u64, count: u64) -> impl Iterator<Item = (&'static Family, Request)> {
    let families = FAMILIES.len() as u64;
    (0..count).map(move |place| {
        let family = &FAMILIES[(place % families) as usize];
        (family, family.request(seed, place / families))
    })
}
