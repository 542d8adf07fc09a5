//! What happened while crossings were worked out: the rare events that some families are made
//! for, counted so that they can be shown to occur. Nothing here has a part in any answer.

use std::cell::Cell;

#[derive(Clone, Copy, Default)]
pub struct Tally {
    /// Coordinates that were not between their ends, so that p was taken.
    pub held: u64,
    /// Edge-facet crossings with a count beyond 1 or -1.
    pub twice: u64,
    /// Edge-facet crossings with a count other than 0 and more than two lower crossings.
    pub many_lower: u64,
    /// Containment counts other than 0 and 1.
    pub beyond: u64,
}

thread_local! {
    static TALLY: Cell<Tally> = Cell::new(Tally::default());
}

fn change(by: impl Fn(&mut Tally)) {
    TALLY.with(|cell| {
        let mut tally = cell.get();
        by(&mut tally);
        cell.set(tally);
    });
}

pub fn held() {
    change(|tally| tally.held += 1);
}

/// An edge-facet crossing with this count and this many lower crossings.
pub fn edge_facet(count: i64, lower: usize) {
    if count.abs() > 1 {
        change(|tally| tally.twice += 1);
    }
    if lower > 2 {
        change(|tally| tally.many_lower += 1);
    }
}

pub fn contained(count: i64) {
    if count != 0 && count != 1 {
        change(|tally| tally.beyond += 1);
    }
}

/// The tally since the last call, which starts anew.
pub fn take() -> Tally {
    TALLY.with(Cell::take)
}
