//! The two self-tests of the families: what each slip changes, and how often the rare events
//! occur that some families are made for.

use crate::families::{all, FAMILIES};
use crate::language::{answer, written, Request, Words};
use crate::slips::{turn_on, Slip, ALL};
use crate::tally;

/// Runs so many requests round all families with each slip, prints what it changes, and tells
/// whether every slip changes some answer.
pub fn shuts_out(seed: u64, count: u64) -> bool {
    let requests: Vec<_> = all(seed, count).collect();
    let right: Vec<String> = requests.iter().map(|(_, request)| answer(request)).collect();
    let mut every =
        requests.iter().zip(&right).all(|((_, request), right)| reads_back(request, right));
    for &(slip, name, what) in ALL {
        turn_on(slip);
        let differs = |(at, _): &(usize, &String)| answer(&requests[*at].1) != right[*at];
        let different: Vec<usize> =
            right.iter().enumerate().filter(differs).map(|(at, _)| at).collect();
        turn_on(Slip::None);
        match different.first() {
            Some(&first) => println!(
                "{name}: {} of {count} answers differ, first in {} ({what})",
                different.len(),
                requests[first].0.name
            ),
            None => println!("{name}: NO ANSWER OF {count} DIFFERS ({what})"),
        }
        every &= !different.is_empty();
    }
    every
}

/// Whether the request, written and read again, has the same answer.
fn reads_back(request: &Request, right: &str) -> bool {
    let text = written(request);
    let same = matches!(Words::of(&text).request(), Some(Some(read)) if answer(&read) == right);
    if !same {
        println!("not read as written: {text}");
    }
    same
}

/// Prints for each family in how many of so many requests the rare events occur, and how
/// often in all.
pub fn measure(seed: u64, count: u64) {
    println!("{count} requests of each family with seed {seed}: requests with the event/events");
    println!("{:14}{:>14}{:>14}{:>14}{:>14}", "family", "twice", "many lower", "held", "beyond");
    for family in &FAMILIES {
        let mut columns = [(0, 0); 4];
        for number in 0..count {
            let request = family.request(seed, number);
            tally::take();
            answer(&request);
            let tally = tally::take();
            let events = [tally.twice, tally.many_lower, tally.held, tally.beyond];
            for (column, events) in columns.iter_mut().zip(events) {
                column.0 += u64::from(events > 0);
                column.1 += events;
            }
        }
        let [a, b, c, d] = columns.map(|(requests, events)| format!("{requests}/{events}"));
        println!("{:14}{a:>14}{b:>14}{c:>14}{d:>14}", family.name);
    }
}
