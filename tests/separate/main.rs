//! The separate program: document 01 and the requests of document 02 that have landed, worked
//! out once more from documents 000, 01 and 02 alone, to compare the proved program with. This
//! file holds its commands.

mod admission;
mod crossings;
mod families;
mod house;
mod language;
mod pairings;
mod result;
mod rows;
mod samples;
mod shuts_out;
mod slips;
mod tally;

use std::io::{self, Read, Write};
use std::process::ExitCode;

const USAGE: &str = "separate answer [--slip NAME] < requests
separate make FAMILY|all SEED COUNT
separate families
separate slips
separate shuts-out SEED COUNT
separate measure SEED COUNT
separate samples";

fn main() -> ExitCode {
    let arguments: Vec<String> = std::env::args().skip(1).collect();
    let words: Vec<&str> = arguments.iter().map(String::as_str).collect();
    match run(&words) {
        Some(Ok(true)) => ExitCode::SUCCESS,
        Some(Ok(false)) => ExitCode::FAILURE,
        Some(Err(fault)) => {
            eprintln!("separate: {fault}");
            ExitCode::FAILURE
        }
        None => {
            eprintln!("{USAGE}");
            ExitCode::from(2)
        }
    }
}

/// Runs a command; None if it is not understood.
fn run(words: &[&str]) -> Option<io::Result<bool>> {
    match words {
        ["answer"] => Some(serve()),
        ["answer", "--slip", name] => {
            slips::turn_on(slips::named(name)?);
            Some(serve())
        }
        ["make", family, seed, count] => make(family, seed.parse().ok()?, count.parse().ok()?),
        ["families"] => {
            Some(print_all(families::FAMILIES.iter().map(|family| family.name.to_string())))
        }
        ["slips"] => {
            Some(print_all(slips::ALL.iter().map(|(_, name, what)| format!("{name}: {what}"))))
        }
        ["shuts-out", seed, count] => {
            Some(Ok(shuts_out::shuts_out(seed.parse().ok()?, count.parse().ok()?)))
        }
        ["measure", seed, count] => {
            shuts_out::measure(seed.parse().ok()?, count.parse().ok()?);
            Some(Ok(true))
        }
        ["samples"] => Some(samples()),
        _ => None,
    }
}

/// Prints the cases of the sample table, and tells whether all hold.
fn samples() -> io::Result<bool> {
    let cases = samples::cases();
    let line = |&(name, holds): &(&str, bool)| {
        format!("{name}: {}", if holds { "holds" } else { "DOES NOT HOLD" })
    };
    print_all(cases.iter().map(line))?;
    Ok(cases.iter().all(|&(_, holds)| holds))
}

fn print_all(lines: impl Iterator<Item = String>) -> io::Result<bool> {
    let mut output = io::BufWriter::new(io::stdout().lock());
    for line in lines {
        writeln!(output, "{line}")?;
    }
    output.flush()?;
    Ok(true)
}

/// Answers the requests on standard input, one after the other.
fn serve() -> io::Result<bool> {
    let mut bytes = Vec::new();
    io::stdin().read_to_end(&mut bytes)?;
    let text = String::from_utf8_lossy(&bytes);
    let mut words = language::Words::of(&text);
    print_all(std::iter::from_fn(|| {
        let lines =
            words.request()?.map_or("?\n".to_string(), |request| language::answer(&request));
        Some(lines + ".")
    }))
}

fn make(name: &str, seed: u64, count: u64) -> Option<io::Result<bool>> {
    if name == "all" {
        return Some(print_all(
            families::all(seed, count).map(|(_, request)| language::written(&request)),
        ));
    }
    let family = families::FAMILIES.iter().find(|family| family.name == name)?;
    Some(print_all((0..count).map(|number| language::written(&family.request(seed, number)))))
}
