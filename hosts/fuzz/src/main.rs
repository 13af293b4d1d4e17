//! Compares the library with a plain interpreter that was written apart from it: `fuzz RUNS SEED [CASE]`.
//!
//! Cases are done until so many runs are compared; with CASE, that one alone. Seed and case determine all of a case's inputs.

mod compare;
mod decodes;
mod files;
mod guests;
mod random;
mod record;
mod runs;
mod table;
mod tally;
mod words;

use compare::Compared;
use random::Random;
use std::process::exit;
use tally::Tally;

/// How often each kind of case comes. A sequence has about a dozen runs.
const OFTEN: [u64; 6] = [560, 60, 100, 60, 110, 110];

fn case(seed: u64, number: u64, tally: &mut Tally) -> Compared {
    let mut random = Random::of_case(seed, number);
    match random.weighted(&OFTEN) {
        0 => runs::single(&mut random, tally),
        1 => runs::sequence(&mut random, tally),
        2 => runs::single_answer(&mut random, tally),
        3 => decodes::words(&mut random, tally),
        4 => files::write(&mut random, tally),
        _ => files::read(&mut random, tally),
    }
}

/// The numbers on the command line: runs, seed, and a case if only that one is wanted.
fn arguments() -> Option<(u64, u64, Option<u64>)> {
    let numbers: Result<Vec<u64>, _> = std::env::args().skip(1).map(|text| text.parse()).collect();
    match numbers.ok()?[..] {
        [runs, seed] => Some((runs, seed, None)),
        [runs, seed, case] => Some((runs, seed, Some(case))),
        _ => None,
    }
}

fn main() {
    let (runs, seed, only) = match arguments() {
        Some(found) => found,
        None => {
            eprintln!("usage: fuzz RUNS SEED [CASE]");
            exit(2);
        }
    };
    println!("seed {}", seed);
    let mut tally = Tally::default();
    let mut number = only.unwrap_or(0);
    while tally.runs < runs {
        if let Err(text) = case(seed, number, &mut tally) {
            println!("difference in case {} of seed {}: {}", number, seed, text);
            exit(1);
        }
        if only.is_some() {
            break;
        }
        number += 1;
    }
    println!("cases {}", number);
    tally.print();
    println!("0 differences");
}
