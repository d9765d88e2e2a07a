//! `compare SEED COUNT`: the proved builder beside the published Rust.
//!
//! COUNT images of each family are built, and in modes 1 and 2 their routes
//! added; COUNT scripts add route images one after another to one graph; COUNT
//! graphs that no build made are added to, as they are, with a phrase of 21
//! broken, and with words changed by chance.
//!
//! The words must hold the Rust's graph, record by record, and no other word
//! may change; the hops must be the Rust's; a refusal must be the Rust's, with
//! its values, and leave every word as it was; as many blocks must be reached.
//! Every refusal that can come must occur, and every phrase of 21 be broken by
//! itself. The last line is 'N passed, M failed'.

mod run;
mod tally;

use std::process::ExitCode;
use std::thread;

use compare::noise;
use compare::pair::Pair;
use run::{groups, Group, Run};
use tally::Tally;

fn main() -> ExitCode {
    let numbers: Vec<u64> = std::env::args().skip(1).flat_map(|word| word.parse()).collect();
    let [seed, count] = numbers[..] else {
        eprintln!("compare SEED COUNT");
        return ExitCode::FAILURE;
    };
    let mut sum = Tally::default();
    for group in groups() {
        let tally = compare(group, seed, count);
        tally.print(group.name());
        sum.add(tally);
    }
    let complete = sum.print_sum();
    println!("{} passed, {} failed", sum.passed, sum.failed);
    if complete && sum.failed == 0 {
        ExitCode::SUCCESS
    } else {
        ExitCode::FAILURE
    }
}

/// One group, its even and odd cases in a thread each.
fn compare(group: Group, seed: u64, count: u64) -> Tally {
    let halves = [0, 1].map(|first| {
        let indices = (first..count).step_by(2);
        thread::spawn(move || half(group, seed, indices))
    });
    let mut sum = Tally::default();
    for half in halves {
        sum.add(half.join().expect("a thread that ends"));
    }
    sum
}

fn half(group: Group, seed: u64, indices: impl Iterator<Item = u64>) -> Tally {
    let (mut words, mut hops) = (noise::fill(seed), noise::fill(seed));
    let pair = Pair::new(seed, &mut words, &mut hops);
    let mut run = Run { group, seed, pair, tally: Tally::default() };
    indices.for_each(|index| run.one(index));
    run.tally
}
