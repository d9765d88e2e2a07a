//! What was compared, and how it came out.

use std::collections::BTreeMap;

use compare::rule;
use oracle::image::Refusal;

/// What a build, and what an addition, can be refused with.
const BUILDS: [u8; 17] = [1, 2, 3, 4, 5, 6, 7, 8, 9, 10, 11, 12, 13, 14, 15, 16, 19];
const ADDITIONS: [u8; 12] = [1, 2, 10, 11, 12, 14, 15, 17, 18, 19, 20, 21];

#[derive(Default)]
pub struct Tally {
    /// How many images with their own routes, by one call.
    pub sequences: u64,
    pub builds: Count,
    pub additions: Count,
    /// How often a phrase of 21 was broken by itself.
    pub phrases: BTreeMap<&'static str, u64>,
    pub passed: u64,
    pub failed: u64,
}

#[derive(Default)]
pub struct Count {
    accepted: u64,
    refused: BTreeMap<u8, u64>,
}

impl Count {
    pub fn take<T>(&mut self, answer: &Result<T, Refusal>) {
        match answer {
            Ok(_) => self.accepted += 1,
            Err(refusal) => *self.refused.entry(refusal.number).or_default() += 1,
        }
    }

    fn add(&mut self, other: Self) {
        self.accepted += other.accepted;
        for (number, times) in other.refused {
            *self.refused.entry(number).or_default() += times;
        }
    }

    fn total(&self) -> u64 {
        self.accepted + self.refused.values().sum::<u64>()
    }

    fn times(&self, number: u8) -> u64 {
        self.refused.get(&number).copied().unwrap_or(0)
    }

    fn percent(&self) -> u64 {
        100 * self.accepted / self.total().max(1)
    }
}

impl Tally {
    pub fn add(&mut self, other: Self) {
        self.sequences += other.sequences;
        self.builds.add(other.builds);
        self.additions.add(other.additions);
        for (phrase, times) in other.phrases {
            *self.phrases.entry(phrase).or_default() += times;
        }
        self.passed += other.passed;
        self.failed += other.failed;
    }

    /// A line about a group.
    pub fn print(&self, name: &str) {
        println!(
            "{name:12} {:8} builds, {:3}% accepted, {:8} additions, {:3}% accepted, {} failed",
            self.builds.total(),
            self.builds.percent(),
            self.additions.total(),
            self.additions.percent(),
            self.failed
        );
    }

    /// A line for each refusal and for each phrase of 21, and a sum; whether
    /// all came that can come.
    pub fn print_sum(&self) -> bool {
        for number in 1..=21 {
            let (builds, additions) = (self.builds.times(number), self.additions.times(number));
            println!("refused {number:2} {builds:8} builds, {additions:8} additions");
        }
        for phrase in rule::NAMES {
            let times = self.phrases.get(phrase).copied().unwrap_or(0);
            println!("21 for '{phrase}' alone {times:8}");
        }
        let (builds, additions) = (&self.builds, &self.additions);
        println!(
            "in all {} builds, {} additions, {} of both in one",
            builds.total(),
            additions.total(),
            self.sequences
        );
        BUILDS.iter().all(|&number| builds.times(number) > 0)
            && ADDITIONS.iter().all(|&number| additions.times(number) > 0)
            && rule::NAMES.iter().all(|phrase| self.phrases.contains_key(phrase))
    }
}
