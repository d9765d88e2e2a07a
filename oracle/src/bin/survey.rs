//! `survey SEED COUNT`: of each family and of the additions of scripts, how
//! many are accepted and which refusals come; fails if a family has too few
//! accepted images or a refusal that can come does not.

use std::collections::{BTreeMap, BTreeSet};
use std::process::ExitCode;

use oracle::answer::{self, Outcome};
use oracle::generate;

/// What the program's images can be refused with.
const IN_IMAGES: [u8; 19] = [1, 2, 3, 4, 5, 6, 7, 8, 9, 10, 11, 12, 13, 14, 15, 16, 18, 19, 20];
/// What additions of generated scripts are refused with.
const IN_ADDITIONS: [u8; 11] = [1, 2, 10, 11, 12, 14, 15, 17, 18, 19, 20];

fn main() -> ExitCode {
    let numbers: Vec<u64> = std::env::args().skip(1).flat_map(|word| word.parse()).collect();
    let [seed, count] = numbers[..] else {
        eprintln!("survey SEED COUNT");
        return ExitCode::FAILURE;
    };
    let mut good = true;
    let mut met = BTreeSet::new();
    for family in &generate::FAMILIES {
        let mut tally = Tally::default();
        for index in 0..count {
            let bytes = generate::image(family, seed, index);
            tally.bytes += bytes.len();
            tally.take(&answer::whole(&bytes));
        }
        tally.print(family.name);
        good &= !family.mostly_accepted || 2 * tally.accepted >= tally.total();
        met.extend(tally.refused.into_keys());
    }
    good &= all_met("images", &IN_IMAGES, &met);

    let (mut builds, mut additions) = (Tally::default(), Tally::default());
    for index in 0..count {
        let strings = generate::script(seed, index);
        let (image, lists) = strings.split_first().expect("a script has an image");
        let outcomes = answer::script(image, lists);
        builds.bytes += image.len();
        additions.bytes += lists.concat().len();
        builds.take(&outcomes[0]);
        outcomes[1..].iter().for_each(|outcome| additions.take(outcome));
    }
    builds.print("scripts' builds");
    additions.print("scripts' additions");
    good &= 2 * additions.accepted >= additions.total();
    good &= all_met("additions", &IN_ADDITIONS, &additions.refused.into_keys().collect());
    if good {
        ExitCode::SUCCESS
    } else {
        ExitCode::FAILURE
    }
}

fn all_met(name: &str, wanted: &[u8], met: &BTreeSet<u8>) -> bool {
    let missing: Vec<&u8> = wanted.iter().filter(|number| !met.contains(number)).collect();
    println!("refusals of {name}: {met:?}, missing {missing:?}");
    missing.is_empty()
}

#[derive(Default)]
struct Tally {
    bytes: usize,
    accepted: usize,
    refused: BTreeMap<u8, usize>,
}

impl Tally {
    fn take(&mut self, outcome: &Outcome) {
        match outcome {
            Ok(_) => self.accepted += 1,
            Err(refusal) => *self.refused.entry(refusal.number).or_default() += 1,
        }
    }

    fn total(&self) -> usize {
        self.accepted + self.refused.values().sum::<usize>()
    }

    fn print(&self, name: &str) {
        let total = self.total().max(1);
        println!(
            "{name:18} {:8} accepted {:3}%, {:5} bytes each, refused {:?}",
            self.total(),
            100 * self.accepted / total,
            self.bytes / total,
            self.refused
        );
    }
}
