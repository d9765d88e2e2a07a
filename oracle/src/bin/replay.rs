//! `replay DIR [FAMILY SEED COUNT]`: writes DIR/stdin, images for the program
//! `replay`, each after its length in 4 bytes, and DIR/stdout, the chart of
//! each by the published Rust.
//!
//! Without a family these are the stored ones: small images of every family,
//! and one of any size for each refusal that no image before it met.

use std::collections::BTreeSet;
use std::path::Path;
use std::{env, fs, io};

use oracle::answer::{self, Outcome};
use oracle::chart::chart;
use oracle::generate::{self, Family};
use oracle::stream;

/// The seed of the stored images, how many of a family, and the most bytes.
const SEED: u64 = 20_261_115;
const EACH: usize = 200;
const MOST: usize = 450;
/// How many images of a family are looked at.
const TRIED: u64 = 2000;

fn main() -> io::Result<()> {
    let words: Vec<String> = env::args().skip(1).collect();
    let folder = words.first().expect("replay DIR [FAMILY SEED COUNT]");
    let mut files = Files::default();
    match &words[1..] {
        [] => files.stored(),
        [name, seed, count] => {
            let family = generate::find(name).expect("a family");
            let (seed, count) = (seed.parse().expect("a seed"), count.parse().expect("a count"));
            for index in 0..count {
                files.put(&generate::image(family, seed, index));
            }
        }
        _ => panic!("replay DIR [FAMILY SEED COUNT]"),
    }
    fs::write(Path::new(folder).join("stdin"), files.input)?;
    fs::write(Path::new(folder).join("stdout"), files.output)
}

#[derive(Default)]
struct Files {
    input: Vec<u8>,
    output: String,
    /// The refusals met so far.
    met: BTreeSet<u8>,
}

impl Files {
    fn stored(&mut self) {
        for family in &generate::FAMILIES {
            self.sample(family);
        }
    }

    fn sample(&mut self, family: &Family) {
        let mut left = EACH;
        // the exhaustive family changes little from one image to the next
        let step = if family.name == "exhaustive" { generate::EXHAUSTIVE_TOTAL / TRIED } else { 1 };
        for index in 0..TRIED {
            let bytes = generate::image(family, SEED, index * step);
            let small = bytes.len() <= MOST && left > 0;
            if small || self.is_new(&answer::whole(&bytes)) {
                self.put(&bytes);
                left -= usize::from(small);
            }
        }
    }

    fn is_new(&self, outcome: &Outcome) -> bool {
        outcome.as_ref().is_err_and(|refusal| !self.met.contains(&refusal.number))
    }

    fn put(&mut self, bytes: &[u8]) {
        let outcome = answer::whole(bytes);
        if let Err(refusal) = &outcome {
            self.met.insert(refusal.number);
        }
        stream::put(&mut self.input, bytes).expect("a vector takes every byte");
        self.output.push_str(&chart(&outcome));
    }
}
