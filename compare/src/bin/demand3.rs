//! `demand3 SEED COUNT`: demand 3 checked on what the proved code leaves in its
//! words, by walks that were written from document 01 and know nothing of the
//! code: COUNT scripts of one to four additions over funclets that stand apart,
//! COUNT scripts of any kind, and COUNT graphs that no build made. A violation
//! is printed with the index of its script.

use std::process::ExitCode;
use std::thread;

use compare::hops::{self, HOP_WORDS};
use compare::noise::{fill, loosen};
use compare::proved;
use compare::words::{self, WORDS};
use oracle::generate::{self, Random};
use oracle::image::{read_routes, write_routes, Route};
use oracle::walks::Tally;

fn main() -> ExitCode {
    let numbers: Vec<u64> = std::env::args().skip(1).flat_map(|word| word.parse()).collect();
    let [seed, count] = numbers[..] else {
        eprintln!("demand3 SEED COUNT");
        return ExitCode::FAILURE;
    };
    let halves = [0, 1].map(|first| {
        let indices = (first..count).step_by(2);
        thread::spawn(move || half(seed, indices))
    });
    let mut sums: [Tally; 3] = Default::default();
    for half in halves {
        let tallies = half.join().expect("a thread that ends");
        sums.iter_mut().zip(&tallies).for_each(|(sum, tally)| sum.add(tally));
    }
    for (name, sum) in ["apart", "scripts", "graphs"].into_iter().zip(&sums) {
        sum.print(name);
    }
    let violations: usize = sums.iter().map(|sum| sum.violations).sum();
    println!("violations {violations}");
    if violations == 0 {
        ExitCode::SUCCESS
    } else {
        ExitCode::FAILURE
    }
}

fn half(seed: u64, indices: impl Iterator<Item = u64>) -> [Tally; 3] {
    let mut lent = Lent { words: fill(seed), hops: fill(seed) };
    let mut tallies: [Tally; 3] = Default::default();
    let [apart, any, graphs] = &mut tallies;
    for index in indices {
        let (image, lists) = generate::script_apart(seed, index);
        if proved::build(&image.write(), &mut lent.words).is_ok() {
            lent.add(apart, &lists, &format!("apart {index}"));
        }
        let strings = generate::script(seed, index);
        if proved::build(&strings[0], &mut lent.words).is_ok() {
            let lists: Vec<_> = strings[1..].iter().flat_map(|bytes| read_routes(bytes)).collect();
            lent.add(any, &lists, &format!("scripts {index}"));
        }
        let (contents, lists) = generate::graph(seed, index);
        words::write(&mut lent.words[..], &contents);
        loosen(&mut Random::new(seed + 1, index), &mut lent.words[..]);
        lent.add(graphs, &lists, &format!("graphs {index}"));
    }
    tallies
}

struct Lent {
    words: Box<[u64; WORDS]>,
    hops: Box<[u64; HOP_WORDS]>,
}

impl Lent {
    /// Adds route lists one after another to the graph that the words hold.
    fn add(&mut self, tally: &mut Tally, lists: &[Vec<Route>], name: &str) {
        for (number, routes) in lists.iter().enumerate() {
            let before = words::BLOCKS.rows(&self.words[..]);
            let bytes = write_routes(routes);
            if proved::add_routes(&mut self.words, &bytes, &mut self.hops).is_err() {
                continue;
            }
            let contents = words::read(&self.words[..]);
            let hops = hops::read(&self.hops[..], routes).expect("an accepted addition has hops");
            if let Some(finding) = tally.take(routes, before, &contents, &hops) {
                println!("{name}, addition {number}: {finding:?}");
            }
        }
    }
}
