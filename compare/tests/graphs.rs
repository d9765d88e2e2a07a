//! The graphs that the comparison makes are what it says of them.

use compare::broken::break_one;
use compare::noise::{fill, loosen};
use compare::words::{self, WORDS};
use compare::{proved, rule};
use oracle::generate::{self, Random};

/// Graphs that no build made, in words, and the chance behind them.
fn graphs(count: u64, mut check: impl FnMut(&mut Random, &mut [u64; WORDS])) {
    let mut words: Box<[u64; WORDS]> = fill(3);
    for index in 0..count {
        let random = &mut Random::new(3, index);
        words::write(&mut words[..], &generate::graph(3, index).0);
        loosen(random, &mut words[..]);
        check(random, &mut words);
    }
}

#[test]
fn rule_21_lets_them_pass() {
    graphs(4000, |_, words| {
        assert_eq!(rule::broken(&words[..]), [""; 0]);
        assert_eq!(proved::reached(words), Ok(words::read(&words[..]).reached().len()));
    });
}

#[test]
fn a_fault_breaks_its_phrase() {
    graphs(20_000, |random, words| {
        let phrase = break_one(random, words);
        let broken = rule::broken(&words[..]);
        assert!(broken.contains(&phrase), "{phrase}, {broken:?}");
        assert_eq!(proved::reached(words).map_err(|refusal| refusal.number), Err(21));
    });
}
