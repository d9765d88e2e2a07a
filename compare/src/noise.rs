//! Words by chance: for those that nothing uses, and for whole graphs.

use oracle::generate::Random;

use crate::section::Section;
use crate::words::{CALLS, ENTRY, HANDLERS, REGIONS, SECTIONS, UNRESOLVED, WORDS};

/// As many words by a seed.
pub fn fill<const N: usize>(seed: u64) -> Box<[u64; N]> {
    let mut random = Random::new(seed, N as u64);
    let words: Vec<u64> = (0..N).map(|_| random.next()).collect();
    words.into_boxed_slice().try_into().expect("as many words")
}

/// Puts any words where a graph has an absent value, or one of which 21 asks
/// nothing.
pub fn loosen(random: &mut Random, words: &mut [u64]) {
    each(words, &REGIONS, |row| {
        if row[0] == 0 {
            row[1] = random.next();
        }
        row[2] = random.next();
    });
    each(words, &HANDLERS, |row| row[4] = random.next());
    each(words, &UNRESOLVED, |row| {
        row[1] = random.next();
        row[3] = random.next();
    });
    each(words, &CALLS, |row| {
        if row[1] == 0 {
            row[2] = random.next();
        }
    });
}

fn each(words: &mut [u64], section: &Section, mut change: impl FnMut(&mut [u64])) {
    for row in 0..section.rows(words) {
        let at = section.at(row);
        change(&mut words[at..at + section.stride]);
    }
}

/// Changes the words of a graph, or all words: mostly no graph afterwards.
pub fn scatter(random: &mut Random, words: &mut [u64; WORDS]) {
    match random.below(8) {
        0 => words.copy_from_slice(&fill::<WORDS>(random.next())[..]),
        1 => {
            // Counts within their limits over any words.
            words.copy_from_slice(&fill::<WORDS>(random.next())[..]);
            for section in &SECTIONS {
                let most = random.pick(&[1, 3, section.most]);
                words[section.count] = random.below(most + 1) as u64;
            }
            words[ENTRY] = 0;
        }
        2 => words[random.below(ENTRY + 1)] = random.next() % 5_000,
        _ => {
            for _ in 0..random.between(1, 3) {
                one(random, words);
            }
        }
    }
}

/// Changes a word that the graph uses.
fn one(random: &mut Random, words: &mut [u64; WORDS]) {
    let section = &SECTIONS[random.below(SECTIONS.len())];
    let rows = section.rows(words);
    let at = if rows == 0 || rows > section.most {
        random.below(ENTRY + 1)
    } else {
        section.at(random.below(rows)) + random.below(section.stride)
    };
    words[at] = match random.below(5) {
        0 => random.next(),
        1 => u64::MAX,
        2 => words[at].wrapping_add(1),
        3 => words[at].wrapping_sub(1),
        _ => random.below(16) as u64,
    };
}
