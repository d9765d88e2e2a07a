//! Graphs with one phrase of 21 broken.

use oracle::generate::Random;

use crate::rule::{
    COVERED, EDGE_ENDS, ENTRY_EXISTS, LIMITS, NAMED, NONE_EMPTY, ONE_EACH, PARENTS, REGION_BLOCKS,
    REPEATED, SETS, TABLE_PASSES,
};
use crate::section::Section;
use crate::words::{
    self, BLOCKS, CALLS, EDGES, ENTRY, HANDLERS, REGIONS, SECTIONS, TABLE, UNRESOLVED, WORDS,
};

type Words = [u64; WORDS];

/// Breaks the phrase that stands beside it. None, and nothing changed, where
/// the graph has not got what it needs.
type Fault = fn(&mut Random, &mut Words) -> Option<()>;

/// Breaks one phrase in words that hold a graph, and names it.
pub fn break_one(random: &mut Random, words: &mut Words) -> &'static str {
    loop {
        let (phrase, fault) = random.pick(&FAULTS);
        if fault(random, words).is_some() {
            return phrase;
        }
    }
}

const FAULTS: [(&str, Fault); 30] = [
    (LIMITS, over_limit),
    (LIMITS, |_, words| put(words, BLOCKS.count, 0)),
    (TABLE_PASSES, |random, words| put(words, field(random, words, &TABLE, 2)?, 0)),
    (TABLE_PASSES, |random, words| put_above(random, words, &TABLE, 2, 1)),
    (TABLE_PASSES, low_end),
    (TABLE_PASSES, low_address),
    (ENTRY_EXISTS, |random, words| put(words, ENTRY, past(random, words, &BLOCKS))),
    (EDGE_ENDS, |random, words| put_past(random, words, &EDGES, 0, &BLOCKS)),
    (EDGE_ENDS, |random, words| put_past(random, words, &EDGES, 1, &BLOCKS)),
    (REGION_BLOCKS, protects_none),
    (REGION_BLOCKS, |random, words| put_past(random, words, &HANDLERS, 2, &BLOCKS)),
    (PARENTS, lost_parent),
    (NAMED, |random, words| put_past(random, words, &HANDLERS, 0, &REGIONS)),
    (NAMED, lost_place),
    (ONE_EACH, named_twice),
    (ONE_EACH, left_out),
    (SETS, |random, words| put_above(random, words, &TABLE, 3, 1)),
    (SETS, |random, words| put_above(random, words, &TABLE, 4, 12)),
    (SETS, |random, words| put_above(random, words, &EDGES, 2, 7)),
    (SETS, |random, words| put_above(random, words, &EDGES, 3, 11)),
    (SETS, odd_parent_flag),
    (SETS, |random, words| put_above(random, words, &HANDLERS, 3, 4)),
    (SETS, |random, words| put_above(random, words, &UNRESOLVED, 2, 9)),
    (SETS, |random, words| put_above(random, words, &CALLS, 1, 1)),
    (COVERED, other_run),
    (COVERED, more_table),
    (COVERED, swapped),
    (REPEATED, odd_copy),
    (NONE_EMPTY, empty_between),
    (NONE_EMPTY, two_of_nothing),
];

fn put(words: &mut Words, at: usize, word: u64) -> Option<()> {
    words[at] = word;
    Some(())
}

/// A row of a section, if it has one.
fn row(random: &mut Random, words: &Words, section: &Section) -> Option<usize> {
    let rows = section.rows(words);
    (rows > 0).then(|| section.at(random.below(rows)))
}

fn field(random: &mut Random, words: &Words, section: &Section, place: usize) -> Option<usize> {
    Some(row(random, words, section)? + place)
}

/// A number above another, of any size.
fn above(random: &mut Random, most: u64) -> u64 {
    most + random.pick(&[1, 1, 2, 1 << 16, 1 << 32, 1 << 63])
}

/// A number of no row.
fn past(random: &mut Random, words: &Words, section: &Section) -> u64 {
    above(random, words[section.count]) - 1
}

/// Puts a number above `most` into a field of some row.
fn put_above(
    random: &mut Random,
    words: &mut Words,
    section: &Section,
    place: usize,
    most: u64,
) -> Option<()> {
    let at = field(random, words, section, place)?;
    put(words, at, above(random, most))
}

/// Puts the number of no row of `other` into a field of some row.
fn put_past(
    random: &mut Random,
    words: &mut Words,
    section: &Section,
    place: usize,
    other: &Section,
) -> Option<()> {
    let at = field(random, words, section, place)?;
    put(words, at, past(random, words, other))
}

fn over_limit(random: &mut Random, words: &mut Words) -> Option<()> {
    let section = &SECTIONS[random.below(SECTIONS.len())];
    put(words, section.count, above(random, section.most as u64))
}

fn low_end(random: &mut Random, words: &mut Words) -> Option<()> {
    let at = row(random, words, &TABLE)?;
    let address = words[at];
    put(words, at + 1, random.pick(&[address, address / 2, 0]))
}

fn low_address(random: &mut Random, words: &mut Words) -> Option<()> {
    let later = TABLE.rows(words).checked_sub(1).filter(|&later| later > 0)?;
    let at = TABLE.at(random.between(1, later));
    let previous = words[at - TABLE.stride];
    put(words, at, random.pick(&[previous, previous / 2, 0]))
}

fn protects_none(random: &mut Random, words: &mut Words) -> Option<()> {
    let at = row(random, words, &REGIONS)?;
    let blocks = BLOCKS.rows(words);
    let last = BLOCKS.most - 1;
    if blocks > last {
        return None;
    }
    let any = random.between(blocks, last);
    let block = random.pick(&[blocks, any, last]);
    words[at + 5 + block / 64] |= 1 << (block % 64);
    Some(())
}

fn lost_parent(random: &mut Random, words: &mut Words) -> Option<()> {
    let at = row(random, words, &REGIONS)?;
    words[at] = 1;
    put(words, at + 1, past(random, words, &REGIONS))
}

fn odd_parent_flag(random: &mut Random, words: &mut Words) -> Option<()> {
    let at = row(random, words, &REGIONS)?;
    words[at + 1] = 0;
    put(words, at, above(random, 1))
}

fn lost_place(random: &mut Random, words: &mut Words) -> Option<()> {
    let at = row(random, words, &HANDLERS)?;
    let handlers = words[REGIONS.at(words[at] as usize) + 4];
    put(words, at + 1, above(random, handlers) - 1)
}

fn named_twice(random: &mut Random, words: &mut Words) -> Option<()> {
    let (one, other) = (row(random, words, &HANDLERS)?, row(random, words, &HANDLERS)?);
    (one != other).then(|| words.copy_within(one..one + 2, other))
}

fn left_out(random: &mut Random, words: &mut Words) -> Option<()> {
    let at = row(random, words, &REGIONS)?;
    put(words, at + 4, above(random, words[at + 4]))
}

/// How many blocks are built.
fn built(words: &Words) -> usize {
    words::read(words).built_blocks()
}

/// A built run that begins behind the one before it ends, or runs past the
/// table.
fn other_run(random: &mut Random, words: &mut Words) -> Option<()> {
    let at = BLOCKS.at(random.below(built(words)));
    if random.percent(50) {
        put(words, at, above(random, words[at]))
    } else {
        put(words, at + 1, above(random, words[TABLE.count]))
    }
}

/// An instruction that no block has.
fn more_table(_: &mut Random, words: &mut Words) -> Option<()> {
    let rows = TABLE.rows(words);
    let last = rows.checked_sub(1).map_or(0, |last| words[TABLE.at(last)]);
    if rows == TABLE.most || last > u64::MAX - 2 {
        return None;
    }
    let at = TABLE.at(rows);
    words[at..at + TABLE.stride].copy_from_slice(&[last + 1, last + 2, 1, 0, 0]);
    put(words, TABLE.count, rows as u64 + 1)
}

fn swapped(random: &mut Random, words: &mut Words) -> Option<()> {
    let built = built(words);
    let (one, other) = (BLOCKS.at(random.below(built)), BLOCKS.at(random.below(built)));
    words.swap(one, other);
    words.swap(one + 1, other + 1);
    (one != other).then_some(())
}

fn odd_copy(random: &mut Random, words: &mut Words) -> Option<()> {
    let (built, blocks) = (built(words), BLOCKS.rows(words));
    if built == blocks {
        return None;
    }
    let at = BLOCKS.at(random.between(built, blocks - 1));
    if random.percent(50) {
        put(words, at, past(random, words, &TABLE))
    } else {
        put(words, at + 1, above(random, words[at + 1]))
    }
}

/// An empty block before some built one.
fn empty_between(random: &mut Random, words: &mut Words) -> Option<()> {
    let blocks = BLOCKS.rows(words);
    if TABLE.rows(words) == 0 || blocks == BLOCKS.most {
        return None;
    }
    let at = BLOCKS.at(random.below(built(words)));
    words.copy_within(at..BLOCKS.at(blocks), at + BLOCKS.stride);
    words[at + 1] = 0;
    put(words, BLOCKS.count, blocks as u64 + 1)
}

/// Two blocks of an empty table.
fn two_of_nothing(_: &mut Random, words: &mut Words) -> Option<()> {
    if TABLE.rows(words) > 0 {
        return None;
    }
    let at = BLOCKS.at(1);
    words[at..at + BLOCKS.stride].fill(0);
    put(words, BLOCKS.count, 2)
}
