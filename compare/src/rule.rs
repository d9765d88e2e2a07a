//! Rule 21, 'the graph is none, unless all of this holds', asked of any words:
//! written from document 01, phrase by phrase.

use crate::words::{BLOCKS, CALLS, EDGES, ENTRY, HANDLERS, REGIONS, SECTIONS, TABLE, UNRESOLVED};

/// Whether the words hold a graph.
pub fn is_graph(words: &[u64]) -> bool {
    limits(words) && {
        let rows = Rows::of(words);
        PHRASES.iter().all(|(_, holds)| holds(&rows))
    }
}

/// The phrases that do not hold; where a count is over its limit nothing else
/// is asked.
pub fn broken(words: &[u64]) -> Vec<&'static str> {
    if !limits(words) {
        return vec![LIMITS];
    }
    let rows = Rows::of(words);
    PHRASES.iter().filter(|(_, holds)| !holds(&rows)).map(|(name, _)| *name).collect()
}

pub const LIMITS: &str = "limits";
pub const TABLE_PASSES: &str = "table passes 3 to 5";
pub const ENTRY_EXISTS: &str = "entry exists";
pub const EDGE_ENDS: &str = "edge ends exist";
pub const REGION_BLOCKS: &str = "blocks of regions exist";
pub const PARENTS: &str = "parents exist";
pub const NAMED: &str = "references name handlers";
pub const ONE_EACH: &str = "one reference each";
pub const SETS: &str = "in their sets";
pub const COVERED: &str = "built blocks cover the table";
pub const REPEATED: &str = "copies repeat a built run";
pub const NONE_EMPTY: &str = "only an empty table's block is empty";

/// All phrases.
pub const NAMES: [&str; 12] = [
    LIMITS,
    TABLE_PASSES,
    ENTRY_EXISTS,
    EDGE_ENDS,
    REGION_BLOCKS,
    PARENTS,
    NAMED,
    ONE_EACH,
    SETS,
    COVERED,
    REPEATED,
    NONE_EMPTY,
];

type Phrase = (&'static str, fn(&Rows) -> bool);

const PHRASES: [Phrase; 11] = [
    (TABLE_PASSES, table_passes),
    (ENTRY_EXISTS, |rows| rows.is_block(rows.entry)),
    (EDGE_ENDS, |rows| rows.edges.iter().all(|row| rows.is_block(row[0]) && rows.is_block(row[1]))),
    (REGION_BLOCKS, region_blocks),
    (PARENTS, |rows| rows.regions.iter().all(|row| row[0] == 0 || rows.is_region(row[1]))),
    (NAMED, |rows| rows.handlers.iter().all(|row| rows.names(row))),
    (ONE_EACH, one_each),
    (SETS, in_sets),
    (COVERED, |rows| rows.built().is_some()),
    (REPEATED, copies_repeat),
    (NONE_EMPTY, none_empty),
];

/// 'an instruction table of at most 512', '1 to 1,024 blocks', and so on.
fn limits(words: &[u64]) -> bool {
    let within = SECTIONS.iter().all(|section| words[section.count] <= section.most as u64);
    within && words[BLOCKS.count] > 0
}

/// The rows of each section, whose counts are within their limits.
struct Rows<'w> {
    entry: u64,
    table: Vec<&'w [u64]>,
    blocks: Vec<&'w [u64]>,
    edges: Vec<&'w [u64]>,
    regions: Vec<&'w [u64]>,
    handlers: Vec<&'w [u64]>,
    unresolved: Vec<&'w [u64]>,
    calls: Vec<&'w [u64]>,
}

impl<'w> Rows<'w> {
    fn of(words: &'w [u64]) -> Self {
        Self {
            entry: words[ENTRY],
            table: TABLE.read(words).collect(),
            blocks: BLOCKS.read(words).collect(),
            edges: EDGES.read(words).collect(),
            regions: REGIONS.read(words).collect(),
            handlers: HANDLERS.read(words).collect(),
            unresolved: UNRESOLVED.read(words).collect(),
            calls: CALLS.read(words).collect(),
        }
    }

    fn is_block(&self, block: u64) -> bool {
        block < self.blocks.len() as u64
    }

    fn is_region(&self, region: u64) -> bool {
        region < self.regions.len() as u64
    }

    /// Whether a reference names a handler that its region has.
    fn names(&self, reference: &[u64]) -> bool {
        self.is_region(reference[0]) && reference[1] < self.regions[reference[0] as usize][4]
    }

    /// How many blocks are built: the first ones, which cover the table in
    /// order. None where they do not.
    fn built(&self) -> Option<usize> {
        let table = self.table.len() as u64;
        let mut filled = 0u64;
        for (number, block) in self.blocks.iter().enumerate() {
            if filled == table && number > 0 {
                return Some(number);
            }
            let past = filled.checked_add(block[1])?;
            if block[0] != filled || past > table {
                return None;
            }
            filled = past;
        }
        (filled == table).then_some(self.blocks.len())
    }
}

fn table_passes(rows: &Rows) -> bool {
    let alone = rows.table.iter().all(|row| row[2] == 1 && row[0] < row[1]);
    alone && rows.table.windows(2).all(|pair| pair[0][0] < pair[1][0])
}

/// Of the blocks of regions the protected ones and the handlers' entries.
fn region_blocks(rows: &Rows) -> bool {
    let blocks = rows.blocks.len();
    let stray = |set: &[u64]| (blocks..1024).any(|block| set[block / 64] >> (block % 64) & 1 == 1);
    rows.regions.iter().all(|row| !stray(&row[5..]))
        && rows.handlers.iter().all(|row| rows.is_block(row[2]))
}

/// No handler is named twice, and none is left out.
fn one_each(rows: &Rows) -> bool {
    let mut named: Vec<(u64, u64)> = rows.handlers.iter().map(|row| (row[0], row[1])).collect();
    named.sort_unstable();
    named.dedup();
    let handlers: u128 = rows.regions.iter().map(|row| u128::from(row[4])).sum();
    named.len() == rows.handlers.len() && handlers == rows.handlers.len() as u128
}

/// Flows, kinds and roles; a flag's set is 0 and 1.
fn in_sets(rows: &Rows) -> bool {
    rows.table.iter().all(|row| row[3] <= 1 && row[4] <= 12)
        && rows.edges.iter().all(|row| row[2] <= 7 && row[3] <= 11)
        && rows.regions.iter().all(|row| row[0] <= 1)
        && rows.handlers.iter().all(|row| row[3] <= 4)
        && rows.unresolved.iter().all(|row| row[2] <= 9)
        && rows.calls.iter().all(|row| row[1] <= 1)
}

/// Asked where the built blocks cover the table.
fn copies_repeat(rows: &Rows) -> bool {
    rows.built().is_none_or(|built| {
        let (built, copies) = rows.blocks.split_at(built);
        copies.iter().all(|copy| built.contains(copy))
    })
}

fn none_empty(rows: &Rows) -> bool {
    if rows.table.is_empty() {
        rows.blocks.len() == 1
    } else {
        rows.blocks.iter().all(|block| block[1] > 0)
    }
}
