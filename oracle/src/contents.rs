//! All that a graph holds, in document 01's numbers.

use std::collections::BTreeSet;

/// A graph: what `built`, `block`, `edge` and the other lines are read from.
#[derive(Debug, Clone, PartialEq, Eq, Default)]
pub struct Contents {
    pub table: Vec<Row>,
    pub entry: usize,
    pub blocks: Vec<Block>,
    pub edges: Vec<Edge>,
    pub regions: Vec<Region>,
    /// By input index: the region and the place in it.
    pub references: Vec<Reference>,
    pub unresolved: Vec<Unresolved>,
    pub calls: Vec<Call>,
}

/// An instruction of the table.
#[derive(Debug, Clone, Copy, PartialEq, Eq)]
pub struct Row {
    pub address: u64,
    pub end: u64,
    pub keeps: bool,
    pub flow: u8,
}

/// A run of the table: built, or a copy of a built one.
#[derive(Debug, Clone, Copy, PartialEq, Eq)]
pub struct Block {
    /// The position of the first instruction, 0 for the empty block.
    pub first: usize,
    pub count: usize,
}

/// An edge with the whole of its `AddressEdgeInfo`. A given edge has no such
/// record: its role is 11, its number the payload, the rest 0.
#[derive(Debug, Clone, Copy, PartialEq, Eq)]
pub struct Edge {
    pub source: usize,
    pub target: usize,
    pub kind: u8,
    pub payload: Payload,
}

#[derive(Debug, Clone, Copy, PartialEq, Eq, Default)]
pub struct Payload {
    pub role: u8,
    pub number: u64,
    pub case_key: u64,
    pub source_address: u64,
    pub target_address: u64,
}

#[derive(Debug, Clone, PartialEq, Eq)]
pub struct Region {
    pub parent: Option<usize>,
    pub start: u64,
    pub end: u64,
    pub protected: BTreeSet<usize>,
    pub handlers: Vec<RegionHandler>,
}

#[derive(Debug, Clone, Copy, PartialEq, Eq)]
pub struct RegionHandler {
    pub entry: usize,
    pub kind: u8,
    pub filter: Option<u32>,
}

#[derive(Debug, Clone, Copy, PartialEq, Eq)]
pub struct Reference {
    pub region: usize,
    pub place: usize,
}

#[derive(Debug, Clone, Copy, PartialEq, Eq)]
pub struct Unresolved {
    pub source: u64,
    pub target: Option<u64>,
    pub role: u8,
    pub case: Option<usize>,
}

#[derive(Debug, Clone, Copy, PartialEq, Eq)]
pub struct Call {
    pub source: u64,
    pub target: Option<u64>,
}

/// A hop of an addition. No end block is `leave`.
#[derive(Debug, Clone, PartialEq, Eq)]
pub struct Hop {
    pub source: usize,
    pub end: Option<usize>,
    pub lists: Vec<Vec<u32>>,
}

impl Contents {
    /// The first address of a block, none for the empty one.
    pub fn first_address(&self, block: usize) -> Option<u64> {
        let Block { first, count } = self.blocks[block];
        (count > 0).then(|| self.table[first].address)
    }

    /// The block's last instruction, none for the empty block.
    pub fn last(&self, block: usize) -> Option<&Row> {
        let Block { first, count } = self.blocks[block];
        (count > 0).then(|| &self.table[first + count - 1])
    }

    /// How many blocks were built: those whose runs fill the table.
    pub fn built_blocks(&self) -> usize {
        let mut filled = 0;
        for (number, block) in self.blocks.iter().enumerate() {
            if filled == self.table.len() && number > 0 {
                return number;
            }
            filled += block.count;
        }
        self.blocks.len()
    }

    /// The targets of each block's edges, in order of adding.
    pub fn successors(&self) -> Vec<Vec<usize>> {
        let mut successors = vec![Vec::new(); self.blocks.len()];
        for edge in &self.edges {
            successors[edge.source].push(edge.target);
        }
        successors
    }

    /// The entry block and every block that an edge of any kind leads to from
    /// a reached one.
    pub fn reached(&self) -> BTreeSet<usize> {
        let successors = self.successors();
        let mut reached = BTreeSet::from([self.entry]);
        let mut open = vec![self.entry];
        while let Some(block) = open.pop() {
            for &target in &successors[block] {
                if reached.insert(target) {
                    open.push(target);
                }
            }
        }
        reached
    }
}
