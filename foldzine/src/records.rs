//! The records of a graph, in document 01's numbers.

/// An instruction of the table.
#[derive(Debug, Clone, Copy, PartialEq, Eq)]
pub struct Instruction {
    pub address: u64,
    pub end: u64,
    pub keeps_exception_edge: bool,
    /// 0 to 12, in the order of `Flow`.
    pub flow: u8,
}

/// A run of the table: built, or a copy of a built one.
#[derive(Debug, Clone, Copy, PartialEq, Eq)]
pub struct Block {
    /// The position of the first instruction.
    pub first: usize,
    pub count: usize,
}

#[derive(Debug, Clone, Copy, PartialEq, Eq)]
pub struct Edge {
    pub source: usize,
    pub target: usize,
    /// 0 Fallthrough, 1 ConditionalTrue, 2 ConditionalFalse, 3 Jump,
    /// 4 SwitchCase, 5 Call, 6 CallReturn, 7 ExceptionUnwind.
    pub kind: u8,
    /// 0 to 10 in the order of `EdgeRole`, 11 for a given edge.
    pub role: u8,
    /// The given edge's payload, or the case index, call site, handler or
    /// route that the role carries.
    pub number: u64,
    pub case_key: u32,
    pub source_address: u64,
    pub target_address: u64,
}

/// A protected range.
#[derive(Debug, Clone, PartialEq, Eq)]
pub struct Region {
    pub parent: Option<usize>,
    pub start: u64,
    pub end: u64,
    /// How many handlers it has.
    pub handlers: usize,
    protected: [u64; 16],
}

/// A handler, by input index.
#[derive(Debug, Clone, Copy, PartialEq, Eq)]
pub struct Handler {
    pub region: usize,
    /// Its place among the handlers of the region.
    pub place: usize,
    /// Its entry block.
    pub entry: usize,
    /// 0 Catch, 1 CatchAll, 2 Finally, 3 Fault, 4 Filter.
    pub kind: u8,
    /// Of a Filter.
    pub filter: Option<u32>,
}

/// A transfer to no instruction of the table.
#[derive(Debug, Clone, Copy, PartialEq, Eq)]
pub struct Unresolved {
    pub source: u64,
    pub target: Option<u64>,
    /// 0 to 9, in the order of `UnresolvedRole`.
    pub role: u8,
    pub case: Option<usize>,
}

/// A call that was flattened.
#[derive(Debug, Clone, Copy, PartialEq, Eq)]
pub struct Call {
    pub source: u64,
    pub target: Option<u64>,
}

impl Region {
    /// Whether the region protects a block of the graph.
    pub fn protects(&self, block: usize) -> bool {
        self.protected[block / 64] >> (block % 64) & 1 == 1
    }
}

/// What each record is read from: a row of its section.
pub(crate) trait Record {
    fn of(row: &[u64]) -> Self;
}

impl Record for Instruction {
    fn of(row: &[u64]) -> Self {
        Self { address: row[0], end: row[1], keeps_exception_edge: row[3] == 1, flow: row[4] as u8 }
    }
}

impl Record for Block {
    fn of(row: &[u64]) -> Self {
        Self { first: row[0] as usize, count: row[1] as usize }
    }
}

impl Record for Edge {
    fn of(row: &[u64]) -> Self {
        Self {
            source: row[0] as usize,
            target: row[1] as usize,
            kind: row[2] as u8,
            role: row[3] as u8,
            number: row[4],
            case_key: row[5] as u32,
            source_address: row[6],
            target_address: row[7],
        }
    }
}

impl Record for Region {
    fn of(row: &[u64]) -> Self {
        Self {
            parent: (row[0] == 1).then_some(row[1] as usize),
            start: row[2],
            end: row[3],
            handlers: row[4] as usize,
            protected: std::array::from_fn(|word| row[5 + word]),
        }
    }
}

impl Record for Handler {
    fn of(row: &[u64]) -> Self {
        Self {
            region: row[0] as usize,
            place: row[1] as usize,
            entry: row[2] as usize,
            kind: row[3] as u8,
            filter: (row[3] == 4).then_some(row[4] as u32),
        }
    }
}

impl Record for Unresolved {
    fn of(row: &[u64]) -> Self {
        let role = row[2] as u8;
        Self {
            source: row[0],
            // Indirect, IndirectCall, ConditionalIndirect and Trap name none.
            target: (!matches!(role, 0 | 1 | 3 | 9)).then_some(row[1]),
            role,
            case: (role == 6).then_some(row[3] as usize),
        }
    }
}

impl Record for Call {
    fn of(row: &[u64]) -> Self {
        Self { source: row[0], target: (row[1] == 1).then_some(row[2]) }
    }
}
