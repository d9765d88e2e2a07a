//! The sequence image and the route image of document 01, as records.
//!
//! This and the files in `image/` are a second reading of document 01 ('The
//! sequence image', refusals 1 and 2): written from the paper, sharing nothing
//! with any other reader.

mod read;
mod write;

pub use read::{read_image, read_routes};
pub use write::write_routes;

/// A refusal: its number in document 01 and its two values.
#[derive(Debug, Clone, Copy, PartialEq, Eq, PartialOrd, Ord, Hash)]
pub struct Refusal {
    pub number: u8,
    pub first: u64,
    pub second: u64,
}

impl Refusal {
    pub const fn new(number: u8, first: u64, second: u64) -> Self {
        Self { number, first, second }
    }
}

/// A whole sequence image, each child with its parent.
#[derive(Debug, Clone, PartialEq, Eq, Default)]
pub struct Image {
    /// 0 flow, 1 flow with routes, 2 given edges.
    pub mode: u8,
    /// 0 Edges, 1 Flatten.
    pub calls: u8,
    pub entry: Option<u64>,
    pub instructions: Vec<Instruction>,
    pub given: Vec<GivenSource>,
    pub handlers: Vec<Handler>,
    pub routes: Vec<Route>,
}

#[derive(Debug, Clone, PartialEq, Eq, Default)]
pub struct Instruction {
    pub address: u64,
    pub end: Option<u64>,
    pub keeps: bool,
    pub flow: u8,
    /// The target, or a switch's default; 0 where the flow has neither.
    pub target: u64,
    pub cases: Vec<Case>,
}

#[derive(Debug, Clone, Copy, PartialEq, Eq)]
pub struct Case {
    pub key: u32,
    pub target: u64,
}

#[derive(Debug, Clone, PartialEq, Eq)]
pub struct GivenSource {
    pub address: u64,
    pub edges: Vec<GivenEdge>,
}

#[derive(Debug, Clone, Copy, PartialEq, Eq)]
pub struct GivenEdge {
    pub target: u64,
    pub kind: u8,
    pub payload: u32,
}

#[derive(Debug, Clone, Copy, PartialEq, Eq)]
pub struct Handler {
    pub start: u64,
    pub end: u64,
    pub entry: u64,
    pub kind: u8,
    /// The filter block; 0 where the kind is not Filter.
    pub filter: u32,
}

#[derive(Debug, Clone, PartialEq, Eq)]
pub struct Route {
    pub start: u64,
    pub end: u64,
    pub paths: Vec<Path>,
}

#[derive(Debug, Clone, PartialEq, Eq, PartialOrd, Ord)]
pub struct Path {
    pub steps: Vec<Step>,
    pub end: End,
}

#[derive(Debug, Clone, Copy, PartialEq, Eq, PartialOrd, Ord)]
pub enum Step {
    Funclet(u64),
    Call(u32),
}

#[derive(Debug, Clone, Copy, PartialEq, Eq, PartialOrd, Ord)]
pub enum End {
    Handler(u64),
    Propagate,
    Resume,
}

/// Flow codes, in the order of `Flow`.
pub mod flow {
    pub const NEXT: u8 = 0;
    pub const RETURN: u8 = 1;
    pub const THROW: u8 = 2;
    pub const INDIRECT: u8 = 3;
    pub const CONDITIONAL_INDIRECT: u8 = 4;
    pub const INDIRECT_CALL: u8 = 5;
    pub const JUMP: u8 = 6;
    pub const CONDITIONAL: u8 = 7;
    pub const CALL: u8 = 8;
    pub const EXCEPTIONAL: u8 = 9;
    pub const TRAP: u8 = 10;
    pub const CONDITIONAL_TRAP: u8 = 11;
    pub const SWITCH: u8 = 12;

    /// Whether the flow names a target, or a default.
    pub const fn has_target(code: u8) -> bool {
        matches!(code, JUMP | CONDITIONAL | CALL | EXCEPTIONAL | SWITCH)
    }
}

/// Edge kinds, as document 01 counts them.
pub mod kind {
    pub const JUMP: u8 = 3;
    pub const CALL: u8 = 5;
    pub const EXCEPTION_UNWIND: u8 = 7;
    /// How many there are.
    pub const COUNT: u8 = 8;
}

/// The handler kind that has a filter block.
pub const FILTER: u8 = 4;

/// The greatest counts of the sections, in file order.
pub mod limit {
    pub const INSTRUCTIONS: usize = 512;
    pub const CASES: usize = 512;
    pub const GIVEN_SOURCES: usize = 512;
    pub const GIVEN_EDGES: usize = 512;
    pub const HANDLERS: usize = 32;
    pub const ROUTES: usize = 32;
    pub const PATHS: usize = 128;
    pub const STEPS: usize = 512;
}
