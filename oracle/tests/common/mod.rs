//! Small records for the tests.

use oracle::image::{End, Image, Instruction, Path, Route, Step};

/// An instruction that keeps its exception edge.
pub fn instruction(address: u64, end: u64, flow: u8, target: u64) -> Instruction {
    let (end, cases) = (Some(end), Vec::new());
    Instruction { address, end, keeps: true, flow, target, cases }
}

/// An image of flows, calls as edges, no entry.
pub fn image(instructions: Vec<Instruction>) -> Image {
    Image { instructions, ..Image::default() }
}

/// A route of one path.
pub fn route(start: u64, end: u64, steps: Vec<Step>, to: End) -> Route {
    Route { start, end, paths: vec![Path { steps, end: to }] }
}
