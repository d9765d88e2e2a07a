//! Programs with a main part, handlers and funclets that stand apart, and
//! routes over them: where demand 3's conditions mostly hold.

use super::random::Random;
use super::ranges::{path, Ground};
use crate::image::{flow, kind, Case, GivenEdge, GivenSource, Image, Instruction, Path, Route};

/// A program whose parts are known, with one route list or more over it.
pub struct Funclets {
    pub image: Image,
    ground: Ground,
    /// How many instructions the main part has: they come first.
    main: usize,
    handlers: Vec<u64>,
    funclets: Vec<u64>,
}

/// The program, still without routes.
pub fn funclets(random: &mut Random, modes: &[u8]) -> Funclets {
    let mut body = Body { random, instructions: Vec::new() };
    let main = body.main();
    let count = body.random.between(1, 3);
    let handlers = (0..count).map(|_| body.handler()).collect();
    let count = body.random.between(1, 4);
    let funclets = (0..count).map(|_| body.funclet()).collect();
    let mut instructions = body.instructions;
    for instruction in &mut instructions {
        instruction.keeps = random.percent(85);
    }
    let mut image = Image {
        mode: random.pick(modes),
        calls: random.below(2) as u8,
        instructions,
        ..Image::default()
    };
    if image.mode == 2 {
        image.given = given(&image.instructions);
    }
    let ground = Ground::of(&image.instructions).expect("instructions");
    Funclets { image, ground, main, handlers, funclets }
}

impl Funclets {
    /// A route list over the main part, and now and then over anything.
    pub fn routes(&self, random: &mut Random) -> Vec<Route> {
        let mut earlier: Vec<Path> = Vec::new();
        let count = random.between(1, 3);
        (0..count)
            .map(|_| {
                let most = if random.percent(95) { self.main } else { self.ground.starts.len() };
                let first = random.below(most);
                let last = random.between(first + 1, most);
                let (start, end) = self.ground.range(first, last);
                let count = random.between(0, 4);
                let paths = (0..count).map(|_| self.path(random, &mut earlier)).collect();
                Route { start, end, paths }
            })
            .collect()
    }

    fn path(&self, random: &mut Random, earlier: &mut Vec<Path>) -> Path {
        let path = path(random, &self.funclets, &self.handlers, earlier, 4);
        earlier.push(path.clone());
        path
    }
}

/// Instructions of one address each, side by side.
struct Body<'r> {
    random: &'r mut Random,
    instructions: Vec<Instruction>,
}

impl Body<'_> {
    fn here(&self) -> u64 {
        self.instructions.len() as u64
    }

    fn put(&mut self, code: u8, target: u64) {
        let address = self.here();
        self.instructions.push(Instruction {
            address,
            end: Some(address + 1),
            flow: code,
            target,
            ..Instruction::default()
        });
    }

    fn put_switch(&mut self, default: u64, targets: &[u64]) {
        self.put(flow::SWITCH, default);
        let cases = targets.iter().zip(1..).map(|(&target, key)| Case { key, target }).collect();
        self.instructions.last_mut().expect("just put").cases = cases;
    }

    /// Two to six instructions, left by a return.
    fn main(&mut self) -> usize {
        let count = self.random.between(2, 6);
        for _ in 1..count {
            let target = self.random.below(count) as u64;
            match self.random.below(6) {
                0 => self.put(flow::CONDITIONAL, target),
                1 => self.put(flow::CALL, target),
                2 => self.put(flow::EXCEPTIONAL, target),
                _ => self.put(flow::NEXT, 0),
            }
        }
        self.put(flow::RETURN, 0);
        count
    }

    fn handler(&mut self) -> u64 {
        let entry = self.here();
        let code = self.random.pick(&[flow::RETURN, flow::THROW, flow::INDIRECT]);
        self.put(code, 0);
        entry
    }

    /// A body that as a rule returns.
    fn funclet(&mut self) -> u64 {
        let entry = self.here();
        match self.random.below(20) {
            0..=4 => {}
            5..=7 => self.put(flow::NEXT, 0),
            8..=9 => self.put(flow::CONDITIONAL, entry),
            10..=12 => {
                self.put(flow::CONDITIONAL, entry + 2);
                self.put_end();
            }
            13..=14 => {
                let callee = self.random.below(entry as usize + 2) as u64;
                self.put(flow::CALL, callee);
            }
            15..=16 => {
                self.put_switch(entry + 1, &[entry + 2, entry + 3, entry + 2]);
                self.put_end();
                self.put(flow::THROW, 0);
            }
            17 => self.put(flow::JUMP, entry + 1),
            // Into whatever stands behind, or round in a ring.
            18 => {
                self.put(flow::NEXT, 0);
                return entry;
            }
            _ => {
                self.put(flow::JUMP, entry);
                return entry;
            }
        }
        self.put_end();
        entry
    }

    /// A return, or a jump to no start.
    fn put_end(&mut self) {
        if self.random.percent(70) {
            self.put(flow::RETURN, 0);
        } else {
            self.put(flow::JUMP, 1000);
        }
    }
}

/// The flows' own edges as given ones, calls and plain instructions left out
/// where they go on to a start.
fn given(table: &[Instruction]) -> Vec<GivenSource> {
    let count = table.len() as u64;
    let goes_on =
        |one: &Instruction| matches!(one.flow, flow::NEXT | flow::CALL) && one.address + 1 < count;
    let edges = |one: &Instruction| {
        let named = flow::has_target(one.flow).then_some(one.target);
        let next =
            matches!(one.flow, flow::CONDITIONAL | flow::EXCEPTIONAL).then_some(one.address + 1);
        let targets = named.into_iter().chain(next).chain(one.cases.iter().map(|case| case.target));
        targets
            .filter(|&target| target < count)
            .map(|target| GivenEdge { target, kind: kind::JUMP, payload: one.address as u32 })
            .collect()
    };
    table
        .iter()
        .filter(|one| !goes_on(one))
        .map(|one| GivenSource { address: one.address, edges: edges(one) })
        .collect()
}
