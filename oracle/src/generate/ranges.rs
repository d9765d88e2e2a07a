//! Protected ranges over a table, and the handlers and routes that have them.

use super::random::Random;
use super::table::code_end;
use crate::image::{End, Handler, Instruction, Path, Route, Step, FILTER};

/// A table as ranges see it: its starts and its greatest end. It has at least
/// one instruction.
pub struct Ground {
    pub starts: Vec<u64>,
    end: u64,
}

impl Ground {
    pub fn of(table: &[Instruction]) -> Option<Self> {
        let end = code_end(table)?;
        Some(Self { starts: table.iter().map(|one| one.address).collect(), end })
    }

    /// The range of the positions from `first` up to `last`.
    pub fn range(&self, first: usize, last: usize) -> (u64, u64) {
        (self.starts[first], self.starts.get(last).copied().unwrap_or(self.end))
    }

    /// A good range: new, equal to an earlier one, or beside or inside it.
    fn some_range(&self, random: &mut Random, earlier: &[(u64, u64)]) -> (u64, u64) {
        let count = self.starts.len();
        let first = random.below(count);
        let last = random.between(first + 1, count);
        if earlier.is_empty() || random.percent(40) {
            return self.range(first, last);
        }
        let (start, end) = random.pick(earlier);
        let place = |address: u64| self.starts.partition_point(|&start| start < address);
        let (first, last) = (place(start), place(end));
        match random.below(3) {
            0 => (start, end),
            1 => {
                let inner = random.between(first, last - 1);
                self.range(inner, random.between(inner + 1, last))
            }
            _ if last < count => self.range(first + 1, last + 1),
            _ => (start, end),
        }
    }
}

pub fn handlers(random: &mut Random, ground: &Ground, count: usize) -> Vec<Handler> {
    let mut earlier = Vec::new();
    let mut handlers = Vec::new();
    for _ in 0..count {
        let (start, end) = ground.some_range(random, &earlier);
        earlier.push((start, end));
        let kind = random.below(usize::from(FILTER) + 1) as u8;
        let filter = if kind == FILTER { random.word() } else { 0 };
        let entry = random.pick(&ground.starts);
        handlers.push(Handler { start, end, entry, kind, filter });
    }
    handlers
}

/// How many routes, and how many paths and steps each has at most.
#[derive(Clone, Copy)]
pub struct Sizes {
    pub routes: usize,
    pub paths: usize,
    pub steps: usize,
}

pub fn routes(random: &mut Random, ground: &Ground, sizes: Sizes) -> Vec<Route> {
    let funclets = some_starts(random, ground, 3);
    let targets = some_starts(random, ground, 3);
    let mut earlier_ranges = Vec::new();
    let mut earlier_paths: Vec<Path> = Vec::new();
    let mut routes = Vec::new();
    for _ in 0..sizes.routes {
        let (start, end) = ground.some_range(random, &earlier_ranges);
        earlier_ranges.push((start, end));
        let count = random.between(0, sizes.paths);
        let paths: Vec<Path> = (0..count)
            .map(|_| {
                let path = path(random, &funclets, &targets, &earlier_paths, sizes.steps);
                earlier_paths.push(path.clone());
                path
            })
            .collect();
        routes.push(Route { start, end, paths });
    }
    routes
}

/// A few starts to name again and again.
fn some_starts(random: &mut Random, ground: &Ground, most: usize) -> Vec<u64> {
    let count = random.between(1, most);
    (0..count).map(|_| random.pick(&ground.starts)).collect()
}

/// A path: new, or with the steps of an earlier one, or behind steps of its own.
pub fn path(
    random: &mut Random,
    funclets: &[u64],
    targets: &[u64],
    earlier: &[Path],
    most: usize,
) -> Path {
    let mut steps = Vec::new();
    if !earlier.is_empty() && random.percent(40) {
        steps.clone_from(&earlier[random.below(earlier.len())].steps);
    }
    for _ in 0..random.between(0, most) {
        if steps.len() < most {
            let step = step(random, funclets);
            steps.insert(random.below(steps.len() + 1), step);
        }
    }
    let enters = steps.iter().any(|step| matches!(step, Step::Funclet(_)));
    let end = match random.below(4) {
        0 | 1 => End::Handler(random.pick(targets)),
        2 if !enters => End::Resume,
        _ => End::Propagate,
    };
    Path { steps, end }
}

fn step(random: &mut Random, funclets: &[u64]) -> Step {
    if random.percent(65) {
        Step::Funclet(random.pick(funclets))
    } else {
        Step::Call(random.word())
    }
}
