//! Regions, handlers, unresolved records and calls by chance. No addition
//! looks at them; 21 does.

use super::bend::any;
use crate::contents::{Call, Contents, Reference, Region, RegionHandler, Unresolved};
use crate::generate::random::Random;
use crate::image::FILTER;

/// How many of a kind there are, by its limit.
type Count = fn(&mut Random, usize) -> usize;

pub fn few(random: &mut Random, limit: usize) -> usize {
    random.pick(&[0, 0, 1, 2, limit.min(5)])
}

pub fn full(random: &mut Random, limit: usize) -> usize {
    limit - random.pick(&[0, 0, 1])
}

/// Replaces the records of a graph.
pub fn records(random: &mut Random, contents: &mut Contents, count: Count) {
    let blocks = contents.blocks.len();
    let regions = count(random, 32);
    contents.regions = (0..regions).map(|_| region(random, regions, blocks)).collect();
    let handlers = if regions == 0 { 0 } else { count(random, 32) };
    for _ in 0..handlers {
        let handler = handler(random, blocks);
        contents.regions[random.below(regions)].handlers.push(handler);
    }
    contents.references = references(random, &contents.regions);
    contents.unresolved = (0..count(random, 1024)).map(|_| unresolved(random)).collect();
    contents.calls = (0..count(random, 512)).map(|_| call(random)).collect();
}

/// A region without handlers, under any region or none.
fn region(random: &mut Random, regions: usize, blocks: usize) -> Region {
    let protected = random.between(0, 8);
    Region {
        parent: random.percent(50).then(|| random.below(regions)),
        start: any(random),
        end: any(random),
        protected: (0..protected).map(|_| random.below(blocks)).collect(),
        handlers: Vec::new(),
    }
}

fn handler(random: &mut Random, blocks: usize) -> RegionHandler {
    let kind = random.below(usize::from(FILTER) + 1) as u8;
    let filter = (kind == FILTER).then(|| random.word());
    RegionHandler { entry: random.below(blocks), kind, filter }
}

/// Each handler once, in any order.
fn references(random: &mut Random, regions: &[Region]) -> Vec<Reference> {
    let mut references = Vec::new();
    for (region, one) in regions.iter().enumerate() {
        for place in 0..one.handlers.len() {
            let at = random.below(references.len() + 1);
            references.insert(at, Reference { region, place });
        }
    }
    references
}

fn unresolved(random: &mut Random) -> Unresolved {
    let role = random.below(10) as u8;
    let case = (role == 6).then(|| random.below(512));
    let target = (!matches!(role, 0 | 1 | 3 | 9)).then(|| any(random));
    Unresolved { source: any(random), target, role, case }
}

fn call(random: &mut Random) -> Call {
    Call { source: any(random), target: random.percent(50).then(|| any(random)) }
}
