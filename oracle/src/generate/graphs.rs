//! Graphs that no build made and that 21 lets pass, with route lists to be
//! added to them one after another.

mod bend;
mod records;

use super::mistakes::spoil;
use super::random::Random;
use super::ranges::{routes, Ground, Sizes};
use super::scripts::apart;
use super::table::{table, Base};
use crate::contents::{Block, Contents, Row};
use crate::image::{Image, Instruction, Route};
use crate::session::{limit, Session};
use bend::{bend, edge};
use records::{few, full, records};

/// A graph and one to four route lists.
pub fn graph(random: &mut Random) -> (Contents, Vec<Vec<Route>>) {
    match random.below(20) {
        0 => at_limits(random),
        1..=11 => bent(random),
        _ => {
            let (mut contents, lists) = free(random);
            records(random, &mut contents, few);
            (contents, lists)
        }
    }
}

/// A graph over funclets that stand apart, bent in a few places: demand 3's
/// conditions often hold of it.
fn bent(random: &mut Random) -> (Contents, Vec<Vec<Route>>) {
    let (image, lists) = apart(random);
    let mut session = Session::build(&image).expect("such an image is accepted");
    if random.percent(40) {
        // Refused, it changes nothing.
        let _ = session.add(&lists[0]);
    }
    let mut contents = session.contents();
    for _ in 0..random.between(1, 8) {
        bend(random, &mut contents);
    }
    records(random, &mut contents, few);
    (contents, lists)
}

/// A table, cut into blocks, copies and edges by chance alone.
fn free(random: &mut Random) -> (Contents, Vec<Vec<Route>>) {
    let count = if random.percent(3) { 0 } else { random.between(1, 12) };
    let base = random.pick(&[Base::Low, Base::Low, Base::Anywhere]);
    let instructions = table(random, count, base);
    let mut contents = Contents {
        table: instructions.iter().map(row).collect(),
        blocks: cut(random, count),
        ..Contents::default()
    };
    copies(random, &mut contents, 6);
    contents.entry = random.below(contents.blocks.len());
    let edges = random.below(3 * contents.blocks.len() + 1);
    contents.edges = (0..edges).map(|_| edge(random, contents.blocks.len())).collect();
    let lists = lists(random, &instructions);
    (contents, lists)
}

/// Every count at its limit or a little below.
fn at_limits(random: &mut Random) -> (Contents, Vec<Vec<Route>>) {
    let (mut contents, lists) = free(random);
    let below = |random: &mut Random| random.pick(&[0, 0, 1, 2, 5, 20, 200]);
    if !contents.table.is_empty() {
        let most = limit::BLOCKS - below(random) - contents.blocks.len();
        copies(random, &mut contents, most);
    }
    let total = limit::EDGES - below(random);
    while contents.edges.len() < total {
        let edge = edge(random, contents.blocks.len());
        contents.edges.push(edge);
    }
    records(random, &mut contents, full);
    (contents, lists)
}

fn row(instruction: &Instruction) -> Row {
    Row {
        address: instruction.address,
        end: instruction.end.expect("a table that passes 3"),
        keeps: instruction.keeps,
        flow: instruction.flow,
    }
}

/// Built blocks over as many instructions, mostly one each.
fn cut(random: &mut Random, count: usize) -> Vec<Block> {
    let apart = random.pick(&[100, 100, 100, 90, 50]);
    let mut blocks = vec![Block { first: 0, count: count.min(1) }];
    for first in 1..count {
        if random.percent(apart) {
            blocks.push(Block { first, count: 1 });
        } else {
            blocks.last_mut().expect("a block").count += 1;
        }
    }
    blocks
}

/// Up to `most` copies of built blocks.
fn copies(random: &mut Random, contents: &mut Contents, most: usize) {
    if contents.table.is_empty() {
        return;
    }
    let built = contents.built_blocks();
    for _ in 0..random.pick(&[0, most / 2, most, most]) {
        let copy = contents.blocks[random.below(built)];
        contents.blocks.push(copy);
    }
}

/// One to four route lists over a table.
fn lists(random: &mut Random, instructions: &[Instruction]) -> Vec<Vec<Route>> {
    let count = random.between(1, 4);
    let Some(ground) = Ground::of(instructions) else {
        let route = |end: usize| Route { start: 0, end: end as u64, paths: Vec::new() };
        return (0..count).map(|end| vec![route(end); random.below(2)]).collect();
    };
    (0..count)
        .map(|_| {
            let sizes = Sizes { routes: random.between(0, 4), paths: 3, steps: 4 };
            let routes = routes(random, &ground, sizes);
            let instructions = instructions.to_vec();
            let mut image = Image { instructions, routes, ..Image::default() };
            if random.percent(20) {
                spoil(random, &mut image);
            }
            image.routes
        })
        .collect()
}
