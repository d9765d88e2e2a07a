//! One mistake put into a good image, so that the later refusals come.

use super::random::Random;
use crate::image::{End, Image, Step};

type Mistake = fn(&mut Random, &mut Image) -> Option<()>;

/// Puts one mistake that fits into the image.
pub fn spoil(random: &mut Random, image: &mut Image) {
    let from = random.below(MISTAKES.len());
    for turn in 0..MISTAKES.len() {
        let mistake = MISTAKES[(from + turn) % MISTAKES.len()];
        if mistake(random, image).is_some() {
            return;
        }
    }
}

const MISTAKES: [Mistake; 14] = [
    no_end,
    low_end,
    low_address,
    lost_entry,
    lost_given_source,
    lost_given_target,
    forgotten_source,
    odd_handler_range,
    lost_handler_entry,
    odd_route_range,
    lost_funclet,
    lost_route_handler,
    resume_after_funclet,
    instruction_gone,
];

/// A place of a list, if it has any.
fn place<T>(random: &mut Random, list: &[T]) -> Option<usize> {
    (!list.is_empty()).then(|| random.below(list.len()))
}

fn no_end(random: &mut Random, image: &mut Image) -> Option<()> {
    let at = place(random, &image.instructions)?;
    image.instructions[at].end = None;
    Some(())
}

fn low_end(random: &mut Random, image: &mut Image) -> Option<()> {
    let at = place(random, &image.instructions)?;
    let address = image.instructions[at].address;
    image.instructions[at].end = Some(random.pick(&[address, address / 2, 0]));
    Some(())
}

fn low_address(random: &mut Random, image: &mut Image) -> Option<()> {
    let at = place(random, image.instructions.get(1..)?)?;
    let previous = image.instructions[at].address;
    image.instructions[at + 1].address = random.pick(&[previous, previous / 2]);
    Some(())
}

fn lost_entry(random: &mut Random, image: &mut Image) -> Option<()> {
    image.entry = Some(stray(random, image));
    Some(())
}

fn lost_given_source(random: &mut Random, image: &mut Image) -> Option<()> {
    let at = place(random, &image.given)?;
    image.given[at].address = stray(random, image);
    image.given.sort_by_key(|source| source.address);
    image.given.dedup_by_key(|source| source.address);
    Some(())
}

fn lost_given_target(random: &mut Random, image: &mut Image) -> Option<()> {
    let at = place(random, &image.given)?;
    let edge = place(random, &image.given[at].edges)?;
    image.given[at].edges[edge].target = stray(random, image);
    Some(())
}

fn forgotten_source(random: &mut Random, image: &mut Image) -> Option<()> {
    let at = place(random, &image.given)?;
    image.given.remove(at);
    Some(())
}

fn odd_handler_range(random: &mut Random, image: &mut Image) -> Option<()> {
    let at = place(random, &image.handlers)?;
    let (start, end) = (image.handlers[at].start, image.handlers[at].end);
    (image.handlers[at].start, image.handlers[at].end) = odd_range(random, start, end);
    Some(())
}

fn lost_handler_entry(random: &mut Random, image: &mut Image) -> Option<()> {
    let at = place(random, &image.handlers)?;
    image.handlers[at].entry = stray(random, image);
    Some(())
}

fn odd_route_range(random: &mut Random, image: &mut Image) -> Option<()> {
    let at = place(random, &image.routes)?;
    let (start, end) = (image.routes[at].start, image.routes[at].end);
    (image.routes[at].start, image.routes[at].end) = odd_range(random, start, end);
    Some(())
}

fn lost_funclet(random: &mut Random, image: &mut Image) -> Option<()> {
    let address = stray(random, image);
    let route = place(random, &image.routes)?;
    let path = place(random, &image.routes[route].paths)?;
    let path = &mut image.routes[route].paths[path];
    let at = random.below(path.steps.len() + 1);
    path.steps.insert(at, Step::Funclet(address));
    Some(())
}

fn lost_route_handler(random: &mut Random, image: &mut Image) -> Option<()> {
    let address = stray(random, image);
    let route = place(random, &image.routes)?;
    let path = place(random, &image.routes[route].paths)?;
    image.routes[route].paths[path].end = End::Handler(address);
    Some(())
}

fn resume_after_funclet(random: &mut Random, image: &mut Image) -> Option<()> {
    let route = place(random, &image.routes)?;
    let path = place(random, &image.routes[route].paths)?;
    let path = &mut image.routes[route].paths[path];
    path.end = End::Resume;
    path.steps.push(Step::Funclet(image.instructions.first()?.address));
    if random.percent(50) {
        path.steps.push(Step::Call(random.word()));
    }
    Some(())
}

fn instruction_gone(random: &mut Random, image: &mut Image) -> Option<()> {
    let at = place(random, &image.instructions)?;
    image.instructions.remove(at);
    Some(())
}

/// Empty, or with an end that may be none, or with a start that is none.
fn odd_range(random: &mut Random, start: u64, end: u64) -> (u64, u64) {
    match random.below(5) {
        0 => (start, start),
        1 => (end, start),
        2 => (start, end.wrapping_add(1)),
        3 => (start.wrapping_add(1), end),
        _ => (start, u64::MAX),
    }
}

/// An address that likely starts no instruction.
fn stray(random: &mut Random, image: &Image) -> u64 {
    let near = place(random, &image.instructions).map_or(0, |at| image.instructions[at].address);
    random.pick(&[near.wrapping_add(1), near.wrapping_sub(1), u64::MAX, 0])
}
