//! One change to the records of an image that was read.

use super::given::given;
use super::random::Random;
use super::ranges::{handlers, path, routes, Ground, Sizes};
use super::table::set_flow;
use crate::image::{Image, Instruction, Path, Route};

/// Changes an image; what its mode leaves at 0 stays so.
pub fn mutate(random: &mut Random, image: &mut Image) {
    let Some(ground) = ground(&image.instructions) else {
        image.instructions.pop();
        return;
    };
    match random.below(9) {
        0 => {
            image.instructions.remove(random.below(ground.starts.len()));
        }
        1 => grow(random, &mut image.instructions),
        2 | 3 => {
            let at = random.below(ground.starts.len());
            let instruction = &mut image.instructions[at];
            *instruction = Instruction { target: 0, cases: Vec::new(), ..instruction.clone() };
            let code = random.below(13) as u8;
            set_flow(random, instruction, code, &ground.starts);
        }
        4 => {
            let at = random.below(ground.starts.len());
            image.instructions[at].keeps ^= true;
        }
        5 => {
            image.calls ^= 1;
            image.entry = random.percent(50).then(|| random.pick(&ground.starts));
        }
        6 => change(random, &mut image.handlers, |random| handlers(random, &ground, 1)),
        7 => image.mode = random.below(3) as u8,
        _ => mutate_routes(random, &image.instructions, &mut image.routes),
    }
    if image.mode == 0 {
        image.routes.clear();
    }
    if image.mode != 2 {
        image.given.clear();
    } else if let (Some(_), true) = (self::ground(&image.instructions), random.percent(30)) {
        image.given = given(random, &image.instructions);
    }
}

/// Changes routes over a table.
pub fn mutate_routes(random: &mut Random, table: &[Instruction], list: &mut Vec<Route>) {
    let Some(ground) = ground(table) else {
        list.pop();
        return;
    };
    if list.is_empty() || random.percent(30) {
        let sizes = Sizes { routes: 1, paths: 3, steps: 4 };
        change(random, list, |random| routes(random, &ground, sizes));
        return;
    }
    let earlier: Vec<Path> = list.iter().flat_map(|route| route.paths.clone()).collect();
    let route = random.below(list.len());
    change(random, &mut list[route].paths, |random| {
        vec![path(random, &ground.starts, &ground.starts, &earlier, 6)]
    });
}

/// The ground of a table that passes 3 to 5.
fn ground(table: &[Instruction]) -> Option<Ground> {
    let sized = table.iter().all(|one| one.end.is_some_and(|end| one.address < end));
    let rises = table.windows(2).all(|pair| pair[0].address < pair[1].address);
    Ground::of(table).filter(|_| sized && rises)
}

/// One more instruction behind the last.
fn grow(random: &mut Random, table: &mut Vec<Instruction>) {
    let Some(address) = table.last().and_then(|last| last.end).filter(|&end| end < u64::MAX - 8)
    else {
        return;
    };
    let end = Some(address + random.between(1, 4) as u64);
    table.push(Instruction { address, end, keeps: true, ..Instruction::default() });
}

/// Puts something new into a list, in the place of another, or takes one out.
fn change<T: Clone>(
    random: &mut Random,
    list: &mut Vec<T>,
    new: impl FnOnce(&mut Random) -> Vec<T>,
) {
    let at = random.below(list.len() + 1);
    let taken = if random.percent(50) { at..at } else { at..(at + 1).min(list.len()) };
    let new = if random.percent(70) { new(random) } else { Vec::new() };
    list.splice(taken, new);
}
