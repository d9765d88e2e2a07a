//! Images at a limit of document 01, one under it and one over it.

use super::random::Random;
use super::ranges::Ground;
use crate::image::{
    flow, kind, limit, Case, End, GivenEdge, GivenSource, Handler, Image, Instruction, Path, Route,
    Step,
};
use crate::session;

/// An image for one limit: under it, at it or over it.
pub fn image(random: &mut Random) -> Image {
    let over = random.between(0, 2);
    let size = |limit: usize| limit - 1 + over;
    match random.below(16) {
        0 => instructions(random, size(limit::INSTRUCTIONS)),
        1 => cases(random, size(limit::CASES)),
        2 => given_sources(size(limit::GIVEN_SOURCES)),
        3 => given_edges(random, size(limit::GIVEN_EDGES)),
        4 => handlers(random, size(limit::HANDLERS)),
        5 => routes(random, size(limit::ROUTES)),
        6 => paths(random, size(limit::PATHS)),
        7 => steps(random, size(limit::STEPS)),
        8 => nested_funclets(size(limit::STEPS)),
        9 => blocks(random, size(session::limit::BLOCKS)),
        10 => handler_edges(random, size(session::limit::EDGES)),
        11 => route_edges(random, size(session::limit::EDGES)),
        12 => hops(size(session::limit::HOPS)),
        13 => call_lists(size(session::limit::CALL_LISTS)),
        14 => shared_returns(),
        _ => full(over),
    }
}

/// Instructions of one address each, that keep their exception edge.
fn table(count: usize, code: u8) -> Vec<Instruction> {
    (0..count as u64)
        .map(|address| Instruction {
            address,
            end: Some(address + 1),
            keeps: true,
            flow: code,
            ..Instruction::default()
        })
        .collect()
}

fn returns(count: usize) -> Vec<Instruction> {
    table(count, flow::RETURN)
}

fn path(steps: Vec<Step>, end: End) -> Path {
    Path { steps, end }
}

fn instructions(random: &mut Random, count: usize) -> Image {
    let mut instructions = table(count, flow::NEXT);
    for _ in 0..random.below(300) {
        let place = random.below(count);
        instructions[place].flow = random.pick(&[1, 2, 3, 4, 5, 10, 11]);
    }
    Image { calls: random.below(2) as u8, instructions, ..Image::default() }
}

fn cases(random: &mut Random, count: usize) -> Image {
    let mut instructions = table(4, flow::SWITCH);
    for number in 0..count {
        let case = Case { key: number as u32, target: random.below(6) as u64 };
        instructions[random.below(4)].cases.push(case);
    }
    Image { instructions, ..Image::default() }
}

/// The first instruction goes on where one source is left out.
fn given_sources(count: usize) -> Image {
    let mut instructions = returns(limit::INSTRUCTIONS);
    instructions[0].flow = flow::NEXT;
    let first = limit::INSTRUCTIONS.saturating_sub(count);
    let given = (first..first + count)
        .map(|address| GivenSource { address: address as u64, edges: Vec::new() })
        .collect();
    Image { mode: 2, instructions, given, ..Image::default() }
}

fn given_edges(random: &mut Random, count: usize) -> Image {
    let instructions = returns(3);
    let mut given: Vec<GivenSource> =
        (0..3).map(|address| GivenSource { address, edges: Vec::new() }).collect();
    for number in 0..count {
        given[random.below(3)].edges.push(GivenEdge {
            target: random.below(3) as u64,
            kind: random.below(usize::from(kind::COUNT)) as u8,
            payload: number as u32,
        });
    }
    Image { mode: 2, instructions, given, ..Image::default() }
}

fn handlers(random: &mut Random, count: usize) -> Image {
    let instructions = table(20, flow::NEXT);
    let ground = Ground::of(&instructions).expect("instructions");
    let handlers = super::ranges::handlers(random, &ground, count);
    Image { instructions, handlers, ..Image::default() }
}

fn routes(random: &mut Random, count: usize) -> Image {
    let routes = (0..count)
        .map(|number| {
            let start = random.below(6) as u64;
            let paths = vec![path(vec![Step::Call(number as u32)], End::Propagate)];
            Route { start, end: start + 1, paths }
        })
        .collect();
    Image { mode: 1, instructions: returns(6), routes, ..Image::default() }
}

fn paths(random: &mut Random, count: usize) -> Image {
    let mut routes: Vec<Route> =
        (0..4).map(|start| Route { start, end: 4, paths: Vec::new() }).collect();
    for number in 0..count {
        let steps = vec![Step::Call(number as u32), Step::Funclet(random.between(4, 5) as u64)];
        routes[random.below(4)].paths.push(path(steps, End::Propagate));
    }
    Image { mode: 1, instructions: returns(6), routes, ..Image::default() }
}

fn steps(random: &mut Random, count: usize) -> Image {
    let mut paths: Vec<Path> = (0..9).map(|_| path(Vec::new(), End::Handler(3))).collect();
    for number in 0..count {
        let funclet = Step::Funclet(random.between(1, 2) as u64);
        let step = if number % 3 == 0 { funclet } else { Step::Call(number as u32) };
        paths[random.below(9)].steps.push(step);
    }
    let routes = vec![Route { start: 0, end: 1, paths }];
    Image { mode: 1, instructions: returns(4), routes, ..Image::default() }
}

/// One path of as many funclets.
fn nested_funclets(count: usize) -> Image {
    let paths = vec![path(vec![Step::Funclet(1); count], End::Propagate)];
    let routes = vec![Route { start: 0, end: 1, paths }];
    Image { mode: 1, instructions: returns(2), routes, ..Image::default() }
}

/// As many blocks after the addition: built ones, each protected or in the
/// funclet, and copies of a funclet of `size` blocks.
fn blocks(random: &mut Random, total: usize) -> Image {
    let size = random.between(2, 4);
    let copies = (total - limit::INSTRUCTIONS).div_ceil(size) + random.below(10);
    let built = total - copies * size;
    let mut instructions = returns(built);
    let entry = built - size;
    for instruction in &mut instructions[entry..built - 1] {
        instruction.flow = flow::JUMP;
        instruction.target = instruction.address + 1;
    }
    let steps = vec![Step::Funclet(entry as u64); copies + 1];
    let paths = vec![path(steps, End::Propagate)];
    let routes = vec![Route { start: 0, end: entry as u64, paths }];
    Image { mode: 1, instructions, routes, ..Image::default() }
}

/// As many edges after a build, all from handlers.
fn handler_edges(random: &mut Random, total: usize) -> Image {
    let mut handlers = Vec::new();
    let mut left = total;
    while left > 0 {
        let size = left.min(random.between(200, limit::INSTRUCTIONS));
        let start = random.below(limit::INSTRUCTIONS - size + 1) as u64;
        let end = start + size as u64;
        handlers.push(Handler { start, end, entry: 0, kind: 1, filter: 0 });
        left -= size;
    }
    Image { instructions: returns(limit::INSTRUCTIONS), handlers, ..Image::default() }
}

/// As many edges after the addition: `copies` instances of a switch of as many
/// edges as fit, each left by one edge and the first entered by one.
fn route_edges(random: &mut Random, total: usize) -> Image {
    let fits = |instances: &usize| {
        total.is_multiple_of(*instances) && total / instances <= limit::CASES + 2
    };
    let choices: Vec<usize> = (2..=64).filter(fits).collect();
    let instances = random.pick(&choices);
    let mut instructions = returns(3);
    instructions[1].flow = flow::SWITCH;
    instructions[1].target = 2;
    instructions[1].cases =
        (0..total / instances - 2).map(|key| Case { key: key as u32, target: 2 }).collect();
    let paths = vec![path(vec![Step::Funclet(1); instances], End::Propagate)];
    let routes = vec![Route { start: 0, end: 1, paths }];
    Image { mode: 1, instructions, routes, ..Image::default() }
}

/// Routes over all 512 instructions, over as many as are left, and over one if
/// more are left than there are.
fn spread(left: usize, all: Vec<Path>, some: Path, one: Path) -> Image {
    let count = limit::INSTRUCTIONS;
    let route = |end: usize, paths| Route { start: 0, end: end as u64, paths };
    let mut routes = vec![route(count, all), route(left.min(count), vec![some])];
    if left > count {
        routes.push(route(left - count, vec![one]));
    }
    Image { mode: 1, instructions: returns(count), routes, ..Image::default() }
}

fn hops(total: usize) -> Image {
    let to = |address| path(Vec::new(), End::Handler(address));
    let all = vec![to(1), to(2), path(Vec::new(), End::Propagate)];
    spread(total - 3 * limit::INSTRUCTIONS, all, to(3), to(4))
}

fn call_lists(total: usize) -> Image {
    let by = |tag| path(vec![Step::Call(tag)], End::Propagate);
    let all = (0..7).map(by).collect();
    spread(total - 7 * limit::INSTRUCTIONS, all, by(7), by(8))
}

/// 128 funclets that all run into one switch over 200 returns.
fn shared_returns() -> Image {
    let (funclets, ends) = (128, 200);
    let mut instructions = returns(1 + funclets + 1 + ends);
    let switch = 1 + funclets;
    for instruction in &mut instructions[1..switch] {
        instruction.flow = flow::JUMP;
        instruction.target = switch as u64;
    }
    instructions[switch].flow = flow::SWITCH;
    instructions[switch].target = switch as u64 + 1;
    instructions[switch].cases = (1..=ends)
        .map(|number| Case { key: number as u32, target: (switch + number) as u64 })
        .collect();
    let paths = (1..=funclets as u64)
        .map(|funclet| path(vec![Step::Funclet(funclet)], End::Propagate))
        .collect();
    let routes = vec![Route { start: 0, end: 1, paths }];
    Image { mode: 1, instructions, routes, ..Image::default() }
}

/// Every section full at once, but for one that is one short, or none, or one
/// that is over.
fn full(over: usize) -> Image {
    let count = limit::INSTRUCTIONS;
    let mut instructions = returns(count);
    instructions[0].flow = flow::SWITCH;
    instructions[0].cases =
        (0..limit::CASES - 1 + over).map(|key| Case { key: key as u32, target: 1 }).collect();
    let given = (0..count as u64)
        .map(|address| GivenSource {
            address,
            edges: vec![GivenEdge { target: address, kind: kind::EXCEPTION_UNWIND, payload: 9 }],
        })
        .collect();
    let handlers = (0..limit::HANDLERS as u64)
        .map(|start| Handler { start, end: count as u64, entry: start, kind: 4, filter: u32::MAX })
        .collect();
    let steps_each = limit::STEPS / limit::PATHS;
    let paths_each = limit::PATHS / limit::ROUTES;
    let routes = (0..limit::ROUTES as u64)
        .map(|start| {
            let one = |number: u64| {
                let funclet = 100 + start * paths_each as u64 + number;
                path(vec![Step::Funclet(funclet); steps_each], End::Handler(funclet + 200))
            };
            Route { start, end: start + 1, paths: (0..paths_each as u64).map(one).collect() }
        })
        .collect();
    Image { mode: 2, calls: 1, entry: Some(5), instructions, given, handlers, routes }
}
