//! Images to build: sequences of some sizes in each mode, all accepted.

use oracle::image::{
    flow, kind, Case, End, GivenEdge, GivenSource, Handler, Image, Instruction, Path, Route, Step,
};

pub fn all() -> Vec<(&'static str, Image)> {
    vec![
        ("tiny", plain(3, 0)),
        ("small", plain(9, 0)),
        ("handlers", plain(9, 2)),
        ("typical", plain(24, 2)),
        ("typical, routes", routed(18, 4)),
        ("typical, given", given(18)),
        ("large", plain(360, 8)),
        ("large, routes", routed(320, 32)),
        ("full", plain(512, 32)),
        ("full, given", given(512)),
    ]
}

/// Images of mode 1 with routes, to be added after the build.
pub fn added() -> Vec<(&'static str, Image)> {
    vec![
        ("tiny", one_route()),
        ("small", routed(8, 1)),
        ("typical", routed(14, 4)),
        ("typical, 8 routes", routed(16, 8)),
        ("large", routed(320, 8)),
        ("full", full_routes()),
        ("512 nested funclets", nested(512)),
        ("1,024 blocks", nested_over(512, 512)),
        ("shared returns", shared()),
    ]
}

fn address(i: usize) -> u64 {
    100 + 4 * i as u64
}

/// Mode 0: `n` instructions of all kinds of flow, and nested ranges.
fn plain(n: usize, handlers: usize) -> Image {
    Image {
        instructions: instructions(n),
        handlers: (0..handlers).map(|h| handler(n, h)).collect(),
        ..Image::default()
    }
}

fn instructions(n: usize) -> Vec<Instruction> {
    (0..n).map(|i| instruction(i, n)).collect()
}

fn instruction(i: usize, n: usize) -> Instruction {
    let target = address(i * 7 % n);
    let flow = match i % 8 {
        _ if i + 1 == n => flow::RETURN,
        1 => flow::CONDITIONAL,
        3 => flow::CALL,
        5 => flow::EXCEPTIONAL,
        6 if i % 16 == 6 => flow::SWITCH,
        7 => flow::JUMP,
        _ => flow::NEXT,
    };
    let named = !matches!(flow, flow::NEXT | flow::RETURN);
    let cases = if flow == flow::SWITCH { 3 } else { 0 };
    Instruction {
        address: address(i),
        end: Some(address(i + 1)),
        keeps: i % 2 == 0,
        flow,
        target: if named { target } else { 0 },
        cases: (0..cases).map(|c| Case { key: c as u32, target: address((i + c) % n) }).collect(),
    }
}

/// Range `h` of ever narrower ones; few instructions are protected often.
fn handler(n: usize, h: usize) -> Handler {
    let first = h % n.min(16);
    let past = (n - h % (n / 2).max(1)).min(first + 24).max(first + 1);
    Handler {
        start: address(first),
        end: address(past),
        entry: address(n - 1),
        kind: (h % 4) as u8,
        filter: 0,
    }
}

/// Mode 1: routes through two funclets.
fn routed(n: usize, routes: usize) -> Image {
    let route = |r: usize| Route {
        start: address(r % (n / 2)),
        end: address(r % (n / 2) + 2),
        paths: vec![path(n, r, End::Handler(address(n - 1))), path(n, r + 1, End::Propagate)],
    };
    Image { mode: 1, routes: (0..routes).map(route).collect(), ..plain(n, 1) }
}

fn path(n: usize, r: usize, end: End) -> Path {
    let funclet = Step::Funclet(address(n / 2 + r % (n / 4)));
    Path { steps: vec![Step::Call(r as u32), funclet, Step::Call(7)], end }
}

/// Mode 1: a protected instruction, and a funclet that is left.
fn one_route() -> Image {
    let steps = vec![Step::Funclet(address(1))];
    let paths = vec![Path { steps, end: End::Propagate }];
    over_first(returns(2), paths)
}

/// Every section of the routes full: each route's four paths enter a funclet
/// of their own four times.
fn full_routes() -> Image {
    let path = |r: usize, p: usize| Path {
        steps: vec![Step::Funclet(address(100 + 4 * r + p)); 4],
        end: End::Handler(address(300 + 4 * r + p)),
    };
    let route = |r: usize| Route {
        start: address(r),
        end: address(r + 1),
        paths: (0..4).map(|p| path(r, p)).collect(),
    };
    let instructions = returns(512);
    Image { mode: 1, instructions, routes: (0..32).map(route).collect(), ..Image::default() }
}

/// One path that enters a funclet again and again.
fn nested(times: usize) -> Image {
    nested_over(2, times)
}

/// The same, behind as many instructions that are protected but for the last.
fn nested_over(instructions: usize, times: usize) -> Image {
    let funclet = address(instructions - 1);
    let paths = vec![Path { steps: vec![Step::Funclet(funclet); times], end: End::Propagate }];
    let routes = vec![Route { start: address(0), end: funclet, paths }];
    Image { mode: 1, instructions: returns(instructions), routes, ..Image::default() }
}

/// 128 funclets that all run into one switch over 200 returns.
fn shared() -> Image {
    let (switch, ends) = (129, 200);
    let mut instructions = returns(switch + 1 + ends);
    for instruction in &mut instructions[1..switch] {
        instruction.flow = flow::JUMP;
        instruction.target = address(switch);
    }
    instructions[switch].flow = flow::SWITCH;
    instructions[switch].target = address(switch + 1);
    instructions[switch].cases =
        (1..=ends).map(|n| Case { key: n as u32, target: address(switch + n) }).collect();
    let path = |funclet| Path { steps: vec![Step::Funclet(address(funclet))], end: End::Propagate };
    over_first(instructions, (1..switch).map(path).collect())
}

/// Mode 1: a route over the first instruction.
fn over_first(instructions: Vec<Instruction>, paths: Vec<Path>) -> Image {
    let routes = vec![Route { start: address(0), end: address(1), paths }];
    Image { mode: 1, instructions, routes, ..Image::default() }
}

/// Instructions that return and keep their exception edge.
fn returns(n: usize) -> Vec<Instruction> {
    let one = |i| Instruction {
        address: address(i),
        end: Some(address(i + 1)),
        keeps: true,
        flow: flow::RETURN,
        ..Instruction::default()
    };
    (0..n).map(one).collect()
}

/// Mode 2: a given source for each instruction that transfers.
fn given(n: usize) -> Image {
    let mut image = Image { mode: 2, ..plain(n, 1) };
    for (i, instruction) in image.instructions.iter_mut().enumerate() {
        let edge = |target| GivenEdge { target, kind: kind::JUMP, payload: i as u32 };
        if instruction.flow != flow::NEXT {
            let edges = vec![edge(address(i * 5 % n))];
            image.given.push(GivenSource { address: instruction.address, edges });
        }
    }
    image
}
