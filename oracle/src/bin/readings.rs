//! `readings DIR`: writes DIR/stdin, good and damaged images and route images
//! for the program `readings`, and DIR/stdout, what the reader of this project
//! says of each. Every byte of a small image is damaged, and every cut tried.

use std::fmt::Write as _;
use std::path::Path as Folder;
use std::{env, fs, io};

use oracle::image::{
    flow, read_image, read_routes, write_routes, Case, End, GivenEdge, GivenSource, Handler, Image,
    Instruction, Path, Refusal, Route, Step, FILTER,
};

fn main() -> io::Result<()> {
    let folder = env::args().nth(1).expect("readings DIR");
    let mut stored = Stored::default();
    for mode in 0..3 {
        stored.try_all(IMAGE, &image(mode).write());
    }
    stored.try_all(ROUTES, &write_routes(&routes()));
    for bytes in over_limits() {
        stored.put(IMAGE, &bytes);
    }
    fs::write(Folder::new(&folder).join("stdin"), stored.input)?;
    fs::write(Folder::new(&folder).join("stdout"), stored.output)
}

const IMAGE: u8 = 0;
const ROUTES: u8 = 1;

#[derive(Default)]
struct Stored {
    input: Vec<u8>,
    output: String,
}

impl Stored {
    /// The bytes as they are, cut at each byte, with bytes behind them, and
    /// with each byte changed.
    fn try_all(&mut self, tag: u8, bytes: &[u8]) {
        self.put(tag, bytes);
        for length in 0..bytes.len() {
            self.put(tag, &bytes[..length]);
        }
        for extra in 1..3 {
            self.put(tag, &[bytes, &vec![0; extra]].concat());
        }
        for at in 0..bytes.len() {
            for value in [bytes[at].wrapping_add(1), bytes[at].wrapping_sub(1)] {
                let mut damaged = bytes.to_vec();
                damaged[at] = value;
                self.put(tag, &damaged);
            }
        }
    }

    fn put(&mut self, tag: u8, bytes: &[u8]) {
        self.input.push(tag);
        self.input.extend((bytes.len() as u32).to_le_bytes());
        self.input.extend(bytes);
        let counts = match tag {
            IMAGE => read_image(bytes).map(|image| image_counts(&image)),
            _ => read_routes(bytes).map(|routes| route_counts(&routes)),
        };
        match counts {
            Ok(counts) => {
                self.output.push_str("read");
                for count in counts {
                    write!(self.output, " {count}").expect("a string takes every byte");
                }
                self.output.push('\n');
            }
            Err(Refusal { number, first, second }) => {
                writeln!(self.output, "refused {number} {first} {second}").expect("a string takes every byte");
            }
        }
    }
}

fn image_counts(image: &Image) -> Vec<usize> {
    let cases = image.instructions.iter().map(|instruction| instruction.cases.len()).sum();
    let edges = image.given.iter().map(|source| source.edges.len()).sum();
    let mut counts = vec![image.instructions.len(), cases, image.given.len(), edges, image.handlers.len()];
    counts.extend(route_counts(&image.routes));
    counts
}

fn route_counts(routes: &[Route]) -> Vec<usize> {
    let paths = || routes.iter().flat_map(|route| &route.paths);
    vec![routes.len(), paths().count(), paths().map(|path| path.steps.len()).sum()]
}

/// An image of a mode that has a record of each kind that the mode allows.
fn image(mode: u8) -> Image {
    let given = |address, kind| GivenSource {
        address,
        edges: vec![GivenEdge { target: 10, kind, payload: 70_000 }],
    };
    Image {
        mode,
        calls: mode % 2,
        entry: (mode > 0).then_some(10),
        instructions: vec![
            Instruction {
                address: 10,
                end: Some(12),
                keeps: true,
                flow: flow::SWITCH,
                target: 12,
                cases: vec![Case { key: 5, target: 10 }],
            },
            Instruction { address: 12, end: None, flow: flow::RETURN, ..Instruction::default() },
        ],
        given: if mode == 2 { vec![given(10, 3), given(12, 7)] } else { Vec::new() },
        handlers: vec![Handler { start: 10, end: 12, entry: 12, kind: FILTER, filter: 9 }],
        routes: if mode > 0 { routes() } else { Vec::new() },
    }
}

fn routes() -> Vec<Route> {
    let handled = Path { steps: vec![Step::Call(300), Step::Funclet(1 << 40)], end: End::Handler(12) };
    vec![Route { start: 10, end: 12, paths: vec![handled, Path { steps: Vec::new(), end: End::Resume }] }]
}

/// Each section's count one over its limit and no byte behind it, after empty
/// sections. In mode 0 the given and route sections must be 0 first.
fn over_limits() -> Vec<Vec<u8>> {
    let limits = [512u32, 512, 512, 512, 32, 32, 128, 512];
    let mut images = Vec::new();
    for mode in 0..3 {
        for (place, limit) in limits.iter().enumerate() {
            let mut bytes = vec![1, mode, 0, 0, 0, 0, 0, 0, 0, 0, 0, 0];
            bytes.extend(vec![0; 4 * place]);
            bytes.extend((limit + 1).to_le_bytes());
            images.push(bytes);
        }
    }
    images
}
