//! Images whose routes are added: both sides on one case, call by call.

use std::hint::black_box;
use std::time::Instant;

use oracle::image::{read_image, write_routes, Image};
use oracle::published;
use oracle::session::{Built, Inputs};

use crate::proved::{self, HOP_WORDS, WORDS};

/// One image with its routes, and what both sides are lent or given.
pub struct Case {
    image: Image,
    bytes: Vec<u8>,
    routes: Vec<u8>,
    words: Box<[u64; WORDS]>,
    hops: Box<[u64; HOP_WORDS]>,
    /// How many blocks and edges the graph has before the addition.
    before: [u64; 2],
}

impl Case {
    /// Neither side refuses the image or its routes.
    pub fn new(name: &str, image: Image) -> Self {
        let mut case = Self {
            bytes: image.write(),
            routes: write_routes(&image.routes),
            words: vec![0; WORDS].try_into().expect("as many words"),
            hops: vec![0; HOP_WORDS].try_into().expect("as many words"),
            before: [0; 2],
            image,
        };
        assert!(proved::build(&case.bytes, &mut case.words), "{name}");
        case.before = [case.words[1], case.words[2]];
        assert!(case.add(), "{name}");
        let inputs = Inputs::of(&case.image);
        let mut graph = inputs.build().expect(name);
        add(&mut graph, &case.image);
        let counts = [graph.cfg.block_count() as u64, graph.cfg.edge_count() as u64];
        assert_eq!([case.words[1], case.words[2]], counts, "{name}");
        case
    }

    pub fn bytes(&self) -> usize {
        self.bytes.len()
    }

    /// How many calls of a turn.
    fn times(&self) -> usize {
        (100_000 / (self.bytes.len() + 400)).max(1)
    }

    /// Reads, builds and adds, by one call.
    pub fn whole(&mut self) -> bool {
        proved::sequence(black_box(&self.bytes), &mut self.words, &mut self.hops)
    }

    /// The same by two.
    pub fn by_two(&mut self) -> bool {
        proved::build(black_box(&self.bytes), &mut self.words)
            && proved::add(&mut self.words, black_box(&self.routes), &mut self.hops)
    }

    /// Adds to the graph as it was before: old blocks and edges stay in front.
    pub fn add(&mut self) -> bool {
        self.words[1..3].copy_from_slice(&self.before);
        proved::add(&mut self.words, black_box(&self.routes), &mut self.hops)
    }

    /// Nanoseconds of the proved code: by one call, by two, and the addition
    /// alone.
    pub fn time_proved(&mut self) -> [f64; 3] {
        let times = self.times();
        let whole = time(times, || self.whole());
        [whole, time(times, || self.by_two()), time(times, || self.add())]
    }

    /// The same of the Rust: reading, build and addition; build and addition
    /// of inputs that were made beforehand; the addition alone.
    pub fn time_rust(&self) -> [f64; 3] {
        let times = self.times();
        let mut kept = Vec::with_capacity(2 * times);
        let read = time(times, || kept.push(self.read_and_add()));
        let inputs = vec![Inputs::of(&self.image); 2 * times];
        let routes = published::routes(&self.image.routes);
        let (mut graphs, mut hops) = (Vec::with_capacity(2 * times), Vec::new());
        hops.reserve(4 * times);
        let mut copies = inputs.clone().into_iter();
        let whole = time(times, || {
            let copy = copies.next().expect("a copy for each call");
            let mut graph = black_box(copy).build().expect("an image that is accepted");
            hops.push(graph.add_unwind_routes(black_box(&routes), published::payload));
            graphs.push(graph);
        });
        let built: Vec<Built> = inputs.into_iter().flat_map(Inputs::build).collect();
        let mut built = built.into_iter();
        let added = time(times, || {
            let mut graph = built.next().expect("a graph for each call");
            hops.push(graph.add_unwind_routes(black_box(&routes), published::payload));
            graphs.push(graph);
        });
        [read, whole, added]
    }

    fn read_and_add(&self) -> Built {
        let image = read_image(black_box(&self.bytes)).expect("an image that is accepted");
        let mut graph = Inputs::of(&image).build().expect("an image that is accepted");
        add(&mut graph, &image);
        graph
    }
}

fn add(graph: &mut Built, image: &Image) {
    let routes = published::routes(&image.routes);
    black_box(graph.add_unwind_routes(&routes, published::payload)).expect("routes that fit");
}

/// Nanoseconds for one of `times` calls. As many before them are not timed: they
/// find in the caches what ran before.
pub fn time<T>(times: usize, mut call: impl FnMut() -> T) -> f64 {
    for _ in 0..times {
        black_box(call());
    }
    let start = Instant::now();
    for _ in 0..times {
        black_box(call());
    }
    start.elapsed().as_nanos() as f64 / times as f64
}
