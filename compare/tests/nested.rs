//! The deepest recursion: a path of 512 funclets, added in a thread with 2 MB of
//! stack.

use std::thread;

use compare::hops::HOP_WORDS;
use compare::proved;
use compare::words::WORDS;
use oracle::image::{flow, write_routes, End, Image, Instruction, Path, Route, Step};

const STACK: usize = 2 << 20;

fn returns(address: u64) -> Instruction {
    Instruction {
        address,
        end: Some(address + 4),
        keeps: true,
        flow: flow::RETURN,
        target: 0,
        cases: vec![],
    }
}

#[test]
fn a_path_of_512_funclets_fits_two_megabytes() {
    let paths = vec![Path { steps: vec![Step::Funclet(104); 512], end: End::Propagate }];
    let routes = vec![Route { start: 100, end: 104, paths }];
    let instructions = vec![returns(100), returns(104)];
    let image = Image { mode: 1, instructions, routes, ..Image::default() };
    let adds = move || {
        let mut words: Box<[u64; WORDS]> = vec![0; WORDS].try_into().expect("as many words");
        let mut hops: Box<[u64; HOP_WORDS]> = vec![0; HOP_WORDS].try_into().expect("as many words");
        proved::build(&image.write(), &mut words).expect("an image that is accepted");
        proved::add_routes(&mut words, &write_routes(&image.routes), &mut hops)
            .expect("routes that are accepted");
        hops[0]
    };
    let thread = thread::Builder::new().stack_size(STACK).spawn(adds).expect("a thread");
    assert_eq!(thread.join().expect("no overflow of the stack"), 513);
}
