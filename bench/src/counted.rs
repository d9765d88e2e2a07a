//! One call of one side, for a profiler that counts machine instructions.

use std::hint::black_box;

use oracle::image::Image;
use oracle::published;
use oracle::session::Inputs;

use crate::programs;
use crate::proved::{self, HOP_WORDS, WORDS};

/// Calls once. A profiler counts what happens in here.
#[no_mangle]
#[inline(never)]
fn counted(call: &mut dyn FnMut()) {
    call();
}

/// What can be counted: the work, and the image.
pub fn cases() -> Vec<(&'static str, &'static str, Image)> {
    let build = programs::all().into_iter().map(|(name, image)| ("build", name, image));
    let both = programs::added().into_iter().map(|(name, image)| ("both", name, image));
    build.chain(both).collect()
}

/// The build of an image that was found by its work and name, and with `both`
/// the addition of its routes.
pub fn count(side: &str, work: &str, name: &str) {
    let found = cases().into_iter().find(|case| case.0 == work && case.1 == name);
    let (_, _, image) = found.expect("a work and a name of the list");
    let add = work == "both";
    match side {
        "proved" => count_proved(&image, add),
        "rust" => count_rust(&image, add),
        _ => panic!("proved or rust"),
    }
}

fn count_proved(image: &Image, add: bool) {
    let bytes = image.write();
    let mut words: Box<[u64; WORDS]> = vec![0; WORDS].try_into().expect("as many words");
    let mut hops: Box<[u64; HOP_WORDS]> = vec![0; HOP_WORDS].try_into().expect("as many words");
    let mut accepted = false;
    counted(&mut || {
        accepted = if add {
            proved::sequence(&bytes, &mut words, &mut hops)
        } else {
            proved::build(&bytes, &mut words)
        };
    });
    assert!(accepted);
}

fn count_rust(image: &Image, add: bool) {
    let routes = published::routes(&image.routes);
    let mut inputs = Some(Inputs::of(image));
    let mut kept = None;
    counted(&mut || {
        let inputs = inputs.take().expect("one call");
        let mut graph = inputs.build().expect("an image that is accepted");
        let hops = add.then(|| graph.add_unwind_routes(&routes, published::payload));
        kept = Some((graph, hops));
    });
    black_box(kept);
}
