//! `demand3 SEED COUNT`: demand 3 checked on the published Rust, on scripts of
//! one to four additions each to graphs that were built and to graphs that no
//! build made. A violation is printed with its script.

use std::process::ExitCode;

use oracle::generate;
use oracle::image::{read_image, read_routes, write_routes, Image, Route};
use oracle::session::Session;
use oracle::stream::hex;
use oracle::walks::Tally;

fn main() -> ExitCode {
    let numbers: Vec<u64> = std::env::args().skip(1).flat_map(|word| word.parse()).collect();
    let [seed, count] = numbers[..] else {
        eprintln!("demand3 SEED COUNT");
        return ExitCode::FAILURE;
    };
    let (mut apart, mut any, mut graphs) = <(Tally, Tally, Tally)>::default();
    for index in 0..count {
        let (image, lists) = generate::script_apart(seed, index);
        built(&mut apart, &image, &lists);
        if let Some((image, lists)) = any_script(seed, index) {
            built(&mut any, &image, &lists);
        }
        let (contents, lists) = generate::graph(seed, index);
        if added(&mut graphs, Session::of(&contents), &lists) {
            println!("  graph {index} of seed {seed}");
        }
    }
    apart.print("apart");
    any.print("scripts");
    graphs.print("graphs");
    let violations = apart.violations + any.violations + graphs.violations;
    println!("violations {violations}");
    if violations == 0 {
        ExitCode::SUCCESS
    } else {
        ExitCode::FAILURE
    }
}

/// A script of the general kind, with the route images that can be read.
fn any_script(seed: u64, index: u64) -> Option<(Image, Vec<Vec<Route>>)> {
    let strings = generate::script(seed, index);
    let (image, lists) = strings.split_first()?;
    let lists = lists.iter().filter_map(|bytes| read_routes(bytes).ok()).collect();
    Some((read_image(image).ok()?, lists))
}

fn built(tally: &mut Tally, image: &Image, lists: &[Vec<Route>]) {
    let Ok(session) = Session::build(image) else {
        return;
    };
    if added(tally, session, lists) {
        println!("  {}", hex(&image.write()));
        lists.iter().for_each(|list| println!("  {}", hex(&write_routes(list))));
    }
}

/// Whether an addition does what it must not.
fn added(tally: &mut Tally, mut session: Session, lists: &[Vec<Route>]) -> bool {
    let mut violated = false;
    for (number, routes) in lists.iter().enumerate() {
        let before = session.contents().blocks.len();
        let Ok(hops) = session.add(routes) else {
            continue;
        };
        if let Some(finding) = tally.take(routes, before, &session.contents(), &hops) {
            println!("violation at addition {number}: {finding:?}");
            violated = true;
        }
    }
    violated
}
