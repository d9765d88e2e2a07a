//! A graph that is taken as it is takes routes as the one that was built.

use std::collections::BTreeMap;

use oracle::generate;
use oracle::session::Session;

#[test]
fn a_graph_taken_as_it_is_takes_routes_as_the_built_one() {
    let mut accepted = 0;
    for index in 0..2000 {
        let (image, lists) = generate::script_apart(5, index);
        let Ok(mut built) = Session::build(&image) else {
            continue;
        };
        for routes in &lists {
            let mut taken = Session::of(&built.contents());
            let hops = built.add(routes);
            assert_eq!(taken.add(routes), hops);
            let (taken, built) = (taken.contents(), built.contents());
            assert_eq!((taken.blocks, taken.edges), (built.blocks, built.edges));
            assert_eq!((taken.table, taken.entry), (built.table, built.entry));
            accepted += usize::from(hops.is_ok());
        }
    }
    assert!(accepted > 2000);
}

/// Graphs that no build made are accepted often, and refused for every reason
/// but too many hops.
#[test]
fn graphs_that_no_build_made_meet_most_refusals() {
    let mut accepted = 0;
    let mut refused: BTreeMap<u8, usize> = BTreeMap::new();
    for index in 0..6000 {
        let (contents, lists) = generate::graph(5, index);
        let mut session = Session::of(&contents);
        for routes in &lists {
            match session.add(routes) {
                Ok(_) => accepted += 1,
                Err(refusal) => *refused.entry(refusal.number).or_default() += 1,
            }
        }
    }
    let met: Vec<u8> = refused.keys().copied().collect();
    println!("accepted {accepted}, refused {refused:?}");
    assert!(accepted > 6000);
    assert_eq!(met, [10, 11, 12, 14, 15, 17, 18, 19]);
}
