//! Demand 3 holds of the published Rust, and the check sees when it does not.

use oracle::contents::{Contents, Hop};
use oracle::generate;
use oracle::image::Route;
use oracle::session::Session;
use oracle::walks::{Addition, Finding};

/// First additions of scripts, with the graph before them too.
fn additions(count: u64) -> Vec<(Vec<Route>, Contents, Contents, Vec<Hop>)> {
    (0..count)
        .filter_map(|index| {
            let (image, mut lists) = generate::script_apart(11, index);
            let routes = lists.remove(0);
            let mut session = Session::build(&image).ok()?;
            let before = session.contents();
            let hops = session.add(&routes).ok()?;
            Some((routes, before, session.contents(), hops))
        })
        .collect()
}

fn check(routes: &[Route], contents: &Contents, hops: &[Hop]) -> Option<Finding> {
    Addition::new(routes, contents, hops).check()
}

#[test]
fn it_holds() {
    let findings: Vec<Finding> = additions(2000)
        .iter()
        .filter_map(|(routes, _, contents, hops)| check(routes, contents, hops))
        .collect();
    assert!(findings.len() > 1000);
    assert!(findings.iter().all(Finding::holds));
}

/// Every call list of a built protected block that keeps its exception edge is
/// needed, where no second route lists the same path.
#[test]
fn a_list_left_out_is_seen() {
    let mut seen = 0;
    for (routes, before, contents, hops) in additions(900) {
        let (1, Some(whole)) = (routes.len(), check(&routes, &contents, &hops)) else {
            continue;
        };
        let starts_walks = |block: usize| {
            let first = before.table[before.blocks[block].first];
            let covers = |route: &Route| (route.start..route.end).contains(&first.address);
            first.keeps && routes.iter().any(covers)
        };
        for at in 0..hops.len() {
            if hops[at].source >= before.blocks.len() || !starts_walks(hops[at].source) {
                continue;
            }
            let mut fewer = hops.clone();
            fewer[at].lists.pop();
            let finding = check(&routes, &contents, &fewer).expect("the same conditions");
            assert!(whole.holds() && !finding.holds());
            seen += 1;
        }
    }
    assert!(seen > 300);
}

/// Copies without hops leave walks stuck.
#[test]
fn copies_without_hops_are_seen() {
    let mut seen = 0;
    for (routes, before, contents, hops) in additions(600) {
        let built = before.blocks.len();
        let kept: Vec<Hop> = hops.iter().filter(|hop| hop.source < built).cloned().collect();
        let entered = kept.iter().any(|hop| hop.end.is_some_and(|end| end >= built));
        if let (true, Some(finding)) = (entered, check(&routes, &contents, &kept)) {
            seen += usize::from(!finding.holds());
        }
    }
    assert!(seen > 50);
}
