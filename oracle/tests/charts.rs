//! Charts whose lines follow from document 01 by hand.

mod common;

use common::{image, instruction, route};
use oracle::image::{flow, Case, End, GivenEdge, GivenSource, Handler, Image, Step};
use oracle::{answer, chart};

fn charted(image: &Image) -> String {
    chart::chart(&answer::whole(&image.write()))
}

#[test]
fn the_example_of_document_01() {
    let image = image(vec![
        instruction(100, 102, flow::CONDITIONAL, 106),
        instruction(102, 106, flow::NEXT, 0),
        instruction(106, 108, flow::RETURN, 0),
    ]);
    let lines = "built 3 3 0 0 0\nblock 0 100 1\nblock 1 102 1\nblock 2 106 1\n\
        edge 0 0 2 1 1 0\nedge 1 0 1 2 2 0\nedge 2 1 2 0 0 0\nreached 3\n";
    assert_eq!(charted(&image), lines);
}

#[test]
fn no_instruction() {
    assert_eq!(charted(&Image::default()), "built 1 0 0 0 0\nblock 0 - 0\nreached 1\n");
    let entered = Image { entry: Some(7), ..Image::default() };
    assert_eq!(charted(&entered), "refused 6 7 0\n");
}

#[test]
fn an_absent_end_comes_before_the_order() {
    let mut faulty = image(vec![
        instruction(5, 6, flow::NEXT, 0),
        instruction(5, 5, flow::NEXT, 0),
        instruction(9, 10, flow::NEXT, 0),
    ]);
    assert_eq!(charted(&faulty), "refused 4 5 0\n");
    faulty.instructions[1].end = None;
    assert_eq!(charted(&faulty), "refused 3 5 0\n");
    faulty.instructions[1].end = Some(7);
    assert_eq!(charted(&faulty), "refused 5 5 5\n");
}

#[test]
fn a_flattened_call_is_recorded_and_ends_nothing() {
    let mut sequence = image(vec![
        instruction(0, 1, flow::CALL, 50),
        instruction(1, 2, flow::INDIRECT_CALL, 0),
        instruction(2, 3, flow::RETURN, 0),
    ]);
    sequence.calls = 1;
    let lines = "built 1 0 0 0 2\nblock 0 0 3\ncall 0 50\ncall 1 -\nreached 1\n";
    assert_eq!(charted(&sequence), lines);
}

#[test]
fn a_switch_reports_what_it_does_not_reach() {
    let mut sequence =
        image(vec![instruction(0, 1, flow::SWITCH, 9), instruction(1, 2, flow::TRAP, 0)]);
    sequence.instructions[0].cases = vec![Case { key: 70, target: 1 }, Case { key: 70, target: 8 }];
    let lines = "built 2 1 0 3 0\nblock 0 0 1\nblock 1 1 1\nedge 0 0 1 4 5 0\n\
        unresolved 0 9 5 -\nunresolved 0 8 6 1\nunresolved 1 - 9 -\nreached 2\n";
    assert_eq!(charted(&sequence), lines);
}

#[test]
fn equal_ranges_are_one_region_and_wider_ones_come_first() {
    let mut sequence = image((0..3).map(|at| instruction(at, at + 1, flow::RETURN, 0)).collect());
    let handler = |start, end, kind, filter| Handler { start, end, entry: 2, kind, filter };
    sequence.handlers = vec![handler(1, 2, 0, 0), handler(0, 3, 4, 77), handler(1, 2, 3, 0)];
    let lines = "built 3 5 2 0 0\nblock 0 0 1\nblock 1 1 1\nblock 2 2 1\n\
        edge 0 1 2 7 9 0\nedge 1 0 2 7 9 1\nedge 2 1 2 7 9 1\nedge 3 2 2 7 9 1\nedge 4 1 2 7 9 2\n\
        region 0 - 0 3\nregion 1 0 1 2\n\
        handler 0 1 0 2 0 -\nhandler 1 0 0 2 4 77\nhandler 2 1 1 2 3 -\nreached 2\n";
    assert_eq!(charted(&sequence), lines);
}

#[test]
fn given_edges_replace_the_flow() {
    let edge = GivenEdge { target: 0, kind: 5, payload: 4_000_000_000 };
    let mut sequence =
        image(vec![instruction(0, 1, flow::NEXT, 0), instruction(1, 2, flow::RETURN, 0)]);
    sequence.mode = 2;
    sequence.given = vec![GivenSource { address: 1, edges: vec![edge] }];
    let lines = "built 1 1 0 0 0\nblock 0 0 2\nedge 0 0 0 5 11 4000000000\nreached 1\n";
    assert_eq!(charted(&sequence), lines);
    sequence.given.clear();
    assert_eq!(charted(&sequence), "refused 9 1 0\n");
}

/// The inner node of F, F is created first, so it has the original blocks.
#[test]
fn a_funclet_entered_twice_is_copied() {
    let mut sequence =
        image(vec![instruction(0, 1, flow::RETURN, 0), instruction(1, 2, flow::RETURN, 0)]);
    sequence.mode = 1;
    let steps = vec![Step::Funclet(1), Step::Call(3), Step::Call(4), Step::Funclet(1)];
    sequence.routes = vec![route(0, 1, steps, End::Propagate)];
    let lines = "built 3 2 0 0 0\nblock 0 0 1\nblock 1 1 1\nblock 2 1 1\n\
        edge 0 0 2 7 10 0\nedge 1 2 1 7 10 0\n\
        hop 0 2 -\nhop 1 leave -\nhop 2 1 3 4\nreached 3\n";
    assert_eq!(charted(&sequence), lines);
}

#[test]
fn resume_after_a_funclet_is_refused_and_a_later_path_missing_its_entry_comes_after() {
    let mut sequence = image(vec![instruction(0, 1, flow::RETURN, 0)]);
    sequence.mode = 1;
    let after = vec![Step::Funclet(9), Step::Call(1)];
    sequence.routes = vec![route(0, 1, after, End::Resume)];
    assert_eq!(charted(&sequence), "refused 15 0 0\n");
    sequence.routes[0].paths[0].end = End::Propagate;
    assert_eq!(charted(&sequence), "refused 14 9 0\n");
}
