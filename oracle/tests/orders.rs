//! Which refusal comes first where two could (AMBIGUITIES 12 to 16), and what
//! an addition is refused with.

mod common;

use common::{image, instruction, route};
use oracle::answer;
use oracle::image::{
    flow, write_routes, End, GivenEdge, GivenSource, Handler, Image, Refusal, Route, Step,
};

#[track_caller]
fn refused(image: &Image, number: u8, first: u64, second: u64) {
    let outcome = answer::whole(&image.write());
    assert_eq!(outcome.err(), Some(Refusal::new(number, first, second)));
}

fn given(address: u64, targets: &[u64]) -> GivenSource {
    let edge = |&target: &u64| GivenEdge { target, kind: 3, payload: 0 };
    GivenSource { address, edges: targets.iter().map(edge).collect() }
}

#[test]
fn instruction_by_instruction() {
    let mut table = image(vec![
        instruction(5, 6, flow::NEXT, 0),
        instruction(5, 7, flow::NEXT, 0),
        instruction(8, 9, flow::NEXT, 0),
    ]);
    table.instructions[2].end = None;
    refused(&table, 5, 5, 5);
}

#[test]
fn a_lost_source_then_position_by_position() {
    let mut sequence =
        image(vec![instruction(0, 1, flow::RETURN, 0), instruction(1, 2, flow::RETURN, 0)]);
    sequence.mode = 2;
    sequence.given = vec![given(1, &[40]), given(30, &[])];
    refused(&sequence, 7, 30, 0);
    sequence.given.pop();
    refused(&sequence, 9, 0, 0);
    sequence.given.insert(0, given(0, &[1, 41, 42]));
    refused(&sequence, 8, 0, 41);
}

#[test]
fn route_by_route_then_the_continuation() {
    let mut sequence =
        image(vec![instruction(0, 1, flow::RETURN, 0), instruction(1, 2, flow::NEXT, 0)]);
    sequence.mode = 2;
    sequence.given = vec![given(0, &[])];
    let lost = route(0, 1, vec![Step::Funclet(9)], End::Handler(8));
    let resumed = route(0, 1, vec![Step::Funclet(0)], End::Resume);
    sequence.routes = vec![lost, resumed];
    refused(&sequence, 14, 9, 0);
    sequence.routes.remove(0);
    refused(&sequence, 15, 0, 0);
    sequence.routes.clear();
    refused(&sequence, 16, 1, 2);
}

#[test]
fn ranges_over_no_instruction() {
    let handler = |start, end| Handler { start, end, entry: 0, kind: 0, filter: 0 };
    let over = |start, end| Image { handlers: vec![handler(start, end)], ..image(vec![]) };
    refused(&over(4, 4), 10, 4, 4);
    refused(&over(4, 5), 11, 4, 0);
}

#[test]
fn a_range_ends_at_the_greatest_end_or_at_a_start() {
    let table = vec![instruction(0, 9, flow::RETURN, 0), instruction(1, 2, flow::RETURN, 0)];
    let over = |end| {
        let handlers = vec![Handler { start: 0, end, entry: 1, kind: 0, filter: 0 }];
        Image { handlers, ..image(table.clone()) }
    };
    assert!(answer::whole(&over(9).write()).is_ok());
    refused(&over(10), 12, 10, 0);
    refused(&over(2), 12, 2, 0);
}

/// In a trie node the funclet comes before the ends; a refused addition leaves
/// the graph as it was.
#[test]
fn additions() {
    let sequence = image(vec![
        instruction(0, 1, flow::NEXT, 0),
        instruction(1, 2, flow::RETURN, 0),
        instruction(2, 3, flow::RETURN, 0),
    ]);
    let lists = |routes: &[Route]| write_routes(routes);
    let good = lists(&[route(0, 1, vec![], End::Handler(2))]);
    let script = [
        lists(&[route(0, 2, vec![], End::Propagate)]),
        lists(&[route(0, 1, vec![Step::Funclet(1)], End::Handler(77))]),
        lists(&[route(0, 1, vec![Step::Funclet(2)], End::Handler(77))]),
        good.clone(),
    ];
    // The block of 0 and 1 is not led by 1: 17 in the first range, then in the
    // node of 1 before its end.
    let outcomes = answer::script(&sequence.write(), &script);
    let refusals: Vec<_> = outcomes[1..4].iter().map(|one| one.clone().err()).collect();
    let expected =
        [(17, 1), (17, 1), (14, 77)].map(|(number, at)| Some(Refusal::new(number, at, 0)));
    assert_eq!(refusals, expected);
    // The last range ends inside the block too, which an addition does not ask.
    assert_eq!(outcomes[4], answer::script(&sequence.write(), &[good])[1]);
    assert!(outcomes[4].is_ok());
}
