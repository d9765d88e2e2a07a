//! The sample of the examples: what it holds, and what is built of it.

use foldzine::{Block, Edge, Graph, HopBuffer, Refusal, Unrouted};

const IMAGE: &[u8] = include_bytes!("../examples/sequence.image");
const ROUTES: &[u8] = include_bytes!("../examples/sequence.routes");

/// Flows that the sequence uses.
const NEXT: u8 = 0;
const RETURN: u8 = 1;

/// Mode 1, five instructions, no case, nothing given, no handler, the routes.
fn image() -> Vec<u8> {
    let mut out = vec![1, 1, 0, 0];
    number(&mut out, 0);
    word(&mut out, 5);
    for (address, flow) in (0..).zip([NEXT, RETURN, RETURN, RETURN, RETURN]) {
        number(&mut out, address);
        number(&mut out, address + 1);
        out.extend([1, 1, flow]);
        number(&mut out, 0);
        word(&mut out, 0);
    }
    for _ in 0..4 {
        word(&mut out, 0);
    }
    out.extend(routes());
    out
}

/// When instruction 0 throws: call 7, funclet 2, and the handler at 4; or
/// funclet 3, then funclet 2, call 8, and out of the function.
fn routes() -> Vec<u8> {
    let (funclet, call) = (0, 1);
    let (handler, propagate) = (0, 1);
    let mut out = Vec::new();
    word(&mut out, 1);
    number(&mut out, 0);
    number(&mut out, 1);
    word(&mut out, 2);
    word(&mut out, 2);
    for (end, address, steps) in [(handler, 4, 2), (propagate, 0, 3)] {
        out.push(end);
        number(&mut out, address);
        word(&mut out, steps);
    }
    word(&mut out, 5);
    for (code, value) in [(call, 7), (funclet, 2), (funclet, 3), (funclet, 2), (call, 8)] {
        out.push(code);
        number(&mut out, value);
    }
    out
}

fn word(out: &mut Vec<u8>, word: u32) {
    out.extend(word.to_le_bytes());
}

fn number(out: &mut Vec<u8>, number: u64) {
    out.extend(number.to_le_bytes());
}

#[test]
fn the_stored_files_are_the_sample() {
    assert_eq!(IMAGE, image());
    assert_eq!(ROUTES, routes());
}

#[test]
fn a_new_graph_has_one_empty_block() {
    let graph = Graph::new();
    assert_eq!(graph.blocks().collect::<Vec<_>>(), [Block { first: 0, count: 0 }]);
    assert_eq!((graph.edges().len(), graph.reached()), (0, 1));
}

#[test]
fn the_routes_are_added() {
    let mut graph = Graph::build(IMAGE).expect("the sample is accepted");
    assert_eq!((graph.instructions().len(), graph.blocks().len(), graph.reached()), (5, 5, 2));
    let mut buffer = HopBuffer::new();
    let hops = graph.add_routes(ROUTES, &mut buffer).expect("the routes fit");
    let lines: Vec<(usize, Option<usize>, Vec<Vec<u32>>)> = hops
        .iter()
        .map(|hop| (hop.source, hop.end, hop.lists().map(Iterator::collect).collect()))
        .collect();
    assert_eq!(
        lines,
        [
            (0, Some(3), vec![vec![]]),
            (0, Some(5), vec![vec![7]]),
            (2, None, vec![vec![8]]),
            (3, Some(2), vec![vec![]]),
            (5, Some(4), vec![vec![]]),
        ]
    );
    // Funclet 2 is entered in two ways: the second has a copy of its block.
    assert_eq!(graph.blocks().last(), Some(Block { first: 2, count: 1 }));
    let ends: Vec<(usize, usize)> = graph.edges().map(|edge| (edge.source, edge.target)).collect();
    assert_eq!(ends, [(0, 1), (0, 3), (0, 5), (3, 2), (5, 4)]);
    assert_eq!(graph.reached(), 6);
}

#[test]
fn a_sequence_brings_its_routes() {
    let mut graph = Graph::build(IMAGE).expect("the sample is accepted");
    let mut buffer = HopBuffer::new();
    let hops = graph.add_routes(ROUTES, &mut buffer).expect("the routes fit").chart();
    let (mut routed, mut own) = (Graph::new(), HopBuffer::new());
    assert_eq!(
        routed.rebuild_routed(IMAGE, &mut own).expect("the sample is accepted").chart(),
        hops
    );
    assert_eq!(routed.chart(), graph.chart());
    let refusal = Refusal { number: 1, first: 3, second: 0 };
    let unrouted = Unrouted { built: false, refusal };
    assert_eq!(routed.rebuild_routed(&IMAGE[..3], &mut own).err(), Some(unrouted));
    assert_eq!(routed.chart(), graph.chart());
}

#[test]
fn the_chart_is_told() {
    let mut graph = Graph::build(IMAGE).expect("the sample is accepted");
    let mut buffer = HopBuffer::new();
    let hops = graph.add_routes(ROUTES, &mut buffer).expect("the routes fit");
    assert_eq!(hops.chart(), "hop 0 3 -\nhop 0 5 7\nhop 2 leave 8\nhop 3 2 -\nhop 5 4 -\n");
    let chart = graph.chart();
    assert!(chart.starts_with("built 6 5 0 0 0\nblock 0 "), "{chart}");
    assert_eq!(chart.lines().count(), 12);
}

#[test]
fn a_refusal_changes_nothing() {
    let mut graph = Graph::build(IMAGE).expect("the sample is accepted");
    let edges: Vec<Edge> = graph.edges().collect();
    let refusal = Refusal { number: 1, first: 3, second: 0 };
    assert_eq!(graph.rebuild(&IMAGE[..3]), Err(refusal));
    let mut buffer = HopBuffer::new();
    assert_eq!(graph.add_routes(&ROUTES[..3], &mut buffer).err(), Some(refusal));
    assert_eq!(refusal.to_string(), "refused 1 3 0");
    assert_eq!(graph.edges().collect::<Vec<_>>(), edges);
}
