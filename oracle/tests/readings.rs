//! The readings of refusals 1 and 2 that document 01 leaves open
//! (AMBIGUITIES 1 to 11), each with the input that tells them apart.

mod common;

use common::{image, instruction, route};
use oracle::image::{
    flow, read_image, read_routes, write_routes, Case, End, GivenEdge, GivenSource, Handler, Image,
    Refusal, Step,
};

/// Offsets in an image: the first count, and the fields of the first
/// instruction.
const COUNT: usize = 12;
const END: usize = 24;
const END_FLAG: usize = 32;
const FLOW: usize = 34;
const TARGET: usize = 35;
const CASE_COUNT: usize = 43;
/// The cases' count behind one instruction.
const CASES: usize = 47;

fn one() -> Vec<u8> {
    image(vec![instruction(1, 2, flow::RETURN, 0)]).write()
}

fn patched(mut bytes: Vec<u8>, at: usize, with: &[u8]) -> Vec<u8> {
    bytes[at..at + with.len()].copy_from_slice(with);
    bytes
}

#[track_caller]
fn refused(bytes: &[u8], number: u8, offset: usize) {
    assert_eq!(read_image(bytes), Err(Refusal::new(number, offset as u64, 0)));
}

#[test]
fn reading_1_length_is_tested_field_by_field() {
    refused(&[], 1, 0);
    refused(&[1, 9], 1, 1);
    refused(&[1, 0], 1, 2);
    let bytes = one();
    for length in 0..bytes.len() {
        refused(&bytes[..length], 1, length);
    }
    let huge = patched(bytes, COUNT, &513u32.to_le_bytes());
    refused(&huge[..COUNT + 4], 2, COUNT);
}

#[test]
fn reading_2_sums_are_exact() {
    let table = vec![instruction(1, 2, flow::SWITCH, 0), instruction(2, 3, flow::SWITCH, 0)];
    let bytes = image(table).write();
    let bytes = patched(bytes, CASE_COUNT, &u32::MAX.to_le_bytes());
    let bytes = patched(bytes, CASE_COUNT + 31, &1u32.to_le_bytes());
    refused(&bytes, 1, CASES + 31);
}

#[test]
fn reading_3_unused_section_then_limit_then_sum() {
    let switch = image(vec![instruction(1, 2, flow::SWITCH, 0)]).write();
    let many = patched(switch, CASE_COUNT, &600u32.to_le_bytes());
    refused(&patched(many.clone(), CASES, &600u32.to_le_bytes()), 2, CASES);
    refused(&patched(many, CASES, &5u32.to_le_bytes()), 1, CASES);
    refused(&patched(one(), CASES + 4, &600u32.to_le_bytes()), 1, CASES + 4);
}

#[test]
fn reading_4_unused_fields() {
    refused(&patched(one(), TARGET, &[1]), 1, TARGET);
    refused(&patched(one(), CASE_COUNT, &[1]), 1, CASE_COUNT);
    refused(&patched(one(), FLOW, &[13]), 1, FLOW);

    let handler = Handler { start: 1, end: 2, entry: 1, kind: 4, filter: u32::MAX };
    let filtered = Image { handlers: vec![handler], ..image(vec![]) };
    assert!(read_image(&filtered.write()).is_ok());
    let kind = COUNT + 5 * 4 + 24;
    refused(&patched(filtered.write(), kind, &[3]), 1, kind + 1);

    let routes = write_routes(&[route(1, 2, vec![], End::Handler(8))]);
    let end = 4 + 20 + 4;
    let unused = patched(routes, end, &[1]);
    assert_eq!(read_routes(&unused), Err(Refusal::new(1, end as u64 + 1, 0)));
}

#[test]
fn reading_5_an_unused_end_is_found_at_its_flag() {
    refused(&patched(one(), END_FLAG, &[2]), 1, END_FLAG);
    let unused = patched(one(), END_FLAG, &[0]);
    refused(&unused, 1, END);
    refused(&unused[..END_FLAG + 1], 1, END);
    refused(&unused[..END_FLAG], 1, END_FLAG);
}

#[test]
fn reading_6_an_unused_entry_is_found_at_the_entry() {
    let entered = Image { entry: Some(1), ..image(vec![]) }.write();
    refused(&patched(entered.clone(), 3, &[0]), 1, 4);
    refused(&patched(entered, 3, &[2]), 1, 3);
}

#[test]
fn reading_7_given_sources_rise() {
    let source = |address| GivenSource { address, edges: vec![] };
    let given = Image { mode: 2, given: vec![source(4), source(4)], ..image(vec![]) }.write();
    let second = COUNT + 3 * 4 + 12;
    refused(&given, 1, second);
    refused(&given[..second + 8], 1, second);
}

#[test]
fn reading_8_a_call_tag_is_below_2_to_the_32() {
    let steps = vec![Step::Call(u32::MAX), Step::Funclet(u64::MAX)];
    let routes = write_routes(&[route(1, 2, steps, End::Propagate)]);
    assert!(read_routes(&routes).is_ok());
    let value = 4 + 20 + 4 + 13 + 4 + 1;
    let great = patched(routes, value + 4, &[1]);
    assert_eq!(read_routes(&great), Err(Refusal::new(1, value as u64, 0)));
}

#[test]
fn reading_9_what_a_mode_leaves_at_0() {
    let mut with_route = image(vec![]);
    with_route.routes = vec![route(1, 2, vec![], End::Resume)];
    let routes = COUNT + 5 * 4;
    refused(&with_route.write(), 1, routes);
    for section in 1..3 {
        refused(
            &patched(image(vec![]).write(), routes + 4 * section, &[1]),
            1,
            routes + 4 * section,
        );
    }
    for mode in [1, 2] {
        with_route.mode = mode;
        assert!(read_image(&with_route.write()).is_ok());
    }
    let given = Image { given: vec![GivenSource { address: 1, edges: vec![] }], ..image(vec![]) };
    for mode in [0, 1] {
        refused(&Image { mode, ..given.clone() }.write(), 1, COUNT + 2 * 4);
    }
}

#[test]
fn reading_10_extra_bytes_come_before_3() {
    let mut endless = image(vec![instruction(1, 2, flow::RETURN, 0)]);
    endless.instructions[0].end = None;
    let mut bytes = endless.write();
    let length = bytes.len();
    bytes.extend([0, 0]);
    refused(&bytes, 1, length);
    assert!(read_image(&bytes[..length]).is_ok());
}

#[test]
fn reading_11_repeats_are_no_fault() {
    let handler = Handler { start: 1, end: 2, entry: 1, kind: 0, filter: 0 };
    let twice = route(1, 2, vec![Step::Call(1)], End::Resume);
    let mut repeated = image(vec![instruction(1, 2, flow::SWITCH, 1)]);
    repeated.instructions[0].cases = vec![Case { key: 3, target: 1 }; 2];
    repeated.mode = 2;
    let edges = vec![GivenEdge { target: 1, kind: 6, payload: 0 }; 2];
    repeated.given = vec![GivenSource { address: 1, edges }];
    repeated.handlers = vec![handler; 2];
    repeated.routes = vec![twice; 2];
    assert_eq!(read_image(&repeated.write()), Ok(repeated.clone()));
    assert!(oracle::answer::whole(&repeated.write()).is_ok());
}
