//! One change to a graph that 21 lets pass, after which it still does.

use crate::contents::{Contents, Edge, Payload};
use crate::generate::random::Random;
use crate::image::{flow, kind};
use crate::session::limit;

pub fn bend(random: &mut Random, contents: &mut Contents) {
    let blocks = contents.blocks.len();
    let edges = contents.edges.len();
    let position = random.below(contents.table.len());
    match random.below(12) {
        0..=2 => {
            let kind = random.pick(&[kind::CALL, kind::EXCEPTION_UNWIND]);
            put(contents, Edge { kind, ..edge(random, blocks) });
        }
        3 => put(contents, edge(random, blocks)),
        4 | 5 => copy(random, contents),
        6 if edges > 0 => {
            contents.edges.remove(random.below(edges));
        }
        7 if edges > 0 => contents.edges.swap(random.below(edges), random.below(edges)),
        8 if edges > 0 => put(contents, contents.edges[random.below(edges)]),
        9 => contents.table[position].keeps ^= true,
        10 => {
            contents.table[position].flow =
                random.pick(&[flow::NEXT, flow::RETURN, flow::JUMP, flow::THROW, flow::SWITCH]);
        }
        _ => contents.entry = random.below(blocks),
    }
}

/// Any edge between blocks that there are; nothing is asked of its payload
/// but the set of its role.
pub fn edge(random: &mut Random, blocks: usize) -> Edge {
    Edge {
        source: random.below(blocks),
        target: random.below(blocks),
        kind: random.below(usize::from(kind::COUNT)) as u8,
        payload: Payload {
            role: random.below(12) as u8,
            number: any(random),
            case_key: any(random),
            source_address: any(random),
            target_address: any(random),
        },
    }
}

/// Any word, often a small one.
pub fn any(random: &mut Random) -> u64 {
    if random.percent(50) {
        random.next()
    } else {
        u64::from(random.word())
    }
}

fn put(contents: &mut Contents, edge: Edge) {
    if contents.edges.len() < limit::EDGES {
        contents.edges.push(edge);
    }
}

/// A copy of a built block, with edges in and out.
fn copy(random: &mut Random, contents: &mut Contents) {
    let number = contents.blocks.len();
    if number == limit::BLOCKS {
        return;
    }
    let original = random.below(contents.built_blocks());
    contents.blocks.push(contents.blocks[original]);
    for _ in 0..random.between(0, 2) {
        let into = Edge { target: number, ..edge(random, number) };
        put(contents, into);
    }
    for _ in 0..random.between(0, 2) {
        let out = Edge { source: number, ..edge(random, number + 1) };
        put(contents, out);
    }
}
