//! A graph's words, as the proved store lays them out: written from what the
//! Rust's graph holds, and read back.

use oracle::contents::{Block, Contents, Edge, Payload, Reference, Region, Row};

use crate::section::Section;

pub const WORDS: usize = 43_872;

pub const TABLE: Section = Section { count: 0, base: 32, stride: 5, most: 512 };
pub const BLOCKS: Section = Section { count: 1, base: 2_592, stride: 2, most: 1_024 };
pub const EDGES: Section = Section { count: 2, base: 4_640, stride: 8, most: 4_096 };
pub const REGIONS: Section = Section { count: 3, base: 37_408, stride: 21, most: 32 };
pub const HANDLERS: Section = Section { count: 4, base: 38_080, stride: 5, most: 32 };
pub const UNRESOLVED: Section = Section { count: 5, base: 38_240, stride: 4, most: 1_024 };
pub const CALLS: Section = Section { count: 6, base: 42_336, stride: 3, most: 512 };
pub const ENTRY: usize = 7;

/// The sections in the order of their counts.
pub const SECTIONS: [Section; 7] = [TABLE, BLOCKS, EDGES, REGIONS, HANDLERS, UNRESOLVED, CALLS];

/// Writes the graph over `words`; words that it does not use stay.
pub fn write(words: &mut [u64], graph: &Contents) {
    words[ENTRY] = graph.entry as u64;
    let rows = graph.table.iter();
    TABLE.write(
        words,
        rows.map(|row| vec![row.address, row.end, 1, row.keeps.into(), row.flow.into()]),
    );
    write_flow(words, graph);
    REGIONS.write(words, graph.regions.iter().map(region));
    HANDLERS.write(words, graph.references.iter().map(|one| handler(graph, one)));
    let records = graph.unresolved.iter();
    UNRESOLVED.write(
        words,
        records.map(|record| {
            let case = record.case.unwrap_or(0) as u64;
            vec![record.source, record.target.unwrap_or(0), record.role.into(), case]
        }),
    );
    let calls = graph.calls.iter();
    CALLS.write(
        words,
        calls.map(|call| vec![call.source, call.target.is_some().into(), call.target.unwrap_or(0)]),
    );
}

/// Writes the blocks and edges alone: all that an addition changes.
pub fn write_flow(words: &mut [u64], graph: &Contents) {
    let blocks = graph.blocks.iter();
    BLOCKS.write(words, blocks.map(|block| vec![block.first as u64, block.count as u64]));
    EDGES.write(words, graph.edges.iter().map(edge));
}

/// The table, entry, blocks and edges of words that 21 lets pass: all that an
/// addition looks at.
pub fn read(words: &[u64]) -> Contents {
    Contents {
        entry: words[ENTRY] as usize,
        table: TABLE
            .read(words)
            .map(|row| Row { address: row[0], end: row[1], keeps: row[3] == 1, flow: row[4] as u8 })
            .collect(),
        blocks: BLOCKS
            .read(words)
            .map(|row| Block { first: row[0] as usize, count: row[1] as usize })
            .collect(),
        edges: EDGES.read(words).map(edge_of).collect(),
        ..Contents::default()
    }
}

fn edge(edge: &Edge) -> Vec<u64> {
    let payload = &edge.payload;
    vec![
        edge.source as u64,
        edge.target as u64,
        edge.kind.into(),
        payload.role.into(),
        payload.number,
        payload.case_key,
        payload.source_address,
        payload.target_address,
    ]
}

fn edge_of(row: &[u64]) -> Edge {
    Edge {
        source: row[0] as usize,
        target: row[1] as usize,
        kind: row[2] as u8,
        payload: Payload {
            role: row[3] as u8,
            number: row[4],
            case_key: row[5],
            source_address: row[6],
            target_address: row[7],
        },
    }
}

fn region(region: &Region) -> Vec<u64> {
    let parent = region.parent.unwrap_or(0) as u64;
    let handlers = region.handlers.len() as u64;
    let mut record =
        vec![region.parent.is_some().into(), parent, region.start, region.end, handlers];
    let mut set = [0u64; 16];
    for block in &region.protected {
        set[block / 64] |= 1 << (block % 64);
    }
    record.extend(set);
    record
}

fn handler(graph: &Contents, one: &Reference) -> Vec<u64> {
    let handler = &graph.regions[one.region].handlers[one.place];
    let filter = handler.filter.unwrap_or(0).into();
    vec![one.region as u64, one.place as u64, handler.entry as u64, handler.kind.into(), filter]
}
