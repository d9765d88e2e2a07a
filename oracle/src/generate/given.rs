//! Given edges of a table for mode 2.

use super::random::Random;
use crate::image::{flow, kind, GivenEdge, GivenSource, Instruction};

/// Given sources that leave no 7, 8, 9 and 16: all that do not go on to a
/// start, and some others.
pub fn given(random: &mut Random, table: &[Instruction]) -> Vec<GivenSource> {
    let starts: Vec<u64> = table.iter().map(|one| one.address).collect();
    let mut sources = Vec::new();
    for instruction in table {
        let may_go_on = matches!(instruction.flow, flow::NEXT | flow::CALL | flow::INDIRECT_CALL);
        let end = instruction.end.expect("a table that passes 3");
        let goes_on = may_go_on && starts.binary_search(&end).is_ok();
        if goes_on && !random.percent(20) {
            continue;
        }
        let count = random.pick(&[0, 1, 1, 2, 3]);
        let edges = (0..count).map(|_| edge(random, &starts)).collect();
        sources.push(GivenSource { address: instruction.address, edges });
    }
    sources
}

fn edge(random: &mut Random, starts: &[u64]) -> GivenEdge {
    GivenEdge {
        target: random.pick(starts),
        kind: random.below(usize::from(kind::COUNT)) as u8,
        payload: random.word(),
    }
}
