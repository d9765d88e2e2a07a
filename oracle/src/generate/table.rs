//! Instruction tables: addresses with gaps and overlaps, flows and targets.

use super::random::Random;
use crate::image::{flow, Case, Instruction};

/// Where a table's first address lies.
#[derive(Clone, Copy)]
pub enum Base {
    /// Not far above 0.
    Low,
    /// Anywhere, up to an end at the last address of all.
    Anywhere,
}

/// A table of `count` instructions that passes 3 to 5.
pub fn table(random: &mut Random, count: usize, base: Base) -> Vec<Instruction> {
    let mut table = layout(random, count);
    shift(random, &mut table, base);
    let starts: Vec<u64> = table.iter().map(|one| one.address).collect();
    let common = random.pick(&[&ALL_FLOWS[..], &MILD_FLOWS[..]]);
    for instruction in &mut table {
        instruction.keeps = random.percent(80);
        let code = random.pick(common);
        set_flow(random, instruction, code, &starts);
    }
    table
}

/// Each flow once.
const ALL_FLOWS: [u8; 13] = [0, 1, 2, 3, 4, 5, 6, 7, 8, 9, 10, 11, 12];

/// Flows as code has them: mostly going on.
const MILD_FLOWS: [u8; 10] = [
    flow::NEXT,
    flow::NEXT,
    flow::NEXT,
    flow::NEXT,
    flow::RETURN,
    flow::JUMP,
    flow::CONDITIONAL,
    flow::CALL,
    flow::INDIRECT_CALL,
    flow::SWITCH,
];

/// Gives an instruction a flow, with targets that mostly are starts.
pub fn set_flow(random: &mut Random, instruction: &mut Instruction, code: u8, starts: &[u64]) {
    instruction.flow = code;
    if flow::has_target(code) {
        instruction.target = target(random, starts);
    }
    if code == flow::SWITCH {
        let cases = random.pick(&[0, 1, 2, 2, 3, 4]);
        instruction.cases = (0..cases)
            .map(|_| Case { key: random.word(), target: target(random, starts) })
            .collect();
    }
}

/// A start, or now and then an address that may be none.
fn target(random: &mut Random, starts: &[u64]) -> u64 {
    let start = random.pick(starts);
    if random.percent(80) {
        start
    } else {
        start.wrapping_add(random.pick(&[1, 2, 5, 40, u64::MAX]))
    }
}

/// Addresses from 0 on; in one table without gaps, overlaps or unlike sizes,
/// in another with many.
fn layout(random: &mut Random, count: usize) -> Vec<Instruction> {
    let (gaps, overlaps) = random.pick(&[(0, 0), (0, 0), (5, 5), (30, 0), (0, 40), (25, 25)]);
    let greatest = random.pick(&[1, 4, 4]);
    let mut at = 0;
    let mut table = Vec::with_capacity(count);
    for _ in 0..count {
        let mut size = random.between(1, greatest) as u64;
        let mut next = at + size;
        if random.percent(gaps) {
            next += random.between(1, 3) as u64;
        } else if random.percent(overlaps) {
            size = random.between(2, 9) as u64;
            next = at + random.between(1, size as usize - 1) as u64;
        }
        let (address, end) = (at, Some(at + size));
        table.push(Instruction { address, end, ..Instruction::default() });
        at = next;
    }
    table
}

fn shift(random: &mut Random, table: &mut [Instruction], base: Base) {
    let length = code_end(table).unwrap_or(0);
    let room = u64::MAX - length;
    let by = match base {
        Base::Low => random.pick(&[0, 1, 10, 100]),
        Base::Anywhere => match random.below(4) {
            0 => 0,
            1 => room,
            2 => random.pick(&[(1 << 32) - 3, (1 << 63) - 3, room - 1]),
            _ => random.next() % room,
        },
    };
    for instruction in table.iter_mut() {
        instruction.address += by;
        instruction.end = instruction.end.map(|end| end + by);
    }
    if matches!(base, Base::Anywhere) && !table.is_empty() && random.percent(30) {
        // One instruction over all that follows, to the last address.
        let position = random.below(table.len());
        table[position].end = Some(u64::MAX);
    }
}

/// The greatest end of all.
pub fn code_end(table: &[Instruction]) -> Option<u64> {
    table.iter().filter_map(|one| one.end).max()
}
