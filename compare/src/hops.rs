//! The words of an addition's hops, as the proved code lays them out.

use oracle::contents::Hop;
use oracle::image::{Route, Step};

use crate::section::Section;

pub const HOP_WORDS: usize = 18_440;

/// Source, whether there is an end block, that block, the first list, lists.
pub const HOPS: Section = Section { count: 0, base: 8, stride: 5, most: 2_048 };
/// The first step, and how many: a run of the route image's steps.
pub const LISTS: Section = Section { count: 1, base: 10_248, stride: 2, most: 4_096 };

/// The hops that words hold over the routes that were added. None where a
/// count, a flag or a run is none, a run is no run of calls, or there are lists
/// of no hop.
pub fn read(words: &[u64], routes: &[Route]) -> Option<Vec<Hop>> {
    if words[HOPS.count] > HOPS.most as u64 || words[LISTS.count] > LISTS.most as u64 {
        return None;
    }
    let paths = routes.iter().flat_map(|route| &route.paths);
    let steps: Vec<Step> = paths.flat_map(|path| path.steps.iter().copied()).collect();
    let lists: Option<Vec<Vec<u32>>> = LISTS.read(words).map(|row| tags(&steps, row)).collect();
    let lists = lists?;
    let hops: Option<Vec<Hop>> = HOPS.read(words).map(|row| hop(&lists, row)).collect();
    let hops = hops?;
    let used: usize = hops.iter().map(|hop| hop.lists.len()).sum();
    (used == lists.len()).then_some(hops)
}

/// Whether every word that the hops do not use is as it was.
pub fn others_kept(words: &[u64], before: &[u64]) -> bool {
    let (hops, lists) = (HOPS.at(HOPS.rows(words)), LISTS.at(LISTS.rows(words)));
    let free = [2..HOPS.base, hops..LISTS.base, lists..HOP_WORDS];
    free.into_iter().all(|range| words[range.clone()] == before[range])
}

fn tags(steps: &[Step], row: &[u64]) -> Option<Vec<u32>> {
    let (first, count) = (usize::try_from(row[0]).ok()?, usize::try_from(row[1]).ok()?);
    let run = steps.get(first..first.checked_add(count)?)?;
    let tag = |step: &Step| match *step {
        Step::Call(tag) => Some(tag),
        Step::Funclet(_) => None,
    };
    run.iter().map(tag).collect()
}

fn hop(lists: &[Vec<u32>], row: &[u64]) -> Option<Hop> {
    let (first, count) = (usize::try_from(row[3]).ok()?, usize::try_from(row[4]).ok()?);
    let end = match (row[1], row[2]) {
        (0, 0) => None,
        (1, block) => Some(block as usize),
        _ => return None,
    };
    let lists = lists.get(first..first.checked_add(count)?)?.to_vec();
    Some(Hop { source: row[0] as usize, end, lists })
}
