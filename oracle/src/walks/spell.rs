//! Walks over hops, and the paths that they spell.

use std::cell::RefCell;
use std::collections::{BTreeMap, BTreeSet};
use std::rc::Rc;

use super::{all_paths, Addition};
use crate::contents::Hop;
use crate::image::{limit, End, Path, Step};

/// Where a hop leads.
enum Way {
    /// The walk is over.
    Over(End),
    /// Into a funclet, and on from any of these returning blocks.
    Into(u64, Vec<usize>),
}

/// The paths from a block, or none where there are more than could be listed.
type Spelled = Option<Rc<BTreeSet<Path>>>;

/// The walks of an addition: each hop with where it leads.
pub(super) struct Walks<'a> {
    ways: BTreeMap<usize, Vec<(&'a Hop, Way)>>,
    /// Blocks from which a walk can go on to an end.
    live: BTreeSet<usize>,
    /// The most funclets that a listed path has.
    most: usize,
    known: RefCell<BTreeMap<(usize, usize), Spelled>>,
}

impl<'a> Addition<'a> {
    pub(super) fn walks(&self) -> Walks<'a> {
        let way = |hop: &&'a Hop| (*hop, self.way(hop));
        let hops = self.hops.iter();
        let ways = hops.map(|(&source, hops)| (source, hops.iter().map(way).collect())).collect();
        let funclets =
            |path: &Path| path.steps.iter().filter(|step| matches!(step, Step::Funclet(_))).count();
        Walks {
            live: live(&ways),
            ways,
            most: all_paths(self.routes).map(funclets).max().unwrap_or(0),
            known: RefCell::default(),
        }
    }

    fn way(&self, hop: &Hop) -> Way {
        let Some(block) = hop.end else {
            return Way::Over(End::Propagate);
        };
        if block == hop.source {
            return Way::Over(End::Resume);
        }
        match self.funclet_at(block) {
            Some(funclet) => {
                let part = self.part(block).into_iter();
                Way::Into(funclet, part.filter(|&block| self.returning(block)).collect())
            }
            None => {
                let first = self.contents.first_address(block);
                Way::Over(End::Handler(first.expect("a hop's end holds an instruction")))
            }
        }
    }
}

/// The least set of blocks with a hop that is over, or into a funclet with a
/// returning block of the set.
fn live(ways: &BTreeMap<usize, Vec<(&Hop, Way)>>) -> BTreeSet<usize> {
    let mut live = BTreeSet::new();
    loop {
        let before = live.len();
        for (&block, ways) in ways {
            let goes_on = ways.iter().any(|(_, way)| match way {
                Way::Over(_) => true,
                Way::Into(_, blocks) => blocks.iter().any(|block| live.contains(block)),
            });
            if goes_on {
                live.insert(block);
            }
        }
        if live.len() == before {
            return live;
        }
    }
}

impl Walks<'_> {
    /// The paths that the walks from a block spell. None if a walk that comes
    /// to an end has more funclets than any listed path, or if there are more
    /// paths than an image can list.
    pub(super) fn spelled(&self, start: usize) -> Option<BTreeSet<Path>> {
        self.spelled_within(start, self.most).map(|paths| (*paths).clone())
    }

    fn spelled_within(&self, block: usize, left: usize) -> Spelled {
        if let Some(known) = self.known.borrow().get(&(block, left)) {
            return known.clone();
        }
        let spelled = self.spell(block, left).map(Rc::new);
        self.known.borrow_mut().insert((block, left), spelled.clone());
        spelled
    }

    fn spell(&self, block: usize, left: usize) -> Option<BTreeSet<Path>> {
        let mut paths = BTreeSet::new();
        for (hop, way) in self.ways.get(&block).into_iter().flatten() {
            for list in &hop.lists {
                let calls = || list.iter().map(|&tag| Step::Call(tag));
                match way {
                    Way::Over(end) => {
                        paths.insert(Path { steps: calls().collect(), end: *end });
                    }
                    Way::Into(funclet, blocks) => {
                        for &next in blocks.iter().filter(|block| self.live.contains(block)) {
                            let rest = self.spelled_within(next, left.checked_sub(1)?)?;
                            paths.extend(rest.iter().map(|rest| {
                                let funclet = [Step::Funclet(*funclet)];
                                let behind = rest.steps.iter().copied();
                                let steps = calls().chain(funclet).chain(behind).collect();
                                Path { steps, end: rest.end }
                            }));
                        }
                    }
                }
                if paths.len() > limit::PATHS {
                    return None;
                }
            }
        }
        Some(paths)
    }

    /// The returning blocks that walks from these blocks may take and that
    /// lead to no end.
    pub(super) fn stuck(&self, starts: &[usize]) -> Vec<usize> {
        let mut taken = BTreeSet::new();
        let mut open = starts.to_vec();
        while let Some(block) = open.pop() {
            for (_, way) in self.ways.get(&block).into_iter().flatten() {
                if let Way::Into(_, blocks) = way {
                    open.extend(blocks.iter().filter(|&&block| taken.insert(block)));
                }
            }
        }
        taken.difference(&self.live).copied().collect()
    }
}
