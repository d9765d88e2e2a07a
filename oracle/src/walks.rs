//! Demand 3, read from document 01: parts, returning blocks, walks and what
//! they spell, over the graph after an addition and the hops it returned.
//!
//! Nothing here knows of tries, nodes or instances.

mod part;
mod spell;
mod tally;

use std::collections::{BTreeMap, BTreeSet};

use crate::contents::{Contents, Edge, Hop};
use crate::image::{End, Path, Route, Step};

pub use tally::Tally;

/// An accepted addition: its routes, the graph after it, the hops it returned.
pub struct Addition<'a> {
    routes: &'a [Route],
    contents: &'a Contents,
    built: usize,
    outgoing: Vec<Vec<&'a Edge>>,
    hops: BTreeMap<usize, Vec<&'a Hop>>,
    funclets: BTreeSet<u64>,
}

/// What was found of an addition under demand 3's conditions.
#[derive(Debug, Default, PartialEq, Eq)]
pub struct Finding {
    /// Built protected blocks that keep their exception edge.
    pub blocks: usize,
    /// Paths listed for these blocks.
    pub paths: usize,
    /// Blocks from which the walks spell other paths than are listed.
    pub unlike: Vec<usize>,
    /// Returning blocks that a walk may take and that lead to no end.
    pub stuck: Vec<usize>,
}

impl Finding {
    pub fn holds(&self) -> bool {
        self.unlike.is_empty() && self.stuck.is_empty()
    }
}

impl<'a> Addition<'a> {
    pub fn new(routes: &'a [Route], contents: &'a Contents, hops: &'a [Hop]) -> Self {
        let mut outgoing = vec![Vec::new(); contents.blocks.len()];
        for edge in &contents.edges {
            outgoing[edge.source].push(edge);
        }
        let mut hops_by_source: BTreeMap<usize, Vec<&Hop>> = BTreeMap::new();
        for hop in hops {
            hops_by_source.entry(hop.source).or_default().push(hop);
        }
        let steps = all_paths(routes).flat_map(|path| &path.steps);
        let funclets = steps
            .filter_map(|step| match step {
                Step::Funclet(address) => Some(*address),
                Step::Call(_) => None,
            })
            .collect();
        Self {
            routes,
            contents,
            built: contents.built_blocks(),
            outgoing,
            hops: hops_by_source,
            funclets,
        }
    }

    /// Checks demand 3, or answers none where its conditions do not hold.
    pub fn check(&self) -> Option<Finding> {
        if !self.conditions() {
            return None;
        }
        let starts: Vec<usize> =
            (0..self.built).filter(|&block| self.protected(block) && self.keeps(block)).collect();
        let mut finding = Finding { blocks: starts.len(), ..Finding::default() };
        let walks = self.walks();
        for &start in &starts {
            let listed = self.listed(start);
            finding.paths += listed.len();
            if walks.spelled(start) != Some(listed) {
                finding.unlike.push(start);
            }
        }
        finding.stuck = walks.stuck(&starts);
        Some(finding)
    }

    /// The conditions, in their weaker reading: parts of different funclets
    /// share no block; each part has a returning block; no built protected
    /// block that keeps its exception edge lies in a part; and no handler
    /// address begins such a block or a built block of a part.
    fn conditions(&self) -> bool {
        let mut owned = BTreeSet::new();
        for &funclet in &self.funclets {
            let part = self.part(self.begins(funclet));
            if !part.iter().all(|&block| owned.insert(block))
                || !part.iter().any(|&block| self.returning(block))
            {
                return false;
            }
        }
        let kept = |block: usize| self.protected(block) && self.keeps(block);
        (0..self.built).all(|block| !(kept(block) && owned.contains(&block)))
            && self.handlers().all(|address| {
                let block = self.begins(address);
                !kept(block) && !owned.contains(&block)
            })
    }

    fn handlers(&self) -> impl Iterator<Item = u64> + '_ {
        all_paths(self.routes).filter_map(|path| match path.end {
            End::Handler(address) => Some(address),
            End::Propagate | End::Resume => None,
        })
    }

    /// The built block that begins at an address that an accepted addition
    /// names.
    fn begins(&self, address: u64) -> usize {
        (0..self.built)
            .find(|&block| self.contents.first_address(block) == Some(address))
            .expect("an accepted addition names built blocks")
    }

    fn covers(&self, route: &Route, block: usize) -> bool {
        let first = self.contents.first_address(block);
        first.is_some_and(|first| route.start <= first && first < route.end)
    }

    fn protected(&self, block: usize) -> bool {
        self.routes.iter().any(|route| self.covers(route, block))
    }

    /// Read from the block's first instruction, as the Rust reads it.
    fn keeps(&self, block: usize) -> bool {
        self.contents.table[self.contents.blocks[block].first].keeps
    }

    /// The paths that a route covering the block lists.
    fn listed(&self, block: usize) -> BTreeSet<Path> {
        let covering = self.routes.iter().filter(|route| self.covers(route, block));
        covering.flat_map(|route| route.paths.iter().cloned()).collect()
    }
}

fn all_paths(routes: &[Route]) -> impl Iterator<Item = &Path> {
    routes.iter().flat_map(|route| &route.paths)
}
