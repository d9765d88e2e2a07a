//! Parts and returning blocks.

use std::collections::BTreeSet;

use super::Addition;
use crate::image::{flow, kind};

impl Addition<'_> {
    /// The blocks reached from a funclet's entry, built or copied, without an
    /// ExceptionUnwind or Call edge and without entering the built block that
    /// starts another funclet.
    pub(super) fn part(&self, entry: usize) -> BTreeSet<usize> {
        let own = self.contents.first_address(entry);
        let mut part = BTreeSet::from([entry]);
        let mut open = vec![entry];
        while let Some(block) = open.pop() {
            for edge in &self.outgoing[block] {
                if !leaves(edge.kind)
                    && !self.starts_another(edge.target, own)
                    && part.insert(edge.target)
                {
                    open.push(edge.target);
                }
            }
        }
        part
    }

    /// Whether a block is the built one of a funclet other than `own`.
    fn starts_another(&self, block: usize, own: Option<u64>) -> bool {
        let first = self.contents.first_address(block);
        block < self.built && first != own && self.funclet_at(block).is_some()
    }

    /// The funclet that the block's first address is, if it is one.
    pub(super) fn funclet_at(&self, block: usize) -> Option<u64> {
        self.contents.first_address(block).filter(|first| self.funclets.contains(first))
    }

    /// Ends in Return, or in a Jump with no outgoing edge but those two kinds.
    pub(super) fn returning(&self, block: usize) -> bool {
        match self.contents.last(block).map(|last| last.flow) {
            Some(flow::RETURN) => true,
            Some(flow::JUMP) => self.outgoing[block].iter().all(|edge| leaves(edge.kind)),
            _ => false,
        }
    }
}

/// The two kinds that lead out of a part.
fn leaves(kind: u8) -> bool {
    matches!(kind, kind::EXCEPTION_UNWIND | kind::CALL)
}
