//! Stand-in for the changes of a graph: each adds to the store and no more.

use super::Cfg;
use crate::block::{BasicBlock, BlockId};
use crate::edge::{Edge, EdgeId, EdgeKind};

impl<I, E> Cfg<I, E> {
    /// Adds an empty block.
    pub fn new_block(&mut self) -> BlockId {
        self.graph.add_node(BasicBlock::new())
    }

    /// Adds an edge without a weight.
    pub fn add_edge_with_payload(
        &mut self,
        source: BlockId,
        target: BlockId,
        kind: EdgeKind,
        payload: E,
    ) -> EdgeId {
        let weight = None;
        self.graph.add_edge(source, target, Edge { kind, weight, payload })
    }

    /// Adds an edge with a weight.
    pub fn add_weighted_edge_with_payload(
        &mut self,
        source: BlockId,
        target: BlockId,
        kind: EdgeKind,
        weight: u32,
        payload: E,
    ) -> EdgeId {
        let weight = Some(weight);
        self.graph.add_edge(source, target, Edge { kind, weight, payload })
    }
}
