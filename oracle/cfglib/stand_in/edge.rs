//! Stand-in for the edges: the eight kinds that document 01 names, in its
//! order, and an edge's kind, weight and payload.

use crate::graph::store::{Id, IdTag};

/// Tag marking an identity that addresses an edge.
#[derive(Debug, Clone, Copy, PartialEq, Eq, PartialOrd, Ord, Hash)]
pub struct EdgeTag;

impl IdTag for EdgeTag {
    const PREFIX: &'static str = "e";
}

pub type EdgeId = Id<EdgeTag>;

#[derive(Debug, Clone, Copy, PartialEq, Eq, PartialOrd, Ord, Hash)]
pub enum EdgeKind {
    Fallthrough,
    ConditionalTrue,
    ConditionalFalse,
    Jump,
    SwitchCase,
    Call,
    CallReturn,
    ExceptionUnwind,
}

/// What an edge carries. Nothing that is compiled here gives a weight.
#[derive(Debug, Clone, PartialEq, Eq)]
pub struct Edge<E> {
    pub(crate) kind: EdgeKind,
    pub(crate) weight: Option<u32>,
    pub(crate) payload: E,
}

impl<E> Edge<E> {
    pub fn kind(&self) -> EdgeKind {
        self.kind
    }

    pub fn weight(&self) -> Option<u32> {
        self.weight
    }

    pub fn payload(&self) -> &E {
        &self.payload
    }
}
