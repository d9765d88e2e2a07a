//! Stand-in for the store. What it does rests on document 01 alone:
//!
//! blocks and edges are numbered from 0 in order of adding, and a block's
//! edges go out in that order.
//!
//! Nothing is ever removed, so a count is also a bound.

use core::cmp::Ordering;
use core::fmt;
use core::hash::{Hash, Hasher};
use core::marker::PhantomData;

/// What an identity addresses.
pub trait IdTag {
    /// How the identity is printed before its number.
    const PREFIX: &'static str;
}

/// The number of a node or an edge.
pub struct Id<Tag> {
    number: u32,
    tag: PhantomData<Tag>,
}

impl<Tag> Id<Tag> {
    /// The identity with this number, whether or not a store has it.
    pub const fn from_raw(number: u32) -> Self {
        Self { number, tag: PhantomData }
    }

    /// The number.
    pub const fn index(self) -> usize {
        self.number as usize
    }

    fn from_index(index: usize) -> Self {
        Self::from_raw(u32::try_from(index).expect("at most 2^32 identities"))
    }
}

impl<Tag> Clone for Id<Tag> {
    fn clone(&self) -> Self {
        *self
    }
}

impl<Tag> Copy for Id<Tag> {}

impl<Tag> PartialEq for Id<Tag> {
    fn eq(&self, other: &Self) -> bool {
        self.number == other.number
    }
}

impl<Tag> Eq for Id<Tag> {}

impl<Tag> PartialOrd for Id<Tag> {
    fn partial_cmp(&self, other: &Self) -> Option<Ordering> {
        Some(self.cmp(other))
    }
}

impl<Tag> Ord for Id<Tag> {
    fn cmp(&self, other: &Self) -> Ordering {
        self.number.cmp(&other.number)
    }
}

impl<Tag> Hash for Id<Tag> {
    fn hash<H: Hasher>(&self, state: &mut H) {
        self.number.hash(state);
    }
}

impl<Tag: IdTag> fmt::Display for Id<Tag> {
    fn fmt(&self, formatter: &mut fmt::Formatter<'_>) -> fmt::Result {
        write!(formatter, "{}{}", Tag::PREFIX, self.number)
    }
}

impl<Tag: IdTag> fmt::Debug for Id<Tag> {
    fn fmt(&self, formatter: &mut fmt::Formatter<'_>) -> fmt::Result {
        fmt::Display::fmt(self, formatter)
    }
}

/// One edge of the store.
#[derive(Debug, Clone, PartialEq, Eq)]
pub struct Record<E, N: IdTag> {
    source: Id<N>,
    target: Id<N>,
    payload: E,
}

impl<E, N: IdTag> Record<E, N> {
    pub fn source(&self) -> Id<N> {
        self.source
    }

    pub fn target(&self) -> Id<N> {
        self.target
    }

    pub fn payload(&self) -> &E {
        &self.payload
    }
}

/// Nodes, edges, and each node's edges both ways, all in order of adding.
#[derive(Debug, Clone, PartialEq, Eq)]
pub struct Graph<V, E, N: IdTag, M: IdTag> {
    nodes: Vec<V>,
    edges: Vec<Record<E, N>>,
    outgoing: Vec<Vec<Id<M>>>,
    incoming: Vec<Vec<Id<M>>>,
}

impl<V, E, N: IdTag, M: IdTag> Graph<V, E, N, M> {
    pub const fn tagged() -> Self {
        Self { nodes: Vec::new(), edges: Vec::new(), outgoing: Vec::new(), incoming: Vec::new() }
    }

    pub fn add_node(&mut self, node: V) -> Id<N> {
        let id = Id::from_index(self.nodes.len());
        self.nodes.push(node);
        self.outgoing.push(Vec::new());
        self.incoming.push(Vec::new());
        id
    }

    pub fn add_edge(&mut self, source: Id<N>, target: Id<N>, payload: E) -> Id<M> {
        let id = Id::from_index(self.edges.len());
        self.edges.push(Record { source, target, payload });
        self.outgoing[source.index()].push(id);
        self.incoming[target.index()].push(id);
        id
    }

    pub fn node(&self, id: Id<N>) -> &V {
        &self.nodes[id.index()]
    }

    pub fn node_mut(&mut self, id: Id<N>) -> &mut V {
        &mut self.nodes[id.index()]
    }

    pub fn edge(&self, id: Id<M>) -> &Record<E, N> {
        &self.edges[id.index()]
    }

    pub fn contains_node(&self, id: Id<N>) -> bool {
        id.index() < self.nodes.len()
    }

    pub fn contains_edge(&self, id: Id<M>) -> bool {
        id.index() < self.edges.len()
    }

    pub fn node_ids(&self) -> impl Iterator<Item = Id<N>> + '_ {
        (0..self.nodes.len()).map(Id::from_index)
    }

    pub fn edge_ids(&self) -> impl Iterator<Item = Id<M>> + '_ {
        (0..self.edges.len()).map(Id::from_index)
    }

    pub fn outgoing(&self, id: Id<N>) -> impl Iterator<Item = Id<M>> + '_ {
        self.outgoing[id.index()].iter().copied()
    }

    pub fn incoming(&self, id: Id<N>) -> impl Iterator<Item = Id<M>> + '_ {
        self.incoming[id.index()].iter().copied()
    }

    pub fn successors(&self, id: Id<N>) -> impl Iterator<Item = Id<N>> + '_ {
        self.outgoing(id).map(|edge| self.edge(edge).target)
    }

    pub fn predecessors(&self, id: Id<N>) -> impl Iterator<Item = Id<N>> + '_ {
        self.incoming(id).map(|edge| self.edge(edge).source)
    }

    pub const fn node_count(&self) -> usize {
        self.nodes.len()
    }

    pub fn node_bound(&self) -> usize {
        self.nodes.len()
    }

    pub const fn edge_count(&self) -> usize {
        self.edges.len()
    }

    pub fn edge_bound(&self) -> usize {
        self.edges.len()
    }
}
