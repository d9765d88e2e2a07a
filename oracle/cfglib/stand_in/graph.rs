//! Stand-in: of `graph`, the store and the borrowed edge.

pub mod edge_view;
pub mod store;
