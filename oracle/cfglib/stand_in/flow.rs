//! Stand-in: `flow` offers what its published part `transfer` holds.

mod transfer;

pub use transfer::*;
