//! The proved functions beside the published Rust, in one process: what the
//! programs `compare` and `demand3` and the fuzz target share.

pub mod broken;
pub mod hops;
pub mod noise;
pub mod pair;
pub mod proved;
pub mod rule;
pub mod section;
pub mod words;
