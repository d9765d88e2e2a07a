//! The published Rust of cfglib's address builder, run on the images of
//! document 01: what a comparison holds the proved code against.

pub mod answer;
pub mod chart;
pub mod contents;
pub mod dump;
pub mod generate;
pub mod image;
pub mod published;
pub mod session;
pub mod stream;
pub mod walks;
