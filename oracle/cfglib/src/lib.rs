//! The published files of cfglib that the address builder needs, compiled
//! unchanged, over a stand-in for the modules that were not published.
//!
//! `build.rs` lays both out in one source tree and writes the list of modules
//! that stands here. Nothing of the published files is in this repository.
//!
//! Only a part of cfglib is here, so much of what the published files offer or
//! bring in has no user.
#![allow(dead_code, unused_imports)]

include!(concat!(env!("OUT_DIR"), "/modules.rs"));
