//! Stand-in: of the builders, only the address builder was published.

pub mod address;
