//! Document 01's program, answered by the published Rust.

use std::io::{self, Read, Write};

use oracle::{answer, chart};

fn main() -> io::Result<()> {
    let mut image = Vec::new();
    io::stdin().read_to_end(&mut image)?;
    io::stdout().write_all(chart::chart(&answer::whole(&image)).as_bytes())
}
