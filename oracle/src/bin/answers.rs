//! The published Rust's answers to a stream of images.
//!
//! `answers [--build | --script] [--lines]`: reads a stream and writes the dump
//! of each answer after its length in 4 bytes, or, with `--lines`, on a line
//! of its own with `;` for the newlines. Without more, an image is built and in
//! modes 1 and 2 its routes are added; with `--build` it is built alone; with
//! `--script` each string is a stream itself, an image and then route images.

use std::io::{self, BufReader, BufWriter, Write};

use oracle::dump::{dump, dump_script};
use oracle::{answer, stream};

fn main() -> io::Result<()> {
    let options: Vec<String> = std::env::args().skip(1).collect();
    let chosen = |name: &str| options.iter().any(|option| option == name);

    let mut input = BufReader::new(io::stdin().lock());
    let mut out = BufWriter::new(io::stdout().lock());
    while let Some(bytes) = stream::get(&mut input)? {
        let text = if chosen("--script") {
            let strings = stream::get_all(&bytes)?;
            let (image, additions) = strings.split_first().ok_or(io::ErrorKind::InvalidData)?;
            dump_script(&answer::script(image, additions))
        } else if chosen("--build") {
            dump(&answer::build(&bytes))
        } else {
            dump(&answer::whole(&bytes))
        };
        if chosen("--lines") {
            writeln!(out, "{}", text.trim_end().replace('\n', ";"))?;
        } else {
            stream::put(&mut out, text.as_bytes())?;
        }
    }
    out.flush()
}
