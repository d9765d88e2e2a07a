//! `images FAMILY SEED COUNT [--hex]`: images of a family on standard output,
//! each after its length in 4 bytes, or in hexadecimal on a line of its own.
//!
//! The family `scripts` gives scripts: each string is a stream itself, an
//! image to be built and then route images to be added; in hexadecimal these
//! stand on one line with a space between.

use std::io::{self, BufWriter, Write};
use std::process::ExitCode;

use oracle::{generate, stream};

fn main() -> ExitCode {
    let (options, words): (Vec<String>, Vec<String>) =
        std::env::args().skip(1).partition(|word| word.starts_with("--"));
    match run(&words, options.iter().any(|option| option == "--hex")) {
        Some(Ok(())) => ExitCode::SUCCESS,
        Some(Err(error)) => {
            eprintln!("images: {error}");
            ExitCode::FAILURE
        }
        None => {
            let names: Vec<&str> = generate::FAMILIES.iter().map(|family| family.name).collect();
            eprintln!("images FAMILY SEED COUNT [--hex]");
            eprintln!("families: {} scripts", names.join(" "));
            eprintln!("exhaustive begins anew after {}", generate::EXHAUSTIVE_TOTAL);
            ExitCode::FAILURE
        }
    }
}

/// None if the words are not a family and two numbers.
fn run(words: &[String], hex: bool) -> Option<io::Result<()>> {
    let [name, seed, count] = words else {
        return None;
    };
    let (seed, count) = (seed.parse().ok()?, count.parse().ok()?);
    if name == "scripts" {
        return Some(write(count, hex, |index| generate::script(seed, index), stream::pack));
    }
    let family = generate::find(name)?;
    let image = |index| vec![generate::image(family, seed, index)];
    Some(write(count, hex, image, |strings| strings.concat()))
}

fn write(
    count: u64,
    hex: bool,
    strings: impl Fn(u64) -> Vec<Vec<u8>>,
    join: impl Fn(&[Vec<u8>]) -> Vec<u8>,
) -> io::Result<()> {
    let mut out = BufWriter::new(io::stdout().lock());
    for index in 0..count {
        let strings = strings(index);
        if hex {
            let words: Vec<String> = strings.iter().map(|bytes| stream::hex(bytes)).collect();
            writeln!(out, "{}", words.join(" "))?;
        } else {
            stream::put(&mut out, &join(&strings))?;
        }
    }
    out.flush()
}
