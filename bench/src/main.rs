//! `bench [TURNS]`: the proved functions beside Rust, each on the same image in
//! turn, many times a turn; the least time of all turns counts. The reader is
//! held against a plain one, on images of three sizes and on some that are
//! refused; the build, which reads its image too, against the published build
//! whose input was made beforehand, and against the same that reads its image
//! too; the addition of routes after that build likewise, by one call and by
//! two, and alone.
//!
//! `bench list` and `bench count SIDE WORK NAME` are for `count.sh`, which
//! counts machine instructions instead of time.

mod added;
mod counted;
mod images;
mod plain;
mod programs;
mod proved;

use std::hint::black_box;

use added::{time, Case};
use oracle::image::{read_image, Image};
use oracle::session::{Built, Inputs};
use proved::WORDS;

fn main() {
    let words: Vec<String> = std::env::args().skip(1).collect();
    let words: Vec<&str> = words.iter().map(String::as_str).collect();
    match words[..] {
        [] => time_all(200),
        ["list"] => {
            for (work, name, image) in counted::cases() {
                println!("{work}\t{name}\t{}", image.write().len());
            }
        }
        ["count", side, work, name] => counted::count(side, work, name),
        [turns] => time_all(turns.parse().expect("how many turns")),
        _ => panic!("bench [TURNS]"),
    }
}

fn time_all(turns: usize) {
    println!("{:28} {:>8} {:>10} {:>10} {:>7}", "read", "bytes", "proved ns", "Rust ns", "ratio");
    for (name, bytes) in images::all() {
        read(name, &bytes, turns);
    }
    head_with_reading("build");
    for (name, image) in programs::all() {
        build(name, &image, turns);
    }
    println!(
        "{:28} {:>8} {:>10} {:>10} {:>10} {:>7} {:>10} {:>7}",
        "build and add", "bytes", "proved ns", "two calls", "Rust ns", "ratio", "reading", "ratio"
    );
    let cases: Vec<_> = programs::added()
        .into_iter()
        .map(|(name, image)| add(name, Case::new(name, image), turns))
        .collect();
    println!("{:28} {:>8} {:>10} {:>10} {:>7}", "add", "bytes", "proved ns", "Rust ns", "ratio");
    for (name, bytes, ours, theirs) in cases {
        tell(name, bytes, ours, theirs);
    }
}

fn head_with_reading(work: &str) {
    println!(
        "{work:28} {:>8} {:>10} {:>10} {:>7} {:>10} {:>7}",
        "bytes", "proved ns", "Rust ns", "ratio", "reading", "ratio"
    );
}

/// Tells the build with its addition; answers the addition alone.
fn add(name: &'static str, mut case: Case, turns: usize) -> (&'static str, usize, f64, f64) {
    let (mut ours, mut theirs) = ([f64::MAX; 3], [f64::MAX; 3]);
    for _ in 0..turns {
        ours = least(ours, case.time_proved());
        theirs = least(theirs, case.time_rust());
    }
    let ([one, two, added], [read, whole, alone]) = (ours, theirs);
    println!(
        "{name:28} {:8} {one:10.1} {two:10.1} {whole:10.1} {:7.2} {read:10.1} {:7.2}",
        case.bytes(),
        one / whole,
        one / read
    );
    (name, case.bytes(), added, alone)
}

fn least<const N: usize>(one: [f64; N], other: [f64; N]) -> [f64; N] {
    std::array::from_fn(|i| one[i].min(other[i]))
}

fn read(name: &str, bytes: &[u8], turns: usize) {
    assert_eq!(proved::read_image(bytes), plain::read_image(bytes), "{name}");
    let times = 4_000_000 / (bytes.len() + 400);
    let (mut ours, mut theirs) = (f64::MAX, f64::MAX);
    for _ in 0..turns {
        ours = ours.min(time(times, || proved::read_image(black_box(bytes))));
        theirs = theirs.min(time(times, || plain::read_image(black_box(bytes))));
    }
    tell(name, bytes.len(), ours, theirs);
}

fn build(name: &str, image: &Image, turns: usize) {
    let bytes = image.write();
    let mut words: Box<[u64; WORDS]> = vec![0; WORDS].try_into().expect("as many words");
    let inputs = Inputs::of(image);
    assert!(proved::build(&bytes, &mut words) && inputs.clone().build().is_ok(), "{name}");
    let times = 200_000 / (bytes.len() + 400);
    let (mut ours, mut theirs, mut reading) = (f64::MAX, f64::MAX, f64::MAX);
    for _ in 0..turns {
        ours = ours.min(time(times, || proved::build(black_box(&bytes), &mut words)));
        let mut built = Vec::with_capacity(4 * times);
        reading = reading.min(time(times, || built.push(read_and_build(black_box(&bytes)))));
        let mut copies = vec![inputs.clone(); 2 * times].into_iter();
        theirs = theirs.min(time(times, || {
            let copy = copies.next().expect("a copy for each call");
            built.push(black_box(copy).build().expect("an image that is accepted"));
        }));
    }
    tell_with_reading(name, bytes.len(), ours, theirs, reading);
}

fn read_and_build(bytes: &[u8]) -> Built {
    let image = read_image(bytes).expect("an image that is accepted");
    Inputs::of(&image).build().expect("an image that is accepted")
}

fn tell_with_reading(name: &str, bytes: usize, ours: f64, theirs: f64, reading: f64) {
    println!(
        "{name:28} {bytes:8} {ours:10.1} {theirs:10.1} {:7.2} {reading:10.1} {:7.2}",
        ours / theirs,
        ours / reading
    );
}

fn tell(name: &str, bytes: usize, ours: f64, theirs: f64) {
    println!("{name:28} {bytes:8} {ours:10.1} {theirs:10.1} {:7.2}", ours / theirs);
}
