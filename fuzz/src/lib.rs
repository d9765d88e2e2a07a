//! What the fuzz target's C side calls: both sides on one input, and mutants of
//! an input that keep the form of its images.

use std::slice;

use compare::hops::HOP_WORDS;
use compare::pair::Pair;
use compare::words::{ENTRY, SECTIONS, WORDS};
use oracle::generate::{self, Random};
use oracle::image::{read_image, read_routes, write_routes, Image};

/// An input taken apart, as `harness.c` does it.
#[repr(C)]
pub struct Strings {
    image: *const u8,
    routes: *const u8,
    patches: *const u8,
    image_length: usize,
    routes_length: usize,
    patch_count: usize,
}

/// Bytes of a patch: a word's number, and its value.
const PATCH: usize = 10;

struct Input<'s> {
    image: &'s [u8],
    routes: &'s [u8],
    patches: &'s [u8],
}

impl Strings {
    /// # Safety
    /// Each pointer is null beside the length 0, or has as many bytes behind it.
    unsafe fn input(&self) -> Input<'_> {
        let bytes = |at: *const u8, length: usize| {
            if length == 0 {
                &[]
            } else {
                slice::from_raw_parts(at, length)
            }
        };
        Input {
            image: bytes(self.image, self.image_length),
            routes: bytes(self.routes, self.routes_length),
            patches: bytes(self.patches, PATCH * self.patch_count),
        }
    }
}

/// Both sides over lent words, for all inputs.
///
/// # Safety
/// The words are lent for good.
#[no_mangle]
pub unsafe extern "C" fn compare_new(
    words: *mut [u64; WORDS],
    hops: *mut [u64; HOP_WORDS],
) -> *mut Pair<'static> {
    Box::into_raw(Box::new(Pair::with_texts(1, &mut *words, &mut *hops)))
}

/// Whether both sides do the same with an input.
///
/// # Safety
/// The pair is one of `compare_new`, the input one of `take_apart`.
#[no_mangle]
pub unsafe extern "C" fn compare_one(pair: &mut Pair<'static>, strings: &Strings) -> bool {
    let input = strings.input();
    pair.clear();
    let mut agrees = pair.sequence(input.image).agrees;
    pair.clear();
    let built = pair.build(input.image);
    agrees &= built.agrees;
    if let Ok(image) = built.answer {
        if image.mode != 0 {
            let length = write_routes(&image.routes).len();
            agrees &= pair.add(&input.image[input.image.len() - length..]).agrees;
        }
    }
    if !input.patches.is_empty() {
        pair.change(|words| {
            for patch in input.patches.chunks_exact(PATCH) {
                let (word, value) = patch.split_at(2);
                let word = u16::from_le_bytes([word[0], word[1]]);
                let value = value.try_into().expect("eight bytes");
                words[usize::from(word) % WORDS] = u64::from_le_bytes(value);
            }
        });
    }
    agrees && pair.add(input.routes).agrees
}

/// A mutant of an input whose images have their form, in `out`; its length. The
/// input itself where the mutant is too long.
///
/// # Safety
/// The input is one of `take_apart`, and `out` has `most` bytes, as many as the
/// input at least.
#[no_mangle]
pub unsafe extern "C" fn compare_mutate(
    strings: &Strings,
    out: *mut u8,
    most: usize,
    seed: u32,
) -> usize {
    let out = slice::from_raw_parts_mut(out, most);
    let input = strings.input();
    let mutant = mutant(&mut Random::new(seed.into(), 0), &input);
    let bytes = if mutant.len() <= most { mutant } else { whole(&input) };
    out[..bytes.len()].copy_from_slice(&bytes);
    bytes.len()
}

fn mutant(random: &mut Random, input: &Input) -> Vec<u8> {
    let (mut patches, mut routes) = (input.patches.to_vec(), input.routes.to_vec());
    let mut image = read_image(input.image).unwrap_or_else(|_| fresh(random));
    let mut list = read_routes(&routes).unwrap_or_default();
    match random.below(8) {
        0..=3 => generate::mutate(random, &mut image),
        4 | 5 => generate::mutate_routes(random, &image.instructions, &mut list),
        6 => list.clone_from(&image.routes),
        _ => patches = patch(random),
    }
    if !list.is_empty() || random.percent(20) {
        routes = write_routes(&list);
    }
    whole(&Input { image: &image.write(), routes: &routes, patches: &patches })
}

/// An image of some family that can be read.
fn fresh(random: &mut Random) -> Image {
    loop {
        let family = &generate::FAMILIES[random.below(generate::FAMILIES.len())];
        if let Ok(image) = read_image(&generate::image(family, random.next(), 0)) {
            return image;
        }
    }
}

/// Up to three words that a small graph uses.
fn patch(random: &mut Random) -> Vec<u8> {
    let mut patches = Vec::new();
    for _ in 0..random.below(4) {
        let section = &SECTIONS[random.below(SECTIONS.len())];
        let word = match random.below(4) {
            0 => section.count,
            1 => ENTRY,
            _ => section.base + random.below(4 * section.stride),
        };
        let value = match random.below(4) {
            0 => random.next(),
            1 => section.most as u64 + 1,
            _ => random.below(12) as u64,
        };
        patches.extend((word as u16).to_le_bytes());
        patches.extend(value.to_le_bytes());
    }
    patches
}

/// The bytes of an input.
fn whole(input: &Input) -> Vec<u8> {
    let mut out = vec![(input.patches.len() / PATCH) as u8];
    out.extend(input.patches);
    out.extend((input.routes.len() as u16).to_le_bytes());
    out.extend(input.routes);
    out.extend(input.image);
    out
}
