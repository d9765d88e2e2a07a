//! Every small image of a kind: all programs of none to three instructions
//! over a few flows and targets, in three layouts, under both call policies,
//! alone, with a handler, and with a route.

use crate::image::{flow, End, Handler, Image, Instruction, Path, Route, Step};

const PLAIN: [u8; 4] = [flow::NEXT, flow::RETURN, flow::INDIRECT_CALL, flow::CONDITIONAL_TRAP];
const TARGETED: [u8; 4] = [flow::JUMP, flow::CONDITIONAL, flow::CALL, flow::EXCEPTIONAL];
/// The first three starts, and an address that starts nothing.
const TARGETS: u64 = 4;
/// What one instruction can be.
const KINDS: u64 = PLAIN.len() as u64 + TARGETED.len() as u64 * TARGETS;
/// Programs of none to three instructions.
const PROGRAMS: u64 = 1 + KINDS + KINDS * KINDS + KINDS * KINDS * KINDS;
/// Spacing and size of the instructions: side by side, with gaps, overlapping.
const LAYOUTS: [(u64, u64); 3] = [(1, 1), (2, 1), (1, 2)];
/// Alone, with a handler, with a route.
const FRAMES: u64 = 3;

/// How many images there are.
pub const TOTAL: u64 = PROGRAMS * LAYOUTS.len() as u64 * 2 * FRAMES;

/// The image of a number below `TOTAL`; shorter programs come first.
pub fn image(number: u64) -> Image {
    let mut digits = Digits(number);
    let frame = digits.take(FRAMES);
    let calls = digits.take(2) as u8;
    let (spacing, size) = LAYOUTS[digits.take(LAYOUTS.len() as u64) as usize];
    let instructions = program(digits.0, spacing, size);
    let image = Image { calls, instructions, ..Image::default() };
    let (Some(first), Some(last)) = (image.instructions.first(), image.instructions.last()) else {
        return image;
    };
    let (start, last) = (first.address, last.address);
    let end = last + size;
    match frame {
        0 => image,
        1 => Image {
            handlers: vec![Handler { start, end, entry: last, kind: 0, filter: 0 }],
            ..image
        },
        _ => {
            let paths = vec![Path { steps: vec![Step::Funclet(last)], end: End::Propagate }];
            let end = start + spacing;
            let end = if image.instructions.len() > 1 { end } else { start + size };
            Image { mode: 1, routes: vec![Route { start, end, paths }], ..image }
        }
    }
}

fn program(mut number: u64, spacing: u64, size: u64) -> Vec<Instruction> {
    let mut count = 0;
    let mut programs = 1;
    while number >= programs {
        number -= programs;
        programs *= KINDS;
        count += 1;
    }
    let mut digits = Digits(number);
    (0..count)
        .map(|position| {
            let (code, target) = flow_and_target(digits.take(KINDS), spacing);
            let address = 1 + position * spacing;
            Instruction {
                address,
                end: Some(address + size),
                keeps: true,
                flow: code,
                target,
                cases: Vec::new(),
            }
        })
        .collect()
}

fn flow_and_target(choice: u64, spacing: u64) -> (u8, u64) {
    let plain = PLAIN.len() as u64;
    if choice < plain {
        return (PLAIN[choice as usize], 0);
    }
    let mut digits = Digits(choice - plain);
    let target = 1 + digits.take(TARGETS) * spacing;
    (TARGETED[digits.0 as usize], target)
}

/// A number taken apart by mixed bases.
struct Digits(u64);

impl Digits {
    fn take(&mut self, base: u64) -> u64 {
        let digit = self.0 % base;
        self.0 /= base;
        digit
    }
}
