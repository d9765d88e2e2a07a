//! Images, scripts and graphs by a seed: the same family, seed and index give
//! the same.

mod damaged;
mod exhaustive;
mod funclets;
mod given;
mod graphs;
mod limits;
mod mistakes;
mod mutated;
mod program;
mod random;
mod ranges;
mod scripts;
mod table;

use crate::contents::Contents;
use crate::image::{Image, Route};
use program::{program, Plan};

pub use damaged::damage;
pub use mutated::{mutate, mutate_routes};
pub use random::Random;

/// A family of images.
pub struct Family {
    pub name: &'static str,
    /// Whether at least half of the images are accepted.
    pub mostly_accepted: bool,
    make: fn(&mut Random, u64) -> Image,
}

pub const FAMILIES: [Family; 11] = [
    family("small", |random, _| spoiled(random, program::SMALL, 10)),
    family("typical", |random, _| program(random, program::TYPICAL)),
    family("handlers", |random, _| program(random, program::HANDLERS)),
    family("given", |random, _| program(random, program::GIVEN)),
    family("routes", |random, _| program(random, program::ROUTES)),
    family("wide", |random, _| program(random, program::WIDE)),
    family("funclets", |random, _| with_funclets(random)),
    family("limits", |random, _| limits::image(random)),
    family("mistakes", |random, _| {
        let plan = random.pick(&[program::SMALL, program::GIVEN, program::ROUTES, program::WIDE]);
        spoiled(random, plan, 45)
    }),
    family("exhaustive", |_, index| exhaustive::image(index % exhaustive::TOTAL)),
    DAMAGED,
];

/// Images of other families, with bytes damaged after writing.
const DAMAGED: Family = Family {
    mostly_accepted: false,
    ..family("damaged", |random, _| match random.below(4) {
        0 => program(random, program::TYPICAL),
        1 => program(random, program::ROUTES),
        _ => program(random, program::SMALL),
    })
};

const fn family(name: &'static str, make: fn(&mut Random, u64) -> Image) -> Family {
    Family { name, mostly_accepted: true, make }
}

/// How many images the exhaustive family has before it begins anew.
pub const EXHAUSTIVE_TOTAL: u64 = exhaustive::TOTAL;

pub fn find(name: &str) -> Option<&'static Family> {
    FAMILIES.iter().find(|family| family.name == name)
}

/// The `index`th image of a family.
pub fn image(family: &Family, seed: u64, index: u64) -> Vec<u8> {
    let mut random = Random::new(seed, index);
    let mut bytes = (family.make)(&mut random, index).write();
    if family.name == DAMAGED.name {
        damage(&mut random, &mut bytes);
    }
    bytes
}

/// The `index`th script: an image to be built, then route images to be added.
pub fn script(seed: u64, index: u64) -> Vec<Vec<u8>> {
    scripts::additions(&mut Random::new(seed, index))
}

/// The `index`th script over funclets that stand apart, as records.
pub fn script_apart(seed: u64, index: u64) -> (Image, Vec<Vec<Route>>) {
    scripts::apart(&mut Random::new(seed, index))
}

/// The `index`th graph that no build made, and route lists to be added to it.
pub fn graph(seed: u64, index: u64) -> (Contents, Vec<Vec<Route>>) {
    graphs::graph(&mut Random::new(seed, index))
}

/// An image with a mistake in `part` of a hundred.
fn spoiled(random: &mut Random, plan: Plan, part: usize) -> Image {
    let mut image = program(random, plan);
    if random.percent(part) {
        mistakes::spoil(random, &mut image);
    }
    image
}

fn with_funclets(random: &mut Random) -> Image {
    let program = funclets::funclets(random, &[1, 1, 2]);
    Image { routes: program.routes(random), ..program.image }
}
