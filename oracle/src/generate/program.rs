//! Whole images by chance, accepted as a rule.

use super::given::given;
use super::random::Random;
use super::ranges::{handlers, routes, Ground, Sizes};
use super::table::{table, Base};
use crate::image::Image;

/// What an image may hold.
#[derive(Clone, Copy)]
pub struct Plan {
    pub modes: &'static [u8],
    pub instructions: (usize, usize),
    pub base: Base,
    pub handlers: usize,
    pub routes: Sizes,
}

/// Two to eight instructions and little of everything, all modes.
pub const SMALL: Plan = Plan {
    modes: &[0, 1, 2],
    instructions: (2, 8),
    base: Base::Low,
    handlers: 3,
    routes: Sizes { routes: 3, paths: 3, steps: 3 },
};

/// About the size of an operator's sequence, all modes.
pub const TYPICAL: Plan = Plan {
    instructions: (8, 40),
    handlers: 8,
    routes: Sizes { routes: 5, paths: 4, steps: 4 },
    ..SMALL
};

/// Many handlers: equal, nested, and equal in span.
pub const HANDLERS: Plan = Plan { modes: &[0, 0, 1], instructions: (2, 24), handlers: 32, ..SMALL };

/// Given edges.
pub const GIVEN: Plan = Plan { modes: &[2], instructions: (1, 24), ..SMALL };

/// Many routes with shared steps, repeated and nested funclets.
pub const ROUTES: Plan = Plan {
    modes: &[1, 1, 2],
    instructions: (3, 20),
    handlers: 2,
    routes: Sizes { routes: 12, paths: 5, steps: 6 },
    ..SMALL
};

/// Addresses up to the last one, spans up to the greatest.
pub const WIDE: Plan = Plan { instructions: (1, 12), base: Base::Anywhere, ..SMALL };

pub fn program(random: &mut Random, plan: Plan) -> Image {
    let (least, most) = plan.instructions;
    let count = if random.percent(2) { 0 } else { random.between(least, most) };
    let instructions = table(random, count, plan.base);
    let mut image = Image {
        mode: random.pick(plan.modes),
        calls: random.below(2) as u8,
        instructions,
        ..Image::default()
    };
    let Some(ground) = Ground::of(&image.instructions) else {
        return image;
    };
    if random.percent(40) {
        image.entry = Some(random.pick(&ground.starts));
    }
    if random.percent(60) {
        let count = random.between(1, plan.handlers);
        image.handlers = handlers(random, &ground, count);
    }
    if image.mode == 2 {
        image.given = given(random, &image.instructions);
    }
    if image.mode != 0 && random.percent(85) {
        let count = random.between(1, plan.routes.routes);
        image.routes = routes(random, &ground, Sizes { routes: count, ..plan.routes });
    }
    image
}
