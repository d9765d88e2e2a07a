//! Scripts: an image to be built, and route images to be added one after
//! another.

use super::damaged::damage;
use super::funclets::funclets;
use super::limits;
use super::mistakes::spoil;
use super::program::{program, ROUTES, SMALL};
use super::random::Random;
use super::ranges::{routes, Ground, Sizes};
use crate::image::{write_routes, Image, Route};

/// One to four additions over funclets that stand apart, all accepted where
/// the build marked every address that they name.
pub fn apart(random: &mut Random) -> (Image, Vec<Vec<Route>>) {
    let program = funclets(random, &[0, 1, 1, 1, 2]);
    let count = random.between(1, 4);
    let additions: Vec<Vec<Route>> = (0..count).map(|_| program.routes(random)).collect();
    let mut image = program.image;
    if image.mode != 0 {
        let marked = if random.percent(80) { count } else { 1 };
        image.routes = additions[..marked].concat();
    }
    (image, additions)
}

/// One to four additions to any graph.
pub fn additions(random: &mut Random) -> Vec<Vec<u8>> {
    let (image, lists) = match random.below(50) {
        0 => at_limits(random),
        1..=20 => apart(random),
        _ => anywhere(random),
    };
    let mut script = vec![image.write()];
    for list in lists {
        let mut bytes = write_routes(&list);
        if random.percent(6) {
            damage(random, &mut bytes);
        }
        script.push(bytes);
    }
    script
}

/// An image at a limit, and its own routes added twice.
fn at_limits(random: &mut Random) -> (Image, Vec<Vec<Route>>) {
    let image = limits::image(random);
    let lists = vec![image.routes.clone(); 2];
    (image, lists)
}

/// Additions that may name what the build did not mark, or no start at all.
fn anywhere(random: &mut Random) -> (Image, Vec<Vec<Route>>) {
    let plan = random.pick(&[SMALL, SMALL, ROUTES]);
    let image = program(random, plan);
    let Some(ground) = Ground::of(&image.instructions) else {
        return (image, Vec::new());
    };
    let count = random.between(1, 4);
    let lists = (0..count)
        .map(|_| {
            if random.percent(45) {
                return image.routes.clone();
            }
            let sizes = Sizes { routes: random.between(0, 3), paths: 2, steps: 3 };
            let routes = routes(random, &ground, sizes);
            let mut with = Image { routes, ..image.clone() };
            if random.percent(30) {
                spoil(random, &mut with);
            }
            with.routes
        })
        .collect();
    (image, lists)
}
