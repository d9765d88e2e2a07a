//! What the families hold.

use std::collections::BTreeSet;

use oracle::answer::{self, Answer};
use oracle::generate::{self, Family};
use oracle::image::read_image;

fn family(name: &str) -> &'static Family {
    generate::find(name).expect("a family of that name")
}

#[test]
fn writing_what_was_read_gives_the_bytes() {
    for family in &generate::FAMILIES {
        for index in 0..200 {
            let bytes = generate::image(family, 3, index);
            if let Ok(image) = read_image(&bytes) {
                assert_eq!(image.write(), bytes, "{} {index}", family.name);
            }
        }
    }
}

#[test]
fn a_seed_gives_the_same_images() {
    let images = |seed| -> Vec<Vec<u8>> {
        (0..50).map(|index| generate::image(family("small"), seed, index)).collect()
    };
    assert_eq!(images(5), images(5));
    assert_ne!(images(5), images(6));
    assert_eq!(generate::script(5, 1), generate::script(5, 1));
}

#[test]
fn at_least_half_are_accepted() {
    for family in generate::FAMILIES.iter().filter(|family| family.mostly_accepted) {
        let accepted = (0..300)
            .filter(|&index| answer::whole(&generate::image(family, 7, index)).is_ok())
            .count();
        assert!(accepted >= 150, "{}: {accepted} of 300", family.name);
    }
}

/// Every mode with each policy and flow, every role and kind, even among small
/// images that are accepted.
#[test]
fn small_images_show_everything() {
    let mut flows = BTreeSet::new();
    let mut edges = BTreeSet::new();
    let mut unresolved = BTreeSet::new();
    let mut handlers = BTreeSet::new();
    for index in 0..3000 {
        let bytes = generate::image(family("small"), 2, index);
        let Ok(Answer { contents, .. }) = answer::whole(&bytes) else {
            continue;
        };
        let image = read_image(&bytes).expect("accepted");
        flows.extend(image.instructions.iter().map(|one| (image.mode, image.calls, one.flow)));
        edges.extend(contents.edges.iter().map(|edge| (edge.payload.role, edge.kind)));
        unresolved.extend(contents.unresolved.iter().map(|record| record.role));
        handlers.extend(image.handlers.iter().map(|handler| (image.mode, handler.kind)));
    }
    assert_eq!(flows.len(), 3 * 2 * 13);
    // Each of the eleven roles of flows and routes has one kind, a given edge any.
    assert_eq!(edges.len(), 11 + 8);
    assert_eq!(unresolved.len(), 10);
    assert_eq!(handlers.len(), 3 * 5);
}

/// The build has marked what the image's own routes name.
#[test]
fn adding_the_image_s_own_routes_is_refused_by_size_alone() {
    for family in &generate::FAMILIES {
        for index in 0..300 {
            let bytes = generate::image(family, 9, index);
            if let (Ok(_), Err(refusal)) = (answer::build(&bytes), answer::whole(&bytes)) {
                assert!((18..=20).contains(&refusal.number), "{} {index}", family.name);
            }
        }
    }
}

#[test]
fn the_greatest_image_is_among_the_limits() {
    let greatest = (0..600)
        .map(|index| generate::image(family("limits"), 1, index))
        .filter(|bytes| answer::whole(bytes).is_ok())
        .map(|bytes| bytes.len())
        .max();
    assert_eq!(greatest, Some(42_700));
}

/// Exactly the limit passes.
#[test]
fn limits_are_met_and_not_passed() {
    let mut counts = [BTreeSet::new(), BTreeSet::new(), BTreeSet::new(), BTreeSet::new()];
    for index in 0..600 {
        let bytes = generate::image(family("limits"), 1, index);
        let Ok(Answer { contents, hops }) = answer::whole(&bytes) else {
            continue;
        };
        let lists: usize = hops.iter().map(|hop| hop.lists.len()).sum();
        let sizes = [contents.blocks.len(), contents.edges.len(), hops.len(), lists];
        counts.iter_mut().zip(sizes).for_each(|(seen, size)| {
            seen.insert(size);
        });
    }
    for (seen, limit) in counts.iter().zip([1024, 4096, 2048, 4096]) {
        assert_eq!(seen.last(), Some(&limit));
        assert!(seen.contains(&(limit - 1)));
    }
}

/// But for the empty program, the same in all layouts and frames, and for one
/// instruction whose target is the same in two layouts.
#[test]
fn exhaustive_images_differ() {
    let count = 40_000;
    let images: BTreeSet<Vec<u8>> =
        (0..count).map(|index| generate::image(family("exhaustive"), 0, index)).collect();
    assert_eq!(images.len(), count as usize - 16 - 72);
}
