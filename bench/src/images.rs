//! Images to time: three sizes that are read to their end, and two refused.

/// How many records each section has, in file order.
type Sizes = [usize; 8];

const SMALL: Sizes = [3, 0, 0, 0, 0, 0, 0, 0];
const MIDDLE: Sizes = [16, 8, 8, 8, 1, 1, 2, 5];
const FULL: Sizes = [512, 512, 512, 512, 32, 32, 128, 512];

pub fn all() -> Vec<(&'static str, Vec<u8>)> {
    let full = image(FULL);
    let mut extra = full.clone();
    extra.push(0);
    let cut = full[..full.len() - 1].to_vec();
    vec![
        ("small", image(SMALL)),
        ("middle", image(MIDDLE)),
        ("full", full),
        ("full, an extra byte", extra),
        ("full, a byte too few", cut),
    ]
}

/// An image of mode 2 that is accepted. The first parent has all the children.
fn image(sizes: Sizes) -> Vec<u8> {
    let [instructions, cases, sources, edges, handlers, routes, paths, steps] = sizes;
    let mut out = vec![1, 2, 0, 1];
    number(&mut out, 100);

    word(&mut out, instructions);
    for i in 0..instructions {
        let flow = if i == 0 { 12 } else { i % 12 };
        number(&mut out, 100 + 2 * i);
        number(&mut out, 102 + 2 * i);
        out.extend([1, (i % 2) as u8, flow as u8]);
        number(&mut out, if matches!(flow, 6..=9 | 12) { 100 } else { 0 });
        word(&mut out, if i == 0 { cases } else { 0 });
    }
    word(&mut out, cases);
    for i in 0..cases {
        word(&mut out, i);
        number(&mut out, 100 + 2 * i);
    }
    word(&mut out, sources);
    for i in 0..sources {
        number(&mut out, 100 + 2 * i);
        word(&mut out, if i == 0 { edges } else { 0 });
    }
    word(&mut out, edges);
    for i in 0..edges {
        number(&mut out, 100 + 2 * i);
        out.push((i % 8) as u8);
        word(&mut out, i);
    }
    word(&mut out, handlers);
    for i in 0..handlers {
        number(&mut out, 100);
        number(&mut out, 104);
        number(&mut out, 102);
        out.push((i % 5) as u8);
        word(&mut out, if i % 5 == 4 { i } else { 0 });
    }
    word(&mut out, routes);
    for i in 0..routes {
        number(&mut out, 100);
        number(&mut out, 104);
        word(&mut out, if i == 0 { paths } else { 0 });
    }
    word(&mut out, paths);
    for i in 0..paths {
        out.push((i % 3) as u8);
        number(&mut out, if i % 3 == 0 { 102 } else { 0 });
        word(&mut out, if i == 0 { steps } else { 0 });
    }
    word(&mut out, steps);
    for i in 0..steps {
        out.push((i % 2) as u8);
        number(&mut out, 100 + i);
    }
    out
}

fn word(out: &mut Vec<u8>, word: usize) {
    out.extend((word as u32).to_le_bytes());
}

fn number(out: &mut Vec<u8>, number: usize) {
    out.extend((number as u64).to_le_bytes());
}
