//! The lines of document 01's program.

use std::fmt::{Display, Write};
use std::mem::take;

use crate::answer::{Answer, Outcome};
use crate::contents::{Contents, Hop};
use crate::image::Refusal;

/// The whole text, each line ended by a newline.
pub fn chart(outcome: &Outcome) -> String {
    let mut out = String::new();
    match outcome {
        Ok(answer) => answer_lines(&mut out, answer),
        Err(refusal) => refusal_line(&mut out, refusal),
    }
    out
}

/// Ends in a newline what `write!` is given.
macro_rules! line {
    ($out:expr, $($words:tt)*) => {
        writeln!($out, $($words)*).expect("a string takes every line")
    };
}
pub(crate) use line;

fn refusal_line(out: &mut String, refusal: &Refusal) {
    line!(out, "refused {} {} {}", refusal.number, refusal.first, refusal.second);
}

fn answer_lines(out: &mut String, answer: &Answer) {
    out.push_str(&graph(&answer.contents));
    out.push_str(&hops(&answer.hops));
    line!(out, "reached {}", answer.contents.reached().len());
}

/// The lines of a graph, up to the hops.
pub fn graph(contents: &Contents) -> String {
    let out = &mut String::new();
    block_lines(out, contents);
    region_lines(out, contents);
    for record in &contents.unresolved {
        let (target, case) = (or_dash(record.target), or_dash(record.case));
        line!(out, "unresolved {} {target} {} {case}", record.source, record.role);
    }
    for call in &contents.calls {
        line!(out, "call {} {}", call.source, or_dash(call.target));
    }
    take(out)
}

/// The lines of hops, one for each call list. The hops and their lists come sorted.
pub fn hops(hops: &[Hop]) -> String {
    let out = &mut String::new();
    hops.iter().for_each(|hop| hop_lines(out, hop));
    take(out)
}

fn block_lines(out: &mut String, contents: &Contents) {
    line!(
        out,
        "built {} {} {} {} {}",
        contents.blocks.len(),
        contents.edges.len(),
        contents.regions.len(),
        contents.unresolved.len(),
        contents.calls.len()
    );
    for (number, block) in contents.blocks.iter().enumerate() {
        let first = or_dash(contents.first_address(number));
        line!(out, "block {number} {first} {}", block.count);
    }
    for (number, edge) in contents.edges.iter().enumerate() {
        line!(
            out,
            "edge {number} {} {} {} {} {}",
            edge.source,
            edge.target,
            edge.kind,
            edge.payload.role,
            edge.payload.number
        );
    }
}

fn region_lines(out: &mut String, contents: &Contents) {
    for (number, region) in contents.regions.iter().enumerate() {
        let parent = or_dash(region.parent);
        line!(out, "region {number} {parent} {} {}", region.start, region.end);
    }
    for (index, reference) in contents.references.iter().enumerate() {
        let handler = &contents.regions[reference.region].handlers[reference.place];
        line!(
            out,
            "handler {index} {} {} {} {} {}",
            reference.region,
            reference.place,
            handler.entry,
            handler.kind,
            or_dash(handler.filter)
        );
    }
}

fn hop_lines(out: &mut String, hop: &Hop) {
    let end = hop.end.map_or("leave".to_string(), |block| block.to_string());
    for list in &hop.lists {
        let tags: Vec<String> = list.iter().map(u32::to_string).collect();
        let tags = if tags.is_empty() { "-".to_string() } else { tags.join(" ") };
        line!(out, "hop {} {end} {tags}", hop.source);
    }
}

fn or_dash<T: Display>(value: Option<T>) -> String {
    value.map_or("-".to_string(), |value| value.to_string())
}
