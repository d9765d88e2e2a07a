//! All that an answer holds, as text: the chart's lines, then lines for what
//! the chart leaves out.

use std::fmt::Write;

use crate::answer::Outcome;
use crate::chart::{chart, line};

/// The chart, then `entry` block; `payload` edge, case key, source address,
/// target address; `protects` region and its protected blocks.
pub fn dump(outcome: &Outcome) -> String {
    let mut out = chart(outcome);
    let Ok(answer) = outcome else {
        return out;
    };
    let contents = &answer.contents;
    line!(out, "entry {}", contents.entry);
    for (number, edge) in contents.edges.iter().enumerate() {
        let payload = &edge.payload;
        line!(
            out,
            "payload {number} {} {} {}",
            payload.case_key,
            payload.source_address,
            payload.target_address
        );
    }
    for (number, region) in contents.regions.iter().enumerate() {
        let blocks: String = region.protected.iter().map(|block| format!(" {block}")).collect();
        line!(out, "protects {number}{blocks}");
    }
    out
}

/// The dumps of a script: `built` or `refused` first begins the build's, a line
/// `addition` and its number each addition's.
pub fn dump_script(outcomes: &[Outcome]) -> String {
    let mut out = String::new();
    for (number, outcome) in outcomes.iter().enumerate() {
        if number > 0 {
            line!(out, "addition {number}");
        }
        out.push_str(&dump(outcome));
    }
    out
}
