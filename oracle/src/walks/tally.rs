//! Demand 3 asked of many additions.

use super::{Addition, Finding};
use crate::contents::{Contents, Hop};
use crate::image::Route;

/// What was asked and found so far.
#[derive(Debug, Default)]
pub struct Tally {
    /// Accepted additions, those under the conditions, those with copies.
    pub additions: usize,
    pub checked: usize,
    pub with_copies: usize,
    pub blocks: usize,
    pub paths: usize,
    pub violations: usize,
}

impl Tally {
    /// Asks demand 3 of an accepted addition to a graph of `before` blocks:
    /// the finding where it does not hold.
    pub fn take(
        &mut self,
        routes: &[Route],
        before: usize,
        contents: &Contents,
        hops: &[Hop],
    ) -> Option<Finding> {
        self.additions += 1;
        let finding = Addition::new(routes, contents, hops).check()?;
        self.checked += 1;
        self.with_copies += usize::from(contents.blocks.len() > before);
        self.blocks += finding.blocks;
        self.paths += finding.paths;
        self.violations += usize::from(!finding.holds());
        (!finding.holds()).then_some(finding)
    }

    pub fn add(&mut self, other: &Self) {
        self.additions += other.additions;
        self.checked += other.checked;
        self.with_copies += other.with_copies;
        self.blocks += other.blocks;
        self.paths += other.paths;
        self.violations += other.violations;
    }

    /// A line about these additions.
    pub fn print(&self, name: &str) {
        println!(
            "{name:10} {:8} accepted, {:8} under the conditions, {:7} of these with copies, \
             {:9} blocks, {:9} listed paths, {} violations",
            self.additions,
            self.checked,
            self.with_copies,
            self.blocks,
            self.paths,
            self.violations
        );
    }
}
