//! Stand-in for the regions of a graph: numbered from 0 in order of adding
//! (document 01).

use super::Cfg;
use crate::region::{Region, RegionId};

impl<I, E> Cfg<I, E> {
    /// Adds a region under the next number, whatever number it came with.
    pub fn add_region(&mut self, region: Region) -> RegionId {
        let id = RegionId::from_index(self.regions.len());
        self.regions.push(Region { id, ..region });
        id
    }

    /// The regions by number.
    pub fn regions(&self) -> &[Region] {
        &self.regions
    }
}
