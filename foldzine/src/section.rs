//! Records in words: a word that counts them, and rows of one width from a
//! base on.

pub struct Section {
    pub count: usize,
    pub base: usize,
    pub stride: usize,
}

pub const TABLE: Section = Section { count: 0, base: 32, stride: 5 };
pub const BLOCKS: Section = Section { count: 1, base: 2_592, stride: 2 };
pub const EDGES: Section = Section { count: 2, base: 4_640, stride: 8 };
pub const REGIONS: Section = Section { count: 3, base: 37_408, stride: 21 };
pub const HANDLERS: Section = Section { count: 4, base: 38_080, stride: 5 };
pub const UNRESOLVED: Section = Section { count: 5, base: 38_240, stride: 4 };
pub const CALLS: Section = Section { count: 6, base: 42_336, stride: 3 };
/// The word of the entry block.
pub const ENTRY: usize = 7;

pub const HOPS: Section = Section { count: 0, base: 8, stride: 5 };
pub const LISTS: Section = Section { count: 1, base: 10_248, stride: 2 };

impl Section {
    pub fn rows<'w>(&self, words: &'w [u64]) -> std::slice::ChunksExact<'w, u64> {
        let past = self.base + self.stride * words[self.count] as usize;
        words[self.base..past].chunks_exact(self.stride)
    }
}
