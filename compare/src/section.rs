//! Records in words: a word that counts them, and rows of one width from a
//! base on.

pub struct Section {
    pub count: usize,
    pub base: usize,
    pub stride: usize,
    pub most: usize,
}

impl Section {
    /// The first word of a row.
    pub fn at(&self, row: usize) -> usize {
        self.base + self.stride * row
    }

    /// How many rows the words say there are.
    pub fn rows(&self, words: &[u64]) -> usize {
        words[self.count] as usize
    }

    /// The rows. There are no more than `most`.
    pub fn read<'w>(&self, words: &'w [u64]) -> impl ExactSizeIterator<Item = &'w [u64]> {
        words[self.base..self.at(self.rows(words))].chunks_exact(self.stride)
    }

    /// Writes the rows and their count. Words behind them stay.
    pub fn write(&self, words: &mut [u64], rows: impl Iterator<Item = Vec<u64>>) {
        let mut count = 0;
        for row in rows {
            let at = self.at(count);
            words[at..at + self.stride].copy_from_slice(&row);
            count += 1;
        }
        words[self.count] = count as u64;
    }
}
