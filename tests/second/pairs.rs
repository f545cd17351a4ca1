//! A table of pairs of lines, one bit a pair: the networks at the limits have millions of them.

pub struct Pairs {
    words: usize,
    bits: Vec<u64>,
}

impl Pairs {
    pub fn none(lines: usize) -> Pairs {
        let words = lines / 64 + 1;
        Pairs {
            words,
            bits: vec![0; words * lines],
        }
    }

    fn row_of(&self, lines: &[usize]) -> Vec<u64> {
        let mut row = vec![0; self.words];
        for &line in lines {
            row[line / 64] |= 1 << (line % 64);
        }
        row
    }

    /// Adds each pair of a line of the first group with a line of the second.
    pub fn add_all(&mut self, first: &[usize], second: &[usize]) {
        let row = self.row_of(second);
        for &line in first {
            for (word, added) in row.iter().enumerate() {
                self.bits[line * self.words + word] |= added;
            }
        }
    }

    pub fn has(&self, line: usize, other: usize) -> bool {
        self.bits[line * self.words + other / 64] >> (other % 64) & 1 == 1
    }
}
