//! 02's rule for the next occupied cell, cell by cell.

use std::collections::BTreeSet;
use std::fmt;

/// What a search gives: the cell, or none, and how many mark words were read.
#[derive(Clone, Copy, Debug, PartialEq)]
pub(crate) struct Next {
    pub(crate) cell: Option<u32>,
    pub(crate) read: u32,
}

impl fmt::Display for Next {
    fn fmt(&self, f: &mut fmt::Formatter<'_>) -> fmt::Result {
        match self.cell {
            Some(cell) => write!(f, "cell {cell}, {} words", self.read),
            None => write!(f, "none, {} words", self.read),
        }
    }
}

/// The least marked cell from the first up to the end, end excluded, in pairs of words: the marks of 32 cells, and a total, which is
/// not looked at. The words read are those with a cell from the first through the one found, or else up to the end.
pub(crate) fn next(pairs: &[[u32; 2]], first: u32, end: u32) -> Next {
    let is_marked = |cell: &u32| pairs[*cell as usize / 32][0] >> (cell % 32) & 1 == 1;
    let cell = (first..end).find(is_marked);
    let stop = cell.map_or(end, |cell| cell + 1);
    let words: BTreeSet<u32> = (first..stop).map(|cell| cell / 32).collect();
    Next {
        cell,
        read: words.len() as u32,
    }
}

/// 02's search by hand: cells 3, 40 and 64 are marked.
pub(crate) const KNOWN_PAIRS: [[u32; 2]; 3] = [[1 << 3, 7], [1 << 8, 7], [1, 7]];

/// Searches in it: first, end, the cell, the words read.
pub(crate) const KNOWN: [([u32; 2], Option<u32>, u32); 10] = [
    ([0, 96], Some(3), 1),
    ([4, 96], Some(40), 2),
    ([40, 41], Some(40), 1),
    ([41, 96], Some(64), 2),
    ([4, 40], None, 2),
    ([41, 64], None, 1),
    ([64, 64], None, 0),
    ([70, 64], None, 0),
    ([4, 32], None, 1),
    ([31, 33], None, 2),
];

#[cfg(test)]
mod tests {
    use super::*;

    #[test]
    fn known_searches() {
        for ([first, end], cell, read) in KNOWN {
            assert_eq!(next(&KNOWN_PAIRS, first, end), Next { cell, read });
        }
    }
}
