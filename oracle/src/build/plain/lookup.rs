//! What the second build wants of scratch and keeps there, and the faults that tests plant in it.

use crate::bench::{cell, enter, float, number, points, word, NONE};
use crate::store::next::plain::{plain_next, Fault};
use std::ops::Range;

type Record = [u8; 16];

/// How scratch is judged and used: as it should be, or with a fault.
#[derive(Clone, Copy, PartialEq)]
pub(crate) enum Scratch {
    Sound,
    // the words that are wanted
    CellsAlways,
    PairsAlways,
    ByBits,
    Lesser,
    RoundedDown,
    PairMore,
    WordMore,
    // which files are in working form
    PadUnjudged,
    PadLowByteOnly,
    PastTheEnd,
    NoRecordIsNot,
    EqualPass,
    XOutermost,
    LastUnjudged,
    // the place of 8, and what it leaves
    Touched,
    BeforeRecords,
    AfterNeighbours,
    // marks and totals
    TotalThroughItsWord,
    TotalWithoutLast,
    OwnMarkCounted,
    OneMoreAt(usize),
    LastOfWordLost,
    SpareBitsSet,
    NotCleared,
    PairsOfAnyOrder,
    // the search for a row's marked cells
    Search(Fault),
    RowsToThePlanesEnd,
}

/// Marks and totals of so many cells, in pairs of words: the marks of 32 cells, and how many cells before them are marked.
pub(super) struct Pairs<'a> {
    scratch: Scratch,
    words: &'a [u32],
    grid: usize,
    cells: usize,
}

/// What stands in scratch: each cell's index, or, of a file in working form, pairs.
pub(super) enum Lookup<'a> {
    Cells(&'a [u32]),
    Pairs(Pairs<'a>),
}

/// The bits of a word up to this one, with it.
fn through(bit: usize) -> u32 {
    u32::MAX >> (31 - bit)
}

impl Pairs<'_> {
    /// The marks of a cell's word, and the total before it.
    fn pair(&self, cell: usize) -> [u32; 2] {
        let word = cell / 32 * 2;
        [self.words[word], self.words[word + 1]]
    }

    /// The total before a cell's word and the marks below its own.
    fn index(&self, cell: usize) -> u32 {
        let ([marks, total], bit) = (self.pair(cell), cell % 32);
        let below = match self.scratch {
            Scratch::OwnMarkCounted => through(bit),
            _ => through(bit) >> 1,
        };
        let more = u32::from(self.scratch == Scratch::OneMoreAt(cell));
        total.wrapping_add((marks & below).count_ones() + more)
    }

    /// The marked cells of a row, each searched for from the one before on.
    fn marked(&self, row: Range<usize>) -> Vec<usize> {
        let fault = match self.scratch {
            Scratch::Search(fault) => fault,
            _ => Fault::None,
        };
        let plane = self.grid.pow(2);
        let end = match self.scratch {
            Scratch::RowsToThePlanesEnd => (row.start / plane + 1) * plane,
            _ => row.end,
        };
        let (pairs, _) = self.words.as_chunks();
        let mut cells = Vec::new();
        let mut first = row.start;
        // a search that goes back to an earlier mark finds no more than a row has
        while let Some(cell) = plain_next(fault, pairs, first as u32, end as u32).cell {
            if cells.len() == self.cells {
                break;
            }
            cells.push(cell as usize);
            first = first.max(cell as usize) + 1;
        }
        cells
    }

    /// How many cells up to this one are marked, with it: for the grid's last cell all marks of its word count.
    fn up_to(&self, cell: usize) -> u32 {
        let [marks, total] = self.pair(cell);
        let marks = match cell % 32 {
            31 if self.scratch == Scratch::LastOfWordLost => 0,
            _ if cell + 1 == self.cells => marks,
            bit => marks & through(bit),
        };
        total.wrapping_add(marks.count_ones())
    }
}

impl Lookup<'_> {
    /// The indices of a row's records.
    pub(super) fn indices(&self, row: Range<usize>) -> Vec<u32> {
        match self {
            Self::Cells(cells) => {
                let row = cells[row].iter().copied();
                row.filter(|&index| index != NONE).collect()
            }
            Self::Pairs(pairs) => {
                let marked = pairs.marked(row).into_iter();
                marked.map(|cell| pairs.index(cell)).collect()
            }
        }
    }

    /// How many of a row's cells have a record.
    pub(super) fn count(&self, row: Range<usize>) -> usize {
        match self {
            Self::Cells(cells) => {
                let row = cells[row].iter();
                row.filter(|&&index| index != NONE).count()
            }
            Self::Pairs(pairs) => {
                let before = row.start.checked_sub(1);
                let before = before.map_or(0, |cell| pairs.up_to(cell));
                pairs.up_to(row.end - 1).saturating_sub(before) as usize
            }
        }
    }
}

impl Scratch {
    /// Whether records are in working form; `all` has those past the end too.
    fn is_working(self, grid: usize, records: &[Record], all: &[Record]) -> bool {
        let judged = match self {
            Self::PastTheEnd => all,
            Self::LastUnjudged => &records[..records.len().saturating_sub(1)],
            _ => records,
        };
        let key = |record: &Record| match (self, cell(record)) {
            (Self::XOutermost, [x, y, z]) => (x * grid + y) * grid + z,
            _ => number(grid, record),
        };
        let ascends = |a: &Record, b: &Record| match self {
            Self::EqualPass => key(a) <= key(b),
            _ => key(a) < key(b),
        };
        let padded = |record: &Record| match self {
            Self::PadUnjudged => false,
            Self::PadLowByteOnly => record[6] != 0,
            _ => record[6..8] != [0, 0],
        };
        let none = self == Self::NoRecordIsNot && records.is_empty();
        judged.is_sorted_by(ascends) && !judged.iter().any(padded) && !none
    }

    /// The words wanted for a file that is in working form or not.
    fn wanted(self, grid: usize, working: bool) -> usize {
        let cells = grid.pow(3);
        let pairs = 2 * cells.div_ceil(32);
        match self {
            Self::CellsAlways => cells,
            Self::PairsAlways => pairs,
            _ if !working => cells,
            Self::ByBits => (2 * cells).div_ceil(32),
            Self::Lesser => pairs.min(cells),
            Self::RoundedDown => cells / 32 * 2,
            Self::PairMore => cells / 32 * 2 + 2,
            Self::WordMore => pairs + 1,
            _ => pairs,
        }
    }

    /// 8 before a record's 6 or 7, where a fault meets an earlier record that is not in working form.
    pub(super) fn early(self, file: &[u8], words: usize) -> Result<(), u64> {
        if self != Self::BeforeRecords || !matches!(points(file), Err(6 | 7)) {
            return Ok(());
        }
        let (grid, records) = (word(file, 8) as usize, file[64..].as_chunks().0);
        let is_good = |record: &&Record| {
            let finite = [8, 12].iter().all(|&at| float(*record, at).is_finite());
            finite && cell(record).iter().all(|&coordinate| coordinate < grid)
        };
        let good = &records[..records.iter().take_while(is_good).count()];
        let short = !self.is_working(grid, good, good) && words < grid.pow(3);
        (!short).then_some(()).ok_or(8)
    }

    /// The lookup of a file's records, or 8; in words to spare, where a fault wants too few.
    pub(super) fn laid<'a>(
        self,
        file: &[u8],
        (grid, records): (usize, &[Record]),
        scratch: &'a mut [u32],
        spare: &'a mut Vec<u32>,
    ) -> Result<Lookup<'a>, u64> {
        let working = self.is_working(grid, records, file[64..].as_chunks().0);
        let wanted = self.wanted(grid, working);
        if working && self == Self::Touched {
            scratch.iter_mut().take(wanted).for_each(|word| *word = 0);
        }
        let mut neighbours = records.windows(2);
        let equal = |two: &[Record]| number(grid, &two[0]) == number(grid, &two[1]);
        if self == Self::AfterNeighbours && neighbours.any(equal) {
            return Err(21);
        }
        if scratch.len() < wanted {
            return Err(8);
        }
        let (cells, paired) = (grid.pow(3), working || self == Self::PairsOfAnyOrder);
        let held = match paired {
            true => 2 * cells.div_ceil(32),
            false => cells,
        };
        let words = match scratch.get_mut(..held) {
            Some(words) => words,
            None => {
                spare.resize(held, 0);
                spare.as_mut_slice()
            }
        };
        if !paired {
            enter(grid, records, words);
            return Ok(Lookup::Cells(words));
        }
        self.enter_pairs(grid, records, words.as_chunks_mut().0);
        Ok(Lookup::Pairs(Pairs {
            scratch: self,
            words,
            grid,
            cells,
        }))
    }

    /// Enters the marks of all records, then the totals.
    fn enter_pairs(self, grid: usize, records: &[Record], pairs: &mut [[u32; 2]]) {
        if self != Self::NotCleared {
            pairs.fill([0; 2]);
        }
        for record in records {
            let cell = number(grid, record);
            pairs[cell / 32][0] |= 1 << (cell % 32);
        }
        if let (Self::SpareBitsSet, [.., [marks, _]]) = (self, &mut *pairs) {
            *marks |= !through((grid.pow(3) - 1) % 32);
        }
        let mut total = 0;
        for [marks, before] in pairs {
            let counted = match self {
                Self::TotalWithoutLast => *marks & through(30),
                _ => *marks,
            };
            let after = total + counted.count_ones();
            *before = match self {
                Self::TotalThroughItsWord => after,
                _ => total,
            };
            total = after;
        }
    }
}
