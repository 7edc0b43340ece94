//! The plain register of 01: what a list of calls from an opened file shall answer and leave, with no byte moved.
//!
//! Written apart from `rule/edit.rs`: it knows no cell numbers and no journal, only a map, a stack and two lengths.

use crate::rule::edit::Call;
use std::collections::BTreeMap;

/// z, y, x: cells in this order are in the order of their numbers.
type Cell = [u32; 3];

/// Float bits, Cauchy and elliptic.
type Masses = [u32; 2];

pub(crate) struct Register {
    header: Vec<u8>,
    grid: u32,
    /// Bytes of the file's buffer, and words of the journal.
    bytes: u64,
    words: u64,
    map: BTreeMap<Cell, Masses>,
    stack: Vec<(Cell, Option<Masses>)>,
}

fn word_at(bytes: &[u8], at: usize) -> u32 {
    u32::from_le_bytes([bytes[at], bytes[at + 1], bytes[at + 2], bytes[at + 3]])
}

fn half_word_at(bytes: &[u8], at: usize) -> u32 {
    u32::from(bytes[at]) + 256 * u32::from(bytes[at + 1])
}

/// A float whose exponent is all ones is none.
fn is_number(mass: u32) -> bool {
    mass >> 23 & 0xff != 0xff
}

impl Register {
    /// From the file handed to an accepted open, and both lengths: each cell's only record, and an empty stack.
    pub(crate) fn new(file: &[u8], bytes: usize, words: usize) -> Self {
        let count = word_at(file, 12) as usize;
        let mut map = BTreeMap::new();
        for record in file[64..].chunks_exact(16).take(count) {
            let cell = [4, 2, 0].map(|at| half_word_at(record, at));
            let before = map.insert(cell, [8, 12].map(|at| word_at(record, at)));
            assert_eq!(before, None, "an accepted open leaves a cell one record");
        }
        Self {
            header: file[..64].to_vec(),
            grid: word_at(file, 8),
            bytes: bytes as u64,
            words: words as u64,
            map,
            stack: Vec::new(),
        }
    }

    /// Makes a call and answers it.
    pub(crate) fn answer(&mut self, call: &Call) -> u64 {
        if let Some(cause) = self.refusal(call) {
            return cause;
        }
        match *call {
            Call::Put {
                cell: [x, y, z],
                masses,
            } => {
                let held = self.map.insert([z, y, x], masses);
                self.stack.push(([z, y, x], held));
            }
            Call::Remove { cell: [x, y, z] } => {
                let held = self.map.remove(&[z, y, x]);
                self.stack.push(([z, y, x], held));
            }
            Call::Undo => self.restore(),
        }
        self.length()
    }

    fn restore(&mut self) {
        if let Some((cell, held)) = self.stack.pop() {
            match held {
                Some(masses) => self.map.insert(cell, masses),
                None => self.map.remove(&cell),
            };
        }
    }

    /// Put: 6, 7, 13, 14. Remove: 6, 12, 13. Undo: 15.
    fn refusal(&self, call: &Call) -> Option<u64> {
        match *call {
            Call::Put { cell, masses } => {
                let [x, y, z] = cell;
                let adds = !self.map.contains_key(&[z, y, x]);
                let causes = [
                    (6, self.is_outside(cell)),
                    (7, !masses.iter().all(|&mass| is_number(mass))),
                    (13, self.has_no_entry_left()),
                    (14, adds && self.length() + 16 > self.bytes),
                ];
                first_that_holds(&causes)
            }
            Call::Remove { cell } => {
                let [x, y, z] = cell;
                let causes = [
                    (6, self.is_outside(cell)),
                    (12, !self.map.contains_key(&[z, y, x])),
                    (13, self.has_no_entry_left()),
                ];
                first_that_holds(&causes)
            }
            Call::Undo => self.stack.is_empty().then_some(15),
        }
    }

    fn is_outside(&self, cell: [u32; 3]) -> bool {
        !cell.iter().all(|&coordinate| coordinate < self.grid)
    }

    fn has_no_entry_left(&self) -> bool {
        self.height() == 1 << 24 || self.words < 1 + 3 * self.height() + 3
    }

    /// 64 + 16 × the map's cells
    fn length(&self) -> u64 {
        64 + 16 * self.map.len() as u64
    }

    /// The stack's height, which is e.
    pub(crate) fn height(&self) -> u64 {
        self.stack.len() as u64
    }

    /// The words of scratch that build needs for its file, which is in working form: two for each 32 cells of the grid, rounded up.
    pub(crate) fn scratch_words(&self) -> u64 {
        let cells = u64::from(self.grid).pow(3);
        2 * cells.div_ceil(32)
    }

    /// The opened header with n its cells, then its records in working form.
    pub(crate) fn file(&self) -> Vec<u8> {
        let mut file = self.header.clone();
        file[12..16].copy_from_slice(&(self.map.len() as u32).to_le_bytes());
        for ([z, y, x], [cauchy, elliptic]) in &self.map {
            let words = [x + (y << 16), *z, *cauchy, *elliptic];
            file.extend(words.iter().flat_map(|word| word.to_le_bytes()));
        }
        file
    }
}

fn first_that_holds(causes: &[(u64, bool)]) -> Option<u64> {
    let first = causes.iter().find(|(_, holds)| *holds);
    first.map(|(cause, _)| *cause)
}

#[cfg(test)]
mod tests {
    use super::*;
    use crate::points::{point_file, Header, Record};

    fn record(cell: [u16; 3], cauchy_mass: f32) -> Record {
        Record {
            cell,
            cauchy_mass,
            elliptic_mass: -0.0,
        }
    }

    fn put(cell: [u32; 3], masses: [u32; 2]) -> Call {
        Call::Put { cell, masses }
    }

    /// (1, 0, 1) before (0, 1, 0), with junk in a pad and behind the records.
    fn opened() -> Vec<u8> {
        let (first, second) = (record([1, 0, 1], 3.0), record([0, 1, 0], 2.0));
        let mut file = point_file(Header::cube(2, 2.0), &[first, second]);
        file[70] = 9;
        file[56..64].fill(0xee);
        file.extend_from_slice(&[0; 40]);
        file
    }

    /// Cells ascend, the header stays but for n.
    #[test]
    fn its_file() {
        let register = Register::new(&opened(), 200, 10);
        let (first, second) = (record([0, 1, 0], 2.0), record([1, 0, 1], 3.0));
        let mut want = point_file(Header::cube(2, 2.0), &[first, second]);
        want[56..64].fill(0xee);
        assert_eq!((register.file(), register.height()), (want, 0));
    }

    /// A file that was not in working form is now, and needs as much as any other that is.
    #[test]
    fn its_words() {
        let words = |g: u8| {
            let mut file = opened();
            file[8] = g;
            Register::new(&file, 200, 10).scratch_words()
        };
        assert_eq!([2, 3, 4, 5, 40].map(words), [2, 2, 4, 8, 4_000]);
        let register = Register::new(&opened(), 200, 10);
        let needed = crate::rule::tree::scratch_words(&register.file());
        assert_eq!(register.scratch_words(), needed);
    }

    /// A cell's record twice is no opened file's.
    #[test]
    #[should_panic(expected = "one record")]
    fn one_cell_twice() {
        let file = point_file(Header::cube(2, 2.0), &[record([1, 0, 1], 3.0); 2]);
        Register::new(&file, 200, 10);
    }

    #[test]
    fn edits_and_undos() {
        let mut register = Register::new(&opened(), 200, 10);
        let start = register.file();
        assert_eq!(register.answer(&put([0; 3], [1, 2])), 112);
        assert_eq!(register.answer(&put([0; 3], [3, 4])), 112);
        assert_eq!(register.answer(&Call::Remove { cell: [0, 1, 0] }), 96);
        assert_eq!(register.height(), 3);
        let first = &register.file()[64..80];
        assert_eq!(first, [0, 0, 0, 0, 0, 0, 0, 0, 3, 0, 0, 0, 4, 0, 0, 0]);
        assert_eq!(register.answer(&put([0; 3], [5, 6])), 13);
        let answers = [Call::Undo; 4].map(|call| register.answer(&call));
        assert_eq!(answers, [112, 112, 96, 15]);
        assert_eq!((register.file(), register.height()), (start, 0));
    }

    /// A refused call changes nothing; a put over a record needs no room.
    #[test]
    fn refusals_in_order() {
        let mut register = Register::new(&opened(), 111, 3);
        let start = register.file();
        let nan = 0x7fc0_0001;
        assert_eq!(register.answer(&put([0, 65_536, 0], [nan; 2])), 6);
        assert_eq!(register.answer(&put([0, 0, 0], [0, nan])), 7);
        assert_eq!(register.answer(&put([0, 0, 0], [0, 0])), 13);
        assert_eq!(register.answer(&Call::Remove { cell: [2, 0, 0] }), 6);
        assert_eq!(register.answer(&Call::Remove { cell: [0, 0, 0] }), 12);
        assert_eq!(register.answer(&Call::Remove { cell: [0, 1, 0] }), 13);
        assert_eq!(register.answer(&Call::Undo), 15);
        assert_eq!((register.file(), register.height()), (start, 0));
        register.words = 4;
        assert_eq!(register.answer(&put([0, 0, 0], [0, 0])), 14);
        assert_eq!(register.answer(&put([0, 1, 0], [0x7f7f_ffff, 1])), 96);
        register.bytes = 112;
        register.words = 7;
        assert_eq!(register.answer(&put([0, 0, 0], [0, 0])), 112);
    }
}
