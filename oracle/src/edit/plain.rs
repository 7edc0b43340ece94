//! A second implementation of the three calls, on a list of records, and the faults that tests plant in it.

use super::Edit;
use crate::bench::{float, number, points, word};
use crate::open::plain::Twice;
use crate::rule::edit::Call;

/// Declares the faults, and the three calls with each of them beside a kind of case that shows it.
macro_rules! faults {
    ($($fault:ident: $kind:literal,)*) => {
        #[derive(Clone, Copy, Debug, PartialEq)]
        pub(crate) enum Fault { None, $($fault,)* }

        pub(crate) const FAULTS: &[(Fault, Edit, &str)] = &[
            $((Fault::$fault, |f, j, c| plain_edit(Fault::$fault, f, j, c), $kind),)*
        ];
    };
}

faults! {
    UndoDoesNothing: "there and back",
    OnlyJournalledLater: "short histories",
    CountedWithoutEntry: "short histories",
    MassesJournalledSwapped: "short histories",
    FreedBytesLeft: "short histories",
    NoEntriesSaid: "there and back",
    AllRefused: "short histories",
    CountBigEndian: "short histories",
    MassesBigEndian: "short histories",
    HeadBigEndian: "short histories",
    Exponent254: "short histories",
    Exponent254Journalled: "last entries",
    OneEntryFewer: "fixed cases",
    OneEntryMore: "fixed cases",
    AtGridAllowed: "refused calls",
    AtCellsAllowed: "last entries",
    RoomBeforeEntry: "full both",
    EntryBeforeEmpty: "full journals",
    RoomBeforeState: "cut buffers",
    PadLeft: "short histories",
    CountLeft: "short histories",
    CoordinateCut: "refused calls",
    RoomForPutOver: "full buffers",
    RoomOfOneMore: "full buffers",
    WordOfOneMore: "full journals",
    WordOfOneFewer: "full journals",
    EntryLeft: "there and back",
    JunkInKind1: "short histories",
    Kind1ForPutOver: "short histories",
    MassesOfKind1Read: "last entries",
    GapNotJudged: "last entries",
    MassesNotJudged: "last entries",
    StateNotJudged: "last entries",
    TopBitsNotJudged: "journal words",
    SpareZeroed: "short histories",
    ArgumentsFirst: "several causes",
    MassesBeforeCell: "refused calls",
    JournalBeforeForm: "several causes",
    FormNotJudged: "not in working form",
    PadNotJudged: "not in working form",
    LastRecordNotJudged: "masses",
    FlatBoxAllowed: "header floats",
    NoRoomIs16: "cut buffers",
    EditSays21: "not in working form",
    PutSays22: "over the edge",
}

/// What becomes of the records.
enum Change {
    In(usize, [u8; 16]),
    Over(usize, [u32; 2]),
    Out(usize),
}

/// A call under way: what both buffers hold before it.
struct Plain<'a> {
    fault: Fault,
    grid: u64,
    records: &'a [[u8; 16]],
    bytes: usize,
    journal: &'a [u32],
    e: usize,
}

/// The three calls with a fault.
pub(crate) fn plain_edit(fault: Fault, file: &mut [u8], journal: &mut [u32], call: &Call) -> u64 {
    edited(fault, file, journal, call).unwrap_or_else(|cause| cause)
}

fn finite(fault: Fault, masses: [u32; 2]) -> bool {
    let greatest = match fault {
        Fault::Exponent254 => 0x7eff_ffff,
        _ => 0x7f7f_ffff,
    };
    masses.iter().all(|mass| mass & 0x7fff_ffff <= greatest)
}

/// The file as a fault sees it: without its last record, or with an axis of no width made wider.
fn seen(fault: Fault, file: &[u8]) -> Vec<u8> {
    let mut seen = file.to_vec();
    if file.len() < 64 {
        return seen;
    }
    if fault == Fault::LastRecordNotJudged && points(file) == Err(7) {
        let n = word(file, 12) - 1;
        seen[12..16].copy_from_slice(&n.to_le_bytes());
    }
    for at in [32, 36, 40] {
        if fault == Fault::FlatBoxAllowed && float(file, at) == float(file, at + 12) {
            seen[at..at + 4].fill(0);
            seen[at + 12..at + 16].copy_from_slice(&1f32.to_le_bytes());
        }
    }
    seen
}

/// Causes 1 to 7.
fn judged(fault: Fault, file: &[u8]) -> Result<(usize, &[[u8; 16]]), u64> {
    let (grid, _) = points(&seen(fault, file))?;
    Ok((grid, &file[64..].as_chunks().0[..word(file, 12) as usize]))
}

/// Cause 10.
fn form(fault: Fault, grid: usize, records: &[[u8; 16]]) -> Result<(), u64> {
    if fault == Fault::EditSays21 {
        Twice::Told.judged(grid, records)?;
    }
    let ascending = records.is_sorted_by(|a, b| number(grid, a) < number(grid, b));
    let padded = records.iter().all(|record| record[6..8] == [0, 0]);
    let good =
        (ascending || fault == Fault::FormNotJudged) && (padded || fault == Fault::PadNotJudged);
    good.then_some(()).ok_or(10)
}

/// Cause 11.
fn entries(fault: Fault, journal: &[u32]) -> Result<usize, u64> {
    let head = *journal.first().ok_or(11u64)?;
    let e = match fault {
        Fault::TopBitsNotJudged => head & 0x3fff_ffff,
        _ => head,
    } as usize;
    let most = match fault {
        Fault::OneEntryMore => (1 << 24) + 1,
        _ => 1 << 24,
    };
    let good = e <= most && e <= (journal.len() - 1) / 3;
    good.then_some(e).ok_or(11)
}

impl Plain<'_> {
    fn has(&self, fault: Fault) -> bool {
        self.fault == fault
    }

    /// Cause 6.
    fn within(&self, cell: [u32; 3]) -> Result<u64, u64> {
        let [x, y, z] = cell.map(|coordinate| match self.has(Fault::CoordinateCut) {
            true => u64::from(coordinate as u16),
            false => u64::from(coordinate),
        });
        let end = self.grid + u64::from(self.has(Fault::AtGridAllowed));
        let within = [x, y, z].iter().all(|&coordinate| coordinate < end);
        within
            .then_some((z * self.grid + y) * self.grid + x)
            .ok_or(6)
    }

    /// Cause 13.
    fn entry(&self) -> Result<(), u64> {
        let most = match self.fault {
            Fault::OneEntryFewer => (1 << 24) - 1,
            _ => 1 << 24,
        };
        let needed = match self.fault {
            Fault::WordOfOneMore => 5,
            Fault::WordOfOneFewer => 3,
            _ => 4,
        };
        let room = self.e < most && needed + 3 * self.e <= self.journal.len();
        room.then_some(()).ok_or(13)
    }

    /// Cause 14.
    fn room(&self) -> Result<(), u64> {
        let more = 16 + usize::from(self.has(Fault::RoomOfOneMore));
        let room = 64 + 16 * self.records.len() + more <= self.bytes;
        room.then_some(()).ok_or(14)
    }

    /// Cause 22, which no edit has: the sums of the records' masses and of these.
    fn sums(&self, masses: [u32; 2]) -> Result<(), u64> {
        let sum = |list: usize| {
            let records = 0..self.records.len();
            let all = records.map(|index| self.masses(index)[list]);
            let all = all.chain([masses[list]]).map(f32::from_bits);
            all.map(f64::from).sum::<f64>() as f32
        };
        let finite = sum(0).is_finite() && sum(1).is_finite();
        finite.then_some(()).ok_or(22)
    }

    fn place(&self, cell: u64) -> Result<usize, usize> {
        let number = |record: &[u8; 16]| number(self.grid as usize, record) as u64;
        self.records.binary_search_by_key(&cell, number)
    }

    fn masses(&self, index: usize) -> [u32; 2] {
        [8, 12].map(|at| word(&self.records[index], at))
    }

    fn record(&self, cell: u64, masses: [u32; 2]) -> [u8; 16] {
        let (g, mut record) = (self.grid, [0; 16]);
        for (axis, coordinate) in [cell % g, cell / g % g, cell / g / g]
            .into_iter()
            .enumerate()
        {
            record[2 * axis..2 * axis + 2].copy_from_slice(&(coordinate as u16).to_le_bytes());
        }
        record[8..].copy_from_slice(&self.mass_bytes(masses));
        record
    }

    fn mass_bytes(&self, masses: [u32; 2]) -> [u8; 8] {
        let [a, b] = masses.map(|mass| match self.has(Fault::MassesBigEndian) {
            true => mass.swap_bytes(),
            false => mass,
        });
        (u64::from(a) | u64::from(b) << 32).to_le_bytes()
    }

    /// Causes 6, 7, 13, 14.
    fn put(&self, cell: [u32; 3], masses: [u32; 2]) -> Result<(Change, [u32; 3]), u64> {
        let finite = finite(self.fault, masses);
        if !finite && self.has(Fault::MassesBeforeCell) {
            return Err(7);
        }
        let cell = self.within(cell)?;
        finite.then_some(()).ok_or(7u64)?;
        if self.has(Fault::PutSays22) {
            self.sums(masses)?;
        }
        let place = self.place(cell);
        if place.is_err() && self.has(Fault::RoomBeforeEntry) {
            self.room()?;
        }
        self.entry()?;
        if place.is_err() || self.has(Fault::RoomForPutOver) {
            self.room()?;
        }
        let head = cell as u32;
        let kind = match self.has(Fault::Kind1ForPutOver) {
            true => 1 << 30,
            false => 2 << 30,
        };
        Ok(match place {
            Ok(index) => {
                let [a, b] = self.masses(index);
                (Change::Over(index, masses), [kind | head, a, b])
            }
            Err(index) => {
                let record = self.record(cell, masses);
                (Change::In(index, record), [1 << 30 | head, 0, 0])
            }
        })
    }

    /// Causes 6, 12, 13.
    fn remove(&self, cell: [u32; 3]) -> Result<(Change, [u32; 3]), u64> {
        let cell = self.within(cell)?;
        if self.has(Fault::EntryBeforeEmpty) {
            self.entry()?;
        }
        let index = self.place(cell).map_err(|_| 12u64)?;
        self.entry()?;
        let [a, b] = self.masses(index);
        Ok((Change::Out(index), [3 << 30 | cell as u32, a, b]))
    }

    /// Causes 15, 16, 14.
    fn undo(&self) -> Result<Change, u64> {
        if self.e == 0 || self.has(Fault::NoEntriesSaid) {
            return Err(15);
        }
        let start = 3 * self.e - 2;
        let [head, a, b] = [0, 1, 2].map(|at| self.journal[start + at]);
        let (kind, cell) = (head >> 30, u64::from(head & 0x00ff_ffff));
        if kind == 3 && self.has(Fault::RoomBeforeState) {
            self.room()?;
        }
        let end = self.grid.pow(3) + u64::from(self.has(Fault::AtCellsAllowed));
        let gap = head & 0x3f00_0000 != 0 && !self.has(Fault::GapNotJudged);
        let unread = match kind {
            1 => !self.has(Fault::MassesOfKind1Read),
            _ => self.has(Fault::MassesNotJudged),
        };
        let fault = match self.fault {
            Fault::Exponent254Journalled => Fault::Exponent254,
            fault => fault,
        };
        if kind == 0 || gap || cell >= end || !unread && !finite(fault, [a, b]) {
            return Err(16);
        }
        match (kind, self.place(cell)) {
            (1, Ok(index)) => Ok(Change::Out(index)),
            (2, Ok(index)) => Ok(Change::Over(index, [a, b])),
            (3, Ok(index)) if self.has(Fault::StateNotJudged) => Ok(Change::Over(index, [a, b])),
            (3, Err(index)) => {
                match self.room() {
                    Err(_) if self.has(Fault::NoRoomIs16) => return Err(16),
                    room => room?,
                }
                Ok(Change::In(index, self.record(cell, [a, b])))
            }
            _ => Err(16),
        }
    }

    /// The file's bytes after the change.
    fn changed(&self, file: &[u8], change: &Change) -> Vec<u8> {
        let (mut file, n) = (file.to_vec(), self.records.len());
        let places = file[64..].as_chunks_mut::<16>().0;
        let n_after = match *change {
            Change::In(index, record) => {
                places[index..=n].rotate_right(1);
                let pad = [places[index][6], places[index][7]];
                places[index] = record;
                if self.has(Fault::PadLeft) {
                    places[index][6..8].copy_from_slice(&pad);
                }
                n + 1
            }
            Change::Over(index, masses) => {
                places[index][8..].copy_from_slice(&self.mass_bytes(masses));
                n
            }
            Change::Out(index) => {
                places[index..n].rotate_left(1);
                if !self.has(Fault::FreedBytesLeft) {
                    places[n - 1].fill(0);
                }
                n - 1
            }
        };
        if self.has(Fault::SpareZeroed) {
            file[64 + 16 * n_after..].fill(0);
        }
        let count = n_after as u32;
        file[12..16].copy_from_slice(&match self.fault {
            Fault::CountLeft => (n as u32).to_le_bytes(),
            Fault::CountBigEndian => count.to_be_bytes(),
            _ => count.to_le_bytes(),
        });
        file
    }

    /// Where a new entry changes the journal, and to what.
    fn entered(&self, entry: [u32; 3]) -> Vec<(usize, u32)> {
        let start = 3 * self.e + 1;
        let [head, a, b] = match self.fault {
            Fault::MassesJournalledSwapped => [entry[0], entry[2], entry[1]],
            Fault::HeadBigEndian => [entry[0].swap_bytes(), entry[1], entry[2]],
            _ => entry,
        };
        let mut changes = vec![(0, self.journal[0] + 1)];
        if self.has(Fault::CountedWithoutEntry) || start + 3 > self.journal.len() {
            return changes;
        }
        changes.push((start, head));
        if head >> 30 != 1 || !self.has(Fault::JunkInKind1) {
            changes.extend([(start + 1, a), (start + 2, b)]);
        }
        changes
    }

    /// The same for an undo.
    fn taken_back(&self) -> Vec<(usize, u32)> {
        let start = 3 * self.e - 2;
        let mut changes = vec![(0, self.journal[0] - 1)];
        if !self.has(Fault::EntryLeft) {
            changes.extend((start..start + 3).map(|at| (at, 0)));
        }
        changes
    }
}

/// 6 of the arguments, told by a file that has a header.
fn outside(file: &[u8], call: &Call) -> bool {
    let (Call::Put { cell, .. } | Call::Remove { cell }) = call else {
        return false;
    };
    file.len() >= 64 && cell.iter().any(|&coordinate| coordinate >= word(file, 8))
}

fn edited(fault: Fault, file: &mut [u8], journal: &mut [u32], call: &Call) -> Result<u64, u64> {
    if fault == Fault::AllRefused {
        return Err(10);
    }
    let (grid, records) = judged(fault, file)?;
    if fault == Fault::ArgumentsFirst && outside(file, call) {
        return Err(6);
    }
    if fault == Fault::JournalBeforeForm {
        entries(fault, journal)?;
    }
    form(fault, grid, records)?;
    let plain = Plain {
        fault,
        grid: grid as u64,
        records,
        bytes: file.len(),
        e: entries(fault, journal)?,
        journal,
    };
    let (change, words) = match *call {
        Call::Put { cell, masses } => {
            let (change, entry) = plain.put(cell, masses)?;
            (change, plain.entered(entry))
        }
        Call::Remove { cell } => {
            let (change, entry) = plain.remove(cell)?;
            (change, plain.entered(entry))
        }
        Call::Undo => (plain.undo()?, plain.taken_back()),
    };
    let n = match change {
        Change::In(..) => records.len() + 1,
        Change::Over(..) => records.len(),
        Change::Out(_) => records.len() - 1,
    };
    let (real, undone) = (plain.e == 0, *call == Call::Undo);
    let file_after = plain.changed(file, &change);
    if undone && fault == Fault::UndoDoesNothing {
        return Ok(64 + 16 * n as u64);
    }
    if undone || real || fault != Fault::OnlyJournalledLater {
        file.copy_from_slice(&file_after);
    }
    words.into_iter().for_each(|(at, word)| journal[at] = word);
    Ok(64 + 16 * n as u64)
}
