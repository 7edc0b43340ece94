//! 01's rule for put, remove and undo on any file and any journal, to the last byte of both, written from its sentences.

use super::{
    cell_number, cell_of, count, grid, judge, length, records, word, working, HEADER, RECORD,
};

/// The greatest entry count.
pub(crate) const GREATEST_COUNT: u32 = 1 << 24;

/// Words before the first entry, and of an entry.
pub(crate) const FIRST: usize = 1;
pub(crate) const ENTRY: usize = 3;

pub(crate) const PUT_IN: u32 = 1;
pub(crate) const PUT_OVER: u32 = 2;
pub(crate) const REMOVED: u32 = 3;

/// A call's name and its numbers; masses are float bits.
#[derive(Clone, Copy, Debug, PartialEq, Eq)]
pub(crate) enum Call {
    Put { cell: [u32; 3], masses: [u32; 2] },
    Remove { cell: [u32; 3] },
    Undo,
}

/// Makes a call: the number of the first cause that holds and nothing changed, or the new file's length.
pub(crate) fn edit(file: &mut [u8], journal: &mut [u32], call: &Call) -> u64 {
    let made = match (judge_both(file, journal), call) {
        (Some(cause), _) => Err(cause),
        (None, Call::Put { cell, masses }) => put(file, journal, *cell, *masses),
        (None, Call::Remove { cell }) => remove(file, journal, *cell),
        (None, Call::Undo) => undo(file, journal),
    };
    match made {
        Ok(()) => length(count(file)),
        Err(cause) => cause,
    }
}

/// The first of the causes 1 to 7, 10, 11, or none.
fn judge_both(file: &[u8], journal: &[u32]) -> Option<u64> {
    judge(file)
        .or_else(|| (!working(file)).then_some(10))
        .or_else(|| (!good(journal)).then_some(11))
}

/// Whether a journal has its word 0, that word's top bits are 0 and its count is at most 2^24, and the entries are there.
fn good(journal: &[u32]) -> bool {
    let Some(&head) = journal.first() else {
        return false;
    };
    let (top, e) = (head >> 30, head & 0x3fff_ffff);
    top == 0 && e <= GREATEST_COUNT && has_entries(journal, u64::from(e))
}

/// Whether the words of `e` entries are there.
fn has_entries(journal: &[u32], e: u64) -> bool {
    journal.len() as u64 > 3 * e
}

/// Whether there are three words for one more entry, and e is not 2^24; if not, that is cause 13.
fn takes_an_entry(journal: &[u32]) -> bool {
    journal[0] != GREATEST_COUNT && has_entries(journal, u64::from(journal[0]) + 1)
}

/// Whether one more record stays within the buffer; if not, that is cause 14.
fn takes_a_record(file: &[u8]) -> bool {
    length(count(file) + 1) <= file.len() as u64
}

/// The cell's number, or cause 6 for a coordinate at or above g.
fn within(file: &[u8], cell: [u32; 3]) -> Result<u64, u64> {
    let g = grid(file);
    if cell.iter().any(|&coordinate| u64::from(coordinate) >= g) {
        return Err(6);
    }
    Ok(cell_number(g, cell.map(|coordinate| coordinate as u16)))
}

/// The index of the cell's record.
fn record_of(file: &[u8], number: u64) -> Option<usize> {
    let g = grid(file);
    records(file).position(|record| cell_number(g, record.cell) == number)
}

fn finite(masses: [u32; 2]) -> bool {
    masses.iter().all(|&mass| f32::from_bits(mass).is_finite())
}

fn require(holds: bool, cause: u64) -> Result<(), u64> {
    if holds {
        Ok(())
    } else {
        Err(cause)
    }
}

/// 6, 7, 13, 14.
fn put(file: &mut [u8], journal: &mut [u32], cell: [u32; 3], masses: [u32; 2]) -> Result<(), u64> {
    let number = within(file, cell)?;
    require(finite(masses), 7)?;
    require(takes_an_entry(journal), 13)?;
    match record_of(file, number) {
        Some(index) => {
            enter(journal, PUT_OVER, number, masses_at(file, index));
            set_masses(file, index, masses);
        }
        None => {
            require(takes_a_record(file), 14)?;
            enter(journal, PUT_IN, number, [0; 2]);
            arrive(file, number, masses);
        }
    }
    Ok(())
}

/// 6, 12, 13.
fn remove(file: &mut [u8], journal: &mut [u32], cell: [u32; 3]) -> Result<(), u64> {
    let number = within(file, cell)?;
    let index = record_of(file, number).ok_or(12u64)?;
    require(takes_an_entry(journal), 13)?;
    enter(journal, REMOVED, number, masses_at(file, index));
    leave(file, index);
    Ok(())
}

/// 15, 16, 14.
fn undo(file: &mut [u8], journal: &mut [u32]) -> Result<(), u64> {
    let e = journal[0] as usize;
    require(e != 0, 15)?;
    let start = FIRST + ENTRY * (e - 1);
    let [head, cauchy, elliptic] = [0, 1, 2].map(|at| journal[start + at]);
    let (kind, gap, number) = (head >> 30, head >> 24 & 0x3f, u64::from(head & 0x00ff_ffff));
    require(kind != 0 && gap == 0, 16)?;
    require(number < grid(file).pow(3), 16)?;
    require(kind == PUT_IN || finite([cauchy, elliptic]), 16)?;
    match (kind, record_of(file, number)) {
        (PUT_IN, Some(index)) => leave(file, index),
        (PUT_OVER, Some(index)) => set_masses(file, index, [cauchy, elliptic]),
        (REMOVED, None) => {
            require(takes_a_record(file), 14)?;
            arrive(file, number, [cauchy, elliptic]);
        }
        _ => return Err(16),
    }
    journal[start..start + ENTRY].fill(0);
    journal[0] -= 1;
    Ok(())
}

fn at(index: usize) -> usize {
    HEADER + RECORD * index
}

fn masses_at(file: &[u8], index: usize) -> [u32; 2] {
    [8, 12].map(|field| word(file, at(index) + field))
}

fn set_word(file: &mut [u8], at: usize, word: u32) {
    file[at..at + 4].copy_from_slice(&word.to_le_bytes());
}

fn set_masses(file: &mut [u8], index: usize, masses: [u32; 2]) {
    set_word(file, at(index) + 8, masses[0]);
    set_word(file, at(index) + 12, masses[1]);
}

/// Writes the next entry and counts it.
fn enter(journal: &mut [u32], kind: u32, number: u64, masses: [u32; 2]) {
    let start = FIRST + ENTRY * journal[0] as usize;
    journal[start] = kind << 30 | number as u32;
    journal[start + 1..start + ENTRY].copy_from_slice(&masses);
    journal[0] += 1;
}

/// A record of an empty cell comes after those of lower cells; the later ones move up by 16 bytes.
fn arrive(file: &mut [u8], number: u64, masses: [u32; 2]) {
    let (g, n) = (grid(file), count(file) as usize);
    let lower = records(file).filter(|record| cell_number(g, record.cell) < number);
    let index = lower.count();
    file.copy_within(at(index)..at(n), at(index + 1));
    let [x, y, z] = cell_of(g, number);
    for (field, half_word) in [x, y, z, 0].into_iter().enumerate() {
        let place = at(index) + 2 * field;
        file[place..place + 2].copy_from_slice(&half_word.to_le_bytes());
    }
    set_masses(file, index, masses);
    set_word(file, 12, n as u32 + 1);
}

/// A record goes; the later ones move down by 16 bytes and the 16 freed become 0.
fn leave(file: &mut [u8], index: usize) {
    let n = count(file) as usize;
    file.copy_within(at(index + 1)..at(n), at(index));
    file[at(n - 1)..at(n)].fill(0);
    set_word(file, 12, n as u32 - 1);
}

#[cfg(test)]
mod tests {
    use super::*;
    use crate::points::{point_file, Header};

    /// (1, 0, 0) of g 2, masses 1 and −0: cell 1.
    const AT_1: [u8; 16] = [1, 0, 0, 0, 0, 0, 0, 0, 0, 0, 0x80, 0x3f, 0, 0, 0, 0x80];

    /// (1, 0, 1) of g 2, masses 2^-149 and 4: cell 5.
    const AT_5: [u8; 16] = [1, 0, 0, 0, 1, 0, 0, 0, 1, 0, 0, 0, 0, 0, 0x80, 0x40];

    /// (0, 1, 0) of g 2, masses 3 and −2: cell 2.
    const AT_2: [u8; 16] = [0, 0, 1, 0, 0, 0, 0, 0, 0, 0, 0x40, 0x40, 0, 0, 0, 0xc0];

    const THREE: u32 = 0x4040_0000;
    const MINUS_TWO: u32 = 0xc000_0000;
    const ENDLESS: u32 = 0x7f80_0000;

    const IN_2: Call = Call::Put {
        cell: [0, 1, 0],
        masses: [THREE, MINUS_TWO],
    };
    const OVER_5: Call = Call::Put {
        cell: [1, 0, 1],
        masses: [THREE, MINUS_TWO],
    };
    const OUT_1: Call = Call::Remove { cell: [1, 0, 0] };

    /// g 2 with these records, then spare bytes.
    fn file(records: &[[u8; 16]], spare: usize) -> Vec<u8> {
        let mut file = point_file(Header::cube(2, 2.0), &[]);
        file[12] = records.len() as u8;
        file[28..32].fill(0xff);
        file[56..64].fill(0xee);
        file.extend_from_slice(records.as_flattened());
        file.resize(file.len() + spare, 0xa5);
        file
    }

    /// The answer to a call, and both buffers after it.
    fn after(file: &[u8], journal: &[u32], call: Call) -> (u64, Vec<u8>, Vec<u32>) {
        let (mut file, mut journal) = (file.to_vec(), journal.to_vec());
        let answer = edit(&mut file, &mut journal, &call);
        (answer, file, journal)
    }

    /// The cause of a call that is refused and changes nothing.
    fn cause(bytes: &[u8], words: &[u32], call: Call) -> u64 {
        let (answer, file, journal) = after(bytes, words, call);
        assert!(answer < 64 && file == bytes && journal == words);
        answer
    }

    fn put(cell: [u32; 3], masses: [u32; 2]) -> Call {
        Call::Put { cell, masses }
    }

    /// The later record moves up, the bytes past it and the words past the entry stay.
    #[test]
    fn a_record_arrives_and_goes_again() {
        let before = file(&[AT_1, AT_5], 19);
        let (answer, put, journal) = after(&before, &[0, 7, 8, 9, 10], IN_2);
        assert_eq!((answer, &put), (112, &file(&[AT_1, AT_2, AT_5], 3)));
        assert_eq!(journal, [1, 0x4000_0002, 0, 0, 10]);
        let (answer, undone, journal) = after(&put, &journal, Call::Undo);
        let mut want = file(&[AT_1, AT_5, [0; 16]], 3);
        want[12] = 2;
        assert_eq!((answer, undone), (96, want));
        assert_eq!(journal, [0, 0, 0, 0, 10]);
    }

    #[test]
    fn masses_change_and_come_back() {
        let (before, journal) = (file(&[AT_1, AT_5], 5), [0, 7, 8, 9]);
        let (answer, over, journal) = after(&before, &journal, OVER_5);
        let mut record = AT_5;
        record[8..].copy_from_slice(&AT_2[8..]);
        assert_eq!((answer, &over), (96, &file(&[AT_1, record], 5)));
        assert_eq!(journal, [1, 0x8000_0005, 1, 0x4080_0000]);
        let undone = after(&over, &journal, Call::Undo);
        assert_eq!(undone, (96, before, vec![0, 0, 0, 0]));
    }

    /// 16 bytes are freed and become 0; no spare byte is needed to bring the record back.
    #[test]
    fn a_record_goes_and_comes_back() {
        let before = file(&[AT_1, AT_2, AT_5], 0);
        let (answer, gone, journal) = after(&before, &[0; 4], OUT_1);
        let mut want = file(&[AT_2, AT_5, [0; 16]], 0);
        want[12] = 2;
        assert_eq!((answer, &gone), (96, &want));
        assert_eq!(journal, [1, 0xc000_0001, 0x3f80_0000, 0x8000_0000]);
        let undone = after(&gone, &journal, Call::Undo);
        assert_eq!(undone, (112, before, vec![0; 4]));
    }

    /// The starred model: two heads, and two undos restore the file.
    #[test]
    fn model() {
        let before = file(&[AT_1], 16);
        let (answer, put, journal) = after(&before, &[0; 7], put([0; 3], [1, 2]));
        assert_eq!(answer, 96);
        let (answer, removed, journal) = after(&put, &journal, OUT_1);
        assert_eq!(answer, 80);
        let heads = [2, 0x4000_0000, 0, 0, 0xc000_0001, 0x3f80_0000, 0x8000_0000];
        assert_eq!(journal, heads);
        let (answer, undone, journal) = after(&removed, &journal, Call::Undo);
        assert_eq!((answer, &undone), (96, &put));
        let (answer, undone, journal) = after(&undone, &journal, Call::Undo);
        assert_eq!((answer, &undone[..80]), (80, &before[..80]));
        assert_eq!(undone[80..], [0; 16]);
        assert_eq!(journal, [0; 7]);
    }

    /// 1 to 7, 10 and 11 come first, in this order.
    #[test]
    fn both_buffers_are_judged_first() {
        let bad = put([2, 0, 0], [ENDLESS; 2]);
        for call in [bad, Call::Remove { cell: [2, 0, 0] }, Call::Undo] {
            let good = file(&[AT_1, AT_2], 0);
            let with = |at: usize, byte: u8| {
                let mut file = file(&[AT_2, AT_1], 0);
                file[at] = byte;
                file
            };
            assert_eq!(cause(&good[..63], &[], call), 1);
            assert_eq!(cause(&with(0, 0), &[], call), 2);
            assert_eq!(cause(&with(9, 2), &[], call), 3);
            assert_eq!(cause(&good[..95], &[], call), 4);
            assert_eq!(cause(&with(35, 0x7f), &[], call), 5);
            assert_eq!(cause(&with(80, 2), &[], call), 6);
            assert_eq!(cause(&with(91, 0x7f), &[], call), 7);
            assert_eq!(cause(&file(&[AT_2, AT_1], 0), &[], call), 10);
            assert_eq!(cause(&file(&[AT_2, AT_2], 0), &[], call), 10);
            for journal in [&[][..], &[1 << 30], &[1 << 31], &[1, 0, 0], &[1 << 24; 9]] {
                assert_eq!(cause(&good, journal, call), 11, "{journal:?}");
            }
        }
    }

    #[test]
    fn put_refuses_in_order() {
        let full = file(&[AT_1, AT_5], 15);
        let none = [0; 3];
        assert_eq!(cause(&full, &none, put([2, 0, 0], [ENDLESS, 0])), 6);
        assert_eq!(cause(&full, &none, put([0, 2, 0], [0; 2])), 6);
        assert_eq!(cause(&full, &none, put([0, 0, 65_536], [0; 2])), 6);
        assert_eq!(cause(&full, &none, put([0, 1, 0], [ENDLESS, 0])), 7);
        assert_eq!(cause(&full, &none, put([0, 1, 0], [0, 0xff80_0001])), 7);
        assert_eq!(cause(&full, &none, IN_2), 13);
        assert_eq!(cause(&full, &[0; 4], IN_2), 14);
        assert_eq!(after(&full, &[0; 4], OVER_5).0, 96);
        assert_eq!(after(&file(&[AT_1, AT_5], 16), &[0; 4], IN_2).0, 112);
    }

    #[test]
    fn remove_refuses_in_order() {
        let two = file(&[AT_1, AT_5], 0);
        let out = |cell| Call::Remove { cell };
        assert_eq!(cause(&two, &[0], out([0, 0, 2])), 6);
        assert_eq!(cause(&two, &[0], out([65_537, 0, 0])), 6);
        assert_eq!(cause(&two, &[0], out([0, 1, 0])), 12);
        assert_eq!(cause(&two, &[0; 3], OUT_1), 13);
        assert_eq!(after(&two, &[0; 4], OUT_1).0, 80);
    }

    #[test]
    fn undo_refuses_in_order() {
        let two = file(&[AT_1, AT_5], 15);
        let undo = |entry: [u32; 3]| {
            let [head, a, b] = entry;
            after(&two, &[1, head, a, b], Call::Undo).0
        };
        assert_eq!(cause(&two, &[0, 0x4000_0001, 0, 0], Call::Undo), 15);
        let refused = [
            [0x0000_0001, 0, 0],
            [0x4100_0001, 0, 0],
            [0xa000_0001, 0, 0],
            [0x4000_0008, 0, 0],
            [0xc000_0008, 0, 0],
            [0x4000_0002, 0, 0],
            [0x8000_0002, 0, 0],
            [0xc000_0005, 0, 0],
            [0x8000_0005, ENDLESS, 0],
            [0xc000_0002, 0, 0xffff_ffff],
        ];
        assert!(refused.into_iter().all(|entry| undo(entry) == 16));
        assert_eq!(undo([0xc000_0002, 0, 0]), 14);
        assert_eq!(undo([0x4000_0005, ENDLESS, 0xffff_ffff]), 80);
        assert_eq!(undo([0x8000_0005, 0x7f7f_ffff, 0x8000_0000]), 96);
    }

    /// e up to 2^24 is good, and undone; no entry is taken on top of it.
    #[test]
    fn the_greatest_count() {
        let mut journal = vec![0; 1 + 3 * (1 << 24)];
        journal[0] = 1 << 24;
        assert!(good(&journal) && !takes_an_entry(&journal));
        assert!(!good(&journal[..3 << 24]));
        journal[0] -= 1;
        assert!(good(&journal) && takes_an_entry(&journal));
        assert!(!takes_an_entry(&journal[..3 << 24]));
    }
}
