//! 01's rule for point files and for narrowing in plain steps, written from the paper and not from the library: slow, and meant to be read.

pub(crate) mod costliest;
pub(crate) mod edit;
pub(crate) mod fill;
pub(crate) mod next;
pub(crate) mod tree;

use std::collections::{BTreeMap, BTreeSet};

pub(crate) const HEADER: usize = 64;
pub(crate) const RECORD: usize = 16;

const MARK: u32 = 0x314d_5952;
const VERSION: u32 = 1;
const GREATEST_GRID: u32 = 256;

/// Offsets of the header floats that are read: density, cell volume, scale, box min, box max.
pub(crate) const FLOATS: [usize; 9] = [16, 20, 24, 32, 36, 40, 44, 48, 52];

/// Offsets of min and of max, an axis each.
pub(crate) const AXES: [(usize, usize); 3] = [(32, 44), (36, 48), (40, 52)];

/// 2^128 − 2^103: a number is too large for binary32 from this magnitude up.
pub(crate) const TOO_LARGE: f64 = (u128::MAX - (1 << 103) + 1) as f64;

/// A number narrowed to binary32, ties to even; nothing where it is too large, as an infinity and a NaN are. All that is written as a
/// float is narrowed by this.
pub(crate) fn narrowed(number: f64) -> Option<f32> {
    (number.abs() < TOO_LARGE).then_some(number as f32)
}

/// A record's fields as they stand; a mass is its float's bits.
struct Record {
    cell: [u16; 3],
    pad: u16,
    masses: [u32; 2],
}

fn half_word(bytes: &[u8], at: usize) -> u16 {
    u16::from_le_bytes([bytes[at], bytes[at + 1]])
}

fn word(bytes: &[u8], at: usize) -> u32 {
    u32::from_le_bytes([bytes[at], bytes[at + 1], bytes[at + 2], bytes[at + 3]])
}

fn float(bytes: &[u8], at: usize) -> f32 {
    f32::from_bits(word(bytes, at))
}

/// g of a file that has a header.
pub(crate) fn grid(file: &[u8]) -> u64 {
    u64::from(word(file, 8))
}

/// n of a file that has a header.
fn count(file: &[u8]) -> u64 {
    u64::from(word(file, 12))
}

/// 64 + 16n, beyond 32 bits.
fn length(n: u64) -> u64 {
    64 + 16 * n
}

/// The n records of a file that has them, in file order.
fn records(file: &[u8]) -> impl Iterator<Item = Record> + '_ {
    (0..count(file)).map(|i| {
        let at = length(i) as usize;
        Record {
            cell: [0, 2, 4].map(|field| half_word(file, at + field)),
            pad: half_word(file, at + 6),
            masses: [8, 12].map(|field| word(file, at + field)),
        }
    })
}

/// (z·g + y)·g + x
pub(crate) fn cell_number(g: u64, cell: [u16; 3]) -> u64 {
    let [x, y, z] = cell.map(u64::from);
    (z * g + y) * g + x
}

/// x, y, z of a cell number below g³.
pub(crate) fn cell_of(g: u64, number: u64) -> [u16; 3] {
    [number % g, number / g % g, number / g / g].map(|coordinate| coordinate as u16)
}

/// Whether a word is a grid size; if not, that is cause 3.
fn is_grid(g: u32) -> bool {
    (1..=GREATEST_GRID).contains(&g)
}

/// The first of the causes 1 to 7, or none.
pub(crate) fn judge(file: &[u8]) -> Option<u64> {
    if file.len() < HEADER {
        return Some(1);
    }
    if word(file, 0) != MARK || word(file, 4) != VERSION {
        return Some(2);
    }
    if !is_grid(word(file, 8)) {
        return Some(3);
    }
    if (file.len() as u64) < length(count(file)) {
        return Some(4);
    }
    let finite = FLOATS.iter().all(|&at| float(file, at).is_finite());
    let below = |(min, max): &(usize, usize)| float(file, *min) < float(file, *max);
    if !finite || !AXES.iter().all(below) {
        return Some(5);
    }
    records(file).find_map(|record| judge_record(grid(file), &record))
}

/// 6 before 7.
fn judge_record(g: u64, record: &Record) -> Option<u64> {
    if record
        .cell
        .iter()
        .any(|&coordinate| u64::from(coordinate) >= g)
    {
        return Some(6);
    }
    if record
        .masses
        .iter()
        .any(|&mass| !f32::from_bits(mass).is_finite())
    {
        return Some(7);
    }
    None
}

/// Whether a file that `judge` lets pass is in working form; if not, that is cause 10.
pub(crate) fn working(file: &[u8]) -> bool {
    let numbers: Vec<u64> = records(file)
        .map(|record| cell_number(grid(file), record.cell))
        .collect();
    numbers.is_sorted_by(|a, b| a < b) && records(file).all(|record| record.pad == 0)
}

/// Whether two records of a file that `judge` lets pass name one cell, any two of them: it has fewer cells than records. If so, that is
/// cause 21.
pub(crate) fn names_one_twice(file: &[u8]) -> bool {
    let cells: BTreeSet<[u16; 3]> = records(file).map(|record| record.cell).collect();
    (cells.len() as u64) < count(file)
}

/// The words of scratch that a call needs for a file that `judge` lets pass.
type Needed = fn(&[u8]) -> u64;

/// One word for each cell: what open and fold need for every file.
fn word_per_cell(file: &[u8]) -> u64 {
    grid(file).pow(3)
}

/// The first of the causes 1 to 7 and 8, or none: what open, fold and build have in common.
fn judge_lent(file: &[u8], scratch_words: u64, needed: Needed) -> Option<u64> {
    judge(file).or_else(|| (scratch_words < needed(file)).then_some(8))
}

/// The first of the causes 1 to 7, 8 and 21, or none: what open and build have in common.
fn judge_distinct(file: &[u8], scratch_words: u64, needed: Needed) -> Option<u64> {
    judge_lent(file, scratch_words, needed).or_else(|| names_one_twice(file).then_some(21))
}

/// The cell number and the masses of each record of a file that `judge` lets pass, by cell; records of one cell in file order.
pub(crate) fn cells(file: &[u8]) -> Vec<(u64, [u32; 2])> {
    let mut cells: Vec<_> = records(file)
        .map(|record| (cell_number(grid(file), record.cell), record.masses))
        .collect();
    cells.sort_by_key(|(number, _)| *number);
    cells
}

/// The file in working form that has this header, n apart, and these cells, which ascend.
fn working_form(header: &[u8], cells: impl ExactSizeIterator<Item = (u64, [u32; 2])>) -> Vec<u8> {
    let mut file = Vec::with_capacity(HEADER + RECORD * cells.len());
    file.extend_from_slice(&header[..HEADER]);
    file[12..16].copy_from_slice(&(cells.len() as u32).to_le_bytes());
    for (number, masses) in cells {
        let [x, y, z] = cell_of(grid(header), number);
        for half_word in [x, y, z, 0] {
            file.extend_from_slice(&half_word.to_le_bytes());
        }
        for mass in masses {
            file.extend_from_slice(&mass.to_le_bytes());
        }
    }
    file
}

/// Open: 1 to 7, 8, 21, 9, 13; then the working form stands in `out`, and word 0 of the journal is 0.
pub(crate) fn open(file: &[u8], scratch_words: u64, out: &mut [u8], journal: &mut [u32]) -> u64 {
    if let Some(cause) = judge_distinct(file, scratch_words, word_per_cell) {
        return cause;
    }
    let opened = working_form(file, cells(file).into_iter());
    if out.len() < opened.len() {
        return 9;
    }
    if journal.is_empty() {
        return 13;
    }
    out[..opened.len()].copy_from_slice(&opened);
    journal[0] = 0;
    opened.len() as u64
}

/// The working form of a file that `judge` lets pass; where records name one cell, the later counts.
pub(crate) fn folded(file: &[u8]) -> Vec<u8> {
    let later: BTreeMap<u64, [u32; 2]> = cells(file).into_iter().collect();
    working_form(file, later.into_iter())
}

/// Fold: 1 to 7, 8, 9; then the working form stands in `out`.
pub(crate) fn fold(file: &[u8], scratch_words: u64, out: &mut [u8]) -> u64 {
    if let Some(cause) = judge_lent(file, scratch_words, word_per_cell) {
        return cause;
    }
    let folded = folded(file);
    if out.len() < folded.len() {
        return 9;
    }
    out[..folded.len()].copy_from_slice(&folded);
    folded.len() as u64
}

#[cfg(test)]
mod tests {
    use super::*;

    /// g 2, n 0; density 1190, volume 0.5, scale 2; box −1 to 1, 0 to 2, 0 to 4; the words not read are NaNs.
    const EMPTY: [u8; 64] = [
        0x52, 0x59, 0x4d, 0x31, 0x01, 0x00, 0x00, 0x00, 0x02, 0x00, 0x00, 0x00, 0x00, 0x00, 0x00,
        0x00, // mark, version, g, n
        0x00, 0xc0, 0x94, 0x44, 0x00, 0x00, 0x00, 0x3f, 0x00, 0x00, 0x00, 0x40, 0xff, 0xff, 0xff,
        0xff, // density, volume, scale, not read
        0x00, 0x00, 0x80, 0xbf, 0x00, 0x00, 0x00, 0x00, 0x00, 0x00, 0x00, 0x00, // min
        0x00, 0x00, 0x80, 0x3f, 0x00, 0x00, 0x00, 0x40, 0x00, 0x00, 0x80, 0x40, // max
        0x01, 0x00, 0x80, 0x7f, 0x00, 0x00, 0x80, 0xff, // raw sums, not read
    ];

    /// (1, 0, 1), pad 0xeeff, masses 1 and −2: cell 5.
    const AT_5: [u8; 16] = [
        0x01, 0x00, 0x00, 0x00, 0x01, 0x00, 0xff, 0xee, 0x00, 0x00, 0x80, 0x3f, 0x00, 0x00, 0x00,
        0xc0,
    ];

    /// (0, 1, 0), pad 0, masses 3 and −0: cell 2.
    const AT_2: [u8; 16] = [
        0x00, 0x00, 0x01, 0x00, 0x00, 0x00, 0x00, 0x00, 0x00, 0x00, 0x40, 0x40, 0x00, 0x00, 0x00,
        0x80,
    ];

    /// (1, 0, 1), pad 0, masses 4 and 2^-149: cell 5 again.
    const AGAIN_AT_5: [u8; 16] = [
        0x01, 0x00, 0x00, 0x00, 0x01, 0x00, 0x00, 0x00, 0x00, 0x00, 0x80, 0x40, 0x01, 0x00, 0x00,
        0x00,
    ];

    fn file(records: &[[u8; 16]]) -> Vec<u8> {
        let mut file = EMPTY.to_vec();
        file[12] = records.len() as u8;
        file.extend_from_slice(records.as_flattened());
        file
    }

    /// The file with bytes set at an offset.
    fn with(mut file: Vec<u8>, at: usize, bytes: &[u8]) -> Vec<u8> {
        file[at..at + bytes.len()].copy_from_slice(bytes);
        file
    }

    fn opened(file: &[u8], scratch: u64, out: usize, journal: usize) -> (u64, Vec<u8>, Vec<u32>) {
        let (mut out, mut journal) = (vec![0xa5; out], vec![0x5a5a_5a5a; journal]);
        let answer = open(file, scratch, &mut out, &mut journal);
        (answer, out, journal)
    }

    /// The greatest float is what is given up to the threshold; from there on nothing is.
    #[test]
    fn numbers_too_large() {
        assert_eq!(TOO_LARGE, 2f64.powi(128) - 2f64.powi(103));
        let [below, above] = [TOO_LARGE.next_down(), TOO_LARGE.next_up()];
        for number in [f64::from(f32::MAX), below] {
            assert_eq!(narrowed(number), Some(f32::MAX));
            assert_eq!(narrowed(-number), Some(f32::MIN));
        }
        for number in [TOO_LARGE, above, f64::MAX, f64::INFINITY, f64::NAN] {
            assert_eq!([narrowed(number), narrowed(-number)], [None; 2]);
        }
        let zeros = [-0.0, 2f64.powi(-150)].map(|zero| narrowed(zero).map(f32::to_bits));
        assert_eq!(zeros, [Some(0x8000_0000), Some(0)]);
    }

    #[test]
    fn numbers_of_cells() {
        assert_eq!(cell_number(2, [1, 0, 1]), 5);
        assert_eq!(cell_number(192, [0, 6, 0]), 1152);
        assert_eq!(cell_number(256, [255, 255, 255]), (1 << 24) - 1);
        assert_eq!(cell_of(3, 14), [2, 1, 1]);
    }

    #[test]
    fn causes_1_to_4() {
        assert_eq!(judge(&[]), Some(1));
        assert_eq!(judge(&EMPTY[..63]), Some(1));
        assert_eq!(judge(&EMPTY), None);
        let empty = |at, bytes: &[u8]| judge(&with(EMPTY.to_vec(), at, bytes));
        assert_eq!(empty(0, &[0x53]), Some(2));
        assert_eq!(empty(0, &[0x52, 0x54]), Some(2));
        assert_eq!(empty(4, &[2]), Some(2));
        assert_eq!(empty(7, &[1]), Some(2));
        assert_eq!(empty(8, &[0]), Some(3));
        assert_eq!(empty(8, &[1]), None);
        assert_eq!(empty(8, &[0, 1]), None);
        assert_eq!(empty(8, &[1, 1]), Some(3));
        assert_eq!(empty(8, &[0, 0, 0, 0x80]), Some(3));
        assert_eq!(empty(8, &[1, 1, 0, 0, 9]), Some(3));
        assert_eq!(empty(12, &[1]), Some(4));
        assert_eq!(empty(12, &[0, 0, 0, 0x10]), Some(4));
        assert_eq!(empty(12, &[0xfc, 0xff, 0xff, 0x0f]), Some(4));
        assert_eq!(empty(12, &[0xff, 0xff, 0xff, 0xff]), Some(4));
        let one = file(&[AT_5]);
        assert_eq!(judge(&one[..79]), Some(4));
        assert_eq!(judge(&one), None);
        assert_eq!(judge(&[one, vec![0xff; 5]].concat()), None);
    }

    #[test]
    fn cause_5() {
        let empty = |at, bytes: &[u8]| judge(&with(EMPTY.to_vec(), at, bytes));
        for at in [16, 20, 24, 32, 36, 40, 44, 48, 52] {
            assert_eq!(empty(at, &[0, 0, 0x80, 0x7f]), Some(5));
            assert_eq!(empty(at, &[0, 0, 0x80, 0xff]), Some(5));
            assert_eq!(empty(at, &[1, 0, 0x80, 0x7f]), Some(5));
            assert_eq!(empty(at, &[0, 0, 0xc0, 0xff]), Some(5));
        }
        assert_eq!(empty(16, &[0, 0, 0, 0x80]), None);
        assert_eq!(empty(28, &[0, 0, 0x80, 0x7f]), None);
        // y: 2 against 2; −0 against 0; 0 against −0; 0 against 2^-149; 2^-149 against itself
        assert_eq!(empty(36, &[0, 0, 0, 0x40]), Some(5));
        assert_eq!(empty(48, &[0, 0, 0, 0]), Some(5));
        assert_eq!(empty(48, &[0, 0, 0, 0x80]), Some(5));
        let minus = with(EMPTY.to_vec(), 36, &[0, 0, 0, 0x80]);
        assert_eq!(judge(&with(minus.clone(), 48, &[0, 0, 0, 0])), Some(5));
        assert_eq!(judge(&with(minus, 48, &[1, 0, 0, 0])), None);
        assert_eq!(empty(48, &[1, 0, 0, 0]), None);
        let least = with(EMPTY.to_vec(), 36, &[1, 0, 0, 0]);
        assert_eq!(judge(&with(least, 48, &[1, 0, 0, 0])), Some(5));
    }

    #[test]
    fn causes_6_and_7() {
        let two = |at, bytes: &[u8]| judge(&with(file(&[AT_5, AT_2]), at, bytes));
        for at in [64, 66, 68, 80, 82, 84] {
            assert_eq!(two(at, &[1, 0]), None);
            assert_eq!(two(at, &[2, 0]), Some(6));
            assert_eq!(two(at, &[0, 1]), Some(6));
            assert_eq!(two(at, &[0xff, 0xff]), Some(6));
        }
        for at in [72, 76, 88, 92] {
            assert_eq!(two(at, &[0xff, 0xff, 0x7f, 0x7f]), None);
            assert_eq!(two(at, &[0, 0, 0x80, 0x7f]), Some(7));
            assert_eq!(two(at, &[0, 0, 0x80, 0xff]), Some(7));
            assert_eq!(two(at, &[0, 0, 0x81, 0x7f]), Some(7));
        }
        let infinite_first = with(file(&[AT_5, AT_2]), 76, &[0, 0, 0x80, 0x7f]);
        assert_eq!(judge(&with(infinite_first.clone(), 80, &[2])), Some(7));
        assert_eq!(judge(&with(infinite_first, 68, &[2])), Some(6));
    }

    #[test]
    fn working_form_is_told() {
        assert!(working(&EMPTY));
        assert!(working(&file(&[AT_2, AGAIN_AT_5])));
        assert!(!working(&file(&[AGAIN_AT_5, AT_2])));
        assert!(!working(&file(&[AT_2, AT_2])));
        assert!(!working(&file(&[AT_5])));
        assert!(!working(&with(file(&[AT_2]), 71, &[1])));
        assert!(working(&[file(&[AT_2]), AT_2.to_vec()].concat()));
    }

    /// Cells ascend, pads go, what is not read stays; spare room and journal words stay.
    #[test]
    fn open_writes_the_working_form() {
        let (answer, out, journal) = opened(&file(&[AT_5, AT_2]), 8, 99, 3);
        assert_eq!(answer, 96);
        let at_5 = with(AT_5.to_vec(), 6, &[0, 0]);
        let want = [file(&[AT_2]), at_5, vec![0xa5; 3]].concat();
        assert_eq!(out, with(want, 12, &[2]));
        assert_eq!(journal, [0, 0x5a5a_5a5a, 0x5a5a_5a5a]);
        assert_eq!(opened(&EMPTY, 8, 64, 1), (64, EMPTY.to_vec(), vec![0]));
    }

    #[test]
    fn open_refuses_in_order() {
        let refused = |file: &[u8], scratch, out, journal, answer| {
            let unchanged = (answer, vec![0xa5; out], vec![0x5a5a_5a5a; journal]);
            assert_eq!(opened(file, scratch, out, journal), unchanged);
        };
        let two = file(&[AT_5, AT_2]);
        refused(&two, 8, 96, 0, 13);
        refused(&two, 8, 95, 1, 9);
        refused(&two, 8, 95, 0, 9);
        let three = file(&[AT_5, AT_2, AGAIN_AT_5]);
        refused(&three, 8, 112, 1, 21);
        refused(&three, 8, 95, 0, 21);
        refused(&three, 7, 112, 1, 8);
        refused(&three, 0, 0, 0, 8);
        refused(&with(three.clone(), 84, &[2]), 0, 0, 0, 6);
        refused(&three[..100], 8, 96, 1, 4);
        let in_order = file(&[AT_2, AGAIN_AT_5]);
        assert!(working(&in_order));
        refused(&in_order, 7, 96, 1, 8);
    }

    /// Any two records, beside each other or not, with the same masses or not; more of them than cells.
    #[test]
    fn one_cell_twice() {
        for twice in [
            &[AT_5, AT_5][..],
            &[AT_5, AGAIN_AT_5],
            &[AT_5, AT_2, AGAIN_AT_5],
            &[AT_2; 9],
        ] {
            assert!(names_one_twice(&file(twice)));
        }
        assert!(!names_one_twice(&file(&[AT_5, AT_2])) && !names_one_twice(&EMPTY));
        let behind = [file(&[AT_5]), AT_5.to_vec()].concat();
        assert!(!names_one_twice(&behind));
    }

    /// The later record counts, cells ascend, pads go, what is not read stays, as does spare room.
    #[test]
    fn fold_keeps_the_later_record() {
        let folded = |file: &[u8], scratch, room| {
            let mut out = vec![0xa5; room];
            (fold(file, scratch, &mut out), out)
        };
        let three = file(&[AT_5, AT_2, AGAIN_AT_5]);
        let want = file(&[AT_2, AGAIN_AT_5]);
        let spare = [want.clone(), vec![0xa5; 3]].concat();
        assert_eq!(folded(&three, 8, 99), (96, spare));
        assert_eq!(folded(&want, 7, 96), (8, vec![0xa5; 96]));
        assert_eq!(folded(&want, 8, 96), (96, want));
        assert_eq!(folded(&three, 8, 95), (9, vec![0xa5; 95]));
        assert_eq!(folded(&three, 7, 95), (8, vec![0xa5; 95]));
        assert_eq!(folded(&three[..100], 7, 99), (4, vec![0xa5; 99]));
    }

    /// g 192, record (192, 5, 0): its slot is that of (0, 6, 0), it is refused all the same.
    #[test]
    fn models() {
        let record = [192, 0, 5, 0, 0, 0, 0, 0, 0, 0, 0x80, 0x3f, 0, 0, 0, 0];
        assert_eq!(judge(&with(file(&[record]), 8, &[192])), Some(6));
        assert_eq!(judge(&with(file(&[record]), 8, &[193])), None);
    }
}
