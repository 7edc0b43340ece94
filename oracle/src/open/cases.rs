//! Point files and lengths of buffers to open and to fold, drawn by kind.

use crate::points::{point_file, Header, Record};
use crate::rng::Rng;
use crate::rule::{cell_of, AXES, FLOATS, HEADER, RECORD};
use std::collections::BTreeSet;

/// What one call is lent; the buffers' contents come from `junk`.
pub(crate) struct Case {
    pub(crate) file: Vec<u8>,
    pub(crate) scratch: usize,
    pub(crate) out: usize,
    pub(crate) journal: usize,
    pub(crate) junk: u32,
    /// Of the file before any damage: grid size, records, the length of what an accepted call writes, where a cell is repeated once it is folded.
    pub(crate) grid: usize,
    pub(crate) records: usize,
    pub(crate) needed: usize,
}

/// A kind of case: a good one, then damage, told what to be by the case's number.
pub(crate) struct Kind<C = Case> {
    pub(crate) name: &'static str,
    pub(crate) cases: u64,
    good: fn(&mut Rng) -> C,
    damage: Damage<C>,
}

/// What is done to a good case; the number tells what to do where there are several ways.
pub(crate) type Damage<C = Case> = fn(&mut Rng, usize, &mut C);

pub(crate) const fn kind<C>(
    name: &'static str,
    cases: u64,
    good: fn(&mut Rng) -> C,
    damage: Damage<C>,
) -> Kind<C> {
    Kind {
        name,
        cases,
        good,
        damage,
    }
}

pub(crate) const KINDS: [Kind; 17] = [
    kind("working form", 80_000, ascending, nothing),
    kind("shuffled", 80_000, shuffled, nothing),
    kind("repeated cells", 80_000, repeated, same_masses),
    kind("junk not read", 80_000, any_order, not_read),
    kind("large grids", 2_000, large, large_lengths),
    kind("header floats", 100_000, any_order, header_float),
    kind("header words", 100_000, any_order, header_word),
    kind("file lengths", 100_000, any_order, file_length),
    kind("coordinates", 100_000, with_records, coordinate),
    kind("masses", 100_000, with_records, mass),
    kind(
        "6 and 7 together",
        80_000,
        with_records,
        coordinates_and_masses,
    ),
    kind("scratch lengths", 80_000, any_order, scratch_length),
    kind("output lengths", 80_000, any_order, output_length),
    kind("journal lengths", 80_000, any_order, journal_length),
    kind("several causes", 120_000, any_order, several),
    kind("mutated bytes", 120_000, any_order, mutated),
    kind("21 and short buffers", 80_000, repeated, short_buffers),
];

/// Damage that open and build have in common, for `several_of`.
const DAMAGES: [Damage; 7] = [
    not_read,
    header_float,
    header_word,
    file_length,
    coordinate,
    mass,
    scratch_length,
];

/// The answers that kinds of damage to the file alone reach, by open and by build.
#[cfg(test)]
pub(crate) const DAMAGE_ANSWERS: [(&str, &[u64]); 6] = [
    ("header floats", &[5, 21, 64]),
    ("header words", &[2, 3, 4, 6, 8, 21, 64]),
    ("file lengths", &[1, 4, 21, 64]),
    ("coordinates", &[6, 21, 64]),
    ("masses", &[7, 21, 64]),
    ("6 and 7 together", &[6, 7, 21, 64]),
];

/// Float bits: NaNs of both signs, quiet and signalling, and the infinities.
pub(crate) const NOT_FINITE: [u32; 8] = [
    0x7f80_0000,
    0xff80_0000,
    0x7fc0_0000,
    0xffc0_0000,
    0x7f80_0001,
    0xff80_0001,
    0x7fff_ffff,
    0xffff_ffff,
];

/// Float bits at the edges of what is finite: zeros, subnormals, the least normal, one, the greatest.
pub(crate) const FINITE: [u32; 12] = [
    0x0000_0000,
    0x8000_0000,
    0x0000_0001,
    0x8000_0001,
    0x007f_ffff,
    0x807f_ffff,
    0x0080_0000,
    0x8080_0000,
    0x3f80_0000,
    0xbf80_0000,
    0x7f7f_ffff,
    0xff7f_ffff,
];

/// Min and max as float bits, in order and barely so.
const BARELY_BELOW: [(u32, u32); 8] = [
    (0x0000_0000, 0x0000_0001),
    (0x8000_0000, 0x0000_0001),
    (0x8000_0001, 0x8000_0000),
    (0x8000_0001, 0x0000_0000),
    (0x007f_ffff, 0x0080_0000),
    (0x3f80_0000, 0x3f80_0001),
    (0xbf80_0001, 0xbf80_0000),
    (0xff7f_ffff, 0x7f7f_ffff),
];

/// Min and max as float bits, not in order.
const NOT_BELOW: [(u32, u32); 12] = [
    (0x0000_0000, 0x0000_0000),
    (0x8000_0000, 0x0000_0000),
    (0x0000_0000, 0x8000_0000),
    (0x8000_0000, 0x8000_0000),
    (0x0000_0001, 0x0000_0001),
    (0x0000_0001, 0x0000_0000),
    (0x8000_0000, 0x8000_0001),
    (0x0080_0000, 0x007f_ffff),
    (0x3f80_0000, 0x3f80_0000),
    (0x3f80_0001, 0x3f80_0000),
    (0x7f7f_ffff, 0x7f7f_ffff),
    (0x7f7f_ffff, 0xff7f_ffff),
];

impl<C> Kind<C> {
    /// The case of this number; the same on every run.
    pub(crate) fn case(&self, seed: u64, number: u64) -> C {
        let start = Rng::new(seed << 40 | number).bits();
        let mut rng = Rng::new(start);
        let mut case = (self.good)(&mut rng);
        (self.damage)(&mut rng, number as usize, &mut case);
        case
    }
}

impl Case {
    /// A file as it stands, with room enough where it is good.
    pub(crate) fn of(file: Vec<u8>, grid: usize, records: usize) -> Self {
        Self {
            scratch: grid.pow(3),
            out: HEADER + RECORD * records,
            journal: 1,
            junk: 0,
            file,
            grid,
            records,
            needed: HEADER + RECORD * records,
        }
    }

    /// The length of the file without what follows its records.
    pub(crate) fn whole(&self) -> usize {
        HEADER + RECORD * self.records
    }

    /// The same file with each cell's later record alone.
    pub(crate) fn once(mut self) -> Self {
        let (records, behind) = self.file[HEADER..].split_at(RECORD * self.records);
        let mut seen = BTreeSet::new();
        let later = records.chunks(RECORD).rev();
        let mut kept: Vec<&[u8]> = later.filter(|record| seen.insert(&record[..6])).collect();
        kept.reverse();
        self.records = kept.len();
        self.file = [&self.file[..HEADER], &kept.concat(), behind].concat();
        self.put_word(12, self.records as u32);
        self
    }

    /// The bytes of what open, fold and build are all lent.
    pub(crate) fn size(&self) -> usize {
        self.file.len() + 4 * self.scratch + self.out
    }

    pub(crate) fn described(&self) -> String {
        format!(
            "g {}, {} records, file {}, scratch {}, output {}",
            self.grid,
            self.records,
            self.file.len(),
            self.scratch,
            self.out
        )
    }

    /// Sets bytes, unless the file has been cut short of them.
    fn put(&mut self, at: usize, bytes: &[u8]) {
        if let Some(place) = self.file.get_mut(at..at + bytes.len()) {
            place.copy_from_slice(bytes);
        }
    }

    fn put_word(&mut self, at: usize, word: u32) {
        self.put(at, &word.to_le_bytes());
    }

    /// The offset of a record: the first, the last, or any. Cases without records have none.
    fn a_record(&self, rng: &mut Rng) -> Option<usize> {
        let last = self.records.checked_sub(1)?;
        let record = match rng.below(4) {
            0 => 0,
            1 => last,
            _ => up_to(rng, last),
        };
        Some(HEADER + RECORD * record)
    }
}

pub(crate) fn pick<T: Copy>(rng: &mut Rng, from: &[T]) -> T {
    from[rng.below(from.len() as u64) as usize]
}

/// A number from 0 through `last`.
pub(crate) fn up_to(rng: &mut Rng, last: usize) -> usize {
    rng.range(0, last as u64) as usize
}

pub(crate) fn one_in(rng: &mut Rng, chances: u64) -> bool {
    rng.below(chances) == 0
}

pub(crate) fn word(rng: &mut Rng) -> u32 {
    rng.bits() as u32
}

/// A finite float, once in eight one of the edges.
pub(crate) fn finite(rng: &mut Rng) -> f32 {
    let bits = if one_in(rng, 8) {
        pick(rng, &FINITE)
    } else {
        word(rng)
    };
    let float = f32::from_bits(bits);
    if float.is_finite() {
        float
    } else {
        f32::from_bits(bits ^ 0x4000_0000)
    }
}

/// Min below max.
fn axis(rng: &mut Rng) -> (f32, f32) {
    let (a, b) = (finite(rng), finite(rng));
    if a == b || one_in(rng, 4) {
        let (min, max) = pick(rng, &BARELY_BELOW);
        return (f32::from_bits(min), f32::from_bits(max));
    }
    (a.min(b), a.max(b))
}

pub(crate) fn header(rng: &mut Rng, grid: usize) -> Header {
    let axes = [axis(rng), axis(rng), axis(rng)];
    Header {
        grid: grid as u32,
        constant_density: finite(rng),
        cell_volume: finite(rng),
        cauchy_scale: finite(rng),
        min: axes.map(|(min, _)| min),
        max: axes.map(|(_, max)| max),
    }
}

/// A good file with a record for each of the cell numbers, in their order; buffers with room, often more than enough.
fn with_cells(rng: &mut Rng, grid: usize, numbers: &[usize]) -> Case {
    let mut record = |&number: &usize| Record {
        cell: cell_of(grid as u64, number as u64),
        cauchy_mass: finite(rng),
        elliptic_mass: finite(rng),
    };
    let records: Vec<Record> = numbers.iter().map(&mut record).collect();
    let file = point_file(header(rng, grid), &records);
    let mut distinct = numbers.to_vec();
    distinct.sort_unstable();
    distinct.dedup();
    let mut case = Case::of(file, grid, numbers.len());
    case.needed = HEADER + RECORD * distinct.len();
    case.scratch += up_to(rng, 3);
    case.out += up_to(rng, 40);
    case.journal += up_to(rng, 7);
    case.junk = word(rng);
    case
}

/// 1 to 12, mostly up to 6.
pub(crate) fn small_grid(rng: &mut Rng) -> usize {
    let greatest = pick(rng, &[6, 6, 6, 12]);
    rng.range(1, greatest) as usize
}

/// Ascending cell numbers: none, a few, about a share of all, all.
fn occupied(rng: &mut Rng, grid: usize) -> Vec<usize> {
    let all = grid.pow(3);
    match rng.below(16) {
        0 => Vec::new(),
        1..11 => sparse(rng, grid, 8),
        11..14 => {
            let share = rng.range(1, 7);
            (0..all).filter(|_| rng.below(8) < share).collect()
        }
        _ => (0..all).collect(),
    }
}

/// Ascending cell numbers, at least one and at most `most`.
pub(crate) fn sparse(rng: &mut Rng, grid: usize, most: u64) -> Vec<usize> {
    let count = rng.range(1, most);
    let last = grid.pow(3) - 1;
    let mut numbers: Vec<usize> = (0..count).map(|_| up_to(rng, last)).collect();
    numbers.sort_unstable();
    numbers.dedup();
    numbers
}

pub(crate) fn shuffle<T>(rng: &mut Rng, list: &mut [T]) {
    for end in (1..list.len()).rev() {
        list.swap(end, up_to(rng, end));
    }
}

fn ascending(rng: &mut Rng) -> Case {
    let grid = small_grid(rng);
    let numbers = occupied(rng, grid);
    with_cells(rng, grid, &numbers)
}

fn shuffled(rng: &mut Rng) -> Case {
    let grid = small_grid(rng);
    let mut numbers = occupied(rng, grid);
    shuffle(rng, &mut numbers);
    with_cells(rng, grid, &numbers)
}

/// Cells more than once: beside each other, or anywhere.
fn repeated(rng: &mut Rng) -> Case {
    let grid = small_grid(rng);
    let mut numbers = occupied(rng, grid);
    for _ in 0..rng.range(1, 12) {
        if numbers.is_empty() {
            numbers.push(up_to(rng, grid.pow(3) - 1));
        }
        let again = pick(rng, &numbers);
        let place = up_to(rng, numbers.len());
        numbers.insert(place, again);
    }
    match rng.below(3) {
        0 => numbers.sort_unstable(),
        1 => shuffle(rng, &mut numbers),
        _ => (),
    }
    with_cells(rng, grid, &numbers)
}

/// Once in four, every record with the masses of the first one.
pub(crate) fn same_masses(_: &mut Rng, number: usize, case: &mut Case) {
    let masses = HEADER + 8;
    let others = 1..case.records;
    for record in others.filter(|_| number.is_multiple_of(4)) {
        let to = masses + RECORD * record;
        case.file.copy_within(masses..masses + 8, to);
    }
}

/// One of the three above, with junk in what is not read once in two.
pub(crate) fn any_order(rng: &mut Rng) -> Case {
    let mut case = pick(rng, &[ascending, shuffled, repeated])(rng);
    if one_in(rng, 2) {
        not_read(rng, 0, &mut case);
    }
    case
}

fn with_records(rng: &mut Rng) -> Case {
    with_records_of(rng, any_order)
}

/// Such a case, with at least one record.
pub(crate) fn with_records_of(rng: &mut Rng, good: fn(&mut Rng) -> Case) -> Case {
    loop {
        let case = good(rng);
        if case.records > 0 {
            return case;
        }
    }
}

/// Grids from 13 to 256, mostly up to 48, with few records.
pub(crate) fn large(rng: &mut Rng) -> Case {
    let grid = if one_in(rng, 16) {
        rng.range(49, 256)
    } else {
        rng.range(13, 48)
    } as usize;
    few_records(rng, grid)
}

/// At most 300 records and as many as a quarter again, in any order.
pub(crate) fn few_records(rng: &mut Rng, grid: usize) -> Case {
    let mut numbers = sparse(rng, grid, 300);
    if one_in(rng, 2) {
        numbers.extend_from_within(..numbers.len() / 4);
        shuffle(rng, &mut numbers);
    }
    let mut case = with_cells(rng, grid, &numbers);
    not_read(rng, 0, &mut case);
    case
}

pub(crate) fn nothing<C>(_: &mut Rng, _: usize, _: &mut C) {}

/// Junk in pads, in the header words that are not read, and after the records.
pub(crate) fn not_read(rng: &mut Rng, _: usize, case: &mut Case) {
    for at in [28, 56, 60] {
        let junk = match rng.below(3) {
            0 => pick(rng, &NOT_FINITE),
            1 => word(rng),
            _ => continue,
        };
        case.put_word(at, junk);
    }
    let every = rng.range(1, 8);
    for record in 0..case.records {
        if one_in(rng, every) {
            let pad = (word(rng) as u16).to_le_bytes();
            case.put(HEADER + RECORD * record + 6, &pad);
        }
    }
    if one_in(rng, 2) {
        let more = rng.range(1, 40);
        case.file.extend((0..more).map(|_| rng.bits() as u8));
    }
}

/// A damaged coordinate or mass, or a short buffer, or nothing.
fn large_lengths(rng: &mut Rng, number: usize, case: &mut Case) {
    match number % 8 {
        0 => coordinate(rng, number / 8, case),
        1 => scratch_length(rng, number / 8, case),
        2 => output_length(rng, number / 8, case),
        3 => mass(rng, number / 8, case),
        _ => (),
    }
}

/// Each float that is not finite in each header float, edges of the finite ones too; each order of min and max on each axis.
pub(crate) fn header_float(rng: &mut Rng, number: usize, case: &mut Case) {
    let values = NOT_FINITE.len() + FINITE.len();
    let pairs = NOT_BELOW.len() + BARELY_BELOW.len();
    if number.is_multiple_of(2) {
        let value = number / 2 % values;
        let bits = NOT_FINITE.iter().chain(&FINITE).nth(value);
        case.put_word(pick(rng, &FLOATS), *bits.expect("one of the values"));
    } else {
        let pair = number / 2 % pairs;
        let (min, max) = *NOT_BELOW
            .iter()
            .chain(&BARELY_BELOW)
            .nth(pair)
            .expect("one of the pairs");
        let (at_min, at_max) = pick(rng, &AXES);
        case.put_word(at_min, min);
        case.put_word(at_max, max);
    }
}

/// Mark, version, grid size or count set anew.
pub(crate) fn header_word(rng: &mut Rng, number: usize, case: &mut Case) {
    let bit = 1 << rng.below(32);
    let marks = [0x314d_5952 ^ bit, 0x314d_5452, 0x5259_4d31, 0];
    let versions = [1 ^ bit, 0, 2, 3, u32::MAX];
    match number % 4 {
        0 => case.put_word(0, pick(rng, &marks)),
        1 => case.put_word(4, pick(rng, &versions)),
        2 => case.put_word(8, another_grid(rng, case.grid as u32)),
        _ => case.put_word(12, another_count(rng, case.records as u32)),
    }
}

/// Grid sizes refused, or others than the file's; some are the file's in their low bits.
fn another_grid(rng: &mut Rng, g: u32) -> u32 {
    let (bit, any) = (1 << rng.below(32), word(rng));
    let short = [0, 256, 257, 512, g + 256, g + (1 << 16), g ^ bit];
    let long = [1 << 31, u32::MAX, any];
    if one_in(rng, 4) {
        pick(rng, &long)
    } else {
        pick(rng, &short)
    }
}

/// Counts of more records than there are, such that 16 times the count, or 64 more, passes 2^32 too; or of fewer.
fn another_count(rng: &mut Rng, n: u32) -> u32 {
    let bit = 1 << rng.below(32);
    let fewer = [n.saturating_sub(1), n / 2, 0];
    let more = [n + 1, n + 1 + rng.below(5) as u32, n ^ bit];
    let far_more = [0x0fff_fffc, 0x0fff_ffff, 0x1000_0000, u32::MAX];
    let same_low_bits = [0x1000_0000 + n, 0x8000_0000 + n, 0xf000_0000 + n];
    match rng.below(4) {
        0 => pick(rng, &fewer),
        1 => pick(rng, &more),
        2 => pick(rng, &far_more),
        _ => pick(rng, &same_low_bits),
    }
}

/// Cut or longer: every length up to 130, and those round the end of the header and of each of the last records.
pub(crate) fn file_length(rng: &mut Rng, number: usize, case: &mut Case) {
    let whole = case.whole();
    let length = match number % 4 {
        0 => number / 4 % 131,
        1 => whole + number / 4 % 3 - 1,
        2 => whole + up_to(rng, 40) - 20.min(whole),
        _ => pick(
            rng,
            &[0, 1, 63, 64, 65, whole - 1, whole, whole + 1, whole + 16],
        ),
    };
    case.file.truncate(length);
    while case.file.len() < length {
        case.file.push(rng.bits() as u8);
    }
}

/// A coordinate at or past g, or the last below it; axes in turn.
pub(crate) fn coordinate(rng: &mut Rng, number: usize, case: &mut Case) {
    let g = case.grid as u16;
    let any = word(rng) as u16;
    let value = pick(
        rng,
        &[
            g,
            g,
            g + 1,
            g - 1,
            g + 256,
            g * 2,
            256,
            32_768,
            65_535,
            65_535 - g,
            any | 256,
        ],
    );
    if let Some(at) = case.a_record(rng) {
        case.put(at + 2 * (number % 3), &value.to_le_bytes());
    }
}

/// A mass that is not finite, or hardly finite; both masses in turn.
pub(crate) fn mass(rng: &mut Rng, number: usize, case: &mut Case) {
    let bits = if one_in(rng, 4) {
        pick(rng, &FINITE)
    } else {
        NOT_FINITE[number / 2 % NOT_FINITE.len()]
    };
    if let Some(at) = case.a_record(rng) {
        case.put_word(at + 8 + 4 * (number % 2), bits);
    }
}

/// Coordinates and masses damaged in one record or in several.
pub(crate) fn coordinates_and_masses(rng: &mut Rng, number: usize, case: &mut Case) {
    for _ in 0..rng.range(1, 2) {
        let axis = up_to(rng, 2);
        coordinate(rng, axis, case);
        mass(rng, number, case);
    }
}

/// A short output, or no journal word, or both, once in two.
pub(crate) fn later_causes(rng: &mut Rng, case: &mut Case) {
    if one_in(rng, 4) {
        case.out = pick(rng, &[0, 63, case.needed - 1]);
    }
    if one_in(rng, 4) {
        case.journal = 0;
    }
}

/// Scratch of every length that a mistaken rule could ask for.
fn scratch_length(rng: &mut Rng, number: usize, case: &mut Case) {
    let words = case.grid.pow(3);
    let more = up_to(rng, 100);
    let lengths = [
        0,
        1,
        words - 1,
        words,
        words + 1,
        words + more,
        case.grid.pow(2),
        words.div_ceil(32) * 2,
        case.records,
        up_to(rng, words - 1),
    ];
    case.scratch = lengths[number % lengths.len()];
    later_causes(rng, case);
}

/// Output one short, exact, longer, empty; by the occupied cells and by the records.
fn output_length(rng: &mut Rng, number: usize, case: &mut Case) {
    let (needed, whole) = (case.needed, case.whole());
    let lengths = [
        needed - 1,
        needed,
        needed + 1,
        needed + up_to(rng, 100),
        0,
        63,
        64,
        needed - 16,
        whole - 1,
        whole,
        up_to(rng, needed - 1),
    ];
    case.out = lengths[number % lengths.len()];
    if one_in(rng, 4) {
        case.journal = 0;
    }
}

/// Scratch, output and journal, each short once in two.
pub(crate) fn short_buffers(rng: &mut Rng, number: usize, case: &mut Case) {
    if number & 1 != 0 {
        case.scratch = pick(rng, &[0, case.grid.pow(3) - 1]);
    }
    if number & 2 != 0 {
        case.out = pick(rng, &[0, 63, case.needed - 1]);
    }
    if number & 4 != 0 {
        case.journal = 0;
    }
}

/// No journal word, one, more.
fn journal_length(rng: &mut Rng, number: usize, case: &mut Case) {
    let lengths = [0, 1, 0, 2, 3, 4, 7, 64, up_to(rng, 40)];
    case.journal = lengths[number % lengths.len()];
    if one_in(rng, 8) {
        case.out = case.needed - 1;
    }
}

fn several(rng: &mut Rng, _: usize, case: &mut Case) {
    several_of(rng, &[output_length, journal_length], case);
}

/// Two to four damages together, of the common ones and these.
pub(crate) fn several_of(rng: &mut Rng, these: &[Damage], case: &mut Case) {
    let damages = [&DAMAGES, these].concat();
    for _ in 0..rng.range(2, 4) {
        let number = up_to(rng, 10_000);
        pick(rng, &damages)(rng, number, case);
    }
}

/// One to four bytes set anew, or with a bit flipped.
pub(crate) fn mutated(rng: &mut Rng, _: usize, case: &mut Case) {
    for _ in 0..rng.range(1, 4) {
        let within = if one_in(rng, 2) {
            HEADER
        } else {
            case.file.len()
        };
        let at = up_to(rng, within - 1);
        let flipped = case.file[at] ^ (1 << rng.below(8));
        let any = rng.bits() as u8;
        case.file[at] = pick(rng, &[flipped, flipped, any, 0, 0xff]);
    }
}
