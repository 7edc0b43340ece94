//! Histories from an opened file, and files and journals with damage, drawn by kind.

use crate::build::of_cells;
use crate::open::cases::{
    self as opened, any_order, finite, large, one_in, pick, shuffle, small_grid, sparse, up_to,
    word, FINITE, NOT_FINITE,
};
use crate::open::{journal_word, out_byte};
use crate::rng::Rng;
use crate::rule::edit::{Call, ENTRY, FIRST, GREATEST_COUNT};
use crate::rule::{self, cell_of, HEADER, RECORD};

/// A file to open into a buffer, and the calls that follow; the buffers' contents come from `junk`.
pub(crate) struct History {
    pub(crate) file: Vec<u8>,
    pub(crate) grid: usize,
    /// Lengths of the file's buffer and of the journal (words): enough to open it.
    pub(crate) bytes: usize,
    pub(crate) words: usize,
    pub(crate) calls: Vec<Call>,
    pub(crate) junk: u32,
    pub(crate) builds: Builds,
}

/// When the tree of what is edited is built.
#[derive(Clone, Copy, PartialEq)]
pub(crate) enum Builds {
    Never,
    AtTheEnd,
    AfterEach,
}

impl Builds {
    fn at_the_end(builds: bool) -> Self {
        match builds {
            true => Self::AtTheEnd,
            false => Self::Never,
        }
    }
}

/// Both buffers as they are lent, and the calls that follow.
pub(crate) struct Case {
    pub(crate) file: Vec<u8>,
    pub(crate) journal: Vec<u32>,
    pub(crate) calls: Vec<Call>,
    pub(crate) junk: u32,
    /// Of the file before any damage: grid size, records.
    pub(crate) grid: usize,
    pub(crate) records: usize,
}

/// A kind of history; some are told by their numbers what to be.
pub(crate) struct Histories {
    pub(crate) name: &'static str,
    pub(crate) cases: u64,
    draw: fn(&mut Rng, usize) -> History,
}

/// A kind of damage done to what some calls have left, with calls that meet it.
pub(crate) struct Damaged {
    pub(crate) name: &'static str,
    pub(crate) cases: u64,
    damage: Damage,
}

type Damage = fn(&mut Rng, usize, &mut Case);

const fn histories(
    name: &'static str,
    cases: u64,
    draw: fn(&mut Rng, usize) -> History,
) -> Histories {
    Histories { name, cases, draw }
}

const fn damaged(name: &'static str, cases: u64, damage: Damage) -> Damaged {
    Damaged {
        name,
        cases,
        damage,
    }
}

pub(crate) const HISTORIES: [Histories; 9] = [
    histories("short histories", 60_000, short),
    histories("middling histories", 20_000, middling),
    histories("long histories", 3_000, long),
    histories("full buffers", 20_000, full_buffer),
    histories("full journals", 20_000, full_journal),
    histories("refused calls", 12_000, refused),
    histories("there and back", 12_000, there_and_back),
    histories("large grids", 400, large_grid),
    histories("over the edge", 6_000, over_the_edge),
];

pub(crate) const DAMAGED: [Damaged; 14] = [
    damaged("header floats", 20_000, header_float),
    damaged("header words", 20_000, header_word),
    damaged("file lengths", 20_000, file_length),
    damaged("coordinates", 20_000, coordinate),
    damaged("masses", 20_000, mass),
    damaged("6 and 7 together", 20_000, coordinates_and_masses),
    damaged("not in working form", 30_000, not_working),
    damaged("journal words", 30_000, journal_words),
    damaged("last entries", 60_000, last_entry),
    damaged("cut buffers", 30_000, cut),
    damaged("full both", 30_000, full_both),
    damaged("arguments", 30_000, argument),
    damaged("several causes", 60_000, several),
    damaged("mutated bytes", 60_000, mutated),
];

/// Damage that `several` puts together.
const DAMAGES: [Damage; 10] = [
    header_float,
    header_word,
    file_length,
    coordinate,
    mass,
    not_working,
    journal_words,
    last_entry,
    full_both,
    argument,
];

/// How often a call is of each kind: put, remove, undo, one that its numbers get refused.
type Mix = [u64; 4];

const EVEN: Mix = [8, 5, 5, 1];
const MOSTLY_PUTS: Mix = [12, 3, 2, 1];
const MOSTLY_REFUSED: Mix = [2, 2, 2, 8];

impl Histories {
    /// The history of this number; the same on every run.
    pub(crate) fn history(&self, seed: u64, number: u64) -> History {
        (self.draw)(&mut rng(seed, number), number as usize)
    }
}

impl Damaged {
    /// The case of this number; the same on every run.
    pub(crate) fn case(&self, seed: u64, number: u64) -> Case {
        let mut rng = rng(seed, number);
        let mut case = left_by_calls(&mut rng);
        (self.damage)(&mut rng, number as usize, &mut case);
        case
    }
}

fn rng(seed: u64, number: u64) -> Rng {
    Rng::new(Rng::new(seed << 40 | number).bits())
}

impl History {
    /// The buffers as lent to open.
    pub(crate) fn lent(&self) -> (Vec<u8>, Vec<u32>) {
        let file = (0..self.bytes).map(|at| out_byte(self.junk, at));
        let journal = (0..self.words).map(|at| journal_word(self.junk, at));
        (file.collect(), journal.collect())
    }

    /// What open leaves by the rule, and the calls.
    pub(crate) fn opened(self) -> Case {
        let (mut file, mut journal) = self.lent();
        let scratch = (self.grid as u64).pow(3);
        let answer = rule::open(&self.file, scratch, &mut file, &mut journal);
        assert!(answer >= 64, "a history's file is accepted");
        Case {
            records: (answer as usize - HEADER) / RECORD,
            file,
            journal,
            calls: self.calls,
            junk: self.junk,
            grid: self.grid,
        }
    }
}

impl Case {
    /// Where the last entry starts, if its words are there.
    fn last_entry(&self) -> Option<usize> {
        let e = *self.journal.first()? as usize;
        let start = FIRST + ENTRY * e.checked_sub(1)?;
        (start + ENTRY <= self.journal.len()).then_some(start)
    }

    /// The length of the file without what follows its records.
    fn whole(&self) -> usize {
        HEADER + RECORD * self.records
    }

    /// Makes the buffer shorter or longer.
    fn resize(&mut self, rng: &mut Rng, bytes: usize) {
        self.file.truncate(bytes);
        while self.file.len() < bytes {
            self.file.push(rng.bits() as u8);
        }
    }
}

/// A cell as an argument.
fn wide(cell: [u16; 3]) -> [u32; 3] {
    cell.map(u32::from)
}

/// Cells that calls name: some of the file's, few or many at random, at times the first and the last.
fn pool(rng: &mut Rng, file: &[u8], grid: usize) -> Vec<[u32; 3]> {
    let g = grid as u64;
    let cells = rule::cells(file).into_iter();
    let mut numbers: Vec<u64> = cells.map(|(number, _)| number).collect();
    shuffle(rng, &mut numbers);
    numbers.truncate(rng.range(1, 6) as usize);
    let most = pick(rng, &[6, 6, 6, 60]);
    let cells = g.pow(3);
    for _ in 0..rng.range(1, most) {
        numbers.push(rng.below(cells));
    }
    if one_in(rng, 3) {
        numbers.extend([0, cells - 1]);
    }
    let cells = numbers.into_iter().map(|number| cell_of(g, number));
    cells.map(wide).collect()
}

fn masses(rng: &mut Rng) -> [u32; 2] {
    [finite(rng), finite(rng)].map(f32::to_bits)
}

/// A coordinate that is refused: at g or above, or below g only in its low 16 or 8 bits.
fn outside(rng: &mut Rng, grid: u32) -> u32 {
    let low = rng.below(u64::from(grid)) as u32;
    let any = word(rng);
    pick(
        rng,
        &[
            grid,
            grid,
            grid + 1,
            256 + low,
            65_535,
            65_536,
            65_536 + low,
            65_536 + low,
            1 << 31 | low,
            u32::MAX,
            any | 256,
        ],
    )
}

/// A put or a remove whose numbers get it refused: coordinates, masses, or both.
fn refused_call(rng: &mut Rng, cells: &[[u32; 3]], grid: usize) -> Call {
    let (mut cell, mut masses) = (pick(rng, cells), masses(rng));
    let way = rng.below(4);
    if way < 3 {
        cell[up_to(rng, 2)] = outside(rng, grid as u32);
    }
    if way > 1 {
        masses[up_to(rng, 1)] = pick(rng, &NOT_FINITE);
    }
    if way == 0 {
        return Call::Remove { cell };
    }
    Call::Put { cell, masses }
}

fn call(rng: &mut Rng, mix: Mix, cells: &[[u32; 3]], grid: usize) -> Call {
    let [put, remove, undo, refused] = mix;
    let cell = pick(rng, cells);
    let drawn = rng.below(put + remove + undo + refused);
    if drawn < put {
        let edges = [pick(rng, &FINITE), pick(rng, &FINITE)];
        let masses = if one_in(rng, 4) { edges } else { masses(rng) };
        Call::Put { cell, masses }
    } else if drawn < put + remove {
        Call::Remove { cell }
    } else if drawn < put + remove + undo {
        Call::Undo
    } else {
        refused_call(rng, cells, grid)
    }
}

/// Calls in turn, now and then the one before once more.
fn calls(rng: &mut Rng, mix: Mix, count: u64, cells: &[[u32; 3]], grid: usize) -> Vec<Call> {
    let mut calls: Vec<Call> = Vec::new();
    for _ in 0..count {
        let again = calls.last().copied().filter(|_| one_in(rng, 16));
        calls.push(again.unwrap_or_else(|| call(rng, mix, cells, grid)));
    }
    calls
}

/// A history of an opened file with calls of a mix; room and words for few or for many, whole records or not.
fn drawn(rng: &mut Rng, opened: opened::Case, mix: Mix, count: u64) -> History {
    let cells = pool(rng, &opened.file, opened.grid);
    let spare = match rng.below(4) {
        0 => up_to(rng, 50),
        1 => RECORD * up_to(rng, 4),
        _ => RECORD * (count as usize + 1) + up_to(rng, 20),
    };
    let words = match rng.below(4) {
        0 => FIRST + up_to(rng, ENTRY * 6),
        _ => FIRST + ENTRY * (count as usize + 1) + up_to(rng, 4),
    };
    History {
        grid: opened.grid,
        bytes: opened.needed + spare,
        words,
        calls: calls(rng, mix, count, &cells, opened.grid),
        junk: opened.junk,
        builds: Builds::at_the_end(one_in(rng, 4)),
        file: opened.file,
    }
}

/// A file that open accepts, in any order.
fn accepted(rng: &mut Rng) -> opened::Case {
    any_order(rng).once()
}

fn short(rng: &mut Rng, number: usize) -> History {
    let opened = accepted(rng);
    drawn(rng, opened, EVEN, number as u64 % 9)
}

fn middling(rng: &mut Rng, _: usize) -> History {
    let (opened, count) = (accepted(rng), rng.range(9, 40));
    drawn(rng, opened, EVEN, count)
}

fn long(rng: &mut Rng, number: usize) -> History {
    let opened = accepted(rng);
    let count = if number.is_multiple_of(16) {
        200
    } else {
        rng.range(41, 200)
    };
    let mix = pick(rng, &[EVEN, MOSTLY_PUTS]);
    drawn(rng, opened, mix, count)
}

/// Room for none, one or two more records, less some bytes or more.
fn full_buffer(rng: &mut Rng, number: usize) -> History {
    let (opened, count) = (accepted(rng), rng.range(2, 24));
    let needed = opened.needed;
    let mut history = drawn(rng, opened, MOSTLY_PUTS, count);
    history.bytes = needed + number % 50;
    history
}

/// Words for none to five entries, less a word or more.
fn full_journal(rng: &mut Rng, number: usize) -> History {
    let (opened, count) = (accepted(rng), rng.range(2, 24));
    let mut history = drawn(rng, opened, MOSTLY_PUTS, count);
    history.words = FIRST + number % 18;
    history
}

fn refused(rng: &mut Rng, _: usize) -> History {
    let (opened, count) = (accepted(rng), rng.range(1, 24));
    drawn(rng, opened, MOSTLY_REFUSED, count)
}

/// Edits, then as many undos and up to two more, then some calls again.
fn there_and_back(rng: &mut Rng, _: usize) -> History {
    let (opened, count) = (accepted(rng), rng.range(1, 12));
    let (cells, grid) = (pool(rng, &opened.file, opened.grid), opened.grid);
    let mut history = drawn(rng, opened, [3, 2, 0, 0], count);
    let undos = count + rng.below(3);
    history.calls.extend((0..undos).map(|_| Call::Undo));
    let again = rng.below(4);
    history.calls.extend(calls(rng, EVEN, again, &cells, grid));
    history
}

/// 64, 192 and 256 in turn, then any from 13 to 256; few trees, as their boxes are long to visit.
fn large_grid(rng: &mut Rng, number: usize) -> History {
    let grid = match number % 8 {
        0 => Some(64),
        1 => Some(192),
        2 => Some(256),
        _ => None,
    };
    let opened = match grid {
        Some(grid) => opened::few_records(rng, grid),
        None => large(rng),
    }
    .once();
    let count = rng.range(1, 30);
    let mut history = drawn(rng, opened, EVEN, count);
    let builds = history.grid <= 48 || number.is_multiple_of(32);
    history.builds = Builds::at_the_end(builds);
    history
}

/// Few cells, put with the greatest masses and with such as take them away, and undone: after each call the tree is built, too large or not.
fn over_the_edge(rng: &mut Rng, _: usize) -> History {
    let (grid, count) = (small_grid(rng), rng.range(25, 60));
    let numbers = sparse(rng, grid, 30);
    let g = grid as u64;
    let file = of_cells(grid as u32, numbers.iter().map(|&number| number as u64));
    let opened = opened::Case::of(file, grid, numbers.len());
    let mut history = drawn(rng, opened, EVEN, 0);
    let near = 0..rng.range(2, 12);
    let near = near.map(|_| wide(cell_of(g, rng.below(g.pow(3)))));
    let near: Vec<[u32; 3]> = near.collect();
    let heavy = [f32::MAX, f32::MIN, 2f32.powi(127), 2f32.powi(103), 1.0, 0.0];
    let mass = |rng: &mut Rng| pick(rng, &heavy).to_bits();
    let call = |_| match rng.below(8) {
        0..4 => Call::Put {
            cell: pick(rng, &near),
            masses: [mass(rng), mass(rng)],
        },
        4..6 => Call::Remove {
            cell: pick(rng, &near),
        },
        _ => Call::Undo,
    };
    history.calls = (0..count).map(call).collect();
    history.bytes += RECORD * near.len();
    history.words = FIRST + ENTRY * count as usize;
    history.builds = Builds::AfterEach;
    history
}

/// What some calls leave in both buffers, with one to three calls to come.
fn left_by_calls(rng: &mut Rng) -> Case {
    let (opened, count) = (accepted(rng), rng.range(0, 6));
    let (cells, grid) = (pool(rng, &opened.file, opened.grid), opened.grid);
    let mut history = drawn(rng, opened, [6, 4, 1, 0], count);
    history.words = history.words.max(FIRST + ENTRY);
    let mut case = history.opened();
    for call in std::mem::take(&mut case.calls) {
        rule::edit::edit(&mut case.file, &mut case.journal, &call);
    }
    case.records = rule::cells(&case.file).len();
    let more = rng.range(1, 3);
    case.calls = calls(rng, EVEN, more, &cells, grid);
    case
}

/// Damage of the file alone, as open meets it.
fn to_the_file(damage: opened::Damage, rng: &mut Rng, number: usize, case: &mut Case) {
    let file = std::mem::take(&mut case.file);
    let mut lent = opened::Case::of(file, case.grid, case.records);
    damage(rng, number, &mut lent);
    case.file = lent.file;
}

fn header_float(rng: &mut Rng, number: usize, case: &mut Case) {
    to_the_file(opened::header_float, rng, number, case);
}

fn header_word(rng: &mut Rng, number: usize, case: &mut Case) {
    to_the_file(opened::header_word, rng, number, case);
}

fn file_length(rng: &mut Rng, number: usize, case: &mut Case) {
    to_the_file(opened::file_length, rng, number, case);
}

fn coordinate(rng: &mut Rng, number: usize, case: &mut Case) {
    to_the_file(opened::coordinate, rng, number, case);
}

fn mass(rng: &mut Rng, number: usize, case: &mut Case) {
    to_the_file(opened::mass, rng, number, case);
}

fn coordinates_and_masses(rng: &mut Rng, number: usize, case: &mut Case) {
    to_the_file(opened::coordinates_and_masses, rng, number, case);
}

/// Two records exchanged, a record's cell given to the next one, a bit of a pad set; the last pair as often as any.
fn not_working(rng: &mut Rng, number: usize, case: &mut Case) {
    let Some(last) = case.records.checked_sub(1) else {
        return;
    };
    let [first, second] = match number % 2 {
        0 => [last.saturating_sub(1), last],
        _ => [up_to(rng, last), up_to(rng, last)],
    };
    let at = |record: usize| HEADER + RECORD * record;
    if case.file.len() < case.whole() {
        return;
    }
    match number / 2 % 4 {
        0 => (0..RECORD).for_each(|byte| case.file.swap(at(first) + byte, at(second) + byte)),
        1 => case.file.copy_within(at(first)..at(first) + 6, at(second)),
        _ => case.file[at(second) + 6 + up_to(rng, 1)] ^= 1 << rng.below(8),
    }
}

/// No word; bits of word 0 set; a count past 2^24, or past the words by one entry or by one word; words taken away.
fn journal_words(rng: &mut Rng, number: usize, case: &mut Case) {
    let Some(&e) = case.journal.first() else {
        return;
    };
    let entries = (case.journal.len() - FIRST) / ENTRY;
    let needed = FIRST + ENTRY * (e as usize).min(entries);
    match number % 8 {
        0 => case.journal.clear(),
        1 => case.journal[0] = e | pick(rng, &[1, 2, 3]) << 30,
        2 => case.journal[0] = e | 1 << rng.range(24, 29),
        3 => case.journal[0] = GREATEST_COUNT + rng.below(3) as u32,
        4 => case.journal[0] = (entries + up_to(rng, 2)) as u32,
        5 => case.journal[0] = pick(rng, &[u32::MAX, 0x3fff_ffff, 0x5555_5555, 0x5555_5556]),
        6 => case.journal.truncate(needed - up_to(rng, 1)),
        _ => case.journal.truncate(needed + up_to(rng, 3)),
    }
}

/// A made-up last entry: each kind with a cell that is occupied, empty or outside, bits of the gap, masses not finite.
fn last_entry(rng: &mut Rng, number: usize, case: &mut Case) {
    if case.journal.len() < FIRST + ENTRY {
        return;
    }
    if case.last_entry().is_none() {
        case.journal[0] = 1;
    }
    let Some(start) = case.last_entry() else {
        return;
    };
    let cells = (case.grid as u32).pow(3);
    let random = rng.below(u64::from(cells)) as u32;
    let occupied = match case.file.len() >= case.whole() && case.records > 0 {
        true => number_of_a_record(rng, case),
        false => random,
    };
    let outside = [cells, cells, cells + 1, 0x00ff_ffff].map(|number| number & 0x00ff_ffff);
    let number_there = match number / 4 % 4 {
        0 => pick(rng, &outside),
        1 => random,
        2 => occupied,
        _ => case.journal[start] & 0x00ff_ffff,
    };
    let gap = match one_in(rng, 6) {
        true => 1 << rng.range(24, 29),
        false => 0,
    };
    case.journal[start] = (number as u32 % 4) << 30 | gap | number_there;
    let mut masses = masses(rng);
    if one_in(rng, 4) {
        masses[up_to(rng, 1)] = pick(rng, &NOT_FINITE);
    }
    case.journal[start + 1..start + ENTRY].copy_from_slice(&masses);
    case.calls[0] = Call::Undo;
}

/// The cell number of a record.
fn number_of_a_record(rng: &mut Rng, case: &Case) -> u32 {
    let at = HEADER + RECORD * up_to(rng, case.records - 1);
    let coordinate = |at: usize| u32::from(case.file[at]) + 256 * u32::from(case.file[at + 1]);
    let [x, y, z] = [at, at + 2, at + 4].map(coordinate);
    let g = case.grid as u32;
    z.wrapping_mul(g)
        .wrapping_add(y)
        .wrapping_mul(g)
        .wrapping_add(x)
        & 0x00ff_ffff
}

/// A removal as the last entry, mostly of an empty cell, and a buffer cut down to its file, or not quite; then undo, mostly.
fn cut(rng: &mut Rng, number: usize, case: &mut Case) {
    let spare = pick(rng, &[0, 0, 1, 15, 16, 17]);
    case.resize(rng, case.whole() + spare);
    // Of the ways of `last_entry` those of kind 3: the cell outside, at random, occupied, the one that stands there.
    let way = [3, 7, 7, 7, 7, 11, 15][number % 7];
    last_entry(rng, way, case);
    if one_in(rng, 4) {
        let cells = [[0; 3]];
        case.calls[0] = call(rng, EVEN, &cells, case.grid);
    }
}

/// No room for a record, or no words for an entry, or neither; then any call.
fn full_both(rng: &mut Rng, number: usize, case: &mut Case) {
    if !number.is_multiple_of(4) {
        let spare = pick(rng, &[0, 1, 15, 15, 16]);
        case.resize(rng, case.whole() + spare);
    }
    if number % 4 != 1 {
        let e = case.journal.first().map_or(0, |&e| e as usize);
        let needed = FIRST.saturating_add(ENTRY.saturating_mul(e));
        case.journal.truncate(needed + pick(rng, &[0, 1, 2, 3]));
    }
}

/// Calls whose numbers are refused; on full buffers once in two.
fn argument(rng: &mut Rng, number: usize, case: &mut Case) {
    if one_in(rng, 2) {
        full_both(rng, number, case);
    }
    let last = (case.grid as u64).pow(3) - 1;
    let cells = [rng.below(last + 1), last].map(|cell| wide(cell_of(case.grid as u64, cell)));
    case.calls = calls(rng, MOSTLY_REFUSED, 3, &cells, case.grid);
}

/// Two to four damages together.
fn several(rng: &mut Rng, _: usize, case: &mut Case) {
    for _ in 0..rng.range(2, 4) {
        let number = up_to(rng, 10_000);
        pick(rng, &DAMAGES)(rng, number, case);
    }
}

/// Bytes of the file, words of the journal, or both, with bits flipped or set anew.
fn mutated(rng: &mut Rng, number: usize, case: &mut Case) {
    if !number.is_multiple_of(3) {
        to_the_file(opened::mutated, rng, number, case);
    }
    if number % 3 != 1 {
        for _ in 0..rng.range(1, 3) {
            let at = up_to(rng, case.journal.len() - 1);
            let (near, flipped) = (case.last_entry().unwrap_or(0), 1 << rng.below(32));
            let at = pick(rng, &[0, near, at]);
            let any = word(rng);
            let word = case.journal[at];
            case.journal[at] = pick(rng, &[word ^ flipped, word ^ flipped, any, 0, word ^ 1]);
        }
    }
}
