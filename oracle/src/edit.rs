//! Put, remove and undo: the proved library against the rule and, from an accepted open on, against the plain register.

pub(crate) mod cases;
#[cfg(test)]
pub(crate) mod plain;

use crate::build::{of_cells, Build};
use crate::ffi::{self, Built};
use crate::lent::Lent;
use crate::open::Open;
use crate::original::Verdict;
use crate::register::Register;
use crate::report::Report;
use crate::rule;
use crate::rule::edit::{Call, ENTRY, FIRST, GREATEST_COUNT};
use crate::search::{first, shared, Search};
use cases::{Builds, Case, Damaged, Histories, History, DAMAGED, HISTORIES};
use std::fmt::LowerHex;
use std::iter::repeat_n;

/// An implementation of the three calls.
pub(crate) type Edit = fn(&mut [u8], &mut [u32], &Call) -> u64;

/// The calls that a comparison makes.
#[derive(Clone, Copy)]
struct Library {
    open: Open,
    edit: Edit,
    build: Build,
}

const LIBRARY: Library = Library {
    open: ffi::open,
    edit: library,
    build: ffi::build,
};

/// The seeds of the first kinds; the others follow.
const SEED: u64 = 201;
const DAMAGED_SEED: u64 = 301;

/// A word of scratch, and a byte of a tree's output, before a build.
const WORD: u32 = 0x5a5a_5a5a;
const BYTE: u8 = 0xa5;

/// The library's function for a call.
pub(crate) fn library(file: &mut [u8], journal: &mut [u32], call: &Call) -> u64 {
    match *call {
        Call::Put { cell, masses } => ffi::put(file, journal, cell, masses),
        Call::Remove { cell } => ffi::remove(file, journal, cell),
        Call::Undo => ffi::undo(file, journal),
    }
}

/// Both buffers, and what they shall hold after each call; what a tree needs.
struct Desk {
    file: Lent<u8>,
    journal: Lent<u32>,
    want_file: Vec<u8>,
    want_journal: Vec<u32>,
    scratch: Vec<u32>,
    words: Lent<u32>,
    tree: Lent<u8>,
}

/// What is wrong, and after how many calls.
type Wrong = (usize, String);

impl Desk {
    fn new() -> Self {
        Self {
            file: Lent::new(),
            journal: Lent::new(),
            want_file: Vec::new(),
            want_journal: Vec::new(),
            scratch: Vec::new(),
            words: Lent::new(),
            tree: Lent::new(),
        }
    }

    fn lay(&mut self, junk: u32, file: Vec<u8>, journal: Vec<u32>) {
        let junk = junk as usize;
        self.file.fill(junk % 16, file.iter().copied());
        self.journal.fill(junk / 16 % 4, journal.iter().copied());
        (self.want_file, self.want_journal) = (file, journal);
    }

    /// What differs from the rule in both buffers and round them.
    fn unlike_the_rule(&self) -> Option<String> {
        unlike("file byte", self.file.slice(), &self.want_file)
            .or_else(|| unlike("journal word", self.journal.slice(), &self.want_journal))
            .or_else(|| self.file.broken("file"))
            .or_else(|| self.journal.broken("journal"))
    }

    /// Makes a call: the answer, or what differs from the rule.
    fn call(&mut self, edit: Edit, call: &Call) -> Result<u64, String> {
        let want = rule::edit::edit(&mut self.want_file, &mut self.want_journal, call);
        let got = edit(self.file.slice_mut(), self.journal.slice_mut(), call);
        if got != want {
            return Err(format!("library answers {got}, rule {want}"));
        }
        match self.unlike_the_rule() {
            Some(what) => Err(format!("answer {want}, {what}")),
            None => Ok(got),
        }
    }

    /// Makes the calls of a case and says what differs from the rule, if anything does.
    fn damaged(&mut self, edit: Edit, case: Case) -> Option<Wrong> {
        self.lay(case.junk, case.file, case.journal);
        (1..)
            .zip(&case.calls)
            .find_map(|(step, call)| self.call(edit, call).err().map(|what| (step, what)))
    }

    /// Opens the file of a history: what differs from the rule.
    fn open(&mut self, open: Open, history: &History) -> Option<String> {
        let (file, journal) = history.lent();
        self.lay(history.junk, file, journal);
        let cells = history.grid.pow(3);
        if self.scratch.len() < cells {
            self.scratch.resize(cells, WORD);
        }
        let (file, journal) = (&mut self.want_file, &mut self.want_journal);
        let want = rule::open(&history.file, cells as u64, file, journal);
        let got = open(
            &history.file,
            &mut self.scratch[..cells],
            self.file.slice_mut(),
            self.journal.slice_mut(),
        );
        if got != want || want < 64 {
            return Some(format!("open: library answers {got}, rule {want}"));
        }
        let what = self.unlike_the_rule();
        what.map(|what| format!("open: {what}"))
    }

    /// Opens the file of a history and makes its calls; says what differs from the register or the rule, if anything does.
    fn history(&mut self, library: Library, history: &History) -> Option<Wrong> {
        let opened = self.open(library.open, history);
        let mut register = Register::new(&history.file, history.bytes, history.words);
        let what = opened.or_else(|| self.unlike_the_register(&register));
        if let Some(what) = what {
            return Some((0, what));
        }
        for (step, call) in (1..).zip(&history.calls) {
            let want = register.answer(call);
            let what = match self.call(library.edit, call) {
                Ok(got) if got != want => Some(format!("library answers {got}, register {want}")),
                Ok(_) => self.unlike_the_register(&register),
                Err(what) => Some(what),
            };
            let what = what.or_else(|| match history.builds {
                Builds::AfterEach => self.tree(library.build, &register),
                _ => None,
            });
            if let Some(what) = what {
                return Some((step, what));
            }
        }
        let what = match history.builds {
            Builds::AtTheEnd => self.tree(library.build, &register),
            _ => None,
        };
        what.map(|what| (history.calls.len(), what))
    }

    /// A working file that is not the register's, or a count e that is not the height of its stack.
    fn unlike_the_register(&self, register: &Register) -> Option<String> {
        let (want, lent) = (register.file(), self.file.slice());
        let n = u32::from_le_bytes([12, 13, 14, 15].map(|at| lent[at]));
        let (length, e) = (64 + 16 * n as usize, u64::from(self.journal.slice()[0]));
        if length != want.len() {
            let length = want.len();
            return Some(format!("n is {n}, the register's file has {length} bytes"));
        }
        let what = unlike("byte beside the register", &lent[..length], &want);
        what.or_else(|| {
            let height = register.height();
            (e != height).then(|| format!("e is {e}, the stack's height {height}"))
        })
    }

    /// A tree of the edited file, or a refusal by 22, that is not the register's, in the words that the register's file needs; or no refusal
    /// by 8 in one word less.
    fn tree(&mut self, build: Build, register: &Register) -> Option<String> {
        let (tree, built) = rule::tree::tree(&register.file());
        let before = vec![BYTE; built.answer as usize];
        let words = register.scratch_words() as usize;
        let short = self.unlike_built(build, words - 1, (Built::refused(8), &before));
        short.or_else(|| {
            let want = match &tree {
                Some(tree) => (built, &tree[..]),
                None => (Built::refused(22), &before[..]),
            };
            self.unlike_built(build, words, want)
        })
    }

    /// What a build of the edited file in so many words answers or leaves that is not this, in an output as long as this.
    fn unlike_built(
        &mut self,
        build: Build,
        words: usize,
        (want, want_tree): (Built, &[u8]),
    ) -> Option<String> {
        self.words.fill(0, repeat_n(WORD, words));
        self.tree.fill(0, repeat_n(BYTE, want_tree.len()));
        let (scratch, out) = (self.words.slice_mut(), self.tree.slice_mut());
        let got = build(self.file.slice(), scratch, out);
        if got != want {
            return Some(format!(
                "build answers {got} in {words} words, the register's is {want}"
            ));
        }
        let changed = |&word: &u32| want.answer == 8 && word != WORD;
        let scratched = self.words.slice().iter().any(changed);
        unlike("byte of the tree", self.tree.slice(), want_tree)
            .or_else(|| self.words.broken("scratch"))
            .or_else(|| self.tree.broken("tree"))
            .or_else(|| scratched.then(|| format!("scratch changed, answer {want}")))
    }
}

/// The first place at which two buffers differ; equal ones are told quickly.
fn unlike<T: PartialEq + LowerHex>(what: &str, got: &[T], want: &[T]) -> Option<String> {
    if got == want {
        return None;
    }
    first(what, got, want)
}

/// A call's name and numbers.
fn call_in_words(call: &Call) -> String {
    match call {
        Call::Put {
            cell,
            masses: [cauchy, elliptic],
        } => format!("put {cell:?} {cauchy:#010x} {elliptic:#010x}"),
        Call::Remove { cell } => format!("remove {cell:?}"),
        Call::Undo => "undo".into(),
    }
}

/// The calls up to the one after which something is wrong, the last six of them.
fn calls_in_words(calls: &[Call], step: usize) -> String {
    let start = step.saturating_sub(6);
    let told: Vec<String> = calls[start..step].iter().map(call_in_words).collect();
    let before = if start > 0 { "..., " } else { "" };
    format!("call {step}: {before}{}", told.join(", "))
}

fn told(name: &str, number: u64, sizes: &str, calls: &[Call], (step, what): Wrong) -> String {
    let calls = calls_in_words(calls, step);
    format!("{name}, case {number}: {sizes}, {calls}: {what}")
}

/// Makes the calls of a case and notes what it finds.
fn visit(search: &mut Search, desk: &mut Desk, edit: Edit, name: &str, number: u64, case: Case) {
    let calls = case.calls.clone();
    let (bytes, words) = (case.file.len(), case.journal.len());
    let (grid, records) = (case.grid, case.records);
    let wrong = desk.damaged(edit, case);
    let size = bytes + 4 * words + 24 * wrong.as_ref().map_or(0, |(step, _)| *step);
    let sizes = format!("g {grid}, {records} records, file {bytes}, journal {words}");
    let wrong = wrong.map(|wrong| told(name, number, &sizes, &calls, wrong));
    search.note(size, number, Verdict::by_rule(wrong));
}

/// Compares the histories of a kind, the work shared out by their numbers.
fn compare(library: Library, seed: u64, kind: &Histories, cases: u64) -> Search {
    shared(cases, Desk::new, |search, desk, number| {
        let history = kind.history(seed, number);
        let wrong = desk.history(library, &history);
        let steps = wrong.as_ref().map_or(0, |(step, _)| *step);
        let (file, bytes, words) = (history.file.len(), history.bytes, history.words);
        let size = file + bytes + 4 * words + 24 * steps;
        let grid = history.grid;
        let sizes = format!("g {grid}, opened {file}, file {bytes}, journal {words}");
        let wrong = wrong.map(|wrong| told(kind.name, number, &sizes, &history.calls, wrong));
        search.note(size, number, Verdict::by_rule(wrong));
    })
}

/// The same for cases with damage.
fn compare_damaged(edit: Edit, seed: u64, kind: &Damaged, cases: u64) -> Search {
    shared(cases, Desk::new, |search, desk, number| {
        let case = kind.case(seed, number);
        visit(search, desk, edit, kind.name, number, case);
    })
}

fn put(cell: [u32; 3], masses: [f32; 2]) -> Call {
    Call::Put {
        cell,
        masses: masses.map(f32::to_bits),
    }
}

/// A file in working form with spare bytes, its journal and calls.
fn case(file: Vec<u8>, spare: usize, journal: Vec<u32>, calls: Vec<Call>) -> Case {
    let (grid, records) = (rule::grid(&file) as usize, (file.len() - 64) / 16);
    let mut file = file;
    file.resize(file.len() + spare, 0xa5);
    Case {
        file,
        journal,
        calls,
        junk: 1,
        grid,
        records,
    }
}

/// The starred model of 01: put, remove, and both undone.
fn model() -> Case {
    let calls = vec![
        put([0; 3], [3.0, 4.0]),
        Call::Remove { cell: [1, 0, 0] },
        put([1, 1, 1], [1.0, 2.0]),
        Call::Undo,
        Call::Undo,
        Call::Undo,
    ];
    case(of_cells(2, 1..2), 16, vec![0; 7], calls)
}

/// The last cell of g 256, whose number is all ones, put, put over, removed; all undone.
fn last_cell() -> Case {
    let last = [255; 3];
    let calls = vec![
        put(last, [1.0, 2.0]),
        put(last, [3.0, 4.0]),
        Call::Remove { cell: last },
        put([256, 255, 255], [1.0; 2]),
        put([65_536, 0, 0], [1.0; 2]),
        Call::Undo,
        Call::Undo,
        Call::Undo,
    ];
    case(of_cells(256, 0..0), 16, vec![0; 10], calls)
}

/// Every 70th cell of g 192, edited at both ends and between.
fn many_records() -> Case {
    let cell = |number: u64| rule::cell_of(192, number).map(u32::from);
    let calls = vec![
        put(cell(0), [1.0; 2]),
        Call::Remove { cell: cell(69) },
        put(cell(192 * 192 * 192 - 1), [2.0; 2]),
        put(cell(70 * 50_000), [3.0; 2]),
        Call::Remove {
            cell: cell(70 * 50_000 + 69),
        },
        Call::Undo,
        Call::Undo,
        Call::Undo,
        Call::Undo,
        Call::Undo,
    ];
    let records = (0..192 * 192 * 192).filter(|number| number % 70 == 69);
    case(of_cells(192, records), 40, vec![7; 0x40], calls)
}

/// A journal with `e` entries and words for `entries`, the last entry a put into cell 0 of g 2, where its record stands.
fn full_of_entries(e: u32, entries: u32, calls: Vec<Call>) -> Case {
    let mut journal = vec![0; FIRST + ENTRY * entries as usize];
    journal[0] = e;
    journal[FIRST + ENTRY * (e as usize - 1)] = 0x4000_0000;
    case(of_cells(2, 0..1), 16, journal, calls)
}

/// The calls round the greatest count: none is taken on top of it, one is once it is undone.
fn at_the_greatest_count() -> Vec<Call> {
    vec![
        put([0; 3], [1.0; 2]),
        Call::Remove { cell: [0; 3] },
        Call::Undo,
        Call::Remove { cell: [0; 3] },
        put([1, 0, 0], [1.0; 2]),
        put([1, 0, 0], [2.0; 2]),
    ]
}

/// g 2 with these cells occupied, 15 bytes to spare, and calls of which each has a later cause too.
fn with_later_causes(cells: [u64; 2], journal: &[u32]) -> Case {
    let (outside, empty, occupied) = ([0, 65_536, 2], [0, 1, 0], [1, 0, 0]);
    let calls = vec![
        put(outside, [f32::NAN, 0.0]),
        put(empty, [0.0, f32::INFINITY]),
        put(empty, [0.0; 2]),
        Call::Remove { cell: outside },
        Call::Remove { cell: empty },
        Call::Remove { cell: occupied },
        Call::Undo,
    ];
    let file = of_cells(2, cells.into_iter());
    case(file, 15, journal.to_vec(), calls)
}

/// Last entries over g 2 with cells 1 and 5 occupied and 15 bytes to spare, and what undo answers.
const LAST_ENTRIES: [([u32; 3], u64); 20] = [
    ([0x0000_0001, 0, 0], 16),
    ([0x0000_0002, 0, 0], 16),
    ([0x4100_0001, 0, 0], 16),
    ([0xa000_0001, 0, 0], 16),
    ([0xc800_0002, 0, 0], 16),
    ([0x4000_0008, 0, 0], 16),
    ([0x8000_0008, 0, 0], 16),
    ([0xc000_0008, 0, 0], 16),
    ([0xc0ff_ffff, 0, 0], 16),
    ([0x4000_0002, 0, 0], 16),
    ([0x8000_0002, 0, 0], 16),
    ([0xc000_0005, 0, 0], 16),
    ([0x8000_0005, 0x7f80_0000, 0], 16),
    ([0x8000_0005, 0, 0xffff_ffff], 16),
    ([0xc000_0002, 0xff80_0000, 0], 16),
    ([0xc000_0002, 0, 0x7f80_0001], 16),
    ([0xc000_0002, 0, 0], 14),
    ([0x4000_0005, 0x7f80_0000, 0xffff_ffff], 80),
    ([0x4000_0001, 0, 0], 80),
    ([0x8000_0005, 0x7f7f_ffff, 0x8000_0001], 96),
];

/// Undo on an entry of those, in a journal with words to spare.
fn undo_of(entry: [u32; 3]) -> Case {
    let [head, cauchy, elliptic] = entry;
    let records = [1, 5].into_iter();
    let journal = vec![1, head, cauchy, elliptic, 7, 8];
    case(of_cells(2, records), 15, journal, vec![Call::Undo])
}

/// A case by its name, and the answers that 01 or arithmetic gives.
pub(crate) struct Fixed {
    name: &'static str,
    pub(crate) case: Box<dyn Fn() -> Case>,
    answers: Vec<u64>,
}

fn fixed(name: &'static str, answers: &[u64], case: impl Fn() -> Case + 'static) -> Fixed {
    Fixed {
        name,
        case: Box::new(case),
        answers: answers.to_vec(),
    }
}

/// The fixed cases that need little room.
pub(crate) fn small_fixed() -> Vec<Fixed> {
    let entries = LAST_ENTRIES
        .iter()
        .map(|&(entry, answer)| fixed("a last entry", &[answer], move || undo_of(entry)));
    let mut all = vec![
        fixed("the model", &[96, 80, 13, 96, 80, 15], model),
        fixed(
            "the last cell of g 256",
            &[80, 80, 64, 6, 6, 80, 80, 64],
            last_cell,
        ),
        fixed("10 first", &[10; 7], || with_later_causes([5, 1], &[])),
        fixed("11 first", &[11; 7], || {
            with_later_causes([1, 5], &[1, 0, 0])
        }),
        fixed("no entry, no room", &[6, 7, 13, 6, 12, 13, 15], || {
            with_later_causes([1, 5], &[0, 0, 0])
        }),
        fixed("no room", &[6, 7, 14, 6, 12, 80, 96], || {
            with_later_causes([1, 5], &[0, 0, 0, 0])
        }),
    ];
    all.extend(entries);
    all
}

/// The fixed cases that are not stored: most need much, a journal of 2^24 entries has 200 million bytes.
fn other_fixed() -> Vec<Fixed> {
    let at_the_end = [13, 13, 64, 12, 80, 13];
    let entries = |e: u32, room: u32| move || full_of_entries(e, room, at_the_greatest_count());
    let most = GREATEST_COUNT;
    let after = [1, 0, 1, 2, 1, 2, 1, 0, 1, 0].map(|more| 64 + 16 * (101_112 + more));
    vec![
        fixed("a cell twice", &[10; 7], || with_later_causes([5, 5], &[])),
        fixed("101,112 records", &after, many_records),
        fixed("2^24 entries", &at_the_end, entries(most, most)),
        fixed("room for more", &at_the_end, entries(most, most + 1)),
        fixed("2^24 + 1 entries", &[11; 6], entries(most + 1, most + 2)),
    ]
}

/// The fixed cases; answers that are known are asked of the rule too.
fn compare_fixed(edit: Edit) -> Search {
    let mut search = Search::default();
    let all = small_fixed().into_iter().chain(other_fixed());
    for (number, fixed) in (0..).zip(all) {
        let (name, case) = (fixed.name, (fixed.case)());
        visit(&mut search, &mut Desk::new(), edit, name, number, case);
        if let Some(what) = unlike_known(&fixed) {
            search.note_first(number, format!("{name}: {what}"));
        }
    }
    search
}

/// Answers of the rule that are not the known ones.
fn unlike_known(fixed: &Fixed) -> Option<String> {
    let mut case = (fixed.case)();
    let answer = |call| rule::edit::edit(&mut case.file, &mut case.journal, call);
    let answers: Vec<u64> = case.calls.iter().map(answer).collect();
    (answers != fixed.answers).then(|| format!("rule answers {answers:?}"))
}

pub(crate) fn check(report: &mut Report) {
    for (seed, kind) in (SEED..).zip(&HISTORIES) {
        report.run(&format!("edit: {}", kind.name), || {
            compare(LIBRARY, seed, kind, kind.cases).found()
        });
    }
    for (seed, kind) in (DAMAGED_SEED..).zip(&DAMAGED) {
        report.run(&format!("edit: {}", kind.name), || {
            compare_damaged(library, seed, kind, kind.cases).found()
        });
    }
    report.run("edit: fixed cases", || compare_fixed(library).found());
}

#[cfg(test)]
mod tests {
    use super::plain::{plain_edit, Fault, FAULTS};
    use super::*;
    use crate::build::plain::{LARGE, SHORT};
    use std::collections::{BTreeMap, BTreeSet};

    /// Cases of each kind that a test looks at.
    const FEW: u64 = 2000;

    fn history_kind(name: &str) -> (u64, &'static Histories) {
        let mut kinds = (SEED..).zip(&HISTORIES);
        let kind = kinds.find(|(_, kind)| kind.name == name);
        kind.expect("a kind of this name")
    }

    fn damaged_kind(name: &str) -> (u64, &'static Damaged) {
        let mut kinds = (DAMAGED_SEED..).zip(&DAMAGED);
        let kind = kinds.find(|(_, kind)| kind.name == name);
        kind.expect("a kind of this name")
    }

    fn with(edit: Edit) -> Library {
        Library { edit, ..LIBRARY }
    }

    /// Mismatches on the first cases of a kind, histories or damage.
    fn mismatches(edit: Edit, name: &str) -> u64 {
        if name == "fixed cases" {
            return compare_fixed(edit).mismatches;
        }
        if HISTORIES.iter().any(|kind| kind.name == name) {
            let (seed, kind) = history_kind(name);
            return compare(with(edit), seed, kind, FEW.min(kind.cases / 10)).mismatches;
        }
        let (seed, kind) = damaged_kind(name);
        compare_damaged(edit, seed, kind, FEW).mismatches
    }

    /// How often each answer is given, accepted ones told as 64.
    type Answers = BTreeMap<u64, u64>;

    /// The register's answers in the histories of a kind.
    fn answers(name: &str) -> Answers {
        let (seed, kind) = history_kind(name);
        let mut seen = BTreeMap::new();
        for number in 0..FEW.min(kind.cases) {
            let history = kind.history(seed, number);
            let mut register = Register::new(&history.file, history.bytes, history.words);
            for call in &history.calls {
                *seen.entry(register.answer(call).min(64)).or_default() += 1;
            }
        }
        seen
    }

    /// The rule's answers to puts, removes and undos in the cases of a kind.
    fn damaged_answers(name: &str) -> [Answers; 3] {
        let (seed, kind) = damaged_kind(name);
        let mut seen = [const { BTreeMap::new() }; 3];
        for number in 0..FEW {
            let mut case = kind.case(seed, number);
            for call in &case.calls {
                let answer = rule::edit::edit(&mut case.file, &mut case.journal, call);
                let which = match call {
                    Call::Put { .. } => 0,
                    Call::Remove { .. } => 1,
                    Call::Undo => 2,
                };
                *seen[which].entry(answer.min(64)).or_default() += 1;
            }
        }
        seen
    }

    /// Histories meet what no damage is needed for, and nothing else.
    #[test]
    fn histories_are_what_they_say() {
        for kind in &HISTORIES {
            let seen = answers(kind.name);
            assert!(
                seen.keys()
                    .all(|answer| [6, 7, 12, 13, 14, 15, 64].contains(answer)),
                "{}: {seen:?}",
                kind.name
            );
        }
        let often = |name: &str, wanted: &[u64]| {
            let seen = answers(name);
            let met = |answer: &u64| seen.get(answer).is_some_and(|&calls| calls > 50);
            assert!(wanted.iter().all(met), "{name}: {seen:?}");
        };
        let all = [6, 7, 12, 13, 14, 15, 64];
        often("short histories", &all);
        often("middling histories", &all);
        often("long histories", &all);
        often("full buffers", &[12, 14, 64]);
        often("full journals", &[12, 13, 64]);
        often("refused calls", &[6, 7, 12, 15, 64]);
        often("there and back", &[12, 13, 14, 15, 64]);
        often("large grids", &[6, 12, 15, 64]);
        often("over the edge", &[12, 15, 64]);
    }

    /// Puts take a tree over the edge, removes and undos bring it back, and some that are over it go on.
    #[test]
    fn trees_go_over_the_edge_and_back() {
        let (seed, kind) = history_kind("over the edge");
        let mut seen = BTreeMap::new();
        for number in 0..500 {
            let history = kind.history(seed, number);
            assert!(history.builds == Builds::AfterEach);
            let mut register = Register::new(&history.file, history.bytes, history.words);
            let is_large = |register: &Register| rule::tree::tree(&register.file()).0.is_none();
            let mut before = is_large(&register);
            for call in &history.calls {
                register.answer(call);
                let after = is_large(&register);
                let name = match call {
                    Call::Put { .. } => "put",
                    Call::Remove { .. } => "remove",
                    Call::Undo => "undo",
                };
                *seen.entry((name, before, after)).or_default() += 1;
                before = after;
            }
        }
        let met = |name, before, after| seen.get(&(name, before, after)).copied().unwrap_or(0);
        for name in ["put", "remove", "undo"] {
            for (before, after) in [(false, true), (true, false), (true, true), (false, false)] {
                let met: u64 = met(name, before, after);
                assert!(met > 30, "{name} {before} {after}: {seen:?}");
            }
        }
    }

    /// Each kind of damage meets the causes that it is for, in each of the calls that have them.
    #[test]
    fn damages_are_what_they_say() {
        let often = |name: &str, wanted: [&[u64]; 3]| {
            let seen = damaged_answers(name);
            for (seen, wanted) in seen.iter().zip(wanted) {
                let met = |answer: &u64| seen.get(answer).is_some_and(|&calls| calls > 10);
                assert!(wanted.iter().all(met), "{name}: {seen:?}, not {wanted:?}");
            }
        };
        let every = |name: &str, wanted: &[u64]| often(name, [wanted; 3]);
        every("header floats", &[5, 64]);
        every("header words", &[2, 3, 4, 6, 64]);
        every("file lengths", &[1, 4, 64]);
        every("coordinates", &[6, 10, 64]);
        every("masses", &[7, 64]);
        every("6 and 7 together", &[6, 7]);
        every("not in working form", &[10, 64]);
        every("journal words", &[11, 64]);
        often("last entries", [&[64], &[64], &[14, 16, 64]]);
        often("cut buffers", [&[14], &[12], &[14, 15, 16, 64]]);
        often("full both", [&[13, 14, 64], &[12, 13, 64], &[15, 64]]);
        often(
            "arguments",
            [&[6, 7, 13, 14, 64], &[6, 12, 13, 64], &[15, 64]],
        );
        let all = [1, 2, 3, 4, 5, 6, 7, 10, 11];
        every("several causes", &all);
        often("several causes", [&[13, 14], &[12, 13], &[14, 15, 16]]);
        often(
            "mutated bytes",
            [&[2, 10, 11, 64], &[2, 10, 11, 64], &[2, 10, 11, 16, 64]],
        );
    }

    /// What the last entry is when undo judges it, by kind: each way to be refused, each kind undone.
    #[test]
    fn last_entries_are_met_each_way() {
        let (seed, kind) = damaged_kind("last entries");
        let mut seen: BTreeMap<(u32, &str, u64), u64> = BTreeMap::new();
        for number in 0..10_000 {
            let mut case = kind.case(seed, number);
            let e = case.journal[0] as usize;
            let [head, a, b] = [0, 1, 2].map(|at| case.journal[3 * e - 2 + at]);
            let endless = [a, b].iter().any(|mass| mass & 0x7f80_0000 == 0x7f80_0000);
            let outside = (head & 0x00ff_ffff) as usize >= case.grid.pow(3);
            let number = u64::from(head & 0x00ff_ffff);
            let mut cells = rule::cells(&case.file).into_iter();
            let occupied = cells.any(|(cell, _)| cell == number);
            let way = match (head & 0x3f00_0000 != 0, outside, endless, occupied) {
                (false, false, false, true) => "occupied",
                (false, false, false, false) => "empty",
                (true, false, false, _) => "gap",
                (false, true, false, _) => "outside",
                (false, false, true, _) => "endless",
                _ => "several",
            };
            let answer = rule::edit::edit(&mut case.file, &mut case.journal, &Call::Undo);
            *seen.entry((head >> 30, way, answer.min(64))).or_default() += 1;
        }
        for kind in 0..4 {
            for way in ["gap", "outside"] {
                assert!(seen[&(kind, way, 16)] > 10, "{seen:?}");
                assert!(!seen.contains_key(&(kind, way, 64)), "{seen:?}");
            }
        }
        let met = |entry: (u32, &'static str, u64)| seen.get(&entry).is_some_and(|&met| met > 10);
        assert!(met((0, "occupied", 16)) && met((0, "empty", 16)));
        assert!(met((1, "occupied", 64)) && met((1, "empty", 16)) && met((1, "endless", 64)));
        assert!(met((2, "occupied", 64)) && met((2, "empty", 16)) && met((2, "endless", 16)));
        assert!(met((3, "occupied", 16)) && met((3, "empty", 64)) && met((3, "endless", 16)));
        assert!(met((3, "empty", 14)), "{seen:?}");
    }

    /// Lengths 0 to 200, all grid sizes asked for; no file names a cell twice, some are not in cell order.
    #[test]
    fn histories_are_of_every_size() {
        let of = |name: &str| {
            let (seed, kind) = history_kind(name);
            (0..kind.cases.min(FEW)).map(move |number| kind.history(seed, number))
        };
        let lengths = |name: &str| {
            let lengths = of(name).map(|history| history.calls.len());
            lengths.collect::<BTreeSet<usize>>()
        };
        assert!(lengths("short histories").into_iter().eq(0..9));
        assert!(lengths("middling histories").into_iter().eq(9..41));
        let long = lengths("long histories");
        assert!(long.contains(&200) && long.len() > 140, "{long:?}");
        let grids: BTreeSet<usize> = of("large grids").map(|history| history.grid).collect();
        assert!([64, 192, 256].iter().all(|grid| grids.contains(grid)));
        let grids: BTreeSet<usize> = of("short histories").map(|history| history.grid).collect();
        assert!(grids.into_iter().eq(1..13));
        let twice = |name: &str| of(name).any(|history| rule::names_one_twice(&history.file));
        assert!(!HISTORIES.iter().any(|kind| twice(kind.name)));
        let unsorted = |history: &History| !rule::working(&history.file);
        assert!(of("short histories").filter(unsorted).count() > 300);
        assert!(of("over the edge").all(|history| history.calls.len() > 24));
        let total: u64 = HISTORIES.iter().map(|kind| kind.cases).sum();
        assert!(total >= 120_000);
    }

    /// A second implementation agrees with the rule and the register.
    #[test]
    fn plain_edit_agrees() {
        let plain: Edit = |file, journal, call| plain_edit(Fault::None, file, journal, call);
        let names = HISTORIES.iter().map(|kind| kind.name);
        for name in names.chain(DAMAGED.iter().map(|kind| kind.name)) {
            assert_eq!(mismatches(plain, name), 0, "{name}");
        }
        assert_eq!(compare_fixed(plain).mismatches, 0);
    }

    /// Made-up faults are found, and where they should be.
    #[test]
    fn faults_are_found() {
        for &(fault, faulty, name) in FAULTS {
            assert!(mismatches(faulty, name) > 0, "{fault:?} in {name}");
        }
    }

    /// What histories can't meet is found in damage alone, and the greatest count in the fixed cases alone.
    #[test]
    fn faults_are_not_found_elsewhere() {
        let faulty = |wanted: Fault| {
            let fault = FAULTS.iter().find(|(fault, _, _)| *fault == wanted);
            fault.expect("a fault of this name").1
        };
        let histories = |fault| {
            let names = HISTORIES.iter().map(|kind| kind.name);
            let found = names.filter(|name| mismatches(faulty(fault), name) > 0);
            found.count()
        };
        for fault in [
            Fault::AtCellsAllowed,
            Fault::GapNotJudged,
            Fault::MassesNotJudged,
            Fault::StateNotJudged,
            Fault::TopBitsNotJudged,
            Fault::NoRoomIs16,
            Fault::FormNotJudged,
            Fault::OneEntryFewer,
            Fault::OneEntryMore,
        ] {
            assert_eq!(histories(fault), 0, "{fault:?}");
        }
        let fewer = faulty(Fault::OneEntryFewer);
        assert_eq!(mismatches(fewer, "journal words"), 0);
        assert_eq!(compare_fixed(fewer).mismatches, 2);
    }

    /// Faults of open and of build are found from the register's side.
    #[test]
    fn faults_beside_the_edits_are_found() {
        let journal_kept: Open = |file, scratch, out, journal| {
            let word = journal[0];
            let answer = ffi::open(file, scratch, out, journal);
            journal[0] = word;
            answer
        };
        let one_root: Build = |file, scratch, out| {
            let mut none = file.to_vec();
            none[12..16].fill(0);
            ffi::build(&none, scratch, out)
        };
        let built = |build: Build| Library { build, ..LIBRARY };
        let (seed, kind) = history_kind("short histories");
        for library in [
            Library {
                open: journal_kept,
                ..LIBRARY
            },
            built(one_root),
        ] {
            assert!(compare(library, seed, kind, FEW).mismatches > 10);
        }
        let (seed, kind) = history_kind("over the edge");
        for large in LARGE.into_iter().chain(SHORT) {
            assert!(compare(built(large), seed, kind, 200).mismatches > 10);
        }
    }

    /// A register unlike the library is told, though the rule agrees with the library.
    #[test]
    fn the_register_is_asked() {
        let (seed, kind) = history_kind("there and back");
        let history = kind.history(seed, 3);
        let mut desk = Desk::new();
        assert_eq!(desk.history(LIBRARY, &history), None);
        let mut register = Register::new(&history.file, history.bytes, history.words);
        for call in &history.calls {
            register.answer(call);
        }
        assert_eq!(desk.unlike_the_register(&register), None);
        desk.journal.slice_mut()[0] ^= 1;
        let what = desk.unlike_the_register(&register).expect("another e");
        assert!(what.contains("the stack's height"), "{what}");
        desk.journal.slice_mut()[0] ^= 1;
        desk.file.slice_mut()[28] ^= 1;
        let what = desk.unlike_the_register(&register).expect("another byte");
        assert!(what.starts_with("byte beside the register 28 is"), "{what}");
        desk.file.slice_mut()[12] ^= 1;
        let what = desk.unlike_the_register(&register).expect("another n");
        assert!(what.starts_with("n is "), "{what}");
    }

    #[test]
    fn the_smallest_is_told() {
        let wrong: Edit = |_, _, _| 5;
        let (seed, kind) = history_kind("short histories");
        let what = compare(with(wrong), seed, kind, 900).found();
        assert_eq!((what.cases.all(), what.mismatches), (900, 800));
        let what = what.smallest.expect("a mismatch");
        assert!(what.contains(", opened 80, file 80, journal 1, "), "{what}");
        assert!(what.contains("call 1: "), "{what}");
        assert!(what.contains("library answers 5, rule "), "{what}");
        let calls = [Call::Undo; 9];
        let told = calls_in_words(&calls, 8);
        assert_eq!(told, "call 8: ..., undo, undo, undo, undo, undo, undo");
    }
}
