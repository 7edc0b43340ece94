//! Opening a point file, and folding one: the proved library against the rule.

pub(crate) mod cases;
#[cfg(test)]
pub(crate) mod plain;

use crate::build::of_cells;
use crate::ffi;
use crate::lent::{mixed, Buffers, Lent};
use crate::points::{point_file, record, Header};
use crate::report::Report;
use crate::rng::Rng;
use crate::rule;
use crate::search::{self, first, Fixed};
use cases::{Case, KINDS};

/// An implementation of open.
pub(crate) type Open = fn(&[u8], &mut [u32], &mut [u8], &mut [u32]) -> u64;

/// An implementation of fold.
pub(crate) type Fold = fn(&[u8], &mut [u32], &mut [u8]) -> u64;

/// One of the calls that write a working form; fold is lent no journal.
#[derive(Clone, Copy)]
enum Call {
    Open(Open),
    Fold(Fold),
}

/// The seeds of the first kind, of open and of fold; the others follow.
const SEED: u64 = 1;
const FOLD_SEED: u64 = 51;

/// One call's buffers, the answer that it shall give, and what they shall hold afterwards.
struct Desk {
    lent: Buffers,
    journal: Lent<u32>,
    want: u64,
    want_out: Vec<u8>,
    want_journal: Vec<u32>,
    reopened: Vec<u8>,
}

/// A word of scratch before the call: anything, all zeros, all ones, or numbers that could be a record's.
pub(crate) fn scratch_word(junk: u32, at: usize) -> u32 {
    match junk & 3 {
        0 => 0,
        1 => u32::MAX,
        2 => mixed(junk, at) & 7,
        _ => mixed(junk, at),
    }
}

pub(crate) fn out_byte(junk: u32, at: usize) -> u8 {
    (mixed(!junk, at) >> 24) as u8
}

pub(crate) fn journal_word(junk: u32, at: usize) -> u32 {
    mixed(junk, at + 7)
}

/// Lays out what open, fold and build are all lent in a case; `want_out` takes the output as it is before the call.
pub(crate) fn lay(case: &Case, lent: &mut Buffers, want_out: &mut Vec<u8>) {
    lent.file
        .fill(case.junk as usize % 16, case.file.iter().copied());
    lay_words(case, case.scratch, lent);
    want_out.clear();
    want_out.extend_from_slice(lent.out.slice());
}

/// Lays out so many words of scratch, and the output of a case, as they are before the call.
pub(crate) fn lay_words(case: &Case, words: usize, lent: &mut Buffers) {
    let (junk, shift) = (case.junk, case.junk as usize % 16);
    lent.scratch
        .fill(0, (0..words).map(|at| scratch_word(junk, at)));
    lent.out
        .fill(shift / 2, (0..case.out).map(|at| out_byte(junk, at)));
}

/// What differs after a call of this answer in what open, fold and build are all lent, and round it.
pub(crate) fn unlike(case: &Case, lent: &Buffers, answer: u64, want_out: &[u8]) -> Option<String> {
    let before = |at| scratch_word(case.junk, at);
    first("output byte", lent.out.slice(), want_out)
        .or_else(|| first("byte of the file lent", lent.file.slice(), &case.file))
        .or_else(|| lent.broken())
        .or_else(|| lent.scratched(answer, before))
}

impl Call {
    /// The rule's answer; changes what the buffers shall hold.
    fn by_rule(self, case: &Case, out: &mut [u8], journal: &mut [u32]) -> u64 {
        let scratch = case.scratch as u64;
        match self {
            Self::Open(_) => rule::open(&case.file, scratch, out, journal),
            Self::Fold(_) => rule::fold(&case.file, scratch, out),
        }
    }

    fn made(self, lent: &mut Buffers, journal: &mut Lent<u32>) -> u64 {
        let (file, out) = (lent.file.slice(), lent.out.slice_mut());
        let scratch = lent.scratch.slice_mut();
        match self {
            Self::Open(open) => open(file, scratch, out, journal.slice_mut()),
            Self::Fold(fold) => fold(file, scratch, out),
        }
    }
}

impl Desk {
    fn lay(&mut self, case: &Case) {
        lay(case, &mut self.lent, &mut self.want_out);
        self.journal
            .fill(0, (0..case.journal).map(|at| journal_word(case.junk, at)));
        self.want_journal.clear();
        self.want_journal.extend_from_slice(self.journal.slice());
    }

    /// What was written, where it is not good or not in working form.
    fn unfit(&self, answer: u64) -> Option<String> {
        let written = self.lent.out.slice().get(..answer as usize)?;
        let fit = answer < 64 || rule::judge(written).is_none() && rule::working(written);
        (!fit).then(|| "what was written is not in working form".into())
    }

    /// What fold wrote, where the library does not open it, or to something else.
    fn not_reopened(&mut self, call: Call, answer: u64) -> Option<String> {
        if matches!(call, Call::Open(_)) || answer < 64 {
            return None;
        }
        let folded = &self.lent.out.slice()[..answer as usize];
        self.reopened.clear();
        self.reopened.resize(folded.len(), 0xa5);
        let scratch = self.lent.scratch.slice_mut();
        let opened = ffi::open(folded, scratch, &mut self.reopened, &mut [7]);
        let same = opened == answer && self.reopened == folded;
        (!same).then(|| format!("opened again: {opened}, or other bytes"))
    }
}

impl search::Desk for Desk {
    type Case = Case;
    type Call = Call;
    type Answer = u64;

    fn new() -> Self {
        Self {
            lent: Buffers::new(),
            journal: Lent::new(),
            want: 0,
            want_out: Vec::new(),
            want_journal: Vec::new(),
            reopened: Vec::new(),
        }
    }

    fn differs(&mut self, call: Call, case: &Case) -> Option<String> {
        self.lay(case);
        let want = call.by_rule(case, &mut self.want_out, &mut self.want_journal);
        self.want = want;
        let got = call.made(&mut self.lent, &mut self.journal);
        if got != want {
            return Some(format!("library answers {got}, rule {want}"));
        }
        unlike(case, &self.lent, want, &self.want_out)
            .or_else(|| first("journal word", self.journal.slice(), &self.want_journal))
            .or_else(|| self.journal.broken("journal"))
            .or_else(|| self.unfit(want))
            .or_else(|| self.not_reopened(call, want))
            .map(|what| format!("answer {want}, {what}"))
    }

    fn want(&self) -> u64 {
        self.want
    }

    fn size(case: &Case) -> usize {
        case.size() + 4 * case.journal
    }

    fn described(case: &Case) -> String {
        format!("{}, journal {}", case.described(), case.journal)
    }
}

/// A case by its name, with the answers of open and of fold, where 01 or arithmetic gives them.
type Both = (&'static str, Case, [Option<u64>; 2]);

/// The file over these cells, with just enough room for all of its records.
fn of(g: u32, numbers: impl Iterator<Item = u64>) -> Case {
    let file = of_cells(g, numbers);
    let records = (file.len() - 64) / 16;
    Case::of(file, g as usize, records)
}

/// 100,000 records at g 192 in no order, some cells more than once.
fn many_records() -> Case {
    let mut rng = Rng::new(192);
    of(192, (0..100_000).map(|_| rng.below(192 * 192 * 192)))
}

/// 100,000 records at g 192 in no order, each cell once: the factor has no divisor in common with the number of cells.
fn many_cells() -> Case {
    of(
        192,
        (0..100_000).map(|number| number * 1_000_003 % (192 * 192 * 192)),
    )
}

/// Cell 1 of g 2 twice, with so many words of scratch, bytes of output and words of journal.
fn twice(scratch: usize, out: usize, journal: usize) -> Case {
    Case {
        scratch,
        out,
        journal,
        ..of(2, [1, 1].into_iter())
    }
}

fn fixed() -> Vec<Both> {
    let outside = point_file(Header::cube(192, 1.0), &[record([192, 5, 0], 1)]);
    let short = Case {
        scratch: (1 << 24) - 1,
        ..of(256, 0..0)
    };
    let said = |name, case, [open, fold]: [u64; 2]| (name, case, [Some(open), Some(fold)]);
    let far = |g: u32| of(g, [0, 65_536].into_iter());
    vec![
        said("(192, 5, 0)", Case::of(outside, 192, 1), [6; 2]),
        said("g 257", of(257, 0..0), [3; 2]),
        said("g 256", of(256, 0..0), [64; 2]),
        said("a word short at g 256", short, [8; 2]),
        said("a cell twice", twice(8, 96, 1), [21, 80]),
        said("a cell twice, 80 bytes", twice(8, 80, 1), [21, 80]),
        said("a cell twice, 79 bytes", twice(8, 79, 1), [21, 9]),
        said("a cell twice, no journal word", twice(8, 96, 0), [21, 80]),
        said("a cell twice, no room at all", twice(8, 0, 0), [21, 9]),
        said("a cell twice, a word short", twice(7, 96, 1), [8; 2]),
        said("a cell twice, no scratch", twice(0, 79, 0), [8; 2]),
        said("g 1, two records", of(1, [0, 0].into_iter()), [21, 80]),
        said("g 64, cells 0 and 65,536", far(64), [96; 2]),
        said("g 256, cells 0 and 65,536", far(256), [96; 2]),
        said("g 3, all, descending", of(3, (0..27).rev()), [496; 2]),
        said("100,000 cells", many_cells(), [64 + 1_600_000; 2]),
        ("100,000 records", many_records(), [Some(21), None]),
    ]
}

/// The fixed cases with the answers to this call.
fn fixed_of(call: Call) -> impl Iterator<Item = Fixed<Desk>> {
    let cases = fixed().into_iter();
    cases.map(move |(name, case, [open, fold])| match call {
        Call::Open(_) => (name, case, open),
        Call::Fold(_) => (name, case, fold),
    })
}

pub(crate) fn check(report: &mut Report) {
    const OPEN: Call = Call::Open(ffi::open);
    search::check::<Desk, _>(report, "open", OPEN, (SEED, &KINDS), || fixed_of(OPEN));
}

pub(crate) fn check_fold(report: &mut Report) {
    const FOLD: Call = Call::Fold(ffi::fold);
    search::check::<Desk, _>(report, "fold", FOLD, (FOLD_SEED, &KINDS), || fixed_of(FOLD));
}

#[cfg(test)]
mod tests {
    use super::plain::{plain_fold, Fault, FOLDS, OPENS};
    use super::*;
    use crate::bench::plain_open;
    use crate::search::{compare, compare_fixed, named, tally};
    use cases::{Kind, DAMAGE_ANSWERS};
    use std::collections::BTreeMap;

    /// Cases of each kind that a test looks at.
    const FEW: u64 = 4000;

    /// Mismatches on the first cases of a kind.
    fn of_kind(call: Call, seed: u64, kind: &Kind) -> u64 {
        let cases = if kind.cases < FEW { 100 } else { FEW };
        compare::<Desk>(call, seed, kind, cases).mismatches
    }

    fn mismatches(call: Call) -> BTreeMap<&'static str, u64> {
        let all = (SEED..).zip(&KINDS);
        let all = all.map(|(seed, kind)| (kind.name, of_kind(call, seed, kind)));
        all.filter(|(_, mismatches)| *mismatches > 0).collect()
    }

    /// The same of a kind by its name, or of the fixed cases.
    fn mismatches_in(call: Call, name: &str) -> u64 {
        if name == "fixed cases" {
            return mismatches_in_fixed(call);
        }
        let (seed, kind) = named(name, SEED, &KINDS);
        of_kind(call, seed, kind)
    }

    fn mismatches_in_fixed(call: Call) -> u64 {
        compare_fixed::<Desk>(call, fixed_of(call)).mismatches
    }

    /// The rule's answers on the first cases of a kind.
    fn answers(call: Call, name: &str) -> BTreeMap<u64, u64> {
        let (seed, kind) = named(name, SEED, &KINDS);
        tally((0..FEW).map(|number| {
            let case = kind.case(seed, number);
            let (mut out, mut journal) = (vec![0; case.out], vec![0; case.journal]);
            call.by_rule(&case, &mut out, &mut journal).min(64)
        }))
    }

    /// The answers of a kind are these, each well represented.
    fn only(call: Call, name: &str, wanted: &[u64]) {
        let seen = answers(call, name);
        assert!(seen.keys().eq(wanted), "{name}: {seen:?}");
        assert!(seen.values().all(|&cases| cases > 10), "{name}: {seen:?}");
    }

    /// Each kind reaches the answers that it is for, and no good file is refused.
    #[test]
    fn kinds_are_what_they_say() {
        let open = Call::Open(ffi::open);
        only(open, "working form", &[64]);
        only(open, "shuffled", &[64]);
        only(open, "repeated cells", &[21]);
        only(open, "21 and short buffers", &[8, 21]);
        only(open, "junk not read", &[21, 64]);
        for (name, wanted) in DAMAGE_ANSWERS {
            only(open, name, wanted);
        }
        only(open, "scratch lengths", &[8, 9, 13, 21, 64]);
        only(open, "output lengths", &[9, 13, 21, 64]);
        only(open, "journal lengths", &[9, 13, 21, 64]);
        let all = [1, 2, 3, 4, 5, 6, 7, 8, 9, 13, 21, 64];
        only(open, "several causes", &all);
    }

    /// The same for fold, which refuses neither by 13 nor by 21.
    #[test]
    fn kinds_are_what_they_say_of_fold() {
        let fold = Call::Fold(ffi::fold);
        for name in [
            "working form",
            "shuffled",
            "repeated cells",
            "junk not read",
            "large grids",
        ] {
            let accepted = answers(fold, name).get(&64).copied();
            assert!(accepted >= Some(FEW / 2), "{name}");
        }
        only(fold, "21 and short buffers", &[8, 9, 64]);
        for (name, wanted) in DAMAGE_ANSWERS {
            let not_21 = wanted.iter().copied().filter(|&answer| answer != 21);
            only(fold, name, &not_21.collect::<Vec<_>>());
        }
        only(fold, "scratch lengths", &[8, 9, 64]);
        only(fold, "output lengths", &[9, 64]);
        let all = [1, 2, 3, 4, 5, 6, 7, 8, 9, 64];
        only(fold, "several causes", &all);
    }

    #[test]
    fn working_form_is_what_it_says() {
        let case = |kind: usize, number| KINDS[kind].case(1, number).file;
        assert!((0..1000).all(|number| rule::working(&case(0, number))));
        assert!(
            (0..1000)
                .filter(|&number| !rule::working(&case(1, number)))
                .count()
                > 400
        );
        assert!((0..1000).all(|number| !rule::working(&case(2, number))));
    }

    /// A file without its earlier records is one that open accepts, with what the whole is folded to.
    #[test]
    fn once_is_what_it_says() {
        let (seed, kind) = named("repeated cells", SEED, &KINDS);
        for number in 0..300 {
            let case = kind.case(seed, number);
            let folded = rule::folded(&case.file);
            let once = case.once();
            assert!(!rule::names_one_twice(&once.file));
            assert_eq!(rule::folded(&once.file), folded);
            assert_eq!(once.needed, folded.len());
        }
    }

    /// Second implementations agree with the rule.
    #[test]
    fn plain_calls_agree() {
        let fold: Fold = |file, scratch, out| plain_fold(Fault::None, file, scratch, out);
        for call in [Call::Open(plain_open), Call::Fold(fold)] {
            assert_eq!(mismatches(call), BTreeMap::new());
            assert_eq!(mismatches_in_fixed(call), 0);
        }
    }

    /// Made-up faults are found, and where they should be.
    #[test]
    fn faults_are_found() {
        let found = |open: Open| mismatches(Call::Open(open)).into_keys().collect::<Vec<_>>();
        let touches_journal: Open = |file, scratch, out, journal| {
            journal.iter_mut().take(1).for_each(|word| *word = 0);
            plain_open(file, scratch, out, journal)
        };
        assert!(found(touches_journal).contains(&"header floats"));
        let touches_scratch: Open = |file, scratch, out, journal| {
            scratch.iter_mut().take(1).for_each(|word| *word ^= 1);
            plain_open(file, scratch, out, journal)
        };
        assert!(found(touches_scratch).contains(&"scratch lengths"));
        let zeroes_the_rest: Open = |file, scratch, out, journal| {
            let answer = plain_open(file, scratch, out, journal);
            if answer >= 64 {
                out[answer as usize..].fill(0);
            }
            answer
        };
        assert!(found(zeroes_the_rest).contains(&"working form"));
        let says_22: Open = |file, scratch, out, journal| {
            let answer = plain_open(file, scratch, out, journal);
            let large = answer >= 64 && rule::tree::tree(file).0.is_none();
            if large {
                22
            } else {
                answer
            }
        };
        assert!(found(says_22).contains(&"working form"));
        let wants_less: Open = |file, scratch, out, journal| match scratch.len() {
            0..8 => plain_open(file, &mut [0; 8], out, journal),
            _ => plain_open(file, scratch, out, journal),
        };
        let short = ["21 and short buffers", "scratch lengths", "several causes"];
        assert_eq!(found(wants_less), short);
    }

    /// The same of 21 and of fold.
    #[test]
    fn faults_of_repeated_cells_are_found() {
        for &(fault, open, name) in OPENS {
            let call = Call::Open(open);
            assert!(mismatches_in(call, name) > 0, "{fault:?} in {name}");
            assert!(mismatches_in_fixed(call) > 0, "{fault:?} in fixed cases");
            assert_eq!(mismatches_in(call, "shuffled"), 0, "{fault:?}");
        }
        for &(fault, fold, name) in FOLDS {
            let call = Call::Fold(fold);
            assert!(mismatches_in(call, name) > 0, "{fault:?} in {name}");
            assert_eq!(mismatches_in(call, "working form"), 0, "{fault:?}");
        }
    }

    #[test]
    fn the_smallest_is_told() {
        let wrong = Call::Open(|_, _, _, _| 5);
        let what = compare::<Desk>(wrong, SEED, &KINDS[0], 300).found();
        assert_eq!((what.cases.all(), what.mismatches), (300, 300));
        let what = what.smallest.expect("a mismatch");
        assert!(what.contains("g 1, 0 records, file 64"), "{what}");
        assert!(what.ends_with("library answers 5, rule 64"), "{what}");
    }
}
