//! Building a tree: the proved library against the rule, and the rule against the original.

pub(crate) mod cases;
#[cfg(test)]
pub(crate) mod plain;

use crate::costliest::above;
use crate::ffi::{self, Built};
use crate::lent::Buffers;
use crate::open::cases::Case;
use crate::open::{lay, lay_words, unlike};
use crate::original::{self, Verdict};
use crate::points::{point_file, record, Header, Record};
use crate::report::Report;
use crate::rng::Rng;
use crate::rule;
use crate::search::{self, first, Fixed};
use cases::{exact, KINDS};
use std::fmt::{self, Display};

/// An implementation of build.
pub(crate) type Build = fn(&[u8], &mut [u32], &mut [u8]) -> Built;

/// The seed of the first kind; the others follow.
const SEED: u64 = 101;

/// One call's buffers, the answer that it shall give, and what the output shall hold afterwards.
struct Desk {
    lent: Buffers,
    want: Built,
    want_out: Vec<u8>,
}

impl Desk {
    /// What differs where a file in working form that passed 8 is built a second time: in the words that it needs, or in one for each cell where
    /// it was lent fewer.
    fn differs_again(&mut self, build: Build, case: &Case) -> Option<String> {
        if self.want.answer <= 8 || !rule::working(&case.file) {
            return None;
        }
        let needed = rule::tree::scratch_words(&case.file) as usize;
        let cells = rule::grid(&case.file).pow(3) as usize;
        let words = match case.scratch < cells {
            true => cells,
            false => needed,
        };
        lay_words(case, words, &mut self.lent);
        let got = build(
            self.lent.file.slice(),
            self.lent.scratch.slice_mut(),
            self.lent.out.slice_mut(),
        );
        if got != self.want {
            return Some(format!("in {words} words {got}"));
        }
        let other = unlike(case, &self.lent, got.answer, &self.want_out);
        other.map(|what| format!("in {words} words, {what}"))
    }
}

impl search::Desk for Desk {
    type Case = Case;
    type Call = Build;
    type Answer = Built;

    fn new() -> Self {
        Self {
            lent: Buffers::new(),
            want: Built::refused(0),
            want_out: Vec::new(),
        }
    }

    fn differs(&mut self, build: Build, case: &Case) -> Option<String> {
        lay(case, &mut self.lent, &mut self.want_out);
        let want = rule::tree::build(&case.file, case.scratch as u64, &mut self.want_out);
        self.want = want;
        let got = build(
            self.lent.file.slice(),
            self.lent.scratch.slice_mut(),
            self.lent.out.slice_mut(),
        );
        if got != want {
            return Some(format!("library answers {got}, rule {want}"));
        }
        unlike(case, &self.lent, want.answer, &self.want_out)
            .or_else(|| above(&case.file, want))
            .or_else(|| self.differs_again(build, case))
            .map(|what| format!("answer {want}, {what}"))
    }

    fn beside_original(&self, case: &Case) -> Verdict {
        unlike_the_original(&case.file, self.want, &self.want_out)
    }

    fn want(&self) -> Built {
        self.want
    }

    fn size(case: &Case) -> usize {
        case.size()
    }

    fn described(case: &Case) -> String {
        case.described()
    }
}

/// An answer, and its counts where it has any.
impl Display for Built {
    fn fmt(&self, to: &mut fmt::Formatter) -> fmt::Result {
        let Self {
            answer,
            nodes,
            order,
        } = self;
        match (answer, nodes, order) {
            (0..64, 0, 0) => write!(to, "{answer}"),
            _ => write!(to, "{answer} ({nodes} nodes, order {order})"),
        }
    }
}

/// What differs from the original: in a refusal by 22 the floats of its nodes are finite, in another answer one is not; by 9 its tree would
/// have fitted; or an accepted call's counts or bytes are others.
pub(crate) fn unlike_the_original(file: &[u8], built: Built, out: &[u8]) -> Verdict {
    if !matches!(built.answer, 9 | 22 | 64..) {
        return Verdict::default();
    }
    Verdict::by_original(original::tree(file), |(tree, counts)| {
        let finite = rule::tree::is_finite(&tree);
        let fits = tree.len() <= out.len();
        match built.answer {
            22 => finite.then(|| "the original's nodes are finite".into()),
            _ if !finite => Some("a float of the original's nodes is not finite".into()),
            9 => fits.then(|| format!("the original's tree has {} bytes", tree.len())),
            _ if counts != built => Some(format!("the original's is {counts}")),
            _ => first("byte beside the original", out, &tree),
        }
    })
}

/// The file over a cube of `g` metres with a record for each of the cell numbers, in their order.
pub(crate) fn of_cells(g: u32, numbers: impl Iterator<Item = u64>) -> Vec<u8> {
    let records: Vec<Record> = (1..)
        .zip(numbers)
        .map(|(number, cell)| record(rule::cell_of(u64::from(g), cell), number))
        .collect();
    point_file(Header::cube(g, g as f32), &records)
}

/// The file over a cube with a record for each of the cell numbers, with its Cauchy mass and no elliptic one.
fn of_masses(cube: Header, masses: &[(u64, f32)]) -> Vec<u8> {
    let record = |&(number, cauchy_mass): &(u64, f32)| Record {
        cell: rule::cell_of(u64::from(cube.grid), number),
        cauchy_mass,
        elliptic_mass: 0.0,
    };
    point_file(cube, &masses.iter().map(record).collect::<Vec<_>>())
}

/// The greatest mass in cells 0 and 1: their sum is too large.
pub(crate) fn two_greatest(g: u32) -> Vec<u8> {
    let masses = [0, 1].map(|number| (number, f32::MAX));
    of_masses(Header::cube(g, g as f32), &masses)
}

/// A case of such a file, with just enough room.
fn just(file: Vec<u8>) -> Case {
    let (grid, records) = (rule::grid(&file) as usize, rule::cells(&file).len());
    exact(file, grid, records)
}

/// A case of a file that is refused.
fn refused(file: Vec<u8>, grid: usize, records: usize) -> Case {
    let mut case = Case::of(file, grid, records);
    case.out = 4096;
    case
}

/// The case of a good file with just enough output and so many words of scratch.
fn in_words(scratch: usize, file: Vec<u8>) -> Case {
    Case {
        scratch,
        ..just(file)
    }
}

/// The file with a bit set in a pad: the low byte of the first record's, or the high byte of the last one's.
fn padded(mut file: Vec<u8>, last: bool) -> Vec<u8> {
    let at = match last {
        true => file.len() - 9,
        false => 70,
    };
    file[at] |= 1;
    file
}

/// The file of whose records only the first count, so many.
fn counting(n: u8, mut file: Vec<u8>) -> Vec<u8> {
    file[12..16].copy_from_slice(&u32::from(n).to_le_bytes());
    file
}

/// Cell 1 of g 2 twice, with so many words of scratch and bytes of output.
fn twice(scratch: usize, out: usize) -> Case {
    Case {
        scratch,
        out,
        ..just(of_cells(2, [1, 1].into_iter()))
    }
}

/// Cells at random, each at most once, about one in `share`.
fn one_in(g: u64, share: u64) -> impl Iterator<Item = u64> {
    let mut rng = Rng::new(g * share);
    (0..g.pow(3)).filter(move |_| rng.below(share) == 0)
}

fn answer(answer: u64, nodes: u64, order: u64) -> Option<Built> {
    Some(Built {
        answer,
        nodes,
        order,
    })
}

/// Trees of known counts, and some that only the rule tells.
fn fixed_trees() -> Vec<Fixed<Desk>> {
    let of = |g, numbers: &[u64]| just(of_cells(g, numbers.iter().copied()));
    let corner = [0, 1, 4, 5, 16, 17, 20, 21, 12];
    let far = [0, 65_536];
    let full_8 = just(of_cells(8, 0..512));
    vec![
        ("g 1, no record", of(1, &[]), answer(144, 1, 0)),
        ("g 1, one record", of(1, &[0]), answer(148, 1, 1)),
        ("g 2, full", just(of_cells(2, 0..8)), answer(176, 1, 8)),
        ("g 3, a plane", just(of_cells(3, 0..9)), answer(340, 3, 9)),
        ("g 4, a corner", of(4, &corner), answer(500, 5, 9)),
        ("g 256, no record", of(256, &[]), answer(144, 1, 0)),
        ("g 8, full", full_8, answer(64 + 80 * 127 + 2048, 127, 512)),
        ("g 64, cells 0 and 65,536", of(64, &far), answer(152, 1, 2)),
        (
            "g 256, cells 0 and 65,536",
            of(256, &far),
            answer(152, 1, 2),
        ),
        ("g 64, full", just(of_cells(64, 0..1 << 18)), None),
        ("g 192, thin", just(of_cells(192, one_in(192, 70))), None),
        ("g 256, thin", just(of_cells(256, one_in(256, 900))), None),
    ]
}

/// Refusals, a cell named twice among them: with each buffer short or both enough, by more records than cells, by the first and the last of
/// 100,000 records.
fn fixed_refusals() -> Vec<Fixed<Desk>> {
    let outside = point_file(Header::cube(192, 1.0), &[record([192, 5, 0], 1)]);
    let grid_257 = point_file(Header::cube(257, 1.0), &[]);
    let one_cell = just(of_cells(1, [0, 0].into_iter()));
    let many = (0..100_000).map(|number| number * 77 % 99_999);
    let cases = [
        ("(192, 5, 0)", refused(outside, 192, 1), 6),
        ("g 257", refused(grid_257, 257, 0), 3),
        ("a cell twice", twice(8, 148), 21),
        ("a cell twice, 147 bytes", twice(8, 147), 21),
        ("a cell twice, no room", twice(8, 0), 21),
        ("a cell twice, a word short", twice(7, 148), 8),
        ("a cell twice, 2 words", twice(2, 148), 8),
        ("a cell twice, no scratch", twice(0, 0), 8),
        ("g 1, two records", one_cell, 21),
        ("100,000 records", just(of_cells(192, many)), 21),
    ];
    let cases = cases.into_iter();
    cases
        .map(|(name, case, cause)| (name, case, Some(Built::refused(cause))))
        .collect()
}

/// A small sum with a centre of mass far outside: 2^24 cells of 5e33 metres.
fn quotient() -> Case {
    let masses = [(0, 1.0), (1, -1f32.next_down())];
    just(of_masses(Header::cube(2, 1e34), &masses))
}

/// Full, with the greatest masses twice in the last leaf and taken away twice in the one before.
fn two_leaves(g: u32) -> Case {
    let last = u64::from(g).pow(3) - 4;
    let far = [(0, -f32::MAX), (1, -f32::MAX), (2, f32::MAX), (3, f32::MAX)];
    let mut masses: Vec<_> = (0..last).map(|number| (number, 1.0)).collect();
    masses.extend(far.map(|(place, mass)| (last + place, mass)));
    just(of_masses(Header::cube(g, 1.0), &masses))
}

/// Floats that are too large, and floats that are nearly so, in g 2 where nothing else is said.
fn fixed_large() -> Vec<Fixed<Desk>> {
    let of = |masses: &[(u64, f32)]| just(of_masses(Header::cube(2, 2.0), masses));
    let (max, half_unit, unit) = (f32::MAX, 2f32.powi(103), 2f32.powi(75));
    let lent = |scratch: usize, out: usize| Case {
        scratch,
        out,
        ..just(two_greatest(2))
    };
    let elliptic = Record {
        cauchy_mass: 0.0,
        elliptic_mass: f32::MIN,
        ..record([0; 3], 0)
    };
    let above = Record {
        cell: [0, 1, 1],
        ..elliptic
    };
    let elliptic = just(point_file(Header::cube(2, 2.0), &[elliptic, above]));
    let nine = [max, max, -max, -max, 0.0, 0.0, 0.0, 0.0, 0.0];
    let nine: Vec<_> = (0..).zip(nine).collect();
    let greatest_box = Header {
        min: [f32::MIN; 3],
        ..Header::cube(1, max)
    };
    let refused = |cause: u64| Some(Built::refused(cause));
    vec![
        ("two greatest", lent(8, 152), refused(22)),
        ("two greatest, 2 words", lent(2, 152), refused(22)),
        ("two greatest, a byte short", lent(8, 151), refused(22)),
        ("two greatest, no room", lent(8, 0), refused(22)),
        ("two greatest, a word short", lent(1, 152), refused(8)),
        ("two greatest, nothing lent", lent(0, 0), refused(8)),
        (
            "two greatest of one cell",
            of(&[(0, max), (0, max)]),
            refused(21),
        ),
        (
            "two greatest, one of them twice",
            of(&[(0, max), (1, max), (1, max)]),
            refused(21),
        ),
        ("elliptic, below 0", elliptic, refused(22)),
        (
            "g 4, both children, not the root",
            just(of_masses(Header::cube(4, 4.0), &nine)),
            refused(22),
        ),
        ("g 64, two leaves", two_leaves(64), refused(22)),
        (
            "twice and once taken away",
            of(&[(0, max), (1, max), (2, -max)]),
            answer(156, 1, 3),
        ),
        (
            "taken away between",
            of(&[(0, max), (1, -max), (2, max)]),
            answer(156, 1, 3),
        ),
        (
            "2^128 − 2^103",
            of(&[(0, max), (1, half_unit)]),
            refused(22),
        ),
        (
            "a unit less",
            of(&[(0, max), (1, half_unit), (2, -unit)]),
            answer(156, 1, 3),
        ),
        (
            "a unit more",
            of(&[(0, max), (1, half_unit), (2, unit)]),
            refused(22),
        ),
        (
            "a unit less than 2^128",
            of(&[(0, 2f32.powi(127)), (1, 2f32.powi(127)), (2, -unit)]),
            refused(22),
        ),
        ("a quotient", quotient(), refused(22)),
        (
            "g 1, the greatest box",
            just(of_masses(greatest_box, &[(0, max)])),
            answer(148, 1, 1),
        ),
    ]
}

/// Grids, and the words that a file of each needs in working form.
const PAIRS: [(u32, usize); 8] = [
    (1, 2),
    (2, 2),
    (3, 2),
    (4, 4),
    (10, 64),
    (40, 4_000),
    (41, 4_308),
    (256, 1 << 20),
];

/// No record, or the last cell's, with the words that it needs and with one less; with a pad, where a word for each cell is needed.
fn fixed_sizes() -> Vec<Fixed<Desk>> {
    let refused = Some(Built::refused(8));
    let mut cases = Vec::new();
    for (g, pairs) in PAIRS {
        let cells = u64::from(g).pow(3);
        let last = || of_cells(g, cells - 1..cells);
        let (none, one) = (answer(144, 1, 0), answer(148, 1, 1));
        let (short, cells) = (pairs - 1, cells as usize);
        cases.extend([
            ("no record", in_words(pairs, of_cells(g, 0..0)), none),
            (
                "no record, a word short",
                in_words(short, of_cells(g, 0..0)),
                refused,
            ),
            ("the last cell", in_words(pairs, last()), one),
            (
                "the last cell, a word short",
                in_words(short, last()),
                refused,
            ),
            ("a pad", in_words(cells, padded(last(), false)), one),
            (
                "a pad, a word short",
                in_words(cells - 1, padded(last(), true)),
                refused,
            ),
        ]);
    }
    cases
}

/// Files that are in working form or barely not, with the words that are enough for the former, or for the latter.
fn fixed_forms() -> Vec<Fixed<Desk>> {
    let of = |g: u32, cells: &[u64]| of_cells(g, cells.iter().copied());
    let refused = |cause: u64| Some(Built::refused(cause));
    let two = answer(152, 1, 2);
    let mut outside = padded(of(2, &[1, 2]), false);
    outside[80] = 2;
    let outside = Case {
        scratch: 2,
        out: 152,
        ..self::refused(outside, 2, 2)
    };
    vec![
        (
            "g 1, a cell twice, 1 word",
            in_words(1, of(1, &[0, 0])),
            refused(21),
        ),
        (
            "g 1, a cell twice, no word",
            in_words(0, of(1, &[0, 0])),
            refused(8),
        ),
        ("g 2, descending", in_words(8, of(2, &[2, 1])), two),
        (
            "g 2, descending, 7 words",
            in_words(7, of(2, &[2, 1])),
            refused(8),
        ),
        (
            "g 2, descending, 2 words",
            in_words(2, of(2, &[2, 1])),
            refused(8),
        ),
        ("g 2, x descends", in_words(2, of(2, &[1, 2])), two),
        (
            "g 2, the last out of order",
            in_words(7, of(2, &[1, 2, 0])),
            refused(8),
        ),
        (
            "g 2, the first twice, 7 words",
            in_words(7, of(2, &[1, 1, 2])),
            refused(8),
        ),
        (
            "g 2, the first twice, 8 words",
            in_words(8, of(2, &[1, 1, 2])),
            refused(21),
        ),
        (
            "g 2, a pad, 2 words",
            in_words(2, padded(of(2, &[1, 2]), false)),
            refused(8),
        ),
        (
            "g 2, a pad, 8 words",
            in_words(8, padded(of(2, &[1, 2]), false)),
            two,
        ),
        (
            "g 2, a last pad, 2 words",
            in_words(2, padded(of(2, &[1, 2]), true)),
            refused(8),
        ),
        ("g 2, a pad before 6, 2 words", outside, refused(6)),
        (
            "g 2, a lesser cell past the end",
            in_words(2, counting(2, of(2, &[1, 2, 0]))),
            two,
        ),
        (
            "g 2, a pad past the end",
            in_words(2, counting(2, padded(of(2, &[1, 2, 3]), true))),
            two,
        ),
        (
            "g 2, a cell again past the end",
            in_words(2, counting(2, of(2, &[1, 2, 2]))),
            two,
        ),
        (
            "g 2, none of two counts",
            in_words(2, counting(0, of(2, &[2, 1]))),
            answer(144, 1, 0),
        ),
    ]
}

/// Points at the ends of words of 32 cells and of the grid, in just the words that the file needs.
fn fixed_ends() -> Vec<Fixed<Desk>> {
    let of = |g: u32, cells: &[u64]| just(of_cells(g, cells.iter().copied()));
    let corners = [0, 3, 12, 15, 48, 51, 60, 63];
    let ends = [31, 32, 63, 64];
    let mut cases = vec![
        (
            "g 3, full",
            just(of_cells(3, 0..27)),
            answer(64 + 80 * 9 + 108, 9, 27),
        ),
        ("g 3, the last row", of(3, &[24, 25, 26]), answer(156, 1, 3)),
        (
            "g 4, full",
            just(of_cells(4, 0..64)),
            answer(64 + 80 * 15 + 256, 15, 64),
        ),
        ("g 4, corners", of(4, &corners), answer(176, 1, 8)),
        ("g 5, cells 31, 32, 63, 64", of(5, &ends), answer(160, 1, 4)),
        (
            "g 5, full",
            just(of_cells(5, 0..125)),
            answer(64 + 80 * 41 + 500, 41, 125),
        ),
        (
            "g 12, the last word",
            just(of_cells(12, 1_696..1_728)),
            None,
        ),
    ];
    for cell in ends {
        let and_last = of(5, &[cell, 124]);
        cases.push(("g 5, one of these", of(5, &[cell]), answer(148, 1, 1)));
        cases.push(("g 5, one, the last", and_last, answer(152, 1, 2)));
    }
    cases
}

fn fixed_scratch() -> impl Iterator<Item = Fixed<Desk>> {
    let known = fixed_forms().into_iter().chain(fixed_ends());
    known.chain(fixed_sizes())
}

/// The fixed cases of scratch, without their answers.
pub(crate) fn scratch_cases() -> impl Iterator<Item = Case> {
    fixed_scratch().map(|(_, case, _)| case)
}

fn fixed() -> impl Iterator<Item = Fixed<Desk>> {
    let known = fixed_trees().into_iter().chain(fixed_refusals());
    known.chain(fixed_large()).chain(fixed_scratch())
}

pub(crate) fn check(report: &mut Report) {
    search::check::<Desk, _>(report, "build", ffi::build, (SEED, &KINDS), fixed);
}

#[cfg(test)]
mod tests {
    use super::plain::{plain_build, Fault, FAULTS};
    use super::*;
    use crate::open::cases::{Kind, DAMAGE_ANSWERS};
    use crate::open::plain::Twice;
    use crate::search::{compare, compare_fixed, named, tally};
    use std::collections::{BTreeMap, BTreeSet};

    /// A kind of fewer cases is slow.
    const FEW: u64 = 1000;

    /// Cases of each kind whose answers a test counts.
    const MORE: u64 = 4000;

    fn kind(name: &str) -> (u64, &'static Kind) {
        named(name, SEED, &KINDS)
    }

    /// Whether an implementation is found to be wrong in a kind.
    fn is_found(build: Build, (seed, kind): (u64, &'static Kind)) -> bool {
        let cases = if kind.cases < FEW { 2 } else { 100 };
        compare::<Desk>(build, seed, kind, cases).mismatches > 0
    }

    /// The kinds in which it is.
    fn found(build: Build) -> Vec<&'static str> {
        let kinds = (SEED..).zip(&KINDS);
        let wrong = kinds.filter(|&kind| is_found(build, kind));
        wrong.map(|(_, kind)| kind.name).collect()
    }

    /// The rule's answers on the first cases of a kind.
    fn answers(name: &str) -> BTreeMap<u64, u64> {
        let (seed, kind) = kind(name);
        tally((0..MORE).map(|number| {
            let case = kind.case(seed, number);
            let mut out = vec![0; case.out];
            let built = rule::tree::build(&case.file, case.scratch as u64, &mut out);
            built.answer.min(64)
        }))
    }

    /// Each kind reaches the answers that it is for, and no good file is refused but by 22: most are not.
    #[test]
    fn kinds_are_what_they_say() {
        let share = |name: &str, answer: u64, least: u64| {
            let seen = answers(name);
            let percent = seen.get(&answer).map_or(0, |cases| 100 * cases / MORE);
            assert!(percent >= least, "{name}: {seen:?}");
            assert!(seen.keys().all(|seen| [22, 64].contains(seen)), "{name}");
        };
        for (name, least) in [
            ("rows and planes", 97),
            ("8 and 9 points", 97),
            ("junk not read", 97),
            ("uneven boxes", 80),
            ("cancelling masses", 70),
            ("extreme masses", 40),
            ("nearly too large", 40),
            ("ends of words", 90),
        ] {
            share(name, 64, least);
        }
        share("cancelling masses", 22, 3);
        share("extreme masses", 22, 20);
        share("nearly too large", 22, 40);
        share("too large", 22, 100);
        let all_21 = BTreeMap::from([(21, MORE)]);
        assert_eq!(answers("repeated cells"), all_21);
        let only = |name: &str, wanted: &[u64]| {
            let seen = answers(name);
            assert!(seen.keys().eq(wanted), "{name}: {seen:?}");
        };
        for (name, wanted) in DAMAGE_ANSWERS {
            // The tree of a record in another cell may be too long, seldom; a mass or a box set anew may make it too large.
            let mut seen = answers(name);
            let [longer, larger] = [9, 22].map(|cause| seen.remove(&cause).unwrap_or(0));
            assert!(longer < 10 && larger < 200, "{name}: {longer}, {larger}");
            assert!(seen.keys().eq(wanted), "{name}: {seen:?}");
        }
        only("21 and short buffers", &[8, 21]);
        only("22 and other causes", &[8, 21, 22]);
        only("scratch lengths", &[8, 9, 21, 22, 64]);
        only("sizes of scratch", &[8, 21, 22, 64]);
        only("nearly in working form", &[8, 21, 22, 64]);
        only("output lengths", &[9, 21, 22, 64]);
        only("several causes", &[1, 2, 3, 4, 5, 6, 7, 8, 9, 21, 22, 64]);
    }

    #[test]
    fn every_grid_size_is_met() {
        let grids = |name: &str, cases: u64| {
            let (seed, kind) = kind(name);
            let grids = (0..cases).map(|number| kind.case(seed, number).grid);
            grids.collect::<BTreeSet<usize>>()
        };
        for name in ["every grid size", "rows and planes", "8 and 9 points"] {
            assert!(grids(name, 400).into_iter().eq(1..=24), "{name}");
        }
        let large = grids("large grids", 100);
        assert!(
            [64, 192, 256].iter().all(|g| large.contains(g)),
            "{large:?}"
        );
    }

    /// How often files of a kind meet each length of scratch, as it is told of a case, in working form and not.
    fn lent(
        name: &str,
        told: impl Fn(&Case) -> &'static str,
    ) -> BTreeMap<(bool, &'static str), u64> {
        let (seed, kind) = kind(name);
        tally((0..MORE).map(|number| {
            let case = kind.case(seed, number);
            (rule::working(&case.file), told(&case))
        }))
    }

    /// Both kinds of files meet the words that each needs, and one less: at g 1, where one word for each cell is less, and at others.
    #[test]
    fn sizes_of_scratch_are_met() {
        let told = |case: &Case| {
            let cells = case.grid.pow(3);
            match case.scratch as i64 - 2 * cells.div_ceil(32) as i64 {
                _ if case.grid == 1 => ["none", "cells", "pairs", "more"][case.scratch],
                -1 => "a word less than pairs",
                0 => "pairs",
                1 => "a word more than pairs",
                _ if case.scratch + 1 == cells => "a word less than cells",
                _ if case.scratch == cells => "cells",
                _ => "between",
            }
        };
        let seen = lent("sizes of scratch", told);
        let often = seen.values().filter(|&&cases| cases > 20);
        assert_eq!((seen.len(), often.count()), (14, 14), "{seen:?}");
        let seen = lent("nearly in working form", told);
        let often = |works, told| seen[&(works, told)] > 300;
        assert!(often(true, "pairs") && often(false, "pairs"), "{seen:?}");
        assert!(often(false, "between"), "{seen:?}");
    }

    /// About half of the files that have no damage are in working form, and all whose points stand at ends of words.
    #[test]
    fn half_are_in_working_form() {
        let works = |name: &str| {
            let seen = lent(name, |_| "");
            100 * seen[&(true, "")] / MORE
        };
        for name in ["every grid size", "8 and 9 points", "cancelling masses"] {
            assert!((45..65).contains(&works(name)), "{name}");
        }
        assert_eq!(works("ends of words"), 100);
    }

    /// A node's twenty floats before they are narrowed.
    type Node = [f64; 20];

    /// How many of 300 cases of a kind have nodes of which this holds.
    fn count(name: &str, wanted: impl Fn(&[Node]) -> bool) -> usize {
        let (seed, kind) = kind(name);
        let cases = (0..300).map(|number| kind.case(seed, number));
        let wanted = |case: &Case| wanted(&rule::tree::floats_of_nodes(&case.file));
        cases.filter(wanted).count()
    }

    /// The same of any one node.
    fn count_any(name: &str, wanted: impl Fn(&Node) -> bool) -> usize {
        count(name, |nodes| nodes.iter().any(&wanted))
    }

    fn any_large(floats: &[f64]) -> bool {
        floats.iter().any(|&float| rule::narrowed(float).is_none())
    }

    /// Trees of the kind hold what it is for: sums too large of both signs, and sums of 0 over points.
    #[test]
    fn floats_are_met() {
        let (extreme, cancelling) = ("extreme masses", "cancelling masses");
        assert!(count_any(extreme, |node| node[4] >= rule::TOO_LARGE) > 20);
        assert!(count_any(extreme, |node| node[5] <= -rule::TOO_LARGE) > 20);
        assert!(count_any(extreme, |node| any_large(&node[8..9])) > 0);
        assert!(count_any(cancelling, |node| node[19] > 8.0 && node[4] == 0.0) > 50);
        assert!(count_any(cancelling, |node| any_large(&node[8..9])) > 5);
    }

    /// What is too large: the root alone, or a node below it; a leaf, or none; either mass's sum, of either sign, or a centre of mass alone.
    /// The box and the plain centre never are, however great the box.
    #[test]
    fn nodes_are_too_large_each_way() {
        let large = |wanted: &dyn Fn(&[Node]) -> bool| count("too large", wanted);
        let any = |nodes: &[Node], from: usize, to: usize| {
            let mut nodes = nodes.iter();
            nodes.any(|node| any_large(&node[from..to]))
        };
        let root = |nodes: &[Node]| any_large(&nodes[0]);
        let below = |nodes: &[Node]| any(&nodes[1..], 0, 20);
        assert!(large(&|nodes| root(nodes) && !below(nodes) && nodes.len() > 1) > 20);
        assert!(large(&|nodes| below(nodes) && !root(nodes)) > 60);
        let leaf = |nodes: &[Node]| nodes.iter().any(|node| any_large(node) && node[15] > 0.0);
        assert!(large(&leaf) > 100);
        assert!(large(&|nodes| !leaf(nodes)) > 50);
        let sums = |nodes: &[Node]| any(nodes, 4, 6);
        let centres = |nodes: &[Node]| any(nodes, 8, 11) || any(nodes, 12, 15);
        assert!(large(&|nodes| sums(nodes) && !centres(nodes)) > 150);
        assert!(large(&|nodes| centres(nodes) && !sums(nodes)) > 60);
        for (from, to) in [(4, 5), (5, 6), (8, 11), (12, 15)] {
            assert!(large(&|nodes| any(nodes, from, to)) > 30, "{from}");
        }
        assert!(count_any("too large", |node| node[4] <= -rule::TOO_LARGE) > 30);
        assert!(count_any("too large", |node| node[5] >= rule::TOO_LARGE) > 30);
        for name in ["too large", "nearly too large", "uneven boxes"] {
            let of_the_box = |node: &Node| any_large(&node[..4]) || any_large(&node[16..19]);
            assert_eq!(count_any(name, of_the_box), 0);
        }
    }

    /// Sums at the threshold and a unit of binary64 beside it, centres of mass less than a unit of binary32 from it, greatest boxes.
    #[test]
    fn nodes_are_nearly_too_large() {
        let near = |wanted: &dyn Fn(&Node) -> bool| count_any("nearly too large", wanted);
        let threshold = rule::TOO_LARGE;
        for sum in [threshold, threshold.next_down(), threshold.next_up()] {
            assert!(near(&|node| node[4] == sum || node[5] == sum) > 3);
            assert!(near(&|node| node[4] == -sum || node[5] == -sum) > 3);
        }
        let ends = [f64::from(f32::MAX), threshold, 2f64.powi(128)];
        for ends in ends.windows(2) {
            let between = |float: &f64| (ends[0]..ends[1]).contains(&float.abs());
            let centres = |node: &Node| node[8..11].iter().chain(&node[12..15]).any(between);
            assert!(near(&|node| centres(node) && node[4].abs() < 1e30) > 5);
        }
        assert!(near(&|node| node[3] as f32 == f32::MAX) > 20);
    }

    /// A second implementation agrees with the rule and the original.
    #[test]
    fn plain_build_agrees() {
        let plain: Build = |file, scratch, out| plain_build(Fault::None, file, scratch, out);
        assert_eq!(found(plain), [""; 0]);
        let found = compare_fixed::<Desk>(plain, fixed());
        assert_eq!(found.mismatches, 0);
    }

    /// Made-up faults of the tree and of scratch are found, and where they should be.
    #[test]
    fn faults_of_trees_are_found() {
        for (number, (faulty, name)) in FAULTS.into_iter().enumerate() {
            let is_found = is_found(faulty, kind(name));
            assert!(is_found, "fault {number} in {name}: {:?}", found(faulty));
        }
        let cut: Build = |f, s, o| plain_build(Fault::Twice(Twice::ByCell16), f, s, o);
        assert!(compare_fixed::<Desk>(cut, fixed()).mismatches > 0);
    }

    /// A build that is wrong in few words alone, or in many alone, is found in files that were lent the others.
    #[test]
    fn files_in_working_form_are_built_twice() {
        const CELLS: usize = 343;
        let few: Build = |file, scratch, out| {
            let built = plain_build(Fault::None, file, scratch, out);
            out[70] ^= u8::from(scratch.len() < CELLS);
            built
        };
        let many: Build = |file, scratch, out| {
            let built = plain_build(Fault::None, file, scratch, out);
            out[70] ^= u8::from(scratch.len() >= CELLS);
            built
        };
        let full = || of_cells(7, 0..CELLS as u64);
        let wrong = |build, case| compare_fixed::<Desk>(build, [("", case, None)]).mismatches == 1;
        for scratch in [22, 342, 343, 500] {
            assert!(wrong(few, in_words(scratch, full())), "{scratch}");
            assert!(wrong(many, in_words(scratch, full())), "{scratch}");
        }
        let padded = || in_words(CELLS, padded(full(), true));
        assert!(!wrong(few, padded()) && wrong(many, padded()));
    }

    /// Made-up faults of a call are found, and where they should be.
    #[test]
    fn faults_of_calls_are_found() {
        let touches_scratch: Build = |file, scratch, out| {
            scratch.iter_mut().take(1).for_each(|word| *word ^= 1);
            plain_build(Fault::None, file, scratch, out)
        };
        let kinds = found(touches_scratch);
        assert!(kinds.contains(&"scratch lengths") && kinds.contains(&"masses"));
        assert!(!kinds.contains(&"every grid size"));
        let zeroes_the_rest: Build = |file, scratch, out| {
            let built = plain_build(Fault::None, file, scratch, out);
            if built.answer >= 64 {
                out[built.answer as usize..].fill(0);
            }
            built
        };
        assert!(found(zeroes_the_rest).contains(&"every grid size"));
        let counts_swapped: Build = |file, scratch, out| {
            let built = plain_build(Fault::None, file, scratch, out);
            Built {
                nodes: built.order,
                order: built.nodes,
                ..built
            }
        };
        assert!(found(counts_swapped).contains(&"8 and 9 points"));
        let counts_in_a_refusal: Build = |file, scratch, out| {
            let mut room = vec![0; 1 << 20];
            let built = plain_build(Fault::None, file, scratch, &mut room);
            let length = built.answer as usize;
            match out.get_mut(..length) {
                Some(out) if length >= 64 => out.copy_from_slice(&room[..length]),
                None => return Built { answer: 9, ..built },
                _ => (),
            }
            built
        };
        assert!(found(counts_in_a_refusal).contains(&"output lengths"));
        let wants_less: Build = |file, scratch, out| match scratch.len() {
            0..216 => plain_build(Fault::None, file, &mut [0; 216], out),
            _ => plain_build(Fault::None, file, scratch, out),
        };
        let kinds = found(wants_less);
        assert!(kinds.contains(&"scratch lengths") && !kinds.contains(&"output lengths"));
    }

    #[test]
    fn the_smallest_is_told() {
        let wrong: Build = |_, _, _| Built::refused(5);
        let (seed, kind) = kind("junk not read");
        let what = compare::<Desk>(wrong, seed, kind, 300).found();
        assert_eq!((what.cases.all(), what.mismatches), (300, 300));
        let what = what.smallest.expect("a mismatch");
        assert!(
            what.contains("g 1, 1 records, file 80, scratch 2, "),
            "{what}"
        );
        assert!(
            what.ends_with("library answers 5, rule 148 (1 nodes, order 1)"),
            "{what}"
        );
    }

    /// A rule that is not the original's is told, though the library has it too.
    #[cfg(original)]
    #[test]
    fn the_original_is_asked() {
        let file = of_cells(3, 0..9);
        let (tree, built) = rule::tree::tree(&file);
        let tree = tree.expect("no float is too large");
        let told = |built: Built, out: &[u8]| unlike_the_original(&file, built, out).wrong;
        assert_eq!(told(built, &tree), None);
        let mut other = tree.clone();
        other[70] ^= 1;
        let what = told(built, &other).expect("a difference");
        assert!(what.starts_with("byte beside the original 70 is"), "{what}");
        let what = told(Built { nodes: 4, ..built }, &tree);
        assert!(what.is_some_and(|what| what.contains("(3 nodes, order 9)")));
        let nine = Built::refused(9);
        assert_eq!(told(nine, &tree[..339]), None);
        assert!(told(nine, &tree).is_some());
        assert_eq!(told(Built::refused(1), &[]), None);
        let what = told(Built::refused(22), &[]);
        assert_eq!(what.as_deref(), Some("the original's nodes are finite"));
        let large = two_greatest(2);
        let told = |built: Built, out: &[u8]| unlike_the_original(&large, built, out).wrong;
        assert_eq!(told(Built::refused(22), &[]), None);
        let (tree, built) = original::tree(&large).expect("at hand").taken();
        for (built, out) in [(nine, &[][..]), (built, &tree)] {
            let what = told(built, out).expect("an infinity");
            assert!(what.ends_with("is not finite"), "{what}");
        }
    }

    /// Beside the original: accepted files and a refusal by 9 or 22. By the rule alone: other refusals.
    #[test]
    fn cases_are_counted_apart() {
        let good = || just(of_cells(3, 0..9));
        let with = |change: fn(&mut Case)| {
            let mut case = good();
            change(&mut case);
            case
        };
        let cases = [
            (good(), true),
            (with(|case| case.out -= 1), true),
            (just(two_greatest(2)), true),
            (with(|case| case.scratch -= 1), false),
            (with(|case| case.file[0] ^= 1), false),
        ];
        for (case, asked) in cases {
            let found = compare_fixed::<Desk>(ffi::build, [("", case, None)]).found();
            let beside = u64::from(asked && original::AT_HAND);
            assert_eq!(found.cases.apart(), (beside, 1 - beside));
            assert_eq!(found.smallest, None);
        }
    }
}
