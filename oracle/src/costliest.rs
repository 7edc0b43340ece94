//! The costliest file of a grid: its numbers and the file itself, the proved library against the rule; the tree that it has, by the library
//! and by the original; other files, which cost no more.

pub(crate) mod cases;
#[cfg(test)]
pub(crate) mod plain;

use crate::build::cases::KINDS as FILES_TO_BUILD;
use crate::build::{unlike_the_original, Build};
use crate::ffi::{self, Built, Cost};
use crate::lent::{Buffers, Lent};
use crate::open::cases::Case as File;
use crate::open::out_byte;
use crate::original::Verdict;
use crate::report::Report;
use crate::rule;
use crate::search::{self, compare, first, shared, Fixed, Search};
use cases::{Case, FAR, FILES, TREES, WORDS};
use std::fmt::{self, Display};
use std::iter::repeat_n;
use std::sync::OnceLock;

/// An implementation of the numbers, and of the call that writes the file.
pub(crate) type Costliest = fn(u32) -> Cost;
pub(crate) type Write = fn(u32, &mut [u8]) -> u64;

/// The seeds of the first kinds, and of other files.
const SEED: u64 = 701;
const FILE_SEED: u64 = 711;
const TREE_SEED: u64 = 721;
const OTHER_SEED: u64 = 731;

/// Other files that are looked at.
const OTHERS: u64 = 6_000;

/// Node counts that are known.
const COUNTS: [(u32, u64); 9] = [
    (1, 1),
    (2, 1),
    (3, 9),
    (4, 15),
    (5, 41),
    (6, 79),
    (7, 109),
    (8, 127),
    (256, 4_194_303),
];

/// The greatest grid at which the original builds the file's tree.
const BESIDE: u32 = 128;

/// An answer, and its numbers where it has any.
impl Display for Cost {
    fn fmt(&self, to: &mut fmt::Formatter) -> fmt::Result {
        let Self {
            answer,
            nodes,
            bytes,
        } = self;
        match (nodes, bytes) {
            (0, 0) => write!(to, "{answer}"),
            _ => write!(to, "{answer} ({nodes} nodes, {bytes} bytes)"),
        }
    }
}

/// The answer that the numbers of a word shall be; nothing is lent.
struct Numbers {
    want: Cost,
}

impl search::Desk for Numbers {
    type Case = u32;
    type Call = Costliest;
    type Answer = Cost;

    fn new() -> Self {
        Self {
            want: Cost::refused(0),
        }
    }

    fn differs(&mut self, costliest: Costliest, &g: &u32) -> Option<String> {
        let want = rule::costliest::costliest(g);
        self.want = want;
        let got = costliest(g);
        (got != want).then(|| format!("library answers {got}, rule {want}"))
    }

    fn want(&self) -> Cost {
        self.want
    }

    /// The smallest is the least word.
    fn size(&g: &u32) -> usize {
        g as usize
    }

    fn described(g: &u32) -> String {
        format!("g {g}")
    }
}

/// The output of a call that writes the file, the answer that it shall give, and what the output shall hold afterwards.
struct Output {
    out: Lent<u8>,
    want: u64,
    want_out: Vec<u8>,
}

impl search::Desk for Output {
    type Case = Case;
    type Call = Write;
    type Answer = u64;

    fn new() -> Self {
        Self {
            out: Lent::new(),
            want: 0,
            want_out: Vec::new(),
        }
    }

    fn differs(&mut self, write: Write, case: &Case) -> Option<String> {
        let before = |at| out_byte(case.junk, at);
        self.out
            .fill(case.junk as usize % 16, (0..case.out).map(before));
        self.want_out.clear();
        self.want_out.extend_from_slice(self.out.slice());
        let want = rule::costliest::write(case.grid, &mut self.want_out);
        self.want = want;
        let got = write(case.grid, self.out.slice_mut());
        if got != want {
            return Some(format!("library answers {got}, rule {want}"));
        }
        first("output byte", self.out.slice(), &self.want_out)
            .or_else(|| self.out.broken("output"))
            .map(|what| format!("answer {want}, {what}"))
    }

    fn want(&self) -> u64 {
        self.want
    }

    fn size(case: &Case) -> usize {
        case.out
    }

    fn described(case: &Case) -> String {
        case.described()
    }
}

/// Makes a call in a lent buffer, with these bytes as the output: its answer, the output afterwards, what it did besides.
pub(crate) fn called(write: Write, g: u32, out: &[u8]) -> (u64, Vec<u8>, Option<String>) {
    let mut lent = Lent::new();
    lent.fill(0, out.iter().copied());
    let answer = write(g, lent.slice_mut());
    (answer, lent.slice().to_vec(), lent.broken("output"))
}

/// Both calls.
#[derive(Clone, Copy)]
struct Calls {
    costliest: Costliest,
    write: Write,
}

/// The file that a call wrote, the buffers in which the library opens and builds it, and the numbers that its tree shall have.
struct Tree {
    lent: Buffers,
    want: Cost,
}

impl Tree {
    /// What the library opens the file to, where that is not the file again, with a word for each cell.
    fn not_reopened(&mut self, g: u32) -> Option<String> {
        let Buffers { file, scratch, out } = &mut self.lent;
        let length = file.slice().len();
        scratch.fill(0, repeat_n(7, g.pow(3) as usize));
        out.fill(0, repeat_n(0xa5, length));
        let answer = ffi::open(file.slice(), scratch.slice_mut(), out.slice_mut(), &mut [7]);
        let same = answer == length as u64 && out.slice() == file.slice();
        (!same).then(|| format!("opened: {answer}, or other bytes"))
    }

    /// What the library builds in so many words and bytes, where that is something else.
    fn not_built(&mut self, words: u64, bytes: u64, want: Built) -> Option<String> {
        let Buffers { file, scratch, out } = &mut self.lent;
        scratch.fill(0, repeat_n(7, words as usize));
        out.fill(0, repeat_n(0xa5, bytes as usize));
        let got = ffi::build(file.slice(), scratch.slice_mut(), out.slice_mut());
        let told =
            || format!("library builds {got} in {words} words and {bytes} bytes, not {want}");
        let other = (got != want).then(told);
        other.or_else(|| self.lent.broken())
    }
}

/// What a build of the full grid shall answer.
fn full(g: u32, cost: Cost) -> Built {
    Built {
        answer: cost.bytes,
        nodes: cost.nodes,
        order: u64::from(g).pow(3),
    }
}

impl search::Desk for Tree {
    type Case = u32;
    type Call = Calls;
    type Answer = Cost;

    fn new() -> Self {
        Self {
            lent: Buffers::new(),
            want: Cost::refused(0),
        }
    }

    /// The rule is not asked; the tree stands in the output afterwards.
    fn differs(&mut self, calls: Calls, &g: &u32) -> Option<String> {
        let cost = (calls.costliest)(g);
        self.want = cost;
        let needed = rule::costliest::needed(g);
        self.lent.file.fill(0, repeat_n(0xa5, needed as usize));
        let written = (calls.write)(g, self.lent.file.slice_mut());
        if cost.answer != 0 || written != needed {
            return Some(format!("library answers {cost} and {written}"));
        }
        let (words, bytes) = (rule::tree::pairs_of_words(u64::from(g)), cost.bytes);
        let short = bytes.saturating_sub(1);
        self.not_reopened(g)
            .or_else(|| self.not_built(words - 1, 0, Built::refused(8)))
            .or_else(|| self.not_built(words, short, Built::refused(9)))
            .or_else(|| self.not_built(words, bytes, full(g, cost)))
    }

    fn beside_original(&self, &g: &u32) -> Verdict {
        if g > BESIDE {
            return Verdict::default();
        }
        let (file, out) = (self.lent.file.slice(), self.lent.out.slice());
        unlike_the_original(file, full(g, self.want), out)
    }

    fn want(&self) -> Cost {
        self.want
    }

    fn size(&g: &u32) -> usize {
        g as usize
    }

    fn described(g: &u32) -> String {
        format!("g {g}")
    }
}

/// The rule's numbers of a grid, each found once.
fn most(g: u64) -> Cost {
    static MOST: OnceLock<Vec<Cost>> = OnceLock::new();
    MOST.get_or_init(|| (0..=256).map(rule::costliest::costliest).collect())[g as usize]
}

/// What a file's tree has more of than the costliest of its grid.
pub(crate) fn above(file: &[u8], built: Built) -> Option<String> {
    if built.answer < 64 {
        return None;
    }
    let most = most(rule::grid(file));
    let above = built.nodes > most.nodes || built.answer > most.bytes;
    above.then(|| format!("more than the costliest: {most}"))
}

/// What is wrong where build is lent the words that the file needs and the bytes that the costliest tree of its grid needs: it is refused by 8 or
/// 9, or needs more.
fn unreserved(build: Build, file: &[u8], out: &mut Lent<u8>) -> Option<String> {
    let bytes = most(rule::grid(file)).bytes;
    out.fill(0, repeat_n(0xa5, bytes as usize));
    let mut scratch = vec![7; rule::tree::scratch_words(file) as usize];
    let built = build(file, &mut scratch, out.slice_mut());
    let words = scratch.len();
    match built.answer {
        cause @ (8 | 9) => Some(format!(
            "refused by {cause} in {words} words, {bytes} bytes"
        )),
        _ => above(file, built).or_else(|| out.broken("output")),
    }
}

/// A file that build is tried with, as it is before any damage, the large grids left out; the kinds in turn.
fn other_file(number: u64) -> (&'static str, File) {
    let mut kinds = FILES_TO_BUILD.iter();
    let good = kinds.position(|kind| kind.name == "large grids");
    let kind = &FILES_TO_BUILD[number as usize % good.expect("a kind of this name")];
    (kind.name, kind.case(OTHER_SEED, number))
}

/// Holds other files to the costliest of their grids.
fn compare_others(build: Build, cases: u64) -> Search {
    shared(cases, Lent::new, |search, out, number| {
        let (name, case) = other_file(number);
        let told = |what| format!("{name}, case {number}: {}: {what}", case.described());
        let verdict = Verdict::by_rule(unreserved(build, &case.file, out));
        search.note(case.file.len(), number, verdict.told(told));
    })
}

/// The numbers of a known count: 64 bytes, 80 for each node, 4 for each cell.
fn known((g, nodes): (u32, u64)) -> Cost {
    Cost {
        answer: 0,
        nodes,
        bytes: 64 + 80 * nodes + 4 * u64::from(g).pow(3),
    }
}

/// Known counts, and words that are no grid size.
fn fixed_words() -> impl Iterator<Item = Fixed<Numbers>> {
    let counts = COUNTS.map(|count| ("a known count", count.0, Some(known(count))));
    let none = [0, 257].into_iter().chain(FAR);
    let none = none.map(|g| ("no grid", g, Some(Cost::refused(3))));
    counts.into_iter().chain(none)
}

/// Answers that are known, 3 before 9 among them.
fn fixed_files() -> impl Iterator<Item = Fixed<Output>> {
    let files = [
        ("g 1", 1, 80, 80),
        ("g 1, a byte short", 1, 79, 9),
        ("g 1, nothing lent", 1, 0, 9),
        ("g 2, room for g 3", 2, 496, 192),
        ("g 256, nothing lent", 256, 0, 9),
        ("g 256, a header", 256, 64, 9),
        ("g 0", 0, 80, 3),
        ("g 0, nothing lent", 0, 0, 3),
        ("g 257", 257, 4096, 3),
        ("g 257, nothing lent", 257, 0, 3),
        ("g 65,537, room for g 1", 65_537, 80, 3),
        ("the greatest word", u32::MAX, 4096, 3),
        ("the greatest word, nothing lent", u32::MAX, 0, 3),
    ];
    let case = |grid: u32, out: usize| Case { grid, out, junk: 5 };
    let files = files.into_iter();
    files.map(move |(name, grid, out, answer)| (name, case(grid, out), Some(answer)))
}

pub(crate) fn check(report: &mut Report) {
    const LIBRARY: Calls = Calls {
        costliest: ffi::costliest,
        write: ffi::write_costliest,
    };
    let (words, files) = ((SEED, &WORDS[..]), (FILE_SEED, &FILES[..]));
    search::check::<Numbers, _>(report, "costliest", ffi::costliest, words, fixed_words);
    search::check::<Output, _>(
        report,
        "costliest file",
        ffi::write_costliest,
        files,
        fixed_files,
    );
    report.run("costliest: trees", || {
        compare::<Tree>(LIBRARY, TREE_SEED, &TREES, TREES.cases).found()
    });
    report.run("costliest: other files", || {
        compare_others(ffi::build, OTHERS).found()
    });
}

#[cfg(test)]
mod tests {
    use super::plain::{
        plain_costliest, plain_write, Fault, COST_FAULTS, LARGE_FAULTS, WRITE_FAULTS,
    };
    use super::*;
    use crate::open::cases::Kind;
    use crate::original;
    use crate::search::{compare_fixed, named, tally};
    use std::collections::BTreeMap;

    /// Cases of each kind that a test looks at.
    const FEW: u64 = 2000;

    const PLAIN: Calls = Calls {
        costliest: |g| plain_costliest(Fault::None, g),
        write: |g, out| plain_write(Fault::None, g, out),
    };

    /// Mismatches in the first cases of a kind by its name, or in the fixed cases.
    fn mismatches<D: search::Desk>(
        call: D::Call,
        name: &str,
        (seed, kinds): (u64, &[Kind<D::Case>]),
        fixed: impl IntoIterator<Item = Fixed<D>>,
    ) -> u64 {
        if name == "fixed cases" {
            return compare_fixed::<D>(call, fixed).mismatches;
        }
        let (seed, kind) = named(name, seed, kinds);
        compare::<D>(call, seed, kind, kind.cases.min(FEW)).mismatches
    }

    fn in_words(costliest: Costliest, name: &str) -> u64 {
        mismatches::<Numbers>(costliest, name, (SEED, &WORDS), fixed_words())
    }

    fn in_files(write: Write, name: &str) -> u64 {
        mismatches::<Output>(write, name, (FILE_SEED, &FILES), fixed_files())
    }

    /// Mismatches in the trees of the first grids.
    fn in_trees(calls: Calls) -> u64 {
        compare::<Tree>(calls, TREE_SEED, &TREES, 12).mismatches
    }

    /// The first cases of a kind.
    fn drawn<C>(name: &str, seed: u64, kinds: &[Kind<C>]) -> Vec<C> {
        let (seed, kind) = named(name, seed, kinds);
        let numbers = 0..kind.cases.min(FEW);
        numbers.map(|number| kind.case(seed, number)).collect()
    }

    /// Each kind has the words that it is for.
    #[test]
    fn words_are_what_they_say() {
        assert!(drawn("every grid", SEED, &WORDS).into_iter().eq(0..=300));
        let words = drawn("any word", SEED, &WORDS);
        let count = |wanted: fn(u32) -> bool| words.iter().filter(|&&g| wanted(g)).count();
        assert!(count(|g| (1..=256).contains(&g)) > 300);
        assert!(count(|g| g > 1 << 31) > 300);
        assert!(count(|g| g > 256 && (1..=256).contains(&(g & 0xffff))) > 300);
        assert!(FAR.iter().all(|&g| g > 300));
        let grids: Vec<u32> = (0..66).map(|number| TREES.case(0, number)).collect();
        assert_eq!(
            [grids[0], grids[63], grids[64], grids[65]],
            [1, 64, 128, 256]
        );
    }

    /// Each kind reaches the answers that it is for.
    #[test]
    fn lengths_are_what_they_say() {
        let answers = |name: &str| {
            let answer = |case: Case| rule::costliest::write(case.grid, &mut vec![0; case.out]);
            tally(drawn(name, FILE_SEED, &FILES).into_iter().map(answer))
        };
        let only = |name: &str, answer: u64| {
            assert!(answers(name).into_keys().eq([answer]), "{name}");
        };
        only("no room", 9);
        only("no grid", 3);
        let each = BTreeMap::from([(9, 80 + 192 + 496 + 1088), (80, 18), (192, 18)]);
        let each = each.into_iter().chain([(496, 18), (1088, 18)]);
        assert!(answers("every length").into_iter().eq(each));
        let near = answers("up to g 48");
        let accepted = (1..=48).map(|g| near[&rule::costliest::needed(g)]);
        assert!(accepted.eq([3; 48]) && near[&9] == 3 * 48);
        let large = drawn("large grids", FILE_SEED, &FILES).into_iter();
        let spare = |case: Case| {
            (
                case.grid,
                case.out as i64 - 64 - 16 * i64::from(case.grid).pow(3),
            )
        };
        let lengths = [0, -1, 999].repeat(3).into_iter().chain([0]);
        let grids = [128, 255, 256]
            .into_iter()
            .flat_map(|g| [g; 3])
            .chain([257]);
        assert!(large.map(spare).eq(grids.zip(lengths)));
    }

    /// Second implementations agree with the rule.
    #[test]
    fn plain_calls_agree() {
        for name in ["every grid", "any word", "fixed cases"] {
            assert_eq!(in_words(PLAIN.costliest, name), 0, "{name}");
        }
        for name in [
            "up to g 48",
            "every length",
            "no room",
            "no grid",
            "fixed cases",
        ] {
            assert_eq!(in_files(PLAIN.write, name), 0, "{name}");
        }
        assert_eq!(in_trees(PLAIN), 0);
    }

    /// Made-up faults are found, and where they should be.
    #[test]
    fn faults_are_found() {
        for (number, (faulty, name)) in COST_FAULTS.into_iter().enumerate() {
            assert!(in_words(faulty, name) > 0, "fault {number} in {name}");
        }
        let files = WRITE_FAULTS.into_iter().chain(LARGE_FAULTS);
        for (number, (faulty, name)) in files.enumerate() {
            assert!(in_files(faulty, name) > 0, "fault {number} in {name}");
        }
    }

    /// Faults of the numbers are found by the trees too, where no rule is asked; so are those of a file that is not in working form, or not full.
    #[test]
    fn faults_are_found_by_trees() {
        let counts = COST_FAULTS.iter().filter(|(_, name)| *name == "every grid");
        for (number, &(costliest, _)) in counts.enumerate() {
            let calls = Calls { costliest, ..PLAIN };
            assert!(in_trees(calls) > 0, "fault {number}");
        }
        let files: [Write; 5] = [
            |g, out| plain_write(Fault::XOutermost, g, out),
            |g, out| plain_write(Fault::PadOne, g, out),
            |g, out| plain_write(Fault::CountIsGrid, g, out),
            |g, out| plain_write(Fault::LastCellLeftOut, g, out),
            |g, out| plain_write(Fault::MaxAtMin, g, out),
        ];
        for (number, write) in files.into_iter().enumerate() {
            let calls = Calls { write, ..PLAIN };
            assert!(in_trees(calls) > 0, "fault {number}");
        }
    }

    /// A tree of more nodes or bytes is told, one of as many is not.
    #[test]
    fn costlier_trees_are_told() {
        let file = rule::costliest::file(3);
        let (_, built) = rule::tree::tree(&file);
        assert_eq!(above(&file, built), None);
        let nodes = Built {
            nodes: built.nodes + 1,
            ..built
        };
        let bytes = Built {
            answer: built.answer + 1,
            ..built
        };
        for built in [nodes, bytes] {
            let what = above(&file, built).expect("too many");
            assert!(what.ends_with("0 (9 nodes, 892 bytes)"), "{what}");
        }
        assert_eq!(above(&file, Built::refused(9)), None);
    }

    /// Other files of many grids, most of them accepted, some as costly as any.
    #[test]
    fn other_files_are_what_they_say() {
        let built = |number: u64| {
            let (_, case) = other_file(number);
            let most = most(rule::grid(&case.file));
            let mut out = vec![0; most.bytes as usize];
            let scratch = rule::tree::scratch_words(&case.file);
            let built = rule::tree::build(&case.file, scratch, &mut out);
            (case.grid, built.answer.min(64), built.nodes == most.nodes)
        };
        let seen: Vec<_> = (0..400).map(built).collect();
        let grids = tally(seen.iter().map(|(grid, _, _)| grid));
        let answers = tally(seen.iter().map(|(_, answer, _)| answer));
        let reached = seen.iter().filter(|(_, _, reached)| *reached).count();
        assert!(grids.into_keys().eq(&(1..=24).collect::<Vec<_>>()));
        assert!(answers.keys().eq(&[&21, &22, &64]), "{answers:?}");
        assert!(answers[&64] > 300 && (40..200).contains(&reached));
    }

    /// A build that needs a byte more than the costliest tree is found.
    #[test]
    fn refusals_of_other_files_are_found() {
        assert_eq!(compare_others(ffi::build, 400).mismatches, 0);
        let wants_more: Build = |file, scratch, out| {
            let last = out.len() - 1;
            ffi::build(file, scratch, &mut out[..last])
        };
        let found = compare_others(wants_more, 400).found();
        assert!(found.mismatches > 20);
        let what = found.smallest.expect("a mismatch");
        assert!(what.contains(": refused by 9 in "), "{what}");
    }

    #[test]
    fn the_smallest_is_told() {
        let wrong: Costliest = |_| Cost::refused(5);
        let what = compare::<Numbers>(wrong, SEED, &WORDS[0], 301).found();
        assert_eq!((what.cases.all(), what.mismatches), (301, 301));
        let what = what.smallest.expect("a mismatch");
        assert_eq!(what, "every grid, case 0: g 0: library answers 5, rule 3");
        let wrong: Write = |_, _| 5;
        let what = compare::<Output>(wrong, FILE_SEED, &FILES[1], 300).found();
        let what = what.smallest.expect("a mismatch");
        assert!(
            what.ends_with("g 1, output 0: library answers 5, rule 9"),
            "{what}"
        );
    }

    /// Beside the original: the trees alone.
    #[test]
    fn cases_are_counted_apart() {
        let beside = u64::from(original::AT_HAND);
        let trees = compare::<Tree>(PLAIN, TREE_SEED, &TREES, 10).found();
        assert_eq!(trees.cases.apart(), (10 * beside, 10 - 10 * beside));
        let words = compare::<Numbers>(ffi::costliest, SEED, &WORDS[0], 20).found();
        assert_eq!(words.cases.apart(), (0, 20));
        let files = compare::<Output>(ffi::write_costliest, FILE_SEED, &FILES[0], 20).found();
        assert_eq!(files.cases.apart(), (0, 20));
    }
}
