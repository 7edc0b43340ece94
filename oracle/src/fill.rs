//! Filling a mesh: the proved library against the rule, and the rule against the original.

pub(crate) mod cases;
pub(crate) mod fixed;
#[cfg(test)]
pub(crate) mod plain;

use crate::ffi;
use crate::lent::{Floats, Lent};
use crate::original::{self, Verdict};
use crate::report::Report;
use crate::rule;
use crate::rule::fill::Body;
use crate::search::{self, first};
use cases::{Case, KINDS};

/// An implementation of fill.
pub(crate) type Fill = fn(&Body, &mut [f64], &mut [u8]) -> u64;

/// The seed of the first kind; the others follow.
const SEED: u64 = 401;

/// One call's lists and buffers, the answer that it shall give, and what the output shall hold afterwards.
struct Desk {
    lists: [Lent<u8>; 3],
    floats: Floats,
    out: Lent<u8>,
    want: u64,
    want_out: Vec<u8>,
}

const LISTS: [&str; 3] = ["mesh", "Cauchy kernels", "elliptic kernels"];

impl Desk {
    /// Lays out what a case gives and lends, with these bytes as the output.
    fn lay(&mut self, case: &Case, out: impl ExactSizeIterator<Item = u8>) {
        let shift = case.junk as usize % 16;
        let lists = [&case.triangles, &case.cauchy, &case.elliptic];
        for (lent, list) in self.lists.iter_mut().zip(lists) {
            lent.fill(shift, list.iter().copied());
        }
        self.floats.lay(case.junk, case.floats);
        self.out.fill(shift / 2, out);
    }

    fn call(&mut self, fill: Fill, case: &Case) -> u64 {
        let [triangles, cauchy, elliptic] = self.lists.each_ref().map(Lent::slice);
        let body = Body {
            triangles,
            cauchy,
            elliptic,
            ..case.body()
        };
        fill(&body, self.floats.slice_mut(), self.out.slice_mut())
    }

    /// What a call of this answer did besides: to a list, to a canary, to scratch that it has to leave.
    fn besides(&self, case: &Case, answer: u64) -> Option<String> {
        let lists = [&case.triangles, &case.cauchy, &case.elliptic];
        let named = self.lists.iter().zip(lists).zip(LISTS);
        let mut told = named.filter_map(|((lent, list), name)| {
            first(&format!("byte of the {name}"), lent.slice(), list).or_else(|| lent.broken(name))
        });
        told.next()
            .or_else(|| self.floats.broken("scratch"))
            .or_else(|| self.out.broken("output"))
            .or_else(|| self.floats.scratched(answer, case.junk))
    }
}

impl search::Desk for Desk {
    type Case = Case;
    type Call = Fill;
    type Answer = u64;

    fn new() -> Self {
        Self {
            lists: [Lent::new(), Lent::new(), Lent::new()],
            floats: Lent::new(),
            out: Lent::new(),
            want: 0,
            want_out: Vec::new(),
        }
    }

    fn differs(&mut self, fill: Fill, case: &Case) -> Option<String> {
        self.lay(case, case.out_before());
        self.want_out.clear();
        self.want_out.extend_from_slice(self.out.slice());
        let want = rule::fill::fill(&case.body(), case.floats as u64, &mut self.want_out);
        self.want = want;
        let got = self.call(fill, case);
        if got != want {
            return Some(format!("library answers {got}, rule {want}"));
        }
        first("output byte", self.out.slice(), &self.want_out)
            .or_else(|| self.besides(case, want))
            .map(|what| format!("answer {want}, {what}"))
    }

    fn beside_original(&self, case: &Case) -> Verdict {
        unlike_the_original(&case.body(), self.want, &self.want_out)
    }

    fn want(&self) -> u64 {
        self.want
    }

    fn size(case: &Case) -> usize {
        let lists = case.triangles.len() + case.cauchy.len() + case.elliptic.len();
        lists + 8 * case.floats + case.out
    }

    fn described(case: &Case) -> String {
        let Case {
            grid,
            triangles,
            cauchy,
            elliptic,
            ..
        } = case;
        format!(
            "g {grid}, mesh {}, kernels {} and {}, target {:e}, density {:e}, scratch {}, output {}",
            triangles.len(),
            cauchy.len(),
            elliptic.len(),
            case.target,
            case.density,
            case.floats,
            case.out
        )
    }
}

/// Makes a call in lent buffers, with these bytes as the output: its answer, the output afterwards, what it did besides.
pub(crate) fn called(fill: Fill, case: &Case, out: &[u8]) -> (u64, Vec<u8>, Option<String>) {
    let mut desk: Desk = search::Desk::new();
    desk.lay(case, out.iter().copied());
    let answer = desk.call(fill, case);
    let besides = desk.besides(case, answer);
    (answer, desk.out.slice().to_vec(), besides)
}

/// Whether min is below max on each axis of a point file.
fn has_room(file: &[u8]) -> bool {
    let float = |at: usize| f32::from_le_bytes([0, 1, 2, 3].map(|byte| file[at + byte]));
    rule::AXES.iter().all(|&(min, max)| float(min) < float(max))
}

/// What differs from the original where the rule accepts; where it refuses by 18, 19 or 20, whether the original's own answer says so too.
pub(crate) fn unlike_the_original(body: &Body, answer: u64, out: &[u8]) -> Verdict {
    if !matches!(answer, 18..=20 | 64..) {
        return Verdict::default();
    }
    Verdict::by_original(original::filled(body), |filled| {
        let told = match (answer, filled) {
            (18, Err(_)) | (19, Err(_)) => return None,
            (19, Ok(file)) if !has_room(&file) => return None,
            (20, Ok(file)) if !rule::fill::is_finite(&file) => return None,
            (64.., Ok(file)) if file.len() as u64 == answer => {
                return first("byte beside the original", out, &file)
            }
            (_, Ok(file)) => format!("writes {} bytes", file.len()),
            (_, Err(refusal)) => format!("says {refusal:?}"),
        };
        Some(format!("the original {told}"))
    })
}

pub(crate) fn check(report: &mut Report) {
    search::check::<Desk, _>(report, "fill", ffi::fill, (SEED, &KINDS), fixed::all);
}

#[cfg(test)]
mod tests {
    use super::cases::{pair_of, CAUSES};
    use super::plain::{plain_fill, Fault, FILL_FAULTS};
    use super::*;
    use crate::meshes::{bytes, cuboid, dot};
    use crate::open::cases::Kind;
    use crate::search::{compare, compare_fixed, named, tally, Desk as _};
    use std::collections::{BTreeMap, BTreeSet};

    fn kind(name: &str) -> (u64, &'static Kind<Case>) {
        named(name, SEED, &KINDS)
    }

    fn by_rule(case: &Case) -> (u64, Vec<u8>) {
        let mut out = vec![0; case.out];
        let answer = rule::fill::fill(&case.body(), case.floats as u64, &mut out);
        (answer, out)
    }

    /// The rule's answers on the first cases of a kind.
    fn answers(name: &str) -> BTreeMap<u64, u64> {
        let (seed, kind) = kind(name);
        let cases = (0..kind.cases.min(300)).map(|number| kind.case(seed, number));
        tally(cases.map(|case| by_rule(&case).0.min(64)))
    }

    /// Each kind reaches the answers that it is for.
    #[test]
    fn kinds_are_what_they_say() {
        let only = |name: &str, wanted: &[u64]| {
            let seen = answers(name);
            assert!(seen.keys().eq(wanted), "{name}: {seen:?}");
        };
        for name in [
            "tetrahedra",
            "lumpy spheres",
            "no inside point",
            "slivers",
            "large grids",
        ] {
            only(name, &[64]);
        }
        for name in ["boxes", "contact binaries", "capacity"] {
            only(name, &[18, 64]);
        }
        only("over capacity", &[18]);
        only("flat boxes", &[18, 19, 64]);
        only("infinite masses", &[20, 64]);
        only("narrowing ties", &[20, 64]);
        only("extreme numbers", &[18, 19, 20, 64]);
        only("grid sizes", &[3, 9]);
        let most = |name: &str, least: u64| {
            let seen = answers(name);
            assert!(seen[&64] >= least, "{name}: {seen:?}");
        };
        for name in [
            "boxes",
            "contact binaries",
            "open soups",
            "degenerate triangles",
            "edges through middles",
            "negative zeros",
            "cancelling kernels",
            "tiny weights",
            "walls",
        ] {
            most(name, 250);
        }
        for name in [
            "list lengths",
            "triangle numbers",
            "kernel numbers",
            "lone numbers",
        ] {
            let seen = answers(name);
            assert!(seen[&17] > 150 && seen[&64] > 50, "{name}: {seen:?}");
        }
        let seen = answers("buffer lengths");
        assert!(
            [8, 9, 64].iter().all(|answer| seen[answer] > 50),
            "{seen:?}"
        );
        let seen = answers("several causes");
        assert!(
            [3, 8, 9, 17].iter().all(|answer| seen[answer] > 5),
            "{seen:?}"
        );
    }

    /// A case with two causes is refused by the first in the order.
    #[test]
    fn pairs_are_refused_by_the_first() {
        let (seed, kind) = kind("pairs of causes");
        let mut seen = BTreeSet::new();
        for number in 0..210 {
            let (answer, _) = by_rule(&kind.case(seed, number));
            let pair = pair_of(number as usize);
            assert_eq!(answer, pair[0], "case {number}");
            seen.insert(pair);
        }
        assert_eq!(seen.len(), CAUSES.len() * (CAUSES.len() - 1) / 2);
    }

    /// Files of the kind hold what it is for.
    #[test]
    fn files_are_met() {
        let count = |name: &str, wanted: fn(&[u8]) -> bool| {
            let (seed, kind) = kind(name);
            let cases = (0..300).map(|number| kind.case(seed, number));
            let wanted = |case: &Case| {
                let (answer, out) = by_rule(case);
                answer >= 64 && wanted(&out[..answer as usize])
            };
            cases.filter(wanted).count()
        };
        fn has_mass(file: &[u8], wanted: fn(u32) -> bool) -> bool {
            let (words, _) = file[64..].as_chunks::<4>();
            let words = words.iter().map(|word| u32::from_le_bytes(*word));
            let mut masses = words.enumerate().filter(|(place, _)| place % 4 > 1);
            masses.any(|(_, bits)| wanted(bits))
        }
        let many = |file: &[u8]| file.len() > 64 + 16 * 8;
        let unscaled = |file: &[u8]| file[24..28] == 1f32.to_le_bytes();
        let minus_zero = |file: &[u8]| has_mass(file, |bits| bits == 0x8000_0000);
        let subnormal = |file: &[u8]| {
            has_mass(file, |bits| {
                (1..0x0080_0000).contains(&(bits & 0x7fff_ffff))
            })
        };
        assert!(count("tetrahedra", many) > 50);
        assert!(count("edges through middles", many) > 30);
        assert!((50..250).contains(&count("tetrahedra", unscaled)));
        assert!(count("tiny weights", minus_zero) > 10);
        assert!(count("tiny weights", subnormal) > 10);
        assert!(
            count("cancelling kernels", |file| has_mass(file, |bits| bits
                == 0))
                > 10
        );
    }

    /// The original is compiled at each grid size of a kind that is for it.
    #[test]
    fn every_grid_size_is_met() {
        let grids = |name: &str| {
            let (seed, kind) = kind(name);
            let grids = (0..kind.cases).map(|number| kind.case(seed, number).grid);
            grids.collect::<BTreeSet<u32>>()
        };
        for name in ["tetrahedra", "boxes", "edges through middles"] {
            assert!(grids(name).into_iter().eq(1..=24), "{name}");
        }
        let large = grids("large grids");
        assert!(large.into_iter().eq([28, 32, 40, 48]));
        #[cfg(original)]
        for kind in KINDS.iter().take_while(|kind| kind.name != "list lengths") {
            let compiled = |&g: &u32| original::GRID_SIZES.contains(&(g as usize));
            assert!(grids(kind.name).iter().all(compiled), "{}", kind.name);
        }
    }

    /// A second implementation agrees with the rule and the original.
    #[test]
    fn plain_fill_agrees() {
        let plain: Fill = |body, floats, out| plain_fill(Fault::None, body, floats, out);
        for (seed, kind) in (SEED..).zip(&KINDS) {
            let found = compare::<Desk>(plain, seed, kind, kind.cases.min(100)).found();
            assert_eq!(found.smallest, None);
        }
    }

    /// Whether a kind, or the small fixed cases, show that an implementation is wrong.
    fn finds(name: &str, fill: Fill) -> bool {
        let mut desk = Desk::new();
        let mut differs = |case: &Case| desk.differs(fill, case).is_some();
        if name == "fixed cases" {
            return fixed::small().iter().any(|(_, case, _)| differs(case));
        }
        let (seed, kind) = kind(name);
        let mut cases = (0..kind.cases).map(|number| kind.case(seed, number));
        cases.any(|case| differs(&case))
    }

    /// Each of the floats that can be too large, by itself: a mass of either list, a raw sum, a scale, a product; what the rest would be is
    /// finite. With more points than half the cells it is 18, and the output all zero.
    #[test]
    fn floats_are_too_large_each_way() {
        let of = |name: &str| {
            let mut cases = fixed::small().into_iter();
            cases.find(|case| case.0 == name).expect("a case").1
        };
        let (cube, mut out) = (of("g 2, masses infinite"), [0xa5; 137]);
        let answer = rule::fill::fill(&cube.body(), cube.floats as u64, &mut out);
        assert_eq!((answer, out), (18, [0; 137]));
        #[cfg(original)]
        {
            let words = |name: &str| {
                let filled = original::filled(&of(name).body()).expect("at hand").taken();
                let file = filled.expect("few points");
                let finite = |bytes: &[u8; 4]| f32::from_le_bytes(*bytes).is_finite();
                let endless = file.as_chunks().0.iter().enumerate();
                let endless = endless.filter(|(_, word)| !finite(word));
                endless.map(|(at, _)| at).collect::<BTreeSet<usize>>()
            };
            let of_list = |list: usize| [0, 1, 2, 3].map(|point| 18 + list + 4 * point);
            assert_eq!(words("a Cauchy mass"), [18, 22].into());
            assert_eq!(words("an elliptic mass"), [19, 23].into());
            assert_eq!(words("a Cauchy sum"), [14].into());
            assert_eq!(words("an elliptic sum"), [15].into());
            assert_eq!(words("nearly both sums"), [].into());
            let with_scale = [6].into_iter().chain(of_list(0)).collect();
            assert_eq!(words("a Cauchy scale"), with_scale);
            assert_eq!(words("an elliptic scale"), of_list(1).into());
            assert_eq!(words("a product"), [18, 22].into());
        }
    }

    /// Made-up faults are found, and where they should be.
    #[test]
    fn faults_are_found() {
        for (number, (faulty, name)) in FILL_FAULTS.into_iter().enumerate() {
            assert!(finds(name, faulty), "fault {number} in {name}");
        }
    }

    /// Made-up faults of a call are found, and where they should be.
    #[test]
    fn faults_of_calls_are_found() {
        let touches_scratch: Fill = |body, floats, out| {
            floats.iter_mut().take(1).for_each(|float| *float = 0.5);
            plain_fill(Fault::None, body, floats, out)
        };
        for name in ["grid sizes", "list lengths", "buffer lengths"] {
            assert!(finds(name, touches_scratch), "{name}");
        }
        assert!(!finds("no inside point", touches_scratch));
        let touches_output: Fill = |body, floats, out| {
            let answer = plain_fill(Fault::None, body, floats, out);
            if matches!(answer, 3..=17 | 19) {
                out.iter_mut().take(1).for_each(|byte| *byte ^= 1);
            }
            answer
        };
        for name in [
            "grid sizes",
            "list lengths",
            "flat boxes",
            "pairs of causes",
        ] {
            assert!(finds(name, touches_output), "{name}");
        }
    }

    #[test]
    fn the_smallest_is_told() {
        let wrong: Fill = |_, _, _| 5;
        let (seed, kind) = kind("no inside point");
        let what = compare::<Desk>(wrong, seed, kind, 100).found();
        assert_eq!((what.cases.all(), what.mismatches), (100, 100));
        let what = what.smallest.expect("a mismatch");
        assert!(what.contains("g 1, mesh 72, kernels "), "{what}");
        assert!(what.ends_with("library answers 5, rule 64"), "{what}");
    }

    #[test]
    fn fixed_answers_are_the_rules() {
        for (name, case, answer) in fixed::small() {
            let mut out = vec![0; case.out];
            let by_rule = rule::fill::fill(&case.body(), case.floats as u64, &mut out);
            assert_eq!(by_rule, answer, "{name}");
        }
    }

    /// A rule that is not the original's is told, though the library has it too.
    #[cfg(original)]
    #[test]
    fn the_original_is_asked() {
        let case = Case::of(1, &cuboid([0.0; 3], [1.0; 3]));
        let mut out = vec![0; 80];
        let answer = rule::fill::fill(&case.body(), 12, &mut out);
        let told = |answer: u64, out: &[u8]| unlike_the_original(&case.body(), answer, out).wrong;
        assert_eq!((answer, told(80, &out)), (80, None));
        out[70] ^= 1;
        let what = told(80, &out).expect("a difference");
        assert!(what.starts_with("byte beside the original 70 is"), "{what}");
        for answer in [18, 19, 20, 64, 96] {
            assert_eq!(
                told(answer, &out).as_deref(),
                Some("the original writes 80 bytes")
            );
        }
        for answer in [3, 17, 8, 9] {
            assert_eq!(told(answer, &out), None);
        }
        let over = Case::of(2, &cuboid([0.0; 3], [1.0; 3]));
        assert_eq!(unlike_the_original(&over.body(), 18, &[]).wrong, None);
        let what = unlike_the_original(&over.body(), 64, &[]).wrong;
        let what = what.expect("a difference");
        assert!(what.contains("capacity exceeded"), "{what}");
    }

    /// The same at g 64 and at the original's own grid size, in the last byte of a file.
    #[cfg(original)]
    #[test]
    fn the_original_is_asked_at_its_own_grid() {
        let plates = fixed::large().into_iter();
        let plates = plates.filter(|(name, _, _)| name.ends_with("a plate"));
        let mut grids = Vec::new();
        for (name, case, known) in plates {
            let (answer, mut out) = by_rule(&case);
            assert_eq!(answer, known, "{name}");
            let last = answer as usize - 1;
            out[last] ^= 1;
            let verdict = unlike_the_original(&case.body(), answer, &out);
            assert!(verdict.is_beside());
            let what = verdict.wrong.expect("a difference");
            let told = format!("byte beside the original {last} is");
            assert!(what.starts_with(&told), "{what}");
            grids.push(case.grid);
        }
        assert_eq!(grids, [64, 192]);
    }

    /// Beside the original: accepted, or refused by 18 to 20, at a grid size that is compiled. By the rule alone: g 25 and 256, which
    /// are not, and what is refused before the original would be asked.
    #[test]
    fn cases_are_counted_apart() {
        let dots = [dot([0.0; 3]), dot([1.0; 3])];
        let cube = cuboid([0.0; 3], [1.0; 3]);
        let flat = cuboid([999_999.99; 3], [1e6; 3]);
        let heavy = |grid: usize| Case {
            cauchy: bytes(&[0.0, 0.0, 0.0, 0.0, 1e30]),
            ..Case::of(grid, &fixed::corner(3e4))
        };
        let short = Case {
            floats: 1,
            ..Case::of(64, &dots)
        };
        let cases = [
            (Case::of(24, &dots), 64, true),
            (Case::of(25, &dots), 64, false),
            (Case::of(64, &dots), 64, true),
            (Case::of(256, &dots), 64, false),
            (Case::of(2, &cube), 18, true),
            (Case::of(25, &cube), 18, false),
            (Case::of(2, &flat), 19, true),
            (Case::of(25, &flat), 19, false),
            (heavy(4), 20, true),
            (heavy(25), 20, false),
            (short, 8, false),
            (Case::of(64, &[]), 17, false),
        ];
        for (number, (case, answer, asked)) in cases.into_iter().enumerate() {
            let found = compare_fixed::<Desk>(ffi::fill, [("", case, Some(answer))]).found();
            let beside = u64::from(asked && original::AT_HAND);
            assert_eq!(found.cases.apart(), (beside, 1 - beside), "{number}");
            assert_eq!(found.smallest, None);
        }
    }
}
