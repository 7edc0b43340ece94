//! Whether a point is inside a mesh: the proved library against the original and against the rule.

pub(crate) mod cases;

use crate::ffi;
use crate::fill::fixed::{low_wall, walls_at};
use crate::lent::{Floats, Lent};
use crate::meshes::{cuboid, dot, no_candidate, past_edge, relative_tie, Mesh};
use crate::open::cases::Kind;
use crate::original::{self, Answered, Verdict};
use crate::report::Report;
use crate::rng::Rng;
use crate::rule;
use crate::rule::fill::{Point, MOST_TRIANGLES, TRIANGLE};
use crate::search::{self, first, shared, Desk as _, Fixed, Search};
use cases::{Case, Cloud, CLOUDS, KINDS, POINTS};

/// An implementation of the inside test.
pub(crate) type Inside = fn(&[u8], Point, &mut [f64]) -> u64;

/// The seeds of the first kinds; the others follow.
const SEED: u64 = 501;
const REFUSED_SEED: u64 = 601;

/// The rule is asked about one point in so many.
const SHARE: usize = 4;

/// A mesh and scratch, and the answer that a call shall give.
struct Desk {
    mesh: Lent<u8>,
    floats: Floats,
    want: u64,
}

impl Desk {
    fn lay(&mut self, triangles: &[u8], junk: u32) {
        let shift = junk as usize % 16;
        self.mesh.fill(shift, triangles.iter().copied());
    }

    /// Makes a call on the mesh laid out: its answer, and what it did besides, if anything.
    fn call(
        &mut self,
        inside: Inside,
        point: Point,
        floats: usize,
        junk: u32,
    ) -> (u64, Option<String>) {
        self.floats.lay(junk, floats);
        let answer = inside(self.mesh.slice(), point, self.floats.slice_mut());
        let what = self.floats.broken("scratch");
        (answer, what.or_else(|| self.floats.scratched(answer, junk)))
    }

    /// A mesh that has changed, or a canary round it.
    fn changed(&self, triangles: &[u8]) -> Option<String> {
        let what = first("byte of the mesh", self.mesh.slice(), triangles);
        what.or_else(|| self.mesh.broken("mesh"))
    }

    /// Makes a call for each point of a cloud; says what differs from the original, or from the rule on a share of them.
    fn cloud(&mut self, inside: Inside, cloud: &Cloud, mut note: impl FnMut(usize, Verdict)) {
        self.lay(&cloud.triangles, cloud.junk);
        let mesh = rule::fill::Mesh::of(&cloud.triangles).expect("a good mesh");
        let floats = cloud.triangles.len() / TRIANGLE;
        let by_original = original::inside(&cloud.triangles, &cloud.points);
        let mut by_original = by_original.into_iter().flat_map(Answered::each);
        for (number, &point) in cloud.points.iter().enumerate() {
            let (got, what) = self.call(inside, point, floats, cloud.junk);
            let differs = |by: &str, want: bool| {
                let want = u64::from(want);
                (got != want).then(|| format!("library answers {got}, {by} {want}"))
            };
            let verdict =
                Verdict::by_original(by_original.next(), |want| differs("original", want));
            let asked = number.is_multiple_of(SHARE) || !verdict.is_beside();
            let whole = number == 0 || number == cloud.points.len() - 1;
            let verdict = verdict.and(|| {
                let by_rule = asked.then(|| mesh.inside(point));
                let wrong = by_rule.and_then(|want| differs("rule", want));
                Verdict::by_rule(wrong.or(what).or_else(|| match whole {
                    true => self.changed(&cloud.triangles),
                    false => self.mesh.broken("mesh"),
                }))
            });
            note(number, verdict);
        }
    }
}

impl search::Desk for Desk {
    type Case = Case;
    type Call = Inside;
    type Answer = u64;

    fn new() -> Self {
        Self {
            mesh: Lent::new(),
            floats: Lent::new(),
            want: 0,
        }
    }

    fn differs(&mut self, inside: Inside, case: &Case) -> Option<String> {
        self.lay(&case.triangles, case.junk);
        let want = rule::fill::inside(&case.triangles, case.point, case.floats as u64);
        self.want = want;
        let (got, what) = self.call(inside, case.point, case.floats, case.junk);
        if got != want {
            return Some(format!("library answers {got}, rule {want}"));
        }
        what.or_else(|| self.changed(&case.triangles))
            .map(|what| format!("answer {want}, {what}"))
    }

    fn beside_original(&self, case: &Case) -> Verdict {
        unlike_the_original(case, self.want)
    }

    fn want(&self) -> u64 {
        self.want
    }

    fn size(case: &Case) -> usize {
        case.triangles.len() + 8 * case.floats
    }

    fn described(case: &Case) -> String {
        described(&case.triangles, case.point, case.floats)
    }
}

/// Makes a call in lent buffers: its answer, and what it did besides.
pub(crate) fn called(inside: Inside, case: &Case) -> (u64, Option<String>) {
    let mut desk = Desk::new();
    desk.lay(&case.triangles, case.junk);
    let (answer, what) = desk.call(inside, case.point, case.floats, case.junk);
    (answer, what.or_else(|| desk.changed(&case.triangles)))
}

/// What the original says otherwise, where the rule has an answer.
pub(crate) fn unlike_the_original(case: &Case, answer: u64) -> Verdict {
    if answer > 1 {
        return Verdict::default();
    }
    let inside = original::inside(&case.triangles, &[case.point]);
    Verdict::by_original(inside, |told| {
        let other = told != [answer == 1];
        other.then(|| "the original answers otherwise".into())
    })
}

fn described(triangles: &[u8], point: Point, floats: usize) -> String {
    format!(
        "mesh {}, point {point:?}, scratch {floats}",
        triangles.len()
    )
}

/// Compares meshes with many points, the work shared out by their numbers; a case is a point.
fn compare_clouds(inside: Inside, seed: u64, kind: &Kind<Cloud>, meshes: u64) -> Search {
    shared(meshes, Desk::new, |search, desk, number| {
        let cloud = kind.case(seed, number);
        let floats = cloud.triangles.len() / TRIANGLE;
        let size = cloud.triangles.len() + 8 * floats;
        desk.cloud(inside, &cloud, |point, verdict| {
            let number = number * POINTS as u64 + point as u64;
            let told = |wrong| {
                let what = described(&cloud.triangles, cloud.points[point], floats);
                format!("{}, case {number}: {what}: {wrong}", kind.name)
            };
            search.note(size, number, verdict.told(told));
        });
    })
}

/// Small cases by name with their answers, which 01 or arithmetic gives.
pub(crate) fn small_fixed() -> Vec<(&'static str, Case, u64)> {
    let cube = cuboid([0.0; 3], [1.0; 3]);
    let at_origin = |distances: &[f64]| Case::of(&walls_at(distances), [0.0; 3]);
    let of_cube = |point: Point| Case::of(&cube, point);
    let height = |height: f64| Case::of(&low_wall(height), [0.0; 3]);
    let no_candidate = |by_x: bool| {
        let (mesh, point) = no_candidate(&mut Rng::new(1), 8, by_x);
        Case::of(&mesh, point)
    };
    let tie = relative_tie(&mut Rng::new(1));
    let mut not_a_number = cube.clone();
    not_a_number[7][2][1] = -f64::NAN;
    let most = 4e6f64;
    vec![
        (
            "crossings of 01",
            at_origin(&[10.0, 10.000009, 10.000018]),
            0,
        ),
        (
            "in another order",
            at_origin(&[10.000018, 10.000009, 10.0]),
            0,
        ),
        ("the first two", at_origin(&[10.0, 10.000009]), 1),
        ("the first and the last", at_origin(&[10.0, 10.000018]), 0),
        ("a tolerance apart", at_origin(&[1e-5, 2e-5]), 1),
        (
            "more than a tolerance apart",
            at_origin(&[1e-5, 2e-5f64.next_up()]),
            0,
        ),
        ("a distance of 1e-12", at_origin(&[1e-12]), 0),
        (
            "a distance above 1e-12",
            at_origin(&[1e-12f64.next_up()]),
            1,
        ),
        ("a determinant of 1e-12", height(5e-13), 1),
        ("a determinant below 1e-12", height(5e-13f64.next_down()), 0),
        ("the middle of a cube", of_cube([0.5; 3]), 1),
        ("through an edge", of_cube([0.5, 0.5, 0.0]), 1),
        ("through a corner", of_cube([-1.0; 3]), 0),
        ("beside a cube", of_cube([0.5, 0.5, 1.5]), 0),
        ("behind a cube", of_cube([1.5, 0.5, 0.5]), 0),
        ("the farthest point", of_cube([-most, most, -most]), 0),
        ("too far", of_cube([0.5, -most.next_up(), 0.5]), 17),
        ("no triangle", Case::of(&vec![], [0.0; 3]), 17),
        (
            "past an edge by rounding",
            Case::of(&vec![past_edge()], [0.0, 15.0, 16.0]),
            0,
        ),
        ("8e-7 of the farther apart", at_origin(&tie), 1),
        (
            "more than that apart",
            at_origin(&[tie[0].next_down(), tie[1]]),
            0,
        ),
        (
            "a point that is no number",
            of_cube([0.5, f64::NAN, 0.5]),
            17,
        ),
        (
            "a mesh that is no number",
            Case::of(&not_a_number, [0.5; 3]),
            17,
        ),
        ("no candidate by x", no_candidate(true), 0),
        ("no candidate by y and z", no_candidate(false), 0),
    ]
}

fn fixed() -> impl Iterator<Item = Fixed<Desk>> {
    let mut many: Mesh = vec![dot([0.25; 3]); MOST_TRIANGLES - 12];
    many.extend(cuboid([0.0; 3], [1.0; 3]));
    let most = Case::of(&many, [0.5; 3]);
    let mut short = most.clone();
    short.floats -= 1;
    many.push(dot([0.5; 3]));
    let mut fixed = small_fixed();
    fixed.extend([
        ("2^20 triangles", most, 1),
        ("2^20 triangles, a float short", short, 8),
        ("2^20 + 1 triangles", Case::of(&many, [0.5; 3]), 17),
    ]);
    fixed
        .into_iter()
        .map(|(name, case, answer)| (name, case, Some(answer)))
}

pub(crate) fn check(report: &mut Report) {
    for (seed, kind) in (SEED..).zip(&CLOUDS) {
        report.run(&format!("inside: {}", kind.name), || {
            compare_clouds(ffi::inside, seed, kind, kind.cases).found()
        });
    }
    let kinds = (REFUSED_SEED, &KINDS[..]);
    search::check::<Desk, _>(report, "inside", ffi::inside, kinds, fixed);
}

#[cfg(test)]
mod tests {
    use super::*;
    use crate::fill::plain::{plain_inside, Fault, INSIDE_FAULTS};
    use crate::search::{compare, compare_fixed, named, tally};
    use std::collections::BTreeMap;

    /// Whether the kinds of a name show that an implementation is wrong.
    fn finds(name: &str, inside: Inside) -> bool {
        let mut desk = Desk::new();
        for (seed, kind) in (SEED..).zip(&CLOUDS).filter(|(_, kind)| kind.name == name) {
            for number in 0..kind.cases {
                let mut found = false;
                let cloud = kind.case(seed, number);
                desk.cloud(inside, &cloud, |_, verdict| {
                    found |= verdict.wrong.is_some()
                });
                if found {
                    return true;
                }
            }
        }
        let kinds = (REFUSED_SEED..).zip(&KINDS);
        let mut kinds = kinds.filter(|(_, kind)| kind.name == name);
        kinds.any(|(seed, kind)| {
            let mut cases = (0..kind.cases).map(|number| kind.case(seed, number));
            cases.any(|case| desk.differs(inside, &case).is_some())
        })
    }

    /// The rule's answers on the first cases of a kind.
    fn answers(name: &str) -> BTreeMap<u64, u64> {
        let (seed, kind) = named(name, REFUSED_SEED, &KINDS);
        tally((0..600).map(|number| {
            let case = kind.case(seed, number);
            rule::fill::inside(&case.triangles, case.point, case.floats as u64)
        }))
    }

    /// Each kind reaches the answers that it is for.
    #[test]
    fn kinds_are_what_they_say() {
        let only = |name: &str, wanted: &[u64]| {
            let seen = answers(name);
            assert!(seen.keys().eq(wanted), "{name}: {seen:?}");
        };
        only("list lengths", &[0, 1, 17]);
        only("triangle numbers", &[0, 1, 17]);
        only("point numbers", &[0, 1, 17]);
        only("scratch lengths", &[0, 1, 8]);
        only("17 and 8 together", &[8, 17]);
        only("mutated bytes", &[0, 1, 17]);
        for (seed, kind) in (SEED..).zip(&CLOUDS) {
            let mut inside = 0;
            for cloud in (0..20).map(|number| kind.case(seed, number)) {
                let mesh = rule::fill::Mesh::of(&cloud.triangles).expect("a good mesh");
                let points = cloud.points.iter();
                inside += points.filter(|&&point| mesh.inside(point)).count();
            }
            let share = inside as f64 / (20 * POINTS) as f64;
            assert!((0.02..0.9).contains(&share), "{}: {share}", kind.name);
        }
    }

    /// A second implementation agrees with the rule and the original.
    #[test]
    fn plain_inside_agrees() {
        let plain: Inside = |mesh, point, floats| plain_inside(Fault::None, mesh, point, floats);
        for (seed, kind) in (SEED..).zip(&CLOUDS) {
            assert_eq!(compare_clouds(plain, seed, kind, 20).found().smallest, None);
        }
        for (seed, kind) in (REFUSED_SEED..).zip(&KINDS) {
            let found = compare::<Desk>(plain, seed, kind, 300).found();
            assert_eq!(found.smallest, None);
        }
    }

    /// Made-up faults are found, and where they should be.
    #[test]
    fn faults_are_found() {
        for (number, (faulty, name)) in INSIDE_FAULTS.into_iter().enumerate() {
            assert!(finds(name, faulty), "fault {number} in {name}");
        }
        let touches_scratch: Inside = |mesh, point, floats| {
            floats.iter_mut().take(1).for_each(|float| *float = 0.5);
            plain_inside(Fault::None, mesh, point, floats)
        };
        for name in ["list lengths", "point numbers", "scratch lengths"] {
            assert!(finds(name, touches_scratch), "{name}");
        }
        assert!(!finds("walls", touches_scratch));
    }

    #[test]
    fn the_smallest_is_told() {
        let wrong: Inside = |_, _, _| 5;
        let what = compare_clouds(wrong, SEED, &CLOUDS[0], 4).found();
        let points = 4 * POINTS as u64;
        assert_eq!((what.cases.all(), what.mismatches), (points, points));
        let what = what.smallest.expect("a mismatch");
        assert!(
            what.contains("tetrahedra, case 0: mesh 288, point ["),
            "{what}"
        );
        assert!(what.contains("scratch 4: library answers 5, "), "{what}");
    }

    #[test]
    fn fixed_answers_are_the_rules() {
        for (name, case, answer) in small_fixed() {
            let by_rule = rule::fill::inside(&case.triangles, case.point, case.floats as u64);
            assert_eq!(by_rule, answer, "{name}");
        }
    }

    /// A rule that is not the original's is told, though the library has it too.
    #[cfg(original)]
    #[test]
    fn the_original_is_asked() {
        let case = Case::of(&cuboid([0.0; 3], [1.0; 3]), [0.5; 3]);
        let told = |answer: u64| unlike_the_original(&case, answer).wrong;
        assert_eq!(told(1), None);
        assert!(told(0).is_some());
        assert_eq!(told(17), None);
    }

    /// Beside the original: each point of a cloud, and a call that has an answer. By the rule alone: a refusal.
    #[test]
    fn cases_are_counted_apart() {
        let points = compare_clouds(ffi::inside, SEED, &CLOUDS[0], 2).found();
        let all = 2 * POINTS as u64;
        let beside = all * u64::from(original::AT_HAND);
        assert_eq!(points.cases.apart(), (beside, all - beside));
        let cube = cuboid([0.0; 3], [1.0; 3]);
        for (x, asked) in [(0.5, true), (1.5, true), (5e6, false)] {
            let case = Case::of(&cube, [x; 3]);
            let found = compare_fixed::<Desk>(ffi::inside, [("", case, None)]).found();
            let beside = u64::from(asked && original::AT_HAND);
            assert_eq!(found.cases.apart(), (beside, 1 - beside));
        }
    }
}
