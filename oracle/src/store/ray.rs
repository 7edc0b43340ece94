//! `ray.bin`: 104 bytes for each case, answers by the original.
//!
//! Binary64, little endian: three numbers of a point, nine of a triangle (a, b, c), the distance at which the ray along +X from the
//! point crosses the triangle, or −1 for a miss.

use super::blocks;
use crate::ffi;
use crate::meshes::{anywhere, between, bytes as number_bytes, mesh_bytes, wall, Slivers};
use crate::open::cases::{one_in, pick, up_to};
use crate::original::{self, Answered, Verdict};
use crate::report::Found;
use crate::rng::Rng;
use crate::rule;
use crate::rule::fill::{
    crossing, numbers, steps, Point, Steps, Triangle, EPS, FARTHEST, FARTHEST_POINT,
};
use std::collections::HashSet;

const BLOCK: usize = 104;
const CASES: usize = 2000;

const DISTANCE: usize = 96;
const MISS: f64 = -1.0;

const SEED: u64 = 0x7261_7973;

/// A point and a triangle.
#[derive(Clone, Copy)]
struct Ray {
    point: Point,
    triangle: Triangle,
}

/// The rules' ray: distance 1.
const MODEL: Ray = Ray {
    point: [0.0; 3],
    triangle: [[1.0, -1.0, -1.0], [1.0, 1.0, -1.0], [1.0, 0.0, 1.0]],
};

/// The first bound that a ray misses by, else where it crosses: within the triangle, on an edge, at a corner.
#[derive(Clone, Copy, Debug, PartialEq, Eq, PartialOrd, Ord)]
enum Way {
    Determinant,
    UBelow,
    UAbove,
    VBelow,
    SumAbove,
    Behind,
    Near,
    Within,
    UZero,
    VZero,
    SumOne,
    CornerA,
    CornerB,
    CornerC,
}

const WAYS: [Way; 14] = [
    Way::Determinant,
    Way::Within,
    Way::UBelow,
    Way::UZero,
    Way::UAbove,
    Way::VZero,
    Way::VBelow,
    Way::SumOne,
    Way::SumAbove,
    Way::CornerA,
    Way::Behind,
    Way::CornerB,
    Way::Near,
    Way::CornerC,
];

impl Ray {
    fn way(&self) -> Way {
        let Steps {
            determinant,
            u,
            v,
            distance,
        } = steps(self.point, self.triangle);
        let sum = u + v;
        match (u == 0.0, v == 0.0, sum == 1.0) {
            _ if determinant.abs() < EPS => Way::Determinant,
            _ if u < 0.0 => Way::UBelow,
            _ if u > 1.0 => Way::UAbove,
            _ if v < 0.0 => Way::VBelow,
            _ if sum > 1.0 => Way::SumAbove,
            _ if distance < 0.0 => Way::Behind,
            _ if distance <= EPS => Way::Near,
            (true, true, _) => Way::CornerA,
            (_, true, true) => Way::CornerB,
            (true, _, true) => Way::CornerC,
            (true, _, _) => Way::UZero,
            (_, true, _) => Way::VZero,
            (_, _, true) => Way::SumOne,
            _ => Way::Within,
        }
    }

    fn numbers(&self) -> Vec<f64> {
        let corners = self.triangle.as_flattened().iter();
        self.point.iter().chain(corners).copied().collect()
    }

    fn of(numbers: &[f64]) -> Self {
        let (points, _) = numbers.as_chunks::<3>();
        Self {
            point: points[0],
            triangle: [points[1], points[2], points[3]],
        }
    }

    /// Each number changed.
    fn map(&self, mut change: impl FnMut(f64) -> f64) -> Self {
        Self {
            point: self.point.map(&mut change),
            triangle: self.triangle.map(|corner| corner.map(&mut change)),
        }
    }

    /// Numbers that a call takes.
    fn is_good(&self) -> bool {
        let within = |numbers: &[f64], most| numbers.iter().all(|number| number.abs() <= most);
        within(&self.point, FARTHEST_POINT) && within(self.triangle.as_flattened(), FARTHEST)
    }

    /// Corners in any order.
    fn turned(mut self, rng: &mut Rng) -> Self {
        self.triangle.rotate_left(up_to(rng, 2));
        if one_in(rng, 2) {
            self.triangle.swap(0, 1);
        }
        self
    }
}

type Draw = fn(&mut Rng) -> Ray;

/// What rays are drawn from, and the ways wanted of it.
const KINDS: [(Draw, &[Way]); 8] = [
    (lattice, &WAYS),
    (negative_zeros, &WAYS),
    (beside, &BESIDE),
    (aimed, &AIMED),
    (far, &AIMED),
    (thin, &THIN),
    (near, &NEAR),
    (sliver, &SLIVER),
];

const BESIDE: [Way; 8] = [
    Way::UBelow,
    Way::Within,
    Way::UAbove,
    Way::UZero,
    Way::VBelow,
    Way::VZero,
    Way::SumAbove,
    Way::SumOne,
];

const AIMED: [Way; 10] = [
    Way::UBelow,
    Way::Within,
    Way::UAbove,
    Way::Within,
    Way::VBelow,
    Way::Within,
    Way::SumAbove,
    Way::Within,
    Way::Behind,
    Way::Within,
];

const THIN: [Way; 5] = [
    Way::Determinant,
    Way::Within,
    Way::Within,
    Way::Determinant,
    Way::Within,
];

const NEAR: [Way; 4] = [Way::Near, Way::Within, Way::Behind, Way::Within];

const SLIVER: [Way; 4] = [Way::Within, Way::UBelow, Way::Within, Way::VBelow];

/// Small whole numbers: edges and corners are met exactly, but for the rounding of the inverse.
fn lattice(rng: &mut Rng) -> Ray {
    let most: u64 = pick(rng, &[1, 2, 2, 4, 8, 31]);
    let unit: f64 = pick(rng, &[1.0, 1.0, 0.25, 1024.0, 1e-3]);
    let mut whole = || (rng.range(0, 2 * most) as f64 - most as f64) * unit;
    MODEL.map(|_| whole())
}

/// The same with some or all zeros negative.
fn negative_zeros(rng: &mut Rng) -> Ray {
    loop {
        let ray = lattice(rng);
        let ray = ray.map(|number| match number == 0.0 && !one_in(rng, 4) {
            true => -0.0,
            false => number,
        });
        let negative = |number: &f64| number.to_bits() == (-0.0f64).to_bits();
        if ray.numbers().iter().any(negative) {
            return ray;
        }
    }
}

/// The number so many places on in the order of numbers, or back.
fn nudged(number: f64, places: u64, up: bool) -> f64 {
    (0..places).fold(number, |number, _| match up {
        true => number.next_up(),
        false => number.next_down(),
    })
}

/// A ray on an edge or at a corner, its y or z a few places off.
fn beside(rng: &mut Rng) -> Ray {
    loop {
        let mut ray = lattice(rng);
        if ray.way() > Way::Within {
            let axis = 1 + up_to(rng, 1);
            ray.point[axis] = nudged(ray.point[axis], rng.range(1, 3), one_in(rng, 2));
            return ray;
        }
    }
}

/// A point from which a place in or beside the triangle is ahead or behind.
fn aim(rng: &mut Rng, triangle: Triangle, size: f64) -> Ray {
    let [u, v] = [0; 2].map(|_| between(rng, -0.4, 1.1));
    let [a, b, c] = triangle;
    let mut point = [0, 1, 2].map(|axis| {
        let (e1, e2) = (b[axis] - a[axis], c[axis] - a[axis]);
        a[axis] + u * e1 + v * e2
    });
    point[0] -= between(rng, -1.0, 3.0) * size;
    Ray { point, triangle }
}

/// Triangles of any size, near the origin or away from it.
fn aimed(rng: &mut Rng) -> Ray {
    let size = pick(rng, &[1e-5, 1e-2, 1.0, 30.0, 5e3]);
    let middle = pick(rng, &[0.0, 1.0, 40.0, -7e4]);
    let triangle = [[0.0; 3]; 3].map(|_| anywhere(rng, middle - size, middle + size));
    aim(rng, triangle, size)
}

/// Corners at the bound of coordinates, and points at their own.
fn far(rng: &mut Rng) -> Ray {
    loop {
        let mut coordinate = || match rng.below(3) {
            0 => between(rng, -FARTHEST, FARTHEST),
            1 => -FARTHEST,
            _ => FARTHEST,
        };
        let triangle = MODEL.map(|_| coordinate()).triangle;
        let mut ray = aim(rng, triangle, FARTHEST);
        let most = pick(rng, &[FARTHEST_POINT, -FARTHEST_POINT]);
        match rng.below(4) {
            0 => ray.point[0] = most,
            1 => ray.point[0] = -FARTHEST_POINT,
            2 => ray.point[up_to(rng, 2)] = most,
            _ => (),
        }
        if ray.is_good() {
            return ray;
        }
    }
}

/// 1e-12, or a number beside it.
fn about_eps(rng: &mut Rng) -> f64 {
    let places: u64 = pick(rng, &[0, 0, 1, 1, 2, 5, 1 << 20]);
    let bits = EPS.to_bits();
    f64::from_bits(match one_in(rng, 2) {
        true => bits + places,
        false => bits - places,
    })
}

/// A wall whose determinant is about 1e-12, of either sign.
fn thin(rng: &mut Rng) -> Ray {
    let width = pick(rng, &[1.0, 2.0, 0.5, 1024.0]);
    let half = about_eps(rng) / (4.0 * width);
    let x = pick(rng, &[1.0, 3.0, 0.1, FARTHEST]);
    let [a, b] = [-half, half].map(|y| [x, y, -width]);
    let triangle = [a, b, [x, 0.0, width]];
    Ray { triangle, ..MODEL }.turned(rng)
}

/// A wall at about 1e-12 ahead, at 0, or behind.
fn near(rng: &mut Rng) -> Ray {
    let distance = match rng.below(8) {
        0 => pick(rng, &[0.0, -0.0, f64::MIN_POSITIVE, 5e-324]),
        1 => -about_eps(rng),
        _ => about_eps(rng),
    };
    let triangle = wall(distance);
    Ray { triangle, ..MODEL }.turned(rng)
}

/// A triangle seen almost from the edge: its steps are mostly rounding.
fn sliver(rng: &mut Rng) -> Ray {
    let slivers = Slivers::new(rng, 8, 1);
    Ray {
        point: slivers.at(between(rng, -0.2, 0.9), up_to(rng, 7)),
        triangle: slivers.mesh[2],
    }
}

/// The model, then each kind and each way wanted of it in turn; no ray twice.
fn cases() -> Vec<Ray> {
    let mut rng = Rng::new(SEED);
    let mut seen = HashSet::from([number_bytes(&MODEL.numbers())]);
    let mut cases = vec![MODEL];
    let kinds = KINDS
        .iter()
        .flat_map(|(draw, ways)| ways.iter().map(move |way| (draw, way)));
    for (draw, way) in kinds.cycle() {
        if cases.len() == CASES {
            break;
        }
        let ray = loop {
            let ray = draw(&mut rng);
            if ray.way() == *way {
                break ray;
            }
        };
        if seen.insert(number_bytes(&ray.numbers())) {
            cases.push(ray);
        }
    }
    cases
}

fn by_rule(ray: &Ray) -> f64 {
    crossing(ray.point, ray.triangle).unwrap_or(MISS)
}

fn by_original(ray: &Ray) -> Option<Answered<f64>> {
    original::ray(ray.point, &ray.triangle)
}

/// The ray and its distance: the original's, the rule's where it is not at hand.
fn block(ray: &Ray) -> Vec<u8> {
    let distance = by_original(ray).map_or_else(|| by_rule(ray), Answered::taken);
    let mut numbers = ray.numbers();
    numbers.push(distance);
    number_bytes(&numbers)
}

/// The bytes of `ray.bin`.
pub(super) fn bytes() -> Vec<u8> {
    cases().iter().flat_map(block).collect()
}

/// The ray and the distance in a block.
fn read(block: &[u8]) -> (Ray, f64) {
    (Ray::of(&numbers(&block[..DISTANCE])), numbers(block)[12])
}

/// What is wrong with a distance, to the last bit.
fn differs(by: &str, distance: f64, stored: f64) -> Option<String> {
    let other = distance.to_bits() != stored.to_bits();
    other.then(|| format!("stored {stored:?}, {by} {distance:?}"))
}

/// The library has no ray of its own: it is asked whether the point is inside a mesh of the one triangle. A triangle that is crossed
/// by rounding alone may be no candidate, so the answer is the rule's.
fn unlike_the_library(ray: &Ray) -> Option<String> {
    let list = mesh_bytes(&[ray.triangle]);
    let answer = ffi::inside(&list, ray.point, &mut [0.0]);
    let want = rule::fill::inside(&list, ray.point, 1);
    (answer != want).then(|| format!("inside {want}, library {answer}"))
}

/// What is wrong with a block, by the rule, by the original or by the library.
fn verdict(block: &[u8]) -> Verdict {
    let (ray, stored) = read(block);
    let wrong = differs("rule", by_rule(&ray), stored);
    let told = |distance| differs("original", distance, stored);
    Verdict::by_rule(wrong.or_else(|| unlike_the_library(&ray)))
        .and(|| Verdict::by_original(by_original(&ray), told))
        .told(|what| format!("{:?}: {what}", ray.numbers()))
}

/// Holds the rule, the original and the library to the stored answers.
pub(super) fn replay(stored: &[u8]) -> Found {
    blocks::replay_by(BLOCK, stored, verdict)
}

#[cfg(test)]
mod tests {
    use super::*;
    use crate::fill::plain::{plain_ray, Fault, RAY_FAULTS};
    use std::collections::BTreeMap;

    /// Every way to miss and to hit is well represented; about half hit.
    #[test]
    fn cases_hold_every_way() {
        let cases = cases();
        let mut ways = BTreeMap::new();
        for ray in &cases {
            assert!(ray.is_good());
            *ways.entry(ray.way()).or_insert(0) += 1;
        }
        assert!(WAYS.iter().all(|way| ways.contains_key(way)), "{ways:?}");
        assert!(ways.values().all(|&rays| rays > 50), "{ways:?}");
        let hits = cases.iter().filter(|ray| by_rule(ray) > 0.0).count();
        assert!((900..=1100).contains(&hits), "{hits}");
        assert_eq!(by_rule(&cases[0]), 1.0);
    }

    /// Numbers at each bound, on both sides where it has two.
    #[test]
    fn cases_hold_every_bound() {
        let cases = cases();
        let count = |has: &dyn Fn(&Ray) -> bool| cases.iter().filter(|ray| has(ray)).count();
        let at = |number: f64, bound: f64| number.abs() == bound;
        let corner = |ray: &Ray| {
            let mut corners = ray.triangle.as_flattened().iter();
            corners.any(|&number| at(number, FARTHEST))
        };
        let point = |ray: &Ray| ray.point.iter().any(|&number| at(number, FARTHEST_POINT));
        let hit = |ray: &Ray| by_rule(ray) > 0.0;
        assert!(count(&corner) > 100);
        assert!(count(&point) > 50);
        assert!(count(&|ray| point(ray) && hit(ray)) > 10);
        let negative = |number: f64| number == 0.0 && number.is_sign_negative();
        let zeros = |ray: &Ray| ray.numbers().into_iter().any(negative);
        assert!(count(&zeros) > 200);
        assert!(count(&|ray| zeros(ray) && hit(ray)) > 100);
        let exact = |ray: &Ray| steps(ray.point, ray.triangle);
        for eps in [EPS, EPS.next_up(), EPS.next_down()] {
            for sign in [1.0, -1.0] {
                assert!(count(&|ray| exact(ray).determinant == sign * eps) > 0);
            }
            assert!(count(&|ray| exact(ray).distance == eps) > 1, "{eps:?}");
        }
        assert!(count(&|ray| negative(exact(ray).u)) > 5);
        assert!(count(&|ray| negative(exact(ray).v)) > 5);
    }

    /// Cases are laid out as the head of this file says, and are read back.
    #[test]
    fn blocks_hold_the_cases() {
        let bytes = bytes();
        assert_eq!(bytes.len(), 2000 * 104);
        let (blocks, rest) = bytes.as_chunks::<BLOCK>();
        assert!(rest.is_empty());
        let model = [
            0.0, 0.0, 0.0, 1.0, -1.0, -1.0, 1.0, 1.0, -1.0, 1.0, 0.0, 1.0, 1.0,
        ];
        assert_eq!(blocks[0][..], number_bytes(&model));
        for (ray, block) in cases().iter().zip(blocks) {
            assert_eq!(block[..24], number_bytes(&ray.point));
            assert_eq!(block[24..96], mesh_bytes(&[ray.triangle]));
            assert_eq!(block[96..], number_bytes(&[by_rule(ray)]));
            assert_eq!(number_bytes(&read(block).0.numbers()), block[..96]);
        }
    }

    fn misled(fault: Fault) -> usize {
        let told = |ray: &Ray| plain_ray(fault, ray.point, ray.triangle).unwrap_or(MISS);
        let cases = cases();
        let wrong = cases
            .iter()
            .filter(|ray| differs("", told(ray), by_rule(ray)).is_some());
        wrong.count()
    }

    /// Faults that are planted are found by the stored answers, and none without a fault.
    #[test]
    fn faults_are_found() {
        assert_eq!(misled(Fault::None), 0);
        for fault in RAY_FAULTS {
            assert!(misled(fault) > 0, "{fault:?}");
        }
    }

    #[test]
    fn a_wrong_answer_is_seen() {
        let mut bytes = bytes();
        assert_eq!(replay(&bytes).mismatches, 0);
        bytes[17 * BLOCK + DISTANCE] ^= 1;
        assert_eq!(replay(&bytes).mismatches, 1);
        bytes.pop();
        let found = replay(&bytes);
        assert_eq!((found.cases.all(), found.mismatches), (1999, 2));
    }
}
