//! Narrowing binary64 to binary32: the proved library against the rule and Rust's `as f32`.
//!
//! A case is a binary64 pattern. What is too large, a NaN too, has one answer, 2^32; Rust gives an infinity, and leaves a NaN's answer open.

use crate::ffi;
use crate::original::{self, Verdict};
use crate::report::{Cases, Found, Report};
use crate::rng::Rng;
use crate::rule;

/// The answer for a number that is too large: one more than any pattern.
const TOO_LARGE: u64 = 1 << 32;

const SIGN: u64 = 1 << 63;
const FRACTION_BITS: u32 = 52;
const FRACTION: u64 = (1 << FRACTION_BITS) - 1;
const EXPONENTS: u64 = 2048;

/// The exponent field of 2^-126, binary32's least normal number.
const LEAST_NORMAL: u64 = 1023 - 126;
/// The exponent field of 2^-150: half of binary32's least subnormal number.
const HALF_OF_LEAST: u64 = 1023 - 150;
/// The exponent field of 2^127, the last of binary32.
const LAST_NORMAL: u64 = 1023 + 127;

/// The pattern of 2^128 − 2^103.
const OVERFLOW: u64 = rule::TOO_LARGE.to_bits();

/// Magnitudes at which the kind of answer changes.
const EDGES: [u64; 8] = [
    OVERFLOW,
    (LAST_NORMAL + 1) << FRACTION_BITS, // 2^128
    OVERFLOW - (1 << 28),               // binary32's greatest
    LEAST_NORMAL << FRACTION_BITS,
    (LEAST_NORMAL << FRACTION_BITS) - (1 << 29), // a half unit below it, the last subnormal tie
    (HALF_OF_LEAST + 1) << FRACTION_BITS,        // binary32's least
    HALF_OF_LEAST << FRACTION_BITS,
    0,
];

/// An implementation of narrowing, on patterns.
type Narrow = fn(u64) -> u64;

/// Random patterns of each class.
const DRAWS: u64 = 10_000_000;

/// A finite float's pattern; 2^32 where there is none.
fn answer(float: Option<f32>) -> u64 {
    float.map_or(TOO_LARGE, |float| u64::from(float.to_bits()))
}

/// The answer that the library owes.
fn expected(pattern: u64) -> u64 {
    answer(rule::narrowed(f64::from_bits(pattern)))
}

/// An implementation's answer, held to Rust's where it has one, and to the answer owed; an infinity of Rust's stands for too large.
fn verdict(narrow: Narrow, pattern: u64) -> Verdict {
    let got = narrow(pattern);
    let differs = |want: u64| {
        let x = f64::from_bits(pattern);
        let told =
            || format!("{pattern:#018x} ({x:e}): library {got:#010x}, expected {want:#010x}");
        (got != want).then(told)
    };
    let finite = |float: f32| Some(float).filter(|float| float.is_finite());
    Verdict::by_original(original::narrowed(pattern), |float| {
        differs(answer(finite(float)))
    })
    .and(|| Verdict::by_rule(differs(expected(pattern))))
}

/// A class of random patterns.
pub(crate) struct Class {
    pub(crate) name: &'static str,
    pub(crate) draw: fn(&mut Rng) -> u64,
}

pub(crate) const CLASSES: [Class; 7] = [
    Class {
        name: "any bits",
        draw: Rng::bits,
    },
    Class {
        name: "normal results",
        draw: |rng| with_exponent(rng, LEAST_NORMAL, LAST_NORMAL),
    },
    Class {
        name: "subnormal results",
        draw: |rng| with_exponent(rng, HALF_OF_LEAST - 1, LEAST_NORMAL - 1),
    },
    Class {
        name: "near ties",
        draw: near_tie,
    },
    Class {
        name: "overflow edge",
        draw: |rng| near(rng, OVERFLOW),
    },
    Class {
        name: "binary64 subnormals",
        draw: |rng| sign(rng) | cut(rng),
    },
    Class {
        name: "NaNs and infinities",
        draw: not_finite,
    },
];

fn sign(rng: &mut Rng) -> u64 {
    rng.bits() & SIGN
}

/// A fraction of any length: its leading digits are 0.
fn cut(rng: &mut Rng) -> u64 {
    let zeros = rng.below(u64::from(FRACTION_BITS) + 1);
    (rng.bits() & FRACTION) >> zeros
}

/// An exponent field from `low` through `high`; sign and fraction are free.
fn with_exponent(rng: &mut Rng, low: u64, high: u64) -> u64 {
    (rng.bits() & (SIGN | FRACTION)) | (rng.range(low, high) << FRACTION_BITS)
}

/// A few units of binary64 from a magnitude, or many.
fn near(rng: &mut Rng, magnitude: u64) -> u64 {
    let distance = cut(rng) >> 1;
    let shifted = if rng.bits() & 1 == 0 {
        magnitude + distance
    } else {
        magnitude - distance
    };
    sign(rng) | shifted
}

/// At most two units of binary64 from the midpoint of two neighbours in binary32, one in four of them subnormal.
fn near_tie(rng: &mut Rng) -> u64 {
    let end = if rng.bits() & 3 == 0 {
        0x0080_0000
    } else {
        0x7f7f_ffff
    };
    let below = rng.below(end) as u32;
    let widened = |pattern: u32| f64::from(f32::from_bits(pattern));
    let midpoint = ((widened(below) + widened(below + 1)) * 0.5).to_bits();
    sign(rng) | (midpoint + rng.range(0, 4) - 2)
}

/// An infinity once in eight, else a NaN with a payload of any length.
fn not_finite(rng: &mut Rng) -> u64 {
    let fraction = match rng.below(8) {
        0 => 0,
        1..4 => cut(rng),
        _ => rng.bits() & FRACTION,
    };
    sign(rng) | ((EXPONENTS - 1) << FRACTION_BITS) | fraction
}

/// For every exponent and sign: each single digit, its complement, ones above and below each digit,
/// and each digit as the first one dropped: a half unit, with the digits kept even, odd, all ones and
/// alternating, and the two patterns on either side.
pub(crate) fn at_every_exponent(mut visit: impl FnMut(u64)) {
    for field in 0..EXPONENTS {
        let exponent = field << FRACTION_BITS;
        for digit in 0..FRACTION_BITS {
            let unit = 1u64 << digit;
            for fraction in [unit, FRACTION ^ unit, unit - 1, FRACTION & !(unit - 1)] {
                both_signs(exponent | fraction, &mut visit);
            }
            let kept = FRACTION & !(2 * unit - 1);
            for fraction in [0, kept & (2 * unit), kept, kept & 0x5555_5555_5555_5555] {
                around(exponent | fraction | unit, 2, &mut visit);
            }
        }
    }
}

/// The patterns within 4,096 of each edge.
pub(crate) fn at_every_edge(mut visit: impl FnMut(u64)) {
    near_edges(4096, &mut visit);
}

/// The patterns within `distance` of each edge, both signs.
pub(crate) fn near_edges(distance: u64, visit: &mut impl FnMut(u64)) {
    for edge in EDGES {
        around(edge, distance, visit);
    }
}

/// The ties of each binary32 exponent, with kept digits from `rng`, even and odd, and the patterns beside them.
pub(crate) fn ties_by_exponent(rng: &mut Rng, visit: &mut impl FnMut(u64)) {
    for field in HALF_OF_LEAST..=LAST_NORMAL {
        let dropped = 29 + LEAST_NORMAL.saturating_sub(field);
        // The first digit dropped may be the leading one, which the fraction does not hold.
        let half = (1u64 << (dropped - 1)) & FRACTION;
        let kept = rng.bits() & FRACTION & !((1u64 << dropped) - 1);
        let last = (1u64 << dropped) & FRACTION;
        for fraction in [kept & !last, kept | last] {
            let tie = sign(rng) | (field << FRACTION_BITS) | fraction | half;
            visit(tie);
            visit(tie + 1);
            visit(tie - 1);
        }
    }
}

fn around(magnitude: u64, distance: u64, visit: &mut impl FnMut(u64)) {
    for shifted in magnitude.saturating_sub(distance)..=(magnitude + distance).min(SIGN - 1) {
        both_signs(shifted, visit);
    }
}

fn both_signs(magnitude: u64, visit: &mut impl FnMut(u64)) {
    visit(magnitude);
    visit(SIGN | magnitude);
}

/// The mismatches seen so far, and the least of them by set bits, then by pattern.
struct Search<F> {
    verdict: F,
    cases: Cases,
    mismatches: u64,
    least: Option<(u32, u64)>,
}

impl<F: Fn(u64) -> Verdict> Search<F> {
    fn new(verdict: F) -> Self {
        Self {
            verdict,
            cases: Cases::default(),
            mismatches: 0,
            least: None,
        }
    }

    fn visit(&mut self, pattern: u64) {
        let verdict = (self.verdict)(pattern);
        self.cases.note(&verdict);
        if verdict.wrong.is_some() {
            self.mismatches += 1;
            let size = (pattern.count_ones(), pattern);
            self.least = Some(self.least.map_or(size, |least| least.min(size)));
        }
    }

    fn smallest(&self) -> Option<u64> {
        let fails = |pattern| (self.verdict)(pattern).wrong.is_some();
        self.least.map(|(_, pattern)| shrink(pattern, fails))
    }

    fn found(&self) -> Found {
        Found {
            cases: self.cases,
            mismatches: self.mismatches,
            smallest: self
                .smallest()
                .and_then(|pattern| (self.verdict)(pattern).wrong),
        }
    }
}

/// Clears or lowers bits of a failing pattern as long as it fails.
fn shrink(mut pattern: u64, fails: impl Fn(u64) -> bool) -> u64 {
    loop {
        let set = (0..64).rev().filter(|bit| pattern >> bit & 1 == 1);
        let cleared = set.clone().map(|bit| pattern ^ (1 << bit));
        let lowered = set.flat_map(|bit| (0..bit).map(move |to| (bit, to)));
        let lowered = lowered
            .filter(|(_, to)| pattern >> to & 1 == 0)
            .map(|(bit, to)| pattern ^ (1 << bit) ^ (1 << to));
        match cleared.chain(lowered).find(|&smaller| fails(smaller)) {
            Some(smaller) => pattern = smaller,
            None => return pattern,
        }
    }
}

/// Compares patterns that come from anywhere.
pub(crate) fn compare(patterns: impl Iterator<Item = u64>) -> Found {
    let mut search = Search::new(by_library);
    patterns.for_each(|pattern| search.visit(pattern));
    search.found()
}

fn by_library(pattern: u64) -> Verdict {
    verdict(ffi::narrow, pattern)
}

pub(crate) fn check(report: &mut Report) {
    report.run("narrow: every exponent", || {
        let mut search = Search::new(by_library);
        at_every_exponent(|pattern| search.visit(pattern));
        search.found()
    });
    report.run("narrow: edges", || {
        let mut search = Search::new(by_library);
        at_every_edge(|pattern| search.visit(pattern));
        search.found()
    });
    for (seed, class) in (1..).zip(&CLASSES) {
        report.run(&format!("narrow: {}", class.name), || {
            let mut rng = Rng::new(seed);
            compare((0..DRAWS).map(|_| (class.draw)(&mut rng)))
        });
    }
}

#[cfg(test)]
mod tests {
    use super::*;

    fn power(exponent: i32) -> f64 {
        2f64.powi(exponent)
    }

    /// The starred models of narrowing, of the library and of the rule.
    #[test]
    fn models() {
        let models = [
            (1.0 + power(-24), 0x3f80_0000),
            (1.0 + 3.0 * power(-24), 0x3f80_0002),
            (3.0 * power(-150), 0x0000_0002),
            (power(128) - power(103), 0x1_0000_0000),
        ];
        for (x, answer) in models {
            assert_eq!(expected(x.to_bits()), answer);
            assert_eq!(ffi::narrow(x.to_bits()), answer);
        }
    }

    /// An implementation agrees with the rule and with Rust on the edges and on every class.
    fn agrees(narrow: Narrow) -> bool {
        let mut search = Search::new(|pattern| verdict(narrow, pattern));
        near_edges(8, &mut |pattern| search.visit(pattern));
        for class in &CLASSES {
            let mut rng = Rng::new(1);
            (0..1000).for_each(|_| search.visit((class.draw)(&mut rng)));
        }
        search.mismatches == 0
    }

    /// Made-up faults are found; most of them in what is too large.
    #[test]
    fn faults_are_found() {
        let by_rust = |pattern: u64| f64::from_bits(pattern) as f32;
        assert!(agrees(expected));
        let infinity_answered: Narrow = |pattern| match f64::from_bits(pattern) {
            x if x.is_nan() => TOO_LARGE,
            x => u64::from((x as f32).to_bits()),
        };
        let nan_answered: Narrow = |pattern| match f64::from_bits(pattern) {
            x if x.is_nan() => 0x7fc0_0000,
            _ => expected(pattern),
        };
        let from_infinity: Narrow = |pattern| match f64::from_bits(pattern) {
            x if x.abs() >= 2f64.powi(128) => TOO_LARGE,
            x if x.is_nan() => TOO_LARGE,
            x => u64::from((x as f32).clamp(f32::MIN, f32::MAX).to_bits()),
        };
        let above_threshold: Narrow = |pattern| match f64::from_bits(pattern).abs() {
            x if x == rule::TOO_LARGE => u64::from(f32::MAX.to_bits()),
            _ => expected(pattern),
        };
        let greatest_refused: Narrow = |pattern| match f64::from_bits(pattern).abs() as f32 {
            f32::MAX => TOO_LARGE,
            _ => expected(pattern),
        };
        let sign_kept: Narrow = |pattern| match expected(pattern) {
            TOO_LARGE => TOO_LARGE | pattern >> 63,
            answer => answer,
        };
        for faulty in [
            infinity_answered,
            nan_answered,
            from_infinity,
            above_threshold,
            greatest_refused,
            sign_kept,
        ] {
            assert!(!agrees(faulty));
        }
        assert!(by_rust(OVERFLOW).is_infinite() && by_rust(OVERFLOW - 1) == f32::MAX);
    }

    #[test]
    fn edges_are_what_they_say() {
        let values = [
            power(128) - power(103),
            power(128),
            f64::from(f32::MAX),
            power(-126),
            power(-126) - power(-150),
            power(-149),
            power(-150),
            0.0,
        ];
        assert_eq!(EDGES, values.map(f64::to_bits));
    }

    /// Each class holds to its name, judged by value and not by its digits.
    #[test]
    fn classes_are_what_they_say() {
        let all = |class: usize, holds: fn(f64) -> bool| {
            let mut rng = Rng::new(1);
            (0..10_000).all(|_| holds(f64::from_bits((CLASSES[class].draw)(&mut rng))))
        };
        assert!(all(1, |x| x.abs() >= power(-126) && x.abs() < power(128)));
        assert!(all(2, |x| x.abs() >= power(-151) && x.abs() < power(-126)));
        assert!(all(4, |x| x.abs() >= power(127) * 0.5 && x.abs() < power(129)));
        assert!(all(5, |x| x.abs() < f64::MIN_POSITIVE));
        assert!(all(6, |x| !x.is_finite()));
    }

    /// At an exact tie both neighbours are equally far; one unit beside it they are not.
    #[test]
    fn ties_are_ties() {
        let mut visited = 0;
        ties_by_exponent(&mut Rng::new(1), &mut |pattern| {
            let x = f64::from_bits(pattern & !SIGN);
            let near = x as f32;
            let gap = |to: f32| (f64::from(to) - x).abs();
            let tie = gap(near) == gap(near.next_down()) || gap(near) == gap(near.next_up());
            assert_eq!(tie, visited % 3 == 0, "{pattern:#018x}");
            visited += 1;
        });
        assert_eq!(visited, 278 * 6);
    }

    #[test]
    fn patterns_are_the_same_on_every_run() {
        for class in &CLASSES {
            let draw = || {
                let mut rng = Rng::new(3);
                (0..1000)
                    .map(|_| (class.draw)(&mut rng))
                    .collect::<Vec<_>>()
            };
            assert_eq!(draw(), draw(), "{}", class.name);
        }
    }

    /// A made-up fault is found and shrunk to the least pattern that shows it.
    #[test]
    fn smallest_failure() {
        let fails = |pattern: u64| pattern & SIGN != 0 && pattern & 0xff00 != 0;
        let mut search = Search::new(|pattern| Verdict::by_rule(fails(pattern).then(String::new)));
        let mut rng = Rng::new(1);
        (0..1000).for_each(|_| search.visit(rng.bits()));
        assert!(search.mismatches > 400);
        assert_eq!(search.smallest(), Some(SIGN | 0x100));
        assert_eq!(Search::new(|_| Verdict::default()).smallest(), None);
    }

    /// Beside the original: all but NaNs.
    #[test]
    fn cases_are_counted_apart() {
        let numbers = [0.0, -1.5, 1e300, 5e-324, f64::NEG_INFINITY];
        let patterns = numbers.map(f64::to_bits).into_iter();
        let nans = [1, u64::MAX].map(|low: u64| low | 0x7ff0_0000_0000_0000);
        let found = compare(patterns.chain(nans));
        let beside = 5 * u64::from(original::AT_HAND);
        assert_eq!(found.cases.apart(), (beside, 7 - beside));
        assert_eq!(found.smallest, None);
    }
}
