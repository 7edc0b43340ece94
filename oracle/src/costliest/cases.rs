//! Grid sizes, words that are none, and lengths of the output, drawn by kind.

use crate::open::cases::{kind, nothing, pick, up_to, word, Kind};
use crate::rng::Rng;
use crate::rule::costliest::needed;

/// What a call that writes the file is given and lent; the output's contents come from `junk`.
pub(crate) struct Case {
    pub(crate) grid: u32,
    pub(crate) out: usize,
    pub(crate) junk: u32,
}

/// Words to ask the numbers of.
pub(crate) const WORDS: [Kind<u32>; 2] = [
    kind("every grid", 301, any_word, by_number),
    kind("any word", 20_000, any_word, nothing),
];

/// Words to write the file of.
pub(crate) const FILES: [Kind<Case>; 5] = [
    kind("up to g 48", 288, any, near_needed),
    kind("every length", 1_928, any, each_length),
    kind("no room", 4_000, any, too_short),
    kind("no grid", 4_000, any, no_grid),
    kind("large grids", 10, any, large),
];

/// Grids whose trees are built.
pub(crate) const TREES: Kind<u32> = kind("trees", 66, any_word, tree_by_number);

/// Words above 300 that are no grid size, some of them one in their low bits.
pub(crate) const FAR: [u32; 14] = [
    511,
    512,
    4096,
    65_535,
    65_536,
    65_537,
    65_792,
    (1 << 24) + 1,
    (1 << 31) - 1,
    1 << 31,
    (1 << 31) + 8,
    u32::MAX - 255,
    u32::MAX - 1,
    u32::MAX,
];

impl Case {
    pub(crate) fn described(&self) -> String {
        format!("g {}, output {}", self.grid, self.out)
    }
}

/// A grid size or hardly one, by itself, with any bits above, or beside a power of two; or any word.
fn any_word(rng: &mut Rng) -> u32 {
    let small = rng.range(0, 300) as u32;
    match rng.below(4) {
        0 => small,
        1 => small | word(rng) << 16,
        2 => (1u32 << rng.below(32))
            .wrapping_add(small)
            .wrapping_sub(150),
        _ => word(rng),
    }
}

fn by_number(_: &mut Rng, number: usize, g: &mut u32) {
    *g = number as u32;
}

/// 1 to 64, then 128 and 256.
fn tree_by_number(_: &mut Rng, number: usize, g: &mut u32) {
    let mut grids = (1..=64).chain([128, 256]);
    *g = grids.nth(number).expect("one of the grids");
}

/// Any junk; word and length are set by the kind.
fn any(rng: &mut Rng) -> Case {
    Case {
        grid: 0,
        out: 0,
        junk: word(rng),
    }
}

/// One byte short, just enough, more, a record short, any length that is too short.
fn near_needed(rng: &mut Rng, number: usize, case: &mut Case) {
    case.grid = 1 + number as u32 % 48;
    let needed = needed(case.grid) as usize;
    let lengths = [
        needed - 1,
        needed,
        needed + 1,
        needed + up_to(rng, 5000),
        needed - 16,
        up_to(rng, needed - 1),
    ];
    case.out = lengths[number / 48];
}

/// Each length up to 17 bytes more than needed, at g 1 to 4.
fn each_length(_: &mut Rng, number: usize, case: &mut Case) {
    let lengths = |g: u32| (0..needed(g) as usize + 18).map(move |out| (g, out));
    let mut all = (1..=4).flat_map(lengths);
    (case.grid, case.out) = all.nth(number).expect("one of the lengths");
}

/// Any grid with less than it needs, of lengths that a mistaken rule could ask for.
fn too_short(rng: &mut Rng, _: usize, case: &mut Case) {
    case.grid = rng.range(1, 256) as u32;
    let needed = needed(case.grid) as usize;
    let plane = 16 * case.grid.pow(2) as usize;
    let lengths = [0, 63, 64, 64 + plane, needed % 65_536, up_to(rng, 8192)];
    case.out = pick(rng, &lengths).min(needed - 1);
}

fn no_grid(rng: &mut Rng, _: usize, case: &mut Case) {
    let mut words = std::iter::repeat_with(|| any_word(rng));
    let none = words.find(|word| !(1..=256).contains(word));
    case.grid = none.expect("there is no end of words");
    case.out = pick(rng, &[0, 63, 64, 80, 192, 8192]);
}

/// Just enough, one byte short, more; then enough for 257, which is no grid size.
fn large(_: &mut Rng, number: usize, case: &mut Case) {
    case.grid = [128, 255, 256, 257][number / 3];
    case.out = needed(case.grid) as usize + [1, 0, 1000][number % 3] - 1;
}
