//! The costliest file: the time of its numbers, and of writing it beside a plain fill of the same bytes.

use super::timed;
use crate::ffi;
use crate::rule::costliest::{costliest as by_rule, needed};
use std::hint::black_box;
use std::ops::RangeInclusive;
use std::time::Duration;

const RUNS: usize = 5;

/// The greatest grid, whose file is written.
const GRID: u32 = 256;

/// Both masses of a record.
const MASSES: u64 = 0x3f80_0000_3f80_0000;

/// Grids whose numbers are asked, the one of most steps first.
const ASKED: [(&str, RangeInclusive<u32>); 3] = [
    ("numbers of g 213", 213..=213),
    ("numbers of g 256", 256..=256),
    ("numbers of g 1 to 256", 1..=256),
];

/// The best time of the numbers of these grids; an error where they are not the rule's.
fn asked(name: &str, grids: &RangeInclusive<u32>) -> Result<Duration, String> {
    let mut best = Duration::MAX;
    for _ in 0..RUNS {
        let told: Vec<_> = timed(&mut best, || {
            let grids = black_box(grids.clone());
            grids.map(ffi::costliest).collect()
        });
        if !grids.clone().map(by_rule).eq(told) {
            return Err(format!("{name}: library and rule disagree"));
        }
    }
    Ok(best)
}

/// The file by two stores of 8 bytes for each record.
fn plain(g: u64, out: &mut [u8]) -> u64 {
    let (header, rest) = out.split_at_mut(64);
    header.fill(0);
    for (at, word) in [(0, 0x314d_5952), (4, 1), (8, g), (12, g.pow(3))] {
        header[at..at + 4].copy_from_slice(&(word as u32).to_le_bytes());
    }
    header[44..56].copy_from_slice(&[1f32.to_le_bytes(); 3].concat());
    let mut places = rest.as_chunks_mut::<16>().0.iter_mut();
    for z in 0..g {
        for y in 0..g {
            for (x, place) in (0..g).zip(&mut places) {
                place[..8].copy_from_slice(&(z << 32 | y << 16 | x).to_le_bytes());
                place[8..].copy_from_slice(&MASSES.to_le_bytes());
            }
        }
    }
    out.len() as u64
}

/// Best times of the file: the library, the plain fill, a fill with zeros.
struct Times {
    library: Duration,
    plain: Duration,
    zeros: Duration,
}

/// Runs all in turn and compares the first two; the buffers are there beforehand.
fn race() -> Result<Times, String> {
    let length = needed(GRID) as usize;
    let [mut out, mut by_plain, mut zeros] = [0; 3].map(|_| vec![7; length]);
    let mut times = Times {
        library: Duration::MAX,
        plain: Duration::MAX,
        zeros: Duration::MAX,
    };
    for _ in 0..RUNS {
        let answer = timed(&mut times.library, || {
            ffi::write_costliest(GRID, black_box(&mut out))
        });
        let told = timed(&mut times.plain, || {
            plain(u64::from(GRID), black_box(&mut by_plain))
        });
        timed(&mut times.zeros, || {
            zeros.fill(black_box(0));
            black_box(&mut zeros);
        });
        if answer != told || out != by_plain {
            return Err("library and plain Rust disagree".into());
        }
    }
    Ok(times)
}

/// Asks for numbers and writes the file of g 256, best of five.
pub(crate) fn costliest() -> Result<String, String> {
    let told = |time: Duration| time.as_secs_f64() * 1e3;
    for (name, grids) in &ASKED {
        let best = asked(name, grids)?;
        println!("costliest: {name:<22} library {:>8.1} µs", told(best) * 1e3);
    }
    let times = race()?;
    println!(
        "costliest: {:<22} library {:>8.2} ms, plain Rust {:>8.2} ms, ratio {:.2}, zeros {:>8.2} ms, ratio {:.2}; {} bytes",
        format!("file of g {GRID}"),
        told(times.library),
        told(times.plain),
        told(times.library) / told(times.plain),
        told(times.zeros),
        told(times.library) / told(times.zeros),
        needed(GRID)
    );
    Ok(format!("best of {RUNS}; outputs agree"))
}
