//! Stored answers of Rust, for a program that has no Rust beside it.
//!
//! `narrow.bin`: for each case 8 bytes of binary64 pattern and 4 bytes of the binary32 pattern
//! that Rust gives, little endian; a NaN gives 0x7fc00000, and one that is not finite stands for too large.
//! `open.bin`: see `store/open.rs`. `build.bin`: see `store/build.rs`.
//! `edit.bin`: see `store/edit.rs`. `ray.bin`: see `store/ray.rs`. `inside.bin`: see `store/inside.rs`. `fill.bin`: see `store/fill.rs`.
//! `cost.bin`: see `store/cost.rs`. `costliest.bin`: see `store/costliest.rs`. `next.bin`: see `store/next.rs`.

mod blocks;
mod build;
mod cost;
mod costliest;
mod edit;
mod fill;
mod inside;
pub(crate) mod next;
mod open;
mod ray;

use crate::narrow;
use crate::report::{Cases, Found, Report};
use crate::rng::Rng;
use crate::rule;
use std::collections::HashSet;
use std::path::{Path, PathBuf};
use std::{env, fs};

/// Cases of `narrow.bin`, 12 bytes each.
const CASES: usize = 5000;

/// Numbers that a reader knows, the four models of narrowing first.
const PLAIN: [f64; 14] = [
    1.0 + 1.0 / 16_777_216.0,
    1.0 + 3.0 / 16_777_216.0,
    f64::from_bits(0x36a8_0000_0000_0000), // 3·2^-150
    rule::TOO_LARGE,
    1.0,
    -1.0,
    0.5,
    2.0,
    0.1,
    1.0 / 3.0,
    1e-30,
    1e30,
    16_777_217.0,
    f64::MAX,
];

const SEED: u64 = 0x6e61_7272_6f77;

/// The folder of the stored answers: `MASCON_STORED`, else the data of the program that replays them.
fn folder() -> PathBuf {
    env::var_os("MASCON_STORED").map_or_else(
        || Path::new(env!("CARGO_MANIFEST_DIR")).join("../crates/vectors/data"),
        PathBuf::from,
    )
}

/// The binary64 patterns of `narrow.bin`, each once.
fn narrow_cases() -> Vec<u64> {
    let mut rng = Rng::new(SEED);
    let mut seen = HashSet::new();
    let mut cases = Vec::with_capacity(CASES);
    let mut add = |pattern: u64| {
        if cases.len() < CASES && seen.insert(pattern) {
            cases.push(pattern);
        }
    };
    PLAIN.iter().for_each(|x| add(x.to_bits()));
    narrow::near_edges(8, &mut add);
    narrow::ties_by_exponent(&mut rng, &mut add);
    // One pattern at every eighth exponent, both signs.
    for field in (0..2048u64).step_by(8) {
        let fraction = rng.bits() >> 12;
        for sign in [0, 1 << 63] {
            add(sign | (field << 52) | fraction);
        }
    }
    // NaNs whose payload is one bit, quiet and signalling, both signs; the infinities.
    for sign in [0x7ff0_0000_0000_0000, 0xfff0_0000_0000_0000] {
        add(sign);
        (0..52).for_each(|bit| add(sign | 1 << bit));
    }
    // The rest in equal parts from the random classes.
    for class in narrow::CLASSES.iter().cycle().take(8 * CASES) {
        add((class.draw)(&mut rng));
    }
    assert_eq!(cases.len(), CASES);
    cases
}

/// The binary32 pattern that stands in `narrow.bin` for a binary64's.
fn by_rust(pattern: u64) -> u32 {
    match f64::from_bits(pattern) {
        x if x.is_nan() => 0x7fc0_0000,
        x => (x as f32).to_bits(),
    }
}

/// The bytes of `narrow.bin`.
pub(crate) fn narrow_bytes() -> Vec<u8> {
    let mut bytes = Vec::with_capacity(12 * CASES);
    for pattern in narrow_cases() {
        bytes.extend_from_slice(&pattern.to_le_bytes());
        bytes.extend_from_slice(&by_rust(pattern).to_le_bytes());
    }
    bytes
}

/// The bytes that a stored file of this kind holds.
fn bytes_of(kind: &str) -> Result<Vec<u8>, String> {
    match kind {
        "narrow" => Ok(narrow_bytes()),
        "open" => Ok(blocks::bytes::<open::Stored>()),
        "build" => Ok(blocks::bytes::<build::Stored>()),
        "edit" => Ok(blocks::bytes::<edit::Stored>()),
        "ray" => Ok(ray::bytes()),
        "inside" => Ok(blocks::bytes::<inside::Stored>()),
        "fill" => Ok(blocks::bytes::<fill::Stored>()),
        "cost" => Ok(blocks::bytes::<cost::Stored>()),
        "costliest" => Ok(blocks::bytes::<costliest::Stored>()),
        "next" => Ok(blocks::bytes::<next::Stored>()),
        _ => Err(format!("no stored answers of the kind {kind:?}")),
    }
}

pub(crate) fn store(kind: &str, file: &Path) -> Result<String, String> {
    let bytes = bytes_of(kind)?;
    fs::write(file, &bytes).map_err(|error| format!("{}: {error}", file.display()))?;
    Ok(format!("{}: {} bytes written", file.display(), bytes.len()))
}

/// Makes the answers anew and compares byte for byte.
pub(crate) fn verify(kind: &str, file: &Path) -> Result<String, String> {
    let fresh = bytes_of(kind)?;
    let stored = fs::read(file).map_err(|error| format!("{}: {error}", file.display()))?;
    if stored.len() != fresh.len() {
        return Err(format!(
            "{}: {} bytes, {} when made anew",
            file.display(),
            stored.len(),
            fresh.len()
        ));
    }
    match stored.iter().zip(&fresh).position(|(a, b)| a != b) {
        Some(at) => Err(format!(
            "{}: differs at byte {at} when made anew",
            file.display()
        )),
        None => Ok(format!(
            "{}: {} bytes, the same when made anew",
            file.display(),
            stored.len()
        )),
    }
}

/// Holds the library to the stored answers, and the stored answers to Rust.
pub(crate) fn check(report: &mut Report) {
    check_file(report, "narrow.bin", replay_narrow);
    check_file(report, "open.bin", blocks::replay::<open::Stored>);
    check_file(report, "build.bin", blocks::replay::<build::Stored>);
    check_file(report, "edit.bin", blocks::replay::<edit::Stored>);
    check_file(report, "ray.bin", ray::replay);
    check_file(report, "inside.bin", blocks::replay::<inside::Stored>);
    check_file(report, "fill.bin", blocks::replay::<fill::Stored>);
    check_file(report, "cost.bin", blocks::replay::<cost::Stored>);
    check_file(report, "costliest.bin", blocks::replay::<costliest::Stored>);
    check_file(report, "next.bin", blocks::replay::<next::Stored>);
}

fn check_file(report: &mut Report, name: &str, replay: fn(&[u8]) -> Found) {
    let file = folder().join(name);
    report.run(&format!("stored: {name}"), || match fs::read(&file) {
        Ok(stored) => replay(&stored),
        Err(error) => Found {
            cases: Cases::default(),
            mismatches: 1,
            smallest: Some(format!("{name}: {error}")),
        },
    });
}

fn replay_narrow(stored: &[u8]) -> Found {
    let (cases, rest) = stored.as_chunks::<12>();
    let mut found = narrow::compare(cases.iter().map(|case| split(case).0));
    let told: Vec<_> = cases
        .iter()
        .map(split)
        .filter(|&(pattern, answer)| by_rust(pattern) != answer)
        .collect();
    found.mismatches += told.len() as u64;
    if let Some(&(pattern, answer)) = told.first() {
        found.smallest = Some(format!(
            "{pattern:#018x}: stored {answer:#010x}, Rust {:#010x}",
            by_rust(pattern)
        ));
    }
    if !rest.is_empty() {
        found.mismatches += 1;
        found.smallest = Some("the file ends inside a case".into());
    }
    found
}

fn split(case: &[u8; 12]) -> (u64, u32) {
    let [a, b, c, d, e, f, g, h, i, j, k, l] = *case;
    (
        u64::from_le_bytes([a, b, c, d, e, f, g, h]),
        u32::from_le_bytes([i, j, k, l]),
    )
}

#[cfg(test)]
mod tests {
    use super::*;

    #[test]
    fn stored_files_are_made_anew() {
        for kind in [
            "narrow",
            "open",
            "build",
            "edit",
            "ray",
            "inside",
            "fill",
            "cost",
            "costliest",
            "next",
        ] {
            verify(kind, &folder().join(format!("{kind}.bin"))).unwrap();
        }
    }

    /// Every kind of case is well represented.
    #[test]
    fn cases_hold_every_kind() {
        let bytes = narrow_bytes();
        assert_eq!(bytes.len(), 60_000);
        let (cases, _) = bytes.as_chunks::<12>();
        let count = |kind: fn(u64, u32) -> bool| {
            cases
                .iter()
                .map(split)
                .filter(|&(pattern, answer)| kind(pattern, answer))
                .count()
        };
        assert!(count(|p, _| f64::from_bits(p).is_nan()) > 400);
        assert!(count(|p, _| f64::from_bits(p).is_nan() && p >> 63 == 1) > 150);
        assert!(
            count(|p, a| f64::from_bits(p).is_finite() && a & 0x7fff_ffff == 0x7f80_0000) > 300
        );
        assert!(count(|p, a| p << 1 != 0 && a & 0x7fff_ffff == 0) > 300);
        assert!(count(|_, a| (1..0x0080_0000).contains(&(a & 0x7fff_ffff))) > 500);
        assert!(count(|_, a| (0x0080_0000..0x7f80_0000).contains(&(a & 0x7fff_ffff))) > 1500);
    }

    #[test]
    fn a_wrong_answer_is_seen() {
        let mut bytes = narrow_bytes();
        assert_eq!(replay_narrow(&bytes).mismatches, 0);
        bytes[12 * 17 + 8] ^= 1;
        assert_eq!(replay_narrow(&bytes).mismatches, 1);
        bytes.pop();
        assert_eq!(replay_narrow(&bytes).mismatches, 2);
    }
}
