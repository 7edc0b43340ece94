//! Calls in other floating-point modes, and with NULL for what is empty.

mod scratch;

use super::mode::{in_default_mode, load, read};
use super::{length, raw};
use crate::check::{check_floats, check_points, check_tree};
use crate::text::{parse_kernels, parse_obj, Edit};
use crate::{
    build_mascon, draw, is_inside, narrow, parse_mascon_bytes, shapes, Cost, Kernel, Model,
    Refusal, Tree, Triangle, MAX_GRID,
};
use std::hint::black_box;
use std::panic::catch_unwind;
use std::ptr::{null, null_mut};

const TINY_IS_ZERO: u32 = 0x9fc0;
const UP: u32 = 0x5f80;
const DOWN: u32 = 0x3f80;
const TO_ZERO: u32 = 0x7f80;
const MODES: [u32; 4] = [TINY_IS_ZERO, UP, DOWN, TO_ZERO];
/// An inexact result traps; whatever is raised traps, to zero, with both bits.
const TRAPPING: [u32; 2] = [0x0f80, 0xe040];

struct Restored(u32);

impl Drop for Restored {
    fn drop(&mut self) {
        load(self.0);
    }
}

/// What work gives in a mode, which it leaves as it is.
fn in_mode<T>(mode: u32, work: impl FnOnce() -> T) -> T {
    let before = Restored(read());
    load(mode);
    let answer = black_box(black_box(work)());
    let after = read();
    drop(before);
    assert_eq!(after & 0xffc0, mode, "the caller's mode");
    answer
}

/// No points, and a box from 0 to the least binary32 above it.
fn tiny() -> Vec<u8> {
    shapes::empty_file(1, [0.0; 3], [f32::from_bits(1); 3])
}

/// Masses whose sums in binary64 are not exact, and lie beside a tie of binary32: up changes the first, down and to zero the second.
fn beside_ties() -> Model {
    let mut model = Model::open(&shapes::empty_file(3, [0.0; 3], [1.0; 3])).unwrap();
    let power = |exponent: i32| 2.0_f32.powi(exponent);
    let cauchy = [1.0, power(-24), power(-60)];
    let elliptic = [1.0 + power(-23), power(-24), -power(-60)];
    for (x, (cauchy, elliptic)) in (0..).zip(cauchy.into_iter().zip(elliptic)) {
        model.put(x, 0, 0, cauchy, elliptic).unwrap();
    }
    model
}

fn small_body() -> Vec<u8> {
    let (mesh, kernels) = shapes::contact_binary(6);
    build_mascon(&mesh, &kernels, &kernels[..1], 4.2e11, 1190.0, 10).unwrap()
}

#[test]
fn a_box_of_the_least_width_is_accepted_in_any_mode() {
    let file = tiny();
    for mode in MODES.into_iter().chain(TRAPPING) {
        let tree = in_mode(mode, || Tree::build(&file)).unwrap();
        assert_eq!((tree.as_bytes().len(), tree.node_count()), (144, 1));
        let (folded, dropped) = in_mode(mode, || Model::fold(&file)).unwrap();
        assert_eq!((folded.as_bytes(), dropped.len()), (&file[..], 0));
        let mut model = in_mode(mode, || Model::open(&file)).unwrap();
        in_mode(mode, || model.put(0, 0, 0, 1.0, 1e-45)).unwrap();
        assert_eq!(in_mode(mode, || model.tree()), model.tree());
        in_mode(mode, || model.remove(0, 0, 0)).unwrap();
        in_mode(mode, || model.undo()).unwrap();
        in_mode(mode, || model.undo()).unwrap();
        assert_eq!(model.as_bytes(), file);
        let judged = in_mode(mode, || parse_mascon_bytes(&file, "file"));
        assert_eq!(judged.unwrap().as_bytes(), file);
        assert!(in_mode(mode, || check_points(&file, 1)).is_clean());
        assert!(in_mode(mode, || check_tree(tree.as_bytes(), 1)).is_clean());
    }
}

/// The only cell of the least box twice, with the least masses.
fn tiny_twice() -> Vec<u8> {
    let mut file = tiny();
    file[12] = 2;
    for bits in [1_u32, 2] {
        file.extend([[0; 4], [0; 4], bits.to_le_bytes(), bits.to_le_bytes()].concat());
    }
    file
}

#[test]
fn a_cell_twice_is_refused_and_folded_in_any_mode() {
    let file = tiny_twice();
    for mode in MODES.into_iter().chain(TRAPPING) {
        let refused = in_mode(mode, || Model::open(&file)).unwrap_err();
        assert_eq!(refused, Refusal::CellTwice);
        assert_eq!(in_mode(mode, || Tree::build(&file)), Err(refused));
        let parsed = in_mode(mode, || parse_mascon_bytes(&file, "file"));
        assert_eq!(parsed.unwrap_err().twice, refused.twice);
        let (model, dropped) = in_mode(mode, || Model::fold(&file)).unwrap();
        assert_eq!(model.as_bytes()[64..], file[80..]);
        assert_eq!(dropped[0].point.cauchy_mass.to_bits(), 1);
        let report = in_mode(mode, || check_points(&file, 9));
        assert_eq!(
            (report.total, report.faults[0].cause),
            (1, Some(refused.refusal))
        );
    }
}

#[test]
fn trees_are_the_same_in_any_mode() {
    let model = beside_ties();
    let tree = model.tree().unwrap();
    let root = tree.root();
    let sums = (root.cauchy_mass, root.elliptic_mass);
    assert_eq!(sums, (1.0, 1.0 + 2.0_f32.powi(-22)));
    let body = Model::open(&small_body()).unwrap();
    let whole = body.tree().unwrap();
    for mode in MODES.into_iter().chain(TRAPPING) {
        assert_eq!(in_mode(mode, || model.tree()).unwrap(), tree);
        assert_eq!(in_mode(mode, || body.tree()).unwrap(), whole);
        let bytes = whole.as_bytes().to_vec();
        assert_eq!(in_mode(mode, || Tree::open(bytes)).unwrap(), whole);
    }
}

#[test]
fn fills_are_the_same_in_any_mode() {
    let (mesh, kernels) = shapes::contact_binary(6);
    let file = small_body();
    let places = [[-300.0, 7.0, 3.0], [420.0, 1e-320, 0.0], [0.0, 400.0, 0.0]];
    let inside = places.map(|place| is_inside(&mesh, place));
    assert_eq!(inside, [Ok(true), Ok(true), Ok(false)]);
    for mode in MODES.into_iter().chain(TRAPPING) {
        let again = in_mode(mode, || {
            build_mascon(&mesh, &kernels, &kernels[..1], 4.2e11, 1190.0, 10)
        });
        assert!(again.unwrap() == file, "{mode:#x}");
        assert_eq!(
            in_mode(mode, || places.map(|place| is_inside(&mesh, place))),
            inside
        );
    }
}

#[test]
fn narrowing_is_the_same_in_any_mode() {
    let cases = [
        (0x3ff0_0000_3000_0000, 0x3f80_0002), // 1 + 3 * 2^-24, a tie
        (0x3fb9_9999_9999_999a, 0x3dcc_cccd), // 0.1
        (0x36a0_0000_0000_0000, 0x0000_0001), // 2^-149
        (0x3800_0000_0000_0000, 0x0040_0000), // 2^-127
        (0x0000_0000_0000_0001, 0x0000_0000), // 2^-1074
        (0x47ef_ffff_efff_ffff, 0x7f7f_ffff), // below 2^128 - 2^103
    ];
    let too_large = [
        0x47ef_ffff_f000_0000, // 2^128 - 2^103
        0xc7ef_ffff_f000_0000,
        0x47f0_0000_0000_0000, // 2^128
        0x7fef_ffff_ffff_ffff,
        0x7ff0_0000_0000_0000, // infinities, NaN
        0xfff0_0000_0000_0000,
        0x7ff8_0000_0000_0000,
        0xffff_ffff_ffff_ffff,
    ];
    let cases = cases.map(|(wide, short)| (wide, Some(short)));
    let cases = cases.into_iter().chain(too_large.map(|wide| (wide, None)));
    for (wide, short) in cases {
        for mode in MODES.into_iter().chain(TRAPPING) {
            let narrowed = in_mode(mode, || narrow(f64::from_bits(wide)).map(f32::to_bits));
            assert_eq!(narrowed, short, "{wide:#x} in {mode:#x}");
        }
    }
}

/// Masses whose sum lies just below what is too large; rounded up, it would be that.
fn beside_too_large() -> Model {
    let mut model = Model::open(&shapes::empty_file(3, [0.0; 3], [1.0; 3])).unwrap();
    let power = |exponent: i32| 2.0_f32.powi(exponent);
    let masses = [
        f32::MAX,
        power(103) - power(79),
        power(79) - power(75),
        power(20),
    ];
    for (x, mass) in (0..).zip(masses) {
        model.put(x % 3, x / 3, 0, mass, -mass).unwrap();
    }
    model
}

#[test]
fn what_is_too_large_is_so_in_any_mode() {
    let mut model = beside_too_large();
    let (tree, float) = (model.tree().unwrap(), model.greatest_float());
    let end = 2.0_f64.powi(128) - 2.0_f64.powi(103);
    assert_eq!(float.value, end.next_down());
    assert_eq!(tree.root().elliptic_mass, f32::MIN);
    for mode in MODES.into_iter().chain(TRAPPING) {
        assert_eq!(in_mode(mode, || model.tree()), Ok(tree.clone()));
        assert_eq!(in_mode(mode, || model.greatest_float()), float);
        assert!(in_mode(mode, || check_floats(model.as_bytes(), 1)).is_clean());
        assert_eq!(in_mode(mode, || Tree::judge(model.as_bytes())), Ok(()));
        assert!(in_mode(mode, || check_tree(tree.as_bytes(), 1)).is_clean());
    }
    assert_eq!(in_mode(UP, || raw_build(model.as_bytes())).0, 22);
    model.put(2, 2, 2, 0.75 * 2.0_f32.powi(75), 0.0).unwrap();
    let refused = model.tree().unwrap_err();
    assert_eq!(refused.too_large.unwrap().value, end);
    let report = check_floats(model.as_bytes(), 9);
    for mode in MODES.into_iter().chain(TRAPPING) {
        assert_eq!(in_mode(mode, || model.tree()), Err(refused));
        let again = in_mode(mode, || check_floats(model.as_bytes(), 9));
        assert_eq!(again, report);
    }
    assert_eq!(in_mode(TO_ZERO, || raw_build(model.as_bytes())).0, 164);
}

#[test]
fn the_costliest_is_the_same_in_any_mode() {
    let (cost, model) = (Cost::of(MAX_GRID).unwrap(), Model::costliest(7).unwrap());
    let tree = model.tree().unwrap();
    for mode in MODES.into_iter().chain(TRAPPING) {
        assert_eq!(in_mode(mode, || Cost::of(MAX_GRID)), Ok(cost));
        assert!(in_mode(mode, || Cost::of(0)).is_err());
        let again = in_mode(mode, || Model::costliest(7)).unwrap();
        assert_eq!(again.as_bytes(), model.as_bytes());
        assert_eq!(in_mode(mode, || again.tree()).unwrap(), tree);
    }
}

#[test]
fn texts_are_read_the_same_in_any_mode() {
    let lists = "0.1 0.2 -0.3 1e-320 1e23\n";
    let kernels = parse_kernels(lists).unwrap();
    let mesh = "v 0.1 0 0\nv 1 0.3 0\nv 0 1 0.7\nf 1 2 3\n";
    let triangles = parse_obj(mesh, 0.1).unwrap().triangles;
    let edit = Edit::parse(&["put", "1", "2", "3", "0.1", "-0.3"]);
    for mode in MODES {
        assert_eq!(in_mode(mode, || parse_kernels(lists)).unwrap(), kernels);
        assert!(in_mode(mode, || parse_kernels("0 0 0 -5e-324 1")).is_err());
        let again = in_mode(mode, || parse_obj(mesh, 0.1)).unwrap();
        assert_eq!(again.triangles, triangles);
        let again = in_mode(mode, || Edit::parse(&["put", "1", "2", "3", "0.1", "-0.3"]));
        assert_eq!(again, edit);
    }
}

#[test]
fn differences_are_seen_in_any_mode() {
    let mut before = Model::open(&tiny()).unwrap();
    before.put(0, 0, 0, 0.0, 0.0).unwrap();
    let mut now = before.clone();
    now.put(0, 0, 0, 0.0, 1e-45).unwrap();
    for mode in MODES {
        let difference = in_mode(mode, || draw::difference(&before, &now));
        assert_eq!(difference.unwrap().changed, [[0, 0, 0]]);
    }
}

#[test]
fn a_panic_leaves_the_callers_mode() {
    for mode in MODES {
        let panicked = in_mode(mode, || {
            catch_unwind(|| in_default_mode(|| std::panic::resume_unwind(Box::new(read()))))
        });
        let within: Result<(), _> = panicked;
        let within = *within.unwrap_err().downcast::<u32>().unwrap();
        assert_eq!(within & 0xffc0, 0x1f80);
    }
}

/// In another mode the caller's flags, too, are as they were.
#[test]
fn flags_are_the_callers() {
    let before = Restored(read());
    load(UP | 0x21);
    let _ = narrow(0.1);
    let after = read();
    drop(before);
    assert_eq!(after, UP | 0x21);
}

fn raw_build(file: &[u8]) -> (u64, Vec<u8>) {
    let mut scratch = [0; 1000];
    let mut out = vec![0; 1 << 16];
    let built = unsafe {
        raw::mascon_build(
            file.as_ptr(),
            file.len(),
            scratch.as_mut_ptr(),
            scratch.len(),
            out.as_mut_ptr(),
            out.len(),
        )
    };
    (built.answer, out)
}

fn raw_fold(file: &[u8]) -> (u64, Vec<u8>) {
    let (mut scratch, mut out) = ([0], vec![0; 96]);
    let answer = unsafe {
        raw::mascon_fold(
            file.as_ptr(),
            file.len(),
            scratch.as_mut_ptr(),
            scratch.len(),
            out.as_mut_ptr(),
            out.len(),
        )
    };
    (answer, out)
}

/// A mesh filled at grid 8, with these kernels for both lists, into bytes that are not 0: the answer and the whole output.
fn raw_fill_whole(
    mesh: &[Triangle],
    kernels: *const u8,
    kernels_length: usize,
    target: f64,
) -> (u64, Vec<u8>) {
    let corners = mesh.iter().flat_map(|t| [t.a, t.b, t.c]).flatten();
    let triangles: Vec<u8> = corners.flat_map(f64::to_le_bytes).collect();
    let mut floats = vec![0.0; mesh.len()];
    let mut out = vec![0xa5; 64 + 16 * 256];
    let answer = unsafe {
        raw::mascon_fill(
            8,
            triangles.as_ptr(),
            triangles.len(),
            kernels,
            kernels_length,
            kernels,
            kernels_length,
            target,
            1.0,
            floats.as_mut_ptr(),
            floats.len(),
            out.as_mut_ptr(),
            out.len(),
        )
    };
    (answer, out)
}

/// The file that is filled so.
fn raw_fill(mesh: &[Triangle], kernels: *const u8, kernels_length: usize) -> Vec<u8> {
    let (length, mut out) = raw_fill_whole(mesh, kernels, kernels_length, 1e9);
    out.truncate(length as usize);
    out
}

/// The library alone answers otherwise in other modes, so that the tests above show something.
#[test]
fn without_the_default_mode_answers_differ() {
    let file = tiny();
    assert_eq!(raw_build(&file).0, 144);
    assert_eq!(in_mode(TINY_IS_ZERO, || raw_build(&file)).0, 5);
    assert_eq!(raw_fold(&file).0, 64);
    assert_eq!(in_mode(TINY_IS_ZERO, || raw_fold(&file)).0, 5);
    let model = beside_ties();
    let right = raw_build(model.as_bytes());
    assert_eq!(
        right.1[..right.0 as usize],
        *model.tree().unwrap().as_bytes()
    );
    for mode in [UP, DOWN, TO_ZERO] {
        let other = in_mode(mode, || raw_build(model.as_bytes()));
        assert_eq!(other.0, right.0);
        assert!(other.1 != right.1, "{mode:#x}");
    }
    let (mesh, kernels) = shapes::contact_binary(6);
    let [Kernel { c, sigma, w }, _] = kernels[..] else {
        panic!("two kernels");
    };
    let bytes = [c[0], c[1], c[2], sigma, w].map(f64::to_le_bytes).concat();
    let right = build_mascon(&mesh, &kernels[..1], &kernels[..1], 1e9, 1.0, 8).unwrap();
    assert_eq!(raw_fill(&mesh, bytes.as_ptr(), bytes.len()), right);
    for mode in [UP, DOWN, TO_ZERO] {
        let other = in_mode(mode, || raw_fill(&mesh, bytes.as_ptr(), bytes.len()));
        assert!(other != right, "{mode:#x}");
    }
}

/// A pointer may be NULL where its length is 0.
#[test]
fn null_with_length_0() {
    let answers = unsafe {
        [
            raw::mascon_inside(null(), 0, 0.0, 0.0, 0.0, null_mut(), 0),
            raw::mascon_fill(
                1,
                null(),
                0,
                null(),
                0,
                null(),
                0,
                0.0,
                0.0,
                null_mut(),
                0,
                null_mut(),
                0,
            ),
            raw::mascon_open(null(), 0, null_mut(), 0, null_mut(), 0, null_mut(), 0),
            raw::mascon_fold(null(), 0, null_mut(), 0, null_mut(), 0),
            raw::mascon_put(null_mut(), 0, null_mut(), 0, 0, 0, 0, 0.0, 0.0),
            raw::mascon_remove(null_mut(), 0, null_mut(), 0, 0, 0, 0),
            raw::mascon_undo(null_mut(), 0, null_mut(), 0),
            raw::mascon_build(null(), 0, null_mut(), 0, null_mut(), 0).answer,
            raw::mascon_write_costliest(0, null_mut(), 0),
            raw::mascon_write_costliest(1, null_mut(), 0),
        ]
    };
    assert_eq!(answers, [17, 17, 1, 1, 1, 1, 1, 1, 3, 9]);
}

/// The same of some buffers, with others that are accepted.
#[test]
fn null_beside_others() {
    let mut file = tiny();
    let mut words = [0_u32; 2];
    let (at, length, words) = (file.as_mut_ptr(), file.len(), words.as_mut_ptr());
    let answers = unsafe {
        [
            raw::mascon_open(at, length, null_mut(), 0, null_mut(), 0, null_mut(), 0),
            raw::mascon_open(at, length, words, 1, null_mut(), 0, null_mut(), 0),
            raw::mascon_fold(at, length, null_mut(), 0, null_mut(), 0),
            raw::mascon_fold(at, length, words, 1, null_mut(), 0),
            raw::mascon_put(at, length, null_mut(), 0, 0, 0, 0, 0.0, 0.0),
            raw::mascon_remove(at, length, null_mut(), 0, 0, 0, 0),
            raw::mascon_undo(at, length, null_mut(), 0),
            raw::mascon_build(at, length, null_mut(), 0, null_mut(), 0).answer,
            raw::mascon_build(at, length, words, 1, null_mut(), 0).answer,
            raw::mascon_build(at, length, words, 2, null_mut(), 0).answer,
        ]
    };
    assert_eq!(answers, [8, 9, 8, 9, 11, 11, 11, 8, 8, 9]);
    let (mesh, _) = shapes::contact_binary(6);
    let right = build_mascon(&mesh, &[], &[], 1e9, 1.0, 8).unwrap();
    assert_eq!(raw_fill(&mesh, null(), 0), right);
}

/// 21 after 8 and before 9 and 13; folding never answers it. The edits answer 10.
#[test]
fn a_cell_twice_beside_short_buffers() {
    let mut file = tiny_twice();
    let mut word = [0_u32];
    let (at, length, words) = (file.as_mut_ptr(), file.len(), word.as_mut_ptr());
    let answers = unsafe {
        [
            raw::mascon_open(at, length, null_mut(), 0, null_mut(), 0, null_mut(), 0),
            raw::mascon_open(at, length, words, 1, null_mut(), 0, null_mut(), 0),
            raw::mascon_build(at, length, null_mut(), 0, null_mut(), 0).answer,
            raw::mascon_build(at, length, words, 1, null_mut(), 0).answer,
            raw::mascon_fold(at, length, null_mut(), 0, null_mut(), 0),
            raw::mascon_fold(at, length, words, 1, null_mut(), 0),
            raw::mascon_put(at, length, null_mut(), 0, 0, 0, 0, 0.0, 0.0),
            raw::mascon_remove(at, length, null_mut(), 0, 0, 0, 0),
            raw::mascon_undo(at, length, null_mut(), 0),
        ]
    };
    assert_eq!(answers, [8, 21, 8, 21, 8, 9, 10, 10, 10]);
    let (length, folded) = raw_fold(&file);
    assert_eq!((length, &folded[64..80]), (80, &file[80..]));
    assert_eq!(folded[80..], [0; 16]);
}

/// 22 after 8 and 21, and before 9; the output is as it was, nodes and order are 0.
#[test]
fn a_float_too_large_beside_short_buffers() {
    let mut model = Model::open(&shapes::empty_file(2, [0.0; 3], [2.0; 3])).unwrap();
    model.put(0, 0, 0, f32::MAX, 1.0).unwrap();
    model.put(1, 1, 1, f32::MAX, 1.0).unwrap();
    let large = model.as_bytes();
    let twice = [&large[..80], &large[64..80]].concat();
    let swapped = [&large[..64], &large[80..], &large[64..80]].concat();
    for (file, words, length, wanted) in [
        (large, 0, 1000, 8),
        (large, 1, 1000, 8),
        (large, 2, 0, 22),
        (large, 2, 1000, 22),
        (large, 7, 1000, 22),
        (large, 8, 0, 22),
        (large, 8, 63, 22),
        (large, 8, 151, 22),
        (large, 8, 1000, 22),
        (&swapped[..], 2, 1000, 8),
        (&swapped[..], 7, 1000, 8),
        (&swapped[..], 8, 0, 22),
        (&swapped[..], 8, 1000, 22),
        (&twice[..], 2, 0, 8),
        (&twice[..], 7, 0, 8),
        (&twice[..], 8, 0, 21),
        (&twice[..], 8, 1000, 21),
    ] {
        let (mut scratch, mut out) = (vec![7_u32; words], vec![0xa5_u8; length]);
        let built = unsafe {
            raw::mascon_build(
                file.as_ptr(),
                file.len(),
                scratch.as_mut_ptr(),
                words,
                out.as_mut_ptr(),
                length,
            )
        };
        let answer = (built.answer, built.nodes, built.order);
        assert_eq!(answer, (wanted, 0, 0), "{words} words, {length} bytes");
        assert_eq!(out, vec![0xa5; length]);
        assert!(wanted != 8 || scratch == vec![7; words]);
    }
}

/// 3 alone, with nodes and bytes 0.
#[test]
fn the_cost_of_no_grid() {
    for grid in [0, MAX_GRID + 1, 65_536 + 8, 1 << 31, u32::MAX] {
        let cost = unsafe { raw::mascon_costliest(grid) };
        assert_eq!((cost.answer, cost.nodes, cost.bytes), (3, 0, 0), "{grid}");
    }
    let cost = unsafe { raw::mascon_costliest(3) };
    assert_eq!((cost.answer, cost.nodes, cost.bytes), (0, 9, 892));
}

/// 3, then 9 without room for every cell; a refusal writes nothing, and nothing is written past the file.
#[test]
fn the_costliest_beside_short_outputs() {
    let length = 64 + 16 * 27;
    let file = Model::costliest(3).unwrap();
    assert_eq!(file.as_bytes().len(), length);
    for (grid, room, wanted) in [
        (0, 0, 3),
        (0, 1000, 3),
        (MAX_GRID + 1, 0, 3),
        (u32::MAX, 1000, 3),
        (3, 0, 9),
        (3, 63, 9),
        (3, 64, 9),
        (3, length - 1, 9),
        (MAX_GRID, 1000, 9),
        (3, length, length),
        (3, length + 1, length),
        (3, 1000, length),
    ] {
        let mut out = vec![0xa5_u8; room];
        let answer = unsafe { raw::mascon_write_costliest(grid, out.as_mut_ptr(), room) };
        assert_eq!(answer, wanted as u64, "{grid}, {room} bytes");
        let written = if wanted < 64 { 0 } else { wanted };
        assert_eq!(out[..written], file.as_bytes()[..written]);
        assert_eq!(out[written..], vec![0xa5; room - written]);
    }
}

/// Built with the output that was answered for its grid, and with a byte less.
#[test]
fn the_costliest_takes_its_whole_output() {
    let (cost, model) = (Cost::of(6).unwrap(), Model::costliest(6).unwrap());
    let (file, mut scratch) = (model.as_bytes(), [0; 216]);
    let mut out = vec![0; cost.bytes];
    let short = super::build(file, &mut scratch, &mut out[1..]);
    assert_eq!(short, Err(Refusal::OutputTooShort));
    let built = super::build(file, &mut scratch, &mut out);
    assert_eq!(built, Ok((cost.bytes, cost.nodes, 216)));
}

/// Masses too large for a float: 20, and 18 where there are too many points as well; both zero the output.
#[test]
fn masses_too_large_zero_the_output() {
    let kernel = [0.0, 0.0, 0.0, 0.0, 1e30].map(f64::to_le_bytes).concat();
    let ball = shapes::lumpy_sphere([0.0; 3], 9e5, 0.0, 8);
    let cube = shapes::cuboid([-9e5; 3], [9e5; 3]);
    for (mesh, wanted) in [(ball, 20), (cube, 18)] {
        for target in [0.0, 1e9] {
            let (answer, out) = raw_fill_whole(&mesh, kernel.as_ptr(), kernel.len(), target);
            assert_eq!((answer, out), (wanted, vec![0; 64 + 16 * 256]));
        }
    }
}

/// A number that a later library may answer is told, not a reason to panic.
#[test]
fn unknown_numbers_are_refusals() {
    let known = Refusal::ALL.len() as u64;
    for number in 0..64 {
        let refusal = length(number).unwrap_err();
        assert_eq!(refusal.number(), number);
        let unknown = number == 0 || number > known;
        assert_eq!(refusal == Refusal::Unknown(number), unknown, "{number}");
    }
    assert_eq!(
        format!("{:?}", Refusal::Unknown(63)),
        "refused 63: a cause that this crate does not know"
    );
    assert_eq!(length(64), Ok(64));
}
