//! The original itself on models whose answers are known: it is compiled and reached as it should be.

use crate::build::two_greatest;
use crate::ffi::{self, Built};
use crate::fill::cases::Case;
use crate::fill::fixed::walls_at;
use crate::meshes::{bytes, cuboid, mesh_bytes, tetrahedron};
use crate::original::{self, shim, Answered, Verdict};
use crate::points::{point_file, Header, Record};
use crate::report::Report;
use crate::rule;
use crate::search::Search;

/// A tetrahedron with corners at the origin and at 12 on each axis, seen from outside.
const TETRAHEDRON: [f64; 36] = [
    0.0, 0.0, 0.0, 0.0, 12.0, 0.0, 12.0, 0.0, 0.0, //
    0.0, 0.0, 0.0, 12.0, 0.0, 0.0, 0.0, 0.0, 12.0, //
    0.0, 0.0, 0.0, 0.0, 0.0, 12.0, 0.0, 12.0, 0.0, //
    12.0, 0.0, 0.0, 0.0, 12.0, 0.0, 0.0, 0.0, 12.0,
];

const KERNEL: [f64; 5] = [1.0, 2.0, 3.0, 0.5, 7.0];

/// Says what is wrong, or nothing.
type Model = (&'static str, fn() -> Result<(), String>);

/// They ask the original.
const MODELS: [Model; 16] = [
    ("no record", no_record),
    ("one record", one_record),
    ("all cells of grid 2", full_grid_2),
    ("a full plane of grid 3", plane_of_grid_3),
    ("a corner of grid 4", corner_of_grid_4),
    ("a shared slot", shared_slot),
    ("a cell twice", cell_twice),
    ("two greatest masses", two_greatest_masses),
    ("narrowing", narrowing),
    ("what the original accepts and the library refuses", laxer),
    (
        "what the original fills and the library refuses",
        laxer_in_filling,
    ),
    ("a ray", ray),
    ("near crossings", near_crossings),
    ("density", density),
    ("reading", reading),
    ("filling at every grid size", filling),
];

/// The original has no edits.
const OF_THE_LIBRARY: Model = ("two edits undone", two_edits_undone);

pub(crate) fn check(report: &mut Report) {
    report.run("original: models", || {
        let mut search = Search::default();
        let mut note = |name: &str, verdict: Verdict| {
            let told = |why| format!("{name}: {why}");
            search.note(0, search.cases.all(), verdict.told(told));
        };
        for (name, model) in MODELS {
            note(name, original::modelled(model));
        }
        let (name, model) = OF_THE_LIBRARY;
        note(name, Verdict::by_rule(model().err()));
        search.found()
    });
}

fn same<T: PartialEq + std::fmt::Debug>(what: &str, got: T, want: T) -> Result<(), String> {
    if got == want {
        Ok(())
    } else {
        Err(format!("{what} {got:?}, not {want:?}"))
    }
}

fn record(x: u16, y: u16, z: u16) -> Record {
    Record {
        cell: [x, y, z],
        cauchy_mass: 1.0,
        elliptic_mass: 2.0,
    }
}

fn word_at(bytes: &[u8], at: usize) -> u32 {
    u32::from_le_bytes([bytes[at], bytes[at + 1], bytes[at + 2], bytes[at + 3]])
}

fn float_at(bytes: &[u8], at: usize) -> f32 {
    f32::from_bits(word_at(bytes, at))
}

/// The library's answer to a file of a small grid, and the tree that it writes.
fn built(file: &[u8]) -> (Built, Vec<u8>) {
    let mut out = vec![0; 1024];
    let built = ffi::build(file, &mut [0; 64], &mut out);
    out.truncate(built.answer as usize);
    (built, out)
}

/// The tree, after a look at its length and its counts; the library's is the same.
fn tree(file: &[u8], bytes: usize, nodes: usize, order: &[u32]) -> Result<Vec<u8>, String> {
    let (tree, node_count, order_count) = shim::build_mascon_tree(file)?;
    let want = Built {
        answer: bytes as u64,
        nodes: nodes as u64,
        order: order.len() as u64,
    };
    same("the library's", built(file), (want, tree.clone()))?;
    same("bytes", tree.len(), bytes)?;
    same("nodes", node_count, nodes)?;
    same("order count", order_count, order.len())?;
    let words: Vec<u32> = (0..order.len())
        .map(|i| word_at(&tree, 64 + 80 * nodes + 4 * i))
        .collect();
    same("order", &words[..], order)?;
    Ok(tree)
}

fn links(tree: &[u8], node: usize) -> [f32; 2] {
    [24, 28].map(|at| float_at(tree, 64 + 80 * node + at))
}

fn no_record() -> Result<(), String> {
    let tree = tree(&point_file(Header::cube(1, 2.0), &[]), 144, 1, &[])?;
    same("links", links(&tree, 0), [-1.0; 2])
}

fn one_record() -> Result<(), String> {
    let record = Record {
        cell: [0; 3],
        cauchy_mass: 3.0,
        elliptic_mass: 0.0,
    };
    let tree = tree(&point_file(Header::cube(1, 2.0), &[record]), 148, 1, &[0])?;
    let ones = [0, 4, 8, 12, 32, 36, 40, 48, 52, 56, 64, 68, 72].map(|at| float_at(&tree, 64 + at));
    same("centre, half and centres of mass", ones, [1.0; 13])?;
    same(
        "sums",
        [16, 20].map(|at| float_at(&tree, 64 + at)),
        [3.0, 0.0],
    )
}

fn full_grid_2() -> Result<(), String> {
    let records: Vec<Record> = (0..8).map(|i| record(i & 1, i >> 1 & 1, i >> 2)).collect();
    let tree = tree(
        &point_file(Header::cube(2, 2.0), &records),
        176,
        1,
        &[0, 1, 2, 3, 4, 5, 6, 7],
    )?;
    same("links", links(&tree, 0), [-1.0; 2])
}

fn plane_of_grid_3() -> Result<(), String> {
    let records: Vec<Record> = (0..9).map(|i| record(i % 3, i / 3, 0)).collect();
    let tree = tree(
        &point_file(Header::cube(3, 3.0), &records),
        340,
        3,
        &[0, 3, 6, 1, 2, 4, 5, 7, 8],
    )?;
    same("links", links(&tree, 0), [1.0, 2.0])
}

fn corner_of_grid_4() -> Result<(), String> {
    let mut records: Vec<Record> = (0..8).map(|i| record(i & 1, i >> 1 & 1, i >> 2)).collect();
    records.push(record(0, 3, 0));
    let tree = tree(
        &point_file(Header::cube(4, 4.0), &records),
        500,
        5,
        &[0, 1, 2, 3, 4, 5, 6, 7, 8],
    )?;
    same("root's right link", links(&tree, 0)[1], -1.0)
}

/// Where the original is laxer than the library: (192, 5, 0) lands in the slot of (0, 6, 0).
fn shared_slot() -> Result<(), String> {
    let file = point_file(Header::cube(192, 192.0), &[record(192, 5, 0)]);
    same("refused", refused(&file), [6, 6])?;
    let (tree, _, order) = shim::build_mascon_tree(&file)?;
    same("order count", order, 1)?;
    same(
        "centre of mass",
        [32, 36, 40].map(|at| float_at(&tree, 64 + at)),
        [192.5, 5.5, 0.5],
    )
}

/// Two records of (1, 0, 0): the library refuses the file, the original takes the later record; fold leaves that one alone.
fn cell_twice() -> Result<(), String> {
    let later = Record {
        cauchy_mass: 5.0,
        elliptic_mass: 6.0,
        ..record(1, 0, 0)
    };
    let file = point_file(Header::cube(2, 2.0), &[record(1, 0, 0), later]);
    same("refused", refused(&file), [21, 21])?;
    let sums = |tree: &[u8]| [16, 20].map(|at| float_at(tree, 64 + at));
    let (of_both, _, order) = shim::build_mascon_tree(&file)?;
    same("order count", order, 1)?;
    same("order", word_at(&of_both, 144), 1)?;
    same("sums", sums(&of_both), [5.0, 6.0])?;
    let mut folded = vec![0; 80];
    same("fold", ffi::fold(&file, &mut [0; 8], &mut folded), 80)?;
    let of_later = tree(&folded, 148, 1, &[0])?;
    same("sums once folded", sums(&of_later), [5.0, 6.0])
}

/// The greatest mass in two cells: the original writes an infinity, build refuses; open takes the file.
fn two_greatest_masses() -> Result<(), String> {
    let file = two_greatest(2);
    same("answers", refused(&file), [96, 22])?;
    let (tree, _, _) = shim::build_mascon_tree(&file)?;
    same("its sum", float_at(&tree, 64 + 16), f32::INFINITY)?;
    same("its nodes are finite", rule::tree::is_finite(&tree), false)?;
    let mut out = [7; 152];
    let built = ffi::build(&file, &mut [0; 8], &mut out);
    same("build", built, Built::refused(22))?;
    same("the output", out, [7; 152])
}

/// The starred numbers, and a NaN: by Rust's `as f32`, with which the original narrows, and by the library.
fn narrowing() -> Result<(), String> {
    let power = |exponent: i32| 2f64.powi(exponent);
    let models = [
        (1.0 + power(-24), 0x3f80_0000, 0x3f80_0000),
        (1.0 + 3.0 * power(-24), 0x3f80_0002, 0x3f80_0002),
        (3.0 * power(-150), 0x0000_0002, 0x0000_0002),
        (power(128) - power(103), 0x7f80_0000, 0x1_0000_0000),
        (power(103) - power(128), 0xff80_0000, 0x1_0000_0000),
        (f64::INFINITY, 0x7f80_0000, 0x1_0000_0000),
    ];
    for (x, by_original, by_library) in models {
        let float = original::narrowed(x.to_bits()).map(Answered::taken);
        let told = (float.map(f32::to_bits), ffi::narrow(x.to_bits()));
        same(&format!("{x:e}"), told, (Some(by_original), by_library))?;
    }
    let nan = 0xfff8_0000_0000_0001;
    same("a NaN", ffi::narrow(nan), 0x1_0000_0000)
}

/// g 2 with (1, 0, 0), 16 bytes to spare, 7 journal words: put (0, 0, 0), remove (1, 0, 0), by the library.
fn two_edits_undone() -> Result<(), String> {
    let opened = point_file(Header::cube(2, 2.0), &[record(1, 0, 0)]);
    let (mut file, mut journal) = (vec![0; opened.len() + 16], [0xa5a5_a5a5; 7]);
    let answer = ffi::open(&opened, &mut [0; 8], &mut file, &mut journal);
    same("open", answer, 80)?;
    let start = built(&file);
    let masses = [3.0f32, 4.0].map(f32::to_bits);
    same("put", ffi::put(&mut file, &mut journal, [0; 3], masses), 96)?;
    let put = file.clone();
    same("record put", &file[64..72], &[0; 8])?;
    same("record after it", &file[80..], &opened[64..])?;
    let removed = ffi::remove(&mut file, &mut journal, [1, 0, 0]);
    same("remove", removed, 80)?;
    same("bytes freed", &file[80..], &[0; 16])?;
    let heads = [2, 0x4000_0000, 0, 0, 0xc000_0001, 0x3f80_0000, 0x4000_0000];
    same("journal", journal, heads)?;
    same("first undo", ffi::undo(&mut file, &mut journal), 96)?;
    same("after the first undo", &file, &put)?;
    same("second undo", ffi::undo(&mut file, &mut journal), 80)?;
    same("after the second undo", &file[..80], &opened[..])?;
    same("journal undone", journal, [0; 7])?;
    same("tree", built(&file), start)?;
    same("third undo", ffi::undo(&mut file, &mut journal), 15)
}

/// The library's answers to a file, of open and of build, with room for all they could want at a small grid.
fn refused(file: &[u8]) -> [u64; 2] {
    let opened = ffi::open(file, &mut [0; 8], &mut [0; 256], &mut [0; 1]);
    [opened, built(file).0.answer]
}

/// Whether a call panics; what it would print is left out.
fn panics(call: impl FnOnce() -> bool + std::panic::UnwindSafe) -> bool {
    let hook = std::panic::take_hook();
    std::panic::set_hook(Box::new(|_| ()));
    let caught = std::panic::catch_unwind(call).is_err();
    std::panic::set_hook(hook);
    caught
}

/// Each input of docs/DIFFERENCES.md: the original takes it, and the library gives the cause named there, in open and in build.
fn laxer() -> Result<(), String> {
    let cube = Header::cube(2, 2.0);
    let endless = Header {
        max: [f32::INFINITY, 2.0, 2.0],
        ..cube
    };
    let heavy = Record {
        cauchy_mass: f32::NAN,
        ..record(0, 0, 0)
    };
    let cases = [
        ("g 0", point_file(Header::cube(0, 2.0), &[]), 3),
        ("g 257", point_file(Header::cube(257, 2.0), &[]), 3),
        ("an endless box", point_file(endless, &[]), 5),
        ("a flat box", point_file(Header::cube(2, 0.0), &[]), 5),
        ("a NaN mass", point_file(cube, &[heavy]), 7),
    ];
    for (name, file, cause) in cases {
        shim::build_mascon_tree(&file)?;
        same(name, refused(&file), [cause; 2])?;
    }
    let outside = point_file(cube, &[record(0, 0, 2)]);
    let panicked = panics(|| shim::build_mascon_tree(&outside).is_ok());
    same("a coordinate past the last slot panics", panicked, true)?;
    same("a coordinate past the last slot", refused(&outside), [6; 2])?;
    let one_cell = point_file(Header::cube(1, 2.0), &[]);
    same(
        "no scratch",
        ffi::build(&one_cell, &mut [], &mut []),
        Built::refused(8),
    )
}

/// The library's answer to a fill with room for all it could want at a small grid.
fn filled(case: &Case) -> u64 {
    ffi::fill(&case.body(), &mut [0.0; 16], &mut [0; 256])
}

/// Each input of filling in docs/DIFFERENCES.md: the original takes it, or says something else, and the library gives the cause
/// named there.
fn laxer_in_filling() -> Result<(), String> {
    let corner = |low: f64, high: f64| {
        let [x, y] = [[high, low, low], [low, high, low]];
        tetrahedron([[low; 3], x, y, [low, low, high]])
    };
    let beyond = Case::of(2, &corner(0.0, 1e6f64.next_up()));
    let flat = Case::of(2, &corner(999_999.99, 1e6));
    let heavy = Case {
        cauchy: bytes(&[0.0, 0.0, 0.0, 0.0, 1e30]),
        ..Case::of(2, &corner(0.0, 1e4))
    };
    let cases = [
        ("a coordinate above 1e6", beyond, 17),
        ("a box that is flat after narrowing", flat, 19),
        ("an infinite mass", heavy, 20),
    ];
    for (name, case, cause) in cases {
        let taken = original::filled(&case.body()).is_some_and(|file| file.taken().is_ok());
        same(name, (filled(&case), taken), (cause, true))?;
    }
    let flat_and_full = Case::of(2, &cuboid([999_999.99; 3], [1e6; 3]));
    let told = original::filled(&flat_and_full.body()).and_then(|file| file.taken().err());
    let told = (filled(&flat_and_full), told.as_deref());
    same(
        "flat and over capacity",
        told,
        (19, Some("mascon capacity exceeded")),
    )
}

/// From the origin at distance 1, and not from beyond: by the original, by the rule, and by the library, asked whether the point is
/// inside a mesh of that one triangle.
fn ray() -> Result<(), String> {
    let triangle = [[1.0, -1.0, -1.0], [1.0, 1.0, -1.0], [1.0, 0.0, 1.0]];
    let points = [[0.0; 3], [2.0, 0.0, 0.0]];
    let by_original = points.map(|point| original::ray(point, &triangle).map(Answered::taken));
    same("by the original", by_original, [Some(1.0), Some(-1.0)])?;
    let by_rule = points.map(|point| rule::fill::crossing(point, triangle));
    same("by the rule", by_rule, [Some(1.0), None])?;
    let list = mesh_bytes(&[triangle]);
    let by_library = points.map(|point| ffi::inside(&list, point, &mut [0.0]));
    same("by the library", by_library, [1, 0])
}

/// Crossings at 10, 10.000009, 10.000018: the first and the last remain. By the rule; walls there by the original and the library,
/// asked about the origin, and filled at g 1, where the origin is the one middle.
fn near_crossings() -> Result<(), String> {
    let near = [10.0, 10.000009, 10.000018];
    let remain = rule::fill::retained(near.to_vec());
    same("remain", remain, vec![near[0], near[2]])?;
    for (walls, inside) in [(&near[..], false), (&near[..2], true)] {
        let mesh = walls_at(walls);
        let list = mesh_bytes(&mesh);
        let by_original = original::inside(&list, &[[0.0; 3]]).map(Answered::taken);
        same("by the original", by_original, Some(vec![inside]))?;
        let by_library = ffi::inside(&list, [0.0; 3], &mut [0.0; 4]);
        same("by the library", by_library, u64::from(inside))?;
        let length = 64 + 16 * u64::from(inside);
        same("filled", filled(&Case::of(1, &mesh)), length)?;
    }
    Ok(())
}

fn density() -> Result<(), String> {
    same(
        "at the centre",
        shim::density_at(&KERNEL, [1.0, 2.0, 3.0]),
        7.0,
    )?;
    same(
        "at 2 from it",
        shim::density_at(&KERNEL, [1.0, 4.0, 3.0]),
        3.5,
    )?;
    same("of no kernels", shim::density_at(&[], [0.0; 3]), 0.0)
}

fn reading() -> Result<(), String> {
    let file = point_file(Header::cube(5, 2.5), &[record(1, 2, 3), record(4, 0, 4)]);
    let points = shim::parse_mascon_bytes(&file)?;
    same("grid and count", (points.grid, points.count), (5, 2))?;
    let lone = [
        points.constant_density,
        points.cell_volume,
        points.cauchy_scale,
    ];
    same("density, volume, scale", lone, [1190.0, 1.0, 1.0])?;
    same("box", (points.min, points.max), ([0.0; 3], [2.5; 3]))?;
    same(
        "records",
        points.records,
        vec![([1, 2, 3], [1.0, 2.0]), ([4, 0, 4], [1.0, 2.0])],
    )?;
    same(
        "of a short file",
        shim::parse_mascon_bytes(&file[..95]).is_err(),
        true,
    )
}

/// A file of the right grid size comes out and the tree has all its cells; up to grid size 64 they are
/// those whose middles are inside.
fn filling() -> Result<(), String> {
    for g in original::GRID_SIZES {
        let file = original::build_mascon(g, &TETRAHEDRON, &KERNEL, &KERNEL, 100.0, 1190.0)?;
        let points = shim::parse_mascon_bytes(&file)?;
        same("grid", points.grid, g)?;
        same("bytes", file.len(), 64 + 16 * points.count)?;
        if g <= 64 {
            let cells = points.records.iter().map(|(cell, _)| *cell).collect();
            same(&format!("cells at grid size {g}"), cells, cells_inside(g))?;
        }
        let (_, _, order) = shim::build_mascon_tree(&file)?;
        same("order count", order, points.count)?;
    }
    Ok(())
}

/// The cells, in cell order, whose middles are inside the tetrahedron.
fn cells_inside(g: usize) -> Vec<[u32; 3]> {
    let (min, cell) = (-6.0 / g as f64, (12.0 + 12.0 / g as f64) / g as f64);
    let middle = |i: u32| min + (f64::from(i) + 0.5) * cell;
    let n = g as u32;
    let cells: Vec<[u32; 3]> = (0..n * n * n)
        .map(|i| [i % n, i / n % n, i / n / n])
        .collect();
    let middles: Vec<[f64; 3]> = cells.iter().map(|cell| cell.map(middle)).collect();
    let inside = shim::inside(&TETRAHEDRON, &middles);
    cells
        .into_iter()
        .zip(inside)
        .filter(|(_, yes)| *yes)
        .map(|(cell, _)| cell)
        .collect()
}

#[cfg(test)]
mod tests {
    #[test]
    fn models() {
        for (name, model) in super::MODELS.into_iter().chain([super::OF_THE_LIBRARY]) {
            assert_eq!(model(), Ok(()), "{name}");
        }
    }
}
