//! The walk held against the library.

use super::{each_too_large, first_too_large, greatest, Field, Nodes};
use crate::check::check_points;
use crate::points::{float_at, HEADER, RECORD};
use crate::rng::Rng;
use crate::tree::NODE;
use crate::{narrow, shapes, Model, Refusal, Tree};
use std::collections::HashSet;

/// Masses that add up to about the end of binary32, that cancel, and others.
fn mass(rng: &mut Rng, kind: u64) -> f32 {
    let sign = if rng.below(3) == 0 { -1.0 } else { 1.0 };
    let whole = rng.below(9) as f32;
    sign * match kind {
        0 => f32::MAX,
        1 => [f32::MAX, 2_f32.powi(103), 2_f32.powi(103).next_down(), 1.0][rng.below(4) as usize],
        2 => whole * 2_f32.powi(124),
        3 => [1.0, 1.0 - 2_f32.powi(-24), 0.0][rng.below(3) as usize],
        4 => whole * 2_f32.powi(-102),
        _ => rng.mass(),
    }
}

/// A box of cells as they are met, or whose middles lie near the end of binary32.
fn sides(rng: &mut Rng) -> ([f32; 3], [f32; 3]) {
    match rng.below(4) {
        0 => ([-8.0, -6.0, -4.0], [8.0, 6.0, 4.0]),
        1 => ([0.0; 3], [1e34, 1e31, 7.0]),
        2 => ([f32::MIN; 3], [f32::MAX, f32::MAX, f32::MIN.next_up()]),
        _ => ([1e38, -3e38, 1e-40], [3.4e38, -2.9e38, 1e-38]),
    }
}

/// Some points of a small grid, their records in any order.
fn random_file(rng: &mut Rng) -> Vec<u8> {
    let grid = 1 + rng.below(5) as u32;
    let (min, max) = sides(rng);
    let mut file = shapes::empty_file(grid, min, max);
    // A cell's volume passes the end of binary32 in the greatest boxes.
    file[20..24].fill(0);
    let mut model = Model::open(&file).unwrap();
    let kinds = [rng.below(6), rng.below(6)];
    for _ in 0..rng.below(24) {
        let [x, y, z] = [0; 3].map(|_| rng.below(u64::from(grid)) as u32);
        let [cauchy, elliptic] = kinds.map(|kind| mass(rng, kind));
        model.put(x, y, z, cauchy, elliptic).unwrap();
    }
    let mut file = model.as_bytes().to_vec();
    let records = model.len() as u64;
    for _ in 0..rng.below(4) * records {
        let [a, b] = [0; 2].map(|_| HEADER + RECORD * rng.below(records) as usize);
        for byte in 0..RECORD {
            file.swap(a + byte, b + byte);
        }
    }
    file
}

/// The tree that the library wrote has the walk's nodes, and every float of them narrowed.
fn as_written(file: &[u8], tree: &Tree) {
    let nodes: Vec<_> = Nodes::of(file).collect();
    assert_eq!(nodes.len(), tree.node_count());
    for (place, node) in nodes.iter().enumerate() {
        for float in node.floats() {
            let at = HEADER + NODE * place + float.field.offset();
            let written = float_at(tree.as_bytes(), at);
            let bits = narrow(float.value).map(f32::to_bits);
            assert_eq!(bits, Some(written.to_bits()), "{float}, written {written}");
        }
    }
}

/// The library says 22 exactly where the walk finds a float that is too large, and then the first one is told; else its tree's floats are the
/// walk's.
#[test]
fn the_walk_agrees_with_the_library() {
    let mut rng = Rng(22);
    let (mut refused, mut below_root, mut fields) = (0, 0, HashSet::new());
    let files = 200_000;
    for _ in 0..files {
        let file = random_file(&mut rng);
        assert!(check_points(&file, 1).is_clean());
        let first = first_too_large(&file);
        assert_eq!(first.is_some(), greatest(&file).is_too_large());
        assert_eq!(Tree::judge(&file).is_err(), first.is_some());
        match Tree::build(&file) {
            Ok(tree) => {
                assert_eq!(first, None);
                as_written(&file, &tree);
            }
            Err(error) => {
                assert_eq!(error, Refusal::FloatTooLarge);
                let float = error.too_large.unwrap();
                assert_eq!((first, float.is_too_large()), (Some(float), true));
                refused += 1;
                below_root += usize::from(float.node > 0);
                each_too_large(&file, |float| {
                    fields.insert(float.field);
                    true
                });
            }
        }
    }
    assert!(
        refused > files / 4 && refused < files / 2,
        "{refused} of {files}"
    );
    assert!(below_root > files / 100, "{below_root}");
    // Sums and centres of mass. The others lie within the box, or are half of it.
    assert_eq!(fields, Field::ALL[4..12].iter().copied().collect());
}

/// A body, whose sums are not exact, and a full grid, whose boxes are not cubes.
#[test]
fn bodies_are_as_written() {
    let (mesh, kernels) = shapes::contact_binary(8);
    let body = Model::fill(&mesh, &kernels, &kernels[..1], 4.2e11, 1900.0, 20).unwrap();
    let mut full = Model::open(&shapes::empty_file(7, [-1.0, -0.1, 3.0], [2.0, 0.7, 3.3])).unwrap();
    for cell in 0..7 * 7 * 7_u32 {
        let (x, y, z) = (cell % 7, cell / 7 % 7, cell / 49);
        full.put(x, y, z, 0.1 * cell as f32, -0.3).unwrap();
    }
    for model in [body, full] {
        as_written(model.as_bytes(), &model.tree().unwrap());
        let (root, float) = (model.tree().unwrap().root(), model.greatest_float());
        let sums = [root.cauchy_mass, root.elliptic_mass];
        assert!(sums.contains(&narrow(float.value).unwrap()), "{float}");
    }
}

/// The fields stand in a node's record as its typed form reads it.
#[test]
fn fields_are_the_nodes() {
    let mut model = Model::open(&shapes::empty_file(2, [0.0; 3], [3.0, 2.0, 1.0])).unwrap();
    model.put(1, 0, 0, 5.0, 1.0).unwrap();
    model.put(0, 1, 1, 3.0, 7.0).unwrap();
    let tree = model.tree().unwrap();
    let node = tree.root();
    let typed = [
        &node.center[..],
        &[node.half, node.cauchy_mass, node.elliptic_mass],
        &node.cauchy_center,
        &node.elliptic_center,
        &node.constant_center,
    ]
    .concat();
    let read = Field::ALL.map(|field| float_at(tree.as_bytes(), HEADER + field.offset()));
    assert_eq!(typed, read);
    assert!(Field::ALL.iter().enumerate().all(|(i, &f)| f as usize == i));
}
