//! Floats of the tree that are too large: refused with the node and the float, while the model stays one.

mod common;

use common::{command, done, fails, file, mascon, record, run, Folder, Rng};
use mascon::check::{check_floats, check_points, check_tree, Place};
use mascon::draw::{Mass, Picture};
use mascon::{
    build_mascon, build_mascon_tree, parse_mascon_bytes, shapes, Field, Kernel, Model, ModelFile,
    Refusal, Tree, TreeFloat,
};
use std::error::Error;
use std::fs;
use std::process::Stdio;

type Record = (u16, u16, u16, f32, f32);

const MAX: f32 = f32::MAX;

/// A power of two.
fn power(exponent: i32) -> f32 {
    2_f32.powi(exponent)
}

/// From here on a float is too large.
fn end() -> f64 {
    2_f64.powi(128) - 2_f64.powi(103)
}

/// Two greatest masses, in cells of one leaf.
const TWO: [Record; 2] = [(0, 3, 7, MAX, 1.0), (1, 5, 7, MAX, 1.0)];

/// Two of each sign, on either side of the root's split, and five others: the root adds up to 0.
const BY_THE_CHILD: [Record; 9] = [
    (0, 0, 0, MAX, 1.0),
    (1, 0, 0, 0.0, 1.0),
    (6, 0, 0, -MAX, 1.0),
    (0, 3, 0, 0.0, 1.0),
    (7, 3, 0, 0.0, 1.0),
    (1, 1, 1, MAX, 1.0),
    (4, 1, 1, -MAX, 1.0),
    (2, 7, 7, 0.0, 1.0),
    (7, 7, 7, 0.0, 1.0),
];

/// These masses in cells of one leaf, in this order, the elliptic ones with the other sign.
fn in_a_row(masses: &[f32]) -> Vec<u8> {
    let record = |(x, &mass): (u16, &f32)| (x, 0, 0, mass, -mass);
    let records: Vec<Record> = (0..).zip(masses).map(record).collect();
    file(8, &records)
}

/// Whatever builds the file refuses it with this float, and only that; what opens it does not.
fn refused_for(bytes: &[u8], float: TreeFloat) {
    let error = Tree::build(bytes).unwrap_err();
    assert_eq!(error, Refusal::FloatTooLarge);
    assert_eq!((error.too_large, error.twice), (Some(float), None));
    assert!(float.is_too_large());
    let words = format!("refused 22: a float of the tree is too large: {float}");
    assert_eq!([error.to_string(), format!("{error:?}")], [&*words; 2]);
    assert_eq!(String::from(error), words);
    let refusal = Refusal::from(error);
    assert_eq!(error.source().unwrap().to_string(), refusal.to_string());
    assert_eq!(Tree::judge(bytes), Err(error));
    let source = parse_mascon_bytes(bytes, "file").unwrap();
    let labelled = build_mascon_tree(&source).unwrap_err();
    assert_eq!(
        (labelled.refusal, labelled.too_large, labelled.twice),
        (refusal, Some(float), None)
    );
    assert_eq!(labelled.to_string(), format!("file: {words}"));
    let model = source.open().unwrap();
    assert_eq!(model.tree(), Err(error));
    assert!(model.greatest_float().is_too_large());
    assert!(check_points(bytes, 1).is_clean());
    let fault = check_floats(bytes, 1).faults.remove(0);
    let node = float.node as usize;
    assert_eq!(
        (fault.cause, fault.place, fault.field, fault.offset),
        (
            Some(refusal),
            Place::Unbuilt(node),
            float.field.name(),
            64 + 80 * node + float.field.offset()
        )
    );
}

/// The same, and the sums of the root.
fn has_a_tree(bytes: &[u8], sums: [f32; 2]) {
    let tree = Tree::build(bytes).unwrap();
    let root = tree.root();
    assert_eq!([root.cauchy_mass, root.elliptic_mass], sums);
    assert_eq!(Tree::judge(bytes), Ok(()));
    assert!(check_floats(bytes, 1).is_clean());
    let model = Model::open(bytes).unwrap();
    assert!(!model.greatest_float().is_too_large());
    assert!(check_tree(tree.as_bytes(), 1).is_clean());
    assert!(tree.nodes().all(|node| node.cauchy_mass.is_finite()));
}

/// A float of the root of grid 8.
fn of_root(field: Field, value: f64) -> TreeFloat {
    TreeFloat {
        node: 0,
        low: [0; 3],
        high: [7; 3],
        field,
        value,
    }
}

#[test]
fn two_greatest_masses() {
    let twice_max = 2.0 * f64::from(MAX);
    refused_for(&file(8, &TWO), of_root(Field::CauchySum, twice_max));
    let float = of_root(Field::CauchySum, twice_max);
    assert_eq!(
        float.to_string(),
        "node 0, cells (0, 0, 0) to (7, 7, 7): the Cauchy masses add up to 6.805646932770577e38 kg"
    );
    let elliptic = TWO.map(|(x, y, z, cauchy, elliptic)| (x, y, z, elliptic, -cauchy));
    refused_for(&file(8, &elliptic), of_root(Field::EllipticSum, -twice_max));
    // Their records in another order, with a pad and bytes behind them.
    let mut odd = file(8, &[TWO[1], TWO[0]]);
    odd[70] = 1;
    odd.extend(b"notes");
    refused_for(&odd, of_root(Field::CauchySum, twice_max));
    // In one cell only one of them counts: 21 comes first, and folded there is a tree.
    let one_cell = file(8, &[TWO[0], TWO[1], TWO[0]]);
    let error = Tree::build(&one_cell).unwrap_err();
    assert_eq!((error.refusal, error.too_large), (Refusal::CellTwice, None));
    assert!(error.twice.is_some() && check_floats(&one_cell, 1).is_clean());
    let (folded, _) = Model::fold(&file(8, &[TWO[0], TWO[0]])).unwrap();
    has_a_tree(folded.as_bytes(), [MAX, 1.0]);
}

/// The root adds up to 0, its lower half to what is too large; then only its upper half.
#[test]
fn a_child_is_too_large() {
    let (bytes, twice_max) = (file(8, &BY_THE_CHILD), 2.0 * f64::from(MAX));
    let lower = TreeFloat {
        node: 1,
        high: [3, 7, 7],
        ..of_root(Field::CauchySum, twice_max)
    };
    refused_for(&bytes, lower);
    let words = "node 1, cells (0, 0, 0) to (3, 7, 7): the Cauchy masses add up to";
    assert!(lower.to_string().starts_with(words));
    let upper = TreeFloat {
        node: 2,
        low: [4, 0, 0],
        high: [7; 3],
        ..of_root(Field::CauchySum, -twice_max)
    };
    let report = check_floats(&bytes, 9);
    let places: Vec<_> = report.faults.iter().map(|fault| fault.place).collect();
    assert_eq!(places, [Place::Unbuilt(1), Place::Unbuilt(2)]);
    assert_eq!(
        report.faults[1].to_string(),
        "cause 22: node 2 of its tree, Cauchy sum: -6.805646932770577e38 is too large for a float, in cells (4, 0, 0) to (7, 7, 7)"
    );
    // Of equal ones the first is the greatest.
    let model = Model::open(&bytes).unwrap();
    assert_eq!(model.greatest_float(), lower);
    let mut records = BY_THE_CHILD;
    records[0].3 = 0.0;
    refused_for(&file(8, &records), upper);
}

/// What is judged is the sum in binary64, not what it passes through, nor the sum of magnitudes.
#[test]
fn masses_that_cancel_on_the_way() {
    for masses in [[MAX, MAX, -MAX], [MAX, -MAX, MAX], [-MAX, MAX, MAX]] {
        has_a_tree(&in_a_row(&masses), [MAX, -MAX]);
    }
    has_a_tree(&in_a_row(&[MAX, MAX, -MAX, -MAX]), [0.0, 0.0]);
    let all = [MAX, -MAX, MAX, -MAX, MAX, -MAX, MAX];
    has_a_tree(&in_a_row(&all), [MAX, -MAX]);
}

#[test]
fn sums_at_the_end() {
    let to_end = of_root(Field::CauchySum, end());
    refused_for(&in_a_row(&[MAX, power(103)]), to_end);
    refused_for(&in_a_row(&[power(103), MAX]), to_end);
    refused_for(&in_a_row(&[power(127), power(127)]), {
        of_root(Field::CauchySum, 2_f64.powi(128))
    });
    let below = [MAX, power(103).next_down(), power(79) - power(75)];
    let bytes = in_a_row(&below);
    has_a_tree(&bytes, [MAX, -MAX]);
    let greatest = Model::open(&bytes).unwrap().greatest_float();
    assert_eq!(greatest, of_root(Field::CauchySum, end().next_down()));
    refused_for(&in_a_row(&[&below[..], &[power(75)]].concat()), to_end);
    has_a_tree(&in_a_row(&[MAX, power(102)]), [MAX, -MAX]);
    has_a_tree(&in_a_row(&[MAX]), [MAX, -MAX]);
}

/// Masses that nearly cancel in a box of 1e34 m: the sums are small, their centre lies at -8.4e40 m.
#[test]
fn a_centre_too_far_away() {
    let mut bytes = shapes::empty_file(2, [0.0; 3], [1e34; 3]);
    bytes[20..24].fill(0);
    bytes[12] = 2;
    bytes.extend(record(0, 0, 0, 0, 1.0, 1.0));
    bytes.extend(record(1, 0, 0, 0, power(-24) - 1.0, 1.0));
    let edge = f64::from(1e34_f32) / 2.0;
    let float = TreeFloat {
        high: [1; 3],
        ..of_root(Field::CauchyCenterX, (1.0 - 2_f64.powi(24) + 0.5) * edge)
    };
    refused_for(&bytes, float);
    let words = "cells (0, 0, 0) to (1, 1, 1): the centre of the Cauchy masses lies at x = -8.38";
    assert!(float.to_string().contains(words), "{float}");
    assert!(float.to_string().ends_with("e40 m"), "{float}");
}

/// Kernels so heavy that masses are infinite: 20, and 18 where there are also too many points.
#[test]
fn fills_that_are_too_heavy() {
    let heavy = [Kernel {
        c: [0.0; 3],
        sigma: 0.0,
        w: 1e30,
    }];
    let far = 9e5;
    let ball = shapes::lumpy_sphere([0.0; 3], far, 0.0, 8);
    let cube = shapes::cuboid([-far; 3], [far; 3]);
    for (mesh, refusal) in [(ball, Refusal::NotFinite), (cube, Refusal::TooManyPoints)] {
        assert_eq!(
            build_mascon(&mesh, &heavy, &heavy, 0.0, 1.0, 6),
            Err(refusal)
        );
    }
}

/// Points that weigh most in a float: by its mass, in its box, the greatest magnitude first.
#[test]
fn the_heaviest_points() {
    let model = Model::open(&file(8, &BY_THE_CHILD)).unwrap();
    let float = model.tree().unwrap_err().too_large.unwrap();
    let cells = |most: usize| -> Vec<_> {
        let points = float.heaviest(model.points(), most);
        points.iter().map(|p| (p.x, p.y, p.z)).collect()
    };
    let all = [(0, 0, 0), (1, 1, 1), (1, 0, 0), (0, 3, 0), (2, 7, 7)];
    assert_eq!(cells(9), all);
    assert_eq!(cells(2), all[..2]);
    assert_eq!(cells(0), []);
    let of_no_mass = TreeFloat {
        field: Field::Half,
        ..float
    };
    assert_eq!(of_no_mass.heaviest(model.points(), 9), []);
}

/// Edits go over the end and back: the tree is as it was, and what is in between is edited, undone and redone like any other model.
#[test]
fn edits_over_the_end_and_back() {
    let mut model = Model::open(&file(8, &[TWO[0], (4, 4, 4, 1.0, 2.0)])).unwrap();
    let (bytes, tree) = (model.as_bytes().to_vec(), model.tree().unwrap());
    model.put(1, 5, 7, MAX, 1.0).unwrap();
    assert_eq!(model.tree().unwrap_err(), Refusal::FloatTooLarge);
    let over = model.as_bytes().to_vec();
    model.put(2, 2, 2, MAX, MAX).unwrap();
    model.remove(4, 4, 4).unwrap();
    let error = model.tree().unwrap_err();
    assert_eq!(error.too_large.unwrap().value, 3.0 * f64::from(MAX));
    assert_eq!(Model::open(model.as_bytes()).unwrap().tree(), Err(error));
    let resumed = Model::resume(model.as_bytes(), model.journal()).unwrap();
    assert_eq!(resumed.tree(), Err(error));
    // By a mass of the other sign it has a tree again.
    model.put(2, 2, 2, -MAX, 0.0).unwrap();
    assert_eq!(model.tree().unwrap().root().cauchy_mass, MAX);
    for _ in 0..3 {
        model.undo().unwrap();
    }
    assert_eq!(model.as_bytes(), over);
    assert_eq!(model.tree().unwrap_err(), Refusal::FloatTooLarge);
    model.undo().unwrap();
    assert_eq!(
        (model.as_bytes(), model.tree().unwrap()),
        (&bytes[..], tree)
    );
    model.redo().unwrap();
    assert_eq!(model.tree().unwrap_err(), Refusal::FloatTooLarge);
}

/// Long histories of heavy edits: 22 exactly where the greatest float is too large, and never of the model that they came from.
#[test]
fn random_edits_about_the_end() {
    let mut rng = Rng(2);
    let (mut trees, mut refused) = (0, 0);
    let mut model = Model::open(&file(5, &[])).unwrap();
    for _ in 0..6_000 {
        let [x, y, z] = [0; 3].map(|_| rng.below(5) as u32);
        let mass = match rng.below(40) {
            0 => MAX,
            1 => -MAX,
            2 => power(126),
            _ => power(110),
        };
        let _ = match rng.below(8) {
            0..4 => model.put(x, y, z, mass, rng.mass()),
            4..7 => model.remove(x, y, z),
            _ => model.undo(),
        };
        let large = model.greatest_float().is_too_large();
        match model.tree() {
            Ok(tree) => {
                trees += 1;
                assert!(!large && check_tree(tree.as_bytes(), 1).is_clean());
            }
            Err(error) => {
                refused += 1;
                assert!(large && error.too_large.unwrap().is_too_large());
            }
        }
    }
    assert!(trees > 500 && refused > 500, "{trees} {refused}");
    while model.undo().is_ok() {}
    assert!(model.tree().is_ok());
}

/// A model without a tree is saved with its journal, loaded, edited and drawn.
#[test]
fn a_model_without_a_tree_is_saved() {
    let folder = Folder::new("without_a_tree");
    let path = folder.file("m");
    Model::open(&file(8, &TWO[..1]))
        .unwrap()
        .save(&path)
        .unwrap();
    let mut model_file = ModelFile::load(&path).unwrap();
    model_file.model.put(1, 5, 7, MAX, 1.0).unwrap();
    assert!(model_file.model.tree().is_err());
    model_file.save().unwrap();
    drop(model_file);
    let mut model = ModelFile::read(&path).unwrap().into_model().unwrap();
    assert_eq!(model.as_bytes(), file(8, &TWO));
    assert!(model.tree().is_err());
    for mass in [Mass::Cauchy, Mass::Elliptic] {
        let picture = Picture {
            model: &model,
            before: None,
            mass,
            title: "two".into(),
            slice: None,
        };
        let svg = picture.svg().unwrap();
        assert!(!svg.contains("NaN") && !svg.contains("inf"));
        assert!(!picture.png().unwrap().is_empty());
    }
    model.undo().unwrap();
    assert!(model.tree().is_ok());
}

/// Each float of a tree in turn, infinite or no number: seen, with node, field and byte.
#[test]
fn trees_with_infinities_are_seen() {
    let mut records = BY_THE_CHILD;
    records.iter_mut().for_each(|record| record.3 = 1.0);
    let tree = Tree::build(&file(8, &records)).unwrap();
    for node in 0..tree.node_count() {
        for field in Field::ALL {
            let at = 64 + 80 * node + field.offset();
            for (value, cause) in [
                (f32::INFINITY, Some(Refusal::FloatTooLarge)),
                (f32::NEG_INFINITY, Some(Refusal::FloatTooLarge)),
                (f32::NAN, None),
            ] {
                let mut bytes = tree.as_bytes().to_vec();
                bytes[at..at + 4].copy_from_slice(&value.to_le_bytes());
                let report = check_tree(&bytes, 9);
                let fault = &report.faults[0];
                assert_eq!(
                    (report.total, fault.place, fault.field, fault.offset),
                    (1, Place::Node(node), field.name(), at)
                );
                // The box's floats are held against the header.
                let of_box = field.offset() < 16;
                assert_eq!(fault.cause, cause.filter(|_| !of_box));
                assert_eq!(Tree::open(bytes).unwrap_err(), *fault);
            }
        }
    }
}

const REFUSED: &str = "mascon: m: refused 22: a float of the tree is too large: node 1, cells (0, 0, 0) to (3, 7, 7): \
                       the Cauchy masses add up to 6.805646932770577e38 kg\n  \
                       its heaviest cells: (0, 0, 0) with 3.4028235e38 kg, (1, 1, 1) with 3.4028235e38 kg, (1, 0, 0) with 0e0 kg\n";

/// The program refuses with the node, the sum, the heaviest cells and what to do; what stands at the output stays.
#[test]
fn build_says_which_node() {
    let folder = Folder::new("build_says_which");
    fs::write(folder.file("m"), file(8, &BY_THE_CHILD)).unwrap();
    fs::write(folder.file("other"), file(8, &TWO[..1])).unwrap();
    done(&folder, "build other -o tree");
    fs::write(folder.file("text"), "as it was").unwrap();
    let names = folder.names();
    let read = |name: &String| fs::read(folder.file(name)).unwrap();
    let before: Vec<_> = names.iter().map(read).collect();
    let words = format!("{REFUSED}  {}\n", Refusal::FloatTooLarge.advice());
    for line in [
        "build m -o new",
        "build m -o tree",
        "build m -o text --quiet",
        "build m -o other --force",
    ] {
        let ran = mascon(&folder, line);
        assert_eq!((ran.status, &*ran.out, ran.err), (1, "", words.clone()));
    }
    let mut from_input = command(&folder, "build - -o new");
    from_input.stdin(Stdio::from(fs::File::open(folder.file("m")).unwrap()));
    let ran = run(from_input);
    assert_eq!(ran.err, words.replace(" m:", " standard input:"));
    assert_eq!(folder.names(), names);
    assert!(names.iter().map(read).eq(before));
    assert!(done(&folder, "help build").contains("(22)"));
}

/// What build refuses, check lists, and whatever else works on a model works on this one.
#[test]
fn the_other_commands_go_on() {
    let folder = Folder::new("others_go_on");
    fs::write(folder.file("m"), file(8, &BY_THE_CHILD)).unwrap();
    done(&folder, "open m -o n");
    done(&folder, "fold m -o o");
    assert!(done(&folder, "info n").contains("Cauchy mass     0.000000e0 kg"));
    assert!(done(&folder, "get n 0 0 0").contains("Cauchy mass     3402823"));
    assert_eq!(done(&folder, "list n").lines().count(), 10);
    done(&folder, "draw n -o n.png");
    done(&folder, "draw n -o n.svg --slice z=0 --mass elliptic");
    done(&folder, "put n 5 5 5 0 7");
    fails(&folder, "build n -o tree", 1, "refused 22");
    let ran = mascon(&folder, "check n");
    let lines: Vec<&str> = ran.out.lines().collect();
    assert_eq!(
        lines,
        [
            "cause 22: node 1 of its tree, Cauchy sum: 6.805646932770577e38 is too large for a float, in cells (0, 0, 0) to (3, 7, 7)",
            "cause 22: node 2 of its tree, Cauchy sum: -6.805646932770577e38 is too large for a float, in cells (4, 0, 0) to (7, 7, 7)",
            "it can be opened and edited, but has no tree; node 1, its heaviest cells: (0, 0, 0) with 3.4028235e38 kg, \
             (1, 1, 1) with 3.4028235e38 kg, (1, 0, 0) with 0e0 kg",
            "journal: 1 edits to undo, 0 to redo, each fits its cell",
        ]
    );
    assert_eq!((ran.status, &*ran.err), (1, "mascon: n: 2 faults\n"));
    let out = mascon(&folder, "check n --most 1").out;
    assert!(out.contains("... and 1 more\n"), "{out}");
    // Two of the four gone, one of them undone, and gone again.
    done(&folder, "put n 0 0 0 0 1");
    done(&folder, "put n 6 0 0 0 1");
    let out = done(&folder, "check n");
    assert!(
        out.starts_with("greatest float of its tree (3.4e38 is too large): node 1, cells (0, 0, 0) to (3, 7, 7): the Cauchy masses add up to 3.4028234663852886e38 kg\n"),
        "{out}"
    );
    done(&folder, "build n -o tree");
    done(&folder, "check tree");
    done(&folder, "undo n");
    fails(&folder, "build n -o tree --force", 1, "node 2, cells");
    done(&folder, "redo n");
    done(&folder, "build n -o tree");
    done(&folder, "undo n --all");
    assert_eq!(fs::read(folder.file("n")).unwrap(), {
        let model = Model::open(&file(8, &BY_THE_CHILD)).unwrap();
        model.as_bytes().to_vec()
    });
}

/// A tree of the original with an infinity: check says what it means, info and the library do not take it.
#[test]
fn check_says_what_an_infinity_means() {
    let folder = Folder::new("an_infinity_means");
    let mut tree = Tree::build(&file(8, &TWO[..1])).unwrap().into_bytes();
    tree[64 + 16..64 + 20].copy_from_slice(&f32::INFINITY.to_le_bytes());
    fs::write(folder.file("tree"), &tree).unwrap();
    let ran = mascon(&folder, "check tree");
    let lines: Vec<&str> = ran.out.lines().collect();
    assert_eq!(
        lines,
        [
            "cause 22: node 0, Cauchy sum, byte 80: inf, which was too large for a float",
            "an infinity stands where a float was too large: the tree came from the original or from a build before version 0.3.0; \
             build it anew from its point file, which is refused (22) as long as its masses are too large",
        ]
    );
    assert_eq!((ran.status, &*ran.err), (1, "mascon: tree: 1 fault\n"));
    fails(&folder, "info tree", 1, "node 0, Cauchy sum, byte 80: inf");
    tree[64 + 16..64 + 20].copy_from_slice(&f32::NAN.to_le_bytes());
    fs::write(folder.file("tree"), &tree).unwrap();
    let ran = mascon(&folder, "check tree");
    let words = "node 0, Cauchy sum, byte 80: NaN, which no build writes: damaged\n";
    assert_eq!(ran.out, words);
}
