//! How much scratch building takes: told before it is built, little in working form, and enough for every file.

mod common;

use common::{done, file, run, Folder};
use mascon::check::check_tree;
use mascon::{build_mascon_tree, parse_mascon_bytes, shapes, Cost, Model, Refusal, Tree, MAX_GRID};
use std::fs;
use std::process::Command;

type Record = (u16, u16, u16, f32, f32);

/// Ascending by cell number in every grid from 4 on.
const RECORDS: [Record; 4] = [
    (3, 0, 0, 1.0, 2.0),
    (0, 2, 0, -3.0, 0.5),
    (0, 0, 1, 1e6, 1e-6),
    (1, 3, 3, 0.0, 7.0),
];

fn empty(grid: u32) -> Model {
    Model::open(&shapes::empty_file(grid, [0.0; 3], [1.0; 3])).unwrap()
}

#[test]
fn sizes_by_grid() {
    for (grid, bytes) in [
        (1, 8),
        (2, 8),
        (3, 8),
        (4, 16),
        (5, 32),
        (8, 128),
        (40, 16_000),
        (192, 1_769_472),
        (256, 4_194_304),
    ] {
        assert_eq!(Cost::of(grid).unwrap().scratch_bytes, bytes, "{grid}");
        assert_eq!(empty(grid).scratch_bytes(), bytes, "{grid}");
    }
    for grid in 1..=MAX_GRID {
        let words = 2 * (grid as usize).pow(3).div_ceil(32);
        assert_eq!(Cost::of(grid).unwrap().scratch_bytes, 4 * words, "{grid}");
    }
}

/// Neither points nor edits change what a model takes.
#[test]
fn a_model_takes_what_its_grid_does() {
    for grid in [1, 2, 7, 24] {
        let cost = Cost::of(grid).unwrap();
        let mut model = Model::costliest(grid).unwrap();
        assert_eq!(model.scratch_bytes(), cost.scratch_bytes);
        model.remove(0, 0, 0).unwrap();
        assert_eq!(model.scratch_bytes(), cost.scratch_bytes);
        model.undo().unwrap();
        assert_eq!(model.scratch_bytes(), cost.scratch_bytes);
        assert_eq!(model.tree().unwrap().node_count(), cost.nodes);
    }
    let (mesh, kernels) = shapes::contact_binary(6);
    let model = Model::fill(&mesh, &kernels, &kernels, 0.0, 1900.0, 20).unwrap();
    assert_eq!(model.scratch_bytes(), 2_000);
}

/// What builds the file agrees on its tree.
fn tree_of(bytes: &[u8]) -> Tree {
    let tree = Tree::build(bytes).unwrap();
    assert_eq!(Tree::judge(bytes), Ok(()));
    let source = parse_mascon_bytes(bytes, "file").unwrap();
    assert_eq!(build_mascon_tree(&source).unwrap().0, tree.as_bytes());
    assert!(check_tree(tree.as_bytes(), 1).is_clean());
    tree
}

/// No form of a file is refused for its scratch: in working form, with bytes behind, with a pad, in another order; named twice, a cell is
/// refused as before.
#[test]
fn files_of_any_form_are_built() {
    for grid in [4, 5, 8, 40] {
        let good = file(grid, &RECORDS);
        let tree = tree_of(&good);
        assert_eq!(Model::open(&good).unwrap().tree().unwrap(), tree);
        assert!(tree.order().eq(0..4));
        assert_eq!(tree_of(&[&good[..], b"notes"].concat()), tree);
        for record in 0..4 {
            let mut padded = good.clone();
            padded[64 + 16 * record + 6] = 1;
            assert_eq!(tree_of(&padded), tree, "{grid}");
        }
        let mut records = RECORDS;
        records.reverse();
        let reversed = tree_of(&file(grid, &records));
        assert!(reversed.order().eq((0..4).rev()));
        assert!(reversed.nodes().eq(tree.nodes()));
        assert_eq!(reversed.as_bytes().len(), tree.as_bytes().len());
        for record in RECORDS {
            let twice = file(grid, &[&RECORDS[..], &[record]].concat());
            assert_eq!(Tree::build(&twice).unwrap_err(), Refusal::CellTwice);
            assert_eq!(Tree::judge(&twice).unwrap_err(), Refusal::CellTwice);
        }
    }
}

/// Where a word for each cell is fewer than working form takes.
#[test]
fn files_of_grid_1_are_built() {
    let point = (0, 0, 0, 5.0, 7.0);
    assert_eq!(tree_of(&file(1, &[])).as_bytes().len(), 144);
    let good = file(1, &[point]);
    let tree = tree_of(&good);
    assert_eq!((tree.as_bytes().len(), tree.root().cauchy_mass), (148, 5.0));
    assert_eq!(Model::open(&good).unwrap().tree().unwrap(), tree);
    let mut padded = good;
    padded[71] = 1;
    assert_eq!(tree_of(&padded), tree);
    let twice = Tree::build(&file(1, &[point, point])).unwrap_err();
    assert_eq!(twice, Refusal::CellTwice);
}

/// Info says what building the file takes, in its form.
#[test]
fn info_tells_the_scratch() {
    let folder = Folder::new("tells_the_scratch");
    let write = |bytes: &[u8]| fs::write(folder.file("m"), bytes).unwrap();
    let told = || {
        let info = done(&folder, "info m");
        let takes = |line: &str| Some(line.strip_prefix("building        takes ")?.to_string());
        info.lines().filter_map(takes).collect::<Vec<_>>()
    };
    for (grid, bytes) in [(4, 16), (40, 16_000), (256, 4_194_304)] {
        let good = file(grid, &RECORDS);
        write(&good);
        assert_eq!(told(), [format!("{bytes} bytes of scratch")]);
        write(&[&good[..], b"notes"].concat());
        assert_eq!(told(), [format!("{bytes} bytes of scratch")]);
        let mut padded = good;
        padded[70] = 1;
        write(&padded);
        let whole = 4 * u64::from(grid).pow(3);
        let words = format!("{whole} bytes of scratch, in working form {bytes}");
        assert_eq!(told(), [words]);
        done(&folder, "open m -o m");
        assert_eq!(told(), [format!("{bytes} bytes of scratch")]);
    }
    write(&file(1, &[]));
    assert_eq!(told(), ["8 bytes of scratch"]);
    done(&folder, "put m 0 0 0 1 1");
    assert_eq!(told(), ["8 bytes of scratch"]);
    done(&folder, "build m -o tree");
    assert!(!done(&folder, "info tree").contains("scratch"));
    for command in ["build", "info", "costliest"] {
        assert!(done(&folder, &format!("help {command}")).contains("scratch"));
    }
}

/// The program on a machine that lends the tree's room at grid 256 and 32 MiB besides: enough for a file in working form, not for a word
/// for each cell.
#[test]
fn a_small_machine_builds_a_fine_grid() {
    let folder = Folder::new("small_machine");
    let limit = Cost::of(256).unwrap().bytes / 1024 + 32 * 1024;
    let build = |name: &str| {
        let mut shell = Command::new("sh");
        shell
            .args(["-c", &format!("ulimit -v {limit} && exec \"$0\" \"$@\"")])
            .arg(env!("CARGO_BIN_EXE_mascon"))
            .args(["build", name, "-o", "tree"])
            .current_dir(folder.file(""));
        run(shell)
    };
    let good = file(256, &RECORDS);
    let tree = Tree::build(&good).unwrap();
    fs::write(folder.file("good"), &good).unwrap();
    let mut padded = good;
    padded[70] = 1;
    fs::write(folder.file("padded"), &padded).unwrap();
    let ran = build("padded");
    assert!(ran.status != 0 && ran.err.contains("memory"), "{}", ran.err);
    assert!(!folder.file("tree").exists());
    let ran = build("good");
    assert_eq!((ran.status, &*ran.err), (0, ""));
    assert_eq!(fs::read(folder.file("tree")).unwrap(), tree.as_bytes());
    done(&folder, "build padded -o tree");
    assert_eq!(fs::read(folder.file("tree")).unwrap(), tree.as_bytes());
}
