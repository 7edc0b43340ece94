//! The most costly model of a grid: its numbers, its file, and that every other file of the grid costs at most as much.

mod common;

use common::{done, fails, mascon, record, Folder, Rng};
use mascon::check::{check_floats, check_points, check_tree, check_working_form};
use mascon::{
    build_mascon_tree, parse_mascon_bytes, shapes, Cost, Departures, Header, Model, ModelFile,
    Refusal, Tree, MAX_GRID,
};
use std::fs;

/// What is no grid.
const OUT_OF_RANGE: [u32; 5] = [0, MAX_GRID + 1, 65_536, 1 << 31, u32::MAX];

fn cells(grid: u32) -> usize {
    (grid as usize).pow(3)
}

/// The file, written out by its definition.
fn full(grid: u32) -> Vec<u8> {
    let mut words = vec![0x314d_5952, 1, grid, cells(grid) as u32];
    // Zero up to the box's greatest corner, and after it.
    words.extend([0; 7]);
    words.extend([1_f32.to_bits(); 3]);
    words.extend([0; 2]);
    let mut file: Vec<u8> = words.into_iter().flat_map(u32::to_le_bytes).collect();
    let edge = || 0..grid as u16;
    for (z, y) in edge().flat_map(|z| edge().map(move |y| (z, y))) {
        file.extend(edge().flat_map(|x| record(x, y, z, 0, 1.0, 1.0)));
    }
    file
}

/// A file has a tree of at most what its grid costs.
fn costs_at_most(file: &[u8], cost: Cost) -> Tree {
    let tree = Tree::build(file).unwrap();
    assert!(tree.node_count() <= cost.nodes);
    assert!(tree.as_bytes().len() <= cost.bytes);
    tree
}

#[test]
fn known_numbers() {
    for (grid, nodes) in (1..).zip([1, 1, 9, 15, 41, 79, 109, 127]) {
        let cost = Cost::of(grid).unwrap();
        assert_eq!(cost.nodes, nodes, "{grid}");
        assert_eq!(cost.bytes, 64 + 80 * nodes + 4 * cells(grid), "{grid}");
        assert_eq!(cost.file_bytes, 64 + 16 * cells(grid), "{grid}");
        assert_eq!(cost.scratch_bytes, 8 * cells(grid).div_ceil(32), "{grid}");
    }
    let finest = Cost {
        nodes: 4_194_303,
        bytes: 402_653_168,
        file_bytes: 268_435_520,
        scratch_bytes: 4_194_304,
    };
    assert_eq!(Cost::of(MAX_GRID), Ok(finest));
}

#[test]
fn grids_out_of_range() {
    for grid in OUT_OF_RANGE {
        assert_eq!(Cost::of(grid), Err(Refusal::GridOutOfRange), "{grid}");
        let model = Model::costliest(grid);
        assert_eq!(model.unwrap_err(), Refusal::GridOutOfRange, "{grid}");
    }
}

/// A finer grid costs more nodes, but for the first two.
#[test]
fn costs_grow_with_the_grid() {
    let mut coarser = Cost::of(1).unwrap();
    for grid in 2..=MAX_GRID {
        let cost = Cost::of(grid).unwrap();
        assert!(cost.nodes > coarser.nodes || grid == 2, "{grid}");
        assert!(cost.bytes > coarser.bytes && cost.nodes <= cells(grid));
        coarser = cost;
    }
}

#[test]
fn the_file_by_its_definition() {
    for grid in [1, 2, 3, 4, 5, 6, 7, 8, 12, 17, 32] {
        let model = Model::costliest(grid).unwrap();
        assert_eq!(model.as_bytes(), full(grid), "{grid}");
        assert_eq!((model.len(), model.entries()), (cells(grid), 0));
    }
    let finest = Model::costliest(256).unwrap();
    let last = finest.points().next_back().unwrap();
    assert_eq!(
        (last.cell(256), last.elliptic_mass),
        (Some((1 << 24) - 1), 1.0)
    );
    let wanted = Header {
        grid: 256,
        count: 1 << 24,
        constant_density: 0.0,
        cell_volume: 0.0,
        cauchy_scale: 0.0,
        min: [0.0; 3],
        max: [1.0; 3],
        cauchy_raw: 0.0,
        elliptic_raw: 0.0,
    };
    assert_eq!(finest.header(), wanted);
}

/// Accepted by whatever reads it, in working form, and built to exactly what the grid costs.
#[test]
fn the_file_reaches_the_cost() {
    for grid in (1..=33).chain([48, 61, 64]) {
        let (cost, model) = (Cost::of(grid).unwrap(), Model::costliest(grid).unwrap());
        let file = model.as_bytes();
        assert!(check_points(file, 1).is_clean() && check_working_form(file, 1).is_clean());
        assert!(check_floats(file, 1).is_clean());
        assert!(Departures::of(file).left_out().is_empty());
        assert_eq!(Model::open(file).unwrap().as_bytes(), file);
        let (folded, dropped) = Model::fold(file).unwrap();
        assert_eq!((folded.as_bytes(), dropped.len()), (file, 0));
        let tree = model.tree().unwrap();
        assert_eq!(
            (tree.node_count(), tree.order_count()),
            (cost.nodes, cells(grid))
        );
        assert_eq!(tree.as_bytes().len(), cost.bytes);
        assert_eq!(tree.root().cauchy_mass, cells(grid) as f32);
        assert!(check_tree(tree.as_bytes(), 1).is_clean());
        let source = parse_mascon_bytes(file, "file").unwrap();
        let (bytes, nodes, ordered) = build_mascon_tree(&source).unwrap();
        assert_eq!(
            (bytes.len(), nodes, ordered),
            (cost.bytes, cost.nodes, cells(grid))
        );
        assert_eq!(bytes, tree.as_bytes());
    }
}

/// Fewer points, cell by cell, cost no more; undone, they cost what they did.
#[test]
fn edited_it_costs_no_more() {
    for grid in [3, 4, 5] {
        let (cost, mut model) = (Cost::of(grid).unwrap(), Model::costliest(grid).unwrap());
        let mut rng = Rng(31);
        let mut nodes = cost.nodes;
        while !model.is_empty() {
            let place = rng.below(model.len() as u64) as usize;
            let point = model.point(place).unwrap();
            model.remove(point.x, point.y, point.z).unwrap();
            let tree = costs_at_most(model.as_bytes(), cost);
            assert!(tree.node_count() <= nodes && tree.as_bytes().len() < cost.bytes);
            nodes = tree.node_count();
        }
        assert_eq!(nodes, 1);
        while model.entries() > 0 {
            model.undo().unwrap();
        }
        assert_eq!(model.as_bytes(), full(grid));
        assert_eq!(model.tree().unwrap().node_count(), cost.nodes);
    }
}

/// Files of all kinds: thin, full or nearly so, in lumps, in other orders, with pads and bytes behind, in boxes of any shape.
#[test]
fn every_file_costs_at_most_as_much() {
    let mut rng = Rng(32);
    let mut reached = 0;
    for _ in 0..3_000 {
        let grid = 1 + rng.below(10) as u32;
        let cost = Cost::of(grid).unwrap();
        let max = [0; 3].map(|_| 2_f32.powi(rng.below(40) as i32 - 20));
        let mut file = shapes::empty_file(grid, [-1.0; 3], max);
        let (low, share) = (rng.below(u64::from(grid)) as u32, rng.below(101));
        let mut points: Vec<_> = Model::costliest(grid).unwrap().points().collect();
        points.retain(|p| share > 50 || (p.x >= low && p.z <= low));
        points.retain(|_| rng.below(100) < share);
        for i in (1..points.len()).rev() {
            points.swap(i, rng.below(i as u64 + 1) as usize);
        }
        file[12..16].copy_from_slice(&(points.len() as u32).to_le_bytes());
        for point in &points {
            let [x, y, z] = [point.x, point.y, point.z].map(|index| index as u16);
            file.extend(record(x, y, z, rng.bits() as u16, rng.mass(), rng.mass()));
        }
        file.extend(vec![7; rng.below(40) as usize]);
        let tree = costs_at_most(&file, cost);
        assert_eq!(tree.order_count(), points.len());
        reached += usize::from(tree.node_count() == cost.nodes);
    }
    assert!(reached > 500 && reached < 2_500, "{reached}");
}

#[test]
fn a_body_costs_at_most_as_much() {
    let (mesh, kernels) = shapes::contact_binary(8);
    for grid in [2, 9, 24] {
        let model = Model::fill(&mesh, &kernels, &kernels, 4.2e11, 1900.0, grid).unwrap();
        let tree = costs_at_most(model.as_bytes(), Cost::of(grid).unwrap());
        assert_eq!(tree.order_count(), model.len());
    }
}

/// The output is reserved for the whole grid; what the tree keeps is its own length.
#[test]
fn a_small_tree_keeps_little() {
    for grid in [1, 8, 40, 200, 256] {
        let mut model = Model::open(&shapes::empty_file(grid, [0.0; 3], [1.0; 3])).unwrap();
        for points in 0..2 {
            let bytes = costs_at_most(model.as_bytes(), Cost::of(grid).unwrap()).into_bytes();
            assert_eq!(
                (bytes.len(), bytes.capacity()),
                (144 + 4 * points, 144 + 4 * points)
            );
            model.put(grid - 1, 0, grid / 2, 1.0, 2.0).unwrap();
        }
    }
}

/// No output is lent where the header has no grid, and the file is refused by what is against it.
#[test]
fn files_without_a_grid() {
    let file = shapes::empty_file(8, [0.0; 3], [1.0; 3]);
    for length in [0, 8, 12, 63] {
        assert_eq!(
            Tree::build(&file[..length]).unwrap_err(),
            Refusal::FileTooShort
        );
    }
    for grid in OUT_OF_RANGE {
        let mut file = file.clone();
        file[8..12].copy_from_slice(&grid.to_le_bytes());
        assert_eq!(Tree::build(&file).unwrap_err(), Refusal::GridOutOfRange);
        file[0] = 0;
        assert_eq!(Tree::build(&file).unwrap_err(), Refusal::NotPointFile);
    }
}

/// The lines of the program about a tree and the scratch.
fn at_most(cost: Cost) -> String {
    let Cost {
        nodes,
        bytes,
        scratch_bytes,
        ..
    } = cost;
    format!(
        "tree            at most {nodes} nodes, {bytes} bytes at this grid\n\
         building        takes {scratch_bytes} bytes of scratch"
    )
}

#[test]
fn the_program_tells_the_numbers() {
    let folder = Folder::new("tells_the_numbers");
    assert_eq!(
        done(&folder, "costliest 8"),
        "grid            8 (512 cells)\n\
         tree            at most 127 nodes, 12272 bytes at this grid\n\
         building        takes 128 bytes of scratch for a file in working form\n\
         point file      8256 bytes, with a point in every cell\n"
    );
    assert_eq!(
        done(&folder, "costliest 256"),
        "grid            256 (16777216 cells)\n\
         tree            at most 4194303 nodes, 402653168 bytes at this grid\n\
         building        takes 4194304 bytes of scratch for a file in working form\n\
         point file      268435520 bytes, with a point in every cell\n"
    );
    for grid in [1, 2, 24, 213] {
        let out = done(&folder, &format!("costliest {grid} --quiet"));
        assert!(out.contains(&at_most(Cost::of(grid).unwrap())), "{out}");
    }
    assert!(folder.names().is_empty());
}

/// Written, it is a model as any other.
#[test]
fn the_program_writes_the_file() {
    let folder = Folder::new("writes_the_file");
    let cost = Cost::of(6).unwrap();
    assert_eq!(
        done(&folder, "costliest 6 -o full"),
        format!(
            "full: 216 points in working form\n\
             grid            6 (216 cells)\n{} for a file in working form\n\
             point file      3520 bytes, with a point in every cell\n",
            at_most(cost)
        )
    );
    let read = |name: &str| fs::read(folder.file(name)).unwrap();
    assert_eq!(read("full"), full(6));
    assert!(done(&folder, "check full").contains("no fault"));
    assert!(done(&folder, "info full").ends_with(&(at_most(cost) + "\n")));
    assert!(done(&folder, "open full -o full").contains("as it was"));
    assert_eq!(
        done(&folder, "build full -o tree"),
        format!(
            "tree: {} nodes, 216 ordered points, {} bytes\n",
            cost.nodes, cost.bytes
        )
    );
    assert!(done(&folder, "check tree").contains("no fault"));
    done(&folder, "draw full -o full.png");
    done(&folder, "remove full 1 2 3");
    assert!(done(&folder, "info full").contains(&at_most(cost)));
    done(&folder, "undo full");
    assert_eq!(read("full"), full(6));
    let ran = mascon(&folder, "costliest 2 -o quiet --quiet");
    assert_eq!((ran.status, &*ran.out, &*ran.err), (0, "", ""));
    assert_eq!(read("quiet"), full(2));
    assert!(done(&folder, "help costliest").contains("1 to 256"));
    assert!(done(&folder, "costliest --help").contains("all masses 1"));
    assert!(done(&folder, "help").contains("mascon costliest GRID"));
}

/// Refused grids in words with what to do, and what is no grid; nothing is written.
#[test]
fn the_program_refuses_other_grids() {
    let folder = Folder::new("refuses_other_grids");
    fs::write(folder.file("full"), "as it was").unwrap();
    for grid in OUT_OF_RANGE {
        let refusal = Refusal::GridOutOfRange;
        let words = format!("mascon: grid {grid}: {refusal}\n  {}\n", refusal.advice());
        for line in [
            format!("costliest {grid}"),
            format!("costliest {grid} -o full"),
        ] {
            let ran = mascon(&folder, &line);
            assert_eq!(
                (ran.status, ran.out, ran.err),
                (1, String::new(), words.clone())
            );
        }
    }
    for word in ["-1", "1e3", "8.0", "x", "4294967296", "0x10", "8,"] {
        let words = format!("mascon costliest: GRID: `{word}` is not a number that fits");
        fails(&folder, &format!("costliest {word}"), 2, &words);
        fails(&folder, &format!("costliest {word} -o full"), 2, &words);
    }
    for (line, words) in [
        ("costliest", "missing: GRID"),
        ("costliest -o full", "missing: GRID"),
        ("costliest 8 9", "`9` is one word too many"),
        ("costliest 8 -o", "-o takes a value"),
        ("costliest 8 -o -", "not standard output"),
        ("costliest 8 -o a -o b", "-o is given twice"),
        ("costliest 8 --grid 8", "no option --grid"),
        ("costliest -8x", "GRID: `-8x`"),
    ] {
        fails(&folder, line, 2, words);
    }
    assert_eq!(fs::read(folder.file("full")).unwrap(), b"as it was");
    assert_eq!(folder.names(), ["full"]);
}

/// Over what open spares, it does not write either, but with --force.
#[test]
fn the_program_spares_what_open_spares() {
    let folder = Folder::new("costliest_spares");
    let write = |name: &str, grid: u32| fs::write(folder.file(name), full(grid)).unwrap();
    write("edited", 3);
    write("plain", 3);
    done(&folder, "remove edited 0 0 0");
    fs::copy(folder.file("edited.journal"), folder.file("kept")).unwrap();
    let names = folder.names();
    let read = |name: &String| fs::read(folder.file(name)).unwrap();
    let before: Vec<_> = names.iter().map(read).collect();
    for (line, words) in [
        ("costliest 2 -o edited", "edited has a journal of edits"),
        ("costliest 2 -o kept", "kept is a journal of edits"),
        ("costliest 2 -o edited.journal", "a journal of edits"),
        ("costliest 2 -o edited.pending", "a pending save of edited"),
        ("costliest 2 -o .", "not a regular file"),
        ("costliest 2 -o none/full", "none/full"),
    ] {
        fails(&folder, line, 1, words);
    }
    let held = ModelFile::load(folder.file("edited")).unwrap();
    fails(&folder, "costliest 2 -o edited --force", 1, "another run");
    drop(held);
    assert_eq!(folder.names(), names);
    assert!(names.iter().map(read).eq(before));
    let gone = "mascon: edited: written over a model with edited.journal, which is gone\n";
    let lost = "mascon: kept: written over a journal of edits\n";
    for (line, told) in [
        ("costliest 2 -o edited --force", gone),
        ("costliest 2 -o kept --force", lost),
        ("costliest 2 -o plain", ""),
    ] {
        let ran = mascon(&folder, line);
        assert_eq!((ran.status, &*ran.err), (0, told), "{line}");
    }
    assert_eq!(folder.names(), ["edited", "kept", "plain"]);
    assert!(folder
        .names()
        .iter()
        .map(read)
        .all(|bytes| bytes == full(2)));
}
