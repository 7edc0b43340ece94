//! What the README says is so.

mod common;

use common::Folder;
use mascon::{shapes, text, Cost, Model, Refusal, Tree, Triangle};

#[test]
fn refusals_as_in_the_readme() {
    let readme = include_str!("../README.md");
    for &refusal in Refusal::ALL {
        let row = format!(
            "| {} | `{}` | {} | {} |",
            refusal.number(),
            refusal.name(),
            refusal.words(),
            refusal.advice()
        );
        assert!(readme.lines().any(|line| line == row), "{row}");
    }
}

/// What building takes, in mebibytes and bytes, in working form and not.
#[test]
fn scratch_as_in_the_readme() {
    let readme = include_str!("../README.md");
    let with_commas = |bytes: usize| {
        let (millions, thousands, ones) = (bytes / 1_000_000, bytes / 1_000 % 1_000, bytes % 1_000);
        format!("{millions},{thousands:03},{ones:03} bytes")
    };
    for (grid, small, whole) in [(192_u32, "1.7", "27"), (256, "4", "64")] {
        let sizes = [
            Cost::of(grid).unwrap().scratch_bytes,
            4 * (grid as usize).pow(3),
        ];
        for (bytes, words) in sizes.into_iter().zip([small, whole]) {
            let mebibytes = bytes as f64 / f64::from(1 << 20);
            assert!((mebibytes - words.parse::<f64>().unwrap()).abs() < 0.05);
        }
        let [small_bytes, whole_bytes] = sizes.map(with_commas);
        let row = format!("| {grid} | {small} MiB ({small_bytes}) | {whole} MiB ({whole_bytes}) |");
        assert!(readme.lines().any(|line| line == row), "{row}");
    }
}

/// The ten lines from zero to a tree, with paths in a folder of the test's own.
#[test]
fn from_zero_to_a_tree() -> Result<(), Box<dyn std::error::Error>> {
    let folder = Folder::new("from_zero_to_a_tree");
    let kilometres = |corner: [f64; 3]| corner.map(|x| x / 1000.0);
    let (mesh, _) = shapes::contact_binary(8);
    let mesh: Vec<_> = mesh
        .iter()
        .map(|t| Triangle {
            a: kilometres(t.a),
            b: kilometres(t.b),
            c: kilometres(t.c),
        })
        .collect();
    std::fs::write(folder.file("body.obj"), text::write_obj(&mesh))?;

    let mesh = text::parse_obj(&std::fs::read_to_string(folder.file("body.obj"))?, 1000.0)?;
    let kernels = text::parse_kernels("-300 0 0  0.002 2100\n420 0 0  0.004 1700\n")?;
    let mut model = Model::fill(&mesh.triangles, &kernels, &kernels, 7.0e11, 1900.0, 24)?;
    model.put(3, 12, 12, 9.0e8, 9.0e8)?;
    model.remove(6, 12, 12)?;
    model.undo()?;
    model.save(folder.file("body.rym1"))?;
    model.tree()?.save(folder.file("body.rtm1"))?;

    assert_eq!((mesh.open_edges, model.entries()), (0, 1));
    let tree = Tree::open(std::fs::read(folder.file("body.rtm1"))?)?;
    assert_eq!(tree.order_count(), model.len());
    Ok(())
}
