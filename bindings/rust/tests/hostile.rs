//! Bytes and texts from anywhere: an answer or a refusal, never a panic.

mod common;

use common::{file, record, Folder, Rng};
use mascon::check::{check_floats, check_points, check_tree, check_working_form};
use mascon::{parse_mascon_bytes, shapes, text, Cost, Model, ModelFile, Refusal, Tree};

/// Some bytes changed, some inserted, some cut off.
fn mutated(rng: &mut Rng, good: &[u8]) -> Vec<u8> {
    let mut bytes = good.to_vec();
    for _ in 0..1 + rng.below(4) {
        if bytes.is_empty() {
            break;
        }
        let at = rng.below(bytes.len() as u64) as usize;
        match rng.below(6) {
            0 => bytes.truncate(at),
            1 => bytes.insert(at, rng.bits() as u8),
            2 => bytes[at] ^= 1 << rng.below(8),
            3 => bytes[at] = 0xff,
            4 => bytes[at] = 0,
            _ => bytes[at] = rng.bits() as u8,
        }
    }
    bytes
}

#[test]
fn point_files() {
    let mut rng = Rng(11);
    let points = [
        (0, 1, 2, 1.0, 2.0),
        (3, 1, 2, 1.0, 2.0),
        (3, 3, 3, 0.0, -1.0),
        (3, 1, 2, 1.0, 2.0),
    ];
    let (good, twice) = (file(4, &points[..3]), file(4, &points));
    let (mut accepted, mut folded) = (0, 0);
    for step in 0..20_000 {
        let bytes = mutated(&mut rng, if step % 2 == 0 { &good } else { &twice });
        let report = check_points(&bytes, 5);
        let _ = check_working_form(&bytes, 5);
        assert_eq!(
            report.is_clean(),
            parse_mascon_bytes(&bytes, "file").is_ok()
        );
        let built = Tree::build(&bytes);
        let large = built.as_ref().is_err_and(|e| *e == Refusal::FloatTooLarge);
        assert_eq!(report.is_clean(), built.is_ok() || large);
        assert_eq!(check_floats(&bytes, 5).is_clean(), !large);
        if let Ok(tree) = built {
            assert!(tree.node_count() <= Cost::of(tree.grid()).unwrap().nodes);
        }
        let opened = Model::open(&bytes);
        let twice = opened.as_ref().is_err_and(|e| *e == Refusal::CellTwice);
        let fold = Model::fold(&bytes);
        assert_eq!(fold.is_ok(), twice || opened.is_ok());
        if let Ok((model, dropped)) = fold {
            folded += usize::from(twice);
            assert_eq!(model.len() + dropped.len(), bytes[12].into());
            assert_eq!(dropped.len(), report.total);
        }
        if let Ok(mut model) = opened {
            accepted += 1;
            assert!(report.is_clean());
            let opened = model.as_bytes().to_vec();
            let _ = model.put(0, 0, 0, 1.0, 1.0);
            let _ = model.remove(3, 1, 2);
            while model.undo().is_ok() {}
            assert_eq!(model.as_bytes(), opened);
        }
    }
    assert!(accepted > 2_000 && folded > 2_000, "{accepted} {folded}");
}

#[test]
fn trees() {
    let mut rng = Rng(12);
    let (mesh, kernels) = shapes::contact_binary(4);
    let good = Model::fill(&mesh, &kernels, &kernels, 0.0, 1.0, 6)
        .unwrap()
        .tree()
        .unwrap();
    for _ in 0..20_000 {
        let bytes = mutated(&mut rng, good.as_bytes());
        let clean = check_tree(&bytes, 5).is_clean();
        if let Ok(tree) = Tree::open(bytes) {
            assert!(clean);
            // What was accepted can be walked.
            assert_eq!(tree.depth(), good.depth());
            let points: usize = tree.nodes().map(|node| tree.leaf_points(&node).len()).sum();
            assert_eq!(points, tree.order_count());
        }
    }
}

#[test]
fn journals() {
    let mut rng = Rng(13);
    let mut model = Model::open(&file(4, &[(0, 1, 2, 1.0, 2.0)])).unwrap();
    for i in 0..12 {
        let _ = model.put(i % 4, i % 3, 1, 1.0, 2.0);
        let _ = model.remove(i % 2, i % 3, 1);
    }
    let mut accepted = 0;
    for _ in 0..20_000 {
        let mut words = model.journal().to_vec();
        for _ in 0..rng.below(3) {
            let at = rng.below(words.len() as u64) as usize;
            words[at] = match rng.below(3) {
                0 => rng.bits() as u32,
                1 => words[at] ^ 1 << rng.below(32),
                _ => words[rng.below(words.len() as u64) as usize],
            };
        }
        if let Ok(mut resumed) = Model::resume(model.as_bytes(), &words) {
            accepted += 1;
            // Every entry that was accepted can be undone.
            for _ in resumed.history().collect::<Vec<_>>() {
                resumed.undo().unwrap();
            }
            assert_eq!(resumed.entries(), 0);
        }
    }
    assert!(accepted > 5_000, "{accepted}");
}

/// Journal files whose checksum is right and whose words are not.
#[test]
fn journal_files() {
    let folder = Folder::new("journal_files");
    let path = folder.file("m");
    let mut rng = Rng(15);
    Model::open(&file(4, &[(0, 1, 2, 1.0, 2.0)]))
        .unwrap()
        .save(&path)
        .unwrap();
    let mut model_file = ModelFile::load(&path).unwrap();
    for i in 0..6 {
        let _ = model_file.model.put(i % 4, i % 3, 1, 1.0, 2.0);
        let _ = model_file.model.remove(i % 2, i % 3, 1);
    }
    for _ in 0..4 {
        model_file.model.undo().unwrap();
    }
    model_file.save().unwrap();
    let good = std::fs::read(mascon::journal_path(&path)).unwrap();
    let hash = |bytes: &[u8]| {
        bytes.iter().fold(0xcbf2_9ce4_8422_2325_u64, |hash, &byte| {
            (hash ^ u64::from(byte)).wrapping_mul(0x100_0000_01b3)
        })
    };
    let mut accepted = 0;
    for _ in 0..5_000 {
        let mut bytes = match rng.below(4) {
            0 => mutated(&mut rng, &good[..good.len() - 8]),
            _ => {
                let mut bytes = good[..good.len() - 8].to_vec();
                let at = 40 + rng.below(bytes.len() as u64 - 40) as usize;
                bytes[at] ^= 1 << rng.below(8);
                bytes
            }
        };
        bytes.extend(hash(&bytes).to_le_bytes());
        std::fs::write(mascon::journal_path(&path), &bytes).unwrap();
        // Not where the reader would look again for a run that is saving.
        if bytes.get(24..40) != Some(&good[24..40]) || bytes[..8] != good[..8] {
            continue;
        }
        if let Ok(mut model) = ModelFile::read(&path).unwrap().into_model() {
            accepted += 1;
            // Whatever was accepted can be redone, and undone.
            let (redo, undo) = (model.redoable(), model.entries());
            for _ in 0..redo {
                assert!(model.redo().unwrap().is_some());
            }
            for _ in 0..redo + undo {
                model.undo().unwrap();
            }
        }
    }
    assert!(accepted > 1_000, "{accepted}");
}

#[test]
fn texts() {
    let mut rng = Rng(14);
    let obj = "v 0 0 0\nv 9 0 0 # x\nv 0 9 0\nv 0 0 9\nf 1 3 2\nf 1/1 2/2 4/3\nf -4 -1 -2\nf 2//1 3//1 4//1 1\nvn 0 0 1\n";
    let kernels = "# list\n0 0 0 0.1 1000\n-1.5e2 0 3 .2 -4e3\n";
    let edits = "put 1 2 3 4.5 -6e7\nremove 1 2 3\nundo # last\n";
    for _ in 0..20_000 {
        let text = |rng: &mut Rng, good: &str| {
            String::from_utf8_lossy(&mutated(rng, good.as_bytes())).into_owned()
        };
        if let Ok(mesh) = text::parse_obj(&text(&mut rng, obj), 1.0) {
            let again = text::parse_obj(&text::write_obj(&mesh.triangles), 1.0).unwrap();
            assert_eq!(again.triangles, mesh.triangles);
        }
        let _ = text::parse_kernels(&text(&mut rng, kernels));
        if let Ok(list) = text::parse_edits(&text(&mut rng, edits)) {
            for (_, edit) in list {
                let line = edit.to_string();
                let words: Vec<&str> = line.split_whitespace().collect();
                let again = text::Edit::parse(&words).unwrap();
                assert_eq!(again.to_string(), line);
            }
        }
    }
}

/// Boxes, masses and grids at their extremes are drawn.
#[test]
fn pictures() {
    let boxes = [
        ([0.0; 3], [2.0; 3]),
        ([-1000.0, -400.0, -2.0], [1000.0, 400.0, 3.0]),
        ([1e-38, 1e-38, -3e38], [2e-38, 1e30, 3e38]),
        ([999_999.9; 3], [1e6; 3]),
    ];
    for (min, max) in boxes {
        for grid in [1, 3, 256] {
            let mut bytes = shapes::empty_file(grid, min, max);
            bytes[20..24].fill(0);
            let empty = Model::open(&bytes).unwrap();
            bytes[12] = 2;
            bytes.extend(record(0, 0, 0, 0, f32::MAX, f32::MIN));
            bytes.extend(record(grid as u16 - 1, 0, 0, 0, -1.0, 1e-45));
            // At grid 1 both name the one cell.
            let (model, _) = Model::fold(&bytes).unwrap();
            for (model, before) in [
                (&empty, None),
                (&model, None),
                (&model, Some(&empty)),
                (&empty, Some(&model)),
            ] {
                for mass in [mascon::draw::Mass::Cauchy, mascon::draw::Mass::Elliptic] {
                    let title = "<&> \u{e4}".to_string();
                    let picture = mascon::draw::Picture {
                        model,
                        before,
                        mass,
                        title,
                        slice: None,
                    };
                    let svg = picture.svg().unwrap();
                    assert!(svg.len() < 200_000 && !svg.contains("NaN") && !svg.contains("inf"));
                    assert!(picture.png().unwrap().len() < 2_000_000);
                }
            }
        }
    }
}
