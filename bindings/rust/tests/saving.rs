//! Nothing is lost on disk: saves that are cut off, files that do not belong together, full disks, two writers; and redo.

mod common;

use common::{command, done, file, mascon, record, run, Folder, Rng};
use mascon::{Departures, Edit, Model, ModelFile, ModelFileError, Refusal, Tree};
use std::fs;
use std::path::Path;
use std::process::{Command, Stdio};

fn fails(folder: &Folder, line: &str, words: &str) {
    common::fails(folder, line, 1, words);
}

/// The files of a folder with their bytes.
fn all(folder: &Folder) -> Vec<(String, Vec<u8>)> {
    let read = |name: String| {
        let bytes = fs::read(folder.file(&name)).unwrap();
        (name, bytes)
    };
    folder.names().into_iter().map(read).collect()
}

fn hash(bytes: &[u8]) -> u64 {
    bytes.iter().fold(0xcbf2_9ce4_8422_2325, |hash, &byte| {
        (hash ^ u64::from(byte)).wrapping_mul(0x100_0000_01b3)
    })
}

/// The journal that earlier versions wrote for a model.
fn version_1(model: &Model) -> Vec<u8> {
    let mut bytes = b"MSJ1\x01\0\0\0".to_vec();
    bytes.extend((model.as_bytes().len() as u64).to_le_bytes());
    bytes.extend(hash(model.as_bytes()).to_le_bytes());
    bytes.extend(model.journal().iter().flat_map(|word| word.to_le_bytes()));
    bytes.extend(hash(&bytes).to_le_bytes());
    bytes
}

fn model() -> Model {
    Model::open(&file(4, &[(0, 1, 2, 5.0, 6.0)])).unwrap()
}

/// A model `m` whose second edit was cut off between the two renames; the model that it was to replace and the one that it saves.
fn cut_off(folder: &Folder) -> [Vec<u8>; 2] {
    model().save_over(folder.file("m")).unwrap();
    done(folder, "put m 1 1 1 1 1");
    let old = fs::read(folder.file("m")).unwrap();
    done(folder, "put m 2 2 2 2 2");
    let new = fs::read(folder.file("m")).unwrap();
    fs::write(folder.file("m.pending"), &new).unwrap();
    fs::write(folder.file("m"), &old).unwrap();
    [old, new]
}

#[test]
fn a_third_model_is_never_written_over() {
    let folder = Folder::new("third_model");
    cut_off(&folder);
    let third = file(5, &[(4, 4, 4, 9.0, 9.0)]);
    fs::write(folder.file("m"), &third).unwrap();
    fs::write(folder.file("edits"), "put 0 0 0 1 1\n").unwrap();
    let before = all(&folder);
    let words = [
        "m.journal: this journal does not belong to its model, m, but to m.pending",
        "To take the save, move m away and rename m.pending to m",
        "to go on from m without undo, move m.journal and m.pending away",
    ];
    for line in [
        "put m 0 0 0 1 1",
        "undo m",
        "redo m",
        "apply m edits",
        "log m",
    ] {
        for words in words {
            fails(&folder, line, words);
        }
        assert_eq!(all(&folder), before, "{line}");
    }
    assert!(matches!(
        ModelFile::load(folder.file("m")),
        Err(ModelFileError::NotTogether {
            pending: Some(_),
            ..
        })
    ));
    // Those that only read work on the file as it stands, and say so.
    let ran = mascon(&folder, "check m");
    assert!(ran.status == 1 && ran.out.contains(words[0]), "{}", ran.out);
    assert!(ran.err.contains("m: 1 fault"), "{}", ran.err);
    for line in ["info m", "build m -o tree", "draw m -o m.svg"] {
        let ran = mascon(&folder, line);
        assert_eq!(ran.status, 0, "{line}");
        assert!(ran.err.contains(words[0]), "{line}: {}", ran.err);
        assert!(
            ran.err.contains("taken as it stands"),
            "{line}: {}",
            ran.err
        );
    }
    let tree = Tree::build(&third).unwrap();
    assert_eq!(fs::read(folder.file("tree")).unwrap(), tree.as_bytes());
    for name in ["tree", "m.svg"] {
        fs::remove_file(folder.file(name)).unwrap();
    }
    assert_eq!(all(&folder), before);
    // The two ways out that the words name.
    fs::rename(folder.file("m"), folder.file("third")).unwrap();
    fs::rename(folder.file("m.pending"), folder.file("m")).unwrap();
    assert!(done(&folder, "undo m --all").contains("2 undone"));
    fs::copy(folder.file("third"), folder.file("m")).unwrap();
    fs::remove_file(folder.file("m.journal")).unwrap();
    done(&folder, "put m 0 0 0 1 1");
}

#[test]
fn reading_finishes_a_save_in_memory() {
    let folder = Folder::new("reading");
    let [old, new] = cut_off(&folder);
    let before = all(&folder);
    let tree = Tree::build(&new).unwrap();
    for (line, out) in [
        ("log m", "2 put 2 2 2 2 2: the cell was empty"),
        ("info m", "2 edits to undo"),
        ("check m", "no fault"),
        ("draw m -o m.svg", "3 points drawn"),
        ("build m -o tree", "3 ordered points"),
        ("open m -o n", "3 points in working form"),
    ] {
        let ran = mascon(&folder, line);
        assert_eq!(ran.status, 0, "{line}: {}", ran.err);
        assert!(ran.out.contains(out), "{line}: {}", ran.out);
        assert!(
            ran.err.contains("a save was cut off") && ran.err.contains("the next edit finishes it"),
            "{line}: {}",
            ran.err
        );
    }
    assert_eq!(fs::read(folder.file("tree")).unwrap(), tree.as_bytes());
    for name in ["tree", "m.svg", "n"] {
        fs::remove_file(folder.file(name)).unwrap();
    }
    assert_eq!(all(&folder), before);
    let reading = ModelFile::read(folder.file("m")).unwrap();
    assert!(reading.unfinished && reading.bytes == new && reading.has_journal());
    // A file from standard input has no journal.
    let mut build = command(&folder, "build - -o tree");
    build.stdin(Stdio::from(fs::File::open(folder.file("m")).unwrap()));
    let ran = run(build);
    assert_eq!((ran.status, &*ran.err), (0, ""));
    assert_ne!(fs::read(folder.file("tree")).unwrap(), tree.as_bytes());
    fs::remove_file(folder.file("tree")).unwrap();
    // What the save wrote is gone: nothing is known of the model that the journal belongs to.
    fs::rename(folder.file("m.pending"), folder.file("kept")).unwrap();
    fails(
        &folder,
        "undo m",
        "bring back the model that it belongs to (112 bytes)",
    );
    fs::rename(folder.file("kept"), folder.file("m.pending")).unwrap();
    assert_eq!(fs::read(folder.file("m")).unwrap(), old);
    let ran = mascon(&folder, "undo m");
    assert!(ran.err.contains("its save is finished now"), "{}", ran.err);
    assert_eq!(fs::read(folder.file("m")).unwrap(), old);
    assert_eq!(folder.names(), ["m", "m.journal"]);
}

#[test]
fn journals_of_version_1() {
    let folder = Folder::new("version_1");
    let mut edited = model();
    edited.put(1, 1, 1, 1.0, 1.0).unwrap();
    fs::write(folder.file("m"), edited.as_bytes()).unwrap();
    fs::write(folder.file("m.journal"), version_1(&edited)).unwrap();
    assert!(done(&folder, "log m").contains("1 put 1 1 1 1 1: the cell was empty"));
    assert!(done(&folder, "check m").contains("1 edits to undo"));
    done(&folder, "put m 2 2 2 2 2");
    let journal = fs::read(folder.file("m.journal")).unwrap();
    assert_eq!(journal[..8], *b"MSJ1\x02\0\0\0");
    assert!(done(&folder, "undo m --all").contains("2 undone"));
    assert_eq!(fs::read(folder.file("m")).unwrap(), model().as_bytes());
    // Between the renames of an earlier version: whether the model is the one to be replaced is not known.
    fs::write(folder.file("m"), model().as_bytes()).unwrap();
    fs::write(folder.file("m.journal"), version_1(&edited)).unwrap();
    fs::write(folder.file("m.pending"), edited.as_bytes()).unwrap();
    let before = all(&folder);
    fails(
        &folder,
        "undo m",
        "or is not known to be. To take the save, move m away",
    );
    fails(
        &folder,
        "log m",
        "does not belong to its model, m, but to m.pending",
    );
    assert_eq!(all(&folder), before);
    // One of a later version.
    let mut later = journal;
    later[4] = 3;
    fs::write(folder.file("m.journal"), later).unwrap();
    fails(
        &folder,
        "undo m",
        "m.journal: a journal file of another version; move it away",
    );
}

#[test]
fn outputs_over_journals_and_models() {
    let folder = Folder::new("over_journals");
    model().save(folder.file("m")).unwrap();
    model().save(folder.file("n.svg")).unwrap();
    done(&folder, "put m 1 1 1 1 1");
    fs::copy(folder.file("m.journal"), folder.file("kept.svg")).unwrap();
    let before = all(&folder);
    let name = "is the name of a journal or a pending save of m: write elsewhere, or add --force";
    for (line, words) in [
        (
            "build m -o m.journal",
            "m.journal is a journal of edits: write elsewhere, or add --force",
        ),
        ("build n.svg -o m.journal", "a journal of edits"),
        ("build m -o ./m.journal", "a journal of edits"),
        ("build m -o m.pending", name),
        ("build m -o m.journal.pending", name),
        ("build n.svg -o m", "m has a journal of edits, m.journal"),
        (
            "build m -o n.svg",
            "n.svg is a point file: write elsewhere, or add --force",
        ),
        ("draw m -o n.svg", "n.svg is a point file"),
        ("draw m -o kept.svg", "kept.svg is a journal of edits"),
        ("open m -o m.journal", "a journal of edits"),
        ("open m -o m.pending", name),
        ("open n.svg -o m", "m has a journal of edits, m.journal"),
    ] {
        fails(&folder, line, words);
        assert_eq!(all(&folder), before, "{line}");
    }
    // Without a journal a model may be written over by a model.
    done(&folder, "open m -o n.svg");
    for (line, words) in [
        (
            "draw m -o n.svg --force",
            "n.svg: written over a point file",
        ),
        (
            "draw m -o kept.svg --force",
            "kept.svg: written over a journal of edits",
        ),
        (
            "build m -o m.journal --force",
            "m.journal: written over a journal of edits",
        ),
        (
            "open m -o m --force",
            "m: written over a model with m.journal, which is gone",
        ),
    ] {
        let ran = mascon(&folder, line);
        assert_eq!(ran.status, 0, "{line}: {}", ran.err);
        assert!(ran.err.contains(words), "{line}: {}", ran.err);
    }
    assert_eq!(folder.names(), ["kept.svg", "m", "n.svg"]);
    done(&folder, "put m 2 2 2 2 2");
    let ran = mascon(&folder, "build m -o m.rtm1");
    assert_eq!((ran.status, &*ran.err), (0, ""));
    done(&folder, "open m -o n");
    done(&folder, "put n 3 3 3 3 3");
    let ran = mascon(&folder, "build m -o n --force");
    let words = "mascon: n: written over a point file\nmascon: n.journal: its model is gone\n";
    assert_eq!((ran.status, &*ran.err), (0, words));
    // Nothing of a model's is lost, so that nothing is told.
    let ran = mascon(&folder, "draw m -o n.svg --force");
    assert_eq!((ran.status, &*ran.err), (0, ""));
}

#[test]
fn a_plain_save_spares_journals() {
    let folder = Folder::new("plain_save");
    let path = folder.file("m");
    model().save(&path).unwrap();
    model().save(&path).unwrap();
    done(&folder, "put m 1 1 1 1 1");
    let before = all(&folder);
    let error = model().save(&path).unwrap_err();
    assert!(matches!(error, ModelFileError::HasJournal(..)));
    // Debug has the words too, which `fn main() -> Result` shows.
    let words = "m.journal stands beside it and would lose its model";
    assert!(format!("{error:?}").contains(words), "{error:?}");
    assert!(model().save(folder.file("m.journal")).is_err());
    assert!(model().save(folder.file("m.pending")).is_err());
    for name in ["m", "m.journal", "m.pending"] {
        assert!(model().tree().unwrap().save(folder.file(name)).is_err());
    }
    let held = ModelFile::load(&path).unwrap();
    assert!(matches!(
        model().save_over(&path),
        Err(ModelFileError::InUse(_))
    ));
    drop(held);
    assert_eq!(all(&folder), before);
    model().save_over(&path).unwrap();
    assert_eq!(folder.names(), ["m"]);
    let held = ModelFile::load(&path).unwrap();
    assert!(matches!(model().save(&path), Err(ModelFileError::InUse(_))));
    drop(held);
}

/// Pads, bytes after the records and another order are not lost by an edit.
#[test]
fn files_that_are_not_in_working_form() {
    let folder = Folder::new("not_working_form");
    let mut odd = file(4, &[(3, 1, 2, 1.0, 1.0), (0, 1, 2, 5.0, 6.0)]);
    odd[12] = 3;
    odd.extend(record(3, 3, 2, 7, 2.0, 2.0));
    odd.extend(b"notes");
    let shuffled = file(4, &[(3, 1, 2, 1.0, 1.0), (0, 1, 2, 5.0, 6.0)]);
    let mut trailing = file(4, &[(0, 1, 2, 5.0, 6.0)]);
    trailing.push(0);
    let words = "1 record out of order, 1 pad not 0, 5 bytes after the records";
    fs::write(folder.file("edits"), "put 0 0 0 1 1\n").unwrap();
    for (bytes, words) in [
        (&odd, words),
        (&shuffled, "1 record out of order"),
        (&trailing, "1 byte after the records"),
    ] {
        fs::write(folder.file("m"), bytes).unwrap();
        let words = format!(
            "mascon: m: refused 10: not in working form: {words}; write the working form with `mascon open m -o NEW` first"
        );
        for line in [
            "put m 0 0 0 1 1",
            "remove m 0 1 2",
            "undo m",
            "redo m",
            "apply m edits",
        ] {
            fails(&folder, line, &words);
        }
        assert!(done(&folder, "log m").contains("0 edits to undo"));
        assert_eq!(fs::read(folder.file("m")).unwrap(), *bytes);
        assert_eq!(folder.names(), ["edits", "m"]);
    }
    assert_eq!(
        Departures::of(&odd),
        Departures {
            out_of_order: 1,
            pads: 1,
            trailing: 5
        }
    );
    fs::write(folder.file("m"), &odd).unwrap();
    let out = done(&folder, "open m -o n");
    let left = "n: 3 points in working form; left out: 1 pad not 0, 5 bytes after the records\n";
    assert_eq!(out, left);
    assert_eq!(
        done(&folder, "open n -o n"),
        "n: 3 points in working form, as it was\n"
    );
    fs::write(folder.file("m"), &shuffled).unwrap();
    let out = done(&folder, "open m -o n");
    assert!(
        out.contains("; only the order of its records is another"),
        "{out}"
    );
    done(&folder, "put n 0 0 0 1 1");
}

/// What ModelFile refuses is named as the user named it.
#[test]
fn paths_as_they_were_given() {
    let folder = Folder::new("as_given");
    fs::create_dir(folder.file("sub")).unwrap();
    let path = folder.file("sub").join("m");
    model().save(&path).unwrap();
    let held = ModelFile::load(&path).unwrap();
    assert_eq!(held.path(), path);
    fails(
        &folder,
        "put sub/m 0 0 0 1 1",
        "mascon: sub/m: another run is editing",
    );
    drop(held);
    fails(
        &folder,
        "put sub/../sub/none 0 0 0 1 1",
        "mascon: sub/../sub/none: No such file",
    );
    fails(&folder, "log none", "mascon: none: No such file");
    fails(
        &folder,
        "put sub 0 0 0 1 1",
        "mascon: sub: not a regular file",
    );
    fs::write(path.with_extension("journal"), b"x").unwrap();
    fails(
        &folder,
        "undo sub/m",
        "mascon: sub/m.journal: not a journal file",
    );
    fs::remove_file(path.with_extension("journal")).unwrap();
    fs::write(&path, b"short").unwrap();
    let advice = format!(
        "mascon: sub/m: refused 1: file under 64 bytes\n  {}",
        Refusal::FileTooShort.advice()
    );
    fails(&folder, "undo sub/m", &advice);
    fails(&folder, "log sub/m", &advice);
    #[cfg(unix)]
    {
        // Through a link: the model as it was given, the journal where it stands.
        std::os::unix::fs::symlink("sub/m", folder.file("link")).unwrap();
        fails(&folder, "undo link", "mascon: link: refused 1");
        model().save_over(folder.file("link")).unwrap();
        done(&folder, "put link 1 1 1 1 1");
        assert!(path.with_extension("journal").exists());
        fs::write(&path, model().as_bytes()).unwrap();
        fails(
            &folder,
            "undo link",
            "sub/m.journal: this journal does not belong to its model, link",
        );
    }
}

/// A model that something else has written since it was loaded is not written over.
#[test]
fn changed_since_it_was_loaded() {
    let folder = Folder::new("changed");
    let path = folder.file("m");
    let third = file(5, &[(4, 4, 4, 9.0, 9.0)]);
    let by_rename = |path: &Path| mascon::write_file(path, &third).unwrap();
    let in_place = |path: &Path| fs::write(path, &third).unwrap();
    for write in [&by_rename as &dyn Fn(&Path), &in_place] {
        model().save_over(&path).unwrap();
        let mut held = ModelFile::load(&path).unwrap();
        held.model.put(0, 0, 0, 1.0, 1.0).unwrap();
        write(&path);
        let error = held.save().unwrap_err();
        assert!(matches!(error, ModelFileError::Changed(_)), "{error}");
        assert_eq!(fs::read(&path).unwrap(), third);
        assert_eq!(folder.names(), ["m"]);
    }
    // A folder that changes under the run does not matter: the model stays where it was.
    model().save_over(&path).unwrap();
    let mut held = ModelFile::load(&path).unwrap();
    for x in 0..3 {
        held.model.put(x, 0, 0, 1.0, 1.0).unwrap();
        held.save().unwrap();
    }
    assert_eq!(
        ModelFile::read(&path)
            .unwrap()
            .into_model()
            .unwrap()
            .entries(),
        3
    );
}

/// A model or a journal larger than what may be written, told or killed by the system: the pair that stood there is whole.
#[cfg(target_os = "linux")]
#[test]
fn a_full_disk() {
    let folder = Folder::new("full_disk");
    let mut large = Model::open(&mascon::shapes::empty_file(16, [0.0; 3], [1.0; 3])).unwrap();
    for i in 0..2000_u32 {
        large.put(i % 16, i / 16 % 16, i / 256, 1.0, 1.0).unwrap();
    }
    large.save(folder.file("large")).unwrap();
    // Its journal is larger than the model.
    model().save(folder.file("edited")).unwrap();
    let puts: String = (0..900)
        .map(|i| format!("put {} 0 0 {i} 1\n", i % 4))
        .collect();
    fs::write(folder.file("edits"), puts).unwrap();
    done(&folder, "apply edited edits");
    let before = all(&folder);
    let limited = |trap: &str, blocks: usize, line: &str| {
        let program = env!("CARGO_BIN_EXE_mascon");
        let mut sh = Command::new("sh");
        sh.args([
            "-c",
            &format!("ulimit -c 0; ulimit -f {blocks}; {trap} exec {program} {line}"),
        ]);
        sh.current_dir(folder.file(""));
        run(sh)
    };
    for (line, sizes) in [
        ("put large 0 0 15 1 1", &[0, 1, 8, 62][..]),
        ("put edited 0 0 3 1 1", &[1, 2, 20][..]),
        ("open large -o new", &[1, 62][..]),
        ("build large -o new", &[1, 60][..]),
        ("open large -o edited --force", &[1, 62][..]),
    ] {
        for &blocks in sizes {
            let ran = limited("trap '' XFSZ;", blocks, line);
            assert_eq!(ran.status, 1, "{line}, {blocks}: {}{}", ran.out, ran.err);
            assert!(ran.err.contains("too large"), "{line}: {}", ran.err);
            assert_eq!(all(&folder), before, "{line}, {blocks}");
            // Killed: what is left beside is taken away by the next that is not.
            let ran = limited("", blocks, line);
            assert_eq!(ran.status, -1, "{line}, {blocks}: {}", ran.err);
            let old: Vec<_> = all(&folder)
                .into_iter()
                .filter(|(name, _)| !name.contains(".pending") && !name.contains(".mascon-new"))
                .collect();
            assert_eq!(old, before, "{line}, {blocks}");
            assert!(done(&folder, "check edited").contains("900 edits to undo"));
            assert!(done(&folder, "check large").contains("no fault"));
            for name in folder.names() {
                if !before.iter().any(|(known, _)| *known == name) {
                    fs::remove_file(folder.file(&name)).unwrap();
                }
            }
        }
    }
    limited("", 8, "put large 0 0 15 1 1");
    limited("", 8, "open large -o edited --force");
    limited("", 1, "build large -o new");
    assert!(folder.names().len() > before.len());
    done(&folder, "put large 0 0 15 1 1");
    done(&folder, "put edited 0 0 3 1 1");
    done(&folder, "build large -o new");
    let names = [
        "edited",
        "edited.journal",
        "edits",
        "large",
        "large.journal",
        "new",
    ];
    assert_eq!(folder.names(), names);
}

/// Where the tests' user may write everywhere, only the injected failure shows this.
#[cfg(unix)]
#[test]
fn a_read_only_folder() {
    use std::os::unix::fs::PermissionsExt;
    let folder = Folder::new("read_only_folder");
    model().save(folder.file("m")).unwrap();
    done(&folder, "put m 1 1 1 1 1");
    let before = all(&folder);
    let rights = |mode| fs::set_permissions(folder.file(""), fs::Permissions::from_mode(mode));
    rights(0o555).unwrap();
    if fs::write(folder.file("probe"), b"").is_err() {
        fails(&folder, "put m 0 0 0 1 1", "m.pending: Permission denied");
        fails(&folder, "build m -o tree", "tree: Permission denied");
        assert_eq!(all(&folder), before);
        assert!(done(&folder, "log m").contains("1 edits to undo"));
    }
    rights(0o755).unwrap();
}

/// Runs that put at once: what was answered as made is there, and readers see a whole pair all the time.
#[test]
fn two_writers_and_readers() {
    let folder = Folder::new("two_writers");
    let path = folder.file("m");
    Model::open(&file(16, &[])).unwrap().save(&path).unwrap();
    let begin = fs::read(&path).unwrap();
    let (writers, puts) = (4_u32, 12_u32);
    let over = std::sync::atomic::AtomicUsize::new(0);
    std::thread::scope(|scope| {
        for writer in 0..writers {
            let (folder, over) = (&folder, &over);
            scope.spawn(move || {
                for x in 0..puts {
                    loop {
                        let ran = mascon(folder, &format!("put m {x} {writer} 0 {x} {writer}"));
                        if ran.status == 0 {
                            break;
                        }
                        assert!(ran.err.contains("another run"), "{}", ran.err);
                    }
                }
                over.fetch_add(1, std::sync::atomic::Ordering::SeqCst);
            });
        }
        for line in ["check m", "log m"] {
            let (folder, over) = (&folder, &over);
            scope.spawn(move || {
                while over.load(std::sync::atomic::Ordering::SeqCst) < writers as usize {
                    let ran = mascon(folder, line);
                    assert_eq!(ran.status, 0, "{line}: {}{}", ran.out, ran.err);
                }
            });
        }
        let (path, over) = (&path, &over);
        scope.spawn(move || {
            while over.load(std::sync::atomic::Ordering::SeqCst) < writers as usize {
                let model = ModelFile::read(path).unwrap().into_model().unwrap();
                assert_eq!(model.len(), model.entries());
            }
        });
    });
    let mut model = ModelFile::load(&path).unwrap().model;
    assert_eq!(model.entries(), (writers * puts) as usize);
    for (x, y) in (0..puts).flat_map(|x| (0..writers).map(move |y| (x, y))) {
        assert!(model.get(x, y, 0).is_some(), "{x} {y}");
    }
    while model.undo().is_ok() {}
    assert_eq!(model.as_bytes(), begin);
    assert_eq!(folder.names(), ["m", "m.journal"]);
}

/// A model that is written anew and edited all the time: a reader never sees one without the journal that belongs to it.
#[test]
fn a_reader_while_a_model_is_replaced() {
    let folder = Folder::new("replaced");
    let path = folder.file("m");
    let empty = Model::open(&file(4, &[])).unwrap();
    empty.save(&path).unwrap();
    let over = std::sync::atomic::AtomicBool::new(false);
    std::thread::scope(|scope| {
        scope.spawn(|| {
            for _ in 0..150 {
                for x in 0..2 {
                    let mut model_file = ModelFile::load(&path).unwrap();
                    model_file.model.put(x, 0, 0, 1.0, 1.0).unwrap();
                    model_file.save().unwrap();
                }
                empty.save_over(&path).unwrap();
            }
            over.store(true, std::sync::atomic::Ordering::SeqCst);
        });
        while !over.load(std::sync::atomic::Ordering::SeqCst) {
            let model = ModelFile::read(&path).unwrap().into_model().unwrap();
            assert_eq!(model.len(), model.entries());
        }
    });
}

/// Random lists: after undo and redo, model and journal are as before; a put or a remove drops what could be redone.
#[test]
fn undo_and_redo() {
    let mut rng = Rng(21);
    let mut model = Model::open(&file(3, &[(0, 1, 2, 5.0, 6.0)])).unwrap();
    for _ in 0..2_000 {
        let [x, y, z] = [0; 3].map(|_| rng.below(3) as u32);
        let (undone, entries) = (model.redoable(), model.entries());
        match rng.below(8) {
            0..3 => {
                model.put(x, y, z, rng.mass(), rng.mass()).unwrap();
                assert_eq!(model.redoable(), 0);
            }
            3 => {
                let made = model.remove(x, y, z).is_ok();
                // A refused edit has changed nothing.
                assert_eq!(model.redoable(), if made { 0 } else { undone });
            }
            4..6 => {
                let made = usize::from(model.undo().is_ok());
                assert_eq!(
                    (model.redoable(), model.entries()),
                    (undone + made, entries - made)
                );
            }
            _ => {
                let made = usize::from(model.redo().unwrap().is_some());
                assert_eq!(
                    (model.redoable(), model.entries()),
                    (undone - made, entries + made)
                );
            }
        }
        let before = (model.as_bytes().to_vec(), model.journal().to_vec());
        let edits = model.edits();
        let steps = rng.below(model.entries() as u64 + 1) as usize;
        for _ in 0..steps {
            model.undo().unwrap();
        }
        for step in 0..steps {
            let edit = model.redo().unwrap();
            assert_eq!(edit, Some(edits[edits.len() - steps + step]));
        }
        assert_eq!(
            (model.as_bytes(), model.journal()),
            (&before.0[..], &before.1[..])
        );
    }
    assert_eq!(model.edits().len(), model.entries());
    model.undo().unwrap();
    assert_eq!(
        Model::resume(model.as_bytes(), model.journal())
            .unwrap()
            .redoable(),
        0
    );
    assert_eq!(model.clone().redoable(), model.redoable());
    model.forget_entries();
    assert_eq!((model.redoable(), model.redo()), (0, Ok(None)));
}

#[test]
fn a_list_whole_or_not_at_all() {
    let mut model = model();
    model.put(1, 1, 1, 1.0, 1.0).unwrap();
    model.undo().unwrap();
    let before = (model.as_bytes().to_vec(), model.journal().to_vec());
    let list = [
        Edit::Put(2, 2, 2, 1.0, 1.0),
        Edit::Remove(0, 1, 2),
        Edit::Undo,
        Edit::Undo,
        Edit::Put(3, 3, 3, 4.0, 5.0),
        Edit::Remove(0, 0, 0),
        Edit::Put(1, 0, 0, 1.0, 1.0),
    ];
    let error = model.apply(&list).unwrap_err();
    assert_eq!(
        (error.place, error.edit, error.refusal),
        (5, list[5], Refusal::EmptyCell)
    );
    let words = "edit 5 of the list (from 0), remove 0 0 0: refused 12: the cell is empty; nothing is changed";
    assert_eq!(
        (error.to_string(), format!("{error:?}")),
        (words.into(), words.into())
    );
    assert_eq!(
        (model.as_bytes(), model.journal()),
        (&before.0[..], &before.1[..])
    );
    assert_eq!(model.redoable(), 1);
    model.apply(&[]).unwrap();
    assert_eq!(model.redoable(), 1);
    model.apply(&list[..5]).unwrap();
    assert_eq!((model.len(), model.entries(), model.redoable()), (2, 1, 0));
    assert_eq!(model.edits(), [list[4]]);
}

#[test]
fn redo_across_runs() {
    let folder = Folder::new("redo");
    model().save(folder.file("m")).unwrap();
    fails(&folder, "redo m", "redo, step 1 of 1: nothing to redo");
    done(&folder, "put m 1 2 3 5e6 4e6");
    done(&folder, "put m 1 2 3 -0.5 4e6");
    done(&folder, "remove m 0 1 2");
    let log = done(&folder, "log m");
    assert_eq!(
        log,
        "1 put 1 2 3 5000000 4000000: the cell was empty\n\
         2 put 1 2 3 -0.5 4000000: the cell held 5000000 and 4000000 kg\n\
         3 remove 0 1 2: the cell held 5 and 6 kg\n\
         1 points, 3 edits to undo\n"
    );
    let edited = fs::read(folder.file("m")).unwrap();
    assert!(done(&folder, "undo m --steps 2")
        .contains("2 undone; 2 points, 1 edits to undo, 2 to redo"));
    assert!(done(&folder, "log m").ends_with("2 points, 1 edits to undo, 2 to redo\n"));
    assert!(done(&folder, "info m").contains("1 edits to undo, 2 to redo"));
    let out = done(&folder, "redo m");
    assert_eq!(
        out,
        "redo: put 1 2 3 -0.5 4000000\n1 redone; 2 points, 2 edits to undo, 1 to redo\n"
    );
    let before = all(&folder);
    fails(
        &folder,
        "redo m --steps 2",
        "redo, step 2 of 2: nothing to redo",
    );
    assert_eq!(all(&folder), before);
    assert!(done(&folder, "redo m --all").contains("1 redone; 1 points, 3 edits to undo"));
    assert_eq!(fs::read(folder.file("m")).unwrap(), edited);
    assert_eq!(done(&folder, "log m"), log);
    done(&folder, "undo m --all");
    assert!(done(&folder, "redo m --steps 3").contains("3 redone"));
    done(&folder, "undo m");
    done(&folder, "put m 0 0 0 1 1");
    fails(&folder, "redo m", "nothing to redo");
    assert!(done(&folder, "redo m --all").contains("0 redone"));
    assert!(done(&folder, "help redo").contains("mascon redo MODEL [--steps N | --all]"));
}

/// A million points: the place of each is found at once.
#[test]
fn points_by_their_place() {
    let mut bytes = file(128, &[]);
    let count = 1_000_000_u32;
    bytes[12..16].copy_from_slice(&count.to_le_bytes());
    for i in 0..count {
        let [x, y, z] = [i % 128, i / 128 % 128, i / 128 / 128].map(|index| index as u16);
        bytes.extend(record(x, y, z, 0, i as f32, 1.0));
    }
    let model = Model::open(&bytes).unwrap();
    for i in 0..50_000 {
        let place = (i * 7919) % count as usize;
        let point = model.point(place);
        assert_eq!(point.map(|point| point.cauchy_mass), Some(place as f32));
        assert_eq!(model.points().nth(place), point);
        assert_eq!(model.points().nth_back(count as usize - 1 - place), point);
        assert_eq!(
            model.place(
                place as u32 % 128,
                place as u32 / 128 % 128,
                place as u32 / 128 / 128
            ),
            Some(place)
        );
    }
    let mut points = model.points();
    assert_eq!(points.nth(2), model.point(2));
    assert_eq!(points.next(), model.point(3));
    assert_eq!(points.nth_back(1), model.point(999_998));
    assert_eq!((points.len(), points.nth(999_994)), (999_994, None));
    assert_eq!((points.next(), points.next_back()), (None, None));
    assert_eq!(model.point(1_000_000), None);
}
