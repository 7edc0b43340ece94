//! The program, run as planners run it.

mod common;

use common::{done, fails, file, mascon, Folder};
use mascon::Model;
use std::fs;
use std::path::Path;
use std::process::Command;

fn bytes(folder: &Folder, name: &str) -> Vec<u8> {
    fs::read(folder.file(name)).unwrap()
}

#[test]
fn from_mesh_to_tree() {
    let folder = Folder::new("from_mesh_to_tree");
    done(&folder, "example . --rings 12");
    let out = done(
        &folder,
        "fill binary.obj cauchy.txt --elliptic elliptic.txt --grid 32 --target 7e11 -o b.rym1",
    );
    assert!(
        out.contains("points of 32768 cells, from 1056 triangles"),
        "{out}"
    );
    let filled = bytes(&folder, "b.rym1");
    assert_eq!(filled, {
        let (mesh, cauchy) = mascon::shapes::contact_binary(12);
        let wider = |k: &mascon::Kernel| mascon::Kernel {
            sigma: k.sigma / 2.0,
            ..*k
        };
        let elliptic: Vec<_> = cauchy.iter().map(wider).collect();
        mascon::build_mascon(&mesh, &cauchy, &elliptic, 7e11, 1190.0, 32).unwrap()
    });
    fs::copy(folder.file("b.rym1"), folder.file("before.rym1")).unwrap();
    assert!(done(&folder, "apply b.rym1 edits.txt").contains("14 of 14 edits made"));
    assert!(done(&folder, "log b.rym1").contains("12 edits to undo"));
    assert!(done(&folder, "info b.rym1").contains("12 edits to undo"));
    assert!(done(&folder, "check b.rym1").contains("no fault"));
    done(&folder, "build b.rym1 -o b.rtm1");
    assert_eq!(
        bytes(&folder, "b.rtm1"),
        Model::open(&bytes(&folder, "b.rym1"))
            .unwrap()
            .tree()
            .unwrap()
            .as_bytes()
    );
    assert!(done(&folder, "info b.rtm1").contains("depth"));
    assert!(done(&folder, "check b.rtm1").contains("no fault"));
    let drawn = done(&folder, "draw b.rym1 -o b.svg --before before.rym1");
    assert!(drawn.contains("4 added, 5 removed, 3 changed"), "{drawn}");
    let svg = String::from_utf8(bytes(&folder, "b.svg")).unwrap();
    assert!(svg.starts_with("<svg") && svg.contains("4 added") && svg.contains("x [m]"));
    done(&folder, "draw b.rym1 -o b.png --mass elliptic");
    assert!(bytes(&folder, "b.png").starts_with(b"\x89PNG\r\n\x1a\n"));
    assert!(done(&folder, "undo b.rym1 --all").contains("12 undone"));
    assert_eq!(bytes(&folder, "b.rym1"), filled);
    fails(&folder, "undo b.rym1", 1, "refused 15");
}

#[test]
fn single_edits_across_runs() {
    let folder = Folder::new("single_edits");
    fs::write(
        folder.file("m"),
        file(4, &[(3, 3, 3, 1.0, 2.0), (0, 1, 2, 5.0, 6.0)]),
    )
    .unwrap();
    done(&folder, "open m -o m.rym1");
    let opened = bytes(&folder, "m.rym1");
    assert!(
        done(&folder, "put m.rym1 1 1 1 -3.5 2e6").contains("was empty; 3 points, 1 edits to undo")
    );
    assert!(done(&folder, "put m.rym1 1 1 1 7 8").contains("held -3.5 and 2000000 kg"));
    assert!(done(&folder, "remove m.rym1 3 3 3").contains("2 points, 3 edits"));
    let (model, journal) = (bytes(&folder, "m.rym1"), bytes(&folder, "m.rym1.journal"));
    for (line, words) in [
        ("put m.rym1 4 0 0 1 1", "refused 6"),
        ("put m.rym1 0 0 0 nan 1", "refused 7"),
        ("put m.rym1 0 0 0 1 1e39", "refused 7"),
        ("remove m.rym1 0 0 0", "refused 12"),
        ("undo m.rym1 --steps 4", "step 4 of 4: refused 15"),
        ("open m -o m.rym1", "has a journal"),
    ] {
        fails(&folder, line, 1, words);
        assert_eq!(bytes(&folder, "m.rym1"), model, "{line}");
        assert_eq!(bytes(&folder, "m.rym1.journal"), journal, "{line}");
    }
    for (line, words) in [
        ("put m.rym1 0 0", "missing: Z CAUCHY ELLIPTIC"),
        ("put m.rym1 0 0 -1 1 1", "`-1` is not a cell index"),
        ("put m.rym1 0 0 0 1 x", "`x` is not a mass"),
        ("remove m.rym1 0 0 0 0", "one word too many"),
        ("undo m.rym1 --step 1", "no option --step"),
        ("undo m.rym1 --steps", "takes a value"),
        ("draw m.rym1 -o m.gif", ".svg or .png"),
        ("draw m.rym1 -o m.svg --mass dark", "cauchy or elliptic"),
        ("build m.rym1", "missing: -o"),
        ("build m.rym1 -o m.rym1", "over its point file"),
        ("frobnicate", "no command `frobnicate`"),
        ("", "mascon fill"),
    ] {
        fails(&folder, line, 2, words);
    }
    done(&folder, "undo m.rym1 --steps 3");
    assert_eq!(bytes(&folder, "m.rym1"), opened);
    assert_eq!(folder.names(), ["m", "m.rym1", "m.rym1.journal"]);
    done(&folder, "open m -o m.rym1 --force");
    assert_eq!(folder.names(), ["m", "m.rym1"]);
    assert!(done(&folder, "help apply").contains("--keep-going"));
    assert!(done(&folder, "fill --help").contains("--grid"));
}

#[test]
fn lists_of_edits() {
    let folder = Folder::new("lists_of_edits");
    fs::write(folder.file("m.rym1"), file(4, &[(0, 1, 2, 5.0, 6.0)])).unwrap();
    let before = bytes(&folder, "m.rym1");
    fs::write(
        folder.file("bad"),
        "put 1 1 1 1 1 # fine\n\n# next\nremove 3 3 3\nput 2 2 2 2 2\n",
    )
    .unwrap();
    fails(
        &folder,
        "apply m.rym1 bad",
        1,
        "bad: line 4: remove 3 3 3: refused 12: the cell is empty; nothing is changed",
    );
    fs::write(folder.file("worse"), "put 1 1 1 1 1\nput 1 1 1\n").unwrap();
    fails(&folder, "apply m.rym1 worse", 1, "worse: line 2: put takes");
    fails(
        &folder,
        "apply m.rym1 worse --keep-going",
        1,
        "worse: line 2: put takes",
    );
    fails(&folder, "apply m.rym1 none", 1, "none: ");
    assert_eq!(bytes(&folder, "m.rym1"), before);
    assert_eq!(folder.names(), ["bad", "m.rym1", "worse"]);
    fails(
        &folder,
        "apply m.rym1 bad --keep-going",
        1,
        "1 edits refused, the others are saved",
    );
    assert_eq!(Model::open(&bytes(&folder, "m.rym1")).unwrap().len(), 3);
    done(&folder, "undo m.rym1 --steps 2");
    assert_eq!(bytes(&folder, "m.rym1"), before);
}

#[test]
fn a_journal_and_its_model_belong_together() {
    let folder = Folder::new("belong_together");
    let path = |name: &str| folder.file(name);
    fs::write(path("m.rym1"), file(4, &[(0, 1, 2, 5.0, 6.0)])).unwrap();
    done(&folder, "put m.rym1 1 1 1 1 1");
    let old = (bytes(&folder, "m.rym1"), bytes(&folder, "m.rym1.journal"));
    done(&folder, "put m.rym1 2 2 2 2 2");
    let new = (bytes(&folder, "m.rym1"), bytes(&folder, "m.rym1.journal"));
    let set = |model: &[u8], journal: &[u8]| {
        fs::write(path("m.rym1"), model).unwrap();
        fs::write(path("m.rym1.journal"), journal).unwrap();
    };
    // The model of before with the journal of after, and the other way round.
    for (model, journal) in [(&old.0, &new.1), (&new.0, &old.1)] {
        set(model, journal);
        fails(&folder, "undo m.rym1", 1, "does not belong to its model");
        fails(&folder, "check m.rym1", 1, "1 fault");
        assert_eq!(
            (&bytes(&folder, "m.rym1"), &bytes(&folder, "m.rym1.journal")),
            (model, journal)
        );
    }
    // A run that was cut off between its two renames is finished.
    set(&old.0, &new.1);
    fs::write(path("m.rym1.pending"), &new.0).unwrap();
    let ran = mascon(&folder, "undo m.rym1");
    assert_eq!(ran.status, 0);
    assert!(ran.err.contains("its save is finished now") && ran.out.contains("1 edits to undo"));
    assert_eq!(bytes(&folder, "m.rym1"), old.0);
    assert_eq!(folder.names(), ["m.rym1", "m.rym1.journal"]);
    // A run that was cut off before them leaves the old pair and what is pending.
    set(&old.0, &old.1);
    fs::write(path("m.rym1.pending"), &new.0[..70]).unwrap();
    fs::write(path("m.rym1.journal.pending"), b"x").unwrap();
    done(&folder, "put m.rym1 2 2 2 2 2");
    assert_eq!(
        (bytes(&folder, "m.rym1"), bytes(&folder, "m.rym1.journal")),
        new
    );
    assert_eq!(folder.names(), ["m.rym1", "m.rym1.journal"]);
    // Each byte of the journal counts.
    for at in 0..new.1.len() {
        let mut damaged = new.1.clone();
        damaged[at] ^= 0x10;
        set(&new.0, &damaged);
        let ran = mascon::ModelFile::load(path("m.rym1"));
        assert!(ran.is_err(), "byte {at}");
        set(&new.0, &new.1[..at]);
        assert!(
            mascon::ModelFile::load(path("m.rym1")).is_err(),
            "cut at {at}"
        );
    }
    // One run at a time.
    set(&new.0, &new.1);
    let held = mascon::ModelFile::load(path("m.rym1")).unwrap();
    fails(
        &folder,
        "undo m.rym1",
        1,
        "another run is editing this model",
    );
    drop(held);
    done(&folder, "undo m.rym1");
    // A link is followed, not replaced.
    #[cfg(unix)]
    {
        std::os::unix::fs::symlink("m.rym1", path("link")).unwrap();
        done(&folder, "undo link");
        assert!(fs::symlink_metadata(path("link")).unwrap().is_symlink());
        assert_eq!(Model::open(&bytes(&folder, "m.rym1")).unwrap().len(), 1);
        assert_eq!(folder.names(), ["link", "m.rym1", "m.rym1.journal"]);
    }
}

#[test]
fn bad_meshes_and_kernels() {
    let folder = Folder::new("bad_meshes");
    let write = |name: &str, text: &str| fs::write(folder.file(name), text).unwrap();
    let good = "v 0 0 0\nv 9 0 0\nv 0 9 0\nv 0 0 9\nf 1 3 2\nf 1 2 4\nf 1 4 3\nf 2 3 4\n";
    write("k", "0 0 0 0.1 1000\n");
    write("out", "as it was");
    for (mesh, words) in [
        ("v 0 0\n", "mesh: line 1: a corner has x, y and z"),
        (
            "v 0 0 0\nv 0 0 NaN\n",
            "mesh: line 2: `NaN` is not a finite number",
        ),
        ("v 0 0 zero\n", "mesh: line 1: `zero` is not a number"),
        (
            "v 0 0 2e6\n",
            "mesh: line 1: `2e6`: coordinates go up to 1e6 m",
        ),
        (
            "v 0 0 0\nv 1 0 0\nf 1 2\n",
            "mesh: line 3: a face has three corners",
        ),
        (
            "v 0 0 0\nf 1 1 2\n",
            "mesh: line 2: corner 2 is not among the 1",
        ),
        ("v 0 0 0\nf 1 0 1\n", "mesh: line 2: corner 0"),
        ("v 0 0 0\nf 1 -2 1\n", "mesh: line 2: corner -2"),
        ("v 0 0 0\nf 1 x 1\n", "mesh: line 2: `x` is not a corner"),
        ("# empty\n", "mesh: no face"),
    ] {
        write("mesh", mesh);
        fails(&folder, "fill mesh k -o out", 1, words);
    }
    write("mesh", good);
    for (kernels, words) in [
        ("0 0 0 1\n", "bad: line 1: a kernel is `x y z sigma w`"),
        ("# one\n0 0 0 -1 1\n", "bad: line 2: sigma is -1"),
        ("0 0 0 1 inf\n", "bad: line 1: `inf` is not a finite number"),
        ("0 0 0 1 1e31\n", "bad: line 1: w is"),
        ("0 0 2e6 1 1\n", "bad: line 1: a centre"),
    ] {
        write("bad", kernels);
        fails(&folder, "fill mesh bad -o out", 1, words);
        fails(&folder, "fill mesh k --elliptic bad -o out", 1, words);
    }
    fails(&folder, "fill mesh k -o out --grid 257", 1, "refused 3");
    fails(&folder, "fill mesh k -o out --target nan", 1, "refused 17");
    fails(&folder, "fill mesh k -o out --grid x", 2, "--grid: `x`");
    fails(&folder, "fill mesh k -o none/out --grid 4", 1, "none/out");
    fails(&folder, "fill mesh k -o out --scale 0", 2, "not above 0");
    assert_eq!(bytes(&folder, "out"), b"as it was");
    assert_eq!(folder.names(), ["bad", "k", "mesh", "out"]);
    done(&folder, "fill mesh k -o out --grid 8 --quiet");
    let filled = bytes(&folder, "out");
    // The same body with other words: negative indices, texture indices, a fan, comments, other keywords.
    write("mesh", "o body\nv 0 0 0 # origin\nv 9 0 0\nv 0 9 0\nv 0 0 9\nvn 0 0 1\nf -4/1 -2/1/1 -3//1\nf 1 2 4\\\n\nf 1 4 3 3\nf 2 3 4\nquux 1\n");
    let ran = mascon(&folder, "fill mesh k -o out --grid 8");
    assert_eq!(ran.status, 0, "{}", ran.err);
    assert!(
        ran.err.contains("line 12: `quux` is passed over"),
        "{}",
        ran.err
    );
    assert_eq!(bytes(&folder, "out"), filled);
    // In kilometres.
    write("mesh", &good.replace('9', "0.009"));
    done(&folder, "fill mesh k -o out --grid 8 --scale 1000");
    assert_eq!(bytes(&folder, "out"), filled);
    // A mesh with a face missing is filled, and told.
    write("mesh", &good.replace("f 2 3 4\n", ""));
    let ran = mascon(&folder, "fill mesh k -o out --grid 8");
    assert!(ran.err.contains("not closed, 3 edges"), "{}", ran.err);
}

#[test]
fn faults_are_placed() {
    let folder = Folder::new("faults");
    let mut bad = file(4, &[(0, 1, 2, 5.0, 6.0), (3, 1, 9, 1.0, f32::NAN)]);
    bad[4] = 2;
    fs::write(folder.file("bad"), &bad).unwrap();
    let ran = mascon(&folder, "check bad");
    assert_eq!(ran.status, 1);
    let lines: Vec<&str> = ran.out.lines().collect();
    assert_eq!(
        lines,
        [
            "cause 2: header, version, byte 4: 2 is not 1",
            "cause 6: record 1, z, byte 84: 9 is not below the grid, 4",
            "cause 7: record 1, elliptic mass, byte 92: NaN is not finite",
        ]
    );
    assert!(ran.err.contains("3 faults"));
    fails(&folder, "info bad", 1, "refused 2");
    fails(&folder, "build bad -o tree", 1, "refused 2");
    fails(&folder, "draw bad -o a.png", 1, "refused 2");
    fails(&folder, "open bad -o bad2", 1, "refused 2");
    fails(&folder, "put bad 0 0 0 1 1", 1, "refused 2");
    fails(&folder, "info none", 1, "none: ");
    assert_eq!(folder.names(), ["bad"]);
    let shuffled = file(4, &[(3, 1, 2, 5.0, 6.0), (0, 1, 2, 5.0, 6.0)]);
    fs::write(folder.file("shuffled"), shuffled).unwrap();
    let out = done(&folder, "check shuffled");
    assert!(
        out.contains("cause 10: record 1, x, byte 80: cell (0, 1, 2) stands after a later cell"),
        "{out}"
    );
    done(&folder, "build shuffled -o tree");
    fails(&folder, "draw tree -o a.png", 1, "this is a tree");
    fs::write(folder.file("other"), file(5, &[])).unwrap();
    fails(
        &folder,
        "draw shuffled -o a.png --before other",
        1,
        "different grids or boxes",
    );
    assert!(!Path::new(&folder.file("a.png")).exists());
}

/// What stands at the output is not a file to be replaced, is read by the command, or would lose edits.
#[test]
fn outputs_that_must_stand() {
    let folder = Folder::new("outputs");
    let model = file(4, &[(0, 1, 2, 5.0, 6.0)]);
    for name in ["m.rym1", "m.png", "edited.rym1"] {
        fs::write(folder.file(name), &model).unwrap();
    }
    fs::write(
        folder.file("mesh"),
        "v 0 0 0\nv 9 0 0\nv 0 9 0\nv 0 0 9\nf 1 3 2\nf 1 2 4\nf 1 4 3\nf 2 3 4\n",
    )
    .unwrap();
    fs::write(folder.file("k"), "0 0 0 0.1 1000\n").unwrap();
    fs::create_dir(folder.file("d.png")).unwrap();
    done(&folder, "put edited.rym1 1 1 1 1 1");
    let edited = bytes(&folder, "edited.rym1");
    let names = folder.names();
    for (line, status, words) in [
        ("build m.rym1 -o -", 2, "not standard output"),
        ("build m.rym1 -o ./m.rym1", 2, "over its point file"),
        ("draw m.png -o m.png", 2, "over its point file"),
        (
            "draw m.rym1 -o m.png --before m.png",
            2,
            "over its point file",
        ),
        ("fill mesh k -o mesh", 2, "over its mesh"),
        ("fill mesh k -o k", 2, "over its kernels"),
        ("fill mesh m.rym1 --elliptic k -o k", 2, "over its kernels"),
        ("fill - - -o out", 2, "can be read once"),
        ("build m.rym1 -o edited.rym1", 1, "has a journal"),
        ("fill mesh k -o edited.rym1", 1, "has a journal"),
        ("draw m.rym1 -o d.png", 1, "not a regular file"),
        ("build m.rym1 -o .", 1, "not a regular file"),
        ("build m.rym1 -o m.png/tree", 1, "m.png/tree: "),
        ("put . 0 0 0 1 1", 1, "not a regular file"),
    ] {
        fails(&folder, line, status, words);
    }
    assert_eq!(bytes(&folder, "edited.rym1"), edited);
    assert_eq!(bytes(&folder, "m.png"), model);
    assert_eq!(folder.names(), names);
    // A model that another run has is not written over, even where it has no journal yet.
    let held = mascon::ModelFile::load(folder.file("m.png")).unwrap();
    fails(&folder, "open m.rym1 -o m.png", 1, "another run");
    drop(held);
    done(&folder, "open m.rym1 -o m.png");
}

#[cfg(unix)]
#[test]
fn pipes_links_and_rights() {
    use std::os::unix::fs::{symlink, FileTypeExt, PermissionsExt};
    let folder = Folder::new("pipes_and_links");
    let path = |name: &str| folder.file(name);
    fs::write(path("m.rym1"), file(4, &[(0, 1, 2, 5.0, 6.0)])).unwrap();
    let made = Command::new("mkfifo").arg(path("pipe")).status().unwrap();
    assert!(made.success());
    fails(&folder, "build m.rym1 -o pipe", 1, "not a regular file");
    fails(&folder, "put pipe 0 0 0 1 1", 1, "not a regular file");
    assert!(fs::metadata(path("pipe")).unwrap().file_type().is_fifo());
    // A link to nothing yet is followed; one to itself is refused.
    symlink("tree", path("link")).unwrap();
    symlink("loop", path("loop")).unwrap();
    done(&folder, "build m.rym1 -o link");
    assert!(fs::symlink_metadata(path("link")).unwrap().is_symlink());
    assert!(bytes(&folder, "tree").starts_with(b"RTM1"));
    fails(&folder, "build m.rym1 -o loop", 1, "loop: ");
    assert!(fs::symlink_metadata(path("loop")).unwrap().is_symlink());
    // A read-only file stays, and others keep their rights.
    let (model, rights) = (bytes(&folder, "m.rym1"), |mode: u32| {
        fs::set_permissions(path("m.rym1"), fs::Permissions::from_mode(mode)).unwrap();
    });
    rights(0o444);
    let names = folder.names();
    fails(&folder, "put m.rym1 0 0 0 1 1", 1, "read-only");
    fails(&folder, "open m.rym1 -o m.rym1", 1, "read-only");
    assert_eq!(
        (bytes(&folder, "m.rym1"), folder.names()),
        (model.clone(), names)
    );
    rights(0o640);
    done(&folder, "put m.rym1 0 0 0 1 1");
    let mode = |name: &str| fs::metadata(path(name)).unwrap().permissions().mode() & 0o777;
    assert_eq!((mode("m.rym1"), mode("m.rym1.journal")), (0o640, 0o640));
}

/// Names that are no text, begin with a dash or have a space.
#[cfg(unix)]
#[test]
fn names_of_all_kinds() {
    use std::os::unix::ffi::OsStrExt;
    let folder = Folder::new("names");
    let run = |words: &[&[u8]]| {
        Command::new(env!("CARGO_BIN_EXE_mascon"))
            .args(words.iter().map(|word| std::ffi::OsStr::from_bytes(word)))
            .current_dir(folder.file(""))
            .output()
            .unwrap()
    };
    for name in [&b"a\xff.rym1"[..], b"-d.rym1", b"a b.rym1"] {
        let path = folder.file("").join(std::ffi::OsStr::from_bytes(name));
        fs::write(&path, file(4, &[(0, 1, 2, 5.0, 6.0)])).unwrap();
        let put: [&[u8]; 8] = [b"put", b"--", name, b"1", b"1", b"1", b"-3", b"4"];
        assert_eq!(run(&put).status.code(), Some(0));
        assert_eq!(run(&[b"info", b"--", name]).status.code(), Some(0));
        let draw: [&[u8]; 5] = [b"draw", b"-o", b"p.png", b"--", name];
        assert_eq!(run(&draw).status.code(), Some(0));
        assert_eq!(mascon::ModelFile::load(path).unwrap().model.entries(), 1);
    }
    let ran = run(&[b"draw", b"m", b"-o", b"p.png", b"--title", b"\xff"]);
    assert_eq!(ran.status.code(), Some(2));
    assert_eq!(run(&[b"\xff"]).status.code(), Some(2));
    fails(&folder, "info -d.rym1", 2, "no option -d.rym1");
}

/// Standard input is read, and what cannot be written to the other two is no panic.
#[cfg(target_os = "linux")]
#[test]
fn standard_streams() {
    use std::process::Stdio;
    let folder = Folder::new("streams");
    fs::write(folder.file("m.rym1"), file(4, &[(0, 1, 2, 5.0, 6.0)])).unwrap();
    fs::write(folder.file("edits"), "remove 3 3 3\nput 1 1 1 1 1\n").unwrap();
    let open = |name: &str| Stdio::from(fs::File::open(folder.file(name)).unwrap());
    let full = || Stdio::from(fs::File::options().write(true).open("/dev/full").unwrap());
    let run = |line: &str| {
        let mut command = Command::new(env!("CARGO_BIN_EXE_mascon"));
        command
            .args(line.split_whitespace())
            .current_dir(folder.file(""));
        command
    };
    let info = run("info -").stdin(open("m.rym1")).output().unwrap();
    assert!(String::from_utf8(info.stdout).unwrap().contains("grid"));
    for line in [
        "info m.rym1",
        "check m.rym1",
        "log m.rym1",
        "costliest 8",
        "help",
    ] {
        let ran = run(line).stdout(full()).output().unwrap();
        assert_eq!(ran.status.code(), Some(1), "{line}");
        let err = String::from_utf8(ran.stderr).unwrap();
        assert!(err.contains("standard output: "), "{line}: {err}");
    }
    let ran = run("frobnicate").stderr(full()).status().unwrap();
    assert_eq!(ran.code(), Some(2));
    // The refusal cannot be told, the edits are made all the same.
    let line = "apply m.rym1 - --keep-going";
    let mut command = run(line);
    command.stdin(open("edits")).stdout(full()).stderr(full());
    assert_eq!(command.status().unwrap().code(), Some(1));
    assert_eq!(Model::open(&bytes(&folder, "m.rym1")).unwrap().len(), 2);
}

/// A command that edits nothing writes nothing, and does not say that it does.
#[test]
fn nothing_to_save() {
    let folder = Folder::new("nothing_to_save");
    let shuffled = file(4, &[(3, 1, 2, 5.0, 6.0), (0, 1, 2, 5.0, 6.0)]);
    fs::write(folder.file("m"), &shuffled).unwrap();
    fs::write(folder.file("none"), "# nothing\n").unwrap();
    fs::write(folder.file("n"), file(4, &[(0, 1, 2, 5.0, 6.0)])).unwrap();
    for line in [
        "log m",
        "log n",
        "undo n --all",
        "redo n --all",
        "apply n none",
    ] {
        let ran = mascon(&folder, line);
        assert_eq!((ran.status, &*ran.err), (0, ""), "{line}");
    }
    fails(&folder, "undo n --steps 0", 2, "nothing to do");
    fails(&folder, "remove n 0 0 0", 1, "refused 12");
    assert_eq!(bytes(&folder, "m"), shuffled);
    assert_eq!(folder.names(), ["m", "n", "none"]);
}

/// What info and check say of a save that was cut off between its renames; only an edit finishes it.
#[test]
fn a_save_that_was_cut_off() {
    let folder = Folder::new("cut_off");
    fs::write(folder.file("m"), file(4, &[(0, 1, 2, 5.0, 6.0)])).unwrap();
    let old = bytes(&folder, "m");
    done(&folder, "put m 1 1 1 1 1");
    let new = bytes(&folder, "m");
    fs::write(folder.file("m.pending"), &new).unwrap();
    fs::write(folder.file("m"), &old).unwrap();
    for line in ["info m", "check m", "log m"] {
        let ran = mascon(&folder, line);
        assert!(ran.status == 0 && ran.out.contains("1 edits to undo"));
        assert!(ran.err.contains("a save was cut off"), "{}", ran.err);
    }
    assert_eq!(bytes(&folder, "m"), old);
    fails(&folder, "remove m 0 0 0", 1, "its save is finished now");
    assert_eq!(bytes(&folder, "m"), new);
    assert_eq!(folder.names(), ["m", "m.journal"]);
    // Written anew, a model takes nothing over from a run that was cut off.
    fs::write(folder.file("m.pending"), &old).unwrap();
    fs::write(folder.file("other"), &old).unwrap();
    done(&folder, "open other -o m --force");
    assert_eq!(folder.names(), ["m", "other"]);
}

/// All causes of a point file, 21 after 1 to 7, then 10; a file of another kind has no list of records.
#[test]
fn check_lists_every_cause() {
    let folder = Folder::new("every_cause");
    let mut bad = file(
        4,
        &[
            (3, 1, 2, f32::INFINITY, 6.0),
            (0, 1, 2, 5.0, 6.0),
            (0, 1, 2, 5.0, 6.0),
        ],
    );
    bad[24..28].copy_from_slice(&f32::NAN.to_le_bytes());
    bad[44..48].copy_from_slice(&(-9.0_f32).to_le_bytes());
    bad[12] = 4;
    bad[70] = 1;
    fs::write(folder.file("bad"), &bad).unwrap();
    let ran = mascon(&folder, "check bad");
    assert!(ran.err.contains("5 faults"), "{}", ran.err);
    let lines: Vec<&str> = ran.out.lines().collect();
    assert_eq!(
        lines,
        [
            "cause 4: header, count, byte 12: 4 records are counted, 3 are there",
            "cause 5: header, scale, byte 24: NaN is not finite",
            "cause 5: header, box min x, byte 32: min -8 is not below max -9",
            "cause 7: record 0, Cauchy mass, byte 72: inf is not finite",
            "cause 21: record 2, x, byte 96: cell (0, 1, 2) again, first in record 1",
            "and not in working form:",
            "cause 10: record 0, pad, byte 70: 1 is not 0",
            "cause 10: record 1, x, byte 80: cell (0, 1, 2) stands after a later cell",
        ]
    );
    let ran = mascon(&folder, "check bad --most 1");
    assert!(ran.out.contains("... and 4 more"), "{}", ran.out);
    fs::write(folder.file("text"), "no point file\n".repeat(20)).unwrap();
    assert_eq!(mascon(&folder, "check text").out.lines().count(), 1);
}

/// What every command has: few words on request, help, the version, and clear words for standard input.
#[test]
fn common_to_all_commands() {
    let folder = Folder::new("common");
    fs::write(folder.file("m"), file(4, &[(0, 1, 2, 5.0, 6.0)])).unwrap();
    for line in [
        "fold m -o w --quiet",
        "open m -o w --quiet",
        "put w 1 1 1 1 1 --quiet",
        "--quiet undo w",
        "undo w --quiet",
        "build --quiet w -o t",
        "costliest 2 -o c --quiet",
        "draw w -o w.svg --quiet",
        "example --quiet e --rings 4",
    ] {
        let ran = mascon(&folder, line);
        let wrong = line.starts_with("--");
        assert_eq!(ran.status, if wrong { 2 } else { 0 }, "{line}: {}", ran.err);
        assert_eq!(ran.out, "", "{line}");
    }
    assert!(done(&folder, "info w --quiet").contains("grid"));
    fails(&folder, "remove w 1 1 1 --quiet", 1, "refused 12");
    assert!(done(&folder, "help help").contains("mascon help [COMMAND]"));
    let version = concat!("mascon ", env!("CARGO_PKG_VERSION"), "\n");
    assert_eq!(done(&folder, "-V"), version);
    assert_eq!(done(&folder, "--version"), version);
    for line in [
        "put - 1 1 1 1 1",
        "remove - 1 1 1",
        "undo -",
        "apply - m",
        "log -",
    ] {
        fails(&folder, line, 2, "standard input (-) has none");
    }
}

#[test]
fn an_example_spares_other_files() {
    let folder = Folder::new("example");
    fs::write(folder.file("edits.txt"), "undo\n").unwrap();
    fails(&folder, "example .", 1, "edits.txt is there already");
    assert_eq!(folder.names(), ["edits.txt"]);
    done(&folder, "example . --force --rings 4");
    done(&folder, "example . --rings 4");
    assert_eq!(folder.names().len(), 4);
}
