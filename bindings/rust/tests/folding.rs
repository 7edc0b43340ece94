//! One cell, one record: files that name a cell twice are refused with the records, and folded.

mod common;

use common::{command, done, fails, file, mascon, record, run, Folder};
use mascon::{Model, ModelFile, ModelFileError, Refusal, Twice};
use std::fs;
use std::process::Stdio;

type Record = (u16, u16, u16, f32, f32);

const RECORDS: [Record; 6] = [
    (3, 1, 2, 1.0, 1.5),
    (0, 0, 6, 5.0, 6.0),
    (1, 1, 1, -0.5, 7.0),
    (0, 0, 6, 5.0, 6.0),
    (3, 1, 2, 2.0, 2.5),
    (3, 1, 2, 3e6, 3.5),
];

/// What folding leaves of them.
const FOLDED: [Record; 3] = [RECORDS[2], RECORDS[5], RECORDS[3]];

fn write(folder: &Folder, name: &str, bytes: impl AsRef<[u8]>) {
    fs::write(folder.file(name), bytes).unwrap();
}

fn read(folder: &Folder, name: &str) -> Vec<u8> {
    fs::read(folder.file(name)).unwrap()
}

const REFUSED: &str =
    "refused 21: two records name one cell: records 1 and 3 both name cell (0, 0, 6)";

/// Whatever reads the file, or would edit it, names the records and the cell and says what to do; no file is changed.
#[test]
fn every_command_names_the_records() {
    let folder = Folder::new("names_the_records");
    write(&folder, "m", file(8, &RECORDS));
    write(&folder, "good", file(8, &FOLDED));
    write(&folder, "edits", "put 0 0 0 1 1\n");
    let words = format!(
        "mascon: m: {REFUSED}\n  run `mascon fold m -o OUT`: the later record of a cell counts; `mascon check m` names every such record\n"
    );
    for line in [
        "open m -o n",
        "build m -o n",
        "info m",
        "draw m -o n.png",
        "draw good -o n.png --before m",
        "get m 0 0 6",
        "list m",
        "log m",
        "put m 0 0 0 1 1",
        "remove m 0 0 6",
        "undo m",
        "redo m",
        "apply m edits",
        "apply m edits --keep-going",
    ] {
        let ran = mascon(&folder, line);
        assert_eq!((ran.status, ran.err), (1, words.clone()), "{line}");
        assert_eq!(ran.out, "", "{line}");
    }
    let mut info = command(&folder, "info -");
    info.stdin(Stdio::from(fs::File::open(folder.file("m")).unwrap()));
    let ran = run(info);
    let words = format!("mascon: standard input: {REFUSED}\n  run `mascon fold - -o OUT`");
    assert!(ran.err.starts_with(&words), "{}", ran.err);
    assert_eq!(read(&folder, "m"), file(8, &RECORDS));
    assert_eq!(folder.names(), ["edits", "good", "m"]);
}

#[test]
fn check_names_every_repeated_cell() {
    let folder = Folder::new("check_names_every");
    write(&folder, "m", file(8, &RECORDS));
    let ran = mascon(&folder, "check m");
    let lines: Vec<&str> = ran.out.lines().collect();
    assert_eq!(
        lines,
        [
            "cause 21: record 3, x, byte 112: cell (0, 0, 6) again, first in record 1",
            "cause 21: record 4, x, byte 128: cell (3, 1, 2) again, first in record 0",
            "cause 21: record 5, x, byte 144: cell (3, 1, 2) again, first in record 0",
            "`mascon fold m -o OUT` keeps the last record of each of these cells",
            "and not in working form:",
            "cause 10: record 2, x, byte 96: cell (1, 1, 1) stands after a later cell",
            "cause 10: record 4, x, byte 128: cell (3, 1, 2) stands after a later cell",
        ]
    );
    assert_eq!((ran.status, &*ran.err), (1, "mascon: m: 3 faults\n"));
    let out = mascon(&folder, "check m --most 1").out;
    assert!(out.contains("record 1\n... and 2 more\n"), "{out}");
    // Neighbours are in order: nothing is left to say of the form.
    write(&folder, "m", file(8, &[RECORDS[4], RECORDS[5]]));
    let ran = mascon(&folder, "check m");
    assert_eq!((ran.status, ran.out.lines().count()), (1, 2));
}

/// Folded, the file is opened, edited, built and checked as any other.
#[test]
fn folded_then_edited() {
    let folder = Folder::new("folded_then_edited");
    write(&folder, "m", file(8, &RECORDS));
    assert_eq!(
        done(&folder, "fold m -o n"),
        "n: 3 points in working form\n\
         3 records dropped, whose cell a later record names:\n\
         record 0, cell (3, 1, 2), 1 and 1.5 kg: record 5 counts\n\
         record 1, cell (0, 0, 6), 5 and 6 kg: record 3 counts\n\
         record 4, cell (3, 1, 2), 2 and 2.5 kg: record 5 counts\n"
    );
    assert_eq!(read(&folder, "m"), file(8, &RECORDS));
    assert_eq!(read(&folder, "n"), file(8, &FOLDED));
    let as_it_was = "n: 3 points in working form, as it was\n";
    assert_eq!(done(&folder, "open n -o n"), as_it_was);
    let nothing = "nothing dropped: every record names a cell of its own\n";
    assert_eq!(
        done(&folder, "fold n -o n"),
        format!("{as_it_was}{nothing}")
    );
    done(&folder, "put n 3 1 2 9 9");
    assert!(done(&folder, "undo n").contains("holds 3000000 and 3.5 kg again"));
    assert_eq!(read(&folder, "n"), file(8, &FOLDED));
    assert!(done(&folder, "check n").contains("no fault"));
    done(&folder, "build n -o tree");
    let mut from_input = command(&folder, "fold - -o o");
    from_input.stdin(Stdio::from(fs::File::open(folder.file("m")).unwrap()));
    assert!(run(from_input).out.contains("3 records dropped"));
    assert_eq!(read(&folder, "o"), file(8, &FOLDED));
}

/// What else is left out is told as open tells it.
#[test]
fn what_else_is_left_out() {
    let folder = Folder::new("what_else_is_left_out");
    let mut odd = file(4, &[(3, 1, 2, 1.0, 1.0), (0, 1, 2, 5.0, 6.0)]);
    odd[12] = 4;
    odd.extend(record(3, 1, 2, 7, 2.0, 2.0));
    odd.extend(record(3, 1, 2, 0, 3.0, 3.0));
    odd.extend(b"notes");
    write(&folder, "m", odd);
    let out = done(&folder, "fold m -o n");
    let mut lines = out.lines();
    let first = "n: 2 points in working form; left out: 1 pad not 0, 5 bytes after the records";
    assert_eq!(lines.next(), Some(first));
    assert_eq!(lines.count(), 3);
}

/// Distinct cells in another order, with a pad, and two records of one cell that are all there is.
#[test]
fn what_changed_in_words() {
    let folder = Folder::new("what_changed");
    let shuffled = file(4, &[(3, 1, 2, 1.0, 1.0), (0, 1, 2, 5.0, 6.0)]);
    let mut padded = shuffled.clone();
    padded[70] = 1;
    let order = "; only the order of its records is another";
    for (bytes, change, dropped) in [
        (shuffled, order, "nothing"),
        (padded, "; left out: 1 pad not 0", "nothing"),
        (file(4, &[(0, 1, 2, 5.0, 6.0); 2]), "", "1 record"),
    ] {
        write(&folder, "m", &bytes);
        let out = done(&folder, "fold m -o n");
        let points = Model::fold(&bytes).unwrap().0.len();
        let first = format!("n: {points} points in working form{change}\n");
        assert!(
            out.starts_with(&format!("{first}{dropped} dropped")),
            "{out}"
        );
        if dropped == "nothing" {
            assert_eq!(done(&folder, "open m -o o").replace("o:", "n:"), first);
            assert_eq!(read(&folder, "o"), read(&folder, "n"));
        }
    }
}

#[test]
fn lists_of_dropped_records_are_bounded() {
    let folder = Folder::new("bounded_lists");
    let records: Vec<Record> = (0..31).map(|i| (1, 1, 1, i as f32, 0.25)).collect();
    write(&folder, "m", file(2, &records));
    for (line, listed, end) in [
        ("fold m -o n", 20, "... and 10 more\n"),
        ("fold m -o n --most 2", 2, "... and 28 more\n"),
        ("fold m -o n --most 0", 0, "... and 30 more\n"),
        (
            "fold m -o n --most 99",
            30,
            "record 29, cell (1, 1, 1), 29 and 0.25 kg: record 30 counts\n",
        ),
    ] {
        let out = done(&folder, line);
        assert!(out.contains("\n30 records dropped"), "{out}");
        assert_eq!(out.matches("\nrecord ").count(), listed, "{line}");
        assert!(out.ends_with(end), "{line}: {out}");
    }
    let ran = mascon(&folder, "fold m -o q --quiet");
    assert_eq!((ran.status, &*ran.out, &*ran.err), (0, "", ""));
    assert_eq!(read(&folder, "q"), file(2, &records[30..]));
    assert!(done(&folder, "help fold").contains("--most N"));
    assert!(done(&folder, "fold --help").contains("the last of them counts"));
    assert!(done(&folder, "help").contains("mascon fold IN -o OUT"));
}

/// A file `m` to be folded, a model `edited` with its journal, and a journal `kept`.
fn beside_a_journal(folder: &Folder) {
    write(folder, "m", file(8, &RECORDS));
    write(folder, "edited", file(8, &FOLDED));
    done(folder, "put edited 0 0 0 1 1");
    fs::copy(folder.file("edited.journal"), folder.file("kept")).unwrap();
}

/// Over what open spares, fold does not write either.
#[test]
fn fold_spares_what_open_spares() {
    let folder = Folder::new("fold_spares");
    beside_a_journal(&folder);
    let names = folder.names();
    let before: Vec<_> = names.iter().map(|name| read(&folder, name)).collect();
    let pending = "the name of a journal or a pending save of edited";
    for (line, status, words) in [
        ("fold m -o edited", 1, "edited has a journal of edits"),
        ("fold m -o kept", 1, "kept is a journal of edits"),
        ("fold m -o m", 1, "m: 3 records would be gone for good"),
        ("fold m -o ./m", 1, "./m: 3 records would be gone for good"),
        ("fold m -o edited.journal", 1, "a journal of edits"),
        ("fold m -o edited.pending", 1, pending),
        ("fold m -o .", 1, "not a regular file"),
        ("fold m -o none/n", 1, "none/n"),
        ("fold none -o n", 1, "none: "),
        ("fold m -o -", 2, "not standard output"),
        ("fold m", 2, "missing: -o"),
        ("fold -o n", 2, "missing: IN"),
        ("fold m n -o n", 2, "one word too many"),
        ("fold m -o n --most x", 2, "--most: `x`"),
    ] {
        fails(&folder, line, status, words);
    }
    let held = ModelFile::load(folder.file("edited")).unwrap();
    fails(&folder, "fold m -o edited --force", 1, "another run");
    drop(held);
    assert_eq!(folder.names(), names);
    assert!(names.iter().map(|name| read(&folder, name)).eq(before));
}

/// With --force over a model with a journal, over a journal and over its own file; without it over a plain model.
#[test]
fn fold_over_models() {
    let folder = Folder::new("fold_over_models");
    beside_a_journal(&folder);
    let gone = "mascon: edited: written over a model with edited.journal, which is gone\n";
    let lost = "mascon: kept: written over a journal of edits\n";
    for (line, told) in [
        ("fold m -o edited --force", gone),
        ("fold m -o kept --force", lost),
        ("fold m -o edited", ""),
        ("fold m -o m --force", ""),
    ] {
        let ran = mascon(&folder, line);
        assert_eq!((ran.status, &*ran.err), (0, told), "{line}");
        assert!(ran.out.contains("3 records dropped"), "{line}: {}", ran.out);
    }
    for name in ["edited", "kept", "m"] {
        assert_eq!(read(&folder, name), file(8, &FOLDED), "{name}");
    }
    assert_eq!(folder.names(), ["edited", "kept", "m"]);
}

/// Folding refuses what is no point file by the causes of open, and writes nothing.
#[test]
fn fold_refuses_other_faults() {
    let folder = Folder::new("fold_refuses");
    let with = |at: usize, bytes: &[u8]| {
        let mut file = file(8, &RECORDS);
        file[at..at + bytes.len()].copy_from_slice(bytes);
        file
    };
    for (bytes, number) in [
        (b"short".to_vec(), 1),
        (with(0, b"RTM1"), 2),
        (with(8, &[0]), 3),
        (with(12, &[7]), 4),
        (with(24, &f32::NAN.to_le_bytes()), 5),
        (with(64, &[8]), 6),
        (with(72, &f32::NAN.to_le_bytes()), 7),
    ] {
        write(&folder, "m", bytes);
        let refusal = Refusal::from_number(number).unwrap();
        let words = format!("mascon: m: {refusal}\n  {}\n", refusal.advice());
        fails(&folder, "fold m -o n", 1, &words);
        assert_eq!(folder.names(), ["m"]);
    }
}

/// What ModelFile answers, with a journal beside the file or without.
#[test]
fn model_files_name_the_records() {
    let folder = Folder::new("model_files");
    let path = folder.file("m");
    write(&folder, "m", file(8, &RECORDS));
    let wanted = Twice {
        cell: [0, 0, 6],
        first: 1,
        second: 3,
    };
    let words = format!(
        "{}: {REFUSED}; fold the file to keep the later one",
        path.display()
    );
    let judge = |error: ModelFileError| {
        assert_eq!([error.to_string(), format!("{error:?}")], [&*words; 2]);
        let ModelFileError::Model(at, error) = error else {
            panic!("{error}");
        };
        assert_eq!((at, error.twice), (path.clone(), Some(wanted)));
        assert_eq!(error, Refusal::CellTwice);
    };
    judge(ModelFile::load(&path).unwrap_err());
    judge(ModelFile::read(&path).unwrap().into_model().unwrap_err());
    // A journal that fits the bytes, as something else may have written it.
    let hash = |bytes: &[u8]| {
        bytes.iter().fold(0xcbf2_9ce4_8422_2325_u64, |hash, &byte| {
            (hash ^ u64::from(byte)).wrapping_mul(0x100_0000_01b3)
        })
    };
    let bytes = file(8, &RECORDS);
    let mut journal = b"MSJ1\x01\0\0\0".to_vec();
    journal.extend((bytes.len() as u64).to_le_bytes());
    journal.extend(hash(&bytes).to_le_bytes());
    journal.extend([0; 4]);
    journal.extend(hash(&journal).to_le_bytes());
    write(&folder, "m.journal", journal);
    judge(ModelFile::load(&path).unwrap_err());
    judge(ModelFile::read(&path).unwrap().into_model().unwrap_err());
    assert_eq!(read(&folder, "m"), bytes);
}
