//! A save cut off at each of its steps, and one that fails at each.

use super::fault::{with, Fault, Ran, Step};
use super::write_file;
use crate::{held_at, journal_path, shapes, Held, Model, ModelFile, ModelFileError, Refusal};
use std::fs;
use std::path::{Path, PathBuf};

/// A folder of a test's own, removed at its end.
struct Folder(PathBuf);

impl Folder {
    fn new(name: &str) -> Folder {
        let name = format!("mascon-{name}-{}", std::process::id());
        let path = std::env::temp_dir().join(name);
        let _ = fs::remove_dir_all(&path);
        fs::create_dir_all(&path).unwrap();
        Folder(path)
    }

    fn names(&self) -> Vec<String> {
        let name = |entry: std::io::Result<fs::DirEntry>| entry.unwrap().file_name();
        let names = fs::read_dir(&self.0).unwrap().map(name);
        let mut names: Vec<_> = names.map(|name| name.into_string().unwrap()).collect();
        names.sort();
        names
    }

    fn clear(&self) {
        for name in self.names() {
            fs::remove_file(self.0.join(name)).unwrap();
        }
    }
}

impl Drop for Folder {
    fn drop(&mut self) {
        let _ = fs::remove_dir_all(&self.0);
    }
}

/// What a model file is to a user: the model, what can be undone and what can be redone.
#[derive(Clone, Debug, PartialEq)]
struct State(Vec<u8>, Vec<u32>, Vec<u32>);

fn state(model: &Model) -> State {
    State(
        model.as_bytes().to_vec(),
        model.journal().to_vec(),
        model.redo_words().to_vec(),
    )
}

fn start() -> Model {
    let mut model = Model::open(&shapes::empty_file(5, [-2.0; 3], [3.0; 3])).unwrap();
    model.put(4, 4, 4, 7.0, 8.0).unwrap();
    model.forget_entries();
    model
}

/// What stands there before.
#[derive(Clone, Copy, Debug)]
enum Before {
    Model,
    ModelAndJournal,
    /// The journal of a save that was cut off between its renames, the model that it replaces, and the one that it saves.
    CutOff,
}

fn prepare(folder: &Folder, before: Before) -> PathBuf {
    folder.clear();
    let path = folder.0.join("m");
    start().save(&path).unwrap();
    if !matches!(before, Before::Model) {
        let mut file = ModelFile::load(&path).unwrap();
        file.model.put(1, 2, 3, 1.0, 2.0).unwrap();
        file.model.remove(4, 4, 4).unwrap();
        file.model.undo().unwrap();
        file.save().unwrap();
    }
    if matches!(before, Before::CutOff) {
        let ran = with(12, Fault::Kill, || put_and_save(&path, 4));
        assert_eq!(ran.taken.last(), Some(&(Step::Rename, "m".into())));
        assert_eq!(folder.names(), ["m", "m.journal", "m.pending"]);
    }
    path
}

fn put_and_save(path: &Path, x: u32) -> Result<(), ModelFileError> {
    let mut file = ModelFile::load(path)?;
    file.model.put(x, 0, 0, x as f32, 1.0).unwrap();
    file.save()
}

fn undo_and_save(path: &Path) -> Result<(), ModelFileError> {
    let mut file = ModelFile::load(path)?;
    file.model.undo().unwrap();
    file.save()
}

/// Another model, written anew.
fn other() -> Model {
    let mut model = Model::open(&shapes::empty_file(6, [0.0; 3], [1.0; 3])).unwrap();
    model.put(5, 5, 5, 1.0, 1.0).unwrap();
    model.forget_entries();
    model
}

/// The state that is read; loading gives the same, and all of it can be undone.
fn whole(path: &Path, what: &str) -> State {
    let reading = ModelFile::read(path).unwrap_or_else(|error| panic!("{what}: {error}"));
    let model = reading
        .into_model()
        .unwrap_or_else(|error| panic!("{what}: {error}"));
    let read = state(&model);
    let mut file = ModelFile::load(path).unwrap_or_else(|error| panic!("{what}: {error}"));
    assert_eq!(state(&file.model), read, "{what}");
    while file.model.entries() > 0 {
        file.model.undo().unwrap();
    }
    let first = file.model.as_bytes();
    assert!(
        first == start().as_bytes() || first == other().as_bytes(),
        "{what}: undone to a beginning"
    );
    read
}

/// An edit and a save after whatever has happened leave the pair alone.
fn goes_on(folder: &Folder, path: &Path, what: &str) {
    put_and_save(path, 2).unwrap_or_else(|error| panic!("{what}: {error}"));
    assert_eq!(folder.names(), ["m", "m.journal"], "{what}");
    assert!(ModelFile::load(path).unwrap().model.get(2, 0, 0).is_some());
}

type Save = fn(&Path) -> Result<(), ModelFileError>;

/// The saves, each with what stands there before.
const SAVES: [(&str, Before, Save); 9] = [
    ("first save", Before::Model, |path| put_and_save(path, 1)),
    ("save", Before::ModelAndJournal, |path| {
        put_and_save(path, 1)
    }),
    ("undo", Before::ModelAndJournal, undo_and_save),
    ("replace", Before::ModelAndJournal, |path| {
        ModelFile::replace(path, &other())
    }),
    ("save after a cut", Before::CutOff, |path| {
        put_and_save(path, 1)
    }),
    ("replace after a cut", Before::CutOff, |path| {
        ModelFile::replace(path, &other())
    }),
    ("replace alone", Before::Model, |path| {
        other().save_over(path)
    }),
    ("save alone", Before::Model, |path| other().save(path)),
    ("write", Before::Model, |path| {
        write_file(path, other().as_bytes())
            .map_err(|error| ModelFileError::File(path.to_path_buf(), error))
    }),
];

fn after(folder: &Folder, before: Before, save: Save) -> [State; 2] {
    let path = prepare(folder, before);
    let old = whole(&path, "before");
    save(&path).unwrap();
    let new = whole(&path, "after");
    assert_ne!(old, new);
    [old, new]
}

#[test]
fn killed_at_each_step() {
    let folder = Folder::new("killed");
    for (name, before, save) in SAVES {
        let states = after(&folder, before, save);
        let (mut seen, mut at) = ([0, 0], 0);
        loop {
            let path = prepare(&folder, before);
            let ran = with(at, Fault::Kill, || save(&path));
            let what = format!("{name}, killed at {at}: {:?}", ran.taken.last());
            let state = whole(&path, &what);
            let which = states.iter().position(|known| *known == state);
            seen[which.unwrap_or_else(|| panic!("{what}: neither old nor new"))] += 1;
            goes_on(&folder, &path, &what);
            if ran.answer.is_some() {
                assert_eq!(state, states[1], "{what}");
                break;
            }
            at += 1;
        }
        assert!(
            at >= 6 && seen[0] > 3 && seen[1] > 0,
            "{name}: {at}, {seen:?}"
        );
    }
}

/// A second kill, in the save that follows or in the rename by which it finishes the first.
#[test]
fn killed_twice() {
    let folder = Folder::new("killed_twice");
    for (name, before, save) in SAVES {
        let states = after(&folder, before, save);
        let mut first = 0;
        loop {
            let mut second = 0;
            let done = loop {
                let path = prepare(&folder, before);
                let once = with(first, Fault::Kill, || save(&path));
                let middle = ModelFile::read(&path).unwrap().into_model().unwrap();
                assert!(states.contains(&state(&middle)));
                let mut further = middle.clone();
                further.put(3, 0, 0, 3.0, 1.0).unwrap();
                let twice = with(second, Fault::Kill, || put_and_save(&path, 3));
                let what = format!("{name}, killed at {first} and {second}");
                let found = whole(&path, &what);
                let known = [state(&middle), state(&further)];
                assert!(known.contains(&found), "{what}: a third state");
                goes_on(&folder, &path, &what);
                if twice.answer.is_some() {
                    assert_eq!(found, known[1], "{what}");
                    break once.answer.is_some();
                }
                second += 1;
            };
            assert!(second >= 10, "{name}: {second}");
            if done {
                break;
            }
            first += 1;
        }
    }
}

const ENOSPC: i32 = 28;
const EACCES: i32 = 13;
const EIO: i32 = 5;

/// What a save that met a failure answered, held against what stands there.
fn judged(what: &str, path: &Path, ran: &Ran<Result<(), ModelFileError>>, states: &[State; 2]) {
    let state = whole(path, what);
    match ran.answer.as_ref().unwrap() {
        Ok(()) => assert_eq!(state, states[1], "{what}"),
        Err(error @ ModelFileError::Unfinished(..)) => {
            assert_eq!(state, states[1], "{what}");
            let words = "the next edit finishes the save";
            assert!(error.to_string().contains(words), "{what}: {error}");
        }
        Err(error) if error.to_string().contains(": written, but") => {
            assert_eq!(state, states[1], "{what}");
        }
        Err(_) => assert_eq!(state, states[0], "{what}"),
    }
}

#[test]
fn failing_at_each_step() {
    let folder = Folder::new("failing");
    for (name, before, save) in SAVES {
        let states = after(&folder, before, save);
        let names: &[&str] = match before {
            Before::ModelAndJournal => &["m", "m.journal"],
            _ => &["m"],
        };
        let faults = [ENOSPC, EACCES, EIO]
            .into_iter()
            .flat_map(|error| [Fault::Once(error), Fault::FromOn(error)]);
        for fault in faults {
            let mut at = 0;
            loop {
                let path = prepare(&folder, before);
                let ran = with(at, fault, || save(&path));
                if ran.taken.len() <= at {
                    break;
                }
                let what = format!("{name}, {fault:?} at {at}: {:?}", ran.taken[at]);
                let refused = ran.answer.as_ref().unwrap().as_ref().err();
                // Before anything was brought to its place, nothing is left beside it.
                if refused.is_some_and(|error| matches!(error, ModelFileError::File(..)))
                    && matches!(fault, Fault::Once(_))
                    && ran.taken[at].0 != Step::Remove
                    && !matches!(before, Before::CutOff)
                {
                    assert_eq!(folder.names(), names, "{what}");
                }
                if refused.is_none() {
                    let may_pass = [Step::SyncFolder, Step::Remove];
                    assert!(may_pass.contains(&ran.taken[at].0), "{what}: not told");
                }
                judged(&what, &path, &ran, &states);
                goes_on(&folder, &path, &what);
                at += 1;
            }
            assert!(at >= 6, "{name}: {at}");
        }
    }
}

/// The same model in memory is saved once the file system takes it again.
#[test]
fn saved_after_a_failure() {
    let folder = Folder::new("after_a_failure");
    let mut at = 0;
    loop {
        let path = prepare(&folder, Before::ModelAndJournal);
        let mut file = ModelFile::load(&path).unwrap();
        file.model.put(1, 0, 0, 1.0, 1.0).unwrap();
        let ran = with(at, Fault::Once(ENOSPC), || file.save());
        file.model.put(3, 3, 3, 3.0, 3.0).unwrap();
        file.save().unwrap();
        let wanted = state(&file.model);
        drop(file);
        assert_eq!(whole(&path, "saved again"), wanted);
        assert_eq!(folder.names(), ["m", "m.journal"]);
        if ran.taken.len() <= at {
            break;
        }
        at += 1;
    }
    assert!(at > 10, "{at}");
}

/// A folder in which no file can be created or renamed.
#[test]
fn a_folder_that_is_read_only() {
    let folder = Folder::new("read_only");
    let path = prepare(&folder, Before::ModelAndJournal);
    let old = whole(&path, "before");
    let ran = with(0, Fault::FromOn(EACCES), || put_and_save(&path, 1));
    let error = ran.answer.unwrap().unwrap_err().to_string();
    assert!(error.contains("m.pending: Permission denied"), "{error}");
    assert_eq!(whole(&path, "after"), old);
    assert_eq!(folder.names(), ["m", "m.journal"]);
    // What was cut off before stays so, and can be read.
    let path = prepare(&folder, Before::CutOff);
    let ran = with(0, Fault::FromOn(EACCES), || put_and_save(&path, 1));
    let error = ran.answer.unwrap().unwrap_err().to_string();
    let words = "an earlier save was cut off and cannot be finished: Permission denied";
    assert!(error.contains(words), "{error}");
    assert!(ModelFile::read(&path).unwrap().unfinished);
}

/// Both files are whole and on the disk before the first rename, and each rename is on the disk before the next step.
#[test]
fn the_steps_of_a_save() {
    let folder = Folder::new("steps");
    let path = prepare(&folder, Before::ModelAndJournal);
    let ran = with(usize::MAX, Fault::Kill, || put_and_save(&path, 1));
    ran.answer.unwrap().unwrap();
    let taken: Vec<_> = ran
        .taken
        .iter()
        .map(|(step, name)| (*step, &**name))
        .collect();
    use Step::{Create, Remove, Rename, Rights, Sync, SyncFolder, Write};
    assert_eq!(
        taken,
        [
            (Create, "m.pending"),
            (Write, ""),
            (Rights, ""),
            (Sync, ""),
            (Remove, "m.journal.pending"),
            (Create, "m.journal.pending"),
            (Write, ""),
            (Rights, ""),
            (Sync, ""),
            (SyncFolder, ""),
            (Rename, "m.journal"),
            (SyncFolder, ""),
            (Rename, "m"),
            (SyncFolder, ""),
        ]
    );
}

/// A journal that stands where its model does not: written over, the new model has none.
#[test]
fn a_journal_without_its_model() {
    let folder = Folder::new("no_model");
    let mut at = 0;
    loop {
        let path = prepare(&folder, Before::ModelAndJournal);
        fs::remove_file(&path).unwrap();
        let refused = ModelFile::load(&path).unwrap_err();
        assert!(refused.to_string().contains("No such file"), "{refused}");
        let ran = with(at, Fault::Kill, || ModelFile::replace(&path, &other()));
        let made = ran.answer.is_some();
        match ModelFile::load(&path) {
            Ok(file) => assert_eq!(state(&file.model), state(&other())),
            Err(error) => assert!(!made, "{error}"),
        }
        ModelFile::replace(&path, &other()).unwrap();
        assert_eq!(folder.names(), ["m"]);
        if made {
            break;
        }
        at += 1;
    }
}

/// Writers of one file at once: each write is whole, and nothing is left beside.
#[test]
fn one_file_written_at_once() {
    let folder = Folder::new("at_once");
    let path = folder.0.join("f");
    let text = |writer: u8| vec![b'a' + writer; 1000 + 5000 * usize::from(writer)];
    fs::write(&path, text(0)).unwrap();
    std::thread::scope(|scope| {
        for writer in 0..4 {
            let path = &path;
            scope.spawn(move || {
                for _ in 0..100 {
                    write_file(path, &text(writer)).unwrap();
                    let read = fs::read(path).unwrap();
                    assert_eq!(read, text(read[0] - b'a'));
                }
            });
        }
    });
    write_file(&path, b"").unwrap();
    assert_eq!(folder.names(), ["f"]);
}

/// What an output must not be written over unasked, and what it may.
#[test]
fn what_is_spared() {
    let folder = Folder::new("spared");
    let path = prepare(&folder, Before::ModelAndJournal);
    let at = |name: &str| folder.0.join(name);
    let held = |name: &str| held_at(at(name)).unwrap();
    assert_eq!(held("m"), Some(Held::PointFile));
    assert_eq!(held("m.journal"), Some(Held::Journal));
    for name in ["m.pending", "m.journal.pending"] {
        assert_eq!(held(name), Some(Held::NameBeside(path.clone())), "{name}");
    }
    for name in ["n", "n.journal", "m.rtm1", "pending", ".journal"] {
        assert_eq!(held(name), None, "{name}");
    }
    fs::write(at("short"), b"RYM").unwrap();
    assert_eq!(held("short"), None);
    fs::copy(at("m.journal"), at("kept")).unwrap();
    assert_eq!(held("kept"), Some(Held::Journal));
    let words = |name: &str, points| super::spare(&at(name), points).unwrap_err().to_string();
    assert!(words("kept", true).contains("a journal of edits"));
    assert!(words("m", false).contains("a point file"));
    assert!(super::spare(&path, true).is_ok() && super::spare(&at("n"), false).is_ok());
    // The library's own saves.
    let error = other().save(at("kept")).unwrap_err().to_string();
    assert!(error.contains("a journal of edits"), "{error}");
    let error = other().save(&path).unwrap_err();
    assert!(matches!(&error, ModelFileError::HasJournal(model, journal)
        if *model == path && *journal == journal_path(&path)));
    assert!(error.to_string().contains("save_over"), "{error}");
    let locked = ModelFile::load(&path).unwrap();
    let error = other().save_over(&path).unwrap_err();
    assert!(matches!(error, ModelFileError::InUse(_)), "{error}");
    drop(locked);
    other().save_over(&path).unwrap();
    assert!(!at("m.journal").exists());
    fs::write(at("m.pending"), b"").unwrap();
    assert!(matches!(
        other().save(&path),
        Err(ModelFileError::HasJournal(..))
    ));
}

/// Of what can be redone, what does not fit its cells is refused.
#[test]
fn a_redo_list_that_does_not_fit() {
    let mut model = start();
    model.put(1, 1, 1, 1.0, 1.0).unwrap();
    model.remove(4, 4, 4).unwrap();
    model.undo().unwrap();
    model.undo().unwrap();
    let redo = model.redo_words().to_vec();
    let resumed = |redo: &[u32]| Model::resume_with(model.as_bytes(), model.journal(), redo);
    assert_eq!(state(&resumed(&redo).unwrap()), state(&model));
    assert_eq!(Model::resume(model.as_bytes(), &[0]).unwrap().redoable(), 0);
    let changed = |at: usize, word: u32| {
        let mut redo = redo.clone();
        redo[at] = word;
        resumed(&redo).err()
    };
    // A remove of an empty cell, a cell outside, kinds 0 and 1, a mass that is no number, words missing.
    for (at, word) in [
        (0, 3 << 30),
        (3, 2 << 30 | 125),
        (3, 4),
        (3, 1 << 30),
        (4, f32::NAN.to_bits()),
    ] {
        assert_eq!(changed(at, word), Some(Refusal::BadLastEntry), "{at}");
    }
}
