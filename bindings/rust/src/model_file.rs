use crate::save::{
    beside, clear_beside, create_locked, disk, replaceable, same_file, spare, target, write_whole,
};
use crate::{Departures, Model, OpenError, Refusal};
use std::fs::{self, File, TryLockError};
use std::io::{self, Read};
use std::path::{Path, PathBuf};
use std::time::{Duration, SystemTime};

mod error;
mod journal;

pub use error::ModelFileError;
use journal::{Journal, Print};

const JOURNAL: &str = ".journal";
const NEW_JOURNAL: &str = ".journal.pending";
const NEW_MODEL: &str = ".pending";

/// How long another run is given to finish what it does before one looks again, in milliseconds.
const WAITS: [u64; 5] = if cfg!(test) {
    [0; 5]
} else {
    [1, 4, 16, 64, 256]
};

/// The journal file of a model file.
pub fn journal_path(model: impl AsRef<Path>) -> PathBuf {
    beside(&target(model.as_ref()), JOURNAL)
}

/// What stands beside a model file and would lose it, were another written there: its journal, or what a save that was cut off has left.
pub fn beside_model(model: impl AsRef<Path>) -> Option<PathBuf> {
    let model = target(model.as_ref());
    [JOURNAL, NEW_MODEL, NEW_JOURNAL]
        .map(|ending| beside(&model, ending))
        .into_iter()
        .find(|path| fs::symlink_metadata(path).is_ok())
}

/// Where a model stands: as it was asked for, for words, and from the root, so that it stays where the run's folder changes.
#[derive(Clone, Debug)]
struct Place {
    given: PathBuf,
    real: PathBuf,
}

fn not_found(error: &io::Error) -> bool {
    error.kind() == io::ErrorKind::NotFound
}

impl Place {
    fn of(path: &Path) -> Result<Place, ModelFileError> {
        match std::path::absolute(target(path)) {
            Ok(real) => Ok(Place {
                given: path.to_path_buf(),
                real,
            }),
            Err(error) => Err(ModelFileError::File(path.to_path_buf(), error)),
        }
    }

    /// The model, or a file beside it.
    fn at(&self, ending: &str) -> PathBuf {
        match ending {
            "" => self.real.clone(),
            _ => beside(&self.real, ending),
        }
    }

    /// The same, as the user would name it.
    fn shown(&self, ending: &str) -> PathBuf {
        match ending {
            "" => self.given.clone(),
            _ => beside(&target(&self.given), ending),
        }
    }

    fn failed(&self, ending: &str) -> impl Fn(io::Error) -> ModelFileError {
        let path = self.shown(ending);
        move |error| ModelFileError::File(path.clone(), error)
    }

    fn unfinished(&self, error: io::Error) -> ModelFileError {
        ModelFileError::Unfinished(self.given.clone(), error)
    }

    /// Of a save before this one, of which nothing is saved then.
    fn not_finished(&self, error: io::Error) -> ModelFileError {
        let why = format!(
            "an earlier save was cut off and cannot be finished: {error}; nothing more is saved"
        );
        self.failed("")(io::Error::new(error.kind(), why))
    }

    fn in_use(&self) -> ModelFileError {
        ModelFileError::InUse(self.given.clone())
    }

    /// Opens a regular file, none where nothing is there.
    fn open(&self, ending: &str) -> Result<Option<File>, ModelFileError> {
        let path = self.at(ending);
        if fs::metadata(&path).is_ok_and(|there| !there.is_file()) {
            return Err(self.failed(ending)(io::Error::other("not a regular file")));
        }
        match File::open(&path) {
            Ok(file) => Ok(Some(file)),
            Err(error) if not_found(&error) => Ok(None),
            Err(error) => Err(self.failed(ending)(error)),
        }
    }

    /// Locks a file for this run. Whether it still stands there once that is done.
    fn lock(&self, ending: &str, file: &File) -> Result<bool, ModelFileError> {
        let mut locked = file.try_lock();
        // A run that ends, or a process that another thread is about to start, may hold it for a moment.
        for wait in WAITS {
            if !matches!(locked, Err(TryLockError::WouldBlock)) {
                break;
            }
            std::thread::sleep(Duration::from_millis(wait));
            locked = file.try_lock();
        }
        match locked {
            Ok(()) => Ok(same_file(file, &self.at(ending)).unwrap_or(false)),
            Err(TryLockError::WouldBlock) => Err(self.in_use()),
            Err(TryLockError::Error(error)) => Err(self.failed(ending)(error)),
        }
    }

    /// Opens and locks the model, the one that stands there once the lock is held.
    fn open_locked(&self) -> Result<Option<File>, ModelFileError> {
        loop {
            match self.open("")? {
                Some(file) if !self.lock("", &file)? => {}
                file => return Ok(file),
            }
        }
    }

    fn read(&self, ending: &str, file: &mut File) -> Result<Vec<u8>, ModelFileError> {
        let mut bytes = Vec::new();
        match file.read_to_end(&mut bytes) {
            Ok(_) => Ok(bytes),
            Err(error) => Err(self.failed(ending)(error)),
        }
    }

    fn read_journal(&self, file: Option<File>) -> Result<Option<Journal>, ModelFileError> {
        let Some(mut file) = file else {
            return Ok(None);
        };
        Journal::of(&self.read(JOURNAL, &mut file)?)
            .map(Some)
            .map_err(|why| ModelFileError::BadJournal(self.shown(JOURNAL), why))
    }

    /// Whether another file stands at the model's place than the one that was opened there.
    fn moved(&self, model: Option<&File>) -> bool {
        match model {
            Some(file) => !same_file(file, &self.real).unwrap_or(false),
            None => self.real.exists(),
        }
    }

    /// Reads the model and what stands beside it, and holds them against each other; `locked`, for this run alone.
    fn find(&self, locked: bool) -> Result<Found, ModelFileError> {
        let mut model = match locked {
            true => self.open_locked()?,
            false => self.open("")?,
        };
        // All are opened before one is read: what was opened stays as it is while another run saves.
        let (journal, pending) = (self.open(JOURNAL), self.open(NEW_MODEL));
        let moved = self.moved(model.as_ref());
        let bytes = model.as_mut().map(|file| self.read("", file)).transpose()?;
        let mut found = Found {
            moved,
            journal: journal.and_then(|file| self.read_journal(file)),
            model,
            bytes,
            pending: None,
        };
        if let Ok(Some(journal)) = &found.journal {
            let print = found.bytes.as_deref().map_or(Print::ABSENT, Print::of);
            if journal.model != print {
                let (replaced, wanted) = (journal.replaced == Some(print), journal.model);
                let new = self.saved(pending?, wanted)?;
                found = self.apart(found, new, replaced, wanted);
            }
        }
        Ok(found)
    }

    /// What a save has written for the model that a journal belongs to, if it is there.
    fn saved(
        &self,
        file: Option<File>,
        wanted: Print,
    ) -> Result<Option<(File, Vec<u8>)>, ModelFileError> {
        let Some(mut file) = file else {
            return Ok(None);
        };
        let bytes = self.read(NEW_MODEL, &mut file)?;
        Ok((Print::of(&bytes) == wanted).then_some((file, bytes)))
    }

    /// Of a journal that belongs to another model: a save that was cut off, where it says that it replaces this one.
    fn apart(
        &self,
        found: Found,
        new: Option<(File, Vec<u8>)>,
        replaced: bool,
        wanted: Print,
    ) -> Found {
        match new {
            Some((file, bytes)) if replaced => Found {
                bytes: Some(bytes),
                pending: Some(file),
                ..found
            },
            new if new.is_some() || found.bytes.is_some() => Found {
                journal: Err(ModelFileError::NotTogether {
                    model: self.given.clone(),
                    journal: self.shown(JOURNAL),
                    length: wanted.length,
                    pending: new.map(|_| self.shown(NEW_MODEL)),
                }),
                ..found
            },
            _ => found,
        }
    }

    /// The model of these bytes with its journal.
    fn take_up(&self, bytes: &[u8], journal: Option<&Journal>) -> Result<Model, ModelFileError> {
        let model = match journal {
            None => Model::open(bytes),
            Some(journal) => Model::resume_with(bytes, &journal.words, &journal.redo)
                .map_err(|refusal| OpenError::of(refusal, bytes)),
        };
        model.map_err(|error| match error.refusal {
            Refusal::BadJournal | Refusal::BadLastEntry => {
                ModelFileError::Model(self.shown(JOURNAL), error)
            }
            _ => ModelFileError::Model(self.given.clone(), error),
        })
    }

    /// The same, to be edited: a model in working form.
    fn take_up_whole(
        &self,
        bytes: &[u8],
        journal: Option<&Journal>,
    ) -> Result<Model, ModelFileError> {
        match self.take_up(bytes, journal) {
            Err(ModelFileError::Model(_, error)) if error == Refusal::NotWorkingForm => {}
            Ok(model) if model.as_bytes() != bytes => {}
            taken_up => return taken_up,
        }
        let given = self.given.clone();
        Err(ModelFileError::NotWorkingForm(given, Departures::of(bytes)))
    }

    /// Writes a model and its journal beside, whole, and puts the journal in its place: from then on the save is made. Answers the
    /// model's file, locked, which is still to be renamed.
    fn commit(&self, model: &[u8], journal: &[u8]) -> Result<File, ModelFileError> {
        clear_beside(&self.real).map_err(self.failed(""))?;
        let new = create_locked(&self.at(NEW_MODEL)).map_err(self.failed(NEW_MODEL))?;
        let Some(mut file) = new else {
            // Not to be read, or another run's.
            self.open(NEW_MODEL)?;
            return Err(self.in_use());
        };
        let written = write_whole(&mut file, model, &self.real)
            .map_err(self.failed(NEW_MODEL))
            .and_then(|()| self.commit_journal(journal));
        match written {
            Ok(()) => Ok(file),
            Err(error) => {
                let _ = disk::remove(&self.at(NEW_JOURNAL));
                let _ = disk::remove(&self.at(NEW_MODEL));
                Err(error)
            }
        }
    }

    fn commit_journal(&self, journal: &[u8]) -> Result<(), ModelFileError> {
        let new = self.at(NEW_JOURNAL);
        // Of a save that was cut off.
        disk::remove(&new)
            .and_then(|()| disk::create(&new))
            .and_then(|mut file| write_whole(&mut file, journal, &self.real))
            .map_err(self.failed(NEW_JOURNAL))?;
        disk::sync_folder(&self.real)
            .and_then(|()| disk::rename(&new, &self.at(JOURNAL)))
            .map_err(self.failed(JOURNAL))
    }

    /// Brings the model of a save that is made to its place.
    fn rename_model(&self) -> io::Result<()> {
        disk::sync_folder(&self.real)?;
        disk::rename(&self.at(NEW_MODEL), &self.real)
    }
}

/// A model and what stands beside it.
struct Found {
    model: Option<File>,
    /// The model's; where a save was cut off, what it has written.
    bytes: Option<Vec<u8>>,
    /// The journal of these bytes.
    journal: Result<Option<Journal>, ModelFileError>,
    /// The file of a save that was cut off, to be renamed.
    pending: Option<File>,
    /// Whether another stood at the model's place when the journal had been opened.
    moved: bool,
}

impl Found {
    /// Whether the model stands there with its own journal, or with none.
    fn is_settled(&self) -> bool {
        let apart = match &self.journal {
            Ok(None) => self.moved,
            Ok(Some(_)) => self.pending.is_some(),
            Err(error) => matches!(error, ModelFileError::NotTogether { .. }),
        };
        !apart
    }
}

fn missing(place: &Place) -> ModelFileError {
    let error = fs::metadata(&place.real).err();
    place.failed("")(error.unwrap_or_else(|| io::ErrorKind::NotFound.into()))
}

/// A model file with its journal as they stand, for those who only read; see [`ModelFile::read`].
#[derive(Debug)]
pub struct Reading {
    /// The point file, not judged. Where a save was cut off, or is going on, this is what it saves.
    pub bytes: Vec<u8>,
    /// Whether a save was cut off, or is going on: `bytes` do not stand under the model's name yet. The next edit finishes it.
    pub unfinished: bool,
    place: Place,
    journal: Result<Option<Journal>, ModelFileError>,
}

impl Reading {
    /// Bytes that have no journal, such as those of standard input.
    pub fn alone(bytes: Vec<u8>) -> Reading {
        let (given, real) = Default::default();
        Reading {
            bytes,
            unfinished: false,
            place: Place { given, real },
            journal: Ok(None),
        }
    }

    /// Why the journal beside the file cannot be taken up with it, none where it can or there is no journal.
    pub fn journal_error(&self) -> Option<&ModelFileError> {
        self.journal.as_ref().err()
    }

    /// Whether there is a journal.
    pub fn has_journal(&self) -> bool {
        !matches!(self.journal, Ok(None))
    }

    /// The model with its journal, or with an empty one where there is none.
    ///
    /// # Errors
    /// Where the model is refused, or its journal is damaged or belongs to another model.
    pub fn into_model(self) -> Result<Model, ModelFileError> {
        self.place.take_up(&self.bytes, self.journal?.as_ref())
    }
}

/// A model file under edit with its journal beside it (`MODEL.journal`), so that undo and redo work across runs.
///
/// The journal file names the model that it belongs to, and the one that its save replaced, by length and hash. [`save`](ModelFile::save)
/// writes both files beside (`.pending`) and whole, then renames the journal, from when on the save is made, then the model. A run that is
/// cut off before the first rename leaves the old pair. One that is cut off between the two leaves the new journal, the model that it
/// replaces and the new model's `.pending` file: the next [`load`](ModelFile::load) finishes that rename, and [`read`](ModelFile::read)
/// reads as if it had been. Any other pair that does not belong together is refused. The model file is locked while it is loaded.
///
/// ```
/// use mascon::{shapes, Model, ModelFile};
///
/// # let folder = std::env::temp_dir().join(format!("mascon-model-file-{}", std::process::id()));
/// # std::fs::create_dir_all(&folder)?;
/// let path = folder.join("body.rym1");
/// Model::open(&shapes::empty_file(8, [-4.0; 3], [4.0; 3]))?.save(&path)?;
///
/// let mut model_file = ModelFile::load(&path)?;
/// model_file.model.put(1, 2, 3, 5.0e6, 4.0e6)?;
/// model_file.save()?;
/// drop(model_file);
///
/// let mut model_file = ModelFile::load(&path)?;
/// model_file.model.undo()?;
/// assert!(model_file.model.is_empty());
/// model_file.save()?;
/// drop(model_file);
///
/// let mut model = ModelFile::read(&path)?.into_model()?;
/// assert!(model.redo()?.is_some());
/// assert_eq!(model.len(), 1);
/// # std::fs::remove_dir_all(&folder)?;
/// # Ok::<(), Box<dyn std::error::Error>>(())
/// ```
#[derive(Debug)]
pub struct ModelFile {
    /// The model, to be edited.
    pub model: Model,
    /// Whether a save that was cut off has been finished on loading.
    pub finished_write: bool,
    place: Place,
    /// The file that stands at the model's place, locked; none before a save that was cut off is finished.
    file: Option<File>,
    /// What is known of it since it was read or written.
    stamp: Option<(u64, SystemTime)>,
    print: Print,
    /// The file of a save that is made, still to be renamed.
    pending: Option<File>,
}

fn stamp(file: &File) -> Option<(u64, SystemTime)> {
    let there = file.metadata().ok()?;
    Some((there.len(), there.modified().ok()?))
}

impl ModelFile {
    /// Takes up a model file and the journal beside it, or an empty journal where there is none.
    ///
    /// # Errors
    /// See [`ModelFileError`]; nothing is changed then.
    pub fn load(path: impl AsRef<Path>) -> Result<ModelFile, ModelFileError> {
        let place = Place::of(path.as_ref())?;
        let found = place.find(true)?;
        let journal = found.journal?;
        let bytes = found.bytes.ok_or_else(|| missing(&place))?;
        let model = place.take_up_whole(&bytes, journal.as_ref())?;
        if let Some(file) = &found.pending {
            if !place.lock(NEW_MODEL, file)? {
                return Err(place.in_use());
            }
        }
        let mut model_file = ModelFile {
            model,
            finished_write: found.pending.is_some(),
            stamp: found.model.as_ref().and_then(stamp),
            file: found.model,
            print: journal.map_or_else(|| Print::of(&bytes), |journal| journal.model),
            pending: found.pending,
            place,
        };
        model_file.finish_earlier()?;
        Ok(model_file)
    }

    /// Reads a model file and its journal as they stand. Nothing is locked or changed: a save that was cut off is finished in memory.
    ///
    /// # Errors
    /// Those of the file system at the model.
    pub fn read(path: impl AsRef<Path>) -> Result<Reading, ModelFileError> {
        let place = Place::of(path.as_ref())?;
        if fs::metadata(path.as_ref()).is_ok_and(|there| !there.is_file()) {
            // A pipe, which is read once and has no journal.
            let bytes = fs::read(path.as_ref()).map_err(place.failed(""))?;
            return Ok(Reading {
                place,
                ..Reading::alone(bytes)
            });
        }
        let mut found = place.find(false)?;
        // Another run may be between its renames just now.
        for wait in WAITS {
            if found.is_settled() {
                break;
            }
            std::thread::sleep(Duration::from_millis(wait));
            if cfg!(not(unix)) || place.moved(found.model.as_ref()) {
                found = place.find(false)?;
            }
        }
        Ok(Reading {
            bytes: found.bytes.ok_or_else(|| missing(&place))?,
            unfinished: found.pending.is_some(),
            place,
            journal: found.journal,
        })
    }

    /// Writes the model and its journal.
    ///
    /// # Errors
    /// Those of the file system, and where something else has written the model since: both files are then as they were. Or
    /// [`ModelFileError::Unfinished`]: the edits are saved, and the next save or load finishes it.
    pub fn save(&mut self) -> Result<(), ModelFileError> {
        self.finish_earlier()?;
        let place = &self.place;
        replaceable(&place.real).map_err(place.failed(""))?;
        let same = |file: &File| {
            same_file(file, &place.real).unwrap_or(false) && stamp(file) == self.stamp
        };
        if !self.file.as_ref().is_some_and(same) {
            return Err(ModelFileError::Changed(place.given.clone()));
        }
        let print = Print::of(self.model.as_bytes());
        let journal = Journal::bytes(
            self.print,
            print,
            self.model.journal(),
            self.model.redo_words(),
        );
        self.pending = Some(place.commit(self.model.as_bytes(), &journal)?);
        self.print = print;
        self.finish()
    }

    /// Finishes a save before this one.
    fn finish_earlier(&mut self) -> Result<(), ModelFileError> {
        self.finish().map_err(|error| match error {
            ModelFileError::Unfinished(_, error) => self.place.not_finished(error),
            other => other,
        })
    }

    /// Brings the model of a save that is made to its place.
    fn finish(&mut self) -> Result<(), ModelFileError> {
        let Some(file) = self.pending.take() else {
            return Ok(());
        };
        let renamed = self.place.rename_model();
        if let Err(error) = renamed {
            self.pending = Some(file);
            return Err(self.place.unfinished(error));
        }
        self.stamp = stamp(&file);
        self.file = Some(file);
        disk::sync_folder(&self.place.real).map_err(|error| self.place.unfinished(error))
    }

    /// Writes a model anew, over the file and the journal that stood there.
    ///
    /// # Errors
    /// Those of the file system, and where another run is editing the model that stands there.
    pub fn replace(path: impl AsRef<Path>, model: &Model) -> Result<(), ModelFileError> {
        let place = Place::of(path.as_ref())?;
        replaceable(&place.real).map_err(place.failed(""))?;
        let found = place.find(true)?;
        if beside_model(&place.real).is_none() {
            return crate::write_file(&place.real, model.as_bytes()).map_err(place.failed(""));
        }
        // The old pair stands whole until the new model is there with an empty journal, which goes.
        if found.pending.is_some() {
            place
                .rename_model()
                .map_err(|error| place.not_finished(error))?;
        }
        let old = found.bytes.as_deref().map_or(Print::ABSENT, Print::of);
        let bytes = model.as_bytes();
        let _new = place.commit(bytes, &Journal::bytes(old, Print::of(bytes), &[0], &[]))?;
        place
            .rename_model()
            .and_then(|()| disk::sync_folder(&place.real))
            .and_then(|()| disk::remove(&place.at(JOURNAL)))
            .and_then(|()| disk::sync_folder(&place.real))
            .map_err(|error| place.unfinished(error))
    }

    /// The model file, as it was asked for.
    pub fn path(&self) -> &Path {
        &self.place.given
    }
}

/// Writes a model where it loses no journal.
pub(crate) fn save_alone(path: &Path, model: &Model) -> Result<(), ModelFileError> {
    let place = Place::of(path)?;
    spare(&place.real, true).map_err(place.failed(""))?;
    let _lock = place.open_locked()?;
    match beside_model(path) {
        Some(beside) => Err(ModelFileError::HasJournal(place.given, beside)),
        None => crate::write_file(&place.real, model.as_bytes()).map_err(place.failed("")),
    }
}
