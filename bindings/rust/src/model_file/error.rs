use crate::{Departures, OpenError, Refusal};
use std::fmt;
use std::io;
use std::path::PathBuf;

/// Why a model file and its journal could not be taken up or written. The files have the names by which they were asked for.
#[non_exhaustive]
pub enum ModelFileError {
    /// The file system refused, at this file.
    File(PathBuf, io::Error),
    /// The model, or the journal of it, is refused.
    Model(PathBuf, OpenError),
    /// The model is not in working form, or has bytes after its records: an edit would drop these beyond undo.
    NotWorkingForm(PathBuf, Departures),
    /// Another run has the model open.
    InUse(PathBuf),
    /// The journal is cut off or no journal.
    BadJournal(PathBuf, &'static str),
    /// The journal belongs to another state of the model: something else has written one of the two.
    NotTogether {
        /// The model.
        model: PathBuf,
        /// Its journal.
        journal: PathBuf,
        /// The length of the model that the journal belongs to.
        length: u64,
        /// The model that the journal belongs to, where a save was cut off and has left it; the model is then not the one that this save
        /// was to replace, or is not known to be.
        pending: Option<PathBuf>,
    },
    /// The edits are saved, but a last step of the save failed: the new model stands beside its place, and is read and edited as if it
    /// stood there.
    Unfinished(PathBuf, io::Error),
    /// Something else has written the model since it was loaded. Nothing is saved.
    Changed(PathBuf),
    /// A journal, or a save that was cut off, stands beside the model (the first path) and would lose it.
    HasJournal(PathBuf, PathBuf),
}

impl fmt::Display for ModelFileError {
    fn fmt(&self, f: &mut fmt::Formatter<'_>) -> fmt::Result {
        match self {
            ModelFileError::File(path, error) => write!(f, "{}: {error}", path.display()),
            ModelFileError::Model(path, error) => write!(f, "{}: {error}", path.display()),
            ModelFileError::NotWorkingForm(path, departures) => {
                let (path, refusal) = (path.display(), Refusal::NotWorkingForm);
                write!(
                    f,
                    "{path}: {refusal}: {departures}; write the working form with `mascon open {path} -o NEW` first, and edit NEW"
                )
            }
            ModelFileError::InUse(path) => {
                write!(f, "{}: another run is editing this model", path.display())
            }
            ModelFileError::BadJournal(path, why) => write!(
                f,
                "{}: {why}; move it away to go on from the model without undo",
                path.display()
            ),
            ModelFileError::NotTogether { .. } => self.not_together(f),
            ModelFileError::Unfinished(path, error) => write!(
                f,
                "{}: the edits are saved, but a last step failed: {error}; the next edit finishes the save",
                path.display()
            ),
            ModelFileError::Changed(path) => write!(
                f,
                "{}: something else has written this file since it was loaded; nothing is saved: load it again, or save elsewhere",
                path.display()
            ),
            ModelFileError::HasJournal(path, beside) => write!(
                f,
                "{}: {} stands beside it and would lose its model: save elsewhere, edit the model with `ModelFile`, or call \
                 `save_over`, which takes the journal away",
                path.display(),
                beside.display()
            ),
        }
    }
}

impl ModelFileError {
    fn not_together(&self, f: &mut fmt::Formatter<'_>) -> fmt::Result {
        let ModelFileError::NotTogether {
            model,
            journal,
            length,
            pending,
        } = self
        else {
            return Ok(());
        };
        let (model, journal) = (model.display(), journal.display());
        write!(
            f,
            "{journal}: this journal does not belong to its model, {model}"
        )?;
        match pending {
            None => write!(
                f,
                ": something else has written one of the two; bring back the model that it belongs to ({length} bytes), or move \
                 {journal} away to go on from {model} without undo"
            ),
            Some(pending) => {
                let pending = pending.display();
                write!(
                    f,
                    ", but to {pending}, which a save that was cut off has left; {model} is not the model that this save was to \
                     replace, or is not known to be. To take the save, move {model} away and rename {pending} to {model}; to go on \
                     from {model} without undo, move {journal} and {pending} away"
                )
            }
        }
    }
}

/// In words, as they are displayed.
impl fmt::Debug for ModelFileError {
    fn fmt(&self, f: &mut fmt::Formatter<'_>) -> fmt::Result {
        fmt::Display::fmt(self, f)
    }
}

impl std::error::Error for ModelFileError {
    fn source(&self) -> Option<&(dyn std::error::Error + 'static)> {
        match self {
            ModelFileError::File(_, error) | ModelFileError::Unfinished(_, error) => Some(error),
            ModelFileError::Model(_, error) => Some(error),
            _ => None,
        }
    }
}
