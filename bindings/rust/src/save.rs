use crate::points::POINTS_WORD;
use std::fmt;
use std::fs::{self, File, TryLockError};
use std::io::{self, Read};
use std::path::{Path, PathBuf};

pub(crate) mod disk;
pub(crate) mod fault;
#[cfg(test)]
mod tests;

/// Word 0 of a journal file: MSJ1.
pub(crate) const JOURNAL_WORD: u32 = 0x314a_534d;

/// A path with an ending added to its name.
pub(crate) fn beside(path: &Path, ending: &str) -> PathBuf {
    let mut name = path.file_name().unwrap_or_default().to_os_string();
    name.push(ending);
    path.with_file_name(name)
}

/// What a path leads to: a link is followed, perhaps through others and to a file that is not there yet, so that the file behind it is
/// replaced and not the link. Any other path stays as it was given.
pub(crate) fn target(path: &Path) -> PathBuf {
    let mut path = path.to_path_buf();
    for _ in 0..40 {
        let Ok(next) = fs::read_link(&path) else {
            break;
        };
        path = path.parent().unwrap_or(Path::new("")).join(next);
    }
    path
}

/// What is to be replaced is nothing yet, or a regular file that may be written: no folder, device or pipe.
pub(crate) fn replaceable(path: &Path) -> io::Result<()> {
    let refused = |kind, why: &str| Err(io::Error::new(kind, why));
    match fs::metadata(path) {
        Ok(old) if !old.is_file() => refused(io::ErrorKind::InvalidInput, "not a regular file"),
        Ok(old) if old.permissions().readonly() => {
            refused(io::ErrorKind::PermissionDenied, "the file is read-only")
        }
        Err(error) if error.kind() != io::ErrorKind::NotFound => Err(error),
        _ if path.file_name().is_none() => {
            refused(io::ErrorKind::InvalidInput, "not the name of a file")
        }
        _ => Ok(()),
    }
}

/// What stands at a path and belongs to a model; see [`held_at`].
#[derive(Clone, Debug, PartialEq, Eq)]
#[non_exhaustive]
pub enum Held {
    /// A point file (it begins with RYM1).
    PointFile,
    /// A journal of edits (it begins with MSJ1).
    Journal,
    /// The name that the journal or the pending save of this model has, whether or not it is there.
    NameBeside(PathBuf),
}

impl fmt::Display for Held {
    fn fmt(&self, f: &mut fmt::Formatter<'_>) -> fmt::Result {
        match self {
            Held::PointFile => write!(f, "a point file"),
            Held::Journal => write!(f, "a journal of edits"),
            Held::NameBeside(model) => write!(
                f,
                "the name of a journal or a pending save of {}",
                model.display()
            ),
        }
    }
}

/// A regular file's word 0.
fn first_word(path: &Path) -> io::Result<Option<u32>> {
    match fs::metadata(path) {
        Ok(there) if there.is_file() => {}
        _ => return Ok(None),
    }
    let mut word = [0; 4];
    match File::open(path)?.read_exact(&mut word) {
        Ok(()) => Ok(Some(u32::from_le_bytes(word))),
        Err(error) if error.kind() == io::ErrorKind::UnexpectedEof => Ok(None),
        Err(error) => Err(error),
    }
}

/// The model whose journal or pending save would have this name, if it is there.
fn named_after(path: &Path) -> Option<PathBuf> {
    let ends = |path: &Path, ending: &str| path.extension().is_some_and(|last| last == ending);
    let mut names = Vec::new();
    if ends(path, "pending") {
        names.push(path.with_extension(""));
    }
    let journal = names.first().map_or(path, PathBuf::as_path);
    if ends(journal, "journal") {
        names.push(journal.with_extension(""));
    }
    names
        .into_iter()
        .find(|model| matches!(first_word(model), Ok(Some(POINTS_WORD))))
}

/// Whether something that belongs to a model stands at a path, so that another file would destroy it, or has its name there.
///
/// # Errors
/// Those of the file system.
pub fn held_at(path: impl AsRef<Path>) -> io::Result<Option<Held>> {
    let path = target(path.as_ref());
    let word = first_word(&path)?;
    Ok(match (word, named_after(&path)) {
        (Some(JOURNAL_WORD), _) => Some(Held::Journal),
        (_, Some(model)) => Some(Held::NameBeside(model)),
        (Some(POINTS_WORD), None) => Some(Held::PointFile),
        _ => None,
    })
}

/// Refuses a path where something stands that belongs to a model; a point file, too, unless one may be written over.
pub(crate) fn spare(path: &Path, over_points: bool) -> io::Result<()> {
    match held_at(path)? {
        None => Ok(()),
        Some(Held::PointFile) if over_points => Ok(()),
        Some(held) => Err(io::Error::new(
            io::ErrorKind::AlreadyExists,
            format!("this is {held}: write elsewhere, or move it away first"),
        )),
    }
}

#[cfg(unix)]
pub(crate) fn same_file(file: &File, path: &Path) -> io::Result<bool> {
    use std::os::unix::fs::MetadataExt;
    let (a, b) = (file.metadata()?, fs::metadata(path)?);
    Ok((a.dev(), a.ino()) == (b.dev(), b.ino()))
}

#[cfg(not(unix))]
pub(crate) fn same_file(_: &File, _: &Path) -> io::Result<bool> {
    Ok(true)
}

/// Makes a file with these bytes, whole and on the disk, with the rights of `like` where that is there.
pub(crate) fn write_whole(file: &mut File, bytes: &[u8], like: &Path) -> io::Result<()> {
    disk::write(file, bytes)?;
    if let Ok(old) = fs::metadata(like) {
        disk::set_rights(file, old.permissions())?;
    }
    disk::sync_file(file)
}

/// Removes what a run that was killed has left at a path. Whether the path is free then: another run may be writing there.
pub(crate) fn clear(path: &Path) -> io::Result<bool> {
    match fs::symlink_metadata(path) {
        Err(error) if error.kind() == io::ErrorKind::NotFound => return Ok(true),
        Err(error) => return Err(error),
        Ok(there) if there.is_file() => {
            let Ok(old) = File::open(path) else {
                return Ok(false);
            };
            if old.try_lock().is_err() || !same_file(&old, path).unwrap_or(false) {
                return Ok(false);
            }
            disk::remove(path)?;
        }
        Ok(_) => disk::remove(path)?,
    }
    Ok(true)
}

/// A new file at a path, locked, over what a run that was killed has left there; none where another run is writing there.
pub(crate) fn create_locked(path: &Path) -> io::Result<Option<File>> {
    if !clear(path)? {
        return Ok(None);
    }
    let file = match disk::create(path) {
        Err(error) if error.kind() == io::ErrorKind::AlreadyExists => return Ok(None),
        created => created?,
    };
    // Where nothing can be locked, its being new has to do.
    let locked = !matches!(file.try_lock(), Err(TryLockError::WouldBlock));
    Ok((locked && same_file(&file, path).unwrap_or(false)).then_some(file))
}

fn new_beside(path: &Path, number: usize) -> PathBuf {
    beside(path, &format!(".mascon-new-{number}"))
}

/// Removes what a [`write_file`] that was killed has left beside a path.
pub(crate) fn clear_beside(path: &Path) -> io::Result<()> {
    let mut number = 0;
    while fs::symlink_metadata(new_beside(path, number)).is_ok() {
        clear(&new_beside(path, number))?;
        number += 1;
    }
    Ok(())
}

/// Writes a file beside `path` and renames it: `path` has the old bytes or the new ones, never a part.
///
/// On failure `path` is as it was, and nothing is left beside it, unless the error says that it is written; a run that is killed while it
/// writes may leave `PATH.mascon-new-0`, which the next write of `path` takes away. A link is followed, and the file keeps its rights.
///
/// # Errors
/// Those of the file system; where `path` is a folder, a device, a pipe or a read-only file.
pub fn write_file(path: impl AsRef<Path>, bytes: &[u8]) -> io::Result<()> {
    let path = &target(path.as_ref());
    replaceable(path)?;
    let (mut file, new) = create_beside(path)?;
    let done = write_whole(&mut file, bytes, path).and_then(|()| disk::rename(&new, path));
    if done.is_err() {
        let _ = disk::remove(&new);
    }
    done?;
    disk::sync_folder(path).map_err(|error| {
        let why = format!("written, but perhaps not yet on the disk: {error}");
        io::Error::new(error.kind(), why)
    })
}

/// A new file beside `path`, under a name that no other run has.
fn create_beside(path: &Path) -> io::Result<(File, PathBuf)> {
    for number in 0..100 {
        let new = new_beside(path, number);
        match create_locked(&new) {
            Ok(Some(file)) => return Ok((file, new)),
            Ok(None) => {}
            // What another user's run has left there.
            Err(_) if fs::symlink_metadata(&new).is_ok() => {}
            Err(error) => return Err(error),
        }
    }
    Err(io::Error::other("other runs are writing this file"))
}
