//! The steps of a save at the file system. All saves take them here, so that tests can cut a save off at each.

use super::fault::{meet, Step};
use std::fs::{self, File, OpenOptions, Permissions};
use std::io::{self, ErrorKind, Write};
use std::path::Path;

/// A file that is not there yet.
pub(crate) fn create(path: &Path) -> io::Result<File> {
    meet(Step::Create, path, || {})?;
    OpenOptions::new()
        .read(true)
        .write(true)
        .create_new(true)
        .open(path)
}

pub(crate) fn write(file: &mut File, bytes: &[u8]) -> io::Result<()> {
    meet(Step::Write, Path::new(""), || {
        file.write_all(&bytes[..bytes.len() / 2])
            .expect("half is written");
    })?;
    file.write_all(bytes)
}

pub(crate) fn set_rights(file: &File, rights: Permissions) -> io::Result<()> {
    meet(Step::Rights, Path::new(""), || {})?;
    file.set_permissions(rights)
}

pub(crate) fn sync_file(file: &File) -> io::Result<()> {
    sync(file, Step::Sync)
}

/// Tests take the step and do not wait for the disk.
fn sync(file: &File, step: Step) -> io::Result<()> {
    meet(step, Path::new(""), || {})?;
    if cfg!(test) {
        return Ok(());
    }
    file.sync_all()
}

pub(crate) fn rename(from: &Path, to: &Path) -> io::Result<()> {
    meet(Step::Rename, to, || {})?;
    fs::rename(from, to)
}

/// That nothing is there is as good.
pub(crate) fn remove(path: &Path) -> io::Result<()> {
    meet(Step::Remove, path, || {})?;
    match fs::remove_file(path) {
        Err(error) if error.kind() != ErrorKind::NotFound => Err(error),
        _ => Ok(()),
    }
}

/// Brings what was created or renamed beside a path to the disk, before what follows. Not every file system can, nor every user; the
/// files are whole either way.
pub(crate) fn sync_folder(path: &Path) -> io::Result<()> {
    let folder = path
        .parent()
        .filter(|folder| !folder.as_os_str().is_empty())
        .unwrap_or(Path::new("."));
    let synced = File::open(folder).or(Err(ErrorKind::Unsupported.into()));
    match synced.and_then(|folder| sync(&folder, Step::SyncFolder)) {
        Err(error) => match error.kind() {
            ErrorKind::Unsupported | ErrorKind::InvalidInput | ErrorKind::PermissionDenied => {
                Ok(())
            }
            _ => Err(error),
        },
        Ok(()) => Ok(()),
    }
}
