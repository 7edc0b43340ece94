//! What the tests share.
#![allow(dead_code, unused_imports)]

mod rng;

pub use rng::Rng;
use std::path::{Path, PathBuf};
use std::process::Command;

/// A folder of a test's own, removed at its end.
pub struct Folder(PathBuf);

impl Folder {
    pub fn new(name: &str) -> Folder {
        let path = Path::new(env!("CARGO_TARGET_TMPDIR")).join(name);
        let _ = std::fs::remove_dir_all(&path);
        std::fs::create_dir_all(&path).unwrap();
        Folder(path)
    }

    pub fn file(&self, name: &str) -> PathBuf {
        self.0.join(name)
    }

    /// The names in it, sorted.
    pub fn names(&self) -> Vec<String> {
        let entries = std::fs::read_dir(&self.0).unwrap();
        let mut names: Vec<_> = entries
            .map(|entry| entry.unwrap().file_name().into_string().unwrap())
            .collect();
        names.sort();
        names
    }
}

impl Drop for Folder {
    fn drop(&mut self) {
        let _ = std::fs::remove_dir_all(&self.0);
    }
}

/// What a run of the program gave; its status is -1 where it was killed.
pub struct Ran {
    pub status: i32,
    pub out: String,
    pub err: String,
}

/// The program with the words of a line, in a folder.
pub fn command(folder: &Folder, line: &str) -> Command {
    let mut command = Command::new(env!("CARGO_BIN_EXE_mascon"));
    command
        .args(line.split_whitespace())
        .current_dir(folder.file(""));
    command
}

pub fn run(mut command: Command) -> Ran {
    let run = command.output().unwrap();
    Ran {
        status: run.status.code().unwrap_or(-1),
        out: String::from_utf8(run.stdout).unwrap(),
        err: String::from_utf8(run.stderr).unwrap(),
    }
}

pub fn mascon(folder: &Folder, line: &str) -> Ran {
    run(command(folder, line))
}

/// What a command that succeeds prints.
pub fn done(folder: &Folder, line: &str) -> String {
    let ran = mascon(folder, line);
    assert_eq!(ran.status, 0, "{line}: {}", ran.err);
    ran.out
}

/// A command that fails with this status and says these words.
pub fn fails(folder: &Folder, line: &str, status: i32, words: &str) {
    let ran = mascon(folder, line);
    assert_eq!(ran.status, status, "{line}: {}{}", ran.out, ran.err);
    assert!(ran.err.contains(words), "{line}: {}", ran.err);
}

/// A record of a point file.
pub fn record(x: u16, y: u16, z: u16, pad: u16, cauchy: f32, elliptic: f32) -> Vec<u8> {
    let mut bytes: Vec<u8> = [x, y, z, pad]
        .into_iter()
        .flat_map(u16::to_le_bytes)
        .collect();
    bytes.extend(cauchy.to_le_bytes());
    bytes.extend(elliptic.to_le_bytes());
    bytes
}

/// A point file with these records.
pub fn file(grid: u32, records: &[(u16, u16, u16, f32, f32)]) -> Vec<u8> {
    let mut file = mascon::shapes::empty_file(grid, [-8.0, -6.0, -4.0], [8.0, 6.0, 4.0]);
    file[12..16].copy_from_slice(&(records.len() as u32).to_le_bytes());
    for &(x, y, z, cauchy, elliptic) in records {
        file.extend(record(x, y, z, 0, cauchy, elliptic));
    }
    file
}
