//! Finds libmascon.a: in the folder that MASCON_LIB_DIR names, else in target/staticlib of the repository, which
//! `tools/staticlib` proves and writes. It is run only where the archive is missing or older than a source, by one build at a time.
//! What is linked is a copy of this build's own, so that no other build writes it meanwhile.

use std::fs::File;
use std::io::{BufRead, BufReader, Read, Write};
use std::path::{Path, PathBuf};
use std::process::{Command, Stdio};
use std::time::SystemTime;
use std::{env, fs, io, thread};

const ARCHIVE: &str = "libmascon.a";

fn main() {
    println!("cargo:rerun-if-changed=build.rs");
    println!("cargo:rerun-if-env-changed=MASCON_LIB_DIR");
    let arch = env::var("CARGO_CFG_TARGET_ARCH").unwrap_or_default();
    assert_eq!(
        arch, "x86_64",
        "{ARCHIVE} is made for x86-64, the target is {arch}"
    );
    let out = PathBuf::from(env::var_os("OUT_DIR").expect("set by cargo"));
    match env::var_os("MASCON_LIB_DIR") {
        Some(folder) => copy(&given(PathBuf::from(folder)), &out),
        None => proved(&out),
    }
    println!("cargo:rustc-link-search=native={}", out.display());
    println!("cargo:rustc-link-lib=static=mascon");
}

fn copy(archive: &Path, out: &Path) {
    fs::copy(archive, out.join(ARCHIVE))
        .unwrap_or_else(|error| panic!("{}: {error}", archive.display()));
}

fn given(folder: PathBuf) -> PathBuf {
    let folder = fs::canonicalize(&folder)
        .unwrap_or_else(|error| panic!("MASCON_LIB_DIR={}: {error}", folder.display()));
    let archive = folder.join(ARCHIVE);
    assert!(
        archive.is_file(),
        "MASCON_LIB_DIR={}: no {ARCHIVE} in it",
        folder.display()
    );
    println!("cargo:rerun-if-changed={}", archive.display());
    archive
}

/// Takes the repository's archive, proved anew where a source has changed since.
fn proved(out: &Path) {
    let start = PathBuf::from(env::var_os("CARGO_MANIFEST_DIR").expect("set by cargo"));
    let root = start
        .ancestors()
        .find(|folder| folder.join("crates.txt").is_file())
        .unwrap_or_else(|| {
            panic!(
                "no crates.txt in {} or above it: set MASCON_LIB_DIR to the folder of {ARCHIVE}",
                start.display()
            )
        });
    let sources = [root.join("crates"), root.join("crates.txt")];
    for source in &sources {
        println!("cargo:rerun-if-changed={}", source.display());
    }
    let folder = root.join("target").join("staticlib");
    let archive = folder.join(ARCHIVE);
    // Held until the copy is made.
    let lock = fs::create_dir_all(&folder).and_then(|()| File::create(folder.join("lock")));
    let _ = lock.as_ref().map(File::lock);
    let changed = sources.iter().filter_map(|source| latest(source)).max();
    if written(&archive).is_none_or(|made| changed.is_some_and(|changed| changed >= made)) {
        run(root, archive.is_file());
    }
    assert!(archive.is_file(), "tools/staticlib wrote no {ARCHIVE}");
    copy(&archive, out);
}

fn written(path: &Path) -> Option<SystemTime> {
    fs::metadata(path).and_then(|data| data.modified()).ok()
}

/// When a file or folder, or anything in it, was written last.
fn latest(path: &Path) -> Option<SystemTime> {
    // What the prover keeps is no source.
    if path.ends_with("out") {
        return None;
    }
    let inside = fs::read_dir(path).into_iter().flatten().flatten();
    let inside = inside.filter_map(|entry| latest(&entry.path())).max();
    written(path).max(inside)
}

/// Runs `tools/staticlib` in the repository's root. It proves again only what has changed.
fn run(root: &Path, there: bool) {
    let run = Command::new("tools/staticlib")
        .current_dir(root)
        .stdout(Stdio::piped())
        .stderr(Stdio::piped())
        .spawn()
        .and_then(|mut run| {
            let errors = run.stderr.take();
            let errors = thread::spawn(|| errors.map(told));
            let lines = run.stdout.take().map(told).unwrap_or_default();
            let errors = errors.join().ok().flatten();
            Ok((run.wait()?, lines + &errors.unwrap_or_default()))
        });
    match run {
        Ok((status, _)) if status.success() => {}
        // The shell's status for a command that is not there.
        Ok((status, _)) if there && status.code() == Some(127) => {
            println!("cargo:warning=rt is not there; {ARCHIVE} is taken as it stands");
        }
        Ok((status, lines)) => panic!("tools/staticlib: {status}\n{lines}"),
        Err(error) if there => {
            println!("cargo:warning=tools/staticlib: {error}; {ARCHIVE} is taken as it stands");
        }
        Err(error) => panic!(
            "tools/staticlib: {error}: install the Rattle toolchain, or set MASCON_LIB_DIR to the folder of {ARCHIVE}"
        ),
    }
}

/// All lines of a stream of the prover's; a line for each crate goes to the terminal as well, where there is one: cargo keeps what a
/// build script says.
fn told(stream: impl Read) -> String {
    let mut terminal = fs::OpenOptions::new().write(true).open("/dev/tty").ok();
    let mut lines = String::new();
    for line in BufReader::new(stream)
        .split(b'\n')
        .map_while(io::Result::ok)
    {
        let line = String::from_utf8_lossy(&line);
        if let (Some(words), Some(terminal)) = (line.strip_prefix("rt: "), &mut terminal) {
            let _ = writeln!(terminal, "\r\x1b[K{words}");
        }
        lines.push_str(&line);
        lines.push('\n');
    }
    lines
}
