//! The build script, compiled by itself and run in a small repository with a stand-in for `tools/staticlib`.
#![cfg(unix)]

mod common;

use common::Folder;
use std::fs;
use std::os::unix::fs::PermissionsExt;
use std::path::PathBuf;
use std::process::{Command, Output};
use std::time::{Duration, SystemTime};

/// Notes each run, takes a while, and writes the archive in two steps: one that runs at the same time would see the first.
const STATICLIB: &str = "#!/bin/sh
echo \"$0\" >> runs
archive=target/staticlib/libmascon.a
[ -e fails ] && { echo why; echo 'rt: float NOT PROVED' >&2; exit 1; }
echo half > $archive
echo 'fn float::narrow: proved' >&2
echo 'rt: float proved (8 s)' >&2
sleep 0.3
echo whole >> $archive
";

struct Repository {
    folder: Folder,
    script: PathBuf,
}

impl Repository {
    fn new(name: &str) -> Repository {
        let folder = Folder::new(name);
        for path in ["crates/one/src", "tools", "bindings/rust", "out"] {
            fs::create_dir_all(folder.file(path)).unwrap();
        }
        for path in ["crates.txt", "crates/one/src/lib.rt"] {
            fs::write(folder.file(path), "").unwrap();
        }
        fs::write(folder.file("tools/staticlib"), STATICLIB).unwrap();
        fs::set_permissions(
            folder.file("tools/staticlib"),
            fs::Permissions::from_mode(0o755),
        )
        .unwrap();
        let script = folder.file("script");
        let compiled = Command::new("rustc")
            .args(["--edition", "2021", "-o"])
            .arg(&script)
            .arg(concat!(env!("CARGO_MANIFEST_DIR"), "/build.rs"))
            .status();
        assert!(compiled.unwrap().success());
        Repository { folder, script }
    }

    fn command(&self, out: &str) -> Command {
        let folder = |name: &str| self.folder.file(name);
        let mut command = Command::new(&self.script);
        command
            .env("CARGO_CFG_TARGET_ARCH", "x86_64")
            .env("CARGO_MANIFEST_DIR", folder("bindings/rust"))
            .env("OUT_DIR", folder(out))
            .env_remove("MASCON_LIB_DIR");
        command
    }

    fn run(&self) -> Output {
        self.command("out").output().unwrap()
    }

    fn runs(&self) -> usize {
        fs::read_to_string(self.folder.file("runs")).map_or(0, |runs| runs.lines().count())
    }

    fn linked(&self, out: &str) -> String {
        fs::read_to_string(self.folder.file(out).join("libmascon.a")).unwrap()
    }
}

#[test]
fn proves_only_what_has_changed() {
    let repository = Repository::new("build_script");
    assert!(repository.run().status.success());
    assert_eq!(
        (repository.runs(), repository.linked("out")),
        (1, "half\nwhole\n".into())
    );
    let runs = fs::read_to_string(repository.folder.file("runs")).unwrap();
    assert_eq!(runs, "tools/staticlib\n");
    // The archive is newer than every source.
    assert!(repository.run().status.success());
    assert_eq!(repository.runs(), 1);
    // A source that is newer than the archive.
    let source = repository.folder.file("crates/one/src/lib.rt");
    let later = SystemTime::now() + Duration::from_secs(5);
    fs::File::options()
        .write(true)
        .open(source)
        .unwrap()
        .set_modified(later)
        .unwrap();
    assert!(repository.run().status.success());
    assert_eq!(repository.runs(), 2);
    // A refusal is told with the prover's own words.
    fs::write(repository.folder.file("fails"), "").unwrap();
    let ran = repository.run();
    let words = String::from_utf8(ran.stderr).unwrap();
    assert!(
        !ran.status.success() && words.contains("why\nrt: float NOT PROVED"),
        "{words}"
    );
}

#[test]
fn proves_once_for_builds_at_the_same_time() {
    let repository = Repository::new("builds_at_once");
    let outs = ["a", "b", "c", "d"];
    let started = outs.map(|out| {
        fs::create_dir(repository.folder.file(out)).unwrap();
        let mut command = repository.command(out);
        command.stdout(std::process::Stdio::null());
        command.spawn().unwrap()
    });
    for (mut run, out) in started.into_iter().zip(outs) {
        assert!(run.wait().unwrap().success());
        assert_eq!(repository.linked(out), "half\nwhole\n");
    }
    assert_eq!(repository.runs(), 1);
}

/// On a terminal a line for each crate is told, and no other. `script` gives the build script one.
#[test]
fn tells_a_line_a_crate() {
    let repository = Repository::new("a_line_a_crate");
    let script = repository.script.display().to_string();
    let mut command = repository.command("out");
    let mut in_terminal = Command::new("script");
    in_terminal.args(["-qec", &script, "/dev/null"]);
    for (name, value) in command.get_envs() {
        match value {
            Some(value) => in_terminal.env(name, value),
            None => in_terminal.env_remove(name),
        };
    }
    match in_terminal.output() {
        Ok(ran) => {
            let told = String::from_utf8(ran.stdout).unwrap();
            assert!(ran.status.success(), "{told}");
            assert!(told.contains("\x1b[Kfloat proved (8 s)") && !told.contains("fn float"));
        }
        // Not installed: that it is proved all the same.
        Err(_) => assert!(command.output().unwrap().status.success()),
    }
    assert_eq!(repository.runs(), 1);
}

/// A folder that is given is taken, and nothing is proved.
#[test]
fn takes_the_folder_that_is_given() {
    let repository = Repository::new("folder_given");
    let given = repository.folder.file("given");
    let run = || {
        repository
            .command("out")
            .env("MASCON_LIB_DIR", &given)
            .output()
            .unwrap()
    };
    let words = String::from_utf8(run().stderr).unwrap();
    assert!(words.contains("MASCON_LIB_DIR="), "{words}");
    fs::create_dir(&given).unwrap();
    assert!(String::from_utf8(run().stderr)
        .unwrap()
        .contains("no libmascon.a in it"));
    fs::write(given.join("libmascon.a"), "given\n").unwrap();
    assert!(run().status.success());
    assert_eq!(
        (repository.runs(), repository.linked("out")),
        (0, "given\n".into())
    );
}
