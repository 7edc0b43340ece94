//! Finds the proved library. `MASCON_LIB_DIR` is the folder with `libmascon.a`, else `../target/staticlib`, made by `tools/staticlib` if
//! it is not there.

use std::env;
use std::path::{Path, PathBuf};
use std::process::Command;

fn main() {
    println!("cargo:rerun-if-changed=build.rs");
    println!("cargo:rustc-check-cfg=cfg(original)");
    if env::var_os("DEP_COPIES_AT_HAND").is_some() {
        println!("cargo:rustc-cfg=original");
    }
    let root = PathBuf::from(env::var_os("CARGO_MANIFEST_DIR").expect("set by cargo"));
    library(&root);
}

fn library(root: &Path) {
    println!("cargo:rerun-if-env-changed=MASCON_LIB_DIR");
    let given = env::var_os("MASCON_LIB_DIR").map(PathBuf::from);
    let folder = given.clone().unwrap_or(root.join("../target/staticlib"));
    let archive = folder.join("libmascon.a");
    if !archive.is_file() {
        assert!(
            given.is_none(),
            "MASCON_LIB_DIR: no libmascon.a in {}",
            folder.display()
        );
        prove(&root.join(".."));
        assert!(
            archive.is_file(),
            "tools/staticlib wrote no {}",
            archive.display()
        );
    }
    println!("cargo:rerun-if-changed={}", archive.display());
    println!("cargo:rustc-link-search=native={}", folder.display());
    println!("cargo:rustc-link-lib=static=mascon");
}

fn prove(repository: &Path) {
    let run = Command::new("tools/staticlib")
        .current_dir(repository)
        .output()
        .unwrap_or_else(|error| panic!("tools/staticlib: {error}"));
    assert!(
        run.status.success(),
        "tools/staticlib: {}\n{}{}",
        run.status,
        String::from_utf8_lossy(&run.stdout),
        String::from_utf8_lossy(&run.stderr)
    );
}
