//! Holds the proved library against the original Rust and writes the stored answers.

#![deny(unsafe_code)]

mod bench;
mod build;
mod costliest;
mod edit;
#[allow(unsafe_code)]
mod ffi;
mod fill;
mod inside;
mod lent;
mod meshes;
#[cfg(original)]
mod models;
mod narrow;
mod open;
mod original;
mod points;
mod register;
mod report;
mod rng;
mod rule;
mod search;
mod store;
mod treeinfo;

use report::Report;
use std::env;
use std::path::Path;
use std::process::ExitCode;

const USAGE: &str =
    "usage: oracle check [all|narrow|open|fold|build|costliest|edit|fill|inside|stored|treeinfo|original]
       oracle store narrow|open|build|edit|ray|inside|fill|cost|costliest|next FILE
       oracle verify-stored [narrow|open|build|edit|ray|inside|fill|cost|costliest|next] FILE
       oracle bench open|build|costliest|edit|inside|fill";

const CHECKS: [&str; 12] = [
    "all",
    "narrow",
    "open",
    "fold",
    "build",
    "costliest",
    "edit",
    "fill",
    "inside",
    "stored",
    "treeinfo",
    "original",
];

fn main() -> ExitCode {
    let words: Vec<String> = env::args().skip(1).collect();
    let words: Vec<&str> = words.iter().map(String::as_str).collect();
    match words[..] {
        ["check"] => check("all"),
        ["check", what] if CHECKS.contains(&what) => check(what),
        ["store", kind, file] => told(store::store(kind, Path::new(file))),
        ["verify-stored", file] => told(store::verify(stem(file), Path::new(file))),
        ["verify-stored", kind, file] => told(store::verify(kind, Path::new(file))),
        ["bench", "open"] => told(bench::open()),
        ["bench", "build"] => told(bench::build::build()),
        ["bench", "costliest"] => told(bench::costliest::costliest()),
        ["bench", "edit"] => told(bench::edit::edit()),
        ["bench", "inside"] => told(bench::inside::inside()),
        ["bench", "fill"] => told(bench::fill::fill()),
        _ => {
            eprintln!("{USAGE}");
            ExitCode::from(2)
        }
    }
}

/// A file's name without its ending: the kind of stored answers where none is given.
fn stem(file: &str) -> &str {
    let stem = Path::new(file).file_stem();
    stem.and_then(|stem| stem.to_str()).unwrap_or_default()
}

fn told(result: Result<String, String>) -> ExitCode {
    match result {
        Ok(line) => {
            println!("{line}");
            ExitCode::SUCCESS
        }
        Err(line) => {
            eprintln!("oracle: {line}");
            ExitCode::FAILURE
        }
    }
}

fn check(what: &str) -> ExitCode {
    let mut report = Report::new();
    let wanted = |name: &str| what == "all" || what == name;
    if !original::AT_HAND {
        println!(
            "the original is not at hand: what needs it is left out, stored answers are compared"
        );
    }
    if wanted("narrow") {
        narrow::check(&mut report);
    }
    if wanted("open") {
        open::check(&mut report);
    }
    if wanted("fold") {
        open::check_fold(&mut report);
    }
    if wanted("build") {
        build::check(&mut report);
    }
    if wanted("costliest") {
        costliest::check(&mut report);
    }
    if wanted("edit") {
        edit::check(&mut report);
    }
    if wanted("fill") {
        fill::check(&mut report);
    }
    if wanted("inside") {
        inside::check(&mut report);
    }
    if wanted("stored") {
        store::check(&mut report);
    }
    if wanted("treeinfo") {
        treeinfo::check(&mut report);
    }
    #[cfg(original)]
    if wanted("original") {
        models::check(&mut report);
    }
    let agreed = report.finish();
    let excused = original::AT_HAND || env::var("CI").as_deref() != Ok("true");
    if !excused {
        println!("oracle: failed, CI=true does not do without the original");
    }
    if agreed && excused {
        ExitCode::SUCCESS
    } else {
        ExitCode::FAILURE
    }
}
