//! The command line.

mod args;
mod cost;
mod edit;
mod example;
mod fill;
mod help;
mod list;
mod progress;
mod show;
mod warn;

use args::{Args, Takes, QUIET};
use mascon::{
    Held, Model, ModelFile, ModelFileError, OpenError, Point, Reading, Refusal, TreeFloat,
};
use std::ffi::OsString;
use std::fmt::Display;
use std::io::{ErrorKind, Read, Write};
use std::path::Path;
use std::sync::atomic::{AtomicBool, Ordering};

/// Whether `--quiet` was given.
static SILENT: AtomicBool = AtomicBool::new(false);

fn is_silent() -> bool {
    SILENT.load(Ordering::Relaxed)
}

/// Why a command ends: wrong usage (2), or refused or failed (1).
pub(crate) enum Failure {
    Usage(String),
    Failed(String),
}

impl Failure {
    fn usage(why: impl Into<String>) -> Failure {
        Failure::Usage(why.into())
    }

    fn failed(why: impl Display) -> Failure {
        Failure::Failed(why.to_string())
    }

    fn refused(what: impl Display, refusal: Refusal) -> Failure {
        Failure::Failed(format!("{what}: {refusal}\n  {}", refusal.advice()))
    }

    /// A point file that was refused; where two records name one cell, with these and the command that folds it.
    fn not_opened(path: &Path, error: OpenError) -> Failure {
        let OpenError { refusal, twice, .. } = error;
        let Some(twice) = twice else {
            return Failure::refused(shown(path), refusal);
        };
        let (name, given) = (shown(path), path.display());
        Failure::Failed(format!(
            "{name}: {refusal}: {twice}\n  run `mascon fold {given} -o OUT`: the later record of a cell counts; `mascon check {given}` names every such record"
        ))
    }

    /// The same of a file that was to be built; where a float of its tree is too large, with this and the points that weigh most in it.
    fn not_built(path: &Path, bytes: &[u8], error: OpenError) -> Failure {
        let Some(float) = error.too_large else {
            return Failure::not_opened(path, error);
        };
        let (name, advice) = (shown(path), error.refusal.advice());
        let heaviest = heaviest(float, bytes);
        Failure::Failed(format!("{name}: {error}\n  {heaviest}\n  {advice}"))
    }

    fn file(error: ModelFileError) -> Failure {
        match error {
            ModelFileError::Model(path, error) => Failure::not_opened(&path, error),
            other => Failure::failed(other),
        }
    }
}

/// The points of a file that weigh most in a float of its tree, in words.
fn heaviest(float: TreeFloat, bytes: &[u8]) -> String {
    let words = |point: &Point| {
        let Point { x, y, z, .. } = point;
        let mass = float.field.mass_of(point).unwrap_or_default();
        format!("({x}, {y}, {z}) with {mass:e} kg")
    };
    let points = Model::open(bytes).map(|model| float.heaviest(model.points(), 3));
    let cells: Vec<_> = points.unwrap_or_default().iter().map(words).collect();
    format!("its heaviest cells: {}", cells.join(", "))
}

fn is_stdin(path: &Path) -> bool {
    path.as_os_str() == "-"
}

/// A file's name in messages.
fn shown(path: &Path) -> String {
    if is_stdin(path) {
        return "standard input".into();
    }
    path.display().to_string()
}

/// To standard error. That it cannot be written stops nothing.
fn tell(words: impl Display) {
    let _ = writeln!(std::io::stderr().lock(), "mascon: {words}");
}

/// What was asked for, to standard output. A reader that has gone away is no failure.
fn print(text: impl AsRef<str>) -> Result<(), Failure> {
    print_part(text).map(|_| ())
}

/// A part of it; whether there is still a reader.
fn print_part(text: impl AsRef<str>) -> Result<bool, Failure> {
    let mut out = std::io::stdout().lock();
    let written = out.write_all(text.as_ref().as_bytes());
    match written.and_then(|()| out.flush()) {
        Ok(()) => Ok(true),
        Err(error) if error.kind() == ErrorKind::BrokenPipe => Ok(false),
        Err(error) => Err(Failure::failed(format!("standard output: {error}"))),
    }
}

/// What was done, to standard output: it is done, whether or not that can be written. Not with `--quiet`.
fn say(text: impl AsRef<str>) {
    if !is_silent() {
        let _ = print(text);
    }
}

/// How many faults or dropped records are listed, unless another number is asked for.
const MOST: usize = 20;

/// How many of a list are not shown.
fn and_more(text: &mut String, more: usize) {
    if more > 0 {
        text.push_str(&format!("... and {more} more\n"));
    }
}

/// A file, or standard input for `-`.
fn read(path: &Path) -> Result<Vec<u8>, Failure> {
    let mut bytes = Vec::new();
    let read = if is_stdin(path) {
        std::io::stdin()
            .lock()
            .read_to_end(&mut bytes)
            .map(|_| bytes)
    } else {
        std::fs::read(path)
    };
    read.map_err(|error| Failure::failed(format!("{}: {error}", shown(path))))
}

/// The same, as text; what is not UTF-8, as in a comment in Latin-1, becomes a mark.
fn read_text(path: &Path) -> Result<String, Failure> {
    let bytes = read(path)?;
    match bytes.iter().position(|&byte| byte == 0) {
        Some(at) => {
            let why = format!("{}: byte {at} is 0, this is not text", shown(path));
            Err(Failure::failed(why))
        }
        None => Ok(String::from_utf8_lossy(&bytes).into_owned()),
    }
}

/// A model file for a command that only reads it, with its journal: a save that was cut off is finished in memory, and told.
fn reading(path: &Path) -> Result<Reading, Failure> {
    if is_stdin(path) {
        return Ok(Reading::alone(read(path)?));
    }
    let reading = ModelFile::read(path).map_err(Failure::file)?;
    if reading.unfinished {
        tell(format!(
            "{}: a save was cut off, or is going on: this is the model that it saves, and the next edit finishes it",
            shown(path)
        ));
    }
    Ok(reading)
}

/// That a journal does not belong to its model, of which the command makes what it can.
fn tell_apart(reading: &Reading) {
    if let Some(error) = reading.journal_error() {
        tell(format!("{error}. The model is taken as it stands"));
    }
}

/// The bytes of a model file as it is now, or standard input. A journal that does not belong to it is told.
fn read_model(path: &Path) -> Result<Vec<u8>, Failure> {
    let reading = reading(path)?;
    tell_apart(&reading);
    Ok(reading.bytes)
}

/// What stands at a path and belongs to a model.
fn held(path: &Path) -> Result<Option<Held>, Failure> {
    mascon::held_at(path).map_err(|error| Failure::failed(format!("{}: {error}", shown(path))))
}

/// Writes a file. What it loses of a model, by --force, is told.
fn write(path: &Path, bytes: &[u8]) -> Result<(), Failure> {
    let lost = held(path)?.filter(|_| path.exists());
    mascon::write_file(path, bytes)
        .map_err(|error| Failure::failed(format!("{}: {error}", shown(path))))?;
    if let Some(lost) = lost {
        tell(format!("{}: written over {lost}", shown(path)));
        if let Some(journal) = mascon::beside_model(path) {
            tell(format!("{}: its model is gone", shown(&journal)));
        }
    }
    Ok(())
}

/// Where a model is written: over nothing that the command reads, named with what that is, over no model with a journal of edits, and
/// over no journal.
fn output<'a>(args: &'a Args, inputs: &[(&Path, &str)]) -> Result<&'a Path, Failure> {
    let missing = || Failure::usage("missing: -o");
    let out = args.option_path("-o").ok_or_else(missing)?;
    if is_stdin(out) {
        return Err(Failure::usage("-o: a file is written, not standard output"));
    }
    for (input, what) in inputs {
        if one_file(out, input) {
            let why = format!("-o: {} would be written over {what}", shown(out));
            return Err(Failure::usage(why));
        }
    }
    if args.flag("--force") {
        return Ok(out);
    }
    if let Some(journal) = mascon::beside_model(out) {
        return Err(Failure::failed(format!(
            "{} has a journal of edits, {}: write elsewhere, move the journal away, or add --force",
            shown(out),
            shown(&journal)
        )));
    }
    match held(out)? {
        None | Some(Held::PointFile) => Ok(out),
        Some(held) => Err(would_lose(out, held)),
    }
}

/// Whether two paths lead to one file.
fn one_file(path: &Path, other: &Path) -> bool {
    let found = |path: &Path| std::fs::canonicalize(path).ok();
    found(path).is_some_and(|path| found(other) == Some(path))
}

/// Where a tree or a picture is written: over no point file either.
fn output_apart<'a>(args: &'a Args, inputs: &[(&Path, &str)]) -> Result<&'a Path, Failure> {
    let out = output(args, inputs)?;
    match held(out)?.filter(|_| !args.flag("--force")) {
        None => Ok(out),
        Some(held) => Err(would_lose(out, held)),
    }
}

fn would_lose(out: &Path, held: Held) -> Failure {
    Failure::failed(format!(
        "{} is {held}: write elsewhere, or add --force",
        shown(out)
    ))
}

/// Writes a model anew; the journal of the one that stood there goes, and that is told.
fn write_model(out: &Path, model: &Model) -> Result<(), Failure> {
    let journal = mascon::beside_model(out);
    let lost = held(out)?.filter(|held| *held != Held::PointFile && out.exists());
    ModelFile::replace(out, model).map_err(Failure::file)?;
    if let Some(journal) = journal {
        let (out, journal) = (shown(out), shown(&journal));
        tell(format!(
            "{out}: written over a model with {journal}, which is gone"
        ));
    }
    if let Some(lost) = lost {
        tell(format!("{}: written over {lost}", shown(out)));
    }
    Ok(())
}

const FILL: &[&str] = &[
    "-o",
    "--grid",
    "--target",
    "--density",
    "--elliptic",
    "--scale",
    "--widen",
];
const AT: &[&str] = &["--at X Y Z"];
const BOXES: &[&str] = &["--cells X0 Y0 Z0 X1 Y1 Z1", "--metres X0 Y0 Z0 X1 Y1 Z1"];

fn takes(command: &str) -> Option<Takes> {
    let (words, options, flags): (&[&str], &[&str], &[&str]) = match command {
        "fill" => (&["MESH", "KERNELS"], FILL, &["--force"]),
        "open" => (&["IN"], &["-o"], &["--force"]),
        "fold" => (&["IN"], &["-o", "--most"], &["--force"]),
        "put" => (&["MODEL", "X", "Y", "Z", "CAUCHY", "ELLIPTIC"], AT, &[]),
        "remove" => (&["MODEL", "X", "Y", "Z"], AT, &[]),
        "undo" | "redo" => (&["MODEL"], &["--steps"], &["--all"]),
        "apply" => (&["MODEL", "EDITS"], &[], &["--keep-going"]),
        "log" => (&["MODEL"], &[], &[]),
        "build" => (&["IN"], &["-o"], &["--force"]),
        "costliest" => (&["GRID"], &["-o"], &["--force"]),
        "info" => (&["FILE"], &[], &[]),
        "check" => (&["FILE"], &["--most"], &[]),
        "get" => (&["MODEL", "X", "Y", "Z"], AT, &[]),
        "list" => (&["MODEL"], BOXES, &[]),
        "draw" => (
            &["FILE"],
            &["-o", "--before", "--mass", "--title", "--slice"],
            &["--force"],
        ),
        "example" => (&["DIR"], &["--rings"], &["--force"]),
        _ => return None,
    };
    Some(Takes {
        words,
        options,
        flags,
    })
}

/// Edits are of a file, with its journal beside it.
const OF_A_FILE: [&str; 6] = ["put", "remove", "undo", "redo", "apply", "log"];

fn command(name: &str, args: &Args) -> Result<(), Failure> {
    SILENT.store(args.flag(QUIET), Ordering::Relaxed);
    if OF_A_FILE.contains(&name) && is_stdin(args.path(0)) {
        return Err(Failure::usage(
            "MODEL is a file with its journal beside it, standard input (-) has none",
        ));
    }
    match name {
        "fill" => fill::fill(args),
        "open" => edit::open(args),
        "fold" => edit::fold(args),
        "put" | "remove" => edit::edit(name, args),
        "undo" | "redo" => edit::step(name, args),
        "apply" => edit::apply(args),
        "log" => edit::log(args),
        "build" => edit::build(args),
        "costliest" => cost::costliest(args),
        "info" => show::info(args),
        "check" => show::check(args),
        "get" => list::get(args),
        "list" => list::list(args),
        "draw" => show::draw(args),
        _ => example::example(args),
    }
}

fn help(about: &[OsString]) -> Result<(), Failure> {
    match about {
        [] => print(help::ALL),
        [name] if name == "help" => print(help::HELP),
        [name] => match name.to_str().and_then(help::of) {
            Some(text) => print(text),
            None => Err(Failure::usage(format!("no command `{}`", name.display()))),
        },
        _ => Err(Failure::usage("help takes one command")),
    }
}

/// Runs a command; 0 done, 1 refused or failed, 2 wrong usage.
pub(crate) fn run(words: &[OsString]) -> u8 {
    let asks = |word: &OsString| word == "--help" || word == "-h";
    let Some((first, rest)) = words.split_first() else {
        return ended(Err(Failure::usage("which command?")), "mascon", help::ALL);
    };
    let name = first.to_string_lossy();
    let (Some(takes), Some(text)) = (takes(&name), help::of(&name)) else {
        let done = match &*name {
            "help" | "--help" | "-h" => help(rest),
            "--version" | "-V" => print(concat!("mascon ", env!("CARGO_PKG_VERSION"), "\n")),
            _ => Err(Failure::usage(format!("no command `{name}`"))),
        };
        return ended(done, "mascon", help::ALL);
    };
    let done = if rest.iter().take_while(|word| *word != "--").any(asks) {
        print(text)
    } else {
        Args::parse(rest, &takes).and_then(|args| command(&name, &args))
    };
    ended(done, &format!("mascon {name}"), text)
}

/// Says why a command failed; its exit status.
fn ended(done: Result<(), Failure>, program: &str, help: &str) -> u8 {
    let (words, status) = match done {
        Ok(()) => return 0,
        Err(Failure::Failed(why)) => (format!("mascon: {why}\n"), 1),
        Err(Failure::Usage(why)) => (format!("{program}: {why}\n\n{help}"), 2),
    };
    let _ = std::io::stderr().lock().write_all(words.as_bytes());
    status
}
