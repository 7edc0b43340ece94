//! The commands open, fold, put, remove, undo, redo, apply, log and build.

use super::args::Args;
use super::list::cell_at;
use super::progress::Progress;
use super::warn::counted;
use super::{
    and_more, one_file, output, output_apart, print, read_model, read_text, reading, say, shown,
    tell, write, write_model, Failure, MOST,
};
use mascon::text::{parse_edits, Edit};
use mascon::{Departures, Dropped, Entry, Model, ModelFile, Point, Tree};
use std::fmt::Write as _;
use std::path::Path;

pub(crate) fn open(args: &Args) -> Result<(), Failure> {
    let path = args.path(0);
    let out = output(args, &[])?;
    let bytes = read_model(path)?;
    let model = Model::open(&bytes).map_err(|error| Failure::not_opened(path, error))?;
    write_model(out, &model)?;
    say(in_working_form(out, &model, &bytes));
    Ok(())
}

/// What was written of a file.
fn in_working_form(out: &Path, model: &Model, bytes: &[u8]) -> String {
    let departures = Departures::of(bytes);
    let change = if !departures.left_out().is_empty() {
        format!("; left out: {}", departures.left_out())
    } else if model.as_bytes() == bytes {
        ", as it was".into()
    } else if model.as_bytes().len() == bytes.len() {
        "; only the order of its records is another".into()
    } else {
        String::new()
    };
    let (out, points) = (shown(out), model.len());
    format!("{out}: {points} points in working form{change}\n")
}

pub(crate) fn fold(args: &Args) -> Result<(), Failure> {
    let path = args.path(0);
    let most = args.number("--most", MOST)?;
    let out = output(args, &[])?;
    let bytes = read_model(path)?;
    let (model, dropped) =
        Model::fold(&bytes).map_err(|refusal| Failure::refused(shown(path), refusal))?;
    if !dropped.is_empty() && one_file(path, out) && !args.flag("--force") {
        let (out, gone) = (shown(out), counted(dropped.len(), "record"));
        return Err(Failure::failed(format!(
            "{out}: {gone} would be gone for good: write elsewhere, or add --force"
        )));
    }
    write_model(out, &model)?;
    say(in_working_form(out, &model, &bytes) + &lost(&dropped, most));
    Ok(())
}

/// The records that folding dropped, so many of them listed.
fn lost(dropped: &[Dropped], most: usize) -> String {
    if dropped.is_empty() {
        return "nothing dropped: every record names a cell of its own\n".into();
    }
    let mut text = format!(
        "{} dropped, whose cell a later record names:\n",
        counted(dropped.len(), "record")
    );
    for Dropped {
        record,
        point,
        kept,
    } in dropped.iter().take(most)
    {
        let Point {
            x,
            y,
            z,
            cauchy_mass,
            elliptic_mass,
        } = point;
        let _ = writeln!(
            text,
            "record {record}, cell ({x}, {y}, {z}), {cauchy_mass} and {elliptic_mass} kg: record {kept} counts"
        );
    }
    and_more(&mut text, dropped.len().saturating_sub(most));
    text
}

fn load(path: &Path) -> Result<ModelFile, Failure> {
    let model_file = ModelFile::load(path).map_err(Failure::file)?;
    if model_file.finished_write {
        let path = shown(path);
        tell(format!(
            "{path}: an earlier run was cut off while saving; its save is finished now"
        ));
    }
    Ok(model_file)
}

fn state(model: &Model) -> String {
    let redo = match model.redoable() {
        0 => String::new(),
        redo => format!(", {redo} to redo"),
    };
    format!(
        "{} points, {} edits to undo{redo}",
        model.len(),
        model.entries()
    )
}

fn masses(before: Option<(f32, f32)>) -> String {
    match before {
        Some((cauchy, elliptic)) => format!("held {cauchy} and {elliptic} kg"),
        None => "was empty".into(),
    }
}

/// One put or remove.
pub(crate) fn edit(name: &str, args: &Args) -> Result<(), Failure> {
    let place = args.numbers("--at")?;
    let mut words = vec![name];
    if place.is_some() {
        // The model says which cell.
        words.extend(["0"; 3]);
    }
    words.extend(args.texts(1)?);
    let mut edit = Edit::parse(&words).map_err(Failure::usage)?;
    let mut model_file = load(args.path(0))?;
    if let (Some(place), Edit::Put(x, y, z, ..) | Edit::Remove(x, y, z)) = (place, &mut edit) {
        [*x, *y, *z] = cell_at(args.path(0), &model_file.model.header(), place)?;
    }
    edit.apply(&mut model_file.model)
        .map_err(|refusal| Failure::refused(edit, refusal))?;
    let before = model_file
        .model
        .history()
        .next_back()
        .and_then(|entry| entry.before);
    model_file.save().map_err(Failure::file)?;
    say(format!(
        "{edit}: the cell {}; {}\n",
        masses(before),
        state(&model_file.model)
    ));
    Ok(())
}

/// What undoing an entry does to its cell.
fn undone(entry: Entry) -> String {
    let [x, y, z] = entry.cell;
    let now = match entry.before {
        Some((cauchy, elliptic)) => format!("holds {cauchy} and {elliptic} kg again"),
        None => "is empty again".into(),
    };
    format!("undo: cell ({x}, {y}, {z}) {now}\n")
}

/// One step of undo or redo, and what it did.
fn take_step(undo: bool, model: &mut Model, what: &str) -> Result<String, Failure> {
    if undo {
        let last = model.history().next_back();
        let refused = |refusal| Failure::refused(what, refusal);
        model.undo().map_err(refused)?;
        return Ok(last.map_or(String::new(), undone));
    }
    match model.redo() {
        Ok(Some(edit)) => Ok(format!("redo: {edit}\n")),
        Ok(None) => Err(Failure::failed(format!(
            "{what}: nothing to redo\n  what was undone can be redone until the next put or remove"
        ))),
        Err(refusal) => Err(Failure::refused(what, refusal)),
    }
}

/// How many steps are asked for, none where all are.
fn steps(args: &Args) -> Result<Option<usize>, Failure> {
    let steps = args.number("--steps", 1_usize)?;
    let all = args.flag("--all");
    if all && args.option("--steps")?.is_some() {
        return Err(Failure::usage("--all and --steps exclude each other"));
    }
    if steps == 0 {
        return Err(Failure::usage("--steps: 0 is nothing to do"));
    }
    Ok((!all).then_some(steps))
}

/// undo or redo.
pub(crate) fn step(name: &str, args: &Args) -> Result<(), Failure> {
    let steps = steps(args)?;
    let mut model_file = load(args.path(0))?;
    let (undo, model) = (name == "undo", &mut model_file.model);
    let (done, most) = match undo {
        true => ("undone", model.entries()),
        false => ("redone", model.redoable()),
    };
    let steps = steps.unwrap_or(most);
    let mut text = String::new();
    let mut progress = Progress::new();
    for step in 0..steps {
        progress.steps(done, step, steps);
        let what = format!("{name}, step {} of {steps}", step + 1);
        let words = take_step(undo, model, &what)?;
        match step {
            0..10 => text.push_str(&words),
            10 => text.push_str("...\n"),
            _ => {}
        }
    }
    drop(progress);
    if steps > 0 {
        model_file.save().map_err(Failure::file)?;
    }
    let _ = writeln!(text, "{steps} {done}; {}", state(&model_file.model));
    say(text);
    Ok(())
}

pub(crate) fn apply(args: &Args) -> Result<(), Failure> {
    let list = args.path(1);
    let in_list = |why: String| Failure::failed(format!("{}: {why}", shown(list)));
    let edits = parse_edits(&read_text(list)?).map_err(|error| in_list(error.to_string()))?;
    let mut model_file = load(args.path(0))?;
    let mut refused = 0;
    let mut progress = Progress::new();
    for (made, (line, edit)) in edits.iter().enumerate() {
        progress.steps("edits", made, edits.len());
        if let Err(refusal) = edit.apply(&mut model_file.model) {
            let why = format!("line {line}: {edit}: {refusal}");
            if !args.flag("--keep-going") {
                let advice = refusal.advice();
                return Err(in_list(format!("{why}; nothing is changed\n  {advice}")));
            }
            refused += 1;
            tell(format!("{}: {why}", shown(list)));
        }
    }
    drop(progress);
    let made = edits.len() - refused;
    if made > 0 {
        model_file.save().map_err(Failure::file)?;
    }
    say(format!(
        "{made} of {} edits made; {}\n",
        edits.len(),
        state(&model_file.model)
    ));
    if refused > 0 {
        return Err(in_list(format!(
            "{refused} edits refused, the others are saved"
        )));
    }
    Ok(())
}

pub(crate) fn log(args: &Args) -> Result<(), Failure> {
    let model = reading(args.path(0))?.into_model().map_err(Failure::file)?;
    let mut text = String::new();
    for (i, (entry, edit)) in model.history().zip(model.edits()).enumerate() {
        let before = masses(entry.before);
        let _ = writeln!(text, "{} {edit}: the cell {before}", i + 1);
    }
    let _ = writeln!(text, "{}", state(&model));
    print(text)
}

pub(crate) fn build(args: &Args) -> Result<(), Failure> {
    let path = args.path(0);
    let out = output_apart(args, &[(path, "its point file")])?;
    let bytes = read_model(path)?;
    let tree = Tree::build(&bytes).map_err(|error| Failure::not_built(path, &bytes, error))?;
    write(out, tree.as_bytes())?;
    say(format!(
        "{}: {} nodes, {} ordered points, {} bytes\n",
        shown(out),
        tree.node_count(),
        tree.order_count(),
        tree.as_bytes().len()
    ));
    Ok(())
}
