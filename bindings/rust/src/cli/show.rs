//! The commands info, check and draw.

use super::args::Args;
use super::cost::{building_takes, tree_at_most};
use super::list::{outside_box, outside_grid};
use super::{
    and_more, heaviest, output_apart, print, read_model, reading, say, shown, tell_apart, write,
    Failure, MOST,
};
use mascon::check::{
    check_floats, check_points, check_tree, check_working_form, trailing_bytes, Fault, Report,
};
use mascon::draw::{difference, Mass, Picture, Slice};
use mascon::{Cost, Header, Model, ModelFileError, Reading, Refusal, Tree};
use std::fmt::Write as _;
use std::path::Path;

fn is_tree(bytes: &[u8]) -> bool {
    bytes.starts_with(b"RTM1")
}

fn vector(numbers: [f64; 3]) -> String {
    let [x, y, z] = numbers.map(|x| {
        format!("{x:.6}")
            .trim_end_matches('0')
            .trim_end_matches('.')
            .to_string()
    });
    format!("({x}, {y}, {z})")
}

pub(crate) fn floats(numbers: [f32; 3]) -> String {
    let [x, y, z] = numbers;
    format!("({x}, {y}, {z})")
}

pub(crate) fn info(args: &Args) -> Result<(), Failure> {
    let path = args.path(0);
    let reading = reading(path)?;
    let mut text = String::new();
    if is_tree(&reading.bytes) {
        let tree = Tree::open(reading.bytes).map_err(|fault| {
            Failure::failed(format!(
                "{}: {fault}; `mascon check` lists all",
                shown(path)
            ))
        })?;
        tree_info(&mut text, &tree);
    } else {
        tell_apart(&reading);
        let model =
            Model::open(&reading.bytes).map_err(|error| Failure::not_opened(path, error))?;
        points_info(&mut text, &model, &reading.bytes);
        match journal(reading) {
            Ok(None) => {}
            Ok(Some((entries, redo))) => {
                let _ = writeln!(
                    text,
                    "journal         {entries} edits to undo, {redo} to redo"
                );
            }
            Err(error) => {
                let _ = writeln!(text, "journal         {error}");
            }
        }
    }
    print(text)
}

/// How many edits can be undone and redone by the journal beside a file, none where there is no journal.
fn journal(reading: Reading) -> Result<Option<(usize, usize)>, ModelFileError> {
    if !reading.has_journal() {
        return Ok(None);
    }
    let model = reading.into_model()?;
    Ok(Some((model.entries(), model.redoable())))
}

fn points_info(text: &mut String, model: &Model, bytes: &[u8]) {
    let header = model.header();
    let grid = header.grid;
    let cells = u64::from(grid).pow(3);
    let (cauchy, elliptic) = model.masses();
    let records = u32::from_le_bytes([bytes[12], bytes[13], bytes[14], bytes[15]]);
    let share = 100.0 * model.len() as f64 / cells as f64;
    let _ = writeln!(text, "point file      RYM1, {} bytes", bytes.len());
    let _ = writeln!(text, "grid            {grid} ({cells} cells)");
    let _ = writeln!(
        text,
        "points          {} ({share:.1} % of the cells)",
        model.len()
    );
    let working = check_working_form(bytes, 0).is_clean();
    let form = if working {
        "yes".to_string()
    } else {
        format!("no: {records} records, their order or pads; `mascon open` writes it")
    };
    let _ = writeln!(text, "working form    {form}");
    trailing_note(text, bytes);
    let _ = writeln!(
        text,
        "box             {} to {} m",
        floats(header.min),
        floats(header.max)
    );
    let _ = writeln!(text, "cell            {} m", vector(header.cell_size()));
    let _ = writeln!(text, "cell volume     {} m^3", header.cell_volume);
    let _ = writeln!(text, "density         {} kg/m^3", header.constant_density);
    let _ = writeln!(text, "scale           {}", header.cauchy_scale);
    let mut moments = [[0.0; 3]; 2];
    let (mut low, mut high) = ([u32::MAX; 3], [0; 3]);
    for point in model.points() {
        let cell = [point.x, point.y, point.z];
        let middle = header.middle(point.x, point.y, point.z);
        for axis in 0..3 {
            moments[0][axis] += middle[axis] * f64::from(point.cauchy_mass);
            moments[1][axis] += middle[axis] * f64::from(point.elliptic_mass);
            low[axis] = low[axis].min(cell[axis]);
            high[axis] = high[axis].max(cell[axis]);
        }
    }
    let names = [
        ("Cauchy mass", cauchy, header.cauchy_raw),
        ("elliptic mass", elliptic, header.elliptic_raw),
    ];
    for ((name, mass, raw), moment) in names.into_iter().zip(moments) {
        let _ = write!(
            text,
            "{name:<15} {mass:.6e} kg (raw sum at filling {raw:e})"
        );
        if mass.abs() > 1e-30 {
            let _ = write!(
                text,
                ", centre {} m",
                vector(moment.map(|moment| moment / mass))
            );
        }
        text.push('\n');
    }
    if !model.is_empty() {
        let _ = writeln!(
            text,
            "cells used      x {} to {}, y {} to {}, z {} to {}",
            low[0], high[0], low[1], high[1], low[2], high[2]
        );
    }
    text.push_str(&Cost::of(grid).map_or(String::new(), tree_at_most));
    building_note(text, model, working);
}

/// How much scratch building the file takes: where it is not in working form, a word for each cell.
fn building_note(text: &mut String, model: &Model, working: bool) {
    let small = model.scratch_bytes();
    let line = if working {
        building_takes(small)
    } else {
        let words = (model.grid() as usize).pow(3);
        building_takes(4 * words) + &format!(", in working form {small}")
    };
    let _ = writeln!(text, "{line}");
}

/// Bytes after the last record are no fault, and no matter of working form.
fn trailing_note(text: &mut String, bytes: &[u8]) {
    let trailing = trailing_bytes(bytes);
    if trailing > 0 {
        let _ = writeln!(
            text,
            "trailing bytes  {trailing} after the last record, not read; `mascon open` drops them"
        );
    }
}

fn tree_info(text: &mut String, tree: &Tree) {
    let (min, max) = tree.bounds();
    let root = tree.root();
    let [scale, density, volume] = tree.scale_density_volume();
    let leaves = tree.nodes().filter(|node| node.is_leaf()).count();
    let empty = tree.nodes().filter(|node| node.count == 0).count();
    let fullest = tree.nodes().map(|node| node.leaf_count).max().unwrap_or(0);
    let _ = writeln!(
        text,
        "tree            RTM1 version 2, {} bytes",
        tree.as_bytes().len()
    );
    let _ = writeln!(text, "grid            {}", tree.grid());
    let _ = writeln!(text, "points          {}", tree.order_count());
    let inner = tree.node_count() - leaves - empty;
    let _ = writeln!(
        text,
        "nodes           {}: {inner} inner, {leaves} leaves, {empty} empty",
        tree.node_count()
    );
    let _ = writeln!(text, "depth           {}", tree.depth());
    let _ = writeln!(text, "fullest leaf    {fullest} points");
    let _ = writeln!(text, "box             {} to {} m", floats(min), floats(max));
    let _ = writeln!(text, "cell volume     {volume} m^3");
    let _ = writeln!(text, "density         {density} kg/m^3");
    let _ = writeln!(text, "scale           {scale}");
    let _ = writeln!(
        text,
        "Cauchy mass     {:.6e} kg, centre {} m",
        root.cauchy_mass,
        floats(root.cauchy_center)
    );
    let _ = writeln!(
        text,
        "elliptic mass   {:.6e} kg, centre {} m",
        root.elliptic_mass,
        floats(root.elliptic_center)
    );
}

fn list(text: &mut String, report: &Report) {
    for fault in &report.faults {
        let _ = writeln!(text, "{fault}");
    }
    and_more(text, report.total - report.faults.len());
}

/// The faults of a tree.
fn tree_faults(text: &mut String, bytes: &[u8], most: usize) -> usize {
    let report = check_tree(bytes, most);
    list(text, &report);
    let infinite = |fault: &Fault| fault.cause == Some(Refusal::FloatTooLarge);
    if report.faults.iter().any(infinite) {
        text.push_str(
            "an infinity stands where a float was too large: the tree came from the original or from a build before version 0.3.0; \
             build it anew from its point file, which is refused (22) as long as its masses are too large\n",
        );
    }
    report.total
}

/// The faults of a point file, and what keeps it from working form.
fn point_faults(
    text: &mut String,
    path: &Path,
    bytes: &[u8],
    most: usize,
) -> Result<usize, Failure> {
    let report = check_points(bytes, most.max(1));
    let refused = Model::open(bytes).err().map(Refusal::from);
    let first = report.faults.first().and_then(|fault| fault.cause);
    agree(path, refused, first)?;
    list(text, &report);
    if refused == Some(Refusal::CellTwice) {
        let path = path.display();
        let _ = writeln!(
            text,
            "`mascon fold {path} -o OUT` keeps the last record of each of these cells"
        );
    }
    let form = check_working_form(bytes, most);
    if bytes.starts_with(b"RYM1") && !form.is_clean() {
        text.push_str(if report.is_clean() {
            "accepted, but not in working form (`mascon open` writes it):\n"
        } else {
            "and not in working form:\n"
        });
        list(text, &form);
    }
    if report.is_clean() {
        trailing_note(text, bytes);
    }
    Ok(report.total)
}

/// The floats of an accepted point file's tree that are too large; where there is none, the greatest.
fn float_faults(
    text: &mut String,
    path: &Path,
    bytes: &[u8],
    most: usize,
) -> Result<usize, Failure> {
    let opened = |error| Failure::not_opened(path, error);
    let greatest = Model::open(bytes).map_err(opened)?.greatest_float();
    let refused = Tree::judge(bytes).err();
    let wanted = greatest.is_too_large().then_some(Refusal::FloatTooLarge);
    agree(path, refused.map(Refusal::from), wanted)?;
    let Some(first) = refused.and_then(|error| error.too_large) else {
        let _ = writeln!(
            text,
            "greatest float of its tree (3.4e38 is too large): {greatest}"
        );
        return Ok(0);
    };
    let report = check_floats(bytes, most);
    list(text, &report);
    let (node, heaviest) = (first.node, heaviest(first, bytes));
    let _ = writeln!(
        text,
        "it can be opened and edited, but has no tree; node {node}, {heaviest}"
    );
    Ok(report.total)
}

/// That the library refuses a file by the cause that is listed.
fn agree(path: &Path, refused: Option<Refusal>, listed: Option<Refusal>) -> Result<(), Failure> {
    if refused == listed {
        return Ok(());
    }
    Err(Failure::failed(format!(
        "{}: the library says {refused:?}, the list of faults {listed:?}: please report this file",
        shown(path)
    )))
}

/// The faults of a point file's journal.
fn journal_faults(text: &mut String, reading: Reading) -> Result<usize, Failure> {
    match journal(reading) {
        Ok(None) => Ok(0),
        Ok(Some((entries, redo))) => {
            let _ = writeln!(
                text,
                "journal: {entries} edits to undo, {redo} to redo, each fits its cell"
            );
            Ok(0)
        }
        Err(error @ ModelFileError::File(..)) => Err(Failure::failed(error)),
        Err(error) => {
            let _ = writeln!(text, "journal: {error}");
            Ok(1)
        }
    }
}

pub(crate) fn check(args: &Args) -> Result<(), Failure> {
    let path = args.path(0);
    let most = args.number("--most", MOST)?;
    let reading = reading(path)?;
    let mut text = String::new();
    let faults = if is_tree(&reading.bytes) {
        tree_faults(&mut text, &reading.bytes, most)
    } else {
        match point_faults(&mut text, path, &reading.bytes, most)? {
            0 => {
                let floats = float_faults(&mut text, path, &reading.bytes, most)?;
                floats + journal_faults(&mut text, reading)?
            }
            faults => faults,
        }
    };
    if faults == 0 {
        let _ = writeln!(text, "{}: no fault", shown(path));
        return print(text);
    }
    print(text)?;
    let ending = if faults == 1 { "" } else { "s" };
    let why = format!("{}: {faults} fault{ending}", shown(path));
    Err(Failure::failed(why))
}

/// The model that a command reads and leaves as it is.
pub(crate) fn model(path: &Path) -> Result<Model, Failure> {
    let bytes = read_model(path)?;
    if is_tree(&bytes) {
        let why = format!("{}: this is a tree, give its point file", shown(path));
        return Err(Failure::failed(why));
    }
    Model::open(&bytes).map_err(|error| Failure::not_opened(path, error))
}

fn mass(args: &Args) -> Result<Mass, Failure> {
    match args.option("--mass")? {
        None | Some("cauchy") => Ok(Mass::Cauchy),
        Some("elliptic") => Ok(Mass::Elliptic),
        Some(other) => Err(Failure::usage(format!(
            "--mass: `{other}` is not cauchy or elliptic"
        ))),
    }
}

/// The title that is given, else the files' names.
fn title(args: &Args) -> Result<String, Failure> {
    let name = |path: &Path| {
        let name = path.file_name().unwrap_or_default();
        name.to_string_lossy().into_owned()
    };
    let path = name(args.path(0));
    Ok(
        match (args.option("--title")?, args.option_path("--before")) {
            (Some(title), _) => title.to_string(),
            (None, None) => path,
            (None, Some(other)) => format!("{path}, held against {}", name(other)),
        },
    )
}

/// Where the picture goes, and whether it is SVG.
fn picture_file(args: &Args) -> Result<(&Path, bool), Failure> {
    let mut inputs = vec![(args.path(0), "its point file")];
    inputs.extend(
        args.option_path("--before")
            .map(|path| (path, "its point file")),
    );
    let out = output_apart(args, &inputs)?;
    let ending = out.extension().and_then(|ending| ending.to_str());
    match ending.map(str::to_ascii_lowercase).as_deref() {
        Some("svg") => Ok((out, true)),
        Some("png") => Ok((out, false)),
        _ => Err(Failure::usage(format!(
            "-o: {} does not end in .svg or .png",
            shown(out)
        ))),
    }
}

/// A layer as it is asked for: by its cells' index or by a place in metres.
#[derive(Clone, Copy)]
enum Layer {
    Index(u32),
    Metres(f64),
}

/// `--slice z=12` or, in metres, `--slice z=130m`: the axis and the layer.
fn layer(args: &Args) -> Result<Option<(usize, Layer)>, Failure> {
    let Some(value) = args.option("--slice")? else {
        return Ok(None);
    };
    let (axis, place) = value.split_once('=').unwrap_or_default();
    let axis = ["x", "y", "z"].iter().position(|name| *name == axis);
    let layer = match place.strip_suffix('m') {
        Some(metres) => metres.parse().ok().map(Layer::Metres),
        None => place.parse().ok().map(Layer::Index),
    };
    axis.zip(layer).map(Some).ok_or_else(|| {
        Failure::usage(format!(
            "--slice: `{value}` is not as in z=12, a cell index, or z=130.5m, metres"
        ))
    })
}

fn slice(path: &Path, header: &Header, (axis, layer): (usize, Layer)) -> Result<Slice, Failure> {
    let index = match layer {
        Layer::Index(index) => index,
        Layer::Metres(metres) => {
            let mut place = header.min.map(f64::from);
            place[axis] = metres;
            let what = format!("layer {} = {metres} m", ["x", "y", "z"][axis]);
            let outside = || outside_box(path, &what, header);
            header.cell_at(place).ok_or_else(outside)?[axis]
        }
    };
    let slice = [Slice::X, Slice::Y, Slice::Z][axis](index);
    if index >= header.grid {
        return Err(outside_grid(path, &format!("layer {slice}"), header.grid));
    }
    Ok(slice)
}

pub(crate) fn draw(args: &Args) -> Result<(), Failure> {
    let (mass, title, layer) = (mass(args)?, title(args)?, layer(args)?);
    let (out, svg) = picture_file(args)?;
    let path = args.path(0);
    let now = model(path)?;
    let slice = layer.map(|layer| slice(path, &now.header(), layer));
    let slice = slice.transpose()?;
    let before = args.option_path("--before").map(model).transpose()?;
    let picture = Picture {
        model: &now,
        before: before.as_ref(),
        mass,
        title,
        slice,
    };
    let bytes = if svg {
        picture.svg().map(String::into_bytes)
    } else {
        picture.png()
    };
    let not_comparable = |error| Failure::failed(format!("--before: {error}"));
    write(out, &bytes.map_err(not_comparable)?)?;
    say(drawn(out, &picture)?);
    Ok(())
}

/// What was drawn, in words.
fn drawn(out: &Path, picture: &Picture) -> Result<String, Failure> {
    let points = picture.model.points();
    let points = points.filter(|point| picture.shows([point.x, point.y, point.z]));
    let layer = picture.slice.map(|slice| format!("layer {slice}, "));
    let mut text = format!(
        "{}: {}{} points drawn",
        shown(out),
        layer.unwrap_or_default(),
        points.count()
    );
    if let Some(before) = picture.before {
        let d = difference(before, picture.model).map_err(Failure::failed)?;
        let [added, removed, changed] = [d.added, d.removed, d.changed].map(|cells| {
            cells
                .into_iter()
                .filter(|cell| picture.shows(*cell))
                .count()
        });
        let _ = write!(
            text,
            "; {added} added, {removed} removed, {changed} changed"
        );
    }
    Ok(text + "\n")
}
