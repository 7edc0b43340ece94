//! The commands get and list.

use super::args::Args;
use super::show::{floats, model};
use super::{print, print_part, shown, tell, Failure};
use mascon::text::Edit;
use mascon::{Header, Model};
use std::fmt::Write as _;
use std::path::Path;

/// The cell that a place in metres lies in.
pub(crate) fn cell_at(path: &Path, header: &Header, place: [f64; 3]) -> Result<[u32; 3], Failure> {
    let [x, y, z] = place;
    let outside = || outside_box(path, &format!("({x}, {y}, {z}) m"), header);
    header.cell_at(place).ok_or_else(outside)
}

/// That a place or layer is not in the box.
pub(crate) fn outside_box(path: &Path, what: &str, header: &Header) -> Failure {
    Failure::failed(format!(
        "{}: {what} lies outside the box, which goes from {} to {} m",
        shown(path),
        floats(header.min),
        floats(header.max)
    ))
}

/// That a cell or layer is none of the grid's.
pub(crate) fn outside_grid(path: &Path, what: &str, grid: u32) -> Failure {
    Failure::failed(format!(
        "{}: {what} lies outside the grid, whose cells go from 0 to {} on each axis",
        shown(path),
        grid - 1
    ))
}

/// A cell that is given by its three indices, read as those of an edit.
fn indices(words: &[&str]) -> Result<[u32; 3], Failure> {
    match Edit::parse(&[&["remove"], words].concat()) {
        Ok(Edit::Remove(x, y, z)) => Ok([x, y, z]),
        Ok(_) => Err(Failure::usage("a cell is X Y Z")),
        Err(why) => Err(Failure::usage(why)),
    }
}

pub(crate) fn get(args: &Args) -> Result<(), Failure> {
    let path = args.path(0);
    let cell = match args.numbers("--at")? {
        Some(place) => Err(place),
        None => Ok(indices(&args.texts(1)?)?),
    };
    let model = model(path)?;
    let header = model.header();
    let cell = cell.or_else(|place| cell_at(path, &header, place))?;
    if cell.iter().any(|&index| index >= header.grid) {
        let [x, y, z] = cell;
        let what = format!("cell ({x}, {y}, {z})");
        return Err(outside_grid(path, &what, header.grid));
    }
    print(cell_text(&model, cell))
}

fn cell_text(model: &Model, cell: [u32; 3]) -> String {
    let header = model.header();
    let [x, y, z] = cell;
    let number = (z * header.grid + y) * header.grid + x;
    let middle = header.middle(x, y, z);
    let mut text = format!("cell            ({x}, {y}, {z}), number {number}\n");
    let found = model.place(x, y, z);
    let record = match found {
        Some(place) => format!("{place} of 0 to {}", model.len() - 1),
        None => "none: the cell is empty".into(),
    };
    let _ = writeln!(text, "record          {record}");
    let [x, y, z] = middle;
    let _ = writeln!(text, "middle          ({x}, {y}, {z}) m");
    if let Some(point) = found.and_then(|place| model.point(place)) {
        let _ = writeln!(text, "Cauchy mass     {} kg", point.cauchy_mass);
        let _ = writeln!(text, "elliptic mass   {} kg", point.elliptic_mass);
    }
    text
}

/// The points that are listed: all, or those in a box of cells or of metres, whose corners may stand in either order.
enum Listed {
    All,
    Cells([u32; 6]),
    Metres([f64; 6]),
}

impl Listed {
    fn of(args: &Args) -> Result<Listed, Failure> {
        match (args.numbers("--cells")?, args.numbers("--metres")?) {
            (Some(_), Some(_)) => Err(Failure::usage("--cells and --metres exclude each other")),
            (Some(cells), None) => Ok(Listed::Cells(cells)),
            (None, Some(metres)) if metres.iter().any(|x: &f64| x.is_nan()) => {
                Err(Failure::usage("--metres: NaN is no place"))
            }
            (None, Some(metres)) => Ok(Listed::Metres(metres)),
            (None, None) => Ok(Listed::All),
        }
    }

    /// Whether an index on an axis, with the middle of its cells, lies in the box.
    fn has(&self, axis: usize, index: u32, middle: f64) -> bool {
        match self {
            Listed::All => true,
            Listed::Cells(corners) => between(corners[axis], index, corners[axis + 3]),
            Listed::Metres(corners) => between(corners[axis], middle, corners[axis + 3]),
        }
    }

    /// That it holds no point.
    fn nothing(&self) -> &'static str {
        match self {
            Listed::All => "the model has no point",
            Listed::Cells(_) => "no point lies in the box of --cells",
            Listed::Metres(_) => "no point has its middle in the box of --metres",
        }
    }
}

fn between<T: PartialOrd>(a: T, x: T, b: T) -> bool {
    (a <= x && x <= b) || (b <= x && x <= a)
}

/// The indices of an axis as text, each with its middle in metres, where the box has them.
fn texts(header: &Header, listed: &Listed, axis: usize) -> Vec<Option<[String; 2]>> {
    let of = |index: u32| {
        let middle = header.middle(index, index, index)[axis];
        let inside = listed.has(axis, index, middle);
        inside.then(|| [format!(",{index}"), format!(",{middle}")])
    };
    (0..header.grid).map(of).collect()
}

/// Lines are written when they are so many bytes.
const PART: usize = 1 << 18;

pub(crate) fn list(args: &Args) -> Result<(), Failure> {
    let (path, listed) = (args.path(0), Listed::of(args)?);
    let model = model(path)?;
    let axes = [0, 1, 2].map(|axis| texts(&model.header(), &listed, axis));
    let mut text = "index,x,y,z,x_m,y_m,z_m,cauchy_kg,elliptic_kg\n".to_string();
    let mut nothing = true;
    for (index, point) in model.points().enumerate() {
        let [x, y, z] = [point.x, point.y, point.z].map(|index| index as usize);
        let (Some([x, x_m]), Some([y, y_m]), Some([z, z_m])) =
            (&axes[0][x], &axes[1][y], &axes[2][z])
        else {
            continue;
        };
        nothing = false;
        let _ = write!(text, "{index}");
        text.extend([x, y, z, x_m, y_m, z_m].map(String::as_str));
        let _ = writeln!(text, ",{},{}", point.cauchy_mass, point.elliptic_mass);
        if text.len() >= PART {
            if !print_part(&text)? {
                return Ok(());
            }
            text.clear();
        }
    }
    print(text)?;
    if nothing {
        tell(format!("{}: {}", shown(path), listed.nothing()));
    }
    Ok(())
}
