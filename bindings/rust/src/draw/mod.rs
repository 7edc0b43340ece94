//! Pictures of models: occupied cells and masses, summed along each axis or of one layer, and what was edited.

mod font;
mod png;
mod slice;
mod svg;

pub use slice::{PictureError, Slice};

use crate::{ffi, Model, Point};
use std::fmt;

/// Which mass is drawn.
#[derive(Clone, Copy, Debug, Default, PartialEq, Eq)]
pub enum Mass {
    /// The mass by the Cauchy kernels.
    #[default]
    Cauchy,
    /// The mass by the elliptic kernels.
    Elliptic,
}

/// What to draw.
#[derive(Clone, Debug)]
pub struct Picture<'a> {
    /// The model.
    pub model: &'a Model,
    /// An earlier state: cells added, removed and changed since are marked.
    pub before: Option<&'a Model>,
    /// Which mass.
    pub mass: Mass,
    /// The heading.
    pub title: String,
    /// The one layer that is drawn, in place of the sums along each axis.
    pub slice: Option<Slice>,
}

/// Two models that cannot be held against each other: their grids or boxes differ.
#[derive(Clone, Copy, PartialEq, Eq)]
pub struct NotComparable;

impl fmt::Display for NotComparable {
    fn fmt(&self, f: &mut fmt::Formatter<'_>) -> fmt::Result {
        write!(f, "the two models have different grids or boxes")
    }
}

impl fmt::Debug for NotComparable {
    fn fmt(&self, f: &mut fmt::Formatter<'_>) -> fmt::Result {
        fmt::Display::fmt(self, f)
    }
}

impl std::error::Error for NotComparable {}

/// How one state of a model differs from another.
#[derive(Clone, Debug, Default, PartialEq, Eq)]
pub struct Difference {
    /// Cells that were empty before.
    pub added: Vec<[u32; 3]>,
    /// Cells that are empty now.
    pub removed: Vec<[u32; 3]>,
    /// Cells with other masses.
    pub changed: Vec<[u32; 3]>,
}

/// What was added, removed and changed from one state of a model to another.
///
/// ```
/// use mascon::{draw::difference, shapes, Model};
///
/// let before = Model::open(&shapes::empty_file(8, [-4.0; 3], [4.0; 3]))?;
/// let mut now = before.clone();
/// now.put(1, 2, 3, 5.0e6, 4.0e6)?;
/// assert_eq!(difference(&before, &now).unwrap().added, [[1, 2, 3]]);
/// # Ok::<(), mascon::Refusal>(())
/// ```
///
/// # Errors
/// [`NotComparable`] where grids or boxes differ.
pub fn difference(before: &Model, now: &Model) -> Result<Difference, NotComparable> {
    ffi::in_default_mode(|| differences(before, now))
}

fn differences(before: &Model, now: &Model) -> Result<Difference, NotComparable> {
    if before.grid() != now.grid() || before.bounds() != now.bounds() {
        return Err(NotComparable);
    }
    let grid = now.grid();
    let mut difference = Difference::default();
    let (mut old, mut new) = (before.points().peekable(), now.points().peekable());
    loop {
        let cell = match (old.peek(), new.peek()) {
            (None, None) => return Ok(difference),
            (Some(a), None) => a.cell(grid),
            (None, Some(b)) => b.cell(grid),
            (Some(a), Some(b)) => a.cell(grid).min(b.cell(grid)),
        };
        let a = old.next_if(|point| point.cell(grid) == cell);
        let b = new.next_if(|point| point.cell(grid) == cell);
        let list = match (a, b) {
            (None, _) => &mut difference.added,
            (_, None) => &mut difference.removed,
            (a, b) if a != b => &mut difference.changed,
            _ => continue,
        };
        let point = a.or(b).expect("one of them has the cell");
        list.push([point.x, point.y, point.z]);
    }
}

#[derive(Clone, Copy, PartialEq, Eq, PartialOrd, Ord)]
struct Color([u8; 3]);

impl fmt::Display for Color {
    fn fmt(&self, f: &mut fmt::Formatter<'_>) -> fmt::Result {
        let [r, g, b] = self.0;
        write!(f, "#{r:02x}{g:02x}{b:02x}")
    }
}

#[derive(Clone, Copy)]
struct Rect {
    x: f64,
    y: f64,
    w: f64,
    h: f64,
}

#[derive(Clone, Copy)]
enum Anchor {
    Start,
    Middle,
    End,
}

trait Canvas {
    fn rects(&mut self, rects: &[Rect], color: Color);
    fn line(&mut self, from: [f64; 2], to: [f64; 2], width: f64, color: Color);
    fn text(&mut self, at: [f64; 2], anchor: Anchor, bold: bool, text: &str, color: Color);
}

const INK: Color = Color([0x22, 0x28, 0x30]);
const FAINT: Color = Color([0x70, 0x78, 0x82]);
const GROUND: Color = Color([0xf4, 0xf5, 0xf7]);
const LINE: Color = Color([0xc4, 0xc9, 0xd0]);
const WHITE: Color = Color([0xff, 0xff, 0xff]);
const ADDED: Color = Color([0x0a, 0x8f, 0x3c]);
const REMOVED: Color = Color([0xd6, 0x1f, 0x2c]);
const CHANGED: Color = Color([0xf0, 0x8c, 0x00]);

/// From pale to deep blue.
const SCALE: [[u8; 3]; 7] = [
    [0xdc, 0xe9, 0xf6],
    [0xb5, 0xd4, 0xe9],
    [0x82, 0xbb, 0xdb],
    [0x4f, 0x9b, 0xcb],
    [0x2a, 0x76, 0xb7],
    [0x12, 0x50, 0x96],
    [0x07, 0x2a, 0x5e],
];
const LEVELS: usize = 48;

fn level_color(level: usize) -> Color {
    let place = level as f64 / (LEVELS - 1) as f64 * (SCALE.len() - 1) as f64;
    let low = (place as usize).min(SCALE.len() - 2);
    let share = place - low as f64;
    let mut color = [0; 3];
    for (i, part) in color.iter_mut().enumerate() {
        let (a, b) = (f64::from(SCALE[low][i]), f64::from(SCALE[low + 1][i]));
        *part = (a + share * (b - a)).round() as u8;
    }
    Color(color)
}

/// A step of 1, 2 or 5 times a power of ten that gives about `count` steps.
fn step(extent: f64, count: f64) -> f64 {
    let raw = extent / count;
    let power = 10_f64.powf(raw.log10().floor());
    let times = [1.0, 2.0, 5.0, 10.0];
    let best = times.into_iter().find(|times| times * power >= raw * 0.75);
    best.unwrap_or(10.0) * power
}

/// Places on an axis, with their labels.
fn ticks(low: f64, high: f64, count: f64) -> Vec<(f64, String)> {
    let step = step(high - low, count);
    let first = (low / step - 1e-6).ceil() as i64;
    let last = (high / step + 1e-6).floor() as i64;
    let places = (first..=last).map(|i| i as f64 * step);
    places.map(|place| (place, label(place, step))).collect()
}

/// The length of the longest label, in dots.
fn widest(ticks: &[(f64, String)]) -> f64 {
    LETTER
        * ticks
            .iter()
            .map(|(_, label)| label.len())
            .max()
            .unwrap_or(0) as f64
}

/// As many ticks along an axis from left to right as their labels leave room for.
fn ticks_across(low: f64, high: f64, size: f64) -> Vec<(f64, String)> {
    let fits = |ticks: &Vec<(f64, String)>| {
        let gap = ticks
            .get(1)
            .map_or(size, |next| (next.0 - ticks[0].0) / (high - low) * size);
        widest(ticks) + 10.0 <= gap
    };
    let counts = (1..=7).rev().map(f64::from);
    let mut fitting = counts.map(|count| ticks(low, high, count)).filter(fits);
    fitting.next().unwrap_or_else(|| {
        let mut one = ticks(low, high, 1.0);
        one.truncate(1);
        one
    })
}

fn ticks_upward(low: f64, high: f64, size: f64) -> Vec<(f64, String)> {
    ticks(low, high, (size / 70.0).clamp(1.0, 7.0))
}

/// A number in a few letters, yet so many that it differs from one that lies `step` away.
fn label(x: f64, step: f64) -> String {
    if x == 0.0 {
        return "0".into();
    }
    let trimmed = |digits: &str| match digits.contains('.') {
        true => digits
            .trim_end_matches('0')
            .trim_end_matches('.')
            .to_string(),
        false => digits.to_string(),
    };
    let power = step.log10().floor();
    let plain = trimmed(&format!("{x:.*}", (-power).clamp(0.0, 60.0) as usize));
    let digits = (x.abs().log10().floor() - power).clamp(0.0, 9.0) as usize;
    let text = format!("{x:.digits$e}");
    let (digits, power) = text.split_once('e').unwrap_or((&text, "0"));
    let short = format!("{}e{power}", trimmed(digits));
    let letters = |text: &str| text.trim_start_matches('-').len();
    if letters(&plain) <= letters(&short).max(6) {
        plain
    } else {
        short
    }
}

/// A number to four figures.
fn rounded(x: f64) -> String {
    label(x, x.abs() / 1000.0)
}

/// Occupied cells and mass of a column.
type Sums = (u32, f64);

/// Sums along an axis, or the cells of a layer.
struct Projection {
    /// The axes to the right and up.
    axes: [usize; 2],
    /// The columns, row by row from below.
    columns: Vec<Sums>,
}

const AXES: [&str; 3] = ["x", "y", "z"];

/// Where things stand in a picture.
struct Layout {
    grid: u32,
    /// Dots to a metre.
    scale: f64,
    min: [f64; 3],
    extent: [f64; 3],
    /// The least length of a panel's side.
    least: f64,
    /// The axes to the right and up of each panel.
    panels: Vec<[usize; 2]>,
    /// Room for the labels left of a panel.
    left: f64,
}

/// From one letter to the next: five columns and a gap, each two dots wide.
const LETTER: f64 = 12.0;
const GAP: f64 = 22.0;
const TOP: f64 = 122.0;
const ROW_GAP: f64 = 118.0;
/// A panel's longer side.
const LONGEST: f64 = 440.0;
/// The longer side of a slice: so long that cells are `SLICE_CELL` dots wide, as far as the two ends allow.
const SLICE: [f64; 2] = [900.0, 2000.0];
const SLICE_CELL: f64 = 4.0;
/// Of a title that is longer, the rest is left out.
const TITLE: usize = 200;

impl Layout {
    fn of(model: &Model, slice: Option<Slice>) -> Layout {
        let header = model.header();
        let [min, max] = [header.min, header.max].map(|corner| corner.map(f64::from));
        let extent = [0, 1, 2].map(|axis| max[axis] - min[axis]);
        let grid = f64::from(header.grid);
        let (panels, scale, least) = match slice {
            None => {
                let panels = vec![[0, 1], [0, 2], [1, 2]];
                let long = extent.into_iter().fold(0.0, f64::max);
                (panels, LONGEST / long, 24.0)
            }
            Some(slice) => {
                let [a, b] = slice.axes().map(|axis| extent[axis]);
                let (long, short) = (a.max(b), a.min(b));
                let longest = (SLICE_CELL * grid * (long / short)).clamp(SLICE[0], SLICE[1]);
                let least = (SLICE_CELL / 2.0 * grid).max(24.0);
                (vec![slice.axes()], longest / long, least)
            }
        };
        let mut layout = Layout {
            grid: header.grid,
            scale,
            min,
            extent,
            least,
            panels,
            left: 0.0,
        };
        let labels =
            |&[_, up]: &[usize; 2]| widest(&ticks_upward(min[up], max[up], layout.size(up)));
        let widest = layout.panels.iter().map(labels).fold(0.0, f64::max);
        layout.left = (widest + 20.0).max(92.0);
        layout
    }

    fn size(&self, axis: usize) -> f64 {
        (self.extent[axis] * self.scale).max(self.least)
    }

    /// The height of a row of panels.
    fn row(&self) -> f64 {
        let heights = self.panels.iter().map(|&[_, up]| self.size(up));
        heights.fold(0.0, f64::max)
    }

    /// A cell's dots along an axis.
    fn dots(&self, axis: usize) -> f64 {
        self.size(axis) / f64::from(self.grid)
    }

    /// A column's place in a panel, in whole dots, so that neighbours leave no gap.
    fn cell(&self, axes: [usize; 2], [column, row]: [u32; 2], area: Rect) -> Rect {
        let [w, h] = axes.map(|axis| self.dots(axis));
        let right = |column: u32| (area.x + f64::from(column) * w).round();
        let up = |row: u32| (area.y + area.h - f64::from(row) * h).round();
        let (x, y) = (right(column), up(row + 1));
        Rect {
            x,
            y,
            w: (right(column + 1) - x).max(1.0),
            h: (up(row) - y).max(1.0),
        }
    }

    /// Columns, row by row, as rectangles: neighbours in a row are one.
    fn runs(&self, axes: [usize; 2], columns: &[[u32; 2]], area: Rect) -> Vec<Rect> {
        let follows = |a: &[u32; 2], b: &[u32; 2]| a[1] == b[1] && a[0] + 1 == b[0];
        let runs = columns.chunk_by(follows).map(|run| {
            let [first, last] =
                [run[0], run[run.len() - 1]].map(|cell| self.cell(axes, cell, area));
            Rect {
                w: last.x + last.w - first.x,
                ..first
            }
        });
        runs.collect()
    }
}

impl<'a> Picture<'a> {
    /// A picture of a model, without a title.
    pub fn new(model: &'a Model) -> Picture<'a> {
        Picture {
            model,
            before: None,
            mass: Mass::default(),
            title: String::new(),
            slice: None,
        }
    }

    /// The picture as SVG text.
    ///
    /// ```
    /// use mascon::{draw::{Picture, Slice}, shapes, Model};
    ///
    /// let (mesh, kernels) = shapes::contact_binary(6);
    /// let model = Model::fill(&mesh, &kernels, &kernels, 0.0, 1.0, 12)?;
    /// let picture = Picture { title: "body".into(), ..Picture::new(&model) };
    /// assert!(picture.svg().unwrap().starts_with("<svg"));
    /// let layer = Picture { slice: Some(Slice::Z(6)), ..picture };
    /// assert!(layer.svg().unwrap().contains("body, layer z = 6"));
    /// # Ok::<(), mascon::Refusal>(())
    /// ```
    ///
    /// # Errors
    /// [`PictureError`] where `before` has another grid or box, or the slice lies outside the grid.
    pub fn svg(&self) -> Result<String, PictureError> {
        let [width, height] = self.size();
        let mut svg = svg::Svg::new(width, height);
        self.draw(&mut svg)?;
        Ok(svg.finish())
    }

    /// The picture as the bytes of a PNG file.
    ///
    /// # Errors
    /// As [`svg`](Picture::svg).
    pub fn png(&self) -> Result<Vec<u8>, PictureError> {
        let [width, height] = self.size();
        let mut dots = png::Dots::new(width, height);
        self.draw(&mut dots)?;
        Ok(dots.png())
    }

    /// Whether a cell is in the picture: any, or those of the slice.
    pub fn shows(&self, cell: [u32; 3]) -> bool {
        self.slice.is_none_or(|slice| slice.has(cell))
    }

    /// The points that are drawn.
    fn points(&self) -> impl Iterator<Item = Point> + '_ {
        let points = self.model.points();
        points.filter(|point| self.shows([point.x, point.y, point.z]))
    }

    fn facts(&self) -> String {
        let header = self.model.header();
        let (mut points, mut cauchy, mut elliptic) = (0, 0.0, 0.0);
        for point in self.points() {
            points += 1;
            cauchy += f64::from(point.cauchy_mass);
            elliptic += f64::from(point.elliptic_mass);
        }
        let [x, y, z] = header.cell_size().map(rounded);
        let (layer, cell) = match self.slice {
            None => (String::new(), format!(", cell {x} x {y} x {z} m")),
            Some(slice) => {
                let index = slice.index();
                let middle = header.middle(index, index, index)[slice.axis()];
                let layer = format!("layer {slice} at {} m, ", rounded(middle));
                (layer, String::new())
            }
        };
        format!(
            "grid {}, {layer}{points} points, Cauchy mass {} kg, elliptic mass {} kg{cell}",
            header.grid,
            rounded(cauchy),
            rounded(elliptic),
        )
    }

    fn title(&self) -> String {
        let title = match self.title.char_indices().nth(TITLE) {
            Some((end, _)) => format!("{}...", &self.title[..end]),
            None => self.title.clone(),
        };
        match self.slice {
            None => title,
            Some(slice) if title.is_empty() => format!("layer {slice}"),
            Some(slice) => format!("{title}, layer {slice}"),
        }
    }

    fn size(&self) -> [f64; 2] {
        let layout = Layout::of(self.model, self.slice);
        let letters = self.facts().len().max(self.title().chars().count());
        let panels = layout.panels.iter();
        let panels: f64 = panels
            .map(|&[right, _]| layout.size(right) + layout.left + GAP)
            .sum();
        let rows = if self.slice.is_some() { 1.0 } else { 2.0 };
        let legend = if self.before.is_some() { 44.0 } else { 0.0 };
        [
            (panels + 205.0).max(LETTER * letters as f64 + 48.0),
            TOP + rows * (layout.row() + ROW_GAP) + legend - 20.0,
        ]
    }

    fn projections(&self, panels: &[[usize; 2]]) -> Vec<Projection> {
        let grid = self.model.grid() as usize;
        let empty = |&axes: &[usize; 2]| Projection {
            axes,
            columns: vec![(0, 0.0); grid * grid],
        };
        let mut projections: Vec<Projection> = panels.iter().map(empty).collect();
        for point in self.points() {
            let cell = [point.x, point.y, point.z].map(|index| index as usize);
            let mass = match self.mass {
                Mass::Cauchy => point.cauchy_mass,
                Mass::Elliptic => point.elliptic_mass,
            };
            for Projection { axes, columns } in &mut projections {
                let column = &mut columns[cell[axes[1]] * grid + cell[axes[0]]];
                column.0 += 1;
                column.1 += f64::from(mass);
            }
        }
        projections
    }

    fn sheet(&self) -> Result<Sheet, PictureError> {
        let grid = self.model.grid();
        if let Some(slice) = self.slice.filter(|slice| slice.index() >= grid) {
            return Err(PictureError::NoSuchLayer { slice, grid });
        }
        let mut difference = match self.before {
            Some(before) => difference(before, self.model)?,
            None => Difference::default(),
        };
        let mut elsewhere = 0;
        for cells in [
            &mut difference.added,
            &mut difference.removed,
            &mut difference.changed,
        ] {
            let all = cells.len();
            cells.retain(|&cell| self.shows(cell));
            elsewhere += all - cells.len();
        }
        let layout = Layout::of(self.model, self.slice);
        Ok(Sheet {
            projections: self.projections(&layout.panels),
            slice: self.slice,
            layout,
            difference,
            elsewhere,
        })
    }

    fn draw(&self, canvas: &mut impl Canvas) -> Result<(), PictureError> {
        let sheet = self.sheet()?;
        canvas.text([24.0, 36.0], Anchor::Start, true, &self.title(), INK);
        canvas.text([24.0, 62.0], Anchor::Start, false, &self.facts(), FAINT);
        let mass = match self.mass {
            Mass::Cauchy => "Cauchy mass",
            Mass::Elliptic => "elliptic mass",
        };
        let cells: fn(&Sums) -> f64 = |column| f64::from(column.0);
        let weighed: fn(&Sums) -> f64 = |column| column.1;
        let rows = match self.slice {
            None => vec![
                (["occupied cells", "cells a column"], cells),
                ([mass, "kg a column"], weighed),
            ],
            Some(_) => vec![([mass, "kg a cell"], weighed)],
        };
        let mut top = TOP;
        for (names, value) in rows {
            sheet.row(canvas, top, names, value);
            top += sheet.layout.row() + ROW_GAP;
        }
        if self.before.is_some() {
            sheet.legend(canvas, top - ROW_GAP + 92.0);
        }
        Ok(())
    }
}

/// What is drawn, and where.
struct Sheet {
    layout: Layout,
    projections: Vec<Projection>,
    slice: Option<Slice>,
    difference: Difference,
    /// How many edited cells are not drawn.
    elsewhere: usize,
}

impl Sheet {
    /// The panels of one quantity, side by side, and its colour scale.
    fn row(&self, canvas: &mut impl Canvas, top: f64, names: [&str; 2], value: fn(&Sums) -> f64) {
        let columns = self.projections.iter().flat_map(|p| &p.columns);
        let range = columns
            .map(value)
            .fold((0.0_f64, 0.0_f64), |(low, high), x| {
                (low.min(x), high.max(x))
            });
        let (low, high) = match range {
            (low, high) if high > low => (low, high),
            (low, _) => (low, low + 1.0),
        };
        let level = |column: &Sums| {
            let share = (value(column) - low) / (high - low);
            ((share * (LEVELS - 1) as f64).round() as usize).min(LEVELS - 1)
        };
        let mut left = self.layout.left;
        for projection in &self.projections {
            let [right, up] = projection.axes;
            let (w, h) = (self.layout.size(right), self.layout.size(up));
            // Panels stand on one line.
            let (x, y) = (left, top + self.layout.row() - h);
            self.panel(canvas, projection, Rect { x, y, w, h }, level);
            left += w + self.layout.left + GAP;
        }
        // The scale stands right of the panels.
        let bar = Rect {
            x: left - self.layout.left + 14.0,
            y: top,
            w: 18.0,
            h: self.layout.row(),
        };
        color_scale(canvas, bar, names, [low, high]);
    }

    fn panel(
        &self,
        canvas: &mut impl Canvas,
        projection: &Projection,
        area: Rect,
        level: impl Fn(&Sums) -> usize,
    ) {
        let [right, up] = projection.axes;
        let place = match self.slice {
            None => format!("along {}", AXES[3 - right - up]),
            Some(slice) => format!("at {slice}"),
        };
        let heading = format!("{}{} {place}", AXES[right], AXES[up]);
        let above = [area.x, area.y - 16.0];
        canvas.text(above, Anchor::Start, true, &heading, INK);
        canvas.rects(&[area], GROUND);
        self.axes(canvas, projection.axes, area);
        self.cells(canvas, projection, area, level);
        if self.slice.is_some() {
            canvas.rects(&slice::outline(&self.layout, projection, area), INK);
        }
        self.marks(canvas, projection.axes, area);
    }

    fn axes(&self, canvas: &mut impl Canvas, [right, up]: [usize; 2], area: Rect) {
        let Rect { x, y, w, h } = area;
        let Layout { min, extent, .. } = self.layout;
        for (tick, label) in ticks_across(min[right], min[right] + extent[right], w) {
            let at = x + (tick - min[right]) / extent[right] * w;
            canvas.line([at, y], [at, y + h], 1.0, LINE);
            canvas.line([at, y + h], [at, y + h + 5.0], 1.0, INK);
            canvas.text([at, y + h + 24.0], Anchor::Middle, false, &label, INK);
        }
        for (tick, label) in ticks_upward(min[up], min[up] + extent[up], h) {
            let at = y + h - (tick - min[up]) / extent[up] * h;
            canvas.line([x, at], [x + w, at], 1.0, LINE);
            canvas.line([x - 5.0, at], [x, at], 1.0, INK);
            canvas.text([x - 10.0, at + 6.0], Anchor::End, false, &label, INK);
        }
        for [from, to] in [
            [[x, y], [x + w, y]],
            [[x, y + h], [x + w, y + h]],
            [[x, y], [x, y + h]],
            [[x + w, y], [x + w, y + h]],
        ] {
            canvas.line(from, to, 1.0, FAINT);
        }
        let [across, upward] = [right, up].map(|axis| format!("{} [m]", AXES[axis]));
        let below = [x + w / 2.0, y + h + 48.0];
        canvas.text(below, Anchor::Middle, false, &across, FAINT);
        canvas.text([x - 10.0, y - 16.0], Anchor::End, false, &upward, FAINT);
    }

    /// The columns with occupied cells, in the colours of their levels.
    fn cells(
        &self,
        canvas: &mut impl Canvas,
        Projection { axes, columns }: &Projection,
        area: Rect,
        level: impl Fn(&Sums) -> usize,
    ) {
        let mut levels: Vec<Vec<[u32; 2]>> = vec![Vec::new(); LEVELS];
        for (i, column) in (0_u32..).zip(columns) {
            if column.0 > 0 {
                levels[level(column)].push([i % self.layout.grid, i / self.layout.grid]);
            }
        }
        for (level, columns) in levels.iter().enumerate() {
            canvas.rects(&self.layout.runs(*axes, columns, area), level_color(level));
        }
    }

    /// A mark on each column with edited cells. Where columns are narrow they take the mark's colour, and the ones that stand alone
    /// have the mark too.
    fn marks(&self, canvas: &mut impl Canvas, axes: [usize; 2], area: Rect) {
        let grid = self.layout.grid as usize;
        let [w, h] = axes.map(|axis| self.layout.dots(axis));
        let narrow = w.min(h) < 8.0;
        let r = (w.min(h) * 0.36).clamp(4.5, 9.0);
        // How many columns a mark reaches over.
        let reach = [w, h].map(|size| (2.0 * r / size).ceil() as usize);
        for (kind, _, cells) in self.kinds() {
            let mut edited = vec![false; grid * grid];
            for cell in cells {
                let [column, row] = axes.map(|axis| cell[axis] as usize);
                edited[row * grid + column] = true;
            }
            let places = (0..grid * grid).filter(|&i| edited[i]);
            let columns: Vec<[u32; 2]> = places
                .map(|i| [i % grid, i / grid].map(|index| index as u32))
                .collect();
            if narrow {
                let rects = self.layout.runs(axes, &columns, area);
                canvas.rects(&rects, kind.color());
            }
            for column in columns {
                if !narrow || alone(&edited, grid, column, reach) {
                    let Rect { x, y, w, h } = self.layout.cell(axes, column, area);
                    mark(canvas, kind, [x + w / 2.0, y + h / 2.0], r);
                }
            }
        }
    }

    /// What can have been done to cells, its name, and the cells. Later marks stand over earlier ones.
    fn kinds(&self) -> [(Kind, &'static str, &[[u32; 3]]); 3] {
        [
            (Kind::Changed, "changed", &self.difference.changed),
            (Kind::Added, "added", &self.difference.added),
            (Kind::Removed, "removed", &self.difference.removed),
        ]
    }

    fn legend(&self, canvas: &mut impl Canvas, y: f64) {
        let mut x = 34.0;
        let [changed, added, removed] = self.kinds();
        for (kind, name, cells) in [added, removed, changed] {
            mark(canvas, kind, [x, y - 6.0], 9.0);
            let text = format!("{} {name}", cells.len());
            canvas.text([x + 18.0, y], Anchor::Start, false, &text, INK);
            x += LETTER * text.len() as f64 + 60.0;
        }
        let words = match self.slice {
            None => "cells; each column with one is marked".to_string(),
            Some(_) => format!("in this layer; {} cells in others", self.elsewhere),
        };
        canvas.text([x - 12.0, y], Anchor::Start, false, &words, FAINT);
    }
}

/// Whether no other edited column lies within reach of a mark.
fn alone(edited: &[bool], grid: usize, place: [u32; 2], reach: [usize; 2]) -> bool {
    let [column, row] = place.map(|index| index as usize);
    let near = |at: usize, reach: usize| at.saturating_sub(reach)..=(at + reach).min(grid - 1);
    near(row, reach[1]).all(|other_row| {
        near(column, reach[0])
            .all(|other| (other, other_row) == (column, row) || !edited[other_row * grid + other])
    })
}

/// A bar of all levels with its values.
fn color_scale(
    canvas: &mut impl Canvas,
    bar: Rect,
    [name, unit]: [&str; 2],
    [low, high]: [f64; 2],
) {
    let h = bar.h / LEVELS as f64;
    for level in 0..LEVELS {
        let y = bar.y + bar.h - (level + 1) as f64 * h;
        let h = h + 0.5;
        canvas.rects(&[Rect { y, h, ..bar }], level_color(level));
    }
    canvas.text([bar.x, bar.y - 38.0], Anchor::Start, true, name, INK);
    canvas.text([bar.x, bar.y - 16.0], Anchor::Start, false, unit, FAINT);
    let whole = unit.starts_with("cells") && high < 5.0;
    let right = bar.x + bar.w;
    for (tick, label) in ticks(low, high, if whole { high.max(1.0) } else { 5.0 }) {
        let y = bar.y + bar.h - (tick - low) / (high - low) * bar.h;
        canvas.line([right, y], [right + 5.0, y], 1.0, INK);
        canvas.text([right + 10.0, y + 6.0], Anchor::Start, false, &label, INK);
    }
}

#[derive(Clone, Copy)]
enum Kind {
    Added,
    Removed,
    Changed,
}

impl Kind {
    fn color(self) -> Color {
        match self {
            Kind::Added => ADDED,
            Kind::Removed => REMOVED,
            Kind::Changed => CHANGED,
        }
    }
}

/// A plus, a cross or a diamond, on white.
fn mark(canvas: &mut impl Canvas, kind: Kind, [x, y]: [f64; 2], r: f64) {
    let at = |dx: f64, dy: f64| [x + dx * r, y + dy * r];
    let lines = match kind {
        Kind::Added => vec![[at(-1.0, 0.0), at(1.0, 0.0)], [at(0.0, -1.0), at(0.0, 1.0)]],
        Kind::Removed => vec![
            [at(-0.8, -0.8), at(0.8, 0.8)],
            [at(-0.8, 0.8), at(0.8, -0.8)],
        ],
        Kind::Changed => vec![
            [at(-1.0, 0.0), at(0.0, -1.0)],
            [at(0.0, -1.0), at(1.0, 0.0)],
            [at(1.0, 0.0), at(0.0, 1.0)],
            [at(0.0, 1.0), at(-1.0, 0.0)],
        ],
    };
    for (width, color) in [(5.5, WHITE), (2.6, kind.color())] {
        for &[from, to] in &lines {
            canvas.line(from, to, width, color);
        }
    }
}

#[cfg(test)]
mod tests {
    use super::*;

    /// Labels differ from each other, say their place, and do not touch.
    #[test]
    fn labels_tell_places_apart() {
        for (low, high) in [
            (-733.0, 733.0),
            (999_000.0, 1e6),
            (-999_999.0, -999_998.0),
            (0.0, 2.0),
            (0.0, 3e9),
            (-2e-38, 1e-38),
            (-3e38, 3e38),
        ] {
            for size in [24.0, 100.0, 271.0, 440.0] {
                let across = ticks_across(low, high, size);
                assert!(across.len() < 2 || widest(&across) <= size, "{across:?}");
                let upward = ticks_upward(low, high, size);
                for ticks in [&across, &upward] {
                    assert!(
                        ticks.windows(2).all(|two| two[0].1 != two[1].1),
                        "{ticks:?}"
                    );
                    let near = |(place, label): &(f64, String)| {
                        let read: f64 = label.parse().unwrap();
                        (read - place).abs() <= (high - low) * 1e-3
                    };
                    assert!(ticks.iter().all(near), "{ticks:?}");
                }
            }
        }
        assert_eq!(label(-250_000.0, 200.0), "-250000");
        assert_eq!(label(2.5e9, 5e8), "2.5e9");
        assert_eq!(rounded(45.811_874), "45.81");
    }
}
