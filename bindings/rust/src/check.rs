//! Point files, trees and the lists of a filling judged in full: every fault with its cause, record, field and byte.

use crate::boxes::{Cells, Metres};
use crate::floats::each_too_large;
use crate::points::{
    float_at, grid_of, half_at, judge, records_of, word_at, HEADER, POINTS_WORD, RECORD,
};
use crate::tree::{NODE, TREE_WORD};
use crate::twice::{repeated, Twice};
use crate::{
    cells, ffi, Field, Header, Kernel, Point, Refusal, Triangle, MAX_COORDINATE, MAX_GRID,
    MAX_KERNELS, MAX_SIGMA, MAX_TRIANGLES, MAX_WEIGHT,
};
use std::fmt;

/// What a fault stands in.
#[derive(Clone, Copy, Debug, PartialEq, Eq)]
pub enum Place {
    /// The file as a whole.
    File,
    /// The header.
    Header,
    /// A record of a point file, from 0.
    Record(usize),
    /// A node of a tree, from 0.
    Node(usize),
    /// A node of the tree that a point file does not get, from 0.
    Unbuilt(usize),
    /// An order word of a tree, from 0.
    Order(usize),
    /// A triangle of a mesh, from 0.
    Triangle(usize),
    /// An entry of the list of Cauchy kernels, from 0.
    CauchyKernel(usize),
    /// An entry of the list of elliptic kernels, from 0.
    EllipticKernel(usize),
    /// An argument of a filling as a whole: a list's length, or a number.
    Argument,
}

/// A fault of a file, or of what is to be filled.
#[derive(Clone, PartialEq, Eq)]
pub struct Fault {
    /// The cause by which a point file or a filling is refused. In a tree none, but where a float is infinite 22, by which its point file
    /// is refused.
    pub cause: Option<Refusal>,
    /// What it stands in.
    pub place: Place,
    /// The field's name.
    pub field: &'static str,
    /// The field's first byte, from 0; of a list, as it is lent to the library; of a node that is not built, in its tree.
    pub offset: usize,
    /// What is wrong.
    pub why: String,
}

impl fmt::Display for Fault {
    fn fmt(&self, f: &mut fmt::Formatter<'_>) -> fmt::Result {
        if let Some(cause) = self.cause {
            write!(f, "cause {}: ", cause.number())?;
        }
        match self.place {
            Place::File => write!(f, "file")?,
            Place::Header => write!(f, "header")?,
            Place::Record(i) => write!(f, "record {i}")?,
            Place::Node(i) => write!(f, "node {i}")?,
            Place::Unbuilt(i) => write!(f, "node {i} of its tree")?,
            Place::Order(i) => write!(f, "order word {i}")?,
            Place::Triangle(i) => write!(f, "triangle {i}")?,
            Place::CauchyKernel(i) => write!(f, "Cauchy kernel {i}")?,
            Place::EllipticKernel(i) => write!(f, "elliptic kernel {i}")?,
            Place::Argument => write!(f, "argument")?,
        }
        write!(f, ", {}", self.field)?;
        let of_file = !matches!(
            self.place,
            Place::Unbuilt(_)
                | Place::Triangle(_)
                | Place::CauchyKernel(_)
                | Place::EllipticKernel(_)
                | Place::Argument
        );
        if of_file {
            write!(f, ", byte {}", self.offset)?;
        }
        write!(f, ": {}", self.why)
    }
}

impl fmt::Debug for Fault {
    fn fmt(&self, f: &mut fmt::Formatter<'_>) -> fmt::Result {
        fmt::Display::fmt(self, f)
    }
}

impl std::error::Error for Fault {}

/// The faults of a file.
#[derive(Clone, Debug, Default, PartialEq, Eq)]
pub struct Report {
    /// The first ones, as many as were asked for.
    pub faults: Vec<Fault>,
    /// How many there are.
    pub total: usize,
    most: usize,
}

impl Report {
    fn new(most: usize) -> Report {
        Report {
            most,
            ..Report::default()
        }
    }

    /// Whether there is no fault.
    pub fn is_clean(&self) -> bool {
        self.total == 0
    }

    fn add(
        &mut self,
        cause: impl Into<Option<Refusal>>,
        place: Place,
        field: &'static str,
        offset: usize,
        why: String,
    ) {
        self.add_with(cause, place, field, offset, || why);
    }

    /// The same, with words that are made only where the fault is listed.
    fn add_with(
        &mut self,
        cause: impl Into<Option<Refusal>>,
        place: Place,
        field: &'static str,
        offset: usize,
        why: impl FnOnce() -> String,
    ) {
        self.total += 1;
        if self.faults.len() < self.most {
            self.faults.push(Fault {
                cause: cause.into(),
                place,
                field,
                offset,
                why: why(),
            });
        }
    }
}

const BOX_FIELDS: [[&str; 2]; 3] = [
    ["box min x", "box max x"],
    ["box min y", "box max y"],
    ["box min z", "box max z"],
];

fn header_floats(
    report: &mut Report,
    bytes: &[u8],
    names: [&'static str; 3],
    cause: Option<Refusal>,
) {
    for (i, name) in names.into_iter().enumerate() {
        let value = float_at(bytes, 16 + 4 * i);
        if !value.is_finite() {
            report.add(
                cause,
                Place::Header,
                name,
                16 + 4 * i,
                format!("{value} is not finite"),
            );
        }
    }
    for (axis, names) in BOX_FIELDS.into_iter().enumerate() {
        let at = [32 + 4 * axis, 44 + 4 * axis];
        let ends = at.map(|at| float_at(bytes, at));
        for i in 0..2 {
            if !ends[i].is_finite() {
                report.add(
                    cause,
                    Place::Header,
                    names[i],
                    at[i],
                    format!("{} is not finite", ends[i]),
                );
            }
        }
        if ends[0].is_finite() && ends[1].is_finite() && ends[0] >= ends[1] {
            let why = format!("min {} is not below max {}", ends[0], ends[1]);
            report.add(cause, Place::Header, names[0], at[0], why);
        }
    }
}

/// The faults of a point file, causes 1 to 7, then 21 for every record that names a cell again, `most` of them listed. The first one's
/// cause is the one by which it is refused.
///
/// ```
/// use mascon::{check::check_points, shapes, Model, Refusal};
///
/// let mut file = shapes::empty_file(4, [0.0; 3], [4.0; 3]);
/// file[8] = 0;
/// let report = check_points(&file, 10);
/// assert_eq!(report.faults[0].to_string(), "cause 3: header, grid, byte 8: 0 is not 1 to 256");
/// ```
pub fn check_points(bytes: &[u8], most: usize) -> Report {
    ffi::in_default_mode(|| points_report(bytes, most))
}

fn points_report(bytes: &[u8], most: usize) -> Report {
    let mut report = Report::new(most);
    if bytes.len() < HEADER {
        let why = format!("{} bytes, a header has 64", bytes.len());
        report.add(
            Refusal::FileTooShort,
            Place::File,
            "length",
            bytes.len(),
            why,
        );
        return report;
    }
    let [word, version, grid, count] = [0, 4, 8, 12].map(|at| word_at(bytes, at));
    if word != POINTS_WORD {
        let why = format!("{word:#010x} is not {POINTS_WORD:#010x} (RYM1)");
        report.add(Refusal::NotPointFile, Place::Header, "word 0", 0, why);
        return report;
    }
    if version != 1 {
        let why = format!("{version} is not 1");
        report.add(Refusal::NotPointFile, Place::Header, "version", 4, why);
    }
    if !(1..=MAX_GRID).contains(&grid) {
        let why = format!("{grid} is not 1 to 256");
        report.add(Refusal::GridOutOfRange, Place::Header, "grid", 8, why);
    }
    let there = (bytes.len() - HEADER) / RECORD;
    if there < count as usize {
        let why = format!("{count} records are counted, {there} are there");
        report.add(Refusal::RecordsMissing, Place::Header, "count", 12, why);
    }
    let names = ["density", "cell volume", "scale"];
    header_floats(&mut report, bytes, names, Some(Refusal::BadHeaderFloat));
    for record in 0..records_of(bytes) {
        record_faults(&mut report, bytes, record);
    }
    repeated_cells(&mut report, bytes);
    report
}

/// Every record that names a cell again.
fn repeated_cells(report: &mut Report, bytes: &[u8]) {
    for Twice {
        cell: [x, y, z],
        first,
        second,
    } in repeated(bytes)
    {
        let (at, place) = (HEADER + RECORD * second, Place::Record(second));
        report.add_with(Refusal::CellTwice, place, "x", at, || {
            format!("cell ({x}, {y}, {z}) again, first in record {first}")
        });
    }
}

/// The coordinates of a record, where the grid is one, and its masses.
fn record_faults(report: &mut Report, bytes: &[u8], record: usize) {
    let (at, place) = (HEADER + RECORD * record, Place::Record(record));
    for (axis, name) in ["x", "y", "z"].into_iter().enumerate() {
        let at = at + 2 * axis;
        let index = u32::from(half_at(bytes, at));
        if let Some(grid) = grid_of(bytes).filter(|&grid| index >= grid) {
            let why = format!("{index} is not below the grid, {grid}");
            report.add(Refusal::CoordinateOutOfGrid, place, name, at, why);
        }
    }
    for (offset, name) in [(8, "Cauchy mass"), (12, "elliptic mass")] {
        let mass = float_at(bytes, at + offset);
        if !mass.is_finite() {
            let why = format!("{mass} is not finite");
            report.add(Refusal::MassNotFinite, place, name, at + offset, why);
        }
    }
}

/// What keeps an accepted point file from working form (cause 10 of the edits; opening it mends that), `most` listed: records that do
/// not ascend, and pads. Bytes after the last record are no part of it, see [`trailing_bytes`].
pub fn check_working_form(bytes: &[u8], most: usize) -> Report {
    let mut report = Report::new(most);
    let mut last = None;
    for i in 0..records_of(bytes) {
        let (at, place) = (HEADER + RECORD * i, Place::Record(i));
        let Point { x, y, z, .. } = Point::at(bytes, i);
        // The order of cell numbers, wherever these lie in the grid.
        let cell = [z, y, x];
        if last.is_some_and(|last| cell < last) {
            report.add_with(Refusal::NotWorkingForm, place, "x", at, || {
                format!("cell ({x}, {y}, {z}) stands after a later cell")
            });
        }
        last = Some(cell);
        let pad = half_at(bytes, at + 6);
        if pad != 0 {
            report.add_with(Refusal::NotWorkingForm, place, "pad", at + 6, || {
                format!("{pad} is not 0")
            });
        }
    }
    report
}

/// What keeps an accepted point file from having a tree (cause 22 of build; open and the edits take the file), `most` listed: the floats
/// of its tree that are too large, in preorder. Of a file that is not accepted nothing is said; see [`check_points`].
///
/// It takes a walk over the whole tree, some of the time that building it takes.
///
/// ```
/// use mascon::{check::check_floats, shapes, Model};
///
/// let mut model = Model::open(&shapes::empty_file(4, [0.0; 3], [4.0; 3]))?;
/// model.put(1, 2, 3, 0.0, -2.0e38)?;
/// assert!(check_floats(model.as_bytes(), 10).is_clean());
/// model.put(3, 2, 1, 0.0, -2.0e38)?;
/// let report = check_floats(model.as_bytes(), 10);
/// assert_eq!(
///     report.faults[0].to_string(),
///     "cause 22: node 0 of its tree, elliptic sum: -3.999999872114277e38 is too large for a float, in cells (0, 0, 0) to (3, 3, 3)"
/// );
/// # Ok::<(), mascon::Refusal>(())
/// ```
pub fn check_floats(bytes: &[u8], most: usize) -> Report {
    let mut report = Report::new(most);
    if judge(bytes).is_err() {
        return report;
    }
    each_too_large(bytes, |float| {
        let (node, field) = (float.node as usize, float.field);
        let (place, at) = (Place::Unbuilt(node), HEADER + NODE * node + field.offset());
        report.add_with(Refusal::FloatTooLarge, place, field.name(), at, || {
            let (value, cells) = (float.value, float.cells());
            format!("{value:e} is too large for a float, in {cells}")
        });
        true
    });
    report
}

/// How many bytes follow the last record of a point file. No call reads them; opening the file drops them.
///
/// ```
/// use mascon::{check::trailing_bytes, shapes};
///
/// let mut file = shapes::empty_file(4, [0.0; 3], [4.0; 3]);
/// file.extend([7; 5]);
/// assert_eq!(trailing_bytes(&file), 5);
/// ```
pub fn trailing_bytes(bytes: &[u8]) -> usize {
    if bytes.len() < HEADER {
        return 0;
    }
    let count = word_at(bytes, 12) as usize;
    bytes.len().saturating_sub(HEADER + RECORD * count)
}

/// The faults by which a filling is refused (17), `most` of them listed: lengths of lists, and every number out of its bounds.
///
/// ```
/// use mascon::{check::check_lists, shapes, Kernel};
///
/// let (mesh, mut kernels) = shapes::contact_binary(4);
/// kernels[1].sigma = -0.5;
/// let report = check_lists(&mesh, &kernels, &[], f64::NAN, 1190.0, 10);
/// assert_eq!(report.faults[0].to_string(), "cause 17: Cauchy kernel 1, sigma: -0.5 is not 0 to 1e6");
/// assert_eq!(report.faults[1].to_string(), "cause 17: argument, target mass: NaN is not a number");
/// ```
pub fn check_lists(
    triangles: &[Triangle],
    cauchy_kernels: &[Kernel],
    elliptic_kernels: &[Kernel],
    cauchy_target_mass: f64,
    constant_density: f64,
    most: usize,
) -> Report {
    ffi::in_default_mode(|| {
        let mut report = Report::new(most);
        let count = triangles.len();
        if !(1..=MAX_TRIANGLES).contains(&count) {
            let why = format!("{count}, a mesh has 1 to 2^20");
            report.out_of_bounds(Place::Argument, "triangles", 0, why);
        }
        for (i, triangle) in triangles.iter().enumerate() {
            triangle_faults(&mut report, i, triangle);
        }
        kernel_faults(
            &mut report,
            cauchy_kernels,
            "Cauchy kernels",
            Place::CauchyKernel,
        );
        kernel_faults(
            &mut report,
            elliptic_kernels,
            "elliptic kernels",
            Place::EllipticKernel,
        );
        for (name, value) in [
            ("target mass", cauchy_target_mass),
            ("density", constant_density),
        ] {
            report.up_to(MAX_WEIGHT, "1e30", Place::Argument, (name, 0), value);
        }
        report
    })
}

impl Report {
    fn out_of_bounds(&mut self, place: Place, field: &'static str, offset: usize, why: String) {
        self.add(Refusal::OutOfBounds, place, field, offset, why);
    }

    /// A magnitude up to the limit.
    fn up_to(
        &mut self,
        limit: f64,
        words: &str,
        place: Place,
        (field, offset): (&'static str, usize),
        value: f64,
    ) {
        if value.is_nan() {
            self.out_of_bounds(place, field, offset, "NaN is not a number".into());
        } else if value.abs() > limit {
            let why = format!("{value:e} is above {words} in magnitude");
            self.out_of_bounds(place, field, offset, why);
        }
    }
}

fn triangle_faults(report: &mut Report, i: usize, triangle: &Triangle) {
    let names = [
        ["a x", "a y", "a z"],
        ["b x", "b y", "b z"],
        ["c x", "c y", "c z"],
    ];
    let corners = [triangle.a, triangle.b, triangle.c];
    let fields = names.as_flattened().iter().zip(corners.as_flattened());
    for (k, (name, &x)) in fields.enumerate() {
        let field = (*name, 72 * i + 8 * k);
        report.up_to(MAX_COORDINATE, "1e6 m", Place::Triangle(i), field, x);
    }
}

fn kernel_faults(
    report: &mut Report,
    kernels: &[Kernel],
    name: &'static str,
    place: impl Fn(usize) -> Place,
) {
    if kernels.len() > MAX_KERNELS {
        let why = format!("{}, a list has up to 4,096", kernels.len());
        report.out_of_bounds(Place::Argument, name, 0, why);
    }
    for (i, kernel) in kernels.iter().enumerate() {
        for (k, name) in ["centre x", "centre y", "centre z"].into_iter().enumerate() {
            let field = (name, 40 * i + 8 * k);
            report.up_to(MAX_COORDINATE, "1e6 m", place(i), field, kernel.c[k]);
        }
        if !(0.0..=MAX_SIGMA).contains(&kernel.sigma) {
            let why = format!("{} is not 0 to 1e6", kernel.sigma);
            report.out_of_bounds(place(i), "sigma", 40 * i + 24, why);
        }
        let field = ("w", 40 * i + 32);
        report.up_to(MAX_WEIGHT, "1e30", place(i), field, kernel.w);
    }
}

struct TreeWalk<'a> {
    bytes: &'a [u8],
    nodes: usize,
    metres: Metres,
    /// The next node in preorder.
    next: usize,
    /// Points of the leaves so far.
    ordered: u32,
    report: Report,
}

impl TreeWalk<'_> {
    fn fault(&mut self, node: usize, field: &'static str, offset: usize, why: String) {
        let offset = HEADER + NODE * node + offset;
        self.report.add(None, Place::Node(node), field, offset, why);
    }

    fn expect(&mut self, node: usize, field: &'static str, offset: usize, wanted: f32) {
        let found = float_at(self.bytes, HEADER + NODE * node + offset);
        if found.to_bits() != wanted.to_bits() {
            self.fault(node, field, offset, format!("{found}, should be {wanted}"));
        }
    }

    /// Judges the subtree of the next node; its place and its count, or none where the nodes end or a count is none.
    fn walk(&mut self, cells: Cells) -> Option<(usize, u32)> {
        let node = self.next;
        if node >= self.nodes {
            let why = format!("the tree goes on after its {} nodes", self.nodes);
            self.report.add(None, Place::Header, "node count", 56, why);
            return None;
        }
        self.next += 1;
        self.judge_floats(node, cells);
        let found = float_at(self.bytes, HEADER + NODE * node + 76);
        let volume = cells.volume();
        if !(0.0..=volume as f32).contains(&found)
            || found.fract() != 0.0
            || found.is_sign_negative()
        {
            self.fault(
                node,
                "count",
                76,
                format!("{found} is not a count of 0 to {volume}"),
            );
            return None;
        }
        let count = found as u32;
        let leaf = cells.is_leaf(count);
        if count == 0 || leaf {
            self.expect(node, "left", 24, -1.0);
            self.expect(node, "right", 28, -1.0);
        }
        self.expect(
            node,
            "leaf start",
            44,
            if leaf { self.ordered as f32 } else { 0.0 },
        );
        self.expect(node, "leaf count", 60, if leaf { found } else { 0.0 });
        if leaf {
            self.ordered += count;
        } else if count > 0 {
            let [left, right] = cells.halves();
            let link = |(place, count): (usize, u32)| if count == 0 { -1.0 } else { place as f32 };
            let left = self.walk(left)?;
            let right = self.walk(right)?;
            self.expect(node, "left", 24, link(left));
            self.expect(node, "right", 28, link(right));
            if left.1 + right.1 != count {
                let why = format!("{count}, its children have {} and {}", left.1, right.1);
                self.fault(node, "count", 76, why);
            }
        }
        Some((node, count))
    }

    /// The box's four floats by the box, the others by being finite.
    fn judge_floats(&mut self, node: usize, cells: Cells) {
        let [x, y, z] = self.metres.center(cells);
        let wanted = [x, y, z, self.metres.half(cells)];
        let (of_box, others) = Field::ALL.split_at(wanted.len());
        for (field, wanted) in of_box.iter().zip(wanted) {
            self.expect(node, field.name(), field.offset(), wanted as f32);
        }
        for field in others {
            let at = HEADER + NODE * node + field.offset();
            let found = float_at(self.bytes, at);
            let (cause, why) = if found.is_infinite() {
                let cause = Some(Refusal::FloatTooLarge);
                (cause, format!("{found}, which was too large for a float"))
            } else if found.is_nan() {
                (None, "NaN, which no build writes: damaged".to_string())
            } else {
                continue;
            };
            let place = Place::Node(node);
            self.report.add(cause, place, field.name(), at, why);
        }
    }
}

/// The faults of a tree file (RTM1, version 2), `most` of them listed: header, boxes, links, counts, leaf ranges and order, and floats
/// that are not finite. Masses and centres of mass are not judged otherwise, they take the point file.
///
/// An infinity stands where a float was too large, as the original writes it and builds before version 0.3.0 did. Build refuses such a
/// point file (22), which is the fault's cause.
///
/// ```
/// use mascon::{check::check_tree, shapes, Model};
///
/// let (mesh, kernels) = shapes::contact_binary(6);
/// let tree = Model::fill(&mesh, &kernels, &kernels, 0.0, 1.0, 8)?.tree()?;
/// assert!(check_tree(tree.as_bytes(), 10).is_clean());
/// # Ok::<(), mascon::Refusal>(())
/// ```
pub fn check_tree(bytes: &[u8], most: usize) -> Report {
    ffi::in_default_mode(|| tree_report(bytes, most))
}

fn tree_report(bytes: &[u8], most: usize) -> Report {
    let mut report = Report::new(most);
    tree_header(&mut report, bytes);
    if !report.is_clean() {
        return report;
    }
    let [grid, nodes] = [8, 56].map(|at| word_at(bytes, at));
    let mut walk = TreeWalk {
        bytes,
        nodes: nodes as usize,
        metres: Metres::of(&Header::of(bytes)),
        next: 0,
        ordered: 0,
        report,
    };
    let whole = walk.walk(Cells::whole(grid));
    let (next, ordered, mut report) = (walk.next, walk.ordered, walk.report);
    if whole.is_some() {
        if next != nodes as usize {
            let why = format!("{nodes} nodes, the tree has {next}");
            report.add(None, Place::Header, "node count", 56, why);
        }
        order_faults(&mut report, bytes, ordered as usize);
    }
    report
}

fn tree_header(report: &mut Report, bytes: &[u8]) {
    if bytes.len() < HEADER {
        let why = format!("{} bytes, a header has 64", bytes.len());
        return report.add(None, Place::File, "length", bytes.len(), why);
    }
    let [word, version, nodes] = [0, 4, 56].map(|at| word_at(bytes, at));
    for (name, at, found, wanted) in [("word 0", 0, word, TREE_WORD), ("version", 4, version, 2)] {
        if found != wanted {
            let why = format!("{found:#x} is not {wanted:#x}");
            return report.add(None, Place::Header, name, at, why);
        }
    }
    let Some(grid) = grid_of(bytes) else {
        let why = format!("{} is not 1 to 256", word_at(bytes, 8));
        return report.add(None, Place::Header, "grid", 8, why);
    };
    header_floats(report, bytes, ["scale", "density", "cell volume"], None);
    for at in [28, 60] {
        let word = word_at(bytes, at);
        if word != 0 {
            let why = format!("{word:#x} is not 0");
            report.add(None, Place::Header, "unused word", at, why);
        }
    }
    let (nodes, length) = (nodes as usize, bytes.len());
    if nodes == 0 || nodes > cells(grid) || nodes > (length - HEADER) / NODE {
        let why = format!("{nodes} nodes do not fit grid {grid} and {length} bytes");
        report.add(None, Place::Header, "node count", 56, why);
    }
}

/// The order words: as many as the leaves have points, each below the point count and there once.
fn order_faults(report: &mut Report, bytes: &[u8], ordered: usize) {
    let [count, nodes] = [12, 56].map(|at| word_at(bytes, at) as usize);
    let (length, first) = (bytes.len(), HEADER + NODE * nodes);
    let wanted = first + 4 * ordered;
    if length != wanted {
        let why = format!("{length} bytes, {nodes} nodes and {ordered} points take {wanted}");
        return report.add(None, Place::File, "length", length.min(wanted), why);
    }
    let mut seen = vec![false; count.min(1 << 28)];
    for i in 0..ordered {
        let at = first + 4 * i;
        let index = word_at(bytes, at);
        let why = match seen.get_mut(index as usize) {
            None => format!("{index} is not below the point count, {count}"),
            Some(true) => format!("{index} again"),
            Some(seen) => {
                *seen = true;
                continue;
            }
        };
        report.add(None, Place::Order(i), "index", at, why);
    }
}
