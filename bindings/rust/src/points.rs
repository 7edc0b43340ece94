use crate::boxes::Metres;
use crate::{cells, ffi, Labelled, OpenError, Refusal};

/// The length of a point file's header.
pub(crate) const HEADER: usize = 64;
/// The length of a record.
pub(crate) const RECORD: usize = 16;
/// Word 0 of a point file: RYM1.
pub(crate) const POINTS_WORD: u32 = 0x314d_5952;

pub(crate) fn word_at(bytes: &[u8], at: usize) -> u32 {
    u32::from_le_bytes([bytes[at], bytes[at + 1], bytes[at + 2], bytes[at + 3]])
}

pub(crate) fn half_at(bytes: &[u8], at: usize) -> u16 {
    u16::from_le_bytes([bytes[at], bytes[at + 1]])
}

pub(crate) fn float_at(bytes: &[u8], at: usize) -> f32 {
    f32::from_bits(word_at(bytes, at))
}

pub(crate) fn floats_at(bytes: &[u8], at: usize) -> [f32; 3] {
    [0, 4, 8].map(|axis| float_at(bytes, at + axis))
}

/// An occupied cell with its two masses.
#[derive(Clone, Copy, Debug, PartialEq)]
pub struct Point {
    /// The cell's index on x, from 0.
    pub x: u32,
    /// The cell's index on y, from 0.
    pub y: u32,
    /// The cell's index on z, from 0.
    pub z: u32,
    /// The mass by the Cauchy kernels, in kilograms.
    pub cauchy_mass: f32,
    /// The mass by the elliptic kernels, in kilograms.
    pub elliptic_mass: f32,
}

impl Point {
    #[inline]
    pub(crate) fn at(bytes: &[u8], record: usize) -> Point {
        let record = &bytes[HEADER + RECORD * record..][..RECORD];
        Point {
            x: half_at(record, 0).into(),
            y: half_at(record, 2).into(),
            z: half_at(record, 4).into(),
            cauchy_mass: float_at(record, 8),
            elliptic_mass: float_at(record, 12),
        }
    }

    /// The cell's number in a grid, `(z * grid + y) * grid + x`, none outside it or where the grid is above 256.
    ///
    /// ```
    /// let point = mascon::Point { x: 1, y: 2, z: 3, cauchy_mass: 1.0, elliptic_mass: 1.0 };
    /// assert_eq!((point.cell(4), point.cell(3)), (Some(57), None));
    /// ```
    pub fn cell(&self, grid: u32) -> Option<u32> {
        let inside = [self.x, self.y, self.z].iter().all(|&index| index < grid);
        (inside && grid <= crate::MAX_GRID).then(|| (self.z * grid + self.y) * grid + self.x)
    }
}

/// The header of a point file.
#[derive(Clone, Copy, Debug, PartialEq)]
pub struct Header {
    /// Cells on each axis, 1 to 256.
    pub grid: u32,
    /// How many records follow.
    pub count: u32,
    /// The constant density, in kilograms per cubic metre.
    pub constant_density: f32,
    /// A cell's volume, in cubic metres.
    pub cell_volume: f32,
    /// What the Cauchy masses were multiplied by.
    pub cauchy_scale: f32,
    /// The box's least corner, in metres.
    pub min: [f32; 3],
    /// The box's greatest corner, in metres.
    pub max: [f32; 3],
    /// The sum of the Cauchy masses before scaling, when the file was filled. Edits leave it.
    pub cauchy_raw: f32,
    /// The sum of the elliptic masses before scaling, when the file was filled. Edits leave it.
    pub elliptic_raw: f32,
}

impl Header {
    pub(crate) fn of(bytes: &[u8]) -> Header {
        Header {
            grid: word_at(bytes, 8),
            count: word_at(bytes, 12),
            constant_density: float_at(bytes, 16),
            cell_volume: float_at(bytes, 20),
            cauchy_scale: float_at(bytes, 24),
            min: floats_at(bytes, 32),
            max: floats_at(bytes, 44),
            cauchy_raw: float_at(bytes, 56),
            elliptic_raw: float_at(bytes, 60),
        }
    }

    /// A cell's edges in metres.
    pub fn cell_size(&self) -> [f64; 3] {
        let edge = |axis: usize| {
            (f64::from(self.max[axis]) - f64::from(self.min[axis])) / f64::from(self.grid)
        };
        [edge(0), edge(1), edge(2)]
    }

    /// The middle of a cell in metres.
    pub fn middle(&self, x: u32, y: u32, z: u32) -> [f64; 3] {
        Metres::of(self).place([x, y, z].map(f64::from))
    }

    /// The cell that a place in metres lies in, or none outside the box, which it is held against in the box's binary32. A place on
    /// a face between two cells lies in the upper one; the box's greatest faces belong to the last cells.
    ///
    /// ```
    /// let header = mascon::Model::open(&mascon::shapes::empty_file(8, [-4.0; 3], [4.0; 3]))?.header();
    /// assert_eq!(header.cell_at([-4.0, 0.0, 4.0]), Some([0, 4, 7]));
    /// assert_eq!(header.cell_at([-4.1, 0.0, 4.0]), None);
    /// # Ok::<(), mascon::Refusal>(())
    /// ```
    pub fn cell_at(&self, place: [f64; 3]) -> Option<[u32; 3]> {
        let last = self.grid.checked_sub(1)?;
        let cell = self.cell_size();
        let mut indices = [0; 3];
        for axis in 0..3 {
            let sides = self.min[axis]..=self.max[axis];
            if !sides.contains(&(place[axis] as f32)) {
                return None;
            }
            let scaled = (place[axis] - f64::from(self.min[axis])) / cell[axis];
            indices[axis] = (scaled as u32).min(last);
        }
        Some(indices)
    }
}

/// The points of a file, in file order.
#[derive(Clone, Debug)]
pub struct Points<'a> {
    bytes: &'a [u8],
    records: std::ops::Range<usize>,
}

impl<'a> Points<'a> {
    pub(crate) fn of(bytes: &'a [u8]) -> Points<'a> {
        let records = 0..word_at(bytes, 12) as usize;
        Points { bytes, records }
    }
}

impl Iterator for Points<'_> {
    type Item = Point;

    fn next(&mut self) -> Option<Point> {
        self.records.next().map(|i| Point::at(self.bytes, i))
    }

    fn nth(&mut self, n: usize) -> Option<Point> {
        self.records.nth(n).map(|i| Point::at(self.bytes, i))
    }

    fn size_hint(&self) -> (usize, Option<usize>) {
        self.records.size_hint()
    }
}

impl DoubleEndedIterator for Points<'_> {
    fn next_back(&mut self) -> Option<Point> {
        self.records.next_back().map(|i| Point::at(self.bytes, i))
    }

    fn nth_back(&mut self, n: usize) -> Option<Point> {
        self.records.nth_back(n).map(|i| Point::at(self.bytes, i))
    }
}

impl ExactSizeIterator for Points<'_> {}

/// The grid that a file's header gives, where it is 1 to 256.
pub(crate) fn grid_of(file: &[u8]) -> Option<u32> {
    let grid = (file.len() >= HEADER).then(|| word_at(file, 8))?;
    (1..=crate::MAX_GRID).contains(&grid).then_some(grid)
}

/// How many records a file has: as many as its header counts, as far as they are there.
pub(crate) fn records_of(file: &[u8]) -> usize {
    if file.len() < HEADER {
        return 0;
    }
    ((file.len() - HEADER) / RECORD).min(word_at(file, 12) as usize)
}

/// Causes 1 to 7 and 21 of a file.
pub(crate) fn judge(file: &[u8]) -> Result<(), OpenError> {
    let opened = ffi::open(file, &mut scratch(file), &mut [], &mut []);
    judged(file, opened)
}

/// The cause by which a call refuses a file. Lent no byte of output, it answers 9 exactly where no other one holds.
pub(crate) fn judged<T>(file: &[u8], answer: Result<T, Refusal>) -> Result<(), OpenError> {
    match answer {
        Err(Refusal::OutputTooShort) => Ok(()),
        Err(refusal) => Err(OpenError::of(refusal, file)),
        Ok(_) => unreachable!("what is written has a header, which takes 64 bytes of output"),
    }
}

/// Scratch for opening or folding a file, and for building one that is not in working form: a word for each cell.
pub(crate) fn scratch(file: &[u8]) -> Vec<u32> {
    vec![0; grid_of(file).map_or(0, cells)]
}

/// Scratch for building a file that is in working form.
pub(crate) fn small_scratch(file: &[u8]) -> Vec<u32> {
    vec![0; grid_of(file).map_or(0, small_words)]
}

/// How many words that is at a grid: for every 32 cells one of marks and one total.
fn small_words(grid: u32) -> usize {
    2 * cells(grid).div_ceil(32)
}

/// The same in bytes.
pub(crate) fn small_bytes(grid: u32) -> usize {
    size_of::<u32>() * small_words(grid)
}

/// A point file that was judged, its records as they stand: their order is kept.
///
/// For edits, make it a [`Model`](crate::Model) with [`open`](MasconSource::open).
#[derive(Clone, Debug)]
pub struct MasconSource {
    label: String,
    bytes: Vec<u8>,
}

impl MasconSource {
    /// The label that it was parsed with.
    pub fn label(&self) -> &str {
        &self.label
    }

    /// The header.
    pub fn header(&self) -> Header {
        Header::of(&self.bytes)
    }

    /// Cells on each axis.
    pub fn grid(&self) -> usize {
        self.header().grid as usize
    }

    /// How many records it has.
    pub fn count(&self) -> usize {
        self.header().count as usize
    }

    /// The records in file order, one for each occupied cell.
    pub fn points(&self) -> Points<'_> {
        Points::of(&self.bytes)
    }

    /// The file.
    pub fn as_bytes(&self) -> &[u8] {
        &self.bytes
    }

    /// The model of these points.
    ///
    /// # Errors
    /// None: it was judged when it was parsed.
    pub fn open(&self) -> Result<crate::Model, Refusal> {
        Ok(crate::Model::open(&self.bytes)?)
    }
}

/// Judges a point file and keeps it as it stands, with the original's name and arguments.
///
/// ```
/// let file = mascon::shapes::empty_file(4, [-1.0; 3], [1.0; 3]);
/// let source = mascon::parse_mascon_bytes(&file, "runtime Mascon source")?;
/// assert_eq!((source.grid(), source.count()), (4, 0));
/// # Ok::<(), mascon::Labelled>(())
/// ```
///
/// # Errors
/// 1 to 7, 21, with the label.
pub fn parse_mascon_bytes(bytes: &[u8], label: &str) -> Result<MasconSource, Labelled> {
    judge(bytes).map_err(|error| error.labelled(label))?;
    let length = HEADER + RECORD * word_at(bytes, 12) as usize;
    Ok(MasconSource {
        label: label.to_string(),
        bytes: bytes[..length].to_vec(),
    })
}

/// Builds the tree of a point file, with the original's name, arguments and answer: its bytes (RTM1), how many nodes and how many
/// ordered points it has.
///
/// ```
/// let file = mascon::shapes::empty_file(1, [0.0; 3], [2.0; 3]);
/// let source = mascon::parse_mascon_bytes(&file, "runtime Mascon source")?;
/// let (tree, nodes, ordered) = mascon::build_mascon_tree(&source)?;
/// assert_eq!((tree.len(), nodes, ordered), (144, 1, 0));
/// # Ok::<(), Box<dyn std::error::Error>>(())
/// ```
///
/// # Errors
/// 22, with the source's label and the float that is too large; the rest was judged when it was parsed.
pub fn build_mascon_tree(source: &MasconSource) -> Result<(Vec<u8>, usize, usize), Labelled> {
    let built = crate::Tree::build(&source.bytes);
    let tree = built.map_err(|error| error.labelled(&source.label))?;
    let (nodes, order) = (tree.node_count(), tree.order_count());
    Ok((tree.into_bytes(), nodes, order))
}
