use crate::points::{grid_of, records_of, scratch, small_bytes, HEADER, RECORD};
use crate::twice::dropped;
use crate::{
    cells, ffi, floats, model_file, Cost, Dropped, Edit, Header, Kernel, ModelFile, ModelFileError,
    OpenError, Point, Points, Refusal, Tree, TreeFloat, Triangle,
};
use std::collections::HashMap;
use std::fmt;
use std::path::Path;

/// How many edits a journal holds.
pub const MAX_ENTRIES: usize = 1 << 24;

/// What an edit did to a cell.
#[derive(Clone, Copy, Debug, PartialEq, Eq)]
pub enum Change {
    /// A put into an empty cell.
    Added,
    /// A put over a point.
    Replaced,
    /// A remove.
    Removed,
}

/// An edit that can be undone: the cell, and what it held before.
#[derive(Clone, Copy, Debug, PartialEq)]
pub struct Entry {
    /// What the edit did.
    pub change: Change,
    /// The cell.
    pub cell: [u32; 3],
    /// The Cauchy and the elliptic mass before, none where the cell was empty.
    pub before: Option<(f32, f32)>,
}

/// An entry's three words: kind and cell number, and the bits of what the cell held.
fn entry(words: &[u32], grid: u32) -> Result<Entry, Refusal> {
    let number = words[0] & 0xff_ffff;
    let masses = (f32::from_bits(words[1]), f32::from_bits(words[2]));
    let (change, before) = match words[0] >> 30 {
        1 => (Change::Added, None),
        2 => (Change::Replaced, Some(masses)),
        3 => (Change::Removed, Some(masses)),
        _ => return Err(Refusal::BadLastEntry),
    };
    let finite = before.is_none_or(|(a, b)| a.is_finite() && b.is_finite());
    if words[0] >> 24 & 0x3f != 0 || number as usize >= cells(grid) || !finite {
        return Err(Refusal::BadLastEntry);
    }
    let cell = [number % grid, number / grid % grid, number / grid / grid];
    Ok(Entry {
        change,
        cell,
        before,
    })
}

/// What a cell holds: the Cauchy and the elliptic mass, none where it is empty.
type Masses = Option<(f32, f32)>;

/// The edit that leaves a cell so.
fn edit_to([x, y, z]: [u32; 3], after: Masses) -> Edit {
    match after {
        Some((cauchy, elliptic)) => Edit::Put(x, y, z, cauchy, elliptic),
        None => Edit::Remove(x, y, z),
    }
}

/// An edit to be made again, in three words: of kind 2 with the masses to be put, or of kind 3, a remove.
fn redo_words(number: u32, after: Masses) -> [u32; 3] {
    match after {
        Some((cauchy, elliptic)) => [2 << 30 | number, cauchy.to_bits(), elliptic.to_bits()],
        None => [3 << 30 | number, 0, 0],
    }
}

/// The cell of such an edit, and what it leaves there.
fn redo_of(words: &[u32], grid: u32) -> Result<([u32; 3], Masses), Refusal> {
    let entry = entry(words, grid)?;
    match entry.change {
        Change::Added => Err(Refusal::BadLastEntry),
        Change::Replaced => Ok((entry.cell, entry.before)),
        Change::Removed => Ok((entry.cell, None)),
    }
}

/// Why a list of edits was not made: the first edit that was refused. The model is as it was.
#[derive(Clone, Copy, PartialEq)]
pub struct ApplyError {
    /// The edit's place in the list, from 0.
    pub place: usize,
    /// The edit.
    pub edit: Edit,
    /// Why it was refused.
    pub refusal: Refusal,
}

impl fmt::Display for ApplyError {
    fn fmt(&self, f: &mut fmt::Formatter<'_>) -> fmt::Result {
        let ApplyError {
            place,
            edit,
            refusal,
        } = self;
        write!(
            f,
            "edit {place} of the list (from 0), {edit}: {refusal}; nothing is changed"
        )
    }
}

/// In words, as it is displayed.
impl fmt::Debug for ApplyError {
    fn fmt(&self, f: &mut fmt::Formatter<'_>) -> fmt::Result {
        fmt::Display::fmt(self, f)
    }
}

impl std::error::Error for ApplyError {
    fn source(&self) -> Option<&(dyn std::error::Error + 'static)> {
        Some(&self.refusal)
    }
}

/// A model under edit: the point file in working form and the journal of its edits.
///
/// It owns its buffers and grows them, so that the only limit met is [`MAX_ENTRIES`]. Each edit judges the whole file; docs/BENCHMARKS.md
/// has the time that takes.
///
/// ```
/// use mascon::{shapes, Model, Refusal};
///
/// let mut model = Model::open(&shapes::empty_file(8, [-4.0; 3], [4.0; 3]))?;
/// model.put(1, 2, 3, 5.0e6, 4.0e6)?;
/// model.put(1, 2, 3, 6.0e6, 4.0e6)?;
/// model.remove(1, 2, 3)?;
/// assert_eq!((model.len(), model.entries()), (0, 3));
///
/// model.undo()?;
/// assert_eq!(model.get(1, 2, 3).unwrap().cauchy_mass, 6.0e6);
/// model.undo()?;
/// model.undo()?;
/// assert_eq!(model.undo(), Err(Refusal::NothingToUndo));
/// model.redo()?;
/// assert_eq!((model.len(), model.entries(), model.redoable()), (1, 1, 2));
/// # Ok::<(), Refusal>(())
/// ```
#[derive(Clone)]
pub struct Model {
    /// Lent whole; the file is its first `length` bytes.
    file: Vec<u8>,
    length: usize,
    /// Word 0 is the entry count, then three words an entry, then room.
    journal: Vec<u32>,
    /// Three words for each edit that can be redone, the next one last.
    redo: Vec<u32>,
}

impl Model {
    /// Opens a point file: its working form, with nothing to undo.
    ///
    /// A file in which two records name one cell is refused; [`fold`](Model::fold) takes it.
    ///
    /// # Errors
    /// 1 to 7; 21, with the records.
    pub fn open(bytes: &[u8]) -> Result<Model, OpenError> {
        let open = |scratch: &mut [u32], out: &mut [u8]| ffi::open(bytes, scratch, out, &mut [0]);
        Model::written(bytes, open).map_err(|refusal| OpenError::of(refusal, bytes))
    }

    /// Folds a point file in which records may name one cell: the later of them counts. Its working form, with nothing to undo, and
    /// the records that were dropped, ascending; none of a file that [`open`](Model::open) takes.
    ///
    /// ```
    /// use mascon::{shapes, Model, Refusal};
    ///
    /// let mut file = shapes::empty_file(4, [0.0; 3], [4.0; 3]);
    /// file[12] = 2;
    /// for mass in [5.0_f32, 6.0] {
    ///     file.extend([[1, 0, 2, 0], [3, 0, 0, 0], mass.to_le_bytes(), mass.to_le_bytes()].concat());
    /// }
    /// assert_eq!(Model::open(&file).unwrap_err(), Refusal::CellTwice);
    /// let (model, dropped) = Model::fold(&file)?;
    /// assert_eq!(model.get(1, 2, 3).unwrap().cauchy_mass, 6.0);
    /// assert_eq!((dropped.len(), dropped[0].record, dropped[0].kept), (1, 0, 1));
    /// assert_eq!(dropped[0].point.cauchy_mass, 5.0);
    /// # Ok::<(), Refusal>(())
    /// ```
    ///
    /// # Errors
    /// 1 to 7.
    pub fn fold(bytes: &[u8]) -> Result<(Model, Vec<Dropped>), Refusal> {
        let fold = |scratch: &mut [u32], out: &mut [u8]| ffi::fold(bytes, scratch, out);
        Ok((Model::written(bytes, fold)?, dropped(bytes)))
    }

    /// The model whose working form a call writes, lent enough for every record of a file.
    fn written(
        bytes: &[u8],
        call: impl FnOnce(&mut [u32], &mut [u8]) -> Result<usize, Refusal>,
    ) -> Result<Model, Refusal> {
        let most = grid_of(bytes).map_or(0, |grid| cells(grid).min(records_of(bytes)));
        let mut file = vec![0; HEADER + RECORD * most];
        let length = call(&mut scratch(bytes), &mut file)?;
        Ok(Model::unedited(file, length))
    }

    /// With nothing to undo.
    fn unedited(file: Vec<u8>, length: usize) -> Model {
        Model {
            file,
            length,
            journal: vec![0],
            redo: Vec::new(),
        }
    }

    /// The most costly model of a grid, whose tree has exactly the nodes and bytes of [`Cost`]: a point in every cell, all masses 1, the
    /// box from 0 to 1 on each axis, density, cell volume, scale and raw sums 0. Its [`as_bytes`](Model::as_bytes) is the point file.
    ///
    /// ```
    /// let model = mascon::Model::costliest(8)?;
    /// assert_eq!((model.len(), model.tree()?.node_count()), (512, 127));
    /// # Ok::<(), mascon::Refusal>(())
    /// ```
    ///
    /// # Errors
    /// 3.
    pub fn costliest(grid: u32) -> Result<Model, Refusal> {
        let mut file = vec![0; Cost::of(grid)?.file_bytes];
        let length = ffi::write_costliest(grid, &mut file)?;
        Ok(Model::unedited(file, length))
    }

    /// Fills a mesh and opens the result; see [`build_mascon`](crate::build_mascon).
    ///
    /// ```
    /// use mascon::{shapes, Kernel, Model};
    ///
    /// let (mesh, _) = shapes::contact_binary(6);
    /// let kernels = [Kernel { c: [0.0; 3], sigma: 1e-3, w: 1900.0 }];
    /// let model = Model::fill(&mesh, &kernels, &kernels, 0.0, 1900.0, 10)?;
    /// assert_eq!(model.grid(), 10);
    /// assert!(!model.is_empty());
    /// # Ok::<(), mascon::Refusal>(())
    /// ```
    ///
    /// # Errors
    /// 3, 17, 18, 19, 20.
    pub fn fill(
        triangles: &[Triangle],
        cauchy_kernels: &[Kernel],
        elliptic_kernels: &[Kernel],
        cauchy_target_mass: f64,
        constant_density: f64,
        grid: u32,
    ) -> Result<Model, Refusal> {
        let file = crate::build_mascon(
            triangles,
            cauchy_kernels,
            elliptic_kernels,
            cauchy_target_mass,
            constant_density,
            grid,
        )?;
        Ok(Model::open(&file)?)
    }

    /// Takes up a file in working form with the journal of its edits, as [`as_bytes`](Model::as_bytes) and
    /// [`journal`](Model::journal) gave them.
    ///
    /// Every entry is held against the cells, from the last to the first, so that each can be undone. Nothing can be redone at first.
    ///
    /// ```
    /// use mascon::{shapes, Model};
    ///
    /// let mut model = Model::open(&shapes::empty_file(8, [-4.0; 3], [4.0; 3]))?;
    /// model.put(1, 2, 3, 5.0e6, 4.0e6)?;
    /// let mut again = Model::resume(model.as_bytes(), model.journal())?;
    /// again.undo()?;
    /// assert!(again.is_empty());
    /// # Ok::<(), mascon::Refusal>(())
    /// ```
    ///
    /// # Errors
    /// 1 to 7, 21; 10 not in working form, or bytes past the records; 11 the journal's count; 16 an entry that does not fit.
    pub fn resume(bytes: &[u8], journal: &[u32]) -> Result<Model, Refusal> {
        let mut model = Model::open(bytes)?;
        if model.as_bytes() != bytes {
            return Err(Refusal::NotWorkingForm);
        }
        let entries = match journal.first() {
            Some(&count) if count as usize <= MAX_ENTRIES => count as usize,
            _ => return Err(Refusal::BadJournal),
        };
        let words = journal.get(..1 + 3 * entries).ok_or(Refusal::BadJournal)?;
        let mut occupied = HashMap::new();
        for words in words[1..].rchunks_exact(3) {
            let Entry {
                change,
                cell: [x, y, z],
                before,
            } = entry(words, model.grid())?;
            let now = occupied
                .get(&(x, y, z))
                .copied()
                .unwrap_or_else(|| model.get(x, y, z).is_some());
            if now != (change != Change::Removed) {
                return Err(Refusal::BadLastEntry);
            }
            occupied.insert((x, y, z), before.is_some());
        }
        model.journal = words.to_vec();
        Ok(model)
    }

    /// The same with what can be redone; each edit is held against the cells, from the next to the last.
    pub(crate) fn resume_with(
        bytes: &[u8],
        journal: &[u32],
        redo: &[u32],
    ) -> Result<Model, Refusal> {
        let mut model = Model::resume(bytes, journal)?;
        let mut occupied = HashMap::new();
        for words in redo.rchunks(3) {
            let (cell, after) = redo_of(words, model.grid())?;
            let now = occupied
                .insert(cell, after.is_some())
                .unwrap_or_else(|| model.masses_at(cell).is_some());
            if after.is_none() && !now {
                return Err(Refusal::BadLastEntry);
            }
        }
        model.redo = redo.to_vec();
        Ok(model)
    }

    /// Puts masses into a cell, over its point or as a new one.
    ///
    /// # Errors
    /// 6, 7; 13 at [`MAX_ENTRIES`]; 13 or 14 where memory is short.
    pub fn put(
        &mut self,
        x: u32,
        y: u32,
        z: u32,
        cauchy: f32,
        elliptic: f32,
    ) -> Result<(), Refusal> {
        self.make([x, y, z], Some((cauchy, elliptic)))?;
        self.redo.clear();
        Ok(())
    }

    /// Removes the point of a cell.
    ///
    /// # Errors
    /// 6, 12; 13 at [`MAX_ENTRIES`], or where memory is short.
    pub fn remove(&mut self, x: u32, y: u32, z: u32) -> Result<(), Refusal> {
        self.make([x, y, z], None)?;
        self.redo.clear();
        Ok(())
    }

    /// Undoes the last put or remove. It can be redone until the next put or remove.
    ///
    /// # Errors
    /// 15; 14 where memory is short.
    pub fn undo(&mut self) -> Result<(), Refusal> {
        let last = self.history().next_back();
        let words = last.map(|Entry { cell, .. }| {
            let [x, y, z] = cell;
            let number = (z * self.grid() + y) * self.grid() + x;
            redo_words(number, self.masses_at(cell))
        });
        let more = words.map_or(0, |words| words.len());
        self.redo.try_reserve(more).map_err(|_| Refusal::NoRoom)?;
        self.edit(ffi::undo)?;
        self.redo.extend(words.into_iter().flatten());
        Ok(())
    }

    /// Makes the edit again that was undone last, and answers it; none where there is nothing to redo. A put or a remove drops what
    /// could be redone.
    ///
    /// ```
    /// use mascon::{shapes, Edit, Model};
    ///
    /// let mut model = Model::open(&shapes::empty_file(8, [-4.0; 3], [4.0; 3]))?;
    /// model.put(1, 2, 3, 5.0e6, 4.0e6)?;
    /// model.undo()?;
    /// assert_eq!(model.redo()?, Some(Edit::Put(1, 2, 3, 5.0e6, 4.0e6)));
    /// assert_eq!(model.redo()?, None);
    /// # Ok::<(), mascon::Refusal>(())
    /// ```
    ///
    /// # Errors
    /// 13 or 14 where memory is short.
    pub fn redo(&mut self) -> Result<Option<Edit>, Refusal> {
        let Some(words) = self.redo.last_chunk::<3>() else {
            return Ok(None);
        };
        let (cell, after) = redo_of(words, self.grid())?;
        self.make(cell, after)?;
        self.redo.truncate(self.redo.len() - 3);
        Ok(Some(edit_to(cell, after)))
    }

    /// Makes a list of edits, whole or not at all.
    ///
    /// ```
    /// use mascon::{shapes, Edit, Model, Refusal};
    ///
    /// let mut model = Model::open(&shapes::empty_file(8, [-4.0; 3], [4.0; 3]))?;
    /// let list = [Edit::Put(1, 2, 3, 5.0e6, 4.0e6), Edit::Remove(0, 0, 0)];
    /// let error = model.apply(&list).unwrap_err();
    /// assert_eq!((error.place, error.edit, error.refusal), (1, list[1], Refusal::EmptyCell));
    /// assert!(model.is_empty() && model.entries() == 0);
    /// # Ok::<(), Refusal>(())
    /// ```
    ///
    /// # Errors
    /// The first edit that is refused; the model, its journal and what can be redone are then as they were.
    pub fn apply(&mut self, edits: &[Edit]) -> Result<(), ApplyError> {
        let refused = |place: usize, refusal| ApplyError {
            place,
            edit: edits[place],
            refusal,
        };
        if edits.is_empty() {
            return Ok(());
        }
        let before = self.copied().map_err(|refusal| refused(0, refusal))?;
        for (place, edit) in edits.iter().enumerate() {
            if let Err(refusal) = edit.apply(self) {
                *self = before;
                return Err(refused(place, refusal));
            }
        }
        Ok(())
    }

    /// A copy, or a refusal where memory is short.
    fn copied(&self) -> Result<Model, Refusal> {
        Ok(Model {
            file: copied(self.as_bytes())?,
            length: self.length,
            journal: copied(self.journal())?,
            redo: copied(&self.redo)?,
        })
    }

    /// Leaves a cell with these masses, or empty.
    fn make(&mut self, cell: [u32; 3], after: Masses) -> Result<(), Refusal> {
        match after {
            Some((cauchy, elliptic)) => {
                self.edit(|file, journal| ffi::put(file, journal, cell, cauchy, elliptic))
            }
            None => self.edit(|file, journal| ffi::remove(file, journal, cell)),
        }
    }

    /// Makes a call, and again with more room where a buffer was too short for it.
    fn edit(
        &mut self,
        call: impl Fn(&mut [u8], &mut [u32]) -> Result<usize, Refusal>,
    ) -> Result<(), Refusal> {
        loop {
            match call(&mut self.file, &mut self.journal) {
                Ok(length) => {
                    self.length = length;
                    return Ok(());
                }
                Err(Refusal::JournalFull) if self.entries() < MAX_ENTRIES => {
                    let entries = (2 * self.entries()).clamp(32, MAX_ENTRIES);
                    grow(&mut self.journal, 1 + 3 * entries, Refusal::JournalFull)?;
                }
                Err(Refusal::NoRoom) if self.len() < cells(self.grid()) => {
                    let points = self.len() + (self.len() / 4).max(32);
                    let points = points.min(cells(self.grid()));
                    grow(&mut self.file, HEADER + RECORD * points, Refusal::NoRoom)?;
                }
                Err(refusal) => return Err(refusal),
            }
        }
    }

    /// How many points there are.
    pub fn len(&self) -> usize {
        (self.length - HEADER) / RECORD
    }

    /// Whether there is no point.
    pub fn is_empty(&self) -> bool {
        self.len() == 0
    }

    /// How many edits can be undone.
    pub fn entries(&self) -> usize {
        self.journal[0] as usize
    }

    /// The edits that can be undone, the first one first.
    pub fn history(&self) -> impl DoubleEndedIterator<Item = Entry> + ExactSizeIterator + '_ {
        let grid = self.grid();
        self.journal()[1..]
            .chunks_exact(3)
            .map(move |words| entry(words, grid).expect("an entry that the library wrote"))
    }

    /// The edits that can be undone, as they were made, the first one first: what each of [`history`](Model::history) has left in its
    /// cell.
    pub fn edits(&self) -> Vec<Edit> {
        let mut now = HashMap::new();
        let as_made = |Entry { cell, before, .. }| {
            let after = now.insert(cell, before);
            edit_to(cell, after.unwrap_or_else(|| self.masses_at(cell)))
        };
        let mut edits: Vec<Edit> = self.history().rev().map(as_made).collect();
        edits.reverse();
        edits
    }

    /// How many edits can be redone.
    pub fn redoable(&self) -> usize {
        self.redo.len() / 3
    }

    pub(crate) fn redo_words(&self) -> &[u32] {
        &self.redo
    }

    /// The journal's words: the entry count, then three words for each entry.
    pub fn journal(&self) -> &[u32] {
        &self.journal[..1 + 3 * self.entries()]
    }

    /// Forgets the journal: the edits stay and can no longer be undone, nor can any be redone.
    pub fn forget_entries(&mut self) {
        self.journal = vec![0];
        self.redo = Vec::new();
    }

    /// The points, ascending by cell number.
    pub fn points(&self) -> Points<'_> {
        Points::of(self.as_bytes())
    }

    /// The point at a place in the file, from 0, none past the last.
    pub fn point(&self, place: usize) -> Option<Point> {
        (place < self.len()).then(|| Point::at(&self.file, place))
    }

    fn masses_at(&self, [x, y, z]: [u32; 3]) -> Masses {
        let point = self.get(x, y, z)?;
        Some((point.cauchy_mass, point.elliptic_mass))
    }

    /// The point of a cell, none where the cell is empty or outside the grid.
    pub fn get(&self, x: u32, y: u32, z: u32) -> Option<Point> {
        self.place(x, y, z).and_then(|place| self.point(place))
    }

    /// The place in the file of a cell's point, from 0, none where the cell is empty or outside the grid.
    pub fn place(&self, x: u32, y: u32, z: u32) -> Option<usize> {
        let grid = self.grid();
        if [x, y, z].iter().any(|&index| index >= grid) {
            return None;
        }
        let sought = Some((z * grid + y) * grid + x);
        let (mut low, mut high) = (0, self.len());
        while low < high {
            let middle = low + (high - low) / 2;
            match Point::at(&self.file, middle).cell(grid).cmp(&sought) {
                std::cmp::Ordering::Less => low = middle + 1,
                std::cmp::Ordering::Equal => return Some(middle),
                std::cmp::Ordering::Greater => high = middle,
            }
        }
        None
    }

    /// The header.
    pub fn header(&self) -> Header {
        Header::of(&self.file)
    }

    /// Cells on each axis, 1 to 256.
    pub fn grid(&self) -> u32 {
        self.header().grid
    }

    /// The box's least and greatest corner in metres.
    pub fn bounds(&self) -> ([f32; 3], [f32; 3]) {
        let header = self.header();
        (header.min, header.max)
    }

    /// The constant density, in kilograms per cubic metre.
    pub fn constant_density(&self) -> f32 {
        self.header().constant_density
    }

    /// A cell's volume, in cubic metres.
    pub fn cell_volume(&self) -> f32 {
        self.header().cell_volume
    }

    /// What the Cauchy masses were multiplied by when the file was filled.
    pub fn cauchy_scale(&self) -> f32 {
        self.header().cauchy_scale
    }

    /// The sums of the Cauchy and the elliptic masses, in binary64.
    pub fn masses(&self) -> (f64, f64) {
        self.points().fold((0.0, 0.0), |(cauchy, elliptic), point| {
            (
                cauchy + f64::from(point.cauchy_mass),
                elliptic + f64::from(point.elliptic_mass),
            )
        })
    }

    /// The tree of the model.
    ///
    /// ```
    /// use mascon::{shapes, Model};
    ///
    /// let mut model = Model::open(&shapes::empty_file(3, [0.0; 3], [3.0; 3]))?;
    /// for (x, y) in (0..3).flat_map(|y| (0..3).map(move |x| (x, y))) {
    ///     model.put(x, y, 0, 1.0, 1.0)?;
    /// }
    /// let tree = model.tree()?;
    /// assert_eq!((tree.node_count(), tree.order_count(), tree.as_bytes().len()), (3, 9, 340));
    /// assert!(tree.order().eq([0, 3, 6, 1, 2, 4, 5, 7, 8]));
    /// assert_eq!(tree.root().cauchy_mass, 9.0);
    /// # Ok::<(), mascon::Refusal>(())
    /// ```
    ///
    /// # Errors
    /// 22 where a float of the tree is too large, with the first one in preorder. The model is as it was: it can be edited, and saved.
    pub fn tree(&self) -> Result<Tree, OpenError> {
        Tree::build(self.as_bytes())
    }

    /// How much scratch memory building the [`tree`](Model::tree) takes, in bytes, besides the model and the tree: two words of 32 bits
    /// for every 32 cells, 8 × ceil(grid³ / 32), whatever the points. [`Cost`] says it before there is a model.
    ///
    /// ```
    /// use mascon::{Cost, Model};
    ///
    /// let model = Model::costliest(24)?;
    /// assert_eq!(model.scratch_bytes(), 3_456);
    /// assert_eq!(Cost::of(256)?.scratch_bytes, 4 << 20);
    /// # Ok::<(), mascon::Refusal>(())
    /// ```
    pub fn scratch_bytes(&self) -> usize {
        small_bytes(self.grid())
    }

    /// The float of the model's tree that is greatest in magnitude, sums in kilograms and places in metres alike, the first of equal
    /// ones: how far the model is from a refusal of [`tree`](Model::tree) by 22, which comes exactly where this one is too large.
    ///
    /// It takes a walk over the whole tree, some of the time that building it takes.
    ///
    /// ```
    /// use mascon::{shapes, Field, Model};
    ///
    /// let mut model = Model::open(&shapes::empty_file(8, [0.0; 3], [8.0; 3]))?;
    /// model.put(1, 2, 3, 2.0e38, 0.0)?;
    /// let float = model.greatest_float();
    /// assert_eq!((float.field, float.is_too_large()), (Field::CauchySum, false));
    /// model.put(3, 2, 1, 2.0e38, 0.0)?;
    /// assert!(model.greatest_float().is_too_large() && model.tree().is_err());
    /// # Ok::<(), mascon::Refusal>(())
    /// ```
    pub fn greatest_float(&self) -> TreeFloat {
        floats::greatest(self.as_bytes())
    }

    /// The point file (RYM1), in working form.
    pub fn as_bytes(&self) -> &[u8] {
        &self.file[..self.length]
    }

    /// Writes the point file beside `path` and renames it, so that a failure leaves `path` as it was. The journal is not saved;
    /// [`ModelFile`](crate::ModelFile) keeps both.
    ///
    /// # Errors
    /// Those of the file system; where another run is editing the model at `path`; where a journal or a save that was cut off stands
    /// beside `path`, which would lose its model, or `path` is itself one.
    pub fn save(&self, path: impl AsRef<Path>) -> Result<(), ModelFileError> {
        model_file::save_alone(path.as_ref(), self)
    }

    /// Writes the point file over whatever stands at `path`; a journal beside it goes, and its edits can no longer be undone. See
    /// [`ModelFile::replace`].
    ///
    /// # Errors
    /// Those of the file system, and where another run is editing the model at `path`.
    pub fn save_over(&self, path: impl AsRef<Path>) -> Result<(), ModelFileError> {
        ModelFile::replace(path, self)
    }
}

/// A copy of a buffer, or a refusal where memory is short.
fn copied<T: Copy>(buffer: &[T]) -> Result<Vec<T>, Refusal> {
    let mut copy = Vec::new();
    copy.try_reserve_exact(buffer.len())
        .map_err(|_| Refusal::NoRoom)?;
    copy.extend_from_slice(buffer);
    Ok(copy)
}

/// Lengthens a buffer with zeros, or refuses where memory is short.
fn grow<T: Clone + Default>(
    buffer: &mut Vec<T>,
    length: usize,
    refusal: Refusal,
) -> Result<(), Refusal> {
    assert!(
        length > buffer.len(),
        "refused {refusal} with room to spare"
    );
    let more = length - buffer.len();
    buffer.try_reserve_exact(more).map_err(|_| refusal)?;
    buffer.resize(length, T::default());
    Ok(())
}

impl fmt::Debug for Model {
    fn fmt(&self, f: &mut fmt::Formatter<'_>) -> fmt::Result {
        f.debug_struct("Model")
            .field("header", &self.header())
            .field("entries", &self.entries())
            .finish_non_exhaustive()
    }
}
