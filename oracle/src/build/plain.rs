//! A second implementation of build, a scan of each box over a lookup, and the faults that tests plant in it.

mod lookup;

use super::Build;
use crate::bench::{cell, float, points, word};
use crate::ffi::Built;
use crate::open::plain::Twice;
use crate::store::next::plain as next;
use lookup::{Lookup, Scratch};
use std::ops::Range;

#[derive(Clone, Copy, PartialEq)]
pub(super) enum Fault {
    None,
    OneRoot,
    NoRecordOfAnEmptyChild,
    LinkToAnEmptyChild,
    SumsInFileOrder,
    SumsInBinary32,
    TieToZ,
    SplitRoundedUp,
    LeafOfNine,
    NoThreshold,
    HalfOfX,
    DensityBeforeScale,
    LeafStartsAtZero,
    EmptyCentresAtZero,
    Twice(Twice),
    Scratch(Scratch),
    // 22: which floats are judged
    LargeNever,
    LargeRootOnly,
    LargeLeavesOnly,
    LargeUpperUnjudged,
    LargeSumsOnly,
    LargeCentresOnly,
    LargeCauchyOnly,
    LargePositiveOnly,
    LargeByTotal,
    LargeByPartialSum,
    LargeByExtent,
    // its threshold
    LargeFromInfinity,
    LargeAboveThreshold,
    LargeFromGreatest,
    // its place and what it leaves
    LargeBeforeTwice,
    LargeAfterOutput,
    LargeSaidAsNine,
    LargeWrites,
    LargeWithCounts,
}

macro_rules! build_with {
    ($fault:expr) => {
        |file, scratch, out| plain_build($fault, file, scratch, out)
    };
}

macro_rules! twice_with {
    ($twice:ident) => {
        build_with!(Fault::Twice(Twice::$twice))
    };
}

macro_rules! scratch_with {
    ($scratch:ident $(($cell:literal))?) => {
        build_with!(Fault::Scratch(Scratch::$scratch $(($cell))?))
    };
}

macro_rules! search_with {
    ($fault:ident) => {
        build_with!(Fault::Scratch(Scratch::Search(next::Fault::$fault)))
    };
}

/// Build with each fault, and a kind of case that shows it.
pub(crate) const FAULTS: [(Build, &str); 75] = [
    (build_with!(Fault::OneRoot), "full grids"),
    (build_with!(Fault::NoRecordOfAnEmptyChild), "8 and 9 points"),
    (build_with!(Fault::LinkToAnEmptyChild), "8 and 9 points"),
    (build_with!(Fault::SumsInFileOrder), "every grid size"),
    (build_with!(Fault::SumsInBinary32), "full grids"),
    (build_with!(Fault::TieToZ), "rows and planes"),
    (build_with!(Fault::SplitRoundedUp), "every grid size"),
    (build_with!(Fault::LeafOfNine), "8 and 9 points"),
    (build_with!(Fault::NoThreshold), "cancelling masses"),
    (build_with!(Fault::HalfOfX), "uneven boxes"),
    (build_with!(Fault::DensityBeforeScale), "uneven boxes"),
    (build_with!(Fault::LeafStartsAtZero), "full grids"),
    (build_with!(Fault::EmptyCentresAtZero), "rows and planes"),
    (twice_with!(OnlyNeighbours), "repeated cells"),
    (twice_with!(ByMasses), "repeated cells"),
    (twice_with!(BeforeScratch), "21 and short buffers"),
    (twice_with!(AfterOutput), "21 and short buffers"),
    (build_with!(Fault::LargeNever), "too large"),
    (build_with!(Fault::LargeRootOnly), "too large"),
    (build_with!(Fault::LargeLeavesOnly), "too large"),
    (build_with!(Fault::LargeUpperUnjudged), "too large"),
    (build_with!(Fault::LargeSumsOnly), "too large"),
    (build_with!(Fault::LargeCentresOnly), "too large"),
    (build_with!(Fault::LargeCauchyOnly), "too large"),
    (build_with!(Fault::LargePositiveOnly), "too large"),
    (build_with!(Fault::LargeByTotal), "nearly too large"),
    (build_with!(Fault::LargeByPartialSum), "nearly too large"),
    (build_with!(Fault::LargeByExtent), "nearly too large"),
    (build_with!(Fault::LargeFromInfinity), "nearly too large"),
    (build_with!(Fault::LargeAboveThreshold), "nearly too large"),
    (build_with!(Fault::LargeFromGreatest), "nearly too large"),
    (build_with!(Fault::LargeBeforeTwice), "22 and other causes"),
    (build_with!(Fault::LargeAfterOutput), "22 and other causes"),
    (build_with!(Fault::LargeSaidAsNine), "too large"),
    (build_with!(Fault::LargeWrites), "too large"),
    (build_with!(Fault::LargeWithCounts), "too large"),
    (scratch_with!(CellsAlways), "sizes of scratch"),
    (scratch_with!(PairsAlways), "sizes of scratch"),
    (scratch_with!(ByBits), "sizes of scratch"),
    (scratch_with!(Lesser), "sizes of scratch"),
    (scratch_with!(RoundedDown), "sizes of scratch"),
    (scratch_with!(PairMore), "sizes of scratch"),
    (scratch_with!(WordMore), "sizes of scratch"),
    (scratch_with!(PadUnjudged), "nearly in working form"),
    (scratch_with!(PadLowByteOnly), "nearly in working form"),
    (scratch_with!(PastTheEnd), "nearly in working form"),
    (scratch_with!(NoRecordIsNot), "nearly in working form"),
    (scratch_with!(EqualPass), "nearly in working form"),
    (scratch_with!(XOutermost), "nearly in working form"),
    (scratch_with!(LastUnjudged), "nearly in working form"),
    (scratch_with!(Touched), "sizes of scratch"),
    (scratch_with!(BeforeRecords), "several causes"),
    (scratch_with!(AfterNeighbours), "nearly in working form"),
    (scratch_with!(TotalThroughItsWord), "ends of words"),
    (scratch_with!(TotalWithoutLast), "ends of words"),
    (scratch_with!(OwnMarkCounted), "ends of words"),
    (scratch_with!(OneMoreAt(31)), "ends of words"),
    (scratch_with!(OneMoreAt(32)), "ends of words"),
    (scratch_with!(OneMoreAt(63)), "ends of words"),
    (scratch_with!(OneMoreAt(64)), "ends of words"),
    (scratch_with!(LastOfWordLost), "ends of words"),
    (scratch_with!(SpareBitsSet), "ends of words"),
    (scratch_with!(NotCleared), "ends of words"),
    (scratch_with!(PairsOfAnyOrder), "every grid size"),
    (search_with!(FirstOfWholeWord), "ends of words"),
    (search_with!(LastMark), "ends of words"),
    (search_with!(EndSearched), "every grid size"),
    (search_with!(BeforeTheEndLost), "ends of words"),
    (search_with!(StopsAtEmptyWord), "every grid size"),
    (search_with!(NextWordUnaligned), "every grid size"),
    (search_with!(EmptyWordUntested), "every grid size"),
    (search_with!(TotalsAsMarks), "every grid size"),
    (search_with!(FirstLeftOut), "every grid size"),
    (search_with!(ClampedToTheEnd), "every grid size"),
    (scratch_with!(RowsToThePlanesEnd), "every grid size"),
];

/// Some of the faults of 8 and of what stands in scratch, for trees after edits.
pub(crate) const SHORT: [Build; 5] = [
    scratch_with!(CellsAlways),
    scratch_with!(RoundedDown),
    scratch_with!(NoRecordIsNot),
    scratch_with!(Touched),
    scratch_with!(TotalThroughItsWord),
];

/// Some of the faults of 22, for trees after edits.
pub(crate) const LARGE: [Build; 4] = [
    build_with!(Fault::LargeNever),
    build_with!(Fault::LargeRootOnly),
    build_with!(Fault::LargeWrites),
    build_with!(Fault::LargeByTotal),
];

/// A tree under way: nodes as they will be written, but in binary64; what a fault judges besides them.
struct Plain<'a> {
    fault: Fault,
    grid: usize,
    min: [f64; 3],
    cell: [f64; 3],
    records: &'a [[u8; 16]],
    lookup: Lookup<'a>,
    nodes: Vec<[f64; 20]>,
    besides: Vec<f64>,
    order: Vec<u32>,
}

fn axes<T>(value: impl Fn(usize) -> T) -> [T; 3] {
    [value(0), value(1), value(2)]
}

impl Plain<'_> {
    fn has(&self, fault: Fault) -> bool {
        self.fault == fault
    }

    /// The cells of each row of a box, in the order of visiting.
    fn rows(&self, low: [usize; 3], high: [usize; 3]) -> impl Iterator<Item = Range<usize>> {
        let grid = self.grid;
        let rows =
            (low[2]..high[2]).flat_map(move |z| (low[1]..high[1]).map(move |y| z * grid + y));
        rows.map(move |row| row * grid + low[0]..row * grid + high[0])
    }

    /// The indices of the box's points in the order of visiting.
    fn visited(&self, low: [usize; 3], high: [usize; 3]) -> Vec<u32> {
        let rows = self.rows(low, high);
        rows.flat_map(|row| self.lookup.indices(row)).collect()
    }

    /// How many points the box has.
    fn count(&self, low: [usize; 3], high: [usize; 3]) -> usize {
        let rows = self.rows(low, high);
        rows.map(|row| self.lookup.count(row)).sum()
    }

    /// A record by its index: of zeros past the last, where a fault alone looks.
    fn record(&self, index: u32) -> [u8; 16] {
        let record = self.records.get(index as usize);
        record.copied().unwrap_or_default()
    }

    /// The sum of a mass, or of 1 where there is none, and its moments.
    fn sums(&self, points: &[u32], mass: Option<usize>) -> (f64, [f64; 3]) {
        let mut sums = (0.0, [0.0; 3]);
        for &index in points {
            let record = self.record(index);
            let mass = mass.map_or(1.0, |at| f64::from(float(&record, at)));
            sums.0 += mass;
            for (axis, coordinate) in cell(&record).into_iter().enumerate() {
                sums.1[axis] += coordinate as f64 * mass;
            }
            if self.has(Fault::SumsInBinary32) {
                sums.0 = f64::from(sums.0 as f32);
            }
        }
        sums
    }

    fn centre(&self, sums: (f64, [f64; 3]), low: [usize; 3], high: [usize; 3]) -> [f64; 3] {
        let (sum, moments) = sums;
        if sum.abs() > 1e-30 || self.has(Fault::NoThreshold) && sum != 0.0 {
            moments.map(|moment| moment / sum)
        } else {
            axes(|axis| (low[axis] + high[axis] - 1) as f64 * 0.5)
        }
    }

    fn half(&self, low: [usize; 3], high: [usize; 3]) -> f64 {
        let [x, y, z] = axes(|axis| (high[axis] - low[axis]) as f64 * 0.5 * self.cell[axis]);
        if self.has(Fault::HalfOfX) {
            x
        } else {
            x.max(y).max(z)
        }
    }

    /// The node's floats but for links and leaf.
    fn floats(&self, points: &[u32], low: [usize; 3], high: [usize; 3]) -> [f64; 20] {
        let mut summed = points.to_vec();
        if self.has(Fault::SumsInFileOrder) {
            summed.sort_unstable();
        }
        let sums = [Some(8), Some(12), None].map(|mass| self.sums(&summed, mass));
        let mut node = [0.0; 20];
        for axis in 0..3 {
            node[axis] = self.min[axis] + (low[axis] + high[axis]) as f64 * 0.5 * self.cell[axis];
        }
        node[3] = self.half(low, high);
        [node[4], node[5], node[19]] = sums.map(|(sum, _)| sum);
        [node[6], node[7]] = [-1.0; 2];
        for (place, sums) in [8, 12, 16].into_iter().zip(sums) {
            let none = points.is_empty();
            let centre = if none {
                [0.0; 3]
            } else {
                self.centre(sums, low, high)
            };
            if none && self.has(Fault::EmptyCentresAtZero) {
                continue;
            }
            for axis in 0..3 {
                node[place + axis] = self.min[axis] + (centre[axis] + 0.5) * self.cell[axis];
            }
        }
        node
    }

    fn is_leaf(&self, points: usize, widths: [usize; 3]) -> bool {
        let most = if self.has(Fault::LeafOfNine) { 9 } else { 8 };
        points <= most || widths == [1; 3] || self.has(Fault::OneRoot)
    }

    fn widest(&self, [x, y, z]: [usize; 3]) -> usize {
        if self.has(Fault::TieToZ) && z >= x && z >= y || z > x && z > y {
            2
        } else if y > x {
            1
        } else {
            0
        }
    }

    /// Appends the box's node and those below it; gives its place, or nothing where it has no points.
    fn node(&mut self, low: [usize; 3], high: [usize; 3]) -> Option<usize> {
        let place = self.nodes.len();
        let (points, count) = (self.visited(low, high), self.count(low, high));
        self.nodes.push(self.floats(&points, low, high));
        self.nodes[place][19] = count as f64;
        self.besides.push(self.besides(&points));
        if count == 0 {
            if self.has(Fault::NoRecordOfAnEmptyChild) && place > 0 {
                self.nodes.pop();
            }
            return self.has(Fault::LinkToAnEmptyChild).then_some(place);
        }
        let widths = axes(|axis| high[axis] - low[axis]);
        if self.is_leaf(count, widths) {
            if !self.has(Fault::LeafStartsAtZero) {
                self.nodes[place][11] = self.order.len() as f64;
            }
            self.nodes[place][15] = count as f64;
            self.order.extend(points);
            return Some(place);
        }
        let axis = self.widest(widths);
        let up = usize::from(self.has(Fault::SplitRoundedUp));
        let (mut left, mut right) = (high, low);
        left[axis] = low[axis] + (widths[axis] + up) / 2;
        right[axis] = left[axis];
        for (link, (low, high)) in [(6, (low, left)), (7, (right, high))] {
            if let Some(child) = self.node(low, high) {
                self.nodes[place][link] = child as f64;
            }
        }
        Some(place)
    }

    /// The greater sum of magnitudes of the two masses, the greatest magnitude of a sum under way, the box's greatest extent.
    fn besides(&self, points: &[u32]) -> f64 {
        let of = |at: usize| {
            let masses = points
                .iter()
                .map(|&index| f64::from(float(&self.record(index), at)));
            let sums = masses.clone().scan(0.0, |sum: &mut f64, mass| {
                *sum += mass;
                Some(sum.abs())
            });
            match self.fault {
                Fault::LargeByTotal => masses.map(f64::abs).sum(),
                Fault::LargeByPartialSum => sums.fold(0.0, f64::max),
                _ => 0.0,
            }
        };
        let extents = self.cell.map(|cell| cell * self.grid as f64);
        match self.fault {
            Fault::LargeByExtent => extents.into_iter().fold(0.0, f64::max),
            _ => of(8).max(of(12)),
        }
    }

    fn is_large(&self, number: f64) -> bool {
        let magnitude = match self.fault {
            Fault::LargePositiveOnly => number,
            _ => number.abs(),
        };
        let threshold = f64::from(f32::MAX) + 2f64.powi(103);
        match self.fault {
            Fault::LargeNever => false,
            Fault::LargeFromInfinity => magnitude >= 2f64.powi(128),
            Fault::LargeAboveThreshold => magnitude > threshold,
            Fault::LargeFromGreatest => magnitude >= f64::from(f32::MAX),
            _ => (magnitude as f32) == f32::INFINITY,
        }
    }

    fn is_judged(&self, place: usize) -> bool {
        let is_upper = || self.nodes.iter().any(|node| node[7] == place as f64);
        match self.fault {
            Fault::LargeRootOnly => place == 0,
            Fault::LargeLeavesOnly => self.nodes[place][15] > 0.0,
            Fault::LargeUpperUnjudged => !is_upper(),
            _ => true,
        }
    }

    /// Cause 22.
    fn judged(&self) -> Result<(), u64> {
        let floats: &[usize] = match self.fault {
            Fault::LargeSumsOnly => &[4, 5],
            Fault::LargeCentresOnly => &[8, 9, 10, 12, 13, 14, 16, 17, 18],
            Fault::LargeCauchyOnly => &[4, 8, 9, 10],
            _ => &[0, 1, 2, 3, 4, 5, 8, 9, 10, 12, 13, 14, 16, 17, 18],
        };
        let mut judged = (0..self.nodes.len()).filter(|&place| self.is_judged(place));
        let large = judged.any(|place| {
            let node = self.nodes[place];
            floats.iter().any(|&at| self.is_large(node[at]))
        });
        let besides = self.besides.iter().any(|&number| self.is_large(number));
        let cause = match self.fault {
            Fault::LargeSaidAsNine => 9,
            _ => 22,
        };
        (!large && !besides).then_some(()).ok_or(cause)
    }

    fn written(&self, file: &[u8]) -> Vec<u8> {
        let mut words: Vec<u32> = (0..16).map(|at| word(file, 4 * at)).collect();
        [words[0], words[1]] = [0x314d_5452, 2];
        if !self.has(Fault::DensityBeforeScale) {
            words[4..7].rotate_right(1);
        }
        [words[7], words[14], words[15]] = [0, self.nodes.len() as u32, 0];
        let floats = self.nodes.as_flattened().iter();
        words.extend(floats.map(|&float| (float as f32).to_bits()));
        words.extend_from_slice(&self.order);
        words.iter().flat_map(|word| word.to_le_bytes()).collect()
    }
}

/// Build with a fault.
pub(super) fn plain_build(fault: Fault, file: &[u8], scratch: &mut [u32], out: &mut [u8]) -> Built {
    built(fault, file, scratch, out).unwrap_or_else(Built::refused)
}

fn built(fault: Fault, file: &[u8], scratch: &mut [u32], out: &mut [u8]) -> Result<Built, u64> {
    let (twice, lent) = match fault {
        Fault::Twice(twice) => (twice, Scratch::Sound),
        Fault::Scratch(lent) => (Twice::Told, lent),
        _ => (Twice::Told, Scratch::Sound),
    };
    lent.early(file, scratch.len())?;
    let (grid, records) = points(file)?;
    let judged = twice.judged(grid, records);
    twice.after(0, judged)?;
    let mut spare = Vec::new();
    let lookup = lent.laid(file, (grid, records), scratch, &mut spare)?;
    let [min, max] = [32, 44].map(|at| axes(|axis| f64::from(float(file, at + 4 * axis))));
    let mut plain = Plain {
        fault,
        grid,
        min,
        cell: axes(|axis| (max[axis] - min[axis]) / grid as f64),
        records,
        lookup,
        nodes: Vec::new(),
        besides: Vec::new(),
        order: Vec::new(),
    };
    plain.node([0; 3], [grid; 3]);
    let large = plain.judged();
    if fault == Fault::LargeBeforeTwice {
        large?;
    }
    twice.after(1, judged)?;
    let tree = plain.written(file);
    let told = |answer: u64| Built {
        answer,
        nodes: plain.nodes.len() as u64,
        order: plain.order.len() as u64,
    };
    if let Err(cause) = large {
        match fault {
            Fault::LargeAfterOutput => (),
            Fault::LargeWithCounts => return Ok(told(cause)),
            Fault::LargeWrites => {
                let written = out.iter_mut().zip(&tree);
                written.for_each(|(to, byte)| *to = *byte);
                return Err(cause);
            }
            _ => return Err(cause),
        }
    }
    let out = out.get_mut(..tree.len()).ok_or(9u64)?;
    large?;
    twice.after(2, judged)?;
    out.copy_from_slice(&tree);
    Ok(told(tree.len() as u64))
}
