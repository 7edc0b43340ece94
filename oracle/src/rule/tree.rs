//! 01's rule for tree files and 02's for the scratch of build, written from their sentences: a box's points are those of the box above it that lie
//! in it.

use super::{cell_number, count, float, grid, judge_distinct, narrowed, records, word};
use super::{word_per_cell, working, Record};
use crate::ffi::Built;

pub(crate) const HEADER: usize = 64;
pub(crate) const NODE: usize = 80;

const MARK: u32 = 0x314d_5452;
const VERSION: u32 = 2;

/// A leaf has at most this many points, unless it is a single cell.
const LEAF: usize = 8;

/// A mass sum up to this magnitude has no centre of its own.
const NO_SUM: f64 = 1e-30;

/// The link to a child without points, and of a node without children.
const NO_LINK: f64 = -1.0;

/// An occupied cell: its coordinates, its record's index in the file and masses.
struct Point {
    index: u32,
    place: [f64; 3],
    masses: [f64; 2],
}

/// A box of cells, ends excluded.
#[derive(Clone, Copy)]
pub(super) struct Cells {
    low: [f64; 3],
    high: [f64; 3],
}

/// A node's sums: masses and moments, Cauchy, elliptic; the plain moments; the count.
#[derive(Default)]
struct Sums {
    masses: [f64; 2],
    moments: [[f64; 3]; 2],
    plain: [f64; 3],
    count: f64,
}

/// A node in cells: centres of mass are Cauchy, elliptic, constant.
struct Node {
    cells: Cells,
    sums: Sums,
    centres: [[f64; 3]; 3],
    links: [f64; 2],
    leaf_start: f64,
    leaf_count: f64,
}

/// The nodes in preorder, and the ordered points.
#[derive(Default)]
struct Tree {
    nodes: Vec<Node>,
    order: Vec<u32>,
}

/// A value for each axis.
fn axes<T>(value: impl Fn(usize) -> T) -> [T; 3] {
    [value(0), value(1), value(2)]
}

/// The occupied cells of a file that 21 lets pass, by cell number: z outermost, x innermost.
fn points(file: &[u8]) -> Vec<Point> {
    let mut records: Vec<_> = (0..).zip(records(file)).collect();
    records.sort_by_key(|(_, record)| cell_number(grid(file), record.cell));
    let point = |(index, record): (u32, Record)| Point {
        index,
        place: record.cell.map(f64::from),
        masses: record.masses.map(|mass| f64::from(f32::from_bits(mass))),
    };
    records.into_iter().map(point).collect()
}

/// The length of a tree file.
pub(super) fn length(nodes: usize, points: usize) -> usize {
    HEADER + NODE * nodes + 4 * points
}

impl Cells {
    /// The box of these widths from cell 0 on.
    pub(super) fn of(widths: [f64; 3]) -> Self {
        Self {
            low: [0.0; 3],
            high: widths,
        }
    }

    fn has(&self, point: &Point) -> bool {
        (0..3).all(|axis| (self.low[axis]..self.high[axis]).contains(&point.place[axis]))
    }

    fn width(&self, axis: usize) -> f64 {
        self.high[axis] - self.low[axis]
    }

    pub(super) fn widths(&self) -> [f64; 3] {
        axes(|axis| self.width(axis))
    }

    /// Whether the box's node is a leaf with so many points.
    pub(super) fn is_leaf(&self, points: usize) -> bool {
        points <= LEAF || self.widths() == [1.0; 3]
    }

    /// The widest axis, ties to x, then y.
    fn widest(&self) -> usize {
        let [x, y, z] = self.widths();
        match (x >= y && x >= z, y >= z) {
            (true, _) => 0,
            (_, true) => 1,
            _ => 2,
        }
    }

    /// Both parts of a split of the widest axis at low + width ÷ 2 rounded down.
    pub(super) fn split(&self) -> [Self; 2] {
        let axis = self.widest();
        let middle = self.low[axis] + (self.width(axis) / 2.0).floor();
        let (mut left, mut right) = (*self, *self);
        left.high[axis] = middle;
        right.low[axis] = middle;
        [left, right]
    }

    /// (low + high − 1)·0.5 per axis
    fn middle(&self) -> [f64; 3] {
        axes(|axis| (self.low[axis] + self.high[axis] - 1.0) * 0.5)
    }
}

impl Sums {
    /// From 0, in the order of the points.
    fn of(points: &[&Point]) -> Self {
        let mut sums = Self::default();
        for point in points {
            sums.count += 1.0;
            for mass in 0..2 {
                sums.masses[mass] += point.masses[mass];
                for axis in 0..3 {
                    sums.moments[mass][axis] += point.place[axis] * point.masses[mass];
                }
            }
            for axis in 0..3 {
                sums.plain[axis] += point.place[axis];
            }
        }
        sums
    }

    /// Centres in cells; all 0 without points.
    fn centres(&self, cells: &Cells) -> [[f64; 3]; 3] {
        if self.count == 0.0 {
            return [[0.0; 3]; 3];
        }
        let centre = |mass: usize| {
            let sum = self.masses[mass];
            if sum.abs() > NO_SUM {
                self.moments[mass].map(|moment| moment / sum)
            } else {
                cells.middle()
            }
        };
        let constant = self.plain.map(|moment| moment / self.count);
        [centre(0), centre(1), constant]
    }
}

impl Tree {
    /// The box's node and all below it, for its points in the order of visiting.
    fn build(&mut self, cells: Cells, points: &[&Point]) {
        let place = self.nodes.len();
        let sums = Sums::of(points);
        self.nodes.push(Node {
            cells,
            centres: sums.centres(&cells),
            sums,
            links: [NO_LINK; 2],
            leaf_start: 0.0,
            leaf_count: 0.0,
        });
        if points.is_empty() {
            return;
        }
        if cells.is_leaf(points.len()) {
            self.nodes[place].leaf_start = self.order.len() as f64;
            self.nodes[place].leaf_count = points.len() as f64;
            self.order.extend(points.iter().map(|point| point.index));
            return;
        }
        self.nodes[place].links = cells.split().map(|part| self.child(part, points));
    }

    /// Builds a part of a box and gives the link to it.
    fn child(&mut self, part: Cells, points: &[&Point]) -> f64 {
        let place = self.nodes.len();
        let within: Vec<&Point> = points
            .iter()
            .copied()
            .filter(|point| part.has(point))
            .collect();
        self.build(part, &within);
        if within.is_empty() {
            NO_LINK
        } else {
            place as f64
        }
    }
}

/// The box's min, and a cell's edges, in metres.
struct Metres {
    min: [f64; 3],
    cell: [f64; 3],
}

impl Metres {
    fn of(file: &[u8]) -> Self {
        let min = axes(|axis| f64::from(float(file, 32 + 4 * axis)));
        let max = axes(|axis| f64::from(float(file, 44 + 4 * axis)));
        let g = grid(file) as f64;
        Self {
            min,
            cell: axes(|axis| (max[axis] - min[axis]) / g),
        }
    }

    /// min + (low + high)·0.5·cell
    fn centre(&self, cells: &Cells) -> [f64; 3] {
        axes(|axis| self.min[axis] + (cells.low[axis] + cells.high[axis]) * 0.5 * self.cell[axis])
    }

    /// The greatest of (high − low)·0.5·cell.
    fn half(&self, cells: &Cells) -> f64 {
        let halves = axes(|axis| cells.width(axis) * 0.5 * self.cell[axis]);
        halves.into_iter().fold(0.0, f64::max)
    }

    /// A centre of mass c becomes min + (c + 0.5)·cell.
    fn centre_of_mass(&self, centre: &[f64; 3]) -> [f64; 3] {
        axes(|axis| self.min[axis] + (centre[axis] + 0.5) * self.cell[axis])
    }

    /// A node's twenty floats in order.
    fn floats(&self, node: &Node) -> [f64; 20] {
        let [x, y, z] = self.centre(&node.cells);
        let [cauchy, elliptic, constant] = node
            .centres
            .each_ref()
            .map(|centre| self.centre_of_mass(centre));
        [
            x,
            y,
            z,
            self.half(&node.cells),
            node.sums.masses[0],
            node.sums.masses[1],
            node.links[0],
            node.links[1],
            cauchy[0],
            cauchy[1],
            cauchy[2],
            node.leaf_start,
            elliptic[0],
            elliptic[1],
            elliptic[2],
            node.leaf_count,
            constant[0],
            constant[1],
            constant[2],
            node.sums.count,
        ]
    }
}

/// The tree's header: scale, density, volume and the box as the point file has them.
fn header(file: &[u8], nodes: u32) -> [u32; 16] {
    let mut words = [0; 16];
    words[..4].copy_from_slice(&[MARK, VERSION, grid(file) as u32, count(file) as u32]);
    words[4..7].copy_from_slice(&[24, 16, 20].map(|at| word(file, at)));
    words[8..14].copy_from_slice(&[32, 36, 40, 44, 48, 52].map(|at| word(file, at)));
    words[14] = nodes;
    words
}

fn put(bytes: &mut Vec<u8>, words: &[u32]) {
    bytes.extend(words.iter().flat_map(|word| word.to_le_bytes()));
}

impl Tree {
    /// Of a file that 21 lets pass.
    fn of(file: &[u8]) -> Self {
        let points = points(file);
        let mut tree = Self::default();
        let root = Cells::of([grid(file) as f64; 3]);
        tree.build(root, &points.iter().collect::<Vec<_>>());
        tree
    }

    fn length(&self) -> usize {
        length(self.nodes.len(), self.order.len())
    }

    /// Each node's twenty floats, nodes in preorder, not narrowed yet.
    fn floats(&self, file: &[u8]) -> Vec<[f64; 20]> {
        let metres = Metres::of(file);
        self.nodes.iter().map(|node| metres.floats(node)).collect()
    }

    /// The tree file, or nothing where a float of a node is too large; the five whole numbers of a node never are.
    fn written(&self, file: &[u8]) -> Option<Vec<u8>> {
        let mut bytes = Vec::with_capacity(self.length());
        put(&mut bytes, &header(file, self.nodes.len() as u32));
        let floats = self.floats(file);
        let floats = floats.as_flattened().iter().map(|&float| narrowed(float));
        let words = floats.map(|float| float.map(f32::to_bits));
        put(&mut bytes, &words.collect::<Option<Vec<u32>>>()?);
        put(&mut bytes, &self.order);
        Some(bytes)
    }
}

/// The tree file of a file that 21 lets pass, or nothing where 22 refuses it; its length in `answer`, with its counts, in both.
pub(crate) fn tree(file: &[u8]) -> (Option<Vec<u8>>, Built) {
    let tree = Tree::of(file);
    let built = Built {
        answer: tree.length() as u64,
        nodes: tree.nodes.len() as u64,
        order: tree.order.len() as u64,
    };
    (tree.written(file), built)
}

/// The points of each node, nodes in preorder, by their records' indices in a file that 21 lets pass.
pub(crate) fn points_of_nodes(file: &[u8]) -> Vec<Vec<u32>> {
    let tree = Tree::of(file);
    let mut start = 0;
    let points = tree.nodes.iter().map(|node| {
        let points = &tree.order[start..start + node.sums.count as usize];
        start += node.leaf_count as usize;
        points.to_vec()
    });
    points.collect()
}

/// Each node's twenty floats before they are narrowed, nodes in preorder, of a file that 21 lets pass.
#[cfg(test)]
pub(crate) fn floats_of_nodes(file: &[u8]) -> Vec<[f64; 20]> {
    Tree::of(file).floats(file)
}

/// Whether each float of a tree's nodes is finite.
pub(crate) fn is_finite(tree: &[u8]) -> bool {
    let end = HEADER + NODE * word(tree, 56) as usize;
    (HEADER..end)
        .step_by(4)
        .all(|at| float(tree, at).is_finite())
}

/// Two words for each 32 cells of a grid, rounded up: one of marks and one running total.
pub(crate) fn pairs_of_words(g: u64) -> u64 {
    2 * g.pow(3).div_ceil(32)
}

/// The words of scratch that build needs for a file that 1 to 7 let pass: two for each 32 cells where it is in working form, else one for each
/// cell.
pub(crate) fn scratch_words(file: &[u8]) -> u64 {
    match working(file) {
        true => pairs_of_words(grid(file)),
        false => word_per_cell(file),
    }
}

/// Build: 1 to 7, 8, 21, 22, 9; then the tree stands in `out`.
pub(crate) fn build(file: &[u8], lent_words: u64, out: &mut [u8]) -> Built {
    if let Some(cause) = judge_distinct(file, lent_words, scratch_words) {
        return Built::refused(cause);
    }
    let (tree, built) = tree(file);
    let Some(tree) = tree else {
        return Built::refused(22);
    };
    if out.len() < tree.len() {
        return Built::refused(9);
    }
    out[..tree.len()].copy_from_slice(&tree);
    built
}

#[cfg(test)]
mod tests {
    use super::*;
    use crate::points::{self, point_file, Header};

    fn record(x: u16, y: u16, z: u16) -> points::Record {
        points::Record {
            cell: [x, y, z],
            cauchy_mass: 3.0,
            elliptic_mass: 0.0,
        }
    }

    fn built(answer: u64, nodes: u64, order: u64) -> Built {
        Built {
            answer,
            nodes,
            order,
        }
    }

    /// The tree of a file that no float refuses, with its counts.
    fn tree(file: &[u8]) -> (Vec<u8>, Built) {
        let (tree, built) = super::tree(file);
        let tree = tree.expect("no float is too large");
        assert!(is_finite(&tree));
        assert_eq!(tree.len() as u64, built.answer);
        (tree, built)
    }

    /// The float of a node.
    fn node_float(tree: &[u8], node: usize, at: usize) -> f32 {
        float(tree, HEADER + NODE * node + at)
    }

    /// The tree's words after `nodes` nodes.
    fn order(tree: &[u8], nodes: usize) -> Vec<u32> {
        (HEADER + NODE * nodes..tree.len())
            .step_by(4)
            .map(|at| word(tree, at))
            .collect()
    }

    /// g 1, box 0 to 2, no record; then one with masses 3 and 0.
    #[test]
    fn models_of_one_cell() {
        let (tree_of_none, counts) = tree(&point_file(Header::cube(1, 2.0), &[]));
        assert_eq!(counts, built(144, 1, 0));
        let floats: Vec<f32> = (0..20)
            .map(|i| node_float(&tree_of_none, 0, 4 * i))
            .collect();
        let (one, none) = (1.0, 0.0);
        assert_eq!(
            floats,
            [
                one, one, one, one, none, none, -1.0, -1.0, one, one, one, none, one, one, one,
                none, one, one, one, none
            ]
        );
        let (tree, counts) = tree(&point_file(Header::cube(1, 2.0), &[record(0, 0, 0)]));
        assert_eq!(counts, built(148, 1, 1));
        let floats: Vec<f32> = (0..20).map(|i| node_float(&tree, 0, 4 * i)).collect();
        assert_eq!(
            floats,
            [
                one, one, one, one, 3.0, none, -1.0, -1.0, one, one, one, none, one, one, one, one,
                one, one, one, one
            ]
        );
        assert_eq!(order(&tree, 1), [0]);
    }

    #[test]
    fn models_of_more_cells() {
        let all: Vec<_> = (0..8).map(|i| record(i & 1, i >> 1 & 1, i >> 2)).collect();
        let (_, counts) = tree(&point_file(Header::cube(2, 2.0), &all));
        assert_eq!(counts, built(176, 1, 8));
        let plane: Vec<_> = (0..9).map(|i| record(i % 3, i / 3, 0)).collect();
        let (plane, counts) = tree(&point_file(Header::cube(3, 3.0), &plane));
        assert_eq!(counts, built(340, 3, 9));
        assert_eq!(order(&plane, 3), [0, 3, 6, 1, 2, 4, 5, 7, 8]);
        assert_eq!([24, 28].map(|at| node_float(&plane, 0, at)), [1.0, 2.0]);
        assert_eq!(
            [0, 1, 2].map(|node| node_float(&plane, node, 44)),
            [0.0, 0.0, 3.0]
        );
        assert_eq!(
            [0, 1, 2].map(|node| node_float(&plane, node, 60)),
            [0.0, 3.0, 6.0]
        );
        let corner = [all, vec![record(0, 3, 0)]].concat();
        let (corner, counts) = tree(&point_file(Header::cube(4, 4.0), &corner));
        assert_eq!(counts, built(500, 5, 9));
        assert_eq!([24, 28].map(|at| node_float(&corner, 0, at)), [1.0, -1.0]);
        assert_eq!([24, 28].map(|at| node_float(&corner, 1, at)), [2.0, 3.0]);
    }

    /// An order word is a record's index in the file; scale stands before density.
    #[test]
    fn order_and_header() {
        let header = Header {
            constant_density: 5.0,
            cell_volume: 6.0,
            cauchy_scale: -0.0,
            ..Header::cube(2, 2.0)
        };
        let (tree, counts) = tree(&point_file(header, &[record(1, 0, 0), record(0, 0, 0)]));
        assert_eq!(counts, built(152, 1, 2));
        let words: Vec<u32> = (0..16).map(|i| word(&tree, 4 * i)).collect();
        assert_eq!(words[..4], [MARK, VERSION, 2, 2]);
        assert_eq!(
            words[4..8],
            [0x8000_0000, 5f32.to_bits(), 6f32.to_bits(), 0]
        );
        assert_eq!(words[8..11], [0; 3]);
        assert_eq!(words[11..14], [2f32.to_bits(); 3]);
        assert_eq!(words[14..], [1, 0]);
        assert_eq!(order(&tree, 1), [1, 0]);
    }

    /// A sum of 1e-30 itself has no centre of its own, the next number has one.
    #[test]
    fn sums_near_nothing() {
        let cells = Cells {
            low: [0.0, 2.0, 4.0],
            high: [1.0, 5.0, 8.0],
        };
        let sums = |sum: f64| Sums {
            masses: [sum, -sum],
            moments: [[2.0 * sum; 3], [-4.0 * sum; 3]],
            plain: [6.0; 3],
            count: 3.0,
        };
        let middle = [0.0, 3.0, 5.5];
        assert_eq!(sums(1e-30).centres(&cells), [middle, middle, [2.0; 3]]);
        let above = sums(f64::from_bits(1e-30f64.to_bits() + 1)).centres(&cells);
        assert_eq!(above, [[2.0; 3], [4.0; 3], [2.0; 3]]);
        assert_eq!(sums(0.0).centres(&cells), [middle, middle, [2.0; 3]]);
    }

    #[test]
    fn splits() {
        let split = |widths: [f64; 3]| {
            let cells = Cells {
                low: [10.0; 3],
                high: widths.map(|width| 10.0 + width),
            };
            let [left, right] = cells.split();
            let axis = cells.widest();
            assert_eq!(left.high[axis], right.low[axis]);
            (axis, left.width(axis), right.width(axis))
        };
        assert_eq!(split([3.0, 3.0, 3.0]), (0, 1.0, 2.0));
        assert_eq!(split([2.0, 3.0, 3.0]), (1, 1.0, 2.0));
        assert_eq!(split([3.0, 2.0, 3.0]), (0, 1.0, 2.0));
        assert_eq!(split([4.0, 4.0, 5.0]), (2, 2.0, 3.0));
        assert_eq!(split([1.0, 1.0, 2.0]), (2, 1.0, 1.0));
    }

    #[test]
    fn build_refuses_in_order() {
        let file = point_file(Header::cube(2, 2.0), &[record(1, 0, 0)]);
        let answer = |file: &[u8], scratch, out: usize| {
            let mut out = vec![0xa5; out];
            let built = build(file, scratch, &mut out);
            let kept = out
                .iter()
                .skip(built.answer as usize)
                .all(|&byte| byte == 0xa5);
            assert!(kept && (built.answer >= 64 || out.iter().all(|&byte| byte == 0xa5)));
            built
        };
        for words in [2, 3, 7, 8, 9] {
            assert_eq!(answer(&file, words, 148), built(148, 1, 1));
            assert_eq!(answer(&file, words, 151), built(148, 1, 1));
            assert_eq!(answer(&file, words, 147), built(9, 0, 0));
        }
        assert_eq!(answer(&file, 1, 148), built(8, 0, 0));
        assert_eq!(answer(&file, 1, 147), built(8, 0, 0));
        assert_eq!(answer(&file[..79], 0, 0), built(4, 0, 0));
        let mut padded = file.clone();
        padded[71] = 1;
        assert_eq!(answer(&padded, 8, 148), built(148, 1, 1));
        assert_eq!(answer(&padded, 8, 147), built(9, 0, 0));
        assert_eq!(answer(&padded, 7, 148), built(8, 0, 0));
        assert_eq!(answer(&padded, 2, 147), built(8, 0, 0));
        let twice = point_file(Header::cube(2, 2.0), &[record(1, 0, 0); 2]);
        assert_eq!(answer(&twice, 8, 152), built(21, 0, 0));
        assert_eq!(answer(&twice, 8, 0), built(21, 0, 0));
        assert_eq!(answer(&twice, 7, 152), built(8, 0, 0));
        assert_eq!(answer(&twice, 2, 152), built(8, 0, 0));
        let heavy = |cells: [u16; 2]| {
            let records = cells.map(|x| points::Record {
                cauchy_mass: f32::MAX,
                ..record(x, 0, 0)
            });
            point_file(Header::cube(2, 2.0), &records)
        };
        assert_eq!(answer(&heavy([0, 1]), 8, 152), built(22, 0, 0));
        assert_eq!(answer(&heavy([0, 1]), 2, 0), built(22, 0, 0));
        assert_eq!(answer(&heavy([0, 1]), 1, 0), built(8, 0, 0));
        assert_eq!(answer(&heavy([1, 0]), 8, 0), built(22, 0, 0));
        assert_eq!(answer(&heavy([1, 0]), 7, 0), built(8, 0, 0));
        assert_eq!(answer(&heavy([0, 0]), 8, 0), built(21, 0, 0));
    }

    /// Pairs of words in working form, a word for each cell else; at g 1 the pair is more. A pad, the order and a cell twice count, bytes
    /// past the records do not.
    #[test]
    fn words_by_form() {
        let of = |g: u32, records: &[points::Record]| {
            scratch_words(&point_file(Header::cube(g, 2.0), records))
        };
        for (g, pairs) in [
            (1, 2),
            (2, 2),
            (3, 2),
            (4, 4),
            (5, 8),
            (10, 64),
            (16, 256),
            (40, 4_000),
            (41, 4_308),
            (256, 1_048_576),
        ] {
            let last = record(g as u16 - 1, 0, 0);
            assert_eq!([of(g, &[]), of(g, &[last])], [pairs; 2], "g {g}");
            assert_eq!(of(g, &[last; 2]), u64::from(g).pow(3), "g {g}");
        }
        let [first, second] = [record(1, 0, 0), record(0, 1, 0)];
        assert_eq!([of(3, &[first, second]), of(3, &[second, first])], [2, 27]);
        let file = point_file(Header::cube(3, 2.0), &[second]);
        for pad in [70, 71] {
            let mut file = file.clone();
            file[pad] = 0x80;
            assert_eq!(scratch_words(&file), 27);
        }
        let behind = point_file(Header::cube(3, 2.0), &[first]);
        let behind = [&file[..], &behind[64..], &[0xee; 20]].concat();
        assert_eq!(scratch_words(&behind), 2);
    }

    /// Either sum, of either sign, from the threshold on; a centre of mass far outside; never the box.
    #[test]
    fn floats_too_large() {
        let of = |side: f32, masses: [[f32; 2]; 3]| {
            let records = [0, 1, 2].map(|x| points::Record {
                cell: [x, 0, 0],
                cauchy_mass: masses[usize::from(x)][0],
                elliptic_mass: masses[usize::from(x)][1],
            });
            let file = point_file(Header::cube(4, side), &records);
            super::tree(&file).0
        };
        let (max, half_unit) = (f32::MAX, 2f32.powi(103));
        let sums = [
            ([max, max, -max], true),
            ([max, -max, max], true),
            ([max, half_unit, 0.0], false),
            ([max, half_unit, -2f32.powi(75)], true),
            ([max, half_unit.next_down(), 0.0], true),
        ];
        for (masses, fits) in sums {
            for sign in [1.0, -1.0] {
                let cauchy = of(1.0, masses.map(|mass| [sign * mass, 0.0]));
                let elliptic = of(1.0, masses.map(|mass| [0.0, sign * mass]));
                for (tree, at) in [(cauchy, 16), (elliptic, 20)] {
                    let sum = tree.map(|tree| node_float(&tree, 0, at));
                    assert_eq!(sum, fits.then_some(sign * max), "{masses:?}");
                }
            }
        }
        let far = [[1.0, 0.0], [-1f32.next_down(), 0.0], [0.0; 2]];
        assert!(of(1e34, far).is_none() && of(1e30, far).is_some());
        let box_of_all = Header {
            min: [f32::MIN; 3],
            ..Header::cube(3, f32::MAX)
        };
        let (tree, _) = tree(&point_file(box_of_all, &[record(2, 0, 1)]));
        assert_eq!(node_float(&tree, 0, 12), f32::MAX);
    }

    #[test]
    fn points_of_each_node() {
        let plane: Vec<_> = (0..9).map(|i| record(i % 3, i / 3, 0)).collect();
        let points = points_of_nodes(&point_file(Header::cube(3, 3.0), &plane));
        let (left, right) = ([0, 3, 6], [1, 2, 4, 5, 7, 8]);
        assert_eq!(
            points,
            [&[left.as_slice(), &right].concat(), &left[..], &right]
        );
        assert_eq!(
            points_of_nodes(&point_file(Header::cube(1, 1.0), &[])),
            [[]; 1]
        );
    }
}
