use crate::check::{check_tree, Fault};
use crate::points::{
    float_at, floats_at, grid_of, judged, scratch, small_scratch, word_at, HEADER,
};
use crate::{ffi, Cost, OpenError, Refusal};
use std::io;
use std::path::Path;

/// The length of a node.
pub(crate) const NODE: usize = 80;
/// Word 0 of a tree file: RTM1.
pub(crate) const TREE_WORD: u32 = 0x314d_5452;

/// A node of a tree, in metres and kilograms.
#[derive(Clone, Copy, Debug, PartialEq)]
pub struct Node {
    /// The box's middle.
    pub center: [f32; 3],
    /// Half of the box's longest edge.
    pub half: f32,
    /// The sum of the Cauchy masses.
    pub cauchy_mass: f32,
    /// The sum of the elliptic masses.
    pub elliptic_mass: f32,
    /// The place of the left child, none in a leaf and where that child has no points.
    pub left: Option<u32>,
    /// The place of the right child, likewise.
    pub right: Option<u32>,
    /// The centre of the Cauchy masses.
    pub cauchy_center: [f32; 3],
    /// The centre of the elliptic masses.
    pub elliptic_center: [f32; 3],
    /// The centre of the points at one mass each.
    pub constant_center: [f32; 3],
    /// In a leaf, where its points begin in the order.
    pub leaf_start: u32,
    /// In a leaf, how many points it has; else 0.
    pub leaf_count: u32,
    /// How many points its box has.
    pub count: u32,
}

impl Node {
    pub(crate) fn at(bytes: &[u8], place: usize) -> Node {
        let at = HEADER + NODE * place;
        let link = |link: f32| (link >= 0.0).then_some(link as u32);
        Node {
            center: floats_at(bytes, at),
            half: float_at(bytes, at + 12),
            cauchy_mass: float_at(bytes, at + 16),
            elliptic_mass: float_at(bytes, at + 20),
            left: link(float_at(bytes, at + 24)),
            right: link(float_at(bytes, at + 28)),
            cauchy_center: floats_at(bytes, at + 32),
            leaf_start: float_at(bytes, at + 44) as u32,
            elliptic_center: floats_at(bytes, at + 48),
            leaf_count: float_at(bytes, at + 60) as u32,
            constant_center: floats_at(bytes, at + 64),
            count: float_at(bytes, at + 76) as u32,
        }
    }

    /// Whether it is a leaf with points.
    pub fn is_leaf(&self) -> bool {
        self.leaf_count > 0
    }
}

/// A tree (RTM1, version 2) that a gravity solver walks.
///
/// ```
/// use mascon::{shapes, Model};
///
/// let (mesh, kernels) = shapes::contact_binary(6);
/// let tree = Model::fill(&mesh, &kernels, &kernels, 4.0e11, 1900.0, 12)?.tree()?;
/// // Walk it: every point stands in one leaf.
/// let mut open = vec![tree.root()];
/// let mut points = 0;
/// while let Some(node) = open.pop() {
///     points += tree.leaf_points(&node).count();
///     open.extend([node.left, node.right].into_iter().flatten().map(|child| tree.node(child as usize)));
/// }
/// assert_eq!(points, tree.order_count());
/// # Ok::<(), mascon::Refusal>(())
/// ```
#[derive(Clone, Debug, PartialEq, Eq)]
pub struct Tree {
    bytes: Vec<u8>,
    nodes: usize,
    order: usize,
}

/// Output for the tree of a file: enough for every file of its grid. Memory is taken up where the tree is written, not before.
fn output(file: &[u8]) -> Vec<u8> {
    let cost = grid_of(file).and_then(|grid| Cost::of(grid).ok());
    vec![0; cost.map_or(0, |cost| cost.bytes)]
}

/// Makes a call that builds a file, with as little scratch as the file takes: that of a file in working form and, where the library says
/// that this is too short, a word for each cell. It says so before it touches a word.
fn with_scratch<T>(
    file: &[u8],
    mut call: impl FnMut(&mut [u32]) -> Result<T, Refusal>,
) -> Result<T, Refusal> {
    let answer = call(&mut small_scratch(file));
    match answer {
        Err(Refusal::ScratchTooShort) => call(&mut scratch(file)),
        answer => answer,
    }
}

impl Tree {
    /// Builds the tree of a point file, in working form or not. The order names points by their place in that file.
    ///
    /// In working form it takes little scratch, what [`Cost`] says for the grid; any other file takes a word for each cell.
    ///
    /// # Errors
    /// 1 to 7; 21, with the records; 22, with the float that is too large.
    pub fn build(file: &[u8]) -> Result<Tree, OpenError> {
        let mut bytes = output(file);
        let built = with_scratch(file, |scratch| ffi::build(file, scratch, &mut bytes));
        let (length, nodes, order) = built.map_err(|refusal| OpenError::of(refusal, file))?;
        bytes.truncate(length);
        bytes.shrink_to_fit();
        Ok(Tree {
            bytes,
            nodes,
            order,
        })
    }

    /// Judges a point file as [`build`](Tree::build) does, without writing the tree.
    ///
    /// # Errors
    /// Those of build.
    pub fn judge(file: &[u8]) -> Result<(), OpenError> {
        let built = with_scratch(file, |scratch| ffi::build(file, scratch, &mut []));
        judged(file, built)
    }

    /// Takes up a tree file, after judging header, boxes, links, counts, leaf ranges and order, and that every float is finite.
    ///
    /// # Errors
    /// The first fault, with its place.
    pub fn open(bytes: Vec<u8>) -> Result<Tree, Fault> {
        if let Some(fault) = check_tree(&bytes, 1).faults.into_iter().next() {
            return Err(fault);
        }
        let nodes = word_at(&bytes, 56) as usize;
        let order = (bytes.len() - HEADER - NODE * nodes) / 4;
        Ok(Tree {
            bytes,
            nodes,
            order,
        })
    }

    /// How many nodes it has.
    pub fn node_count(&self) -> usize {
        self.nodes
    }

    /// How many order words it has: one for each occupied cell.
    pub fn order_count(&self) -> usize {
        self.order
    }

    /// A node by its place in preorder.
    ///
    /// # Panics
    /// Where `place` is not below [`node_count`](Tree::node_count).
    pub fn node(&self, place: usize) -> Node {
        assert!(place < self.nodes, "node {place} of {}", self.nodes);
        Node::at(&self.bytes, place)
    }

    /// The root.
    pub fn root(&self) -> Node {
        self.node(0)
    }

    /// The nodes in preorder.
    pub fn nodes(&self) -> impl DoubleEndedIterator<Item = Node> + ExactSizeIterator + '_ {
        (0..self.nodes).map(|place| Node::at(&self.bytes, place))
    }

    /// The order: the places in the point file of the leaves' points, leaf by leaf.
    pub fn order(&self) -> impl DoubleEndedIterator<Item = u32> + ExactSizeIterator + '_ {
        self.order_words(0, self.order)
    }

    /// The places in the point file of a leaf's points; a node that is no leaf has none.
    ///
    /// # Panics
    /// May panic, when the iterator is used, of a node from another tree.
    pub fn leaf_points(
        &self,
        node: &Node,
    ) -> impl DoubleEndedIterator<Item = u32> + ExactSizeIterator + '_ {
        self.order_words(node.leaf_start as usize, node.leaf_count as usize)
    }

    fn order_words(
        &self,
        start: usize,
        count: usize,
    ) -> impl DoubleEndedIterator<Item = u32> + ExactSizeIterator + '_ {
        let first = HEADER + NODE * self.nodes;
        (start..start + count).map(move |i| word_at(&self.bytes, first + 4 * i))
    }

    /// How many links lie between the root and its farthest node.
    pub fn depth(&self) -> usize {
        let mut deepest = 0;
        let mut open = vec![(0, 0)];
        while let Some((place, depth)) = open.pop() {
            deepest = deepest.max(depth);
            let node = self.node(place);
            let children = [node.left, node.right].into_iter().flatten();
            open.extend(children.map(|child| (child as usize, depth + 1)));
        }
        deepest
    }

    /// Cells on each axis.
    pub fn grid(&self) -> u32 {
        word_at(&self.bytes, 8)
    }

    /// The box's least and greatest corner in metres.
    pub fn bounds(&self) -> ([f32; 3], [f32; 3]) {
        (floats_at(&self.bytes, 32), floats_at(&self.bytes, 44))
    }

    /// The Cauchy scale, the constant density and the cell volume of the point file.
    pub fn scale_density_volume(&self) -> [f32; 3] {
        floats_at(&self.bytes, 16)
    }

    /// The file (RTM1).
    pub fn as_bytes(&self) -> &[u8] {
        &self.bytes
    }

    /// The file (RTM1), given away.
    pub fn into_bytes(self) -> Vec<u8> {
        self.bytes
    }

    /// Writes the file beside `path` and renames it, so that a failure leaves `path` as it was.
    ///
    /// # Errors
    /// Those of the file system; where `path` is a point file, a journal or a save that was cut off ([`write_file`](crate::write_file)
    /// writes over these too).
    pub fn save(&self, path: impl AsRef<Path>) -> io::Result<()> {
        crate::save::spare(path.as_ref(), false)?;
        crate::write_file(path, &self.bytes)
    }
}

#[cfg(test)]
mod tests {
    use super::*;
    use crate::{shapes, Model};

    /// How many words are lent while a file is built, call by call.
    fn lent(file: &[u8]) -> Vec<usize> {
        let mut lengths = Vec::new();
        let mut out = output(file);
        let _ = with_scratch(file, |scratch| {
            lengths.push(scratch.len());
            ffi::build(file, scratch, &mut out)
        });
        lengths
    }

    /// A model is built with the small size; what is not in working form, with a word for each cell as well; what is refused by what comes
    /// before 8, once.
    #[test]
    fn a_file_is_lent_what_it_takes() {
        for (grid, small, whole) in [(2, 2, 8), (3, 2, 27), (40, 4_000, 64_000)] {
            let mut model = Model::open(&shapes::empty_file(grid, [0.0; 3], [1.0; 3])).unwrap();
            assert_eq!(lent(model.as_bytes()), [small]);
            model.put(0, 1, 0, 1.0, 1.0).unwrap();
            model.put(1, 1, 1, 1.0, 1.0).unwrap();
            assert_eq!(lent(model.as_bytes()), [small]);
            assert_eq!(4 * small, model.scratch_bytes());
            let [header, first, second] = [0..64, 64..80, 80..96].map(|at| &model.as_bytes()[at]);
            assert_eq!(lent(&[header, second, first].concat()), [small, whole]);
            assert_eq!(lent(&[header, first, first].concat()), [small, whole]);
            assert_eq!(lent(&[header, first, second, first].concat()), [small]);
            let mut other = model.as_bytes().to_vec();
            other[70] = 1;
            assert_eq!(lent(&other), [small, whole]);
            // An infinite mass.
            other[79] = 0x7f;
            assert_eq!(lent(&other), [small]);
        }
    }

    /// At grid 1 the small size is the greater one, and enough for every file.
    #[test]
    fn at_grid_1_a_file_is_lent_two_words() {
        let mut model = Model::open(&shapes::empty_file(1, [0.0; 3], [1.0; 3])).unwrap();
        assert_eq!(lent(model.as_bytes()), [2]);
        model.put(0, 0, 0, 1.0, 1.0).unwrap();
        assert_eq!(lent(model.as_bytes()), [2]);
        let mut other = model.as_bytes().to_vec();
        other[70] = 1;
        assert_eq!(lent(&other), [2]);
        other[12] = 2;
        other.extend([0; 16]);
        assert_eq!(lent(&other), [2]);
    }

    /// A file without a grid is refused with nothing lent.
    #[test]
    fn a_file_without_a_grid_is_lent_nothing() {
        let mut file = shapes::empty_file(8, [0.0; 3], [1.0; 3]);
        assert_eq!(lent(&file[..63]), [0]);
        file[9] = 2;
        assert_eq!(lent(&file), [0]);
    }
}
