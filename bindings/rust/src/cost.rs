use crate::points::{small_bytes, HEADER, RECORD};
use crate::{cells, ffi, Refusal};

/// What the most costly model of a grid takes, so that room can be reserved before there is a file.
///
/// Every point file of the grid that is accepted has a tree of at most so many nodes and bytes. That of
/// [`Model::costliest`](crate::Model::costliest) has exactly so many.
///
/// ```
/// use mascon::{Cost, Model, Refusal};
///
/// let cost = Cost::of(24)?;
/// assert_eq!((cost.nodes, cost.bytes, cost.file_bytes), (5_119, 464_880, 221_248));
/// assert_eq!(cost.scratch_bytes, 3_456);
/// let tree = Model::costliest(24)?.tree()?;
/// assert_eq!((tree.node_count(), tree.as_bytes().len()), (cost.nodes, cost.bytes));
/// assert_eq!(Cost::of(257), Err(Refusal::GridOutOfRange));
/// # Ok::<(), Refusal>(())
/// ```
#[derive(Clone, Copy, Debug, PartialEq, Eq)]
pub struct Cost {
    /// The greatest node count.
    pub nodes: usize,
    /// The length of the tree (RTM1) that has it.
    pub bytes: usize,
    /// The length of its point file (RYM1): a record for every cell, so that no file of the grid is longer in working form.
    pub file_bytes: usize,
    /// How much scratch memory building it takes, and building any other file of the grid that is in working form: two words of 32 bits
    /// for every 32 cells, 8 × ceil(grid³ / 32) bytes. A file that is not in working form takes a word for each cell.
    pub scratch_bytes: usize,
}

impl Cost {
    /// That of a grid.
    ///
    /// # Errors
    /// 3.
    pub fn of(grid: u32) -> Result<Cost, Refusal> {
        let (nodes, bytes) = ffi::costliest(grid)?;
        Ok(Cost {
            nodes,
            bytes,
            file_bytes: HEADER + RECORD * cells(grid),
            scratch_bytes: small_bytes(grid),
        })
    }
}

#[cfg(test)]
mod tests {
    use super::*;
    use crate::boxes::Cells;
    use std::collections::HashMap;

    /// The nodes of a box whose cells all hold a point; boxes of the same widths have as many.
    fn nodes(cells: Cells, known: &mut HashMap<[u32; 3], usize>) -> usize {
        if cells.is_leaf(cells.volume()) {
            return 1;
        }
        let widths = [0, 1, 2].map(|axis| cells.high[axis] - cells.low[axis]);
        if let Some(&nodes) = known.get(&widths) {
            return nodes;
        }
        let halves = cells.halves().map(|half| nodes(half, known));
        let sum = 1 + halves.iter().sum::<usize>();
        known.insert(widths, sum);
        sum
    }

    #[test]
    fn every_grid_by_its_boxes() {
        let mut known = HashMap::new();
        for grid in 1..=crate::MAX_GRID {
            let cost = Cost::of(grid).unwrap();
            assert_eq!(cost.nodes, nodes(Cells::whole(grid), &mut known), "{grid}");
            assert_eq!(cost.bytes, 64 + 80 * cost.nodes + 4 * cells(grid), "{grid}");
            assert_eq!(cost.file_bytes, 64 + 16 * cells(grid), "{grid}");
            assert_eq!(cost.scratch_bytes, 8 * cells(grid).div_ceil(32), "{grid}");
        }
    }
}
