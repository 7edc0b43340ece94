//! The boxes of a tree: how they are split, and where they lie in metres.

use crate::Header;

/// A leaf has at most so many points, unless it is one cell.
const LEAF: u32 = 8;

/// A box of cells, ends excluded.
#[derive(Clone, Copy)]
pub(crate) struct Cells {
    pub(crate) low: [u32; 3],
    pub(crate) high: [u32; 3],
}

impl Cells {
    /// The root's box.
    pub(crate) fn whole(grid: u32) -> Cells {
        Cells {
            low: [0; 3],
            high: [grid; 3],
        }
    }

    fn width(&self, axis: usize) -> u32 {
        self.high[axis] - self.low[axis]
    }

    /// How many cells it has.
    pub(crate) fn volume(&self) -> u32 {
        (0..3).map(|axis| self.width(axis)).product()
    }

    /// Whether it is a leaf with so many points.
    pub(crate) fn is_leaf(&self, count: u32) -> bool {
        count > 0 && (count <= LEAF || self.volume() == 1)
    }

    /// The axis that is split, the widest, ties to x, then y; and where.
    pub(crate) fn split(&self) -> (usize, u32) {
        let mut axis = 0;
        for other in 1..3 {
            if self.width(other) > self.width(axis) {
                axis = other;
            }
        }
        (axis, self.low[axis] + self.width(axis) / 2)
    }

    pub(crate) fn halves(self) -> [Cells; 2] {
        let (axis, middle) = self.split();
        let (mut left, mut right) = (self, self);
        left.high[axis] = middle;
        right.low[axis] = middle;
        [left, right]
    }
}

/// Where the cells of a grid lie.
pub(crate) struct Metres {
    min: [f64; 3],
    cell: [f64; 3],
}

impl Metres {
    /// By box and grid, which stand in the same bytes of a point file and of its tree.
    pub(crate) fn of(header: &Header) -> Metres {
        Metres {
            min: header.min.map(f64::from),
            cell: header.cell_size(),
        }
    }

    /// The middle of a box.
    pub(crate) fn center(&self, Cells { low, high }: Cells) -> [f64; 3] {
        [0, 1, 2].map(|axis| {
            let both = f64::from(low[axis]) + f64::from(high[axis]);
            self.min[axis] + both * 0.5 * self.cell[axis]
        })
    }

    /// Half of a box's longest edge.
    pub(crate) fn half(&self, cells: Cells) -> f64 {
        let half = |axis: usize| f64::from(cells.width(axis)) * 0.5 * self.cell[axis];
        (0..3).map(half).fold(0.0, f64::max)
    }

    /// A place that is counted in cells, from the middle of the first one.
    pub(crate) fn place(&self, cells: [f64; 3]) -> [f64; 3] {
        [0, 1, 2].map(|axis| self.min[axis] + (cells[axis] + 0.5) * self.cell[axis])
    }
}
