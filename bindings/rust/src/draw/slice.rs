//! One layer of cells.

use super::{Layout, NotComparable, Projection, Rect, AXES};
use std::fmt;

/// A layer of cells, by its index from 0 on an axis.
///
/// ```
/// use mascon::draw::Slice;
///
/// assert!(Slice::Z(3).has([1, 2, 3]) && !Slice::X(3).has([1, 2, 3]));
/// ```
#[derive(Clone, Copy, Debug, PartialEq, Eq)]
pub enum Slice {
    /// The cells of this index on x: y to the right, z up.
    X(u32),
    /// The cells of this index on y: x to the right, z up.
    Y(u32),
    /// The cells of this index on z: x to the right, y up.
    Z(u32),
}

impl Slice {
    /// Its axis, 0 to 2 for x to z.
    pub fn axis(self) -> usize {
        match self {
            Slice::X(_) => 0,
            Slice::Y(_) => 1,
            Slice::Z(_) => 2,
        }
    }

    /// Its index on the axis.
    pub fn index(self) -> u32 {
        let (Slice::X(index) | Slice::Y(index) | Slice::Z(index)) = self;
        index
    }

    /// Whether a cell lies in it.
    pub fn has(self, cell: [u32; 3]) -> bool {
        cell[self.axis()] == self.index()
    }

    /// The axes to the right and up.
    pub(super) fn axes(self) -> [usize; 2] {
        [[1, 2], [0, 2], [0, 1]][self.axis()]
    }
}

/// As in `z = 12`.
impl fmt::Display for Slice {
    fn fmt(&self, f: &mut fmt::Formatter<'_>) -> fmt::Result {
        write!(f, "{} = {}", AXES[self.axis()], self.index())
    }
}

/// Why a picture cannot be drawn.
#[derive(Clone, Copy, PartialEq, Eq)]
pub enum PictureError {
    /// The two models have different grids or boxes.
    NotComparable,
    /// The slice lies outside the grid.
    NoSuchLayer {
        /// The slice.
        slice: Slice,
        /// The model's grid.
        grid: u32,
    },
}

impl From<NotComparable> for PictureError {
    fn from(_: NotComparable) -> PictureError {
        PictureError::NotComparable
    }
}

impl fmt::Display for PictureError {
    fn fmt(&self, f: &mut fmt::Formatter<'_>) -> fmt::Result {
        match self {
            PictureError::NotComparable => NotComparable.fmt(f),
            PictureError::NoSuchLayer { slice, grid } => {
                write!(f, "no layer {slice} in a grid of {grid}")
            }
        }
    }
}

/// The words.
impl fmt::Debug for PictureError {
    fn fmt(&self, f: &mut fmt::Formatter<'_>) -> fmt::Result {
        fmt::Display::fmt(self, f)
    }
}

impl std::error::Error for PictureError {}

/// The edges between occupied and empty cells, so that a void is seen whatever the masses around it are.
pub(super) fn outline(layout: &Layout, projection: &Projection, area: Rect) -> Vec<Rect> {
    let Projection { axes, columns } = projection;
    let grid = layout.grid;
    let occupied = |column: u32, row: u32| {
        let inside = column < grid && row < grid;
        inside && columns[(row * grid + column) as usize].0 > 0
    };
    let narrow = axes.iter().any(|&axis| layout.dots(axis) < 8.0);
    let (width, half) = if narrow { (1.0, 0.0) } else { (2.0, 1.0) };
    let mut edges = Vec::new();
    for (row, column) in (0..=grid).flat_map(|row| (0..=grid).map(move |column| (row, column))) {
        let Rect { x, y, w, h } = layout.cell(*axes, [column, row], area);
        let own = occupied(column, row);
        // Below 0 lies no cell: the index wraps to one outside.
        if own != occupied(column.wrapping_sub(1), row) {
            let x = x - half;
            edges.push(Rect { x, y, w: width, h });
        }
        if own != occupied(column, row.wrapping_sub(1)) {
            let y = y + h - half;
            edges.push(Rect { x, y, w, h: width });
        }
    }
    edges
}

#[cfg(test)]
mod tests {
    use super::super::{png::Dots, Picture, GROUND, INK, TOP};
    use super::*;
    use crate::{shapes, Model};

    /// A body that fills the layer z = 0 but for a void; one cell has most of the mass, so that the others are pale.
    fn layer(grid: u32, void: &[[u32; 2]]) -> Model {
        let mut bytes = shapes::empty_file(grid, [-730.0, -450.0, -430.0], [730.0, 450.0, 430.0]);
        let cells = (0..grid).flat_map(|y| (0..grid).map(move |x| [x, y]));
        let cells: Vec<[u32; 2]> = cells.filter(|cell| !void.contains(cell)).collect();
        bytes[12..16].copy_from_slice(&(cells.len() as u32).to_le_bytes());
        for [x, y] in cells {
            let mass = if [x, y] == [0, 0] { 1e12_f32 } else { 1e6 };
            bytes.extend([x as u16, y as u16, 0, 0].map(u16::to_le_bytes).concat());
            bytes.extend([mass, mass].map(f32::to_le_bytes).concat());
        }
        Model::open(&bytes).unwrap()
    }

    /// How many dots of ground and of edges there are on these cells and around them.
    fn dots_on(model: &Model, cells: &[[u32; 2]]) -> [usize; 2] {
        let slice = Some(Slice::Z(0));
        let picture = Picture {
            slice,
            ..Picture::new(model)
        };
        let [width, height] = picture.size();
        let mut dots = Dots::new(width, height);
        picture.draw(&mut dots).unwrap();
        let layout = Layout::of(model, slice);
        let (w, h) = (layout.size(0), layout.size(1));
        let area = Rect {
            x: layout.left,
            y: TOP,
            w,
            h,
        };
        let mut counts = [0; 2];
        for &cell in cells {
            let Rect { x, y, w, h } = layout.cell([0, 1], cell, area);
            for (x, y) in (0..w as usize)
                .flat_map(|dx| (0..=h as usize).map(move |dy| (x as usize + dx, y as usize + dy)))
            {
                let color = dots.color(x, y);
                counts[0] += usize::from(color == GROUND);
                counts[1] += usize::from(color == INK);
            }
        }
        counts
    }

    /// A void of five cells leaves ground with an edge around it, at any grid and however pale the body is.
    #[test]
    fn a_void_is_seen_in_dots() {
        for (grid, ground) in [(32, 2000), (128, 100), (256, 100)] {
            let [x, y] = [grid / 4 + 1, grid / 2 + 1];
            let void = [
                [x, y],
                [x + 1, y],
                [x, y + 1],
                [x + 1, y + 1],
                [x + 1, y + 2],
            ];
            assert_eq!(dots_on(&layer(grid, &[]), &void), [0, 0]);
            let [seen, edges] = dots_on(&layer(grid, &void), &void);
            assert!(seen >= ground && edges >= 30, "{grid}: {seen} {edges}");
        }
    }
}
