//! 02's rule for the costliest file of a grid: every cell in working form, all masses 1; its tree's nodes counted a level at a time, no two
//! halves taken for one.

use super::tree::{self, Cells};
use super::{is_grid, length, working_form, MARK, VERSION};
use crate::ffi::Cost;
use std::collections::BTreeMap;

/// The float 1, of the masses and of the box's max.
const ONE: u32 = 1f32.to_bits();

/// The widths of a box of cells.
type Widths = [u64; 3];

/// Both parts of a full box, or none where its node is a leaf.
fn parts(widths: Widths) -> Vec<Widths> {
    let cells = Cells::of(widths.map(|width| width as f64));
    let whole = |part: Cells| part.widths().map(|width| width as u64);
    match cells.is_leaf(widths.iter().product::<u64>() as usize) {
        true => Vec::new(),
        false => cells.split().map(whole).to_vec(),
    }
}

/// The nodes of a full grid's tree, from the root down; a level tells how many boxes have the same widths.
fn nodes(g: u64) -> u64 {
    let (mut nodes, mut level) = (0, BTreeMap::from([([g; 3], 1)]));
    while !level.is_empty() {
        nodes += level.values().sum::<u64>();
        let mut below = BTreeMap::new();
        for (widths, boxes) in level {
            for part in parts(widths) {
                *below.entry(part).or_default() += boxes;
            }
        }
        level = below;
    }
    nodes
}

/// Costliest: 3; else the nodes of the full grid's tree, and its length.
pub(crate) fn costliest(g: u32) -> Cost {
    if !is_grid(g) {
        return Cost::refused(3);
    }
    let (nodes, points) = (nodes(u64::from(g)), g.pow(3) as usize);
    Cost {
        answer: 0,
        nodes,
        bytes: tree::length(nodes as usize, points) as u64,
    }
}

/// The length of a grid's costliest file.
pub(crate) fn needed(g: u32) -> u64 {
    length(u64::from(g.pow(3)))
}

/// The costliest file of a grid: box 0 to 1 on each axis, no density, volume, scale or raw sum.
pub(crate) fn file(g: u32) -> Vec<u8> {
    let mut header = [0; 16];
    header[..3].copy_from_slice(&[MARK, VERSION, g]);
    header[11..14].fill(ONE);
    let header: Vec<u8> = header.iter().flat_map(|word| word.to_le_bytes()).collect();
    let every_cell = (0..g.pow(3)).map(|number| (u64::from(number), [ONE; 2]));
    working_form(&header, every_cell)
}

/// Write: 3, 9; then the file stands in `out`.
pub(crate) fn write(g: u32, out: &mut [u8]) -> u64 {
    if !is_grid(g) {
        return 3;
    }
    if (out.len() as u64) < needed(g) {
        return 9;
    }
    let file = file(g);
    out[..file.len()].copy_from_slice(&file);
    file.len() as u64
}

#[cfg(test)]
mod tests {
    use super::super::{judge, names_one_twice, word, working};
    use super::*;

    /// The file of g 1.
    const ONE_CELL: [u8; 80] = [
        0x52, 0x59, 0x4d, 0x31, 0x01, 0x00, 0x00, 0x00, 0x01, 0x00, 0x00, 0x00, 0x01, 0x00, 0x00,
        0x00, // mark, version, g, n
        0x00, 0x00, 0x00, 0x00, 0x00, 0x00, 0x00, 0x00, 0x00, 0x00, 0x00, 0x00, 0x00, 0x00, 0x00,
        0x00, // density, volume, scale, not read
        0x00, 0x00, 0x00, 0x00, 0x00, 0x00, 0x00, 0x00, 0x00, 0x00, 0x00, 0x00, // min
        0x00, 0x00, 0x80, 0x3f, 0x00, 0x00, 0x80, 0x3f, 0x00, 0x00, 0x80, 0x3f, // max
        0x00, 0x00, 0x00, 0x00, 0x00, 0x00, 0x00, 0x00, // raw sums
        0x00, 0x00, 0x00, 0x00, 0x00, 0x00, 0x00, 0x00, // (0, 0, 0), pad
        0x00, 0x00, 0x80, 0x3f, 0x00, 0x00, 0x80, 0x3f, // masses
    ];

    fn cost(nodes: u64, bytes: u64) -> Cost {
        Cost {
            answer: 0,
            nodes,
            bytes,
        }
    }

    #[test]
    fn numbers_of_grids() {
        let counts = [1, 1, 9, 15, 41, 79, 109, 127];
        assert_eq!([1, 2, 3, 4, 5, 6, 7, 8].map(nodes), counts);
        assert_eq!(costliest(1), cost(1, 148));
        assert_eq!(costliest(8), cost(127, 12_272));
        assert_eq!(costliest(256), cost(4_194_303, 402_653_168));
        for g in [0, 257, 65_537, u32::MAX] {
            assert_eq!(costliest(g), Cost::refused(3));
        }
    }

    /// A full box is split as any other: 3 by 3 by 3 to 1 and 2, then across.
    #[test]
    fn parts_of_full_boxes() {
        assert_eq!(parts([3, 3, 3]), [[1, 3, 3], [2, 3, 3]]);
        assert_eq!(parts([1, 3, 3]), [[1, 1, 3], [1, 2, 3]]);
        assert_eq!(parts([2, 2, 5]), [[2, 2, 2], [2, 2, 3]]);
        for leaf in [[2, 2, 2], [1, 1, 8], [1, 2, 3], [1, 1, 1]] {
            assert_eq!(parts(leaf), [[0; 3]; 0]);
        }
    }

    /// The tree of the file has these numbers.
    #[test]
    fn files_reach_the_numbers() {
        for g in 1..=20 {
            let (tree, built) = tree::tree(&file(g));
            let Cost { nodes, bytes, .. } = costliest(g);
            assert_eq!((built.nodes, built.answer), (nodes, bytes), "{g}");
            assert_eq!(tree.map(|tree| tree.len() as u64), Some(bytes), "{g}");
            assert_eq!(built.order, u64::from(g).pow(3));
        }
    }

    /// All cells, each once, x innermost.
    #[test]
    fn files_are_in_working_form() {
        assert_eq!(file(1), ONE_CELL);
        for g in 1..=12 {
            let file = file(g);
            assert_eq!(file.len() as u64, needed(g));
            assert_eq!(judge(&file), None);
            assert!(working(&file) && !names_one_twice(&file));
            assert_eq!([8, 12].map(|at| word(&file, at)), [g, g.pow(3)]);
        }
        assert_eq!(file(2)[80..88], [1, 0, 0, 0, 0, 0, 0, 0]);
        assert_eq!(file(3)[64 + 16 * 14..][..8], [2, 0, 1, 0, 1, 0, 0, 0]);
    }

    #[test]
    fn write_refuses_in_order() {
        let written = |g: u32, room: usize| {
            let mut out = vec![0xa5; room];
            (write(g, &mut out), out)
        };
        for g in [0, 257, 65_537, u32::MAX] {
            assert_eq!(written(g, 0), (3, Vec::new()));
            assert_eq!(written(g, 100), (3, vec![0xa5; 100]));
        }
        assert_eq!(written(1, 79), (9, vec![0xa5; 79]));
        assert_eq!(written(256, 79), (9, vec![0xa5; 79]));
        assert_eq!(written(1, 80), (80, ONE_CELL.to_vec()));
        let spare = [&ONE_CELL[..], &[0xa5; 3]].concat();
        assert_eq!(written(1, 83), (80, spare));
    }
}
