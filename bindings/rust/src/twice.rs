//! Records of a point file that name one cell.

use crate::points::{grid_of, records_of};
use crate::{cells, Point};
use std::collections::HashMap;
use std::fmt;

/// Two records of a point file that name one cell.
#[derive(Clone, Copy, Debug, PartialEq, Eq, Hash)]
pub struct Twice {
    /// The cell.
    pub cell: [u32; 3],
    /// The record that names it first, from 0.
    pub first: usize,
    /// A record that names it again, from 0.
    pub second: usize,
}

impl fmt::Display for Twice {
    fn fmt(&self, f: &mut fmt::Formatter<'_>) -> fmt::Result {
        let Twice {
            cell: [x, y, z],
            first,
            second,
        } = self;
        write!(
            f,
            "records {first} and {second} both name cell ({x}, {y}, {z})"
        )
    }
}

/// A record that folding a point file drops; see [`Model::fold`](crate::Model::fold).
#[derive(Clone, Copy, Debug, PartialEq)]
pub struct Dropped {
    /// The record, from 0.
    pub record: usize,
    /// Its point.
    pub point: Point,
    /// The record that counts: the last one of the same cell.
    pub kept: usize,
}

/// Every record that names a cell again, ascending, each with the record that named it first.
pub(crate) fn repeated(file: &[u8]) -> impl Iterator<Item = Twice> + '_ {
    again(file, 0..records_of(file)).map(|(point, second, first)| Twice {
        cell: [point.x, point.y, point.z],
        first,
        second,
    })
}

/// Every record of a cell that a later one names, ascending.
pub(crate) fn dropped(file: &[u8]) -> Vec<Dropped> {
    let backwards = again(file, (0..records_of(file)).rev());
    let mut dropped: Vec<Dropped> = backwards
        .map(|(point, record, kept)| Dropped {
            record,
            point,
            kept,
        })
        .collect();
    dropped.reverse();
    dropped
}

/// Of records in some order, each one whose cell an earlier one of that order has named: its point, and the place of both.
fn again<'a>(
    file: &'a [u8],
    records: impl Iterator<Item = usize> + 'a,
) -> impl Iterator<Item = (Point, usize, usize)> + 'a {
    let mut named = Named::new(grid_of(file));
    records.filter_map(move |record| {
        let point = Point::at(file, record);
        let first = named.first(&point, record)?;
        Some((point, record, first))
    })
}

/// The record that first named each cell.
struct Named {
    grid: u32,
    /// By cell number, one more than the record.
    inside: Vec<u32>,
    /// Of cells outside the grid, which a file that is refused may have.
    outside: HashMap<[u32; 3], usize>,
}

impl Named {
    fn new(grid: Option<u32>) -> Named {
        let grid = grid.unwrap_or(0);
        Named {
            grid,
            inside: vec![0; cells(grid)],
            outside: HashMap::new(),
        }
    }

    /// The record that named the point's cell before; none where this one is the first.
    fn first(&mut self, point: &Point, record: usize) -> Option<usize> {
        let Some(cell) = point.cell(self.grid) else {
            let cell = [point.x, point.y, point.z];
            let first = *self.outside.entry(cell).or_insert(record);
            return (first != record).then_some(first);
        };
        let named = &mut self.inside[cell as usize];
        if *named == 0 {
            *named = record as u32 + 1;
            return None;
        }
        Some(*named as usize - 1)
    }
}
