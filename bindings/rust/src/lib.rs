#![doc = include_str!("../README.md")]
#![deny(missing_docs)]
#![deny(unsafe_code)]

mod boxes;
pub mod check;
mod cost;
mod departures;
pub mod draw;
mod ffi;
mod fill;
mod floats;
pub mod mesh;
mod model;
mod model_file;
mod points;
mod refusal;
#[cfg(test)]
#[path = "../tests/common/rng.rs"]
mod rng;
mod save;
pub mod shapes;
pub mod text;
mod tree;
mod twice;

pub use cost::Cost;
pub use departures::Departures;
pub use fill::{
    build_mascon, is_inside, narrow, Kernel, Triangle, MAX_COORDINATE, MAX_KERNELS, MAX_SIGMA,
    MAX_TRIANGLES, MAX_WEIGHT,
};
pub use floats::{Field, TreeFloat};
pub use model::{ApplyError, Change, Entry, Model, MAX_ENTRIES};
pub use model_file::{beside_model, journal_path, ModelFile, ModelFileError, Reading};
pub use points::{build_mascon_tree, parse_mascon_bytes, Header, MasconSource, Point, Points};
pub use refusal::{Labelled, OpenError, Refusal};
pub use save::{held_at, write_file, Held};
pub use text::Edit;
pub use tree::{Node, Tree};
pub use twice::{Dropped, Twice};

/// The finest grid: cells on each axis.
pub const MAX_GRID: u32 = 256;

/// How many cells a grid has.
pub(crate) fn cells(grid: u32) -> usize {
    let grid = grid as usize;
    grid * grid * grid
}

/// Opens a point file; see [`Model::open`].
///
/// # Errors
/// 1 to 7, 21.
pub fn open(bytes: &[u8]) -> Result<Model, OpenError> {
    Model::open(bytes)
}
