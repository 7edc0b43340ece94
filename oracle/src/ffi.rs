//! The proved library behind safe functions. All unsafe code of the crate is here.

use crate::rule::fill::{Body, Point};

unsafe extern "C" {
    // Takes and gives numbers, touches no memory: safe for every argument.
    safe fn mascon_narrow(x: f64) -> u64;

    // As `mascon_narrow`.
    safe fn mascon_costliest(g: u32) -> Cost;

    fn mascon_write_costliest(g: u32, out: *mut u8, out_len: usize) -> u64;

    fn mascon_open(
        file: *const u8,
        file_len: usize,
        scratch: *mut u32,
        scratch_len: usize,
        out: *mut u8,
        out_len: usize,
        journal: *mut u32,
        journal_len: usize,
    ) -> u64;

    fn mascon_fold(
        file: *const u8,
        file_len: usize,
        scratch: *mut u32,
        scratch_len: usize,
        out: *mut u8,
        out_len: usize,
    ) -> u64;

    fn mascon_put(
        file: *mut u8,
        file_len: usize,
        journal: *mut u32,
        journal_len: usize,
        x: u32,
        y: u32,
        z: u32,
        cauchy: f32,
        elliptic: f32,
    ) -> u64;

    fn mascon_remove(
        file: *mut u8,
        file_len: usize,
        journal: *mut u32,
        journal_len: usize,
        x: u32,
        y: u32,
        z: u32,
    ) -> u64;

    fn mascon_undo(file: *mut u8, file_len: usize, journal: *mut u32, journal_len: usize) -> u64;

    fn mascon_build(
        file: *const u8,
        file_len: usize,
        scratch: *mut u32,
        scratch_len: usize,
        out: *mut u8,
        out_len: usize,
    ) -> Built;

    fn mascon_inside(
        triangles: *const u8,
        triangles_len: usize,
        x: f64,
        y: f64,
        z: f64,
        floats: *mut f64,
        floats_len: usize,
    ) -> u64;

    fn mascon_fill(
        g: u32,
        triangles: *const u8,
        triangles_len: usize,
        cauchy_kernels: *const u8,
        cauchy_kernels_len: usize,
        elliptic_kernels: *const u8,
        elliptic_kernels_len: usize,
        target_mass: f64,
        constant_density: f64,
        floats: *mut f64,
        floats_len: usize,
        out: *mut u8,
        out_len: usize,
    ) -> u64;
}

/// What build answers: the length written, or the number of a cause; node and order counts, both 0 in a refusal.
#[repr(C)]
#[derive(Clone, Copy, Debug, PartialEq, Eq)]
pub(crate) struct Built {
    pub(crate) answer: u64,
    pub(crate) nodes: u64,
    pub(crate) order: u64,
}

impl Built {
    pub(crate) fn refused(cause: u64) -> Self {
        Self {
            answer: cause,
            nodes: 0,
            order: 0,
        }
    }
}

/// What costliest answers: 0, or the number of a cause; the greatest node count of a grid and the tree length that goes with it, both 0
/// in a refusal.
#[repr(C)]
#[derive(Clone, Copy, Debug, PartialEq, Eq)]
pub(crate) struct Cost {
    pub(crate) answer: u64,
    pub(crate) nodes: u64,
    pub(crate) bytes: u64,
}

impl Cost {
    pub(crate) fn refused(cause: u64) -> Self {
        Self {
            answer: cause,
            nodes: 0,
            bytes: 0,
        }
    }
}

/// The binary32 pattern of the binary64 number that `pattern` stands for, or 2^32 where it is too large.
pub(crate) fn narrow(pattern: u64) -> u64 {
    mascon_narrow(f64::from_bits(pattern))
}

/// The numbers of a grid's costliest tree.
pub(crate) fn costliest(g: u32) -> Cost {
    mascon_costliest(g)
}

/// Writes the costliest point file of a grid: the length written, or the number of a cause.
pub(crate) fn write_costliest(g: u32, out: &mut [u8]) -> u64 {
    // SAFETY: as in `open`.
    unsafe { mascon_write_costliest(g, out.as_mut_ptr(), out.len()) }
}

/// Opens a point file: the length written, or the number of a cause.
pub(crate) fn open(file: &[u8], scratch: &mut [u32], out: &mut [u8], journal: &mut [u32]) -> u64 {
    // SAFETY: each pointer comes from a slice that outlives the call and goes with that slice's length;
    // the slices do not overlap, and the file is only read.
    unsafe {
        mascon_open(
            file.as_ptr(),
            file.len(),
            scratch.as_mut_ptr(),
            scratch.len(),
            out.as_mut_ptr(),
            out.len(),
            journal.as_mut_ptr(),
            journal.len(),
        )
    }
}

/// Folds a point file in which records may name one cell: the length written, or the number of a cause.
pub(crate) fn fold(file: &[u8], scratch: &mut [u32], out: &mut [u8]) -> u64 {
    // SAFETY: as in `open`.
    unsafe {
        mascon_fold(
            file.as_ptr(),
            file.len(),
            scratch.as_mut_ptr(),
            scratch.len(),
            out.as_mut_ptr(),
            out.len(),
        )
    }
}

/// Puts a record into a cell: the file's new length, or the number of a cause. Masses are float bits.
pub(crate) fn put(file: &mut [u8], journal: &mut [u32], cell: [u32; 3], masses: [u32; 2]) -> u64 {
    let [x, y, z] = cell;
    let [cauchy, elliptic] = masses.map(f32::from_bits);
    // SAFETY: as in `open`; both slices are lent to be changed.
    unsafe {
        mascon_put(
            file.as_mut_ptr(),
            file.len(),
            journal.as_mut_ptr(),
            journal.len(),
            x,
            y,
            z,
            cauchy,
            elliptic,
        )
    }
}

/// Removes a cell's record: the file's new length, or the number of a cause.
pub(crate) fn remove(file: &mut [u8], journal: &mut [u32], cell: [u32; 3]) -> u64 {
    let [x, y, z] = cell;
    // SAFETY: as in `put`.
    unsafe {
        mascon_remove(
            file.as_mut_ptr(),
            file.len(),
            journal.as_mut_ptr(),
            journal.len(),
            x,
            y,
            z,
        )
    }
}

/// Takes back the last edit: the file's new length, or the number of a cause.
pub(crate) fn undo(file: &mut [u8], journal: &mut [u32]) -> u64 {
    // SAFETY: as in `put`.
    unsafe {
        mascon_undo(
            file.as_mut_ptr(),
            file.len(),
            journal.as_mut_ptr(),
            journal.len(),
        )
    }
}

/// Builds the tree of a point file.
pub(crate) fn build(file: &[u8], scratch: &mut [u32], out: &mut [u8]) -> Built {
    // SAFETY: as in `open`; the struct is laid out as in C.
    unsafe {
        mascon_build(
            file.as_ptr(),
            file.len(),
            scratch.as_mut_ptr(),
            scratch.len(),
            out.as_mut_ptr(),
            out.len(),
        )
    }
}

/// Whether a point is inside a mesh: 1 for yes, 0 for no, or the number of a cause.
pub(crate) fn inside(triangles: &[u8], [x, y, z]: Point, floats: &mut [f64]) -> u64 {
    // SAFETY: as in `open`; the mesh is only read.
    unsafe {
        mascon_inside(
            triangles.as_ptr(),
            triangles.len(),
            x,
            y,
            z,
            floats.as_mut_ptr(),
            floats.len(),
        )
    }
}

/// Fills a body into a point file: the length written, or the number of a cause.
pub(crate) fn fill(body: &Body, floats: &mut [f64], out: &mut [u8]) -> u64 {
    // SAFETY: as in `open`; the three lists are only read.
    unsafe {
        mascon_fill(
            body.grid,
            body.triangles.as_ptr(),
            body.triangles.len(),
            body.cauchy.as_ptr(),
            body.cauchy.len(),
            body.elliptic.as_ptr(),
            body.elliptic.len(),
            body.target,
            body.density,
            floats.as_mut_ptr(),
            floats.len(),
            out.as_mut_ptr(),
            out.len(),
        )
    }
}
