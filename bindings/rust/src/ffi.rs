//! The C boundary (include/mascon.h) behind safe functions: all unsafe code of the crate.
//!
//! Every call is proved to stay within the lent slices for every content and length. What is left to the caller, that buffers
//! which are written do not overlap others, the borrows here ensure; that the floating-point mode is the default, `exported` does.
#![allow(unsafe_code)]

mod mode;
#[cfg(test)]
mod tests;

use crate::Refusal;
pub(crate) use mode::in_default_mode;
use mode::Mode;

/// What narrow answers of a number that is too large: 2^32.
const TOO_LARGE: u64 = 1 << 32;

/// What build answers.
#[repr(C)]
pub(crate) struct Built {
    pub(crate) answer: u64,
    pub(crate) nodes: u64,
    pub(crate) order: u64,
}

/// What costliest answers.
#[repr(C)]
pub(crate) struct Cost {
    pub(crate) answer: u64,
    pub(crate) nodes: u64,
    pub(crate) bytes: u64,
}

/// The library's calls. Each has a function of its name that makes it in the default mode, and is out of reach but for that.
macro_rules! exported {
    ($(fn $name:ident($($argument:ident: $type:ty),* $(,)?) -> $answer:ty;)*) => {
        mod raw {
            use super::{Built, Cost};

            unsafe extern "C" {
                $(pub(super) fn $name($($argument: $type),*) -> $answer;)*
            }
        }

        $(
            #[allow(clippy::too_many_arguments)]
            unsafe fn $name($($argument: $type),*) -> $answer {
                let _mode = Mode::set_default();
                unsafe { raw::$name($($argument),*) }
            }
        )*
    };
}

exported! {
    fn mascon_narrow(x: f64) -> u64;

    fn mascon_inside(
        triangles: *const u8,
        triangles_length: usize,
        x: f64,
        y: f64,
        z: f64,
        floats: *mut f64,
        floats_length: usize,
    ) -> u64;

    fn mascon_fill(
        g: u32,
        triangles: *const u8,
        triangles_length: usize,
        cauchy_kernels: *const u8,
        cauchy_kernels_length: usize,
        elliptic_kernels: *const u8,
        elliptic_kernels_length: usize,
        target_mass: f64,
        constant_density: f64,
        floats: *mut f64,
        floats_length: usize,
        out: *mut u8,
        out_length: usize,
    ) -> u64;

    fn mascon_open(
        file: *const u8,
        file_length: usize,
        scratch: *mut u32,
        scratch_length: usize,
        out: *mut u8,
        out_length: usize,
        journal: *mut u32,
        journal_length: usize,
    ) -> u64;

    fn mascon_fold(
        file: *const u8,
        file_length: usize,
        scratch: *mut u32,
        scratch_length: usize,
        out: *mut u8,
        out_length: usize,
    ) -> u64;

    fn mascon_put(
        file: *mut u8,
        file_length: usize,
        journal: *mut u32,
        journal_length: usize,
        x: u32,
        y: u32,
        z: u32,
        cauchy: f32,
        elliptic: f32,
    ) -> u64;

    fn mascon_remove(
        file: *mut u8,
        file_length: usize,
        journal: *mut u32,
        journal_length: usize,
        x: u32,
        y: u32,
        z: u32,
    ) -> u64;

    fn mascon_undo(
        file: *mut u8,
        file_length: usize,
        journal: *mut u32,
        journal_length: usize,
    ) -> u64;

    fn mascon_build(
        file: *const u8,
        file_length: usize,
        scratch: *mut u32,
        scratch_length: usize,
        out: *mut u8,
        out_length: usize,
    ) -> Built;

    fn mascon_costliest(g: u32) -> Cost;

    fn mascon_write_costliest(g: u32, out: *mut u8, out_length: usize) -> u64;
}

/// An answer as the length written, or as the refusal that a number below 64 is.
pub(crate) fn length(answer: u64) -> Result<usize, Refusal> {
    if answer < 64 {
        Err(refusal(answer))
    } else {
        Ok(usize::try_from(answer).expect("the length of a buffer that was lent"))
    }
}

fn refusal(answer: u64) -> Refusal {
    Refusal::from_number(answer).unwrap_or(Refusal::Unknown(answer))
}

/// None where it is too large.
pub(crate) fn narrow(x: f64) -> Option<u32> {
    match unsafe { mascon_narrow(x) } {
        TOO_LARGE => None,
        pattern => Some(u32::try_from(pattern).expect("up to 2^32")),
    }
}

pub(crate) fn inside(
    triangles: &[u8],
    [x, y, z]: [f64; 3],
    floats: &mut [f64],
) -> Result<bool, Refusal> {
    let answer = unsafe {
        mascon_inside(
            triangles.as_ptr(),
            triangles.len(),
            x,
            y,
            z,
            floats.as_mut_ptr(),
            floats.len(),
        )
    };
    match answer {
        0 => Ok(false),
        1 => Ok(true),
        cause => Err(refusal(cause)),
    }
}

#[allow(clippy::too_many_arguments)]
pub(crate) fn fill(
    g: u32,
    triangles: &[u8],
    cauchy_kernels: &[u8],
    elliptic_kernels: &[u8],
    target_mass: f64,
    constant_density: f64,
    floats: &mut [f64],
    out: &mut [u8],
) -> Result<usize, Refusal> {
    length(unsafe {
        mascon_fill(
            g,
            triangles.as_ptr(),
            triangles.len(),
            cauchy_kernels.as_ptr(),
            cauchy_kernels.len(),
            elliptic_kernels.as_ptr(),
            elliptic_kernels.len(),
            target_mass,
            constant_density,
            floats.as_mut_ptr(),
            floats.len(),
            out.as_mut_ptr(),
            out.len(),
        )
    })
}

pub(crate) fn open(
    file: &[u8],
    scratch: &mut [u32],
    out: &mut [u8],
    journal: &mut [u32],
) -> Result<usize, Refusal> {
    length(unsafe {
        mascon_open(
            file.as_ptr(),
            file.len(),
            scratch.as_mut_ptr(),
            scratch.len(),
            out.as_mut_ptr(),
            out.len(),
            journal.as_mut_ptr(),
            journal.len(),
        )
    })
}

pub(crate) fn fold(file: &[u8], scratch: &mut [u32], out: &mut [u8]) -> Result<usize, Refusal> {
    length(unsafe {
        mascon_fold(
            file.as_ptr(),
            file.len(),
            scratch.as_mut_ptr(),
            scratch.len(),
            out.as_mut_ptr(),
            out.len(),
        )
    })
}

#[inline]
pub(crate) fn put(
    file: &mut [u8],
    journal: &mut [u32],
    [x, y, z]: [u32; 3],
    cauchy: f32,
    elliptic: f32,
) -> Result<usize, Refusal> {
    length(unsafe {
        mascon_put(
            file.as_mut_ptr(),
            file.len(),
            journal.as_mut_ptr(),
            journal.len(),
            x,
            y,
            z,
            cauchy,
            elliptic,
        )
    })
}

#[inline]
pub(crate) fn remove(
    file: &mut [u8],
    journal: &mut [u32],
    [x, y, z]: [u32; 3],
) -> Result<usize, Refusal> {
    length(unsafe {
        mascon_remove(
            file.as_mut_ptr(),
            file.len(),
            journal.as_mut_ptr(),
            journal.len(),
            x,
            y,
            z,
        )
    })
}

#[inline]
pub(crate) fn undo(file: &mut [u8], journal: &mut [u32]) -> Result<usize, Refusal> {
    length(unsafe {
        mascon_undo(
            file.as_mut_ptr(),
            file.len(),
            journal.as_mut_ptr(),
            journal.len(),
        )
    })
}

/// The length written, and how many nodes and order words the tree has.
pub(crate) fn build(
    file: &[u8],
    scratch: &mut [u32],
    out: &mut [u8],
) -> Result<(usize, usize, usize), Refusal> {
    let built = unsafe {
        mascon_build(
            file.as_ptr(),
            file.len(),
            scratch.as_mut_ptr(),
            scratch.len(),
            out.as_mut_ptr(),
            out.len(),
        )
    };
    let length = length(built.answer)?;
    Ok((length, built.nodes as usize, built.order as usize))
}

/// The greatest node count of a grid's trees, and that tree's length.
pub(crate) fn costliest(g: u32) -> Result<(usize, usize), Refusal> {
    let cost = unsafe { mascon_costliest(g) };
    match cost.answer {
        0 => Ok((cost.nodes as usize, cost.bytes as usize)),
        cause => Err(refusal(cause)),
    }
}

pub(crate) fn write_costliest(g: u32, out: &mut [u8]) -> Result<usize, Refusal> {
    length(unsafe { mascon_write_costliest(g, out.as_mut_ptr(), out.len()) })
}
