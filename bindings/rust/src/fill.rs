use crate::{ffi, Refusal};

/// How many triangles a mesh has at most.
pub const MAX_TRIANGLES: usize = 1 << 20;
/// How many kernels a list has at most.
pub const MAX_KERNELS: usize = 4096;
/// How far corners and centres lie from 0 on each axis at most, in metres.
pub const MAX_COORDINATE: f64 = 1e6;
/// The greatest sigma, per metre.
pub const MAX_SIGMA: f64 = 1e6;
/// The greatest magnitude of weight, target mass and density.
pub const MAX_WEIGHT: f64 = 1e30;

/// A triangle of a mesh, its corners in metres.
#[derive(Clone, Copy, Debug, PartialEq)]
pub struct Triangle {
    /// The first corner.
    pub a: [f64; 3],
    /// The second corner.
    pub b: [f64; 3],
    /// The third corner.
    pub c: [f64; 3],
}

/// A Cauchy kernel of density: `w / (1 + sigma² d²)` at distance d from its centre.
///
/// The original's exponent alpha is 1 here.
#[derive(Clone, Copy, Debug, PartialEq)]
pub struct Kernel {
    /// The centre in metres.
    pub c: [f64; 3],
    /// The inverse width, per metre.
    pub sigma: f64,
    /// The weight, in kilograms per cubic metre.
    pub w: f64,
}

fn numbers(numbers: impl Iterator<Item = f64>, size: usize) -> Vec<u8> {
    let mut bytes = Vec::with_capacity(size);
    for number in numbers {
        bytes.extend_from_slice(&number.to_le_bytes());
    }
    bytes
}

fn triangle_bytes(triangles: &[Triangle]) -> Vec<u8> {
    let corners = triangles.iter().flat_map(|t| [t.a, t.b, t.c]);
    numbers(corners.flatten(), triangles.len() * 72)
}

fn kernel_bytes(kernels: &[Kernel]) -> Vec<u8> {
    let each = kernels
        .iter()
        .flat_map(|k| [k.c[0], k.c[1], k.c[2], k.sigma, k.w]);
    numbers(each, kernels.len() * 40)
}

/// Whether a point lies inside a mesh: a ray along +X crosses it an odd number of times.
///
/// Each call judges the whole mesh, so of many points ask with [`build_mascon`] or keep calls few.
///
/// ```
/// use mascon::{is_inside, shapes};
///
/// let ball = shapes::lumpy_sphere([0.0; 3], 100.0, 0.0, 8);
/// assert_eq!(is_inside(&ball, [10.0, 20.0, 30.0]), Ok(true));
/// assert_eq!(is_inside(&ball, [100.0, 20.0, 30.0]), Ok(false));
/// ```
///
/// # Errors
/// [`Refusal::OutOfBounds`] (17).
pub fn is_inside(triangles: &[Triangle], point: [f64; 3]) -> Result<bool, Refusal> {
    let mut floats = vec![0.0; triangles.len()];
    ffi::inside(&triangle_bytes(triangles), point, &mut floats)
}

/// Fills a mesh: the point file (RYM1) of the cells whose middle lies inside, with their masses by the two lists of kernels.
///
/// As the original's `build_mascon`, with the grid as an argument. Where `cauchy_target_mass` is above 0, the masses of each list
/// are scaled so that they add up to it. The time grows with cells × triangles. What 17 is about, [`check_lists`](crate::check::check_lists)
/// says; 18, and cells that are judged wrongly where shells touch, [`mesh::Survey`](crate::mesh::Survey) foretells.
///
/// ```
/// use mascon::{build_mascon, shapes, Kernel, Model};
///
/// let ball = shapes::lumpy_sphere([0.0; 3], 100.0, 0.0, 8);
/// let kernels = [Kernel { c: [0.0; 3], sigma: 0.005, w: 1190.0 }];
/// let file = build_mascon(&ball, &kernels, &kernels, 5.0e9, 1190.0, 12)?;
/// let model = Model::open(&file)?;
/// assert!((model.masses().0 / 5.0e9 - 1.0).abs() < 1e-5);
/// # Ok::<(), mascon::Refusal>(())
/// ```
///
/// # Errors
/// 3, 17, 18, 19, 20.
pub fn build_mascon(
    triangles: &[Triangle],
    cauchy_kernels: &[Kernel],
    elliptic_kernels: &[Kernel],
    cauchy_target_mass: f64,
    constant_density: f64,
    grid: u32,
) -> Result<Vec<u8>, Refusal> {
    if !(1..=crate::MAX_GRID).contains(&grid) {
        return Err(Refusal::GridOutOfRange);
    }
    let cells = crate::cells(grid);
    let mut floats = vec![0.0; triangles.len()];
    let mut out = vec![0; 64 + 16 * cells.div_ceil(2)];
    let length = ffi::fill(
        grid,
        &triangle_bytes(triangles),
        &kernel_bytes(cauchy_kernels),
        &kernel_bytes(elliptic_kernels),
        cauchy_target_mass,
        constant_density,
        &mut floats,
        &mut out,
    )?;
    out.truncate(length);
    out.shrink_to_fit();
    Ok(out)
}

/// The binary32 nearest to a binary64, ties to even: how masses and centres are written. None where it is too large: from magnitude
/// 2^128 − 2^103 up, an infinity or a NaN.
///
/// ```
/// assert_eq!(mascon::narrow(0.1), Some(0.1_f32));
/// let end = 2_f64.powi(128) - 2_f64.powi(103);
/// assert_eq!(mascon::narrow(end), None);
/// assert_eq!(mascon::narrow(end.next_down()), Some(f32::MAX));
/// ```
pub fn narrow(x: f64) -> Option<f32> {
    ffi::narrow(x).map(f32::from_bits)
}
