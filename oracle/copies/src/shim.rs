// A child module of each copy of the original: its private functions on plain numbers.

use super::{Kernel, Triangle, Vec3};

/// 9 numbers a triangle: a, b, c.
fn triangles(list: &[f64]) -> Vec<Triangle> {
    let (corners, rest) = list.as_chunks::<9>();
    assert!(
        rest.is_empty(),
        "a list of triangles ends inside a triangle"
    );
    corners.iter().map(triangle).collect()
}

fn triangle(&[ax, ay, az, bx, by, bz, cx, cy, cz]: &[f64; 9]) -> Triangle {
    super::make_triangle([ax, ay, az], [bx, by, bz], [cx, cy, cz])
}

/// 5 numbers a kernel: centre, sigma, w. Alpha is 1.
fn kernels(list: &[f64]) -> Vec<Kernel> {
    let (kernels, rest) = list.as_chunks::<5>();
    assert!(rest.is_empty(), "a list of kernels ends inside a kernel");
    kernels
        .iter()
        .map(|&[x, y, z, sigma, w]| Kernel {
            c: [x, y, z],
            sigma,
            w,
            alpha: 1.0,
        })
        .collect()
}

/// A point file's header and records as the original reads them.
#[derive(Clone, Debug, PartialEq)]
pub struct Points {
    pub grid: usize,
    pub count: usize,
    pub constant_density: f64,
    pub cell_volume: f64,
    pub cauchy_scale: f64,
    pub min: Vec3,
    pub max: Vec3,
    /// Coordinates x, y, z; Cauchy mass, elliptic mass.
    pub records: Vec<([u32; 3], [f64; 2])>,
}

pub fn parse_mascon_bytes(file: &[u8]) -> Result<Points, String> {
    let source = super::parse_mascon_bytes(file, "point file")?;
    Ok(Points {
        grid: source.grid,
        count: source.count,
        constant_density: source.constant_density,
        cell_volume: source.cell_volume,
        cauchy_scale: source.cauchy_scale,
        min: source.min,
        max: source.max,
        records: source
            .points
            .iter()
            .map(|point| {
                (
                    [point.x, point.y, point.z],
                    [point.cauchy_mass, point.elliptic_mass],
                )
            })
            .collect(),
    })
}

/// The tree file of a point file, its node count and its order count.
/// Panics where the original does: on a coordinate beyond the last slot.
pub fn build_mascon_tree(file: &[u8]) -> Result<(Vec<u8>, usize, usize), String> {
    Ok(super::build_mascon_tree(&super::parse_mascon_bytes(
        file,
        "point file",
    )?))
}

/// The point file of a mesh, or "mascon capacity exceeded".
pub fn build_mascon(
    triangle_list: &[f64],
    cauchy_kernels: &[f64],
    elliptic_kernels: &[f64],
    cauchy_target_mass: f64,
    constant_density: f64,
) -> Result<Vec<u8>, String> {
    super::build_mascon(
        &triangles(triangle_list),
        &kernels(cauchy_kernels),
        &kernels(elliptic_kernels),
        cauchy_target_mass,
        constant_density,
    )
}

/// Whether each point lies inside the mesh, by one accelerator for all points.
pub fn inside(triangle_list: &[f64], points: &[Vec3]) -> Vec<bool> {
    let triangles = triangles(triangle_list);
    let mut accelerator = super::InsideAccelerator::new(&triangles);
    points
        .iter()
        .map(|&point| accelerator.inside(point))
        .collect()
}

/// The distance of a crossing, or -1.
pub fn ray_triangle_t(origin: Vec3, direction: Vec3, corners: &[f64; 9]) -> f64 {
    super::ray_triangle_t(origin, direction, &triangle(corners))
}

/// Casts the ray along +X from each point at all triangles; the crossings counted, and how long it took once the mesh stood.
pub fn cast(triangle_list: &[f64], points: &[Vec3]) -> (usize, std::time::Duration) {
    let triangles = triangles(triangle_list);
    let started = std::time::Instant::now();
    let crossed = |point: Vec3| {
        let hits = triangles
            .iter()
            .filter(|triangle| super::ray_triangle_t(point, [1.0, 0.0, 0.0], triangle) > 0.0);
        hits.count()
    };
    let crossings = points.iter().map(|&point| crossed(point)).sum();
    (crossings, started.elapsed())
}

pub fn density_at(kernel_list: &[f64], point: Vec3) -> f64 {
    super::density_at(&kernels(kernel_list), point)
}
