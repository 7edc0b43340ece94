//! Shapes for examples and tests.

use crate::{Kernel, Triangle};
use std::f64::consts::PI;

/// A closed ball of `rings` rings of triangles with soft lumps, `lumps` times the radius high. The lumps fade towards the two ends on
/// x, where it has its exact radius, so that two balls can touch there.
///
/// ```
/// assert_eq!(mascon::shapes::lumpy_sphere([0.0; 3], 1.0, 0.1, 8).len(), 16 * 14);
/// ```
pub fn lumpy_sphere(center: [f64; 3], radius: f64, lumps: f64, rings: usize) -> Vec<Triangle> {
    lumpy_sphere_along(center, [radius, 0.0, 0.0], lumps, rings)
}

/// The same with its two ends at `center + end` and `center - end`; the length of `end` is the radius.
///
/// ```
/// use mascon::{mesh, shapes};
///
/// let ball = shapes::lumpy_sphere_along([1.0, 2.0, 3.0], [0.0, 0.0, 10.0], 0.1, 8);
/// let (min, max) = mesh::bounds(&ball);
/// assert_eq!((min[2], max[2]), (-7.0, 13.0));
/// ```
pub fn lumpy_sphere_along(
    center: [f64; 3],
    end: [f64; 3],
    lumps: f64,
    rings: usize,
) -> Vec<Triangle> {
    let (rings, sectors) = (rings.max(2), 2 * rings.max(2));
    let (radius, directions) = (length(end), directions(end));
    let corner = |ring: usize, sector: usize| -> [f64; 3] {
        if ring == 0 || ring == rings {
            let sign = if ring == 0 { 1.0 } else { -1.0 };
            return [0, 1, 2].map(|axis| center[axis] + sign * end[axis]);
        }
        let polar = PI * ring as f64 / rings as f64;
        let around = 2.0 * PI * (sector % sectors) as f64 / sectors as f64;
        let along = lumpy(radius, lumps, polar, around);
        [0, 1, 2].map(|axis| {
            let parts = along.iter().zip(directions);
            parts.fold(center[axis], |sum, (x, d)| sum + x * d[axis])
        })
    };
    let row = |ring: usize| -> Vec<[f64; 3]> {
        (0..=sectors).map(|sector| corner(ring, sector)).collect()
    };
    let mut triangles = Vec::with_capacity(2 * sectors * (rings - 1));
    let mut above = row(0);
    for ring in 0..rings {
        let below = row(ring + 1);
        for sector in 0..sectors {
            let [a, b] = [sector, sector + 1].map(|sector| above[sector]);
            let [c, d] = [sector, sector + 1].map(|sector| below[sector]);
            if ring + 1 < rings {
                triangles.push(Triangle { a, b: c, c: d });
            }
            if ring > 0 {
                triangles.push(Triangle { a, b: d, c: b });
            }
        }
        above = below;
    }
    triangles
}

/// A corner of a ball, along its direction and the two at right angles.
fn lumpy(radius: f64, lumps: f64, polar: f64, around: f64) -> [f64; 3] {
    let lump =
        (3.0 * around).sin() * (2.0 * polar).sin() + 0.6 * (2.0 * around + 1.0).cos() * polar.sin();
    let r = radius * (1.0 + lumps * lump * polar.sin().powi(2));
    [
        r * polar.cos(),
        r * polar.sin() * around.cos(),
        r * polar.sin() * around.sin(),
    ]
}

fn length(v: [f64; 3]) -> f64 {
    v.iter().map(|x| x * x).sum::<f64>().sqrt()
}

/// A vector's direction and two that are at right angles to it and to each other; of one along x, those of the axes.
fn directions(v: [f64; 3]) -> [[f64; 3]; 3] {
    let unit = |v: [f64; 3]| v.map(|x| x / length(v));
    let a = unit(v);
    let b = if a[0] == 0.0 && a[1] == 0.0 {
        [1.0, 0.0, 0.0]
    } else {
        unit([-a[1], a[0], 0.0])
    };
    let c = [
        a[1] * b[2] - a[2] * b[1],
        a[2] * b[0] - a[0] * b[2],
        a[0] * b[1] - a[1] * b[0],
    ];
    [a, b, c]
}

/// A cuboid of twelve triangles.
///
/// ```
/// assert_eq!(mascon::mesh::bounds(&mascon::shapes::cuboid([0.0; 3], [3.0, 2.0, 1.0])).1, [3.0, 2.0, 1.0]);
/// ```
pub fn cuboid(min: [f64; 3], max: [f64; 3]) -> Vec<Triangle> {
    let ends = [min, max];
    let corner = |bits: usize| [0, 1, 2].map(|axis| ends[bits >> axis & 1][axis]);
    let sides = [
        [0, 4, 6, 2],
        [1, 3, 7, 5],
        [0, 1, 5, 4],
        [2, 6, 7, 3],
        [0, 2, 3, 1],
        [4, 5, 7, 6],
    ];
    let halves = |[a, b, c, d]: [usize; 4]| [[a, b, c], [a, c, d]];
    sides
        .into_iter()
        .flat_map(halves)
        .map(|three| {
            let [a, b, c] = three.map(corner);
            Triangle { a, b, c }
        })
        .collect()
}

/// A contact binary: two lumpy balls, of 420 m and 315 m, that touch in one point, and two kernels of density, one in each.
///
/// They touch at (100, 100, 80), askew to the axes: the ray of no cell's middle passes through that point, for grids 1 to 256 and 4 to
/// 256 rings, so that no cell is judged wrongly (see [`mesh`](crate::mesh)).
///
/// ```
/// let (mesh, kernels) = mascon::shapes::contact_binary(6);
/// assert_eq!((mesh.len(), kernels.len()), (2 * 12 * 10, 2));
/// ```
pub fn contact_binary(rings: usize) -> (Vec<Triangle>, Vec<Kernel>) {
    let (body, head) = ([-300.0, 0.0, 0.0], [400.0, 175.0, 140.0]);
    let mut mesh = lumpy_sphere_along(body, [400.0, 100.0, 80.0], 0.12, rings);
    mesh.extend(lumpy_sphere_along(head, [300.0, 75.0, 60.0], 0.10, rings));
    let kernels = vec![
        Kernel {
            c: body,
            sigma: 1.0 / 500.0,
            w: 2100.0,
        },
        Kernel {
            c: head,
            sigma: 1.0 / 250.0,
            w: 1700.0,
        },
    ];
    (mesh, kernels)
}

/// A point file without points, to be opened and edited: cell volume by the box, density and scale 1.
///
/// ```
/// let file = mascon::shapes::empty_file(8, [-4.0; 3], [4.0; 3]);
/// assert!(mascon::Model::open(&file)?.is_empty());
/// # Ok::<(), mascon::Refusal>(())
/// ```
pub fn empty_file(grid: u32, min: [f32; 3], max: [f32; 3]) -> Vec<u8> {
    let edge = |axis: usize| (max[axis] - min[axis]) / grid as f32;
    let volume = edge(0) * edge(1) * edge(2);
    let mut words = vec![crate::points::POINTS_WORD, 1, grid, 0];
    words.extend([1.0, volume, 1.0, 0.0].map(f32::to_bits));
    words.extend(min.iter().chain(&max).map(|x| x.to_bits()));
    words.extend([0, 0]);
    words.into_iter().flat_map(u32::to_le_bytes).collect()
}
