//! Cases of fill by name, with their answers.

use super::cases::{of_cells, Case};
use crate::meshes::{
    between, bytes, cuboid, dot, lumpy, moved, no_candidate, octahedron, past_edge, relative_tie,
    tetrahedron, turned, wall, Mesh,
};
use crate::rng::Rng;
use crate::rule::fill::{capacity, needed, Point, HEAVIEST, MOST_KERNELS, MOST_TRIANGLES};

/// Walls before the origin, which is the middle of the one cell at g 1.
pub(crate) fn walls_at(distances: &[f64]) -> Mesh {
    let mut mesh: Mesh = distances.iter().map(|&x| wall(x)).collect();
    let farthest = distances.iter().fold(0.0, |most: f64, &x| most.max(x));
    mesh.push(dot([-farthest, 0.0, 0.0]));
    mesh
}

/// A wall whose determinant is 2 · `height`, before the origin, which is the middle of the box.
pub(crate) fn low_wall(height: f64) -> Mesh {
    let half = 0.5 * height;
    vec![
        [[2.0, -half, -1.0], [2.0, half, -1.0], [2.0, 0.0, 1.0]],
        dot([-2.0, -1.0, -1.0]),
        dot([2.0, 1.0, 1.0]),
    ]
}

/// The corner of a cube, cut off at `side` on each axis.
pub(super) fn corner(side: f64) -> Mesh {
    let [x, y, z] = [[side, 0.0, 0.0], [0.0, side, 0.0], [0.0, 0.0, side]];
    tetrahedron([[0.0; 3], x, y, z])
}

/// A mesh with one kernel in each list, as heavy everywhere, and 9 bytes to spare.
fn with(mesh: &Mesh, grid: usize, w: f64, target: f64) -> Case {
    let kernel = bytes(&[0.5, 0.5, 0.5, 0.0, w]);
    Case {
        cauchy: kernel.clone(),
        elliptic: kernel,
        target,
        out: needed(grid as u64) as usize + 9,
        ..Case::of(grid, mesh)
    }
}

/// A byte of output too few.
fn short(case: Case) -> Case {
    Case {
        out: case.out - 1,
        ..case
    }
}

/// Two kernels at the middle of a cube, the second of which takes away just what the first gives there, if sigma · sigma · d² is
/// grouped from the left.
fn grouped() -> Case {
    let centre = [0.1, 0.2, 0.4];
    let [x, y, z] = centre.map(|coordinate: f64| 0.5 - coordinate);
    let squares = x * x + y * y + z * z;
    let given = |part: f64| 3.0 / (1.0 + part);
    let told_apart = |s: &f64| given(s * s * squares) != given(s * (s * squares));
    let mut sigmas = (1..).map(|tenths| f64::from(tenths) * 0.1);
    let sigma = sigmas.find(told_apart).expect("such a sigma");
    let w = given(sigma * sigma * squares);
    let [x, y, z] = centre;
    Case {
        cauchy: bytes(&[x, y, z, sigma, 3.0, 0.0, 0.0, 0.0, 0.0, -w]),
        ..Case::of(1, &cuboid([0.0; 3], [1.0; 3]))
    }
}

/// g 3 over a corner of 9,000: four points, cells of 4,000 by 4,000 by 4,000.
fn four_points(cauchy: &[f64], elliptic: &[f64], target: f64) -> Case {
    Case {
        cauchy: bytes(cauchy),
        elliptic: bytes(elliptic),
        target,
        ..Case::of(3, &corner(9e3))
    }
}

/// Kernels in the middles of two of their cells, so narrow that each gives a mass to its own alone.
fn two_cells(first: f64, second: f64) -> [f64; 10] {
    let [near, far] = [500.0, 4500.0];
    [near, near, near, 1e6, first, far, near, near, 1e6, second]
}

/// 20 by each float that can be too large, and by no other that is written.
fn too_large() -> [(&'static str, Case, u64); 8] {
    let even = |w: f64| [0.0, 0.0, 0.0, 0.0, w];
    let opposite = two_cells(1e28, -1e28);
    let nearly = two_cells(1.5e9, -1.5e9 * (1.0 - 2f64.powi(-40)));
    let (sum, less) = (even(2.5e27), even(1.25e27));
    [
        ("a Cauchy mass", four_points(&opposite, &[], 0.0), 20),
        ("an elliptic mass", four_points(&[], &opposite, 0.0), 20),
        ("a Cauchy sum", four_points(&sum, &[], 0.0), 20),
        ("an elliptic sum", four_points(&[], &sum, 0.0), 20),
        ("nearly both sums", four_points(&less, &less, 0.0), 128),
        ("a Cauchy scale", four_points(&even(1e-30), &[], 1e20), 20),
        (
            "an elliptic scale",
            four_points(&[], &even(1e-30), 1e20),
            20,
        ),
        ("a product", four_points(&nearly, &[], HEAVIEST), 20),
    ]
}

/// Small cases with their answers, which 01 or arithmetic gives.
pub(crate) fn small() -> Vec<(&'static str, Case, u64)> {
    let unit = cuboid([0.0; 3], [1.0; 3]);
    let large = cuboid([0.0; 3], [1e4; 3]);
    let flat = cuboid([999_999.99; 3], [1e6; 3]);
    let tiny = octahedron([0.0; 3], [0.25; 3]);
    let past_edge = [past_edge(), dot([-1.0, -1.0, 0.0]), dot([1.0, 31.0, 32.0])];
    let walls = |distances: &[f64]| Case::of(1, &walls_at(distances));
    let cells = |grid: usize, cells: usize| Case::of(grid, &of_cells(grid, cells));
    let far = Case {
        grid: 257,
        ..Case::of(1, &unit)
    };
    let sigma = |sigma: f64| Case {
        cauchy: bytes(&[0.0, 0.0, 0.0, sigma, 1.0]),
        ..Case::of(1, &unit)
    };
    let mut cut_mesh = Case::of(1, &unit);
    cut_mesh.triangles.extend([0; 8]);
    let mut cut_kernel = Case::of(1, &unit);
    cut_kernel.elliptic.extend([0; 39]);
    let no_candidate = |by_x: bool| Case::of(6, &no_candidate(&mut Rng::new(2), 6, by_x).0);
    let tie = relative_tie(&mut Rng::new(1));
    let mut cases = vec![
        ("three crossings", walls(&[10.0, 10.000009, 10.000018]), 64),
        ("two of them", walls(&[10.0, 10.000009]), 80),
        ("a tolerance apart", walls(&[1e-5, 2e-5]), 80),
        ("8e-7 of the farther apart", walls(&tie), 80),
        ("a distance of 1e-12", walls(&[1e-12]), 64),
        ("determinant 1e-12", Case::of(1, &low_wall(5e-13)), 80),
        ("past an edge by rounding", Case::of(1, &past_edge), 64),
        ("no candidate by x", no_candidate(true), 64),
        ("no candidate by y and z", no_candidate(false), 64),
        ("a cube at g 1", with(&unit, 1, 2.0, 5.0), 80),
        ("a cube at g 2", with(&unit, 2, 2.0, 5.0), 18),
        ("g 2, scale infinite", with(&unit, 2, 1e-18, HEAVIEST), 18),
        ("scale infinite", with(&unit, 1, 1e-18, HEAVIEST), 20),
        ("g 2, masses infinite", with(&large, 2, HEAVIEST, 0.0), 18),
        ("masses infinite", with(&large, 1, HEAVIEST, 0.0), 20),
        ("a flat cube", with(&flat, 2, 2.0, 5.0), 19),
        ("flat, infinite", with(&flat, 1, 1e-18, HEAVIEST), 19),
        ("flat, a byte short", short(Case::of(2, &flat)), 9),
        ("empty, a byte short", short(cells(2, 0)), 9),
        ("a corner at g 3", with(&corner(12.0), 3, 2.0, 5.0), 128),
        ("a mass of -0", with(&tiny, 1, -5e-324, 0.0), 80),
        ("kernels that cancel", grouped(), 80),
        ("no cell of g 2", cells(2, 0), 64),
        ("half of g 2", cells(2, 4), 128),
        ("one more", cells(2, 5), 18),
        ("half of g 3, rounded up", cells(3, 14), 288),
        ("one more", cells(3, 15), 18),
        ("no triangle", Case::of(1, &[]), 17),
        ("inside a triangle", cut_mesh, 17),
        ("inside a kernel", cut_kernel, 17),
        ("g 0", Case::of(0, &unit), 3),
        ("g 257", far, 3),
        ("sigma 0", sigma(0.0), 80),
        ("sigma -0", sigma(-0.0), 80),
        ("sigma below 0", sigma(-5e-324), 17),
    ];
    cases.extend(too_large());
    cases
}

/// Where the bodies at large grid sizes stand, off every axis, and how far they go.
const AT: Point = [-310.25, 1204.5, 77.125];
const REACH: Point = [528.5, 391.75, 333.3];

/// So many kernels all over such a body, some of them below 0.
fn kernels(rng: &mut Rng, count: usize) -> Vec<u8> {
    let kernel = |_| {
        let [x, y, z] = [0, 1, 2].map(|axis| AT[axis] + REACH[axis] * between(rng, -1.0, 1.0));
        let sigma = between(rng, 1e-4, 1e-2);
        [x, y, z, sigma, between(rng, -200.0, 2e3)]
    };
    let kernels: Vec<[f64; 5]> = (0..count).map(kernel).collect();
    bytes(kernels.as_flattened())
}

/// A body that reaches about 1 from the origin, put there with kernels, some triangles the other way round.
fn body(grid: usize, mesh: Mesh, target: f64) -> Case {
    let mut rng = Rng::new(grid as u64);
    let mesh = turned(&mut rng, moved(mesh, AT, REACH));
    Case {
        cauchy: kernels(&mut rng, 7),
        elliptic: kernels(&mut rng, 4),
        target,
        density: 1270.5,
        junk: 0x5eed_0003,
        ..Case::of(grid, &mesh)
    }
}

/// A lumpy sphere of 8n² triangles.
fn lump(n: i32) -> Mesh {
    lumpy(&mut Rng::new(64), n, [0.0; 3], 1.0, 0.6)
}

/// Two of them, the second smaller, that go through each other a little.
fn two_lumps([n, m]: [i32; 2]) -> Mesh {
    let mut rng = Rng::new(192);
    let mut mesh = lumpy(&mut rng, n, [-0.375, 0.0625, 0.0], 0.625, 0.7);
    mesh.extend(lumpy(&mut rng, m, [0.5, -0.125, 0.25], 0.5, 0.7));
    mesh
}

/// A thin plate across all axes.
fn plate() -> Mesh {
    let slanted = |[x, y, z]: Point| {
        [
            0.7 * x - 0.3 * y + z,
            0.4 * x + 0.6 * y - z,
            0.5 * y - 0.45 * x + z,
        ]
    };
    let flat = cuboid([-1.0, -1.0, -0.0125], [1.0, 1.0, 0.0125]);
    flat.into_iter()
        .map(|triangle| triangle.map(slanted))
        .collect()
}

/// Bodies at the original's own grid size, 192, and at 64. How many points a body has is known from the original; at g 192 the library
/// takes seconds for a hundred triangles.
pub(super) fn large() -> [(&'static str, Case, u64); 10] {
    let of = |points: u64| 64 + 16 * points;
    let half = |grid: usize| Case::of(grid, &of_cells(grid, capacity(grid as u64) as usize));
    let more = Case::of(192, &of_cells(192, capacity(192) as usize + 1));
    let cube = body(64, cuboid([-1.0; 3], [1.0; 3]), 4.5e11);
    [
        ("g 64, a lump", body(64, lump(10), 4.5e11), of(73_944)),
        (
            "g 64, two lumps",
            body(64, two_lumps([6, 6]), 0.0),
            of(70_892),
        ),
        ("g 64, a plate", body(64, plate(), 1.0), of(3_914)),
        ("g 64, a cube", cube, 18),
        ("half of g 64", half(64), of(capacity(64))),
        ("g 192, a lump", body(192, lump(4), 4.5e11), of(2_514_860)),
        (
            "g 192, two lumps",
            body(192, two_lumps([3, 2]), 0.0),
            of(2_318_314),
        ),
        ("g 192, a plate", body(192, plate(), 1.0), of(108_418)),
        ("half of g 192", half(192), of(capacity(192))),
        ("one more", more, 18),
    ]
}

/// All cases, with their answers where 01, arithmetic or the original gives them.
pub(super) fn all() -> Vec<(&'static str, Case, Option<u64>)> {
    let corner = corner(3.0);
    let of_kernels = |cauchy: usize, elliptic: usize| {
        let kernels = |count: usize| bytes(&[1.0, 0.5, 0.25, 0.5, 3.0].repeat(count));
        Case {
            cauchy: kernels(cauchy),
            elliptic: kernels(elliptic),
            target: 100.0,
            ..Case::of(4, &corner)
        }
    };
    let (most, more) = (MOST_KERNELS, MOST_KERNELS + 1);
    let mut many = vec![dot([1.0; 3]); MOST_TRIANGLES - 4];
    many.extend(corner.clone());
    let most_triangles = Case::of(1, &many);
    many.push(dot([2.0; 3]));
    let known = small().into_iter().chain(large());
    let mut all: Vec<_> = known
        .map(|(name, case, answer)| (name, case, Some(answer)))
        .collect();
    all.extend([
        ("4,096 kernels each", of_kernels(most, most), None),
        ("4,097 Cauchy kernels", of_kernels(more, 0), Some(17)),
        ("4,097 elliptic kernels", of_kernels(0, more), Some(17)),
        ("2^20 triangles", most_triangles, Some(64)),
        ("2^20 + 1 triangles", Case::of(1, &many), Some(17)),
        (
            "g 256, a byte short",
            short(Case::of(256, &corner)),
            Some(9),
        ),
        ("g 256", Case::of(256, &corner), None),
    ]);
    all
}
