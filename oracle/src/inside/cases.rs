//! Meshes with points to ask about, and meshes, points and lengths of scratch that are refused, drawn by kind.

use crate::fill::cases::{judged, mutate, resize, some_floats};
use crate::meshes::{
    a_binary, a_soup, a_sphere, a_tetrahedron, anywhere, between, lattice_body, mesh_bytes,
    negative_zeros, octahedron, placed, walls, without_area, Mesh, Slivers,
};
use crate::open::cases::{kind, nothing, one_in, pick, up_to, word, Kind};
use crate::rng::Rng;
use crate::rule::fill::{Point, FARTHEST, FARTHEST_POINT, TRIANGLE};

/// A mesh and points to ask about, one call each.
pub(crate) struct Cloud {
    pub(crate) triangles: Vec<u8>,
    pub(crate) points: Vec<Point>,
    pub(crate) junk: u32,
}

/// One call; what scratch holds comes from `junk`.
#[derive(Clone)]
pub(crate) struct Case {
    pub(crate) triangles: Vec<u8>,
    pub(crate) point: Point,
    pub(crate) floats: usize,
    pub(crate) junk: u32,
}

/// Points for each mesh.
pub(crate) const POINTS: usize = 250;

pub(crate) const CLOUDS: [Kind<Cloud>; 9] = [
    kind("tetrahedra", 400, tetrahedra, nothing),
    kind("lumpy spheres", 900, spheres, nothing),
    kind("contact binaries", 600, binaries, nothing),
    kind("open soups", 400, soups, nothing),
    kind("lattice bodies", 900, on_lattices, nothing),
    kind("degenerate triangles", 400, degenerate, nothing),
    kind("extreme numbers", 400, extreme, nothing),
    kind("slivers", 400, edge_on, nothing),
    kind("walls", 400, near_walls, nothing),
];

pub(crate) const KINDS: [Kind<Case>; 6] = [
    kind("list lengths", 4_000, small, list_length),
    kind("triangle numbers", 6_000, small, triangle_number),
    kind("point numbers", 4_000, small, point_number),
    kind("scratch lengths", 3_000, small, floats_length),
    kind("17 and 8 together", 3_000, small, both),
    kind("mutated bytes", 2_000, small, mutated),
];

impl Case {
    /// A mesh and a point, with just enough scratch.
    pub(crate) fn of(mesh: &Mesh, point: Point) -> Self {
        Self {
            triangles: mesh_bytes(mesh),
            point,
            floats: mesh.len(),
            junk: 1,
        }
    }
}

/// Low and high of the inside test's box.
fn ends(mesh: &Mesh) -> [(f64, f64); 3] {
    let corners = mesh.as_flattened();
    [0, 1, 2].map(|axis| {
        let on = corners.iter().map(|corner| corner[axis]);
        let (least, most) = (on.clone().fold(1e9, f64::min), on.fold(-1e9, f64::max));
        let outward = 1e-3 * (most - least + 1.0);
        (least - outward, most + outward)
    })
}

/// A point of a triangle: a corner, on an edge, or on its plane.
fn on_triangle(rng: &mut Rng, mesh: &Mesh) -> Point {
    let [a, b, c] = pick(rng, mesh);
    let eighths = pick(
        rng,
        &[
            [0, 0],
            [8, 0],
            [0, 8],
            [4, 0],
            [4, 4],
            [3, 0],
            [2, 2],
            [1, 5],
        ],
    );
    let [u, v] = eighths.map(|eighth| f64::from(eighth) / 8.0);
    [0, 1, 2].map(|axis| a[axis] + u * (b[axis] - a[axis]) + v * (c[axis] - a[axis]))
}

/// A border of the 96 cells on an axis, or the number before or after it.
fn on_border(rng: &mut Rng, (low, high): (f64, f64)) -> f64 {
    let border = low + (high - low) * (rng.range(0, 96) as f64 / 96.0);
    pick(rng, &[border, border, border.next_up(), border.next_down()])
}

/// A point inside the box or a little outside, on a triangle or in a line with one, on borders of cells, or far out.
fn a_point(rng: &mut Rng, mesh: &Mesh, ends: [(f64, f64); 3]) -> Point {
    let any = ends.map(|(low, high)| {
        let wider = 0.05 * (high - low);
        between(rng, low - wider, high + wider)
    });
    let point = match rng.below(8) {
        0 | 1 => any,
        2 => on_triangle(rng, mesh),
        3 | 4 => {
            let [_, y, z] = on_triangle(rng, mesh);
            [pick(rng, &[any[0], ends[0].0, ends[0].0 - 1.0]), y, z]
        }
        5 => {
            let [p, q, r] = [0; 3].map(|_| on_triangle(rng, mesh));
            [p[0], q[1], r[2]]
        }
        6 => {
            let mixed = on_triangle(rng, mesh);
            [0, 1, 2].map(|axis| {
                let border = on_border(rng, ends[axis]);
                pick(rng, &[border, border, any[axis], mixed[axis]])
            })
        }
        _ => {
            let far = pick(rng, &[FARTHEST_POINT, FARTHEST, 2e6, 1.0]);
            [0, 1, 2].map(|axis| pick(rng, &[far, -far, any[axis], any[axis], 0.0, -0.0]))
        }
    };
    point.map(|number| number.clamp(-FARTHEST_POINT, FARTHEST_POINT))
}

fn cloud(rng: &mut Rng, mesh: &Mesh) -> Cloud {
    let ends = ends(mesh);
    Cloud {
        triangles: mesh_bytes(mesh),
        points: (0..POINTS).map(|_| a_point(rng, mesh, ends)).collect(),
        junk: word(rng),
    }
}

fn tetrahedra(rng: &mut Rng) -> Cloud {
    let mesh = a_tetrahedron(rng);
    cloud(rng, &mesh)
}

fn spheres(rng: &mut Rng) -> Cloud {
    let mesh = a_sphere(rng, 5);
    let mesh = placed(rng, mesh);
    cloud(rng, &mesh)
}

fn binaries(rng: &mut Rng) -> Cloud {
    let mesh = a_binary(rng, 6);
    cloud(rng, &mesh)
}

fn soups(rng: &mut Rng) -> Cloud {
    let mesh = a_soup(rng, 6, 16);
    cloud(rng, &mesh)
}

fn on_lattices(rng: &mut Rng) -> Cloud {
    let grid = rng.range(1, 12) as usize;
    let mesh = lattice_body(rng, grid);
    cloud(rng, &mesh)
}

fn degenerate(rng: &mut Rng) -> Cloud {
    let mut mesh = a_soup(rng, 6, 8);
    without_area(rng, &mut mesh);
    cloud(rng, &mesh)
}

/// Coordinates at the bound, far below it, and zeros of the other sign.
fn extreme(rng: &mut Rng) -> Cloud {
    let size = pick(rng, &[FARTHEST, FARTHEST, 1e-5, 1e-12, 1e-300]);
    let corner = |rng: &mut Rng| [0; 3].map(|_| pick(rng, &[size, -size, 0.0, 0.5 * size]));
    let count = rng.range(1, 8);
    let mesh = match rng.below(2) {
        0 => octahedron([0.0; 3], [size; 3]),
        _ => (0..count).map(|_| [0; 3].map(|_| corner(rng))).collect(),
    };
    cloud(rng, &negative_zeros(mesh))
}

/// Points on the slivers' line, before and behind them.
fn edge_on(rng: &mut Rng) -> Cloud {
    let grid = rng.range(2, 40) as usize;
    let count = rng.range(4, 20);
    let slivers = Slivers::new(rng, grid, count);
    let on_line = |_| {
        let x = between(rng, -0.1, 1.1);
        slivers.at(x, up_to(rng, grid - 1))
    };
    Cloud {
        points: (0..POINTS).map(on_line).collect(),
        triangles: mesh_bytes(&slivers.mesh),
        junk: word(rng),
    }
}

/// Points at the origin and near it.
fn near_walls(rng: &mut Rng) -> Cloud {
    let mesh = walls(rng);
    let mut cloud = cloud(rng, &mesh);
    let near = |rng: &mut Rng| anywhere(rng, -1e-3, 1e-3);
    for (number, point) in cloud.points.iter_mut().enumerate().take(POINTS / 2) {
        *point = if number < 8 { [0.0; 3] } else { near(rng) };
    }
    cloud
}

fn small(rng: &mut Rng) -> Case {
    let mesh = match rng.below(3) {
        0 => a_tetrahedron(rng),
        1 => octahedron([0.0; 3], [1.0, 2.0, 3.0]),
        _ => lattice_body(rng, 3),
    };
    let ends = ends(&mesh);
    Case {
        floats: mesh.len() + up_to(rng, 3),
        junk: word(rng),
        ..Case::of(&mesh, a_point(rng, &mesh, ends))
    }
}

/// A list cut at each length of its last entry, empty, or longer.
fn list_length(_: &mut Rng, number: usize, case: &mut Case) {
    let whole = case.triangles.len();
    let (way, number) = (number % 4, number / 4);
    let length = match way {
        0 => whole - number % TRIANGLE,
        1 => number % (whole + 1),
        2 => whole + 1 + number % TRIANGLE,
        _ => whole - 8 * (number % 9),
    };
    resize(&mut case.triangles, TRIANGLE, length);
}

/// A number near its bound, or not finite, at each place of a triangle.
fn triangle_number(rng: &mut Rng, number: usize, case: &mut Case) {
    let last = case.triangles.len() / TRIANGLE - 1;
    let triangle = pick(rng, &[0, last, last / 2]);
    let at = TRIANGLE * triangle + 8 * (number % 9);
    let value = judged(FARTHEST, number / 9).to_le_bytes();
    case.triangles[at..at + 8].copy_from_slice(&value);
}

/// The same in the point, by its own bound.
fn point_number(_: &mut Rng, number: usize, case: &mut Case) {
    case.point[number % 3] = judged(FARTHEST_POINT, number / 3);
}

fn floats_length(rng: &mut Rng, number: usize, case: &mut Case) {
    let triangles = case.triangles.len() / TRIANGLE;
    case.floats = some_floats(rng, number, triangles);
}

/// A short scratch, and a list or a number that 17 refuses, mostly.
fn both(rng: &mut Rng, number: usize, case: &mut Case) {
    case.floats = case.triangles.len() / TRIANGLE - 1;
    match number % 3 {
        0 => triangle_number(rng, number / 3, case),
        1 => point_number(rng, number / 3, case),
        _ => list_length(rng, number / 3, case),
    }
}

/// One to three bytes of the mesh set anew, or with a bit flipped.
fn mutated(rng: &mut Rng, _: usize, case: &mut Case) {
    for _ in 0..rng.range(1, 3) {
        mutate(rng, &mut case.triangles);
    }
    if one_in(rng, 4) {
        let axis = up_to(rng, 2);
        case.point[axis] = f64::from_bits(case.point[axis].to_bits() ^ 1 << rng.below(64));
    }
}
