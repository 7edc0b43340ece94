//! Meshes, kernels and lengths of buffers to fill from, drawn by kind.

use crate::meshes::{
    a_binary, a_lattice, a_soup, a_sphere, a_tetrahedron, anywhere, between, bytes, cuboid, dot,
    lattice_body, lattice_cuboid, mesh_bytes, moved, negative_zeros, octahedron, ordered, placed,
    share, tetrahedron, turned, volume_tie, walls, without_area, Lattice, Mesh, Slivers,
};
use crate::open::cases::{kind, nothing, one_in, pick, up_to, word, Damage, Kind};
use crate::open::out_byte;
use crate::rng::Rng;
use crate::rule::fill::{
    capacity, needed, Body, Point, Triangle, FARTHEST, HEAVIEST, KERNEL, MOST_KERNELS, TRIANGLE,
};
use crate::rule::TOO_LARGE;

/// What one call is given and lent; the buffers' contents come from `junk`.
#[derive(Clone)]
pub(crate) struct Case {
    pub(crate) grid: u32,
    pub(crate) triangles: Vec<u8>,
    pub(crate) cauchy: Vec<u8>,
    pub(crate) elliptic: Vec<u8>,
    pub(crate) target: f64,
    pub(crate) density: f64,
    pub(crate) floats: usize,
    pub(crate) out: usize,
    pub(crate) junk: u32,
}

pub(crate) const KINDS: [Kind<Case>; 29] = [
    kind("tetrahedra", 1_500, tetrahedra, nothing),
    kind("boxes", 3_000, boxes, nothing),
    kind("lumpy spheres", 2_500, spheres, nothing),
    kind("contact binaries", 2_000, binaries, nothing),
    kind("open soups", 1_500, soups, nothing),
    kind("degenerate triangles", 1_500, degenerate, nothing),
    kind("edges through middles", 3_500, through_middles, nothing),
    kind("negative zeros", 1_000, zeros, nothing),
    kind("extreme numbers", 2_000, extreme, nothing),
    kind("cancelling kernels", 1_000, cancelling, nothing),
    kind("tiny weights", 800, tiny, nothing),
    kind("no inside point", 500, empty, nothing),
    kind("capacity", 1_500, near_capacity, nothing),
    kind("over capacity", 500, over, nothing),
    kind("flat boxes", 800, flat, nothing),
    kind("infinite masses", 800, heavy, nothing),
    kind("slivers", 500, edge_on, nothing),
    kind("walls", 1_000, near_walls, nothing),
    kind("narrowing ties", 600, ties, nothing),
    kind("large grids", 40, large, nothing),
    kind("list lengths", 6_000, small, list_length),
    kind("triangle numbers", 4_000, small, triangle_number),
    kind("kernel numbers", 4_000, small, kernel_number),
    kind("lone numbers", 1_500, small, lone_number),
    kind("grid sizes", 3_000, small, grid_size),
    kind("buffer lengths", 2_000, small, buffer_length),
    kind("pairs of causes", 4_200, small, pair),
    kind("several causes", 6_000, any_cause, several),
    kind("mutated bytes", 2_000, small, mutated),
];

/// Numbers that no bound lets pass.
pub(crate) const NOT_FINITE: [f64; 8] = [
    f64::INFINITY,
    f64::NEG_INFINITY,
    f64::NAN,
    -f64::NAN,
    f64::from_bits(0x7ff0_0000_0000_0001),
    f64::from_bits(0xfff0_0000_0000_0001),
    f64::from_bits(0x7fff_ffff_ffff_ffff),
    f64::from_bits(0xfff8_0000_dead_beef),
];

/// Numbers on both sides of a bound on a magnitude, and those at the edges of binary64; what is not finite apart.
pub(crate) fn near_bound(bound: f64) -> [f64; 12] {
    [
        bound,
        -bound,
        bound.next_up(),
        -bound.next_up(),
        bound.next_down(),
        2.0 * bound,
        f64::MAX,
        f64::MIN,
        0.0,
        -0.0,
        5e-324,
        -5e-324,
    ]
}

/// One of the numbers near a bound or not finite, told by a number.
pub(crate) fn judged(bound: f64, number: usize) -> f64 {
    let near = near_bound(bound);
    let all = near.iter().chain(&NOT_FINITE);
    let count = near.len() + NOT_FINITE.len();
    *all.cycle().nth(number % count).expect("one of the numbers")
}

/// Kernels for a mesh, five numbers each.
type Kernels = fn(&mut Rng, &Mesh) -> Vec<f64>;

/// Kernels such as a body has.
const USUAL: [Kernels; 4] = [few, few, signed, no_kernels];

impl Case {
    /// A mesh without kernels, with just enough room.
    pub(crate) fn of(grid: usize, mesh: &[Triangle]) -> Self {
        Self {
            grid: grid as u32,
            triangles: mesh_bytes(mesh),
            cauchy: Vec::new(),
            elliptic: Vec::new(),
            target: 0.0,
            density: 1190.0,
            floats: mesh.len(),
            out: needed(grid as u64) as usize,
            junk: 1,
        }
    }

    pub(crate) fn body(&self) -> Body<'_> {
        Body {
            grid: self.grid,
            triangles: &self.triangles,
            cauchy: &self.cauchy,
            elliptic: &self.elliptic,
            target: self.target,
            density: self.density,
        }
    }

    /// What the output holds before the call.
    pub(crate) fn out_before(&self) -> impl ExactSizeIterator<Item = u8> {
        let junk = self.junk;
        (0..self.out).map(move |at| out_byte(junk, at))
    }

    /// The three lists, with the bytes of an entry.
    fn list(&mut self, which: usize) -> (&mut Vec<u8>, usize) {
        match which % 3 {
            0 => (&mut self.triangles, TRIANGLE),
            1 => (&mut self.cauchy, KERNEL),
            _ => (&mut self.elliptic, KERNEL),
        }
    }

    fn set_number(&mut self, which: usize, at: usize, number: f64) {
        let (list, _) = self.list(which);
        if let Some(place) = list.get_mut(8 * at..8 * at + 8) {
            place.copy_from_slice(&number.to_le_bytes());
        }
    }
}

/// 1 to 24, mostly small.
fn a_grid(rng: &mut Rng) -> usize {
    let greatest = pick(rng, &[4, 4, 6, 8, 12, 24]);
    rng.range(1, greatest) as usize
}

/// A corner and the side of the box round a mesh.
fn size(mesh: &Mesh) -> (Point, f64) {
    let corners = mesh.as_flattened();
    let least = |axis: usize| {
        corners
            .iter()
            .map(|corner| corner[axis])
            .fold(1e9, f64::min)
    };
    let most = |axis: usize| {
        corners
            .iter()
            .map(|corner| corner[axis])
            .fold(-1e9, f64::max)
    };
    let side = (0..3)
        .map(|axis| most(axis) - least(axis))
        .fold(1e-9, f64::max);
    ([least(0), least(1), least(2)], side)
}

fn centre(rng: &mut Rng, (corner, side): (Point, f64)) -> Point {
    corner.map(|least| (least + side * share(rng)).clamp(-FARTHEST, FARTHEST))
}

fn kernels(rng: &mut Rng, mesh: &Mesh, most: u64, w: fn(&mut Rng) -> f64) -> Vec<f64> {
    let size = size(mesh);
    let mut list = Vec::new();
    for _ in 0..rng.range(1, most) {
        let [x, y, z] = centre(rng, size);
        let sigma = (between(rng, 0.01, 3.0) / size.1).min(FARTHEST);
        list.extend([x, y, z, sigma, w(rng)]);
    }
    list
}

fn few(rng: &mut Rng, mesh: &Mesh) -> Vec<f64> {
    kernels(rng, mesh, 6, |rng| between(rng, 0.5, 3e3))
}

fn signed(rng: &mut Rng, mesh: &Mesh) -> Vec<f64> {
    kernels(rng, mesh, 10, |rng| between(rng, -10.0, 10.0))
}

fn no_kernels(_: &mut Rng, _: &Mesh) -> Vec<f64> {
    Vec::new()
}

/// Target masses such as a body has, and those that scale nothing.
fn a_target(rng: &mut Rng) -> f64 {
    let mass = between(rng, 1.0, 1e12);
    pick(rng, &[mass, mass, mass, 1.0, 0.0, -0.0, -mass])
}

/// A mesh with kernels of these kinds, and with room, often more than enough.
fn drawn(rng: &mut Rng, grid: usize, mesh: &Mesh, kernels: &[Kernels]) -> Case {
    Case {
        cauchy: bytes(&pick(rng, kernels)(rng, mesh)),
        elliptic: bytes(&pick(rng, kernels)(rng, mesh)),
        target: a_target(rng),
        density: between(rng, 100.0, 3000.0),
        floats: mesh.len() + up_to(rng, 3),
        out: needed(grid as u64) as usize + pick(rng, &[0, 0, 1, 16, 39]),
        junk: word(rng),
        ..Case::of(grid, mesh)
    }
}

fn tetrahedra(rng: &mut Rng) -> Case {
    let grid = a_grid(rng);
    let mesh = a_tetrahedron(rng);
    let mesh = if one_in(rng, 2) {
        placed(rng, mesh)
    } else {
        mesh
    };
    drawn(rng, grid, &mesh, &USUAL)
}

/// A box on borders or middles of cells, or anywhere in a wider box.
fn boxes(rng: &mut Rng) -> Case {
    let grid = a_grid(rng);
    let mesh = if one_in(rng, 3) {
        let ends = [0; 3].map(|_| ordered(rng, share));
        let mut mesh = cuboid(ends.map(|(low, _)| low), ends.map(|(_, high)| high));
        mesh.push(dot(anywhere(rng, 0.0, 2.0)));
        placed(rng, mesh)
    } else {
        let lattice = a_lattice(rng, grid);
        let mut mesh = lattice.ends();
        mesh.extend(lattice_cuboid(rng, &lattice));
        if one_in(rng, 3) {
            mesh.extend(lattice_cuboid(rng, &lattice));
        }
        turned(rng, mesh)
    };
    drawn(rng, grid, &mesh, &USUAL)
}

fn spheres(rng: &mut Rng) -> Case {
    let grid = a_grid(rng);
    let mesh = a_sphere(rng, if grid > 12 { 3 } else { 5 });
    let mesh = placed(rng, mesh);
    drawn(rng, grid, &mesh, &USUAL)
}

fn binaries(rng: &mut Rng) -> Case {
    let grid = a_grid(rng);
    let mesh = a_binary(rng, grid);
    drawn(rng, grid, &mesh, &USUAL)
}

fn soups(rng: &mut Rng) -> Case {
    let grid = a_grid(rng);
    let mesh = a_soup(rng, grid, 16);
    drawn(rng, grid, &mesh, &USUAL)
}

fn degenerate(rng: &mut Rng) -> Case {
    let grid = a_grid(rng);
    let mut mesh = match rng.below(3) {
        0 => a_soup(rng, grid, 8),
        1 => a_tetrahedron(rng),
        _ => lattice_body(rng, grid),
    };
    without_area(rng, &mut mesh);
    drawn(rng, grid, &mesh, &USUAL)
}

fn through_middles(rng: &mut Rng) -> Case {
    let grid = a_grid(rng);
    let mesh = lattice_body(rng, grid);
    drawn(rng, grid, &mesh, &USUAL)
}

/// Zeros of the other sign in the mesh, in kernels and alone.
fn zeros(rng: &mut Rng) -> Case {
    let grid = a_grid(rng);
    let mesh = match rng.below(3) {
        0 => octahedron([0.0; 3], [1.0, 2.0, 3.0]),
        1 => a_soup(rng, grid, 8),
        _ => lattice_body(rng, grid),
    };
    let mesh = negative_zeros(mesh);
    let mut case = drawn(rng, grid, &mesh, &[few, signed, zero_kernels]);
    case.target = pick(rng, &[-0.0, 0.0, case.target]);
    case.density = pick(rng, &[-0.0, 0.0, case.density]);
    case
}

fn zero_kernels(rng: &mut Rng, _: &Mesh) -> Vec<f64> {
    let zero = |rng: &mut Rng| pick(rng, &[0.0, -0.0]);
    let mut list = Vec::new();
    for _ in 0..rng.range(1, 4) {
        list.extend([0; 4].map(|_| zero(rng)));
        list.push(pick(rng, &[0.0, -0.0, 1.0, -1.0]));
    }
    list
}

/// Numbers at each bound, far below it, and between.
fn extreme(rng: &mut Rng) -> Case {
    let grid = a_grid(rng);
    let size = pick(rng, &[FARTHEST, FARTHEST, 1.0, 1e-5, 1e-12, 1e-20, 1e-44]);
    let mesh = match rng.below(3) {
        0 => octahedron([0.0; 3], [size; 3]),
        1 => {
            let corner = |rng: &mut Rng| [0; 3].map(|_| pick(rng, &[size, -size, 0.5 * size]));
            let count = rng.range(1, 8);
            (0..count).map(|_| [0; 3].map(|_| corner(rng))).collect()
        }
        _ => {
            let corner = |rng: &mut Rng| [0; 3].map(|_| pick(rng, &[size, -size]));
            tetrahedron([0; 4].map(|_| corner(rng)))
        }
    };
    let mut case = drawn(rng, grid, &mesh, &[at_bounds, at_bounds, few, no_kernels]);
    let mass = between(rng, 1.0, 1e12);
    case.target = pick(rng, &[HEAVIEST, -HEAVIEST, 0.0, 5e-324, 1e-30, mass]);
    case.density = pick(rng, &[HEAVIEST, -HEAVIEST, 5e-324, mass]);
    case
}

fn at_bounds(rng: &mut Rng, _: &Mesh) -> Vec<f64> {
    let mut list = Vec::new();
    for _ in 0..rng.range(1, 4) {
        list.extend([0; 3].map(|_| pick(rng, &[FARTHEST, -FARTHEST, 0.0, 1.0])));
        list.push(pick(rng, &[FARTHEST, 0.0, -0.0, 1.0, 5e-324, 1e-6]));
        list.push(pick(
            rng,
            &[HEAVIEST, -HEAVIEST, 1.0, 1e10, 1e-300, -5e-324],
        ));
    }
    list
}

/// Raw sums of 0, or about 1e-30, exactly where one cell of volume 8 is inside.
fn cancelling(rng: &mut Rng) -> Case {
    if one_in(rng, 2) {
        let least = [1e-30f64, 1e-30f64.next_up(), 1e-30f64.next_down()];
        let edge = |rng: &mut Rng| pick(rng, &least) * pick(rng, &[0.125, -0.125]);
        let mut case = drawn(rng, 1, &cuboid([0.0; 3], [1.0; 3]), &[no_kernels]);
        case.cauchy = bytes(&[0.5, 0.5, 0.5, 0.0, edge(rng)]);
        case.elliptic = bytes(&[0.5, 0.5, 0.5, 0.0, edge(rng)]);
        case.target = pick(rng, &[1.0, 1e-10, 1e5, 1e-30, 0.0, -1.0]);
        return case;
    }
    let grid = a_grid(rng);
    let mesh = a_tetrahedron(rng);
    drawn(rng, grid, &mesh, &[pairs, pairs, few])
}

/// Kernels that take each other away, wholly or nearly.
fn pairs(rng: &mut Rng, mesh: &Mesh) -> Vec<f64> {
    let mut list = few(rng, mesh);
    let mut back = list.clone();
    for kernel in back.chunks_mut(5) {
        kernel[4] = -kernel[4];
    }
    let nudged = pick(rng, &[0, 0, 1]);
    back[4] = f64::from_bits(back[4].to_bits() + nudged);
    list.extend(back);
    list
}

/// Weights and volumes so small that masses narrow to subnormals or zeros of either sign.
fn tiny(rng: &mut Rng) -> Case {
    let grid = a_grid(rng);
    let size = pick(rng, &[1.0, 1e-3, 1e-10]);
    let body = a_tetrahedron(rng);
    let mesh = moved(body, [0.0; 3], [size; 3]);
    let mut case = drawn(rng, grid, &mesh, &[tiny_weights]);
    case.target = pick(rng, &[0.0, case.target, 1e-20]);
    case
}

fn tiny_weights(rng: &mut Rng, mesh: &Mesh) -> Vec<f64> {
    let weight = |rng: &mut Rng| {
        let size = pick(rng, &[5e-324, 1e-310, 1e-40, 1e-44, 1e-29, 1e-15]);
        pick(rng, &[size, -size, -5e-324])
    };
    kernels(rng, mesh, 2, weight)
}

/// Bodies too thin for any middle of a cell, single triangles, dots.
fn empty(rng: &mut Rng) -> Case {
    let grid = a_grid(rng);
    let mesh = match rng.below(3) {
        0 => vec![[0; 3].map(|_| anywhere(rng, -1.0, 1.0))],
        1 => {
            let mut mesh = cuboid([0.0; 3], [1.0, 1e-7, 1.0]);
            mesh.push(dot([1.0; 3]));
            mesh
        }
        _ => (0..3).map(|_| dot(anywhere(rng, -1.0, 1.0))).collect(),
    };
    drawn(rng, grid, &mesh, &USUAL)
}

/// Boxes that hold the middles of just so many cells, in cell order.
pub(crate) fn of_cells(grid: usize, cells: usize) -> Mesh {
    let lattice = Lattice::new(1.0, grid);
    let quarter = (lattice.grid + 1.0) * 0.25;
    let low = |index: usize| lattice.middle(index) - quarter;
    let high = |end: usize| lattice.middle(end - 1) + quarter;
    let mut mesh = lattice.ends();
    let (planes, rest) = (cells / grid.pow(2), cells % grid.pow(2));
    let (rows, rest) = (rest / grid, rest % grid);
    let mut part = |from: [usize; 3], to: [usize; 3]| {
        if (0..3).all(|axis| from[axis] < to[axis]) {
            mesh.extend(cuboid(from.map(low), to.map(high)));
        }
    };
    part([0; 3], [grid, grid, planes]);
    part([0, 0, planes], [grid, rows, planes + 1]);
    part([0, rows, planes], [rest, rows + 1, planes + 1]);
    mesh
}

/// Half the cells rounded up, one more or one fewer.
fn near_capacity(rng: &mut Rng) -> Case {
    let grid = pick(rng, &[2, 3, 4, 5, 6, 7, 8, 9]);
    let cells = capacity(grid as u64) as usize + up_to(rng, 2) - 1;
    let mesh = of_cells(grid, cells);
    drawn(rng, grid, &mesh, &USUAL)
}

/// Boxes that fill their frame; some with masses that are too large.
fn over(rng: &mut Rng) -> Case {
    let grid = a_grid(rng).max(2);
    let mesh = placed(rng, cuboid([0.0; 3], [1.0; 3]));
    let kernels: &[Kernels] = if one_in(rng, 3) { &[at_bounds] } else { &USUAL };
    drawn(rng, grid, &mesh, kernels)
}

/// A box of a side that is lost, or nearly, when its ends narrow.
fn flat(rng: &mut Rng) -> Case {
    let grid = a_grid(rng);
    let far = pick(rng, &[1e6, 1e5, 1024.0, 1.0]);
    let ulp = f64::from((far as f32).next_up()) - far;
    let side = ulp * pick(rng, &[0.0, 1e-3, 0.2, 0.49, 0.5, 0.51, 1.0, 2.0]);
    let mut ends = [(0.0, 1.0); 3];
    let axes = rng.range(1, 7);
    for (axis, ends) in ends.iter_mut().enumerate() {
        if axes >> axis & 1 == 1 {
            *ends = (far - side, far);
        }
    }
    let (low, high) = (ends.map(|(low, _)| low), ends.map(|(_, high)| high));
    let mesh = match rng.below(3) {
        0 => tetrahedron([
            low,
            [high[0], low[1], low[2]],
            [low[0], high[1], low[2]],
            high,
        ]),
        1 => vec![[low, high, [low[0], high[1], low[2]]]],
        _ => cuboid(low, high),
    };
    drawn(rng, grid, &mesh, &[few, no_kernels, at_bounds])
}

/// Masses, raw sums or scales that are too large, or nearly.
fn heavy(rng: &mut Rng) -> Case {
    let grid = a_grid(rng);
    let body = a_tetrahedron(rng);
    let size = pick(rng, &[1e3, 1e4, 1e5]) / 13.0;
    let mesh = moved(body, [0.0; 3], [size; 3]);
    let mut case = drawn(
        rng,
        grid,
        &mesh,
        &[heavy_kernels, heavy_kernels, few, signed],
    );
    case.target = pick(rng, &[HEAVIEST, 1e20, 1.0, 0.0, -1.0]);
    case
}

fn heavy_kernels(rng: &mut Rng, mesh: &Mesh) -> Vec<f64> {
    let weight = |rng: &mut Rng| {
        let w = pick(rng, &[HEAVIEST, 3e28, 1e27, 1e26, 1e25, 1e-20, 1e-35]);
        w * pick(rng, &[1.0, 1.0, -1.0, 0.3])
    };
    kernels(rng, mesh, 3, weight)
}

fn edge_on(rng: &mut Rng) -> Case {
    let grid = rng.range(2, 10) as usize;
    let count = rng.range(4, 20);
    let slivers = Slivers::new(rng, grid, count);
    drawn(rng, grid, &slivers.mesh, &USUAL)
}

/// One cell whose volume, masses, raw sums or density lie on a tie of narrowing, or beside one.
fn ties(rng: &mut Rng) -> Case {
    let [x, y, z] = volume_tie(rng);
    let least = 0.5 * x.min(y).min(z);
    let sides = [x, y, z].map(|side| side - least);
    let size = pick(rng, &[1.0, 1024.0]);
    let mesh = match rng.below(2) {
        0 => cuboid([0.0; 3], sides),
        _ => cuboid([0.0; 3], [size; 3]),
    };
    let volume = 8.0 * size.powi(3);
    let tied = |rng: &mut Rng| {
        let tie = pick(rng, &TIES);
        let mass = pick(rng, &[tie, tie, tie.next_up(), tie.next_down()]);
        pick(rng, &[mass, -mass])
    };
    let kernel = |rng: &mut Rng| {
        let w = (tied(rng) / volume).clamp(-HEAVIEST, HEAVIEST);
        bytes(&[0.0, 0.0, 0.0, 0.0, w])
    };
    let mut case = drawn(rng, 1, &mesh, &[no_kernels]);
    case.cauchy = kernel(rng);
    case.elliptic = kernel(rng);
    case.density = tied(rng).clamp(-HEAVIEST, HEAVIEST);
    case.target = pick(rng, &[0.0, 0.0, 1.0, 3.0]);
    case
}

/// Halfway between two floats, at the least ones, at the greatest, and where the exponent changes.
const TIES: [f64; 6] = [
    1.0 + 1.0 / 16_777_216.0,
    1.0 + 3.0 / 16_777_216.0,
    f64::from_bits(0x36a8_0000_0000_0000), // 3·2^-150
    TOO_LARGE,
    f64::from_bits(0x380f_ffff_f000_0000), // 2^-126 − 2^-150
    2.0 - 1.0 / 16_777_216.0,
];

fn near_walls(rng: &mut Rng) -> Case {
    let grid = pick(rng, &[1, 1, 1, 3]);
    let mesh = walls(rng);
    drawn(rng, grid, &mesh, &USUAL)
}

/// Grid sizes 28 to 48.
fn large(rng: &mut Rng) -> Case {
    let grid = pick(rng, &[28, 32, 40, 48]);
    let mesh = match rng.below(3) {
        0 => a_tetrahedron(rng),
        1 => octahedron([0.0; 3], [1.0, 2.0, 3.0]),
        _ => a_sphere(rng, 2),
    };
    let mesh = placed(rng, mesh);
    drawn(rng, grid, &mesh, &USUAL)
}

/// A body of few triangles at a small grid size, with a kernel or two in each list.
fn small(rng: &mut Rng) -> Case {
    let grid = rng.range(1, 4) as usize;
    let mesh = match rng.below(3) {
        0 => a_tetrahedron(rng),
        1 => octahedron([0.0; 3], [1.0, 2.0, 3.0]),
        _ => lattice_body(rng, grid),
    };
    drawn(rng, grid, &mesh, &[two])
}

fn two(rng: &mut Rng, mesh: &Mesh) -> Vec<f64> {
    kernels(rng, mesh, 2, |rng| between(rng, 0.5, 3e3))
}

/// A list cut at each length of its last entry, empty, longer, or with an entry too many.
fn list_length(rng: &mut Rng, number: usize, case: &mut Case) {
    let which = number % 3;
    let (list, entry) = case.list(which);
    let (way, number) = (number / 3 % 8, number / 24);
    let whole = list.len();
    let length = match way {
        0 => 0,
        1..4 => whole - number % entry,
        4 => whole + 1 + number % entry,
        5 => whole - 8 * (number % (entry / 8)),
        6 => number % (whole + 1),
        _ if which > 0 && number.is_multiple_of(16) => (MOST_KERNELS + up_to(rng, 1)) * KERNEL,
        _ => whole,
    };
    resize(list, entry, length);
}

/// Cuts a list, or goes on with its first entry.
pub(crate) fn resize(list: &mut Vec<u8>, entry: usize, length: usize) {
    let first = list[..entry].to_vec();
    list.truncate(length);
    while list.len() < length {
        list.push(first[list.len() % entry]);
    }
}

/// The number of an entry: the first, the last, or any.
fn an_entry(rng: &mut Rng, entries: usize) -> usize {
    match rng.below(3) {
        0 => 0,
        1 => entries.saturating_sub(1),
        _ => up_to(rng, entries.saturating_sub(1)),
    }
}

/// A number near its bound, or not finite, at each place of a triangle.
fn triangle_number(rng: &mut Rng, number: usize, case: &mut Case) {
    let entry = an_entry(rng, case.triangles.len() / TRIANGLE);
    case.set_number(0, 9 * entry + number % 9, judged(FARTHEST, number / 9));
}

/// The same at each place of a kernel.
fn kernel_number(rng: &mut Rng, number: usize, case: &mut Case) {
    let (which, field) = (1 + number % 2, number / 2 % 5);
    let (list, _) = case.list(which);
    let entry = an_entry(rng, list.len() / KERNEL);
    let bound = if field == 4 { HEAVIEST } else { FARTHEST };
    case.set_number(which, 5 * entry + field, judged(bound, number / 10));
}

fn lone_number(_: &mut Rng, number: usize, case: &mut Case) {
    let value = judged(HEAVIEST, number / 2);
    if number.is_multiple_of(2) {
        case.target = value;
    } else {
        case.density = value;
    }
}

/// Grid sizes refused, or others than the output is for; some are the case's in their low bits.
fn grid_size(rng: &mut Rng, number: usize, case: &mut Case) {
    let g = case.grid;
    let any = word(rng);
    let grids = [
        0,
        257,
        256,
        512,
        g + 256,
        g + (1 << 16),
        1 << 31,
        u32::MAX,
        any,
        g + 1,
    ];
    case.grid = grids[number % grids.len()];
}

/// Scratch or output one short, exact, longer, of lengths that a mistaken rule could ask for.
fn buffer_length(rng: &mut Rng, number: usize, case: &mut Case) {
    if number.is_multiple_of(2) {
        floats_length(rng, number / 2, case);
    } else {
        output_length(rng, number / 2, case);
    }
}

fn floats_length(rng: &mut Rng, number: usize, case: &mut Case) {
    let triangles = case.triangles.len() / TRIANGLE;
    case.floats = some_floats(rng, number, triangles);
}

/// A length of scratch, told by a number.
pub(crate) fn some_floats(rng: &mut Rng, number: usize, triangles: usize) -> usize {
    let lengths = [
        triangles.saturating_sub(1),
        triangles,
        triangles + 1,
        0,
        1,
        triangles / 2,
        9 * triangles,
        up_to(rng, triangles),
    ];
    lengths[number % lengths.len()]
}

fn output_length(rng: &mut Rng, number: usize, case: &mut Case) {
    let cells = u64::from(case.grid.min(8)).pow(3) as usize;
    let enough = needed(u64::from(case.grid.min(8))) as usize;
    let lengths = [
        enough - 1,
        enough,
        enough + 1,
        enough + up_to(rng, 100),
        0,
        63,
        64,
        enough.saturating_sub(16),
        64 + 16 * (cells / 2),
        64 + 16 * cells,
        up_to(rng, enough - 1),
    ];
    case.out = lengths[number % lengths.len()];
}

/// The causes of fill in their order.
pub(crate) const CAUSES: [u64; 7] = [3, 17, 8, 9, 19, 18, 20];

/// The pair of causes that a number tells: the earlier one and the later one.
pub(crate) fn pair_of(number: usize) -> [u64; 2] {
    let pairs = (0..CAUSES.len()).flat_map(|a| (a + 1..CAUSES.len()).map(move |b| (a, b)));
    let pairs: Vec<(usize, usize)> = pairs.collect();
    let (a, b) = pairs[number % pairs.len()];
    [CAUSES[a], CAUSES[b]]
}

/// A case that has both causes of a pair, and no other.
fn pair(rng: &mut Rng, number: usize, case: &mut Case) {
    let pair = pair_of(number);
    let has = |cause: u64| pair.contains(&cause);
    let (low, high) = if has(19) {
        (999_999.99, 1e6)
    } else {
        (0.0, 1.0)
    };
    let mesh = if has(18) {
        cuboid([low; 3], [high; 3])
    } else {
        tetrahedron([
            [low; 3],
            [high, low, low],
            [low, high, low],
            [low, low, high],
        ])
    };
    let grid = rng.range(2, 4) as usize;
    *case = drawn(rng, grid, &mesh, &[two]);
    if has(20) {
        case.cauchy = bytes(&[0.5, 0.5, 0.5, 0.0, 1e-18]);
        case.target = HEAVIEST;
    }
    let later = up_to(rng, 1000);
    if has(17) {
        match rng.below(4) {
            0 => case.triangles.truncate(TRIANGLE * 4 - 1 - later % 71),
            1 => case.set_number(0, later % 36, f64::NAN),
            2 => case.set_number(1, 3, -1.0),
            _ => case.density = f64::NEG_INFINITY,
        }
    }
    if has(8) {
        case.floats = case.triangles.len() / TRIANGLE - 1;
    }
    if has(9) {
        case.out = needed(grid as u64) as usize - 1;
    }
    if has(3) {
        case.grid = pick(rng, &[0, 257, 1 << 16]);
    }
}

/// A case that meets 18, 19, 20, or none of them.
fn any_cause(rng: &mut Rng) -> Case {
    let mut case = small(rng);
    match rng.below(4) {
        0 => {
            let number = up_to(rng, 20);
            pair(rng, number, &mut case);
        }
        1 => case.target = HEAVIEST,
        _ => (),
    }
    case
}

/// Damage that `several` puts together.
const DAMAGES: [Damage<Case>; 7] = [
    list_length,
    triangle_number,
    kernel_number,
    lone_number,
    grid_size,
    floats_length,
    output_length,
];

/// Two or three damages together.
fn several(rng: &mut Rng, _: usize, case: &mut Case) {
    for _ in 0..rng.range(2, 3) {
        let number = up_to(rng, 10_000);
        let has_entries = (0..3).all(|which| {
            let (list, entry) = case.list(which);
            list.len() >= entry
        });
        let damage = pick(rng, &DAMAGES);
        if has_entries {
            damage(rng, number, case);
        }
    }
}

/// One to three bytes of the lists set anew, or with a bit flipped.
fn mutated(rng: &mut Rng, _: usize, case: &mut Case) {
    for _ in 0..rng.range(1, 3) {
        let which = up_to(rng, 2);
        mutate(rng, case.list(which).0);
    }
}

/// A byte set anew, or with a bit flipped.
pub(crate) fn mutate(rng: &mut Rng, list: &mut [u8]) {
    let at = up_to(rng, list.len() - 1);
    let flipped = list[at] ^ (1 << rng.below(8));
    let any = rng.bits() as u8;
    list[at] = pick(rng, &[flipped, flipped, any, 0, 0xff]);
}
