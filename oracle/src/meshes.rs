//! Meshes as lists of triangles, and lists as bytes.

use crate::open::cases::{one_in, pick, up_to};
use crate::rng::Rng;
use crate::rule;
use crate::rule::fill::{Point, Triangle};

pub(crate) type Mesh = Vec<Triangle>;

/// Numbers as a list passes the boundary.
pub(crate) fn bytes(numbers: &[f64]) -> Vec<u8> {
    let bytes = numbers.iter().flat_map(|number| number.to_le_bytes());
    bytes.collect()
}

pub(crate) fn mesh_bytes(mesh: &[Triangle]) -> Vec<u8> {
    bytes(mesh.as_flattened().as_flattened())
}

/// A number from 0 to 1, below 1.
pub(crate) fn share(rng: &mut Rng) -> f64 {
    (rng.bits() >> 11) as f64 / (1u64 << 53) as f64
}

/// A number from `low` to `high`.
pub(crate) fn between(rng: &mut Rng, low: f64, high: f64) -> f64 {
    low + share(rng) * (high - low)
}

/// Three numbers from `low` to `high`.
pub(crate) fn anywhere(rng: &mut Rng, low: f64, high: f64) -> Point {
    [0; 3].map(|_| between(rng, low, high))
}

/// A triangle that is one point: it is never crossed, and widens the box.
pub(crate) fn dot(at: Point) -> Triangle {
    [at; 3]
}

/// Two triangles for each side.
pub(crate) fn cuboid(low: Point, high: Point) -> Mesh {
    let corner = |bits: usize| {
        let on = |axis: usize| {
            if bits >> axis & 1 == 0 {
                low[axis]
            } else {
                high[axis]
            }
        };
        [on(0), on(1), on(2)]
    };
    let sides = [
        [0, 4, 6, 2],
        [1, 3, 7, 5],
        [0, 1, 5, 4],
        [2, 6, 7, 3],
        [0, 2, 3, 1],
        [4, 5, 7, 6],
    ];
    let halves = |[a, b, c, d]: [usize; 4]| {
        [[a, b, c], [a, c, d]].map(|triangle: [usize; 3]| triangle.map(corner))
    };
    sides.into_iter().flat_map(halves).collect()
}

pub(crate) fn tetrahedron([a, b, c, d]: [Point; 4]) -> Mesh {
    vec![[a, c, b], [a, d, c], [a, b, d], [b, c, d]]
}

/// The eight sides of an octahedron round the origin, each cut into n² triangles; `place` moves a corner, told by whole numbers
/// whose magnitudes add up to n.
pub(crate) fn round(n: i32, place: impl Fn([i32; 3]) -> Point) -> Mesh {
    let mut mesh = Vec::new();
    for signs in 0..8 {
        let sign = |axis: u32| if signs >> axis & 1 == 0 { 1 } else { -1 };
        let corner = |i: i32, j: i32| place([i * sign(0), j * sign(1), (n - i - j) * sign(2)]);
        for i in 0..n {
            for j in 0..n - i {
                mesh.push([corner(i, j), corner(i + 1, j), corner(i, j + 1)]);
                if i + j + 2 <= n {
                    mesh.push([corner(i + 1, j), corner(i + 1, j + 1), corner(i, j + 1)]);
                }
            }
        }
    }
    mesh
}

/// An octahedron.
pub(crate) fn octahedron(middle: Point, radii: Point) -> Mesh {
    let on = |[x, y, z]: [i32; 3]| {
        let way = [x, y, z].map(f64::from);
        [0, 1, 2].map(|axis| middle[axis] + radii[axis] * way[axis])
    };
    round(1, on)
}

/// A sphere of 8n² triangles whose corners lie at any part of the radius from `least` to 1.
pub(crate) fn lumpy(rng: &mut Rng, n: i32, middle: Point, radius: f64, least: f64) -> Mesh {
    let seed = rng.bits();
    let place = |way: [i32; 3]| {
        let [x, y, z] = way.map(f64::from);
        let long = (x * x + y * y + z * z).sqrt();
        let key = way.iter().fold(seed, |key, &part| {
            Rng::new(key ^ (part as u64).wrapping_mul(0x9e37_79b9)).bits()
        });
        let part = between(&mut Rng::new(key), least, 1.0);
        [0, 1, 2].map(|axis| middle[axis] + radius * part * [x, y, z][axis] / long)
    };
    round(n, place)
}

/// A triangle across the ray, 2 wide and 2 high, that the ray from the origin crosses at `x` exactly.
pub(crate) fn wall(x: f64) -> Triangle {
    [[x, -1.0, -1.0], [x, 1.0, -1.0], [x, 0.0, 1.0]]
}

/// A triangle whose edge goes through y 15, z 16, where u + v rounds to more than 1 though u and v are 15 and 16 parts of 31.
pub(crate) fn past_edge() -> Triangle {
    [[1.0, 0.0, 0.0], [1.0, 31.0, 0.0], [1.0, 0.0, 31.0]]
}

/// A mesh moved and stretched.
pub(crate) fn moved(mesh: Mesh, by: Point, stretch: Point) -> Mesh {
    let place = |point: Point| [0, 1, 2].map(|axis| by[axis] + stretch[axis] * point[axis]);
    mesh.into_iter()
        .map(|triangle| triangle.map(place))
        .collect()
}

/// Triangles the other way round, or begun at another corner; some of them, or none.
pub(crate) fn turned(rng: &mut Rng, mut mesh: Mesh) -> Mesh {
    let chances = pick(rng, &[1, 2, 1000]);
    for triangle in &mut mesh {
        if one_in(rng, chances) {
            triangle.rotate_left(up_to(rng, 2));
            if one_in(rng, 2) {
                triangle.swap(0, 1);
            }
        }
    }
    mesh
}

/// The same mesh with its zeros negative.
pub(crate) fn negative_zeros(mesh: Mesh) -> Mesh {
    let negative = |number: f64| if number == 0.0 { -0.0 } else { number };
    mesh.into_iter()
        .map(|triangle| triangle.map(|point| point.map(negative)))
        .collect()
}

/// A lattice on which the frame of a fill has no rounding: the box from 0 to `side` on each axis, at this grid size.
pub(crate) struct Lattice {
    pub(crate) unit: f64,
    pub(crate) grid: f64,
    pub(crate) side: f64,
}

impl Lattice {
    /// side = g² units: the pad is g ÷ 2, a cell g + 1 units wide.
    pub(crate) fn new(unit: f64, grid: usize) -> Self {
        let grid = grid as f64;
        Self {
            unit,
            grid,
            side: grid * grid * unit,
        }
    }

    /// The middle of the cells of an index.
    pub(crate) fn middle(&self, index: usize) -> f64 {
        (index as f64 * (self.grid + 1.0) + 0.5) * self.unit
    }

    /// The border below the cells of an index from 1 on.
    pub(crate) fn border(&self, index: usize) -> f64 {
        (index as f64 * (self.grid + 1.0) - self.grid * 0.5) * self.unit
    }

    /// A middle, mostly; else a border or an end.
    pub(crate) fn any(&self, rng: &mut Rng) -> f64 {
        let last = self.grid as usize - 1;
        match rng.below(8) {
            0 => 0.0,
            1 => self.side,
            2 if last > 0 => self.border(rng.range(1, last as u64) as usize),
            _ => self.middle(up_to(rng, last)),
        }
    }

    pub(crate) fn point(&self, rng: &mut Rng) -> Point {
        [0; 3].map(|_| self.any(rng))
    }

    /// The box's two ends, which fix the frame.
    pub(crate) fn ends(&self) -> Mesh {
        vec![dot([0.0; 3]), dot([self.side; 3])]
    }
}

/// Triangles seen almost from the edge, along the middles of cells that have one index on y and z: what the ray's steps give
/// for a point there is mostly rounding. The box goes from 0 to the sides, 1 on x.
pub(crate) struct Slivers {
    pub(crate) mesh: Mesh,
    sides: Point,
    grid: usize,
}

impl Slivers {
    /// At a grid size from 2 on.
    pub(crate) fn new(rng: &mut Rng, grid: usize, count: u64) -> Self {
        let sides = [1.0, between(rng, 1e2, 1e6), between(rng, 1e2, 1e6)];
        let mesh = vec![dot([0.0; 3]), dot(sides)];
        let mut slivers = Self { mesh, sides, grid };
        for _ in 0..count {
            let from = up_to(rng, grid - 2);
            let to = from + 1 + up_to(rng, grid - 2 - from);
            let x = share(rng) * 0.9;
            let [a, b] = [from, to].map(|index| slivers.at(x + 0.05 * share(rng), index));
            let beside = |number: f64, ulps: u64| f64::from_bits(number.to_bits() + ulps - 2);
            let [y, z] = [0; 2].map(|_| rng.range(1, 3));
            let c = [x, beside(b[1], y), beside(b[2], z)];
            slivers.mesh.push([a, b, c]);
        }
        slivers
    }

    /// The middle of cells, as a fill works it out.
    fn middle(&self, axis: usize, index: usize) -> f64 {
        let grid = self.grid as f64;
        let pad = 0.5 / grid;
        let (min, max) = (0.0 - pad, self.sides[axis] + pad);
        min + (index as f64 + 0.5) * ((max - min) / grid)
    }

    /// A point on the line of the slivers.
    pub(crate) fn at(&self, x: f64, index: usize) -> Point {
        [x, self.middle(1, index), self.middle(2, index)]
    }
}

/// One sliver that no middle of a cell is inside of, and a middle that the ray's steps let cross it though it is no candidate: for
/// its x index, else for those of y and z.
pub(crate) fn no_candidate(rng: &mut Rng, grid: usize, by_x: bool) -> (Mesh, Point) {
    loop {
        let slivers = Slivers::new(rng, grid, 1);
        let [from, to, _] = slivers.mesh[2];
        let judged = rule::fill::Mesh::of(&mesh_bytes(&slivers.mesh)).expect("a good mesh");
        let cells = (0..grid).flat_map(|i| (0..grid).map(move |j| (i, j)));
        let middles = cells.map(|(i, j)| slivers.at(slivers.middle(0, i), j));
        let middles: Vec<Point> = middles.collect();
        let found = middles.iter().find(|point| {
            let beside = point[1] < from[1] || point[1] > to[1];
            let behind = point[0] > from[0].max(to[0]);
            let crossed = rule::fill::crossing(**point, slivers.mesh[2]).is_some();
            crossed && (beside, behind) == (!by_x, by_x)
        });
        match found {
            Some(&point) if !middles.iter().any(|&point| judged.inside(point)) => {
                return (slivers.mesh, point);
            }
            _ => (),
        }
    }
}

/// Three sides whose product, as a fill at grid size 1 works out its volume, narrows otherwise when grouped from the right.
pub(crate) fn volume_tie(rng: &mut Rng) -> Point {
    loop {
        let few_bits = |x: f64| f64::from_bits(x.to_bits() & !0xffff);
        let [x, y] = [0; 2].map(|_| few_bits(between(rng, 1.0, 2.0)));
        let tie = 2.0 + rng.below(1 << 20) as f64 / (1u64 << 21) as f64 + (2f64).powi(-23);
        let z = few_bits(tie / (x * y));
        let (left, right) = (x * y * z, x * (y * z));
        if left as f32 != right as f32 {
            return [x, y, z];
        }
    }
}

/// Walls that the ray from the origin crosses, near each other or at the edges of what counts, and dots that make the origin the
/// box's middle.
pub(crate) fn walls(rng: &mut Rng) -> Mesh {
    let eps = [1e-12f64, 1e-12f64.next_up(), 1e-12f64.next_down()];
    let mut mesh: Mesh = match rng.below(8) {
        // at distances a tolerance apart, exactly
        0 => vec![wall(1e-5), wall(2e-5)],
        1 => relative_tie(rng).map(wall).to_vec(),
        // at the least distance
        2 => vec![wall(pick(rng, &eps)), wall(3.0)],
        3 => vec![wall(pick(rng, &eps))],
        // with the least determinant: height × 2
        4 => {
            let half = pick(rng, &eps) / 4.0;
            vec![[[2.0, -half, -1.0], [2.0, half, -1.0], [2.0, 0.0, 1.0]]]
        }
        // parts of a tolerance apart
        _ => {
            let base: f64 = pick(rng, &[0.5, 1.0, 10.0, 12.5, 100.0, 5e5]);
            let tolerance = (8e-7 * base).max(1e-5);
            let mut x = base;
            let mut walls = Vec::new();
            for _ in 0..rng.range(2, 8) {
                walls.push(wall(x));
                x += tolerance * pick(rng, &[0.3, 0.6, 0.9, 0.95, 1.05, 2.5]);
            }
            walls
        }
    };
    for end in (1..mesh.len()).rev() {
        mesh.swap(end, up_to(rng, end));
    }
    let mut mesh = turned(rng, mesh);
    let farthest = mesh
        .as_flattened()
        .iter()
        .fold(0.0, |most: f64, corner| most.max(corner[0]));
    mesh.push(dot([-farthest, -1.0, -1.0]));
    mesh.push(dot([farthest, 1.0, 1.0]));
    mesh
}

/// Two distances apart by exactly 8e-7 of the greater.
pub(crate) fn relative_tie(rng: &mut Rng) -> [f64; 2] {
    loop {
        let apart = rng.range(16, 2000) as f64 / (1u64 << 20) as f64;
        let far = apart / 8e-7;
        if 8e-7 * far == apart && far - (far - apart) == apart && far > 12.5 {
            return [far - apart, far];
        }
    }
}

/// Moved anywhere and stretched, far within the bounds.
pub(crate) fn placed(rng: &mut Rng, mesh: Mesh) -> Mesh {
    let reach = mesh.as_flattened().as_flattened().iter();
    let reach = reach.fold(1.0, |most: f64, number| most.max(number.abs()));
    let size = pick(rng, &[1.0, 1.0, 37.0, 528.5, 1e5, 1e-3]);
    let by = anywhere(rng, -2.0 * size, 2.0 * size);
    let stretch = anywhere(rng, 0.5 * size / reach, 1.5 * size / reach);
    let mesh = moved(mesh, by, stretch);
    turned(rng, mesh)
}

pub(crate) fn a_tetrahedron(rng: &mut Rng) -> Mesh {
    if one_in(rng, 3) {
        let corner = [0; 3].map(|_| rng.below(5) as f64);
        let [x, y, z] = corner;
        let far = rng.range(1, 12) as f64;
        return tetrahedron([corner, [x + far, y, z], [x, y + far, z], [x, y, z + far]]);
    }
    tetrahedron([0; 4].map(|_| anywhere(rng, -1.0, 1.0)))
}

/// A lattice of a grid size.
pub(crate) fn a_lattice(rng: &mut Rng, grid: usize) -> Lattice {
    Lattice::new(pick(rng, &[1.0, 0.25, 2f64.powi(-20), 8.0]), grid)
}

/// Two values in order, the greater one above the less where they can be.
pub(crate) fn ordered(rng: &mut Rng, value: impl Fn(&mut Rng) -> f64) -> (f64, f64) {
    let (a, b) = (value(rng), value(rng));
    (a.min(b), a.max(b))
}

pub(crate) fn lattice_cuboid(rng: &mut Rng, lattice: &Lattice) -> Mesh {
    let ends = [0; 3].map(|_| ordered(rng, |rng| lattice.any(rng)));
    cuboid(ends.map(|(low, _)| low), ends.map(|(_, high)| high))
}

pub(crate) fn a_sphere(rng: &mut Rng, most: u64) -> Mesh {
    let n = rng.range(1, most) as i32;
    let least = pick(rng, &[0.4, 0.7, 0.7, 0.95, 1.0]);
    lumpy(rng, n, [0.0; 3], 1.0, least)
}

/// Two bodies that share a corner, an edge or a side, or go through each other.
pub(crate) fn a_binary(rng: &mut Rng, grid: usize) -> Mesh {
    let mut mesh = match rng.below(4) {
        0 => {
            let lattice = a_lattice(rng, grid);
            let middle = lattice.point(rng);
            let far = [lattice.side; 3];
            let axis = up_to(rng, 3);
            let on = |shared: usize| if axis == shared { 0.0 } else { middle[shared] };
            let mut mesh = cuboid([0.0; 3], middle);
            mesh.extend(cuboid([on(0), on(1), on(2)], far));
            mesh
        }
        1 => {
            let radii = [1.0, 2.0, pick(rng, &[1.0, 0.5])];
            let apart = pick(rng, &[[2.0, 0.0, 0.0], [0.0, 4.0, 0.0], [1.0, 2.0, 0.0]]);
            let mut mesh = octahedron([0.0; 3], radii);
            mesh.extend(octahedron(apart, radii));
            mesh
        }
        2 => {
            let mut mesh = a_tetrahedron(rng);
            let [a, b, c] = mesh[3];
            let beyond = anywhere(rng, 0.0, 13.0);
            mesh.extend(tetrahedron([a, b, c, beyond]));
            mesh
        }
        _ => {
            let mut mesh = a_sphere(rng, 3);
            let by = [between(rng, 0.5, 2.0), 0.0, share(rng)];
            let other = a_sphere(rng, 3);
            mesh.extend(moved(other, by, [1.0; 3]));
            mesh
        }
    };
    if one_in(rng, 3) {
        mesh = placed(rng, mesh);
    }
    mesh
}

/// Triangles at random: corners on few whole numbers, on a lattice, or anywhere.
pub(crate) fn a_soup(rng: &mut Rng, grid: usize, most: u64) -> Mesh {
    let lattice = a_lattice(rng, grid);
    let way = rng.below(3);
    let corner = |rng: &mut Rng| match way {
        0 => [0; 3].map(|_| rng.below(6) as f64),
        1 => lattice.point(rng),
        _ => anywhere(rng, -1.0, 1.0),
    };
    let count = rng.range(1, most);
    let mut mesh: Mesh = (0..count).map(|_| [0; 3].map(|_| corner(rng))).collect();
    if way == 1 {
        mesh.extend(lattice.ends());
    }
    mesh
}

/// Triangles without area, or that are there already.
pub(crate) fn without_area(rng: &mut Rng, mesh: &mut Mesh) {
    for _ in 0..rng.range(1, 6) {
        let [a, b, c] = pick(rng, mesh);
        let half = [0, 1, 2].map(|axis| 0.5 * (a[axis] + b[axis]));
        let added = match rng.below(6) {
            0 => [a, a, b],
            1 => [a, b, b],
            2 => [a, half, b],
            3 => [a, b, c],
            4 => [c, b, a],
            _ => dot(half),
        };
        mesh.insert(up_to(rng, mesh.len()), added);
    }
}

/// A body whose corners stand at middles of cells, for the most part.
pub(crate) fn lattice_body(rng: &mut Rng, grid: usize) -> Mesh {
    let lattice = a_lattice(rng, grid);
    let mut mesh = lattice.ends();
    match rng.below(4) {
        0 => mesh.extend(lattice_cuboid(rng, &lattice)),
        1 => mesh.extend(tetrahedron([0; 4].map(|_| lattice.point(rng)))),
        2 => {
            let last = grid - 1;
            let middle = [0; 3].map(|_| lattice.middle(up_to(rng, last)));
            let reach = middle.map(|at| at.min(lattice.side - at));
            let step = (lattice.grid + 1.0) * lattice.unit;
            let radii = reach.map(|most| {
                let steps = (most / step).floor() as usize;
                step * up_to(rng, steps) as f64
            });
            mesh.extend(octahedron(middle, radii));
        }
        _ => {
            let top = lattice.point(rng);
            let [x, y, z] = lattice.point(rng);
            let [p, q, _] = lattice.point(rng);
            mesh.extend(tetrahedron([[x, y, z], [p, y, z], [x, q, z], top]));
        }
    }
    turned(rng, mesh)
}

#[cfg(test)]
mod tests {
    use super::*;
    use crate::rule::fill::{crossing, retained};

    #[test]
    fn bodies_are_closed() {
        let mut rng = Rng::new(1);
        let bodies = [
            cuboid([0.0; 3], [1.0, 2.0, 3.0]),
            tetrahedron([[0.0; 3], [1.0, 0.0, 0.0], [0.0, 1.0, 0.0], [0.0, 0.0, 1.0]]),
            octahedron([1.0; 3], [1.0, 2.0, 3.0]),
            lumpy(&mut rng, 3, [0.0; 3], 5.0, 0.5),
        ];
        for body in bodies {
            let sides = |&[a, b, c]: &Triangle| [[a, b], [b, c], [c, a]];
            let sides: Vec<[Point; 2]> = body.iter().flat_map(sides).collect();
            for [a, b] in &sides {
                let back = sides.iter().filter(|[c, d]| {
                    let same = |p: &Point, q: &Point| p == q;
                    same(a, c) && same(b, d) || same(a, d) && same(b, c)
                });
                assert_eq!(back.count(), 2);
            }
        }
        assert_eq!(lumpy(&mut rng, 5, [0.0; 3], 1.0, 0.9).len(), 200);
    }

    #[test]
    fn walls_are_crossed_where_they_stand() {
        let mut rng = Rng::new(2);
        for _ in 0..100 {
            let x = between(&mut rng, 0.1, 1e6);
            assert_eq!(crossing([0.0; 3], wall(x)), Some(x));
            let [near, far] = relative_tie(&mut rng);
            assert_eq!(retained(vec![far, near]), [near]);
            assert_eq!(retained(vec![far, near.next_down()]).len(), 2);
        }
        assert_eq!(retained(vec![1e-5, 2e-5]), [1e-5]);
        assert_eq!(crossing([0.0; 3], wall(1e-12)), None);
        assert!(crossing([0.0; 3], wall(1e-12f64.next_up())).is_some());
    }

    /// Points on the slivers' line are crossed in any way: also where the triangle lies behind them.
    #[test]
    fn slivers_are_mostly_rounding() {
        let mut rng = Rng::new(3);
        let slivers = Slivers::new(&mut rng, 20, 1000);
        let behind = slivers.mesh.iter().filter(|triangle| {
            let mut points = (0..20).map(|index| slivers.at(0.99, index));
            points.any(|point| crossing(point, **triangle).is_some())
        });
        assert!(behind.count() > 8);
    }

    #[test]
    fn volumes_narrow_in_two_ways() {
        let mut rng = Rng::new(4);
        for _ in 0..5 {
            let [x, y, z] = volume_tie(&mut rng);
            assert_ne!((x * y * z) as f32, (x * (y * z)) as f32);
        }
    }

    /// The frame's numbers are exact on the lattice.
    #[test]
    fn lattices_are_exact() {
        for grid in 1..=24 {
            let lattice = Lattice::new(0.125, grid);
            let g = grid as f64;
            let pad = 0.5 * lattice.side / g;
            let cell = (lattice.side + pad + pad) / g;
            for index in 0..grid {
                let middle = -pad + (index as f64 + 0.5) * cell;
                assert_eq!(middle, lattice.middle(index));
                assert_eq!(-pad + index as f64 * cell, lattice.border(index));
            }
        }
    }
}
