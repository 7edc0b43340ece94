//! 01's rule for the inside test and for filling, written from its sentences: every triangle is asked about every point.

use super::{cell_of, float, is_grid, length, narrowed, FLOATS, MARK, VERSION};

/// Bytes of a triangle (a, b, c) and of a kernel (centre, sigma, w).
pub(crate) const TRIANGLE: usize = 72;
pub(crate) const KERNEL: usize = 40;

pub(crate) const MOST_TRIANGLES: usize = 1 << 20;
pub(crate) const MOST_KERNELS: usize = 4096;

/// The greatest magnitudes: of coordinates, centres and sigma; of a point's coordinates; of w, density and target mass.
pub(crate) const FARTHEST: f64 = 1e6;
pub(crate) const FARTHEST_POINT: f64 = 4e6;
pub(crate) const HEAVIEST: f64 = 1e30;

/// Cells of the inside test's box on an axis.
const INDICES: u32 = 96;

/// A determinant below this is a miss, and so is a distance not above it.
pub(crate) const EPS: f64 = 1e-12;

/// A raw sum up to this magnitude is not scaled.
const NO_SUM: f64 = 1e-30;

/// Offsets of the raw sums.
pub(crate) const RAW_SUMS: [usize; 2] = [56, 60];

pub(crate) type Point = [f64; 3];
pub(crate) type Triangle = [Point; 3];

/// What a call to fill is given besides its buffers; lists as bytes.
#[derive(Clone, Copy)]
pub(crate) struct Body<'a> {
    pub(crate) grid: u32,
    pub(crate) triangles: &'a [u8],
    pub(crate) cauchy: &'a [u8],
    pub(crate) elliptic: &'a [u8],
    pub(crate) target: f64,
    pub(crate) density: f64,
}

struct Kernel {
    centre: Point,
    sigma: f64,
    w: f64,
}

/// The numbers of a list, as far as they are whole.
pub(crate) fn numbers(list: &[u8]) -> Vec<f64> {
    let (numbers, _) = list.as_chunks::<8>();
    let number = |bytes: &[u8; 8]| f64::from_le_bytes(*bytes);
    numbers.iter().map(number).collect()
}

/// NaN is within nothing.
fn within(number: f64, greatest: f64) -> bool {
    number.abs() <= greatest
}

/// The triangles of a list, or nothing where it is refused by 17.
fn triangles(list: &[u8]) -> Option<Vec<Triangle>> {
    let count = list.len() / TRIANGLE;
    if !list.len().is_multiple_of(TRIANGLE) || count == 0 || count > MOST_TRIANGLES {
        return None;
    }
    let numbers = numbers(list);
    if !numbers.iter().all(|&number| within(number, FARTHEST)) {
        return None;
    }
    let (corners, _) = numbers.as_chunks::<3>();
    Some(corners.as_chunks::<3>().0.to_vec())
}

/// The kernels of a list, or nothing where it is refused by 17.
fn kernels(list: &[u8]) -> Option<Vec<Kernel>> {
    if !list.len().is_multiple_of(KERNEL) || list.len() / KERNEL > MOST_KERNELS {
        return None;
    }
    let numbers = numbers(list);
    let kernel = |&[x, y, z, sigma, w]: &[f64; 5]| {
        let centre = [x, y, z];
        let good = centre.iter().all(|&number| within(number, FARTHEST))
            && (0.0..=FARTHEST).contains(&sigma)
            && within(w, HEAVIEST);
        good.then_some(Kernel { centre, sigma, w })
    };
    numbers.as_chunks::<5>().0.iter().map(kernel).collect()
}

fn sub(a: Point, b: Point) -> Point {
    [a[0] - b[0], a[1] - b[1], a[2] - b[2]]
}

fn cross(a: Point, b: Point) -> Point {
    [
        a[1] * b[2] - a[2] * b[1],
        a[2] * b[0] - a[0] * b[2],
        a[0] * b[1] - a[1] * b[0],
    ]
}

fn dot(a: Point, b: Point) -> f64 {
    a[0] * b[0] + a[1] * b[1] + a[2] * b[2]
}

/// What the steps of the ray test along +X give; where the determinant is 0, the others mean nothing.
pub(crate) struct Steps {
    pub(crate) determinant: f64,
    pub(crate) u: f64,
    pub(crate) v: f64,
    pub(crate) distance: f64,
}

pub(crate) fn steps(origin: Point, [a, b, c]: Triangle) -> Steps {
    let along = [1.0, 0.0, 0.0];
    let (e1, e2) = (sub(b, a), sub(c, a));
    let p = cross(along, e2);
    let determinant = dot(e1, p);
    let inverse = 1.0 / determinant;
    let s = sub(origin, a);
    let q = cross(s, e1);
    Steps {
        determinant,
        u: inverse * dot(s, p),
        v: inverse * dot(along, q),
        distance: inverse * dot(e2, q),
    }
}

/// The distance at which the ray along +X from a point crosses a triangle, or a miss.
pub(crate) fn crossing(origin: Point, triangle: Triangle) -> Option<f64> {
    let Steps {
        determinant,
        u,
        v,
        distance,
    } = steps(origin, triangle);
    let miss = determinant.abs() < EPS;
    let within = (0.0..=1.0).contains(&u) && v >= 0.0 && u + v <= 1.0;
    (!miss && within && distance > EPS).then_some(distance)
}

/// Sorted crossings without each that lies within the tolerance of the last one retained.
pub(crate) fn retained(mut crossings: Vec<f64>) -> Vec<f64> {
    crossings.sort_by(f64::total_cmp);
    let mut retained: Vec<f64> = Vec::new();
    for a in crossings {
        let within = |b: f64| {
            let tolerance = (8e-7 * a.abs().max(b.abs()).max(1.0)).max(1e-5);
            (a - b).abs() <= tolerance
        };
        if !retained.last().is_some_and(|&last| within(last)) {
            retained.push(a);
        }
    }
    retained
}

/// The least and the greatest coordinate on an axis.
fn ends(corners: &[Point], axis: usize) -> (f64, f64) {
    let coordinates = corners.iter().map(|corner| corner[axis]);
    coordinates.fold((f64::INFINITY, f64::NEG_INFINITY), |(least, most), v| {
        (
            if v < least { v } else { least },
            if v > most { v } else { most },
        )
    })
}

/// Ends of the inside test's box on an axis.
#[derive(Clone, Copy)]
struct Axis {
    low: f64,
    high: f64,
}

impl Axis {
    fn of((least, greatest): (f64, f64)) -> Self {
        let outward = 1e-3 * (greatest - least + 1.0);
        Self {
            low: least - outward,
            high: greatest + outward,
        }
    }

    /// The greatest whole number 0 to 95 not above the scaled value, else 0: as many of 1 to 95 are not above it.
    fn index(self, v: f64) -> u32 {
        let scaled = (v - self.low) / (self.high - self.low) * 96.0;
        (1..INDICES)
            .map(|index| u32::from(f64::from(index) <= scaled))
            .sum()
    }
}

/// A mesh that 17 lets pass, with what the inside test asks of it.
pub(crate) struct Mesh {
    triangles: Vec<Triangle>,
    axes: [Axis; 3],
    /// Each triangle's least and greatest index on each axis.
    ranges: Vec<[(u32, u32); 3]>,
}

impl Mesh {
    /// Nothing where 17 refuses the list.
    pub(crate) fn of(list: &[u8]) -> Option<Self> {
        let triangles = triangles(list)?;
        let axes = [0, 1, 2].map(|axis| Axis::of(ends(triangles.as_flattened(), axis)));
        let range = |triangle: &Triangle| {
            [0, 1, 2].map(|axis| {
                let (least, greatest) = ends(triangle, axis);
                (axes[axis].index(least), axes[axis].index(greatest))
            })
        };
        Some(Self {
            ranges: triangles.iter().map(range).collect(),
            axes,
            triangles,
        })
    }

    /// An odd number of crossings retained, of the triangles that are candidates for the point.
    pub(crate) fn inside(&self, point: Point) -> bool {
        let [x, y, z] = [0, 1, 2].map(|axis| self.axes[axis].index(point[axis]));
        let has = |(least, greatest): (u32, u32), index| least <= index && index <= greatest;
        let candidate =
            |ranges: &[(u32, u32); 3]| has(ranges[1], y) && has(ranges[2], z) && x <= ranges[0].1;
        let crossings = self
            .triangles
            .iter()
            .zip(&self.ranges)
            .filter(|(_, ranges)| candidate(ranges))
            .filter_map(|(triangle, _)| crossing(point, *triangle))
            .collect();
        !retained(crossings).len().is_multiple_of(2)
    }
}

/// Inside: 17, 8; then 1 for yes and 0 for no.
pub(crate) fn inside(list: &[u8], point: Point, floats: u64) -> u64 {
    let near = point.iter().all(|&number| within(number, FARTHEST_POINT));
    match Mesh::of(list) {
        Some(mesh) if near => {
            if floats < mesh.triangles.len() as u64 {
                8
            } else {
                u64::from(mesh.inside(point))
            }
        }
        _ => 17,
    }
}

/// The box that is filled, and its cells.
struct Frame {
    min: Point,
    max: Point,
    cell: Point,
    volume: f64,
}

impl Frame {
    /// The mesh's box, moved outward by half of the shortest side ÷ g.
    fn of(mesh: &Mesh, g: f64) -> Self {
        let ends = [0, 1, 2].map(|axis| ends(mesh.triangles.as_flattened(), axis));
        let [x, y, z] = ends.map(|(least, greatest)| greatest - least);
        let pad = 0.5 * x.min(y).min(z) / g;
        let min = ends.map(|(least, _)| least - pad);
        let max = ends.map(|(_, greatest)| greatest + pad);
        let cell = sub(max, min).map(|extent| extent / g);
        Self {
            min,
            max,
            cell,
            volume: cell[0] * cell[1] * cell[2],
        }
    }

    fn middle(&self, cell: [u16; 3]) -> Point {
        let on = |axis: usize| self.min[axis] + (f64::from(cell[axis]) + 0.5) * self.cell[axis];
        [on(0), on(1), on(2)]
    }

    /// Whether min is below max on each axis after narrowing.
    fn has_room(&self) -> bool {
        let mut axes = self.min.iter().zip(&self.max);
        axes.all(|(&min, &max)| {
            let ends = narrowed(min).zip(narrowed(max));
            ends.is_some_and(|(min, max)| min < max)
        })
    }
}

/// The density of kernels whose alpha is 1.
fn density_at(kernels: &[Kernel], point: Point) -> f64 {
    kernels.iter().fold(0.0, |density, kernel| {
        let d = sub(point, kernel.centre);
        density + kernel.w / (1.0 + kernel.sigma * kernel.sigma * dot(d, d))
    })
}

/// What a list of kernels gives: the raw sum, the scale, the masses as written.
struct Masses {
    raw: f64,
    scale: f64,
    written: Vec<f32>,
}

/// A mass as written: a binary32 product, nothing where it is not finite.
fn scaled(mass: f64, scale: f32) -> Option<f32> {
    let product = narrowed(mass)? * scale;
    product.is_finite().then_some(product)
}

impl Masses {
    /// Nothing where a mass, the scale or a product of them is too large.
    fn of(kernels: &[Kernel], middles: &[Point], volume: f64, target: f64) -> Option<Self> {
        let mass = |&middle: &Point| density_at(kernels, middle) * volume;
        let masses: Vec<f64> = middles.iter().map(mass).collect();
        let raw = masses.iter().fold(0.0, |sum, mass| sum + mass);
        let scale = if target > 0.0 && raw.abs() > NO_SUM {
            target / raw
        } else {
            1.0
        };
        let factor = narrowed(scale)?;
        let written = masses.iter().map(|&mass| scaled(mass, factor));
        Some(Self {
            raw,
            scale,
            written: written.collect::<Option<_>>()?,
        })
    }
}

/// Half the cells, rounded up: the most points that a file of this grid size takes.
pub(crate) fn capacity(g: u64) -> u64 {
    g.pow(3).div_ceil(2)
}

/// 64 + 16 × half the cells rounded up: the output that cause 9 asks for.
pub(crate) fn needed(g: u64) -> u64 {
    length(capacity(g))
}

/// Whether each float of a point file, raw sums too, is finite.
pub(crate) fn is_finite(file: &[u8]) -> bool {
    let header = FLOATS.into_iter().chain(RAW_SUMS);
    let records = (64..file.len()).step_by(16);
    let masses = records.flat_map(|at| [at + 8, at + 12]);
    header.chain(masses).all(|at| float(file, at).is_finite())
}

/// The filled file, or the first cause.
fn filled(body: &Body, floats: u64, room: u64) -> Result<Vec<u8>, u64> {
    if !is_grid(body.grid) {
        return Err(3);
    }
    let g = u64::from(body.grid);
    let mesh = Mesh::of(body.triangles).ok_or(17u64)?;
    let cauchy = kernels(body.cauchy).ok_or(17u64)?;
    let elliptic = kernels(body.elliptic).ok_or(17u64)?;
    if !within(body.target, HEAVIEST) || !within(body.density, HEAVIEST) {
        return Err(17);
    }
    if floats < mesh.triangles.len() as u64 {
        return Err(8);
    }
    if room < needed(g) {
        return Err(9);
    }
    let frame = Frame::of(&mesh, g as f64);
    if !frame.has_room() {
        return Err(19);
    }
    let (cells, middles): (Vec<[u16; 3]>, Vec<Point>) = (0..g.pow(3))
        .map(|number| cell_of(g, number))
        .map(|cell| (cell, frame.middle(cell)))
        .filter(|(_, middle)| mesh.inside(*middle))
        .unzip();
    if cells.len() as u64 > capacity(g) {
        return Err(18);
    }
    let masses = |list: &[Kernel]| Masses::of(list, &middles, frame.volume, body.target);
    let (cauchy, elliptic) = masses(&cauchy).zip(masses(&elliptic)).ok_or(20u64)?;
    let mut file = Vec::with_capacity(64 + 16 * cells.len());
    for word in [MARK, VERSION, body.grid, cells.len() as u32] {
        file.extend_from_slice(&word.to_le_bytes());
    }
    let lone = [body.density, frame.volume, cauchy.scale, 0.0].into_iter();
    let ends = frame.min.into_iter().chain(frame.max);
    for number in lone.chain(ends).chain([cauchy.raw, elliptic.raw]) {
        let float = narrowed(number).ok_or(20u64)?;
        file.extend_from_slice(&float.to_le_bytes());
    }
    for (index, [x, y, z]) in cells.into_iter().enumerate() {
        for half_word in [x, y, z, 0] {
            file.extend_from_slice(&half_word.to_le_bytes());
        }
        for mass in [cauchy.written[index], elliptic.written[index]] {
            file.extend_from_slice(&mass.to_le_bytes());
        }
    }
    Ok(file)
}

/// Fill: 3, 17, 8, 9, 19, 18, 20; then the file stands in `out`. 18 and 20 zero all of it.
pub(crate) fn fill(body: &Body, floats: u64, out: &mut [u8]) -> u64 {
    match filled(body, floats, out.len() as u64) {
        Ok(file) => {
            out[..file.len()].copy_from_slice(&file);
            file.len() as u64
        }
        Err(cause) => {
            if cause == 18 || cause == 20 {
                out.fill(0);
            }
            cause
        }
    }
}

#[cfg(test)]
mod tests {
    use super::*;

    fn bytes(numbers: &[f64]) -> Vec<u8> {
        numbers
            .iter()
            .flat_map(|number| number.to_le_bytes())
            .collect()
    }

    /// Corners at the origin and at 2 on each axis.
    fn corner() -> Vec<u8> {
        let [o, x, y, z] = [[0.0; 3], [2.0, 0.0, 0.0], [0.0, 2.0, 0.0], [0.0, 0.0, 2.0]];
        bytes(
            [[o, y, x], [o, x, z], [o, z, y], [x, y, z]]
                .as_flattened()
                .as_flattened(),
        )
    }

    fn body<'a>(triangles: &'a [u8], cauchy: &'a [u8]) -> Body<'a> {
        Body {
            grid: 1,
            triangles,
            cauchy,
            elliptic: &[],
            target: 0.0,
            density: 1190.0,
        }
    }

    /// The model of 01, and both sides of each bound.
    #[test]
    fn rays_cross() {
        let triangle = [[1.0, -1.0, -1.0], [1.0, 1.0, -1.0], [1.0, 0.0, 1.0]];
        assert_eq!(crossing([0.0; 3], triangle), Some(1.0));
        assert_eq!(crossing([2.0, 0.0, 0.0], triangle), None);
        assert_eq!(crossing([1.0, 0.0, 0.0], triangle), None);
        assert_eq!(crossing([0.0, 0.0, 1.0], triangle), Some(1.0));
        assert_eq!(crossing([0.0, 0.0, 1.0 + 1e-9], triangle), None);
        assert_eq!(crossing([0.0, -1.0, -1.0], triangle), Some(1.0));
        assert_eq!(crossing([0.0, 0.0, -1.0 - 1e-9], triangle), None);
        let [a, b, c] = triangle;
        assert_eq!(crossing([0.0; 3], [b, a, c]), Some(1.0));
        assert_eq!(crossing([0.0; 3], [a, a, c]), None);
    }

    #[test]
    fn crossings_are_thinned() {
        assert_eq!(
            retained(vec![10.000018, 10.0, 10.000009]),
            [10.0, 10.000018]
        );
        assert_eq!(retained(vec![1.0, 1.000011]), [1.0, 1.000011]);
        assert_eq!(retained(vec![1e6, 1e6 + 0.7, 1e6 + 0.9]), [1e6, 1e6 + 0.9]);
        assert_eq!(retained(vec![]), [0.0; 0]);
    }

    #[test]
    fn indices_are_whole_numbers() {
        let axis = Axis {
            low: 0.0,
            high: 96.0,
        };
        for (v, index) in [
            (-5.0, 0),
            (-0.0, 0),
            (0.99, 0),
            (1.0, 1),
            (94.99, 94),
            (95.0, 95),
            (96.0, 95),
            (4e6, 95),
        ] {
            assert_eq!(axis.index(v), index, "{v}");
        }
        let axis = Axis::of((1.0, 2.0));
        assert_eq!((axis.low, axis.high), (1.0 - 2e-3, 2.0 + 2e-3));
    }

    #[test]
    fn inside_answers_and_refuses() {
        let corner = corner();
        assert_eq!(inside(&corner, [0.25; 3], 4), 1);
        assert_eq!(inside(&corner, [1.0; 3], 4), 0);
        assert_eq!(inside(&corner, [0.25; 3], 3), 8);
        assert_eq!(inside(&corner, [4e6, 0.0, 0.0], 4), 0);
        assert_eq!(inside(&corner, [4e6f64.next_up(), 0.0, 0.0], 0), 17);
        assert_eq!(inside(&corner, [f64::NAN, 0.0, 0.0], 0), 17);
        for length in [0, 8, 71, 73, 287] {
            assert_eq!(inside(&corner[..length], [0.25; 3], 0), 17);
        }
        let mut far = corner.clone();
        far[..8].copy_from_slice(&(-1e6f64).to_le_bytes());
        assert_ne!(inside(&far, [0.25; 3], 4), 17);
        far[..8].copy_from_slice(&(-1e6f64).next_down().to_le_bytes());
        assert_eq!(inside(&far, [0.25; 3], 4), 17);
    }

    /// g 1: the frame goes from −1 to 3, the cell is 64 in volume, its middle 1, which is outside: header alone. The middle of a
    /// mesh from 0 to 2 that is a cube is inside: one record.
    #[test]
    fn files_are_written() {
        let mut out = [0xa5; 81];
        assert_eq!(fill(&body(&corner(), &[]), 4, &mut out), 64);
        let word = |at: usize| u32::from_le_bytes([0, 1, 2, 3].map(|byte| out[at + byte]));
        let words: Vec<u32> = (0..16).map(|place| word(4 * place)).collect();
        let [min, max, one] = [-1.0f32, 3.0, 1.0].map(f32::to_bits);
        let floats = [1190f32.to_bits(), 64f32.to_bits(), one, 0];
        assert_eq!(words[..4], [0x314d_5952, 1, 1, 0]);
        assert_eq!(words[4..8], floats);
        assert_eq!(words[8..], [min, min, min, max, max, max, 0, 0]);
        assert_eq!(out[64..], [0xa5; 17]);
    }

    /// Two walls across x: the ray of the middle crosses one. Mass 3 · 64 scaled to 6.
    #[test]
    fn masses_are_scaled() {
        let wall = |x: f64| [x, -9.0, -9.0, x, 9.0, -9.0, x, 0.0, 9.0];
        let mesh = bytes([wall(-9.0), wall(9.0)].as_flattened());
        let kernel = bytes(&[0.0, 0.0, 0.0, -0.0, 3.0]);
        let mut out = [0xa5; 81];
        let body = Body {
            target: 6.0,
            ..body(&mesh, &kernel)
        };
        assert_eq!(fill(&body, 2, &mut out), 80);
        let float = |at: usize| f32::from_le_bytes([0, 1, 2, 3].map(|byte| out[at + byte]));
        let volume = 36f64.powi(3);
        assert_eq!(float(20), volume as f32);
        assert_eq!(float(24), (6.0 / (3.0 * volume)) as f32);
        assert_eq!(float(56), (3.0 * volume) as f32);
        assert_eq!(float(60), 0.0);
        assert_eq!(out[64..72], [0; 8]);
        assert!((float(72) - 6.0).abs() < 1e-6);
        assert_eq!((float(76), out[80]), (0.0, 0xa5));
    }

    #[test]
    fn fill_refuses_in_order() {
        let corner = corner();
        let good = body(&corner, &[]);
        let refused = |body: &Body, floats: u64, room: usize, answer: u64| {
            let mut out = vec![0xa5; room];
            assert_eq!(fill(body, floats, &mut out), answer);
            assert!(out.iter().all(|&byte| byte == 0xa5));
        };
        refused(&Body { grid: 0, ..good }, 0, 0, 3);
        refused(
            &Body {
                grid: 257,
                ..body(&[], &[])
            },
            0,
            0,
            3,
        );
        refused(&body(&corner, &[0; 39]), 0, 0, 17);
        refused(
            &body(&corner, &bytes(&[0.0, 0.0, 0.0, -1.0, 0.0])),
            0,
            0,
            17,
        );
        refused(
            &Body {
                target: f64::NAN,
                ..good
            },
            0,
            0,
            17,
        );
        refused(
            &Body {
                density: -1e30f64.next_up(),
                ..good
            },
            0,
            0,
            17,
        );
        refused(&good, 3, 0, 8);
        refused(&good, 4, 79, 9);
        let flat = bytes(&[0.0, 0.0, 5.0, 1.0, 0.0, 5.0, 0.0, 1.0, 5.0]);
        refused(&body(&flat, &[]), 1, 80, 19);
    }

    #[test]
    fn sums_and_lengths() {
        assert_eq!([1, 2, 3, 256].map(capacity), [1, 4, 14, 1 << 23]);
        assert_eq!(needed(3), 288);
        assert_eq!(numbers(&[0; 17]), [0.0; 2]);
    }
}
