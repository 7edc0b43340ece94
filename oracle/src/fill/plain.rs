//! A second implementation of inside and fill, in the buffers lent, and the faults that tests plant in it.

use super::Fill;
use crate::inside::Inside;
use crate::rule::fill::{Body, Point, Triangle};

#[derive(Clone, Copy, Debug, PartialEq)]
pub(crate) enum Fault {
    None,
    // the ray
    DeterminantAtEps,
    OneSided,
    DividedByDeterminant,
    UAboveZero,
    UBelowOne,
    VAboveZero,
    SumBelowOne,
    DistanceAtEps,
    // the ray alone
    UNotTested,
    VNotTested,
    SumNotTested,
    BehindCrossed,
    DotFromTheRight,
    // candidates
    NoXIndex,
    NoYAndZIndex,
    XByLowerIndex,
    UpperIndexExcluded,
    // thinning
    NotSorted,
    NotThinned,
    ByPredecessor,
    ToleranceBelow,
    AbsoluteTolerance,
    RelativeTolerance,
    EvenIsInside,
    // the numbers that 17 judges
    BoundExcluded,
    NanPasses,
    MinusZeroSigmaRefused,
    NegativeSigmaPasses,
    NegativeTargetRefused,
    DensityNotJudged,
    PointByMeshBound,
    RestOfListIgnored,
    EmptyMeshPasses,
    EllipticNotJudged,
    // the order of causes
    SeventeenBeforeThree,
    NineBeforeEight,
    EightBeforeSeventeen,
    EighteenBeforeNineteen,
    TwentyInTheLoop,
    TwentyBeforeEighteen,
    NineteenBeforeNine,
    // what 20 judges
    TooLargeAsGreatest,
    MassesNotJudged,
    EllipticMassesNotJudged,
    HeaderNotJudged,
    ProductsNotJudged,
    // lengths and capacity
    GridOf257,
    FloatShort,
    NineByCount,
    CapacityRoundedDown,
    AllCellsFit,
    // what the output holds
    NotZeroedAt18,
    NotZeroedAt20,
    ZeroedAt19,
    ZeroedUpToCapacity,
    RestZeroed,
    // the frame
    PadByLongest,
    PadNotHalved,
    NoPad,
    FlatBeforeNarrowing,
    CellsFromCorners,
    XOutermost,
    VolumeFromTheRight,
    // masses
    RawAfterScaling,
    RawInBinary32,
    RawOfNarrowed,
    ScaleInBinary64,
    ScaleBeforeNarrowing,
    TargetZeroScales,
    NegativeTargetScales,
    RawAtLeast,
    RawNotMagnitude,
    EllipticByCauchyScale,
    EllipticScaleWritten,
    SigmaFromTheRight,
    SigmaNotSquared,
    MinusZeroLost,
}

macro_rules! inside_with {
    ($fault:ident) => {
        |mesh, point, floats| plain_inside(Fault::$fault, mesh, point, floats)
    };
}

macro_rules! fill_with {
    ($fault:ident) => {
        |body, floats, out| plain_fill(Fault::$fault, body, floats, out)
    };
}

/// The ray test with each fault.
pub(crate) const RAY_FAULTS: [Fault; 13] = [
    Fault::DeterminantAtEps,
    Fault::OneSided,
    Fault::DividedByDeterminant,
    Fault::UAboveZero,
    Fault::UBelowOne,
    Fault::VAboveZero,
    Fault::SumBelowOne,
    Fault::DistanceAtEps,
    Fault::UNotTested,
    Fault::VNotTested,
    Fault::SumNotTested,
    Fault::BehindCrossed,
    Fault::DotFromTheRight,
];

/// Inside with each fault, and a kind of case that shows it.
pub(crate) const INSIDE_FAULTS: [(Inside, &str); 26] = [
    (inside_with!(DeterminantAtEps), "walls"),
    (inside_with!(OneSided), "lumpy spheres"),
    (inside_with!(DividedByDeterminant), "lattice bodies"),
    (inside_with!(UAboveZero), "lattice bodies"),
    (inside_with!(UBelowOne), "lattice bodies"),
    (inside_with!(VAboveZero), "lattice bodies"),
    (inside_with!(SumBelowOne), "lattice bodies"),
    (inside_with!(DistanceAtEps), "walls"),
    (inside_with!(NoXIndex), "slivers"),
    (inside_with!(NoYAndZIndex), "slivers"),
    (inside_with!(XByLowerIndex), "lumpy spheres"),
    (inside_with!(UpperIndexExcluded), "lumpy spheres"),
    (inside_with!(NotSorted), "walls"),
    (inside_with!(NotThinned), "walls"),
    (inside_with!(ByPredecessor), "walls"),
    (inside_with!(ToleranceBelow), "walls"),
    (inside_with!(AbsoluteTolerance), "walls"),
    (inside_with!(RelativeTolerance), "walls"),
    (inside_with!(EvenIsInside), "tetrahedra"),
    (inside_with!(BoundExcluded), "triangle numbers"),
    (inside_with!(NanPasses), "point numbers"),
    (inside_with!(PointByMeshBound), "extreme numbers"),
    (inside_with!(RestOfListIgnored), "list lengths"),
    (inside_with!(EmptyMeshPasses), "list lengths"),
    (inside_with!(EightBeforeSeventeen), "17 and 8 together"),
    (inside_with!(FloatShort), "scratch lengths"),
];

/// Fill with each fault, and a kind of case that shows it.
pub(crate) const FILL_FAULTS: [(Fill, &str); 71] = [
    (fill_with!(DeterminantAtEps), "walls"),
    (fill_with!(OneSided), "lumpy spheres"),
    (fill_with!(DividedByDeterminant), "edges through middles"),
    (fill_with!(UAboveZero), "edges through middles"),
    (fill_with!(UBelowOne), "edges through middles"),
    (fill_with!(VAboveZero), "edges through middles"),
    (fill_with!(SumBelowOne), "edges through middles"),
    (fill_with!(DistanceAtEps), "walls"),
    (fill_with!(NoXIndex), "slivers"),
    (fill_with!(NoYAndZIndex), "slivers"),
    (fill_with!(XByLowerIndex), "lumpy spheres"),
    (fill_with!(UpperIndexExcluded), "lumpy spheres"),
    (fill_with!(NotSorted), "walls"),
    (fill_with!(NotThinned), "edges through middles"),
    (fill_with!(ByPredecessor), "walls"),
    (fill_with!(ToleranceBelow), "walls"),
    (fill_with!(AbsoluteTolerance), "walls"),
    (fill_with!(RelativeTolerance), "walls"),
    (fill_with!(EvenIsInside), "tetrahedra"),
    (fill_with!(BoundExcluded), "extreme numbers"),
    (fill_with!(NanPasses), "lone numbers"),
    (fill_with!(MinusZeroSigmaRefused), "negative zeros"),
    (fill_with!(NegativeSigmaPasses), "kernel numbers"),
    (fill_with!(NegativeTargetRefused), "tetrahedra"),
    (fill_with!(DensityNotJudged), "lone numbers"),
    (fill_with!(RestOfListIgnored), "list lengths"),
    (fill_with!(EmptyMeshPasses), "list lengths"),
    (fill_with!(EllipticNotJudged), "kernel numbers"),
    (fill_with!(SeventeenBeforeThree), "pairs of causes"),
    (fill_with!(NineBeforeEight), "pairs of causes"),
    (fill_with!(EightBeforeSeventeen), "pairs of causes"),
    (fill_with!(EighteenBeforeNineteen), "flat boxes"),
    (fill_with!(TwentyInTheLoop), "over capacity"),
    (fill_with!(TwentyBeforeEighteen), "over capacity"),
    (fill_with!(NineteenBeforeNine), "pairs of causes"),
    (fill_with!(TooLargeAsGreatest), "infinite masses"),
    (fill_with!(MassesNotJudged), "infinite masses"),
    (fill_with!(EllipticMassesNotJudged), "infinite masses"),
    (fill_with!(HeaderNotJudged), "infinite masses"),
    (fill_with!(ProductsNotJudged), "fixed cases"),
    (fill_with!(GridOf257), "grid sizes"),
    (fill_with!(FloatShort), "buffer lengths"),
    (fill_with!(NineByCount), "buffer lengths"),
    (fill_with!(CapacityRoundedDown), "capacity"),
    (fill_with!(AllCellsFit), "over capacity"),
    (fill_with!(NotZeroedAt18), "over capacity"),
    (fill_with!(NotZeroedAt20), "infinite masses"),
    (fill_with!(ZeroedAt19), "flat boxes"),
    (fill_with!(ZeroedUpToCapacity), "over capacity"),
    (fill_with!(RestZeroed), "tetrahedra"),
    (fill_with!(PadByLongest), "tetrahedra"),
    (fill_with!(PadNotHalved), "tetrahedra"),
    (fill_with!(NoPad), "tetrahedra"),
    (fill_with!(FlatBeforeNarrowing), "flat boxes"),
    (fill_with!(CellsFromCorners), "tetrahedra"),
    (fill_with!(XOutermost), "tetrahedra"),
    (fill_with!(VolumeFromTheRight), "narrowing ties"),
    (fill_with!(RawAfterScaling), "tetrahedra"),
    (fill_with!(RawInBinary32), "tetrahedra"),
    (fill_with!(RawOfNarrowed), "tetrahedra"),
    (fill_with!(ScaleInBinary64), "tetrahedra"),
    (fill_with!(ScaleBeforeNarrowing), "tetrahedra"),
    (fill_with!(TargetZeroScales), "tetrahedra"),
    (fill_with!(NegativeTargetScales), "tetrahedra"),
    (fill_with!(RawAtLeast), "cancelling kernels"),
    (fill_with!(RawNotMagnitude), "contact binaries"),
    (fill_with!(EllipticByCauchyScale), "tetrahedra"),
    (fill_with!(EllipticScaleWritten), "tetrahedra"),
    (fill_with!(SigmaFromTheRight), "cancelling kernels"),
    (fill_with!(SigmaNotSquared), "tetrahedra"),
    (fill_with!(MinusZeroLost), "tiny weights"),
];

/// A list's numbers, in entries of N.
fn entries<const N: usize>(list: &[u8]) -> Vec<[f64; N]> {
    let (numbers, _) = list.as_chunks::<8>();
    let numbers: Vec<f64> = numbers.iter().map(|b| f64::from_le_bytes(*b)).collect();
    numbers.as_chunks::<N>().0.to_vec()
}

fn outside(fault: Fault, number: f64, bound: f64) -> bool {
    let magnitude = number.abs();
    match fault {
        Fault::BoundExcluded => magnitude >= bound || magnitude.is_nan(),
        Fault::NanPasses => magnitude > bound,
        _ => magnitude > bound || magnitude.is_nan(),
    }
}

/// Whether a list ends inside an entry, or has more than the most.
fn is_long(fault: Fault, list: &[u8], entry: usize, most: usize) -> bool {
    list.len() > most * entry
        || !list.len().is_multiple_of(entry) && fault != Fault::RestOfListIgnored
}

fn judge_mesh(fault: Fault, list: &[u8]) -> Result<Vec<Triangle>, u64> {
    let none = list.len() < 72 && fault != Fault::EmptyMeshPasses;
    let triangles = entries::<9>(list);
    let mut numbers = triangles.as_flattened().iter();
    if none || is_long(fault, list, 72, 1 << 20) || numbers.any(|&n| outside(fault, n, 1e6)) {
        return Err(17);
    }
    let corners = |&[a, b, c, d, e, f, g, h, i]: &[f64; 9]| [[a, b, c], [d, e, f], [g, h, i]];
    Ok(triangles.iter().map(corners).collect())
}

fn judge_kernels(fault: Fault, list: &[u8]) -> Result<Vec<[f64; 5]>, u64> {
    let kernels = entries::<5>(list);
    let bad = |&[x, y, z, sigma, w]: &[f64; 5]| {
        let far = [x, y, z, sigma].iter().any(|&n| outside(fault, n, 1e6));
        let negative = match fault {
            Fault::NegativeSigmaPasses => false,
            Fault::MinusZeroSigmaRefused => sigma.is_sign_negative(),
            _ => sigma < 0.0,
        };
        far || negative || outside(fault, w, 1e30)
    };
    if is_long(fault, list, 40, 4096) || kernels.iter().any(bad) {
        return Err(17);
    }
    Ok(kernels)
}

fn dot(a: Point, b: Point) -> f64 {
    a[0] * b[0] + a[1] * b[1] + a[2] * b[2]
}

fn cross([a, b, c]: Point, [d, e, f]: Point) -> Point {
    [b * f - c * e, c * d - a * f, a * e - b * d]
}

fn sub([a, b, c]: Point, [d, e, f]: Point) -> Point {
    [a - d, b - e, c - f]
}

fn least_and_most(corners: &[Point]) -> (Point, Point) {
    let (mut least, mut most) = ([f64::INFINITY; 3], [f64::NEG_INFINITY; 3]);
    for corner in corners {
        for axis in 0..3 {
            least[axis] = least[axis].min(corner[axis]);
            most[axis] = most[axis].max(corner[axis]);
        }
    }
    (least, most)
}

/// A mesh and the inside test's box.
struct Plain {
    fault: Fault,
    triangles: Vec<Triangle>,
    low: Point,
    high: Point,
}

impl Plain {
    fn new(fault: Fault, triangles: Vec<Triangle>) -> Self {
        let (mut low, mut high) = least_and_most(triangles.as_flattened());
        for axis in 0..3 {
            let pad = 1e-3 * (high[axis] - low[axis] + 1.0);
            low[axis] -= pad;
            high[axis] += pad;
        }
        Self {
            fault,
            triangles,
            low,
            high,
        }
    }

    fn has(&self, fault: Fault) -> bool {
        self.fault == fault
    }

    fn indices(&self, point: Point) -> Point {
        [0, 1, 2].map(|axis| {
            let scaled = (point[axis] - self.low[axis]) / (self.high[axis] - self.low[axis]) * 96.0;
            scaled.floor().clamp(0.0, 95.0)
        })
    }

    fn reaches(&self, at: Point, triangle: &Triangle) -> bool {
        let (least, most) = least_and_most(triangle);
        let (least, most) = (self.indices(least), self.indices(most));
        let within = |axis: usize| {
            let below = if self.has(Fault::UpperIndexExcluded) {
                at[axis] < most[axis]
            } else {
                at[axis] <= most[axis]
            };
            least[axis] <= at[axis] && below || self.has(Fault::NoYAndZIndex)
        };
        let x = if self.has(Fault::XByLowerIndex) {
            least[0]
        } else {
            most[0]
        };
        within(1) && within(2) && (at[0] <= x || self.has(Fault::NoXIndex))
    }

    fn ray(&self, origin: Point, [a, b, c]: Triangle) -> Option<f64> {
        let (e1, e2) = (sub(b, a), sub(c, a));
        let p = cross([1.0, 0.0, 0.0], e2);
        let dot = |[a, b, c]: Point, [d, e, f]: Point| match self.fault {
            Fault::DotFromTheRight => a * d + (b * e + c * f),
            _ => dot([a, b, c], [d, e, f]),
        };
        let determinant = dot(e1, p);
        let size = if self.has(Fault::OneSided) {
            determinant
        } else {
            determinant.abs()
        };
        if size < 1e-12 || size == 1e-12 && self.has(Fault::DeterminantAtEps) {
            return None;
        }
        let over = |number: f64| match self.fault {
            Fault::DividedByDeterminant => number / determinant,
            _ => 1.0 / determinant * number,
        };
        let s = sub(origin, a);
        let u = over(dot(s, p));
        let edge =
            u == 0.0 && self.has(Fault::UAboveZero) || u == 1.0 && self.has(Fault::UBelowOne);
        let (below, above) = (u < 0.0, u > 1.0);
        if (below || above) && !self.has(Fault::UNotTested) || edge {
            return None;
        }
        let q = cross(s, e1);
        let v = over(q[0]);
        let edge =
            v == 0.0 && self.has(Fault::VAboveZero) || u + v == 1.0 && self.has(Fault::SumBelowOne);
        let below = v < 0.0 && !self.has(Fault::VNotTested);
        let above = u + v > 1.0 && !self.has(Fault::SumNotTested);
        if below || above || edge {
            return None;
        }
        let t = over(dot(e2, q));
        if t < 0.0 && self.has(Fault::BehindCrossed) {
            return Some(t);
        }
        (t > 1e-12 || t == 1e-12 && self.has(Fault::DistanceAtEps)).then_some(t)
    }

    fn is_near(&self, a: f64, b: f64) -> bool {
        let relative = 8e-7 * a.abs().max(b.abs());
        let tolerance = match self.fault {
            Fault::AbsoluteTolerance => 1e-5,
            Fault::RelativeTolerance => relative,
            _ => relative.max(1e-5),
        };
        let apart = (a - b).abs();
        match self.fault {
            Fault::NotThinned => false,
            Fault::ToleranceBelow => apart < tolerance,
            _ => apart <= tolerance,
        }
    }

    fn inside(&self, point: Point, floats: &mut [f64]) -> bool {
        let at = self.indices(point);
        let mut crossings = 0;
        for triangle in &self.triangles {
            if self.reaches(at, triangle) {
                if let Some(t) = self.ray(point, *triangle) {
                    floats[crossings] = t;
                    crossings += 1;
                }
            }
        }
        let floats = &mut floats[..crossings];
        if !self.has(Fault::NotSorted) {
            floats.sort_by(|a, b| a.partial_cmp(b).expect("numbers"));
        }
        let (mut retained, mut last) = (0, f64::NEG_INFINITY);
        for &t in floats.iter() {
            let near = retained > 0 && self.is_near(t, last);
            if !near {
                retained += 1;
            }
            if !near || self.has(Fault::ByPredecessor) {
                last = t;
            }
        }
        (retained % 2 == 1) != self.has(Fault::EvenIsInside)
    }
}

/// The ray test with a fault.
pub(crate) fn plain_ray(fault: Fault, point: Point, triangle: Triangle) -> Option<f64> {
    Plain::new(fault, vec![triangle]).ray(point, triangle)
}

/// Inside with a fault.
pub(crate) fn plain_inside(fault: Fault, list: &[u8], point: Point, floats: &mut [f64]) -> u64 {
    let short =
        |triangles: usize| floats.len() + usize::from(fault == Fault::FloatShort) < triangles;
    if fault == Fault::EightBeforeSeventeen && short(list.len() / 72) {
        return 8;
    }
    let bound = if fault == Fault::PointByMeshBound {
        1e6
    } else {
        4e6
    };
    if point.iter().any(|&number| outside(fault, number, bound)) {
        return 17;
    }
    let triangles = match judge_mesh(fault, list) {
        Ok(triangles) => triangles,
        Err(cause) => return cause,
    };
    if short(triangles.len()) {
        return 8;
    }
    let mut room = floats.to_vec();
    room.resize(triangles.len(), 0.0);
    u64::from(Plain::new(fault, triangles).inside(point, &mut room))
}

/// A fill under way: what `build_mascon` keeps in locals.
struct Work {
    fault: Fault,
    min: Point,
    max: Point,
    cell: Point,
    volume: f64,
    count: usize,
    raw: [f64; 2],
    masses: Vec<[f64; 2]>,
}

impl Work {
    fn new(fault: Fault, corners: &[Point], g: f64) -> Self {
        let (mut min, mut max) = least_and_most(corners);
        let [x, y, z] = sub(max, min);
        let side = match fault {
            Fault::PadByLongest => x.max(y).max(z),
            Fault::PadNotHalved => 2.0 * x.min(y).min(z),
            Fault::NoPad => 0.0,
            _ => x.min(y).min(z),
        };
        let pad = 0.5 * side / g;
        for axis in 0..3 {
            min[axis] -= pad;
            max[axis] += pad;
        }
        let cell = sub(max, min).map(|extent| extent / g);
        let volume = match fault {
            Fault::VolumeFromTheRight => cell[0] * (cell[1] * cell[2]),
            _ => cell[0] * cell[1] * cell[2],
        };
        Self {
            fault,
            min,
            max,
            cell,
            volume,
            count: 0,
            raw: [0.0; 2],
            masses: Vec::new(),
        }
    }

    fn has(&self, fault: Fault) -> bool {
        self.fault == fault
    }

    fn is_flat(&self) -> bool {
        let narrowed = |x: f64| match self.fault {
            Fault::FlatBeforeNarrowing => x,
            _ => f64::from(x as f32),
        };
        (0..3).any(|axis| narrowed(self.min[axis]) >= narrowed(self.max[axis]))
    }

    fn middle(&self, cell: [usize; 3]) -> Point {
        let half = if self.has(Fault::CellsFromCorners) {
            0.0
        } else {
            0.5
        };
        [0, 1, 2].map(|axis| self.min[axis] + (cell[axis] as f64 + half) * self.cell[axis])
    }

    fn density(&self, kernels: &[[f64; 5]], point: Point) -> f64 {
        let mut density = 0.0;
        for &[x, y, z, sigma, w] in kernels {
            let d = sub(point, [x, y, z]);
            let squares = dot(d, d);
            let part = match self.fault {
                Fault::SigmaFromTheRight => sigma * (sigma * squares),
                Fault::SigmaNotSquared => sigma * squares,
                _ => sigma * sigma * squares,
            };
            density += w / (1.0 + part);
        }
        density
    }

    /// Writes the record of a cell.
    fn add(&mut self, cell: [usize; 3], masses: [f64; 2], out: &mut [u8]) {
        let at = 64 + 16 * self.count;
        for (axis, coordinate) in cell.into_iter().enumerate() {
            out[at + 2 * axis..at + 2 * axis + 2]
                .copy_from_slice(&(coordinate as u16).to_le_bytes());
        }
        out[at + 6..at + 8].fill(0);
        for (raw, mass) in self.raw.iter_mut().zip(masses) {
            *raw += match self.fault {
                Fault::RawOfNarrowed => f64::from(mass as f32),
                _ => mass,
            };
            if self.fault == Fault::RawInBinary32 {
                *raw = f64::from(*raw as f32);
            }
        }
        self.masses.push(masses);
        self.count += 1;
    }

    fn scale(&self, raw: f64, target: f64) -> f64 {
        let enough = match self.fault {
            Fault::RawAtLeast => raw.abs() >= 1e-30,
            Fault::RawNotMagnitude => raw > 1e-30,
            _ => raw.abs() > 1e-30,
        };
        let wanted = match self.fault {
            Fault::TargetZeroScales => target >= 0.0,
            Fault::NegativeTargetScales => target != 0.0,
            _ => target > 0.0,
        };
        if wanted && enough {
            target / raw
        } else {
            1.0
        }
    }

    fn narrowed(&self, number: f64) -> f32 {
        match self.fault {
            Fault::TooLargeAsGreatest => (number as f32).clamp(f32::MIN, f32::MAX),
            _ => number as f32,
        }
    }

    fn scaled(&self, mass: f64, scale: f64) -> f32 {
        let scaled = match self.fault {
            Fault::ScaleBeforeNarrowing => (mass * scale) as f32,
            Fault::ScaleInBinary64 => (f64::from(mass as f32) * scale) as f32,
            _ => self.narrowed(mass) * self.narrowed(scale),
        };
        if scaled == 0.0 && self.has(Fault::MinusZeroLost) {
            return 0.0;
        }
        scaled
    }

    /// Whether each float of a file is finite, those of a record's last word too, as far as they are judged.
    fn is_finite(&self, file: &[u8]) -> bool {
        let (words, _) = file.as_chunks::<4>();
        let finite = |at: usize| f32::from_le_bytes(words[at]).is_finite();
        let mut masses = (16..words.len()).filter(|at| match self.fault {
            Fault::MassesNotJudged | Fault::ProductsNotJudged => false,
            Fault::EllipticMassesNotJudged => at % 4 == 2,
            _ => at % 4 > 1,
        });
        let header = self.has(Fault::HeaderNotJudged) || (4..16).all(finite);
        let mut unscaled = self.masses.as_flattened().iter();
        header
            && masses.all(finite)
            && (!self.has(Fault::ProductsNotJudged)
                || unscaled.all(|&mass| self.narrowed(mass).is_finite()))
    }

    /// Writes the masses and the header.
    fn finish(&mut self, body: &Body, out: &mut [u8]) {
        let mut scales = self.raw.map(|raw| self.scale(raw, body.target));
        if self.has(Fault::EllipticByCauchyScale) {
            scales[1] = scales[0];
        }
        let mut sums = [0.0; 2];
        for (index, masses) in self.masses.iter().enumerate() {
            for list in 0..2 {
                let mass = self.scaled(masses[list], scales[list]);
                sums[list] += f64::from(mass);
                let at = 64 + 16 * index + 8 + 4 * list;
                out[at..at + 4].copy_from_slice(&mass.to_le_bytes());
            }
        }
        if self.has(Fault::RawAfterScaling) {
            self.raw = sums;
        }
        let scale = scales[usize::from(self.has(Fault::EllipticScaleWritten))];
        let words = [0x314d_5952, 1, body.grid, self.count as u32];
        let floats = [body.density, self.volume, scale, 0.0].into_iter();
        let floats = floats.chain(self.min).chain(self.max).chain(self.raw);
        let floats = floats.map(|float| self.narrowed(float).to_bits());
        for (place, word) in words.into_iter().chain(floats).enumerate() {
            out[4 * place..4 * place + 4].copy_from_slice(&word.to_le_bytes());
        }
    }
}

/// Fill with a fault.
pub(crate) fn plain_fill(fault: Fault, body: &Body, floats: &mut [f64], out: &mut [u8]) -> u64 {
    let answer = filled(fault, body, floats, out).unwrap_or_else(|cause| cause);
    match (answer, fault) {
        (18, Fault::NotZeroedAt18) | (20, Fault::NotZeroedAt20) => (),
        (18 | 20, Fault::ZeroedUpToCapacity) => {
            let capacity = u64::from(body.grid).pow(3).div_ceil(2) as usize;
            out[..64 + 16 * capacity].fill(0);
        }
        (18 | 20, _) | (19, Fault::ZeroedAt19) => out.fill(0),
        (64.., Fault::RestZeroed) => out[answer as usize..].fill(0),
        _ => (),
    }
    answer
}

/// The causes up to 9: the mesh, the kernels.
type Judged = (Vec<Triangle>, [Vec<[f64; 5]>; 2]);

fn judged(fault: Fault, body: &Body) -> Result<Judged, u64> {
    let triangles = judge_mesh(fault, body.triangles)?;
    let cauchy = judge_kernels(fault, body.cauchy)?;
    let elliptic = match fault {
        Fault::EllipticNotJudged => entries(body.elliptic),
        _ => judge_kernels(fault, body.elliptic)?,
    };
    let negative = body.target < 0.0 && fault == Fault::NegativeTargetRefused;
    if outside(fault, body.target, 1e30) || negative {
        return Err(17);
    }
    if outside(fault, body.density, 1e30) && fault != Fault::DensityNotJudged {
        return Err(17);
    }
    Ok((triangles, [cauchy, elliptic]))
}

fn filled(fault: Fault, body: &Body, floats: &mut [f64], out: &mut [u8]) -> Result<u64, u64> {
    let has = |planted: Fault| fault == planted;
    let g = body.grid as usize;
    let bad_grid = g == 0 || g > 256 + usize::from(has(Fault::GridOf257));
    let floats_short = |triangles: usize| {
        let spare = usize::from(has(Fault::FloatShort));
        floats.len() + spare < triangles
    };
    if has(Fault::SeventeenBeforeThree) {
        judged(fault, body)?;
    }
    if bad_grid {
        return Err(3);
    }
    if has(Fault::EightBeforeSeventeen) && floats_short(body.triangles.len() / 72) {
        return Err(8);
    }
    let (triangles, kernels) = judged(fault, body)?;
    let capacity = match fault {
        Fault::CapacityRoundedDown => g.pow(3) / 2,
        Fault::AllCellsFit => g.pow(3),
        _ => g.pow(3).div_ceil(2),
    };
    let out_short = out.len() < 64 + 16 * g.pow(3).div_ceil(2) && !has(Fault::NineByCount);
    if has(Fault::NineBeforeEight) && out_short {
        return Err(9);
    }
    if floats_short(triangles.len()) {
        return Err(8);
    }
    let mut work = Work::new(fault, triangles.as_flattened(), g as f64);
    if has(Fault::NineteenBeforeNine) && work.is_flat() {
        return Err(19);
    }
    if out_short {
        return Err(9);
    }
    if work.is_flat() && !has(Fault::EighteenBeforeNineteen) {
        return Err(19);
    }
    let mut room = floats.to_vec();
    room.resize(triangles.len(), 0.0);
    let mut file = vec![0; 64 + 16 * g.pow(3)];
    let plain = Plain::new(fault, triangles);
    for number in 0..g.pow(3) {
        let mut cell = [number % g, number / g % g, number / g / g];
        if has(Fault::XOutermost) {
            cell.reverse();
        }
        let point = work.middle(cell);
        if !plain.inside(point, &mut room) {
            continue;
        }
        if work.count == capacity && !has(Fault::TwentyBeforeEighteen) {
            return Err(18);
        }
        let masses = [0, 1].map(|list| work.density(&kernels[list], point) * work.volume);
        let finite = masses.iter().all(|&mass| (mass as f32).is_finite());
        if has(Fault::TwentyInTheLoop) && !finite {
            return Err(20);
        }
        work.add(cell, masses, &mut file);
    }
    if work.is_flat() {
        return Err(19);
    }
    work.finish(body, &mut file);
    let length = 64 + 16 * work.count;
    if !work.is_finite(&file[..length]) {
        return Err(20);
    }
    if work.count > capacity {
        return Err(18);
    }
    if out.len() < length {
        return Err(9);
    }
    out[..length].copy_from_slice(&file[..length]);
    Ok(length as u64)
}
