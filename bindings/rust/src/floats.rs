//! The floats of a point file's tree in binary64, as build works them out before it narrows them.

#[cfg(test)]
mod tests;

use crate::boxes::{Cells, Metres};
use crate::ffi::in_default_mode;
use crate::{cells, narrow, Header, Point, Points};
use std::fmt;
use std::ops::Range;

macro_rules! fields {
    ($($name:ident = $offset:literal, $words:literal, $value:literal;)*) => {
        /// One of the fifteen floats of a node, in the order of its record.
        #[derive(Clone, Copy, Debug, PartialEq, Eq, PartialOrd, Ord, Hash)]
        pub enum Field {
            $(
                #[doc = concat!("The ", $words, ", at byte ", $offset, ".")]
                $name,
            )*
        }

        impl Field {
            /// All of them.
            pub const ALL: [Field; 15] = [$(Field::$name),*];

            /// The name in words.
            pub const fn name(self) -> &'static str {
                match self {
                    $(Field::$name => $words,)*
                }
            }

            /// The first byte in a node's record, from 0.
            pub const fn offset(self) -> usize {
                match self {
                    $(Field::$name => $offset,)*
                }
            }

            /// What stands before the value, in words.
            const fn before_value(self) -> &'static str {
                match self {
                    $(Field::$name => $value,)*
                }
            }
        }
    };
}

fields! {
    BoxCenterX = 0, "box centre x", "the box's middle lies at x =";
    BoxCenterY = 4, "box centre y", "the box's middle lies at y =";
    BoxCenterZ = 8, "box centre z", "the box's middle lies at z =";
    Half = 12, "half", "half of the box's longest edge is";
    CauchySum = 16, "Cauchy sum", "the Cauchy masses add up to";
    EllipticSum = 20, "elliptic sum", "the elliptic masses add up to";
    CauchyCenterX = 32, "Cauchy centre x", "the centre of the Cauchy masses lies at x =";
    CauchyCenterY = 36, "Cauchy centre y", "the centre of the Cauchy masses lies at y =";
    CauchyCenterZ = 40, "Cauchy centre z", "the centre of the Cauchy masses lies at z =";
    EllipticCenterX = 48, "elliptic centre x", "the centre of the elliptic masses lies at x =";
    EllipticCenterY = 52, "elliptic centre y", "the centre of the elliptic masses lies at y =";
    EllipticCenterZ = 56, "elliptic centre z", "the centre of the elliptic masses lies at z =";
    ConstantCenterX = 64, "constant centre x", "the centre of the points lies at x =";
    ConstantCenterY = 68, "constant centre y", "the centre of the points lies at y =";
    ConstantCenterZ = 72, "constant centre z", "the centre of the points lies at z =";
}

impl Field {
    /// Whether it is a sum of masses, in kilograms; else it is in metres.
    pub const fn is_sum(self) -> bool {
        matches!(self, Field::CauchySum | Field::EllipticSum)
    }

    /// The mass of a point by which it is worked out, none where that is by no mass.
    pub const fn mass_of(self, point: &Point) -> Option<f32> {
        match self {
            Field::CauchySum
            | Field::CauchyCenterX
            | Field::CauchyCenterY
            | Field::CauchyCenterZ => Some(point.cauchy_mass),
            Field::EllipticSum
            | Field::EllipticCenterX
            | Field::EllipticCenterY
            | Field::EllipticCenterZ => Some(point.elliptic_mass),
            _ => None,
        }
    }
}

impl fmt::Display for Field {
    fn fmt(&self, f: &mut fmt::Formatter<'_>) -> fmt::Result {
        f.write_str(self.name())
    }
}

/// A float of a point file's tree in binary64, as build works it out and narrows it, or refuses the file (22) where it is too large.
///
/// ```
/// use mascon::{shapes, Field, Model, Refusal};
///
/// let mut model = Model::open(&shapes::empty_file(8, [0.0; 3], [8.0; 3]))?;
/// model.put(0, 3, 7, f32::MAX, 1.0)?;
/// model.put(1, 5, 7, f32::MAX, 1.0)?;
/// let error = model.tree().unwrap_err();
/// assert_eq!(error, Refusal::FloatTooLarge);
/// let float = error.too_large.unwrap();
/// assert_eq!((float.node, float.low, float.high), (0, [0; 3], [7; 3]));
/// assert_eq!((float.field, float.value), (Field::CauchySum, 2.0 * f64::from(f32::MAX)));
/// assert_eq!(
///     float.to_string(),
///     "node 0, cells (0, 0, 0) to (7, 7, 7): the Cauchy masses add up to 6.805646932770577e38 kg"
/// );
/// # Ok::<(), Refusal>(())
/// ```
#[derive(Clone, Copy, Debug, PartialEq)]
pub struct TreeFloat {
    /// The node's place in preorder, from 0.
    pub node: u32,
    /// The first cell of its box.
    pub low: [u32; 3],
    /// The last cell of its box.
    pub high: [u32; 3],
    /// Which float of the node.
    pub field: Field,
    /// Its value, in kilograms or metres.
    pub value: f64,
}

impl TreeFloat {
    /// Whether it is too large for binary32: from magnitude 2^128 − 2^103 up.
    pub fn is_too_large(&self) -> bool {
        narrow(self.value).is_none()
    }

    /// Of the model's points those in the node's box with the greatest masses in magnitude, by which the float is worked out: so many
    /// of them, the greatest first, equal ones as they come. None where it is worked out by no mass.
    ///
    /// ```
    /// use mascon::{shapes, Model};
    ///
    /// let mut model = Model::open(&shapes::empty_file(8, [0.0; 3], [8.0; 3]))?;
    /// for (x, mass) in (0..).zip([3.0e38, 1.0, 2.0e38]) {
    ///     model.put(x, 0, 0, mass, 0.0)?;
    /// }
    /// let heaviest = model.greatest_float().heaviest(model.points(), 2);
    /// assert!(heaviest.iter().map(|point| point.x).eq([0, 2]));
    /// # Ok::<(), mascon::Refusal>(())
    /// ```
    pub fn heaviest(&self, points: impl Iterator<Item = Point>, most: usize) -> Vec<Point> {
        let weight = |point: &Point| self.field.mass_of(point).map(f32::abs);
        let weighs = |point: &Point| {
            let mut cell = [point.x, point.y, point.z].into_iter().enumerate();
            let within = |(axis, at)| (self.low[axis]..=self.high[axis]).contains(&at);
            weight(point).is_some() && cell.all(within)
        };
        let mut heaviest: Vec<Point> = Vec::new();
        for point in points.filter(weighs) {
            let at = heaviest.partition_point(|other| weight(other) >= weight(&point));
            if at < most {
                heaviest.insert(at, point);
                heaviest.truncate(most);
            }
        }
        heaviest
    }

    /// The cells of its box, in words.
    pub(crate) fn cells(&self) -> String {
        let ([x, y, z], [to_x, to_y, to_z]) = (self.low, self.high);
        format!("cells ({x}, {y}, {z}) to ({to_x}, {to_y}, {to_z})")
    }

    /// The one that is greater in magnitude, of equal ones the first.
    fn or_greater(self, other: TreeFloat) -> TreeFloat {
        let greater = other.value.abs().total_cmp(&self.value.abs()).is_gt();
        if greater {
            other
        } else {
            self
        }
    }
}

impl fmt::Display for TreeFloat {
    fn fmt(&self, f: &mut fmt::Formatter<'_>) -> fmt::Result {
        let TreeFloat {
            node, field, value, ..
        } = self;
        let (cells, words) = (self.cells(), field.before_value());
        let unit = if field.is_sum() { "kg" } else { "m" };
        write!(f, "node {node}, {cells}: {words} {value:e} {unit}")
    }
}

/// What a box's points add up to.
#[derive(Default)]
struct Sums {
    count: u32,
    masses: [f64; 2],
    /// Coordinates times Cauchy mass, times elliptic mass, and alone.
    moments: [[f64; 3]; 3],
}

impl Sums {
    /// In the order of the points.
    fn of(points: impl Iterator<Item = Point>) -> Sums {
        let mut sums = Sums::default();
        for point in points {
            sums.count += 1;
            let masses = [point.cauchy_mass, point.elliptic_mass].map(f64::from);
            for (i, mass) in masses.into_iter().enumerate() {
                sums.masses[i] += mass;
            }
            for (axis, at) in [point.x, point.y, point.z].into_iter().enumerate() {
                let at = f64::from(at);
                sums.moments[0][axis] += at * masses[0];
                sums.moments[1][axis] += at * masses[1];
                sums.moments[2][axis] += at;
            }
        }
        sums
    }

    /// The centres of the Cauchy masses, the elliptic masses and the points, counted in cells.
    fn centers(&self, Cells { low, high }: Cells) -> [[f64; 3]; 3] {
        if self.count == 0 {
            return [[0.0; 3]; 3];
        }
        let middle = [0, 1, 2].map(|axis| f64::from(low[axis] + high[axis] - 1) * 0.5);
        let [cauchy, elliptic, constant] = self.moments;
        let center = |moment: [f64; 3], sum: f64| match sum.abs() > 1e-30 {
            true => moment.map(|moment| moment / sum),
            false => middle,
        };
        let count = f64::from(self.count);
        [
            center(cauchy, self.masses[0]),
            center(elliptic, self.masses[1]),
            constant.map(|moment| moment / count),
        ]
    }
}

/// A node as it is worked out.
struct Worked {
    place: u32,
    cells: Cells,
    floats: [f64; 15],
}

impl Worked {
    fn of(place: u32, cells: Cells, sums: &Sums, metres: &Metres) -> Worked {
        let mut floats = [metres.half(cells); 15];
        floats[..3].copy_from_slice(&metres.center(cells));
        floats[4..6].copy_from_slice(&sums.masses);
        for (i, center) in sums.centers(cells).into_iter().enumerate() {
            floats[6 + 3 * i..9 + 3 * i].copy_from_slice(&metres.place(center));
        }
        Worked {
            place,
            cells,
            floats,
        }
    }

    fn floats(&self) -> [TreeFloat; 15] {
        let Cells { low, high } = self.cells;
        Field::ALL.map(|field| TreeFloat {
            node: self.place,
            low,
            high: high.map(|end| end - 1),
            field,
            value: self.floats[field as usize],
        })
    }

    fn greatest(&self) -> TreeFloat {
        let [first, others @ ..] = self.floats();
        others.into_iter().fold(first, TreeFloat::or_greater)
    }
}

/// No record: a file has fewer.
const NONE: u32 = u32::MAX;

/// The nodes of a file's tree in preorder, by one walk over its boxes. The file is one that open accepts.
struct Nodes<'a> {
    file: &'a [u8],
    metres: Metres,
    /// Of each box that is still to be visited its records, z outermost, x innermost.
    records: Vec<u32>,
    /// These boxes, the next one last, each with its part of the records.
    open: Vec<(Cells, Range<usize>)>,
    /// The upper half's records, while a box is parted.
    upper: Vec<u32>,
    next: u32,
}

impl<'a> Nodes<'a> {
    fn of(file: &'a [u8]) -> Nodes<'a> {
        let header = Header::of(file);
        // By cell number, as the root's box is visited.
        let mut records = vec![NONE; cells(header.grid)];
        for (record, point) in (0..).zip(Points::of(file)) {
            if let Some(cell) = point.cell(header.grid) {
                records[cell as usize] = record;
            }
        }
        records.retain(|&record| record != NONE);
        Nodes {
            file,
            metres: Metres::of(&header),
            open: vec![(Cells::whole(header.grid), 0..records.len())],
            records,
            upper: Vec::new(),
            next: 0,
        }
    }
}

impl Nodes<'_> {
    /// Parts a box's records into those of its halves, both in the order of the visit; where the upper half's begin.
    fn halve(&mut self, part: Range<usize>, cells: Cells) -> usize {
        let (axis, middle) = cells.split();
        let mut lower = part.start;
        self.upper.clear();
        for i in part.clone() {
            let record = self.records[i];
            let Point { x, y, z, .. } = Point::at(self.file, record as usize);
            if [x, y, z][axis] < middle {
                self.records[lower] = record;
                lower += 1;
            } else {
                self.upper.push(record);
            }
        }
        self.records[lower..part.end].copy_from_slice(&self.upper);
        lower
    }
}

impl Iterator for Nodes<'_> {
    type Item = Worked;

    fn next(&mut self) -> Option<Worked> {
        let (cells, part) = self.open.pop()?;
        let place = self.next;
        self.next += 1;
        let points = self.records[part.clone()].iter();
        let sums = Sums::of(points.map(|&record| Point::at(self.file, record as usize)));
        if sums.count > 0 && !cells.is_leaf(sums.count) {
            let [left, right] = cells.halves();
            let middle = self.halve(part.clone(), cells);
            self.open.push((right, middle..part.end));
            self.open.push((left, part.start..middle));
        }
        Some(Worked::of(place, cells, &sums, &self.metres))
    }
}

/// Gives each float that is too large to a function, in preorder, a node's in the order of its record, until this answers false.
pub(crate) fn each_too_large(file: &[u8], mut found: impl FnMut(TreeFloat) -> bool) {
    in_default_mode(|| {
        Nodes::of(file)
            .filter(|node| node.greatest().is_too_large())
            .flat_map(|node| node.floats())
            .filter(TreeFloat::is_too_large)
            .all(&mut found);
    });
}

/// The first of them.
pub(crate) fn first_too_large(file: &[u8]) -> Option<TreeFloat> {
    let mut first = None;
    each_too_large(file, |float| {
        first = Some(float);
        false
    });
    first
}

/// The float of a file's tree that is greatest in magnitude, of equal ones the first.
pub(crate) fn greatest(file: &[u8]) -> TreeFloat {
    in_default_mode(|| {
        let each = Nodes::of(file).map(|node| node.greatest());
        each.reduce(TreeFloat::or_greater).expect("a root")
    })
}
