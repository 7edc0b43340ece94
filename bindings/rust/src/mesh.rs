//! A mesh looked at before it is filled: whether it is closed, what its shells enclose, where they touch, and what a grid makes of it.
//!
//! A ray runs along +X from each cell's middle, and crossings at one distance count once. So where two shells touch, a ray that passes
//! through the touching point leaves one shell and enters the other in one crossing, and the cells before it are judged wrongly. What
//! is foretold here follows the library's rule, but it is the library that judges.

use crate::{cells, ffi, Triangle, MAX_GRID};
use std::collections::{HashMap, HashSet};

type Vec3 = [f64; 3];

/// The shell of a triangle that has none, as two of its corners are one.
const NO_SHELL: u32 = u32::MAX;
/// The shells that are not closed, judged as one.
const OPEN: u32 = u32::MAX - 1;
/// How many pairs of a triangle and a row are looked at: far more than a body's surface has at the finest grid.
const MOST_PAIRS: usize = 1 << 24;

/// Least and greatest coordinates of a mesh; least above greatest where it has no triangle.
///
/// ```
/// use mascon::{mesh, shapes};
///
/// let ball = shapes::lumpy_sphere([0.0; 3], 100.0, 0.0, 8);
/// assert_eq!(mesh::bounds(&ball).1[0], 100.0);
/// ```
pub fn bounds(triangles: &[Triangle]) -> ([f64; 3], [f64; 3]) {
    let mut ends = ([f64::INFINITY; 3], [f64::NEG_INFINITY; 3]);
    for triangle in triangles {
        widen(&mut ends, triangle);
    }
    ends
}

fn widen((min, max): &mut (Vec3, Vec3), triangle: &Triangle) {
    for corner in [triangle.a, triangle.b, triangle.c] {
        for axis in 0..3 {
            min[axis] = min[axis].min(corner[axis]);
            max[axis] = max[axis].max(corner[axis]);
        }
    }
}

/// A triangle that widens a mesh's box by so many metres on each side and is met by no ray, as it has no area: its determinant is 0.
///
/// ```
/// use mascon::{is_inside, mesh, shapes};
///
/// let mut ball = shapes::lumpy_sphere([0.0; 3], 100.0, 0.0, 8);
/// ball.push(mesh::widening(&ball, 50.0));
/// assert_eq!(mesh::bounds(&ball), ([-150.0; 3], [150.0; 3]));
/// assert_eq!(is_inside(&ball, [-120.0, 3.0, 7.0]), Ok(false));
/// ```
pub fn widening(triangles: &[Triangle], metres: f64) -> Triangle {
    let (min, max) = bounds(triangles);
    let far = max.map(|x| x + metres);
    Triangle {
        a: min.map(|x| x - metres),
        b: far,
        c: far,
    }
}

/// Each corner's place among the distinct ones; 0 and -0 are one.
fn places(triangles: &[Triangle]) -> Vec<[u32; 3]> {
    let mut known: HashMap<[u64; 3], u32> = HashMap::with_capacity(triangles.len() / 2);
    let mut place = |corner: Vec3| {
        let next = known.len() as u32;
        *known
            .entry(corner.map(|x| (x + 0.0).to_bits()))
            .or_insert(next)
    };
    triangles
        .iter()
        .map(|t| [t.a, t.b, t.c].map(&mut place))
        .collect()
}

/// A side of a triangle: the places of its ends, and 3 × triangle + corner that it starts from.
type Side = (u64, u32);

/// The sides of all triangles but those with two corners in one place, sorted by their ends.
fn sides(places: &[[u32; 3]]) -> Vec<Side> {
    let mut sides = Vec::with_capacity(3 * places.len());
    for (i, place) in places.iter().enumerate() {
        if is_degenerate(place) {
            continue;
        }
        for corner in 0..3 {
            let (from, to) = (place[corner], place[(corner + 1) % 3]);
            let ends = u64::from(from.min(to)) << 32 | u64::from(from.max(to));
            sides.push((ends, (3 * i + corner) as u32));
        }
    }
    sides.sort_unstable();
    sides
}

fn is_degenerate([a, b, c]: &[u32; 3]) -> bool {
    a == b || b == c || c == a
}

/// The sides by the edge that they share.
fn edges(sides: &[Side]) -> impl Iterator<Item = &[Side]> {
    sides.chunk_by(|a, b| a.0 == b.0)
}

/// How many edges belong to an odd number of triangles: 0 of a closed mesh.
pub(crate) fn open_edges(triangles: &[Triangle]) -> usize {
    let sides = sides(&places(triangles));
    edges(&sides).filter(|edge| edge.len() % 2 == 1).count()
}

/// Disjoint sets, each member turned against its set's root or not.
struct Sets {
    parent: Vec<u32>,
    turned: Vec<bool>,
}

impl Sets {
    fn new(size: usize) -> Sets {
        Sets {
            parent: (0..size as u32).collect(),
            turned: vec![false; size],
        }
    }

    /// A member's root, and whether it is turned against it.
    fn root(&mut self, member: u32) -> (u32, bool) {
        let (mut root, mut whole) = (member, false);
        while self.parent[root as usize] != root {
            whole ^= self.turned[root as usize];
            root = self.parent[root as usize];
        }
        let (mut at, mut left) = (member as usize, whole);
        while self.parent[at] != root {
            let own = std::mem::replace(&mut self.turned[at], left);
            at = std::mem::replace(&mut self.parent[at], root) as usize;
            left ^= own;
        }
        (root, whole)
    }

    fn join(&mut self, a: u32, b: u32, turned: bool) {
        let ((a, a_turned), (b, b_turned)) = (self.root(a), self.root(b));
        if a != b {
            self.parent[b as usize] = a;
            self.turned[b as usize] = a_turned ^ b_turned ^ turned;
        }
    }
}

/// How triangles hang together.
struct Joints {
    places: Vec<[u32; 3]>,
    /// Triangles, over edges that they share two by two; turned where they are wound the other way.
    sheets: Sets,
    /// Corners, 3 × triangle + corner, over the same edges.
    fans: Sets,
    /// The sides of edges with an odd number of triangles, and the number of these edges.
    open: (Vec<u32>, usize),
    /// A side of each edge with four triangles or more.
    crowded: Vec<u32>,
}

impl Joints {
    fn of(triangles: &[Triangle]) -> Joints {
        let joints = Joints::at(places(triangles));
        if joints.crowded.is_empty() {
            return joints;
        }
        // A mesh may list each triangle twice, for its two sides: a ray meets both at once.
        let once = Joints::at(without_copies(joints.places.clone()));
        if once.open.1 <= joints.open.1 {
            once
        } else {
            joints
        }
    }

    fn at(places: Vec<[u32; 3]>) -> Joints {
        let sides = sides(&places);
        let mut joints = Joints {
            sheets: Sets::new(places.len()),
            fans: Sets::new(3 * places.len()),
            places,
            open: (Vec::new(), 0),
            crowded: Vec::new(),
        };
        for edge in edges(&sides) {
            if edge.len() % 2 == 1 {
                joints.open.0.extend(edge.iter().map(|&(_, side)| side));
                joints.open.1 += 1;
                continue;
            }
            if edge.len() > 2 {
                joints.crowded.push(edge[0].1);
            }
            // Where shells share an edge, each has two neighbours in the mesh's order.
            for two in edge.chunks_exact(2) {
                joints.join(two[0].1, two[1].1);
            }
        }
        joints
    }

    fn join(&mut self, a: u32, b: u32) {
        let same_way = self.place(a) == self.place(b);
        let (b_from, b_to) = if same_way { (b, next(b)) } else { (next(b), b) };
        self.sheets.join(a / 3, b / 3, same_way);
        self.fans.join(a, b_from, false);
        self.fans.join(next(a), b_to, false);
    }

    /// The place of a corner.
    fn place(&self, corner: u32) -> u32 {
        self.places[corner as usize / 3][corner as usize % 3]
    }

    /// Corners, one for each place where more than one fan of triangles meets.
    fn pinched(&mut self) -> Vec<u32> {
        let mut first = vec![u32::MAX; 3 * self.places.len()];
        let (mut pinched, mut known) = (Vec::new(), HashSet::new());
        for corner in 0..3 * self.places.len() as u32 {
            if is_degenerate(&self.places[corner as usize / 3]) {
                continue;
            }
            let (fan, place) = (self.fans.root(corner).0, self.place(corner));
            let first = &mut first[place as usize];
            if *first == u32::MAX {
                *first = fan;
            } else if *first != fan && known.insert(place) {
                pinched.push(corner);
            }
        }
        pinched
    }
}

/// Each triangle that was listed before becomes degenerate.
fn without_copies(mut places: Vec<[u32; 3]>) -> Vec<[u32; 3]> {
    let mut known = HashSet::new();
    for place in &mut places {
        let mut key = *place;
        key.sort_unstable();
        if !known.insert(key) {
            *place = [0; 3];
        }
    }
    places
}

/// The corner after this one in its triangle.
fn next(corner: u32) -> u32 {
    corner / 3 * 3 + (corner + 1) % 3
}

fn corner(triangles: &[Triangle], corner: u32) -> Vec3 {
    let Triangle { a, b, c } = triangles[corner as usize / 3];
    [a, b, c][corner as usize % 3]
}

/// Triangles that hang together over edges which two of them share, or four and more, then two by two in the mesh's order.
#[derive(Clone, Copy, Debug, PartialEq)]
pub struct Shell {
    /// How many triangles it has.
    pub triangles: usize,
    /// Whether each of its edges has an even number of triangles.
    pub closed: bool,
    /// What it encloses, in cubic metres, however its triangles are wound; without meaning where it is not closed.
    pub volume: f64,
    /// Its least coordinates.
    pub min: [f64; 3],
    /// Its greatest coordinates.
    pub max: [f64; 3],
    /// In how many other shells it lies: a cavity has an odd number. Of shells that overlap, an estimate.
    pub depth: usize,
}

/// How a mesh would be filled.
#[derive(Clone, Copy, Debug, PartialEq, Eq)]
pub struct Preview {
    /// Cells whose middle lies inside.
    pub inside: usize,
    /// Cells that are judged otherwise than the closed shells one by one would have it, as their rays pass where shells touch.
    pub misjudged: usize,
    /// The rows of cells along x that these stand in.
    pub rows: usize,
}

/// What a mesh is like.
///
/// ```
/// use mascon::{mesh::Survey, shapes};
///
/// let (mesh, _) = shapes::contact_binary(8);
/// let survey = Survey::of(&mesh);
/// assert!(survey.is_closed());
/// assert_eq!((survey.shells.len(), survey.touching_points.len()), (2, 1));
/// assert!(survey.fills_box(32) < 0.5);
/// assert_eq!(survey.preview(33).unwrap().misjudged, 0);
/// ```
#[derive(Clone, Debug)]
pub struct Survey<'a> {
    triangles: &'a [Triangle],
    shell_of: Vec<u32>,
    /// How many edges belong to an odd number of triangles.
    pub open_edges: usize,
    /// Its shells, in the order of their first triangles.
    pub shells: Vec<Shell>,
    /// The least coordinates.
    pub min: [f64; 3],
    /// The greatest coordinates.
    pub max: [f64; 3],
    /// Corners in which two shells touch, or one touches itself. That a corner touches within a face is not found here, but
    /// [`preview`](Survey::preview) counts the cells that it costs.
    pub touching_points: Vec<[f64; 3]>,
    /// Edges that four triangles or more share, in which shells touch.
    pub touching_edges: Vec<[[f64; 3]; 2]>,
}

impl<'a> Survey<'a> {
    /// Looks at a mesh, in n log n steps: about a second for 2^20 triangles.
    pub fn of(triangles: &'a [Triangle]) -> Survey<'a> {
        ffi::in_default_mode(|| Survey::look(triangles))
    }

    fn look(triangles: &'a [Triangle]) -> Survey<'a> {
        let (min, max) = bounds(triangles);
        let mut joints = Joints::of(triangles);
        let pinched = joints.pinched();
        let mut survey = Survey {
            triangles,
            shell_of: Vec::new(),
            open_edges: joints.open.1,
            shells: Vec::new(),
            min,
            max,
            touching_points: pinched.iter().map(|&i| corner(triangles, i)).collect(),
            touching_edges: Vec::new(),
        };
        let ends = |&i: &u32| [i, next(i)].map(|i| corner(triangles, i));
        survey.touching_edges = joints.crowded.iter().map(ends).collect();
        survey.find_shells(&mut joints);
        if survey.shells.len() > 1 {
            survey.find_depths();
            survey.find_near_points(&joints.places);
        }
        survey
    }

    fn find_shells(&mut self, joints: &mut Joints) {
        let mut shell_at = vec![NO_SHELL; self.triangles.len()];
        let center = [0, 1, 2].map(|axis| (self.min[axis] + self.max[axis]) / 2.0);
        for (i, triangle) in self.triangles.iter().enumerate() {
            if is_degenerate(&joints.places[i]) {
                self.shell_of.push(NO_SHELL);
                continue;
            }
            let (root, turned) = joints.sheets.root(i as u32);
            let shell = &mut shell_at[root as usize];
            if *shell == NO_SHELL {
                *shell = self.shells.len() as u32;
                self.shells.push(Shell {
                    triangles: 0,
                    closed: true,
                    volume: 0.0,
                    min: [f64::INFINITY; 3],
                    max: [f64::NEG_INFINITY; 3],
                    depth: 0,
                });
            }
            self.shell_of.push(*shell);
            let shell = &mut self.shells[*shell as usize];
            let volume = signed_volume(triangle, center);
            let mut ends = (shell.min, shell.max);
            widen(&mut ends, triangle);
            (shell.min, shell.max) = ends;
            shell.triangles += 1;
            shell.volume += if turned { -volume } else { volume };
        }
        for side in &joints.open.0 {
            self.shells[self.shell_of[*side as usize / 3] as usize].closed = false;
        }
        for shell in &mut self.shells {
            shell.volume = shell.volume.abs();
        }
    }

    /// In how many others each shell lies, by a ray from the middle of its first triangle.
    fn find_depths(&mut self) {
        let mut starts: Vec<Option<Vec3>> = vec![None; self.shells.len()];
        for (i, t) in self.triangles.iter().enumerate() {
            if let Some(start) = starts.get_mut(self.shell_of[i] as usize) {
                start.get_or_insert([0, 1, 2].map(|x| (t.a[x] + t.b[x] + t.c[x]) / 3.0));
            }
        }
        let starts: Vec<Vec3> = starts.into_iter().flatten().collect();
        let bins = Bins::of(&starts, self.min, self.max);
        // Start, shell that is crossed, distance.
        let mut met: Vec<(u32, u32, f64)> = Vec::new();
        for (i, triangle) in self.triangles.iter().enumerate() {
            let shell = self.shell_of[i];
            if shell == NO_SHELL {
                continue;
            }
            bins.near(triangle, |start| {
                let distance = crossing(starts[start as usize], triangle);
                met.extend(
                    distance
                        .filter(|_| start != shell)
                        .map(|distance| (start, shell, distance)),
                );
            });
        }
        met.sort_unstable_by(|a, b| (a.0, a.1).cmp(&(b.0, b.1)).then(a.2.total_cmp(&b.2)));
        for crossed in met.chunk_by(|a, b| (a.0, a.1) == (b.0, b.1)) {
            let inside = is_odd(crossed.iter().map(|&(_, _, distance)| distance));
            self.shells[crossed[0].0 as usize].depth += usize::from(inside);
        }
    }

    /// Corners of closed shells that lie as near to another's as the rule tells crossings apart.
    fn find_near_points(&mut self, places: &[[u32; 3]]) {
        let widest = (0..3).map(|axis| self.max[axis] - self.min[axis]);
        let near = tolerance(widest.fold(0.0, f64::max), 0.0);
        let edge = 256.0 * near;
        let key = |corner: Vec3| corner.map(|x| (x / edge).floor() as i64);
        let mut bins: HashMap<[i64; 3], Vec<(u32, Vec3)>> = HashMap::new();
        let mut seen = vec![false; 3 * places.len()];
        for (i, place) in places.iter().enumerate() {
            let shell = self.shell_of[i];
            if shell == NO_SHELL || !self.shells[shell as usize].closed {
                continue;
            }
            for (corner_of, place) in place.iter().enumerate() {
                if std::mem::replace(&mut seen[*place as usize], true) {
                    continue;
                }
                let here = corner(self.triangles, (3 * i + corner_of) as u32);
                let (low, high) = (here.map(|x| x - near), here.map(|x| x + near));
                let close = |there: &(u32, Vec3)| {
                    there.0 != shell && (0..3).all(|x| (there.1[x] - here[x]).abs() <= near)
                };
                if around(key(low), key(high))
                    .any(|bin| bins.get(&bin).is_some_and(|bin| bin.iter().any(close)))
                {
                    self.touching_points.push(here);
                }
                let bin = bins.entry(key(here)).or_default();
                if bin.len() < 64 {
                    bin.push((shell, here));
                }
            }
        }
    }

    /// Whether each edge has an even number of triangles.
    pub fn is_closed(&self) -> bool {
        self.open_edges == 0
    }

    /// Whether shells touch in points or edges.
    pub fn touches(&self) -> bool {
        !self.touching_points.is_empty() || !self.touching_edges.is_empty()
    }

    /// What the closed shells enclose, in cubic metres: those in an odd number of others are cavities. Of shells that overlap, an
    /// estimate.
    pub fn volume(&self) -> f64 {
        let volume = |shell: &Shell| {
            if shell.depth.is_multiple_of(2) {
                shell.volume
            } else {
                -shell.volume
            }
        };
        let closed = self.shells.iter().filter(|shell| shell.closed);
        closed.map(volume).sum::<f64>().max(0.0)
    }

    /// The share of the filling's box that the volume takes: the mesh's box, moved outward by half its shortest extent ÷ grid.
    ///
    /// Where more than half of the cells lie inside, a fill is refused (18).
    pub fn fills_box(&self, grid: u32) -> f64 {
        Frame::of(self.min, self.max, grid).map_or(0.0, |frame| {
            let edge = |axis: usize| frame.cell[axis] * f64::from(grid);
            self.volume() / (edge(0) * edge(1) * edge(2))
        })
    }

    /// How the mesh would be filled, without the masses and in a small part of the time; where a crossing falls into the very middle
    /// of a cell, rounding may tell otherwise. None where the grid is not 1 to 256, the box is flat, or the triangles lie over each
    /// other so often that it would take long.
    pub fn preview(&self, grid: u32) -> Option<Preview> {
        self.preview_widened(grid, 0.0)
    }

    /// The same with the box widened by so many metres on each side, as by [`widening`].
    pub fn preview_widened(&self, grid: u32, metres: f64) -> Option<Preview> {
        ffi::in_default_mode(|| self.look_ahead(grid, metres))
    }

    fn look_ahead(&self, grid: u32, metres: f64) -> Option<Preview> {
        let min = self.min.map(|x| x - metres);
        let max = self.max.map(|x| x + metres);
        let frame = Frame::of(min, max, grid)?;
        let mut hits = self.hits(&frame, &Candidates::of(min, max))?;
        hits.sort_unstable_by(|a, b| a.row.cmp(&b.row).then(a.x.total_cmp(&b.x)));
        let mut preview = Preview {
            inside: 0,
            misjudged: 0,
            rows: 0,
        };
        for row in hits.chunk_by(|a, b| a.row == b.row) {
            let (inside, misjudged) = frame.judge(row);
            preview.inside += inside;
            preview.misjudged += misjudged;
            preview.rows += usize::from(misjudged > 0);
        }
        Some(preview)
    }

    /// Where the rows of middles cross the mesh; none where that is too often looked for.
    fn hits(&self, frame: &Frame, candidates: &Candidates) -> Option<Vec<Hit>> {
        let (mut hits, mut pairs) = (Vec::new(), 0);
        for (triangle, &shell) in self.triangles.iter().zip(&self.shell_of) {
            if shell == NO_SHELL {
                continue;
            }
            let ends = bounds(std::slice::from_ref(triangle));
            let [ys, zs] = [1, 2].map(|axis| frame.rows(axis, ends.0[axis], ends.1[axis]));
            pairs += ys.len() * zs.len();
            if pairs > MOST_PAIRS {
                return None;
            }
            let closed = self.shells[shell as usize].closed;
            let shell = if closed { shell } else { OPEN };
            for (z, y) in zs.flat_map(|z| ys.clone().map(move |y| (z, y))) {
                let start = frame.start(y, z);
                if candidates.has(ends, start) {
                    hits.extend(crossing(start, triangle).map(|distance| Hit {
                        row: z * frame.grid + y,
                        shell,
                        x: start[0] + distance,
                    }));
                }
            }
        }
        Some(hits)
    }

    /// Metres by which the box is to be widened on each side, so that not more than half of the cells lie inside; 0 where it is wide
    /// enough. None where [`preview`](Survey::preview) has none.
    ///
    /// ```
    /// use mascon::{mesh, mesh::Survey, shapes, Model, Refusal, Triangle};
    ///
    /// let mut block = shapes::cuboid([0.0; 3], [30.0, 20.0, 10.0]);
    /// assert_eq!(Model::fill(&block, &[], &[], 0.0, 1.0, 16).err(), Some(Refusal::TooManyPoints));
    /// let metres = Survey::of(&block).widening(16).unwrap();
    /// block.push(mesh::widening(&block, metres));
    /// assert!(Model::fill(&block, &[], &[], 0.0, 1.0, 16).is_ok());
    /// ```
    pub fn widening(&self, grid: u32) -> Option<f64> {
        let most = cells(grid.min(MAX_GRID)).div_ceil(2);
        if self.preview(grid)?.inside <= most {
            return Some(0.0);
        }
        let extents = (0..3).map(|axis| self.max[axis] - self.min[axis]);
        // By the volume, a cube of twice its size is wide enough.
        let wider = (2.0 * self.fills_box(grid)).cbrt() - 1.0;
        let mut metres = extents.fold(f64::INFINITY, f64::min) * (wider / 2.0).max(0.02);
        loop {
            metres = rounded_up(metres);
            if self.preview_widened(grid, metres)?.inside <= most {
                return Some(metres);
            }
            metres *= 1.2;
        }
    }
}

/// Up to two digits, in as few decimals.
fn rounded_up(x: f64) -> f64 {
    let digits = 1 - x.log10().floor() as i32;
    let power = 10.0_f64.powi(digits.abs());
    if digits < 0 {
        (x / power).ceil() * power
    } else {
        (x * power).ceil() / power
    }
}

/// Six times what triangle and a point enclose is their determinant.
fn signed_volume(triangle: &Triangle, from: Vec3) -> f64 {
    let [a, b, c] =
        [triangle.a, triangle.b, triangle.c].map(|x| [0, 1, 2].map(|axis| x[axis] - from[axis]));
    dot(a, cross(b, c)) / 6.0
}

fn dot(a: Vec3, b: Vec3) -> f64 {
    a[0] * b[0] + a[1] * b[1] + a[2] * b[2]
}

fn cross(a: Vec3, b: Vec3) -> Vec3 {
    [
        a[1] * b[2] - a[2] * b[1],
        a[2] * b[0] - a[0] * b[2],
        a[0] * b[1] - a[1] * b[0],
    ]
}

/// The rule's distance along +X to a triangle.
fn crossing(origin: Vec3, t: &Triangle) -> Option<f64> {
    let sub = |a: Vec3, b: Vec3| [a[0] - b[0], a[1] - b[1], a[2] - b[2]];
    let (e1, e2) = (sub(t.b, t.a), sub(t.c, t.a));
    let p = cross([1.0, 0.0, 0.0], e2);
    let determinant = dot(e1, p);
    if determinant.abs() < 1e-12 {
        return None;
    }
    let inverse = 1.0 / determinant;
    let s = sub(origin, t.a);
    let u = inverse * dot(s, p);
    let q = cross(s, e1);
    let v = inverse * q[0];
    let distance = inverse * dot(e2, q);
    ((0.0..=1.0).contains(&u) && v >= 0.0 && u + v <= 1.0 && distance > 1e-12).then_some(distance)
}

/// How near two crossings are taken for one.
fn tolerance(a: f64, b: f64) -> f64 {
    (8e-7 * a.abs().max(b.abs()).max(1.0)).max(1e-5)
}

/// Whether an odd number of ascending crossings is retained.
fn is_odd(crossings: impl Iterator<Item = f64>) -> bool {
    let (mut last, mut odd) = (None, false);
    for a in crossings {
        if last.is_none_or(|b| a - b > tolerance(a, b)) {
            odd = !odd;
            last = Some(a);
        }
    }
    odd
}

/// Every bin from low to high.
fn around(low: [i64; 3], high: [i64; 3]) -> impl Iterator<Item = [i64; 3]> {
    (low[0]..=high[0]).flat_map(move |x| {
        (low[1]..=high[1]).flat_map(move |y| (low[2]..=high[2]).map(move |z| [x, y, z]))
    })
}

/// Starts of rays, binned by y and z.
struct Bins {
    side: usize,
    min: Vec3,
    edge: Vec3,
    starts: Vec<Vec<u32>>,
}

impl Bins {
    fn of(starts: &[Vec3], min: Vec3, max: Vec3) -> Bins {
        let side = (starts.len() as f64).sqrt().ceil().clamp(1.0, 256.0) as usize;
        let mut bins = Bins {
            side,
            min,
            edge: [0, 1, 2].map(|axis| (max[axis] - min[axis]) / side as f64),
            starts: vec![Vec::new(); side * side],
        };
        for (i, start) in starts.iter().enumerate() {
            let bin = bins.index(2, start[2]) * side + bins.index(1, start[1]);
            bins.starts[bin].push(i as u32);
        }
        bins
    }

    fn index(&self, axis: usize, x: f64) -> usize {
        (((x - self.min[axis]) / self.edge[axis]) as usize).min(self.side - 1)
    }

    /// The starts in the bins that a triangle lies over.
    fn near(&self, triangle: &Triangle, mut each: impl FnMut(u32)) {
        let (min, max) = bounds(std::slice::from_ref(triangle));
        for z in self.index(2, min[2])..=self.index(2, max[2]) {
            for y in self.index(1, min[1])..=self.index(1, max[1]) {
                for &start in &self.starts[z * self.side + y] {
                    each(start);
                }
            }
        }
    }
}

/// The rule's cells, 96 to an axis of a slightly wider box: only triangles that reach into a ray's row of them are looked at, so that a
/// ray along a triangle's outermost edge may miss it by rounding.
struct Candidates {
    low: Vec3,
    high: Vec3,
}

impl Candidates {
    fn of(min: Vec3, max: Vec3) -> Candidates {
        let margin = [0, 1, 2].map(|axis| 1e-3 * (max[axis] - min[axis] + 1.0));
        Candidates {
            low: [0, 1, 2].map(|axis| min[axis] - margin[axis]),
            high: [0, 1, 2].map(|axis| max[axis] + margin[axis]),
        }
    }

    fn index(&self, axis: usize, x: f64) -> u32 {
        let scaled = (x - self.low[axis]) / (self.high[axis] - self.low[axis]) * 96.0;
        (scaled as u32).min(95)
    }

    /// Whether a ray from a start looks at a triangle between these ends.
    fn has(&self, (low, high): (Vec3, Vec3), start: Vec3) -> bool {
        [1, 2].iter().all(|&axis| {
            let [low, high, at] = [low, high, start].map(|x| self.index(axis, x[axis]));
            (low..=high).contains(&at)
        })
    }
}

/// A crossing of a row of middles.
struct Hit {
    row: u32,
    shell: u32,
    x: f64,
}

/// Where the cells of a filling lie.
struct Frame {
    grid: u32,
    min: Vec3,
    cell: Vec3,
}

impl Frame {
    /// None where the grid is not 1 to 256 or the box is flat.
    fn of(min: Vec3, max: Vec3, grid: u32) -> Option<Frame> {
        let extent = [0, 1, 2].map(|axis| max[axis] - min[axis]);
        let good = extent.iter().all(|&x| x.is_finite() && x > 0.0);
        (good && (1..=MAX_GRID).contains(&grid)).then(|| {
            let n = f64::from(grid);
            let pad = 0.5 * extent[0].min(extent[1]).min(extent[2]) / n;
            let (low, high) = (min.map(|x| x - pad), max.map(|x| x + pad));
            Frame {
                grid,
                min: low,
                cell: [0, 1, 2].map(|axis| (high[axis] - low[axis]) / n),
            }
        })
    }

    fn middle(&self, axis: usize, index: u32) -> f64 {
        self.min[axis] + (f64::from(index) + 0.5) * self.cell[axis]
    }

    /// The middles on an axis from low to high, with some slack for rounding.
    fn rows(&self, axis: usize, low: f64, high: f64) -> std::ops::Range<u32> {
        let scaled = |x: f64| (x - self.min[axis]) / self.cell[axis] - 0.5;
        let first = (scaled(low) - 1e-6).ceil().max(0.0) as u32;
        let end = (scaled(high) + 1e-6).floor() + 1.0;
        first..(end.max(0.0) as u32).min(self.grid)
    }

    /// A row's start, before its first cell.
    fn start(&self, y: u32, z: u32) -> Vec3 {
        [
            self.min[0] - self.cell[0],
            self.middle(1, y),
            self.middle(2, z),
        ]
    }

    /// Of the cells of a row, by its crossings: those inside, and those that each shell alone would have judged otherwise.
    fn judge(&self, hits: &[Hit]) -> (usize, usize) {
        let reach = hits[hits.len() - 1].x - self.min[0];
        let close = tolerance(reach, 0.0);
        let plain = hits.windows(2).all(|two| two[1].x - two[0].x > close);
        let (mut inside, mut misjudged) = (0, 0);
        for i in 0..self.grid {
            let middle = self.middle(0, i);
            let from = hits.partition_point(|hit| hit.x - middle <= 1e-12);
            let hits = &hits[from..];
            let odd = if plain {
                hits.len() % 2 == 1
            } else {
                is_odd(hits.iter().map(|hit| hit.x - middle))
            };
            inside += usize::from(odd);
            misjudged += usize::from(!plain && odd != odd_by_shells(hits, middle));
        }
        (inside, misjudged)
    }
}

/// Whether a point lies in an odd number of shells, each judged alone.
fn odd_by_shells(hits: &[Hit], middle: f64) -> bool {
    let mut shells: Vec<u32> = hits.iter().map(|hit| hit.shell).collect();
    shells.sort_unstable();
    shells.dedup();
    let odd = |&shell: &u32| {
        let own = hits.iter().filter(|hit| hit.shell == shell);
        is_odd(own.map(|hit| hit.x - middle))
    };
    shells.iter().filter(|shell| odd(shell)).count() % 2 == 1
}
