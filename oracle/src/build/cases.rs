//! Point files and lengths of buffers to build trees from, drawn by kind.

use crate::open::cases::{
    coordinate, coordinates_and_masses, file_length, finite, header, header_float, header_word,
    kind, later_causes, mass, mutated, not_read, nothing, one_in, pick, same_masses, several_of,
    short_buffers, shuffle, small_grid, sparse, up_to, with_records_of, word, Case, Kind, FINITE,
};
use crate::points::{point_file, Header, Record};
use crate::rng::Rng;
use crate::rule::tree::{pairs_of_words, points_of_nodes, scratch_words, tree};
use crate::rule::{cell_of, folded, HEADER, RECORD, TOO_LARGE};

/// Cells in ascending order, at a grid size.
type Shape = fn(&mut Rng, usize) -> Vec<usize>;

/// Masses for so many points, in cell order.
type Masses = fn(&mut Rng, usize) -> Vec<f32>;

/// What is made of the records of a file in working form; the number of those that count, from the first on.
type Form = fn(&mut Rng, &mut Vec<[u8; RECORD]>) -> usize;

pub(crate) const KINDS: [Kind; 28] = [
    kind("every grid size", 16_000, every_grid, nothing),
    kind("full grids", 1_200, full_grid, nothing),
    kind("touching balls", 8_000, balls, nothing),
    kind("rows and planes", 20_000, flat, nothing),
    kind("8 and 9 points", 40_000, near_a_leaf, nothing),
    kind("cancelling masses", 60_000, cancelling, nothing),
    kind("extreme masses", 40_000, extreme, nothing),
    kind("uneven boxes", 40_000, uneven, nothing),
    kind("repeated cells", 30_000, repeated, same_masses),
    kind("junk not read", 20_000, small, not_read),
    kind("large grids", 160, large, large_lengths),
    kind("header floats", 20_000, any_cells, header_float),
    kind("header words", 20_000, any_cells, header_word),
    kind("file lengths", 20_000, any_cells, file_length),
    kind("coordinates", 20_000, with_records, coordinate),
    kind("masses", 20_000, with_records, mass),
    kind(
        "6 and 7 together",
        20_000,
        with_records,
        coordinates_and_masses,
    ),
    kind("scratch lengths", 30_000, any_cause, scratch_length),
    kind("output lengths", 40_000, any_cells, output_length),
    kind("several causes", 60_000, any_cause, several),
    kind("mutated bytes", 40_000, any_cells, mutated),
    kind("21 and short buffers", 30_000, repeated, short_buffers),
    kind("too large", 40_000, too_large, nothing),
    kind("nearly too large", 60_000, nearly, nothing),
    kind("22 and other causes", 40_000, too_large, earlier_and_later),
    kind("sizes of scratch", 50_000, in_order, each_size),
    kind("nearly in working form", 50_000, in_order, each_form),
    kind("ends of words", 30_000, ends_of_words, pairs_alone),
];

/// Some are in working form still: nothing is done, or all is done past the records that count.
const FORMS: [Form; 12] = [
    kept, padded, swapped, kept, doubled, behind, by_x, last_first, fewer, any_order, padded,
    swapped,
];

/// Masses such as a body has.
const USUAL: [Masses; 3] = [positive, positive, moderate];

/// Masses that take each other away, wholly or nearly.
const CANCELLING: [Masses; 4] = [balanced, balanced, near_nothing, far];

/// Masses at the edges of what is finite.
const EXTREME: [Masses; 6] = [zeros, edges, huge, any, lesser_edges, moderate];

/// A file as it stands, with the words that it needs and just enough room for the tree of the folded one; build has no journal.
pub(crate) fn exact(file: Vec<u8>, grid: usize, records: usize) -> Case {
    let (_, built) = tree(&folded(&file));
    let words = scratch_words(&file);
    let mut case = Case::of(file, grid, records);
    case.scratch = words as usize;
    case.needed = built.answer as usize;
    case.out = case.needed;
    case.journal = 0;
    case
}

/// The words that a file needs in working form, and in any other.
fn sizes(grid: usize) -> [usize; 2] {
    [pairs_of_words(grid as u64) as usize, grid.pow(3)]
}

/// The good case of these records, with room, often more than enough: scratch is enough in any form, as damage may change it.
fn with_room(rng: &mut Rng, header: Header, records: &[Record]) -> Case {
    let file = point_file(header, records);
    let mut case = exact(file, header.grid as usize, records.len());
    let [pairs, cells] = sizes(case.grid);
    case.scratch = pairs.max(cells) + up_to(rng, 3);
    case.out += up_to(rng, 40);
    case.junk = word(rng);
    case
}

/// A record for each cell, in cell order.
fn records(rng: &mut Rng, grid: usize, cells: &[usize], masses: &[Masses]) -> Vec<Record> {
    let cauchy = pick(rng, masses)(rng, cells.len());
    let elliptic = pick(rng, masses)(rng, cells.len());
    let masses = cauchy.into_iter().zip(elliptic);
    cells
        .iter()
        .zip(masses)
        .map(|(&number, (cauchy_mass, elliptic_mass))| Record {
            cell: cell_of(grid as u64, number as u64),
            cauchy_mass,
            elliptic_mass,
        })
        .collect()
}

/// In cell order once in two, else the other way round, or in none.
fn reorder(rng: &mut Rng, records: &mut [Record]) {
    match rng.below(6) {
        0..3 => (),
        3 => records.reverse(),
        _ => shuffle(rng, records),
    }
}

/// A share of 1, in thousandths.
fn share(rng: &mut Rng) -> f64 {
    rng.below(1001) as f64 / 1000.0
}

/// A cube, a box that is longer one way than another, or one of any floats.
fn a_header(rng: &mut Rng, grid: usize) -> Header {
    match rng.below(3) {
        0 => Header::cube(grid as u32, pick(rng, &[1.0, 2.0, 3.0, 0.1, 1e-20, 1e30])),
        1 => {
            let min = [0; 3].map(|_| ((share(rng) - 0.5) * 1e4) as f32);
            let edges = [0; 3].map(|_| (share(rng) * 1e3 + 0.1) as f32);
            let max = [0, 1, 2].map(|axis| min[axis] + edges[axis]);
            Header {
                min,
                max,
                ..header(rng, grid)
            }
        }
        _ => header(rng, grid),
    }
}

/// The case of a shape at a grid size, with one of these kinds of masses.
fn drawn(rng: &mut Rng, grid: usize, shape: Shape, masses: &[Masses]) -> Case {
    let cells = shape(rng, grid);
    let mut records = records(rng, grid, &cells, masses);
    reorder(rng, &mut records);
    let header = a_header(rng, grid);
    with_room(rng, header, &records)
}

/// 1 to 24.
fn any_grid(rng: &mut Rng) -> usize {
    rng.range(1, 24) as usize
}

fn every_grid(rng: &mut Rng) -> Case {
    let grid = any_grid(rng);
    drawn(rng, grid, any_share, &USUAL)
}

fn full_grid(rng: &mut Rng) -> Case {
    let grid = any_grid(rng);
    drawn(rng, grid, all, &USUAL)
}

fn balls(rng: &mut Rng) -> Case {
    let grid = any_grid(rng);
    drawn(rng, grid, touching_balls, &USUAL)
}

fn flat(rng: &mut Rng) -> Case {
    let grid = any_grid(rng);
    drawn(rng, grid, rows_and_planes, &USUAL)
}

fn near_a_leaf(rng: &mut Rng) -> Case {
    let grid = any_grid(rng);
    drawn(rng, grid, near_eight, &USUAL)
}

/// Any shape up to grid size 12.
fn of_masses(rng: &mut Rng, masses: &[Masses]) -> Case {
    let grid = small_grid(rng);
    let shape = pick::<Shape>(rng, &[any_share, any_share, rows_and_planes, near_eight]);
    drawn(rng, grid, shape, masses)
}

fn cancelling(rng: &mut Rng) -> Case {
    of_masses(rng, &CANCELLING)
}

fn extreme(rng: &mut Rng) -> Case {
    of_masses(rng, &EXTREME)
}

fn small(rng: &mut Rng) -> Case {
    of_masses(rng, &USUAL)
}

/// Each cell once, mostly.
fn any_cells(rng: &mut Rng) -> Case {
    pick(rng, &[small, small, small, repeated])(rng)
}

/// A float too large once in four.
fn any_cause(rng: &mut Rng) -> Case {
    pick(rng, &[any_cells, any_cells, any_cells, too_large])(rng)
}

fn with_records(rng: &mut Rng) -> Case {
    with_records_of(rng, any_cells)
}

/// Any header floats and any masses.
fn uneven(rng: &mut Rng) -> Case {
    let grid = small_grid(rng);
    let cells = any_share(rng, grid);
    let records = records(rng, grid, &cells, &[positive, moderate, balanced]);
    let header = header(rng, grid);
    with_room(rng, header, &records)
}

/// Cells more than once, each time with other masses.
fn repeated(rng: &mut Rng) -> Case {
    let grid = small_grid(rng);
    let mut cells = any_share(rng, grid);
    if cells.is_empty() {
        cells.push(up_to(rng, grid.pow(3) - 1));
    }
    let mut records = records(rng, grid, &cells, &USUAL);
    reorder(rng, &mut records);
    for _ in 0..rng.range(1, 12) {
        let again = Record {
            cauchy_mass: finite(rng),
            elliptic_mass: finite(rng),
            ..pick(rng, &records)
        };
        let place = up_to(rng, records.len());
        records.insert(place, again);
    }
    let header = a_header(rng, grid);
    with_room(rng, header, &records)
}

/// A tree under way that one node is to make too large, or nearly: its records with usual masses, the points of its nodes by their indices,
/// nodes in preorder, and the list of masses that the node is to have.
struct Edge {
    header: Header,
    records: Vec<Record>,
    nodes: Vec<Vec<u32>>,
    elliptic: bool,
}

impl Edge {
    /// At least two points.
    fn drawn(rng: &mut Rng) -> Self {
        let grid = small_grid(rng).max(2);
        let shape = pick::<Shape>(rng, &[any_share, rows_and_planes, near_eight, near_eight]);
        let cells = std::iter::repeat_with(|| shape(rng, grid));
        let cells = cells.take(8).find(|cells| cells.len() > 1);
        let cells = cells.unwrap_or_else(|| all(rng, grid));
        let mut records = records(rng, grid, &cells, &[positive]);
        reorder(rng, &mut records);
        let header = a_header(rng, grid);
        Self {
            nodes: points_of_nodes(&point_file(header, &records)),
            header,
            records,
            elliptic: one_in(rng, 2),
        }
    }

    fn mass(&mut self, point: u32) -> &mut f32 {
        let record = &mut self.records[point as usize];
        match self.elliptic {
            true => &mut record.elliptic_mass,
            false => &mut record.cauchy_mass,
        }
    }

    /// The root, or mostly a node below it that has two points and not all of them, where there is one.
    fn node(&self, rng: &mut Rng) -> usize {
        let all = self.records.len();
        let below = 1..self.nodes.len();
        let fit = below.filter(|&node| (2..all).contains(&self.nodes[node].len()));
        let fit: Vec<usize> = fit.collect();
        match one_in(rng, 3) || fit.is_empty() {
            true => 0,
            false => pick(rng, &fit),
        }
    }

    /// A point that the node lacks and the least node round it that has more than it.
    fn besides(&self, node: usize) -> Option<u32> {
        let within = &self.nodes[node];
        let round = self.nodes[..node].iter().rev();
        let mut round = round.filter(|points| points.contains(&within[0]));
        round.find_map(|points| points.iter().copied().find(|p| !within.contains(p)))
    }

    /// The node's masses, of its first point, its last, then those between, as many as it has, and 0 elsewhere in it; the point besides
    /// gets a mass too.
    fn put(&mut self, node: usize, masses: &[f32], besides: f32) {
        let points = self.nodes[node].clone();
        points.iter().for_each(|&point| *self.mass(point) = 0.0);
        let last = points.len() - 1;
        let places = [0, last].into_iter().chain(1..last);
        for (place, &mass) in places.zip(masses) {
            *self.mass(points[place]) = mass;
        }
        if let Some(point) = self.besides(node) {
            *self.mass(point) = besides;
        }
    }

    /// The coordinates in cells of the centre of mass far outside that two masses with the sum 2^-24 give a node's ends: 1 at the first
    /// point, the float before 1 taken away at the last. All else is 0, and a 1 besides, so that the nodes round it have centres of their own.
    fn take_away(&mut self, node: usize) -> [f64; 3] {
        let all = 0..self.records.len() as u32;
        all.for_each(|point| *self.mass(point) = 0.0);
        self.put(node, &[1.0, -1f32.next_down()], 1.0);
        let points = &self.nodes[node];
        let [first, last] = [points[0], points[points.len() - 1]];
        let [a, b] = [first, last].map(|point| self.records[point as usize].cell.map(f64::from));
        [0, 1, 2].map(|axis| (a[axis] - b[axis]) * 16_777_216.0 + b[axis])
    }

    fn case(&self, rng: &mut Rng) -> Case {
        with_room(rng, self.header, &self.records)
    }
}

/// A node is too large, and mostly none round it: by a mass sum, or by a centre of mass while the sums are small.
fn too_large(rng: &mut Rng) -> Case {
    let mut edge = Edge::drawn(rng);
    let node = edge.node(rng);
    let sign = pick(rng, &[1.0, -1.0]);
    if one_in(rng, 3) {
        edge.take_away(node);
        let side = pick(rng, &[1e34, 1e36, f32::MAX]);
        edge.header.min = [pick(rng, &[0.0, -side, 1.0]); 3];
        edge.header.max = [side; 3];
    } else {
        let heavy = [f32::MAX, f32::MAX, 2f32.powi(127), 2.6e38];
        let masses = [0; 2].map(|_| sign * pick(rng, &heavy));
        edge.put(node, &masses, -masses[0]);
    }
    edge.case(rng)
}

/// 2^103 is a half unit of the greatest floats, 2^75 a unit of binary64 beside them. About half of these sums are too large, some of them
/// only where the node has no third point.
const NEAR: [[f32; 3]; 12] = {
    const MAX: f32 = f32::MAX;
    const HALF: f32 = f32::from_bits(0x7300_0000);
    const UNIT: f32 = f32::from_bits(0x6500_0000);
    const BINADE: f32 = f32::from_bits(0x7f00_0000);
    [
        [MAX, HALF, 0.0],
        [MAX, HALF, UNIT],
        [MAX, HALF, -UNIT],
        [MAX, HALF, -HALF],
        [MAX, HALF.next_down(), 0.0],
        [MAX, HALF.next_up(), 0.0],
        [BINADE, BINADE, -UNIT],
        [BINADE, BINADE, -HALF],
        [BINADE, BINADE.next_down(), 0.0],
        [MAX, MAX, -MAX],
        [MAX, -MAX, MAX],
        [MAX, 0.0, -0.0],
    ]
};

/// A mass sum or a centre of mass at the threshold, on either side of it; greatest masses that take each other away; the greatest box.
fn nearly(rng: &mut Rng) -> Case {
    let mut edge = Edge::drawn(rng);
    let node = edge.node(rng);
    let sign = pick(rng, &[1.0, -1.0]);
    match rng.below(8) {
        0..4 => {
            let masses = pick(rng, &NEAR).map(|mass| sign * mass);
            edge.put(node, &masses, -0.5 * masses[0]);
        }
        4..7 => {
            let centre = edge.take_away(node);
            let farthest = centre
                .map(|c| (c + 0.5).abs())
                .into_iter()
                .fold(0.0, f64::max);
            let side = (TOO_LARGE / farthest * f64::from(edge.header.grid)) as f32;
            let side = pick(rng, &[side, side, side, side.next_up(), side.next_down()]);
            (edge.header.min, edge.header.max) = ([0.0; 3], [side; 3]);
        }
        _ => (edge.header.min, edge.header.max) = ([f32::MIN; 3], [f32::MAX; 3]),
    }
    edge.case(rng)
}

/// The output short once in two, a record of a cell that a later one names once in two, scratch short once in four: 22 meets the causes before
/// it and after it.
fn earlier_and_later(rng: &mut Rng, number: usize, case: &mut Case) {
    short_buffers(rng, (number & 1) << 1, case);
    if number & 2 != 0 {
        let again = HEADER + RECORD * up_to(rng, case.records - 1);
        let cell = case.file[again..again + 6].to_vec();
        let first = [cell, vec![0; 10]].concat();
        case.file.splice(HEADER..HEADER, first);
        case.records += 1;
        let count = (case.records as u32).to_le_bytes();
        case.file[12..16].copy_from_slice(&count);
    }
    if number & 12 == 12 {
        case.scratch = pick(rng, &[0, scratch_words(&case.file) as usize - 1]);
    }
}

/// Any shape in cell order, at g 1, which needs more words in working form, and at others, which need fewer.
fn in_order(rng: &mut Rng) -> Case {
    let grid = pick(rng, &[1, 1, 2, 2, 3, 4, 5, 6, 8, 10]);
    let shape = pick::<Shape>(rng, &[any_share, rows_and_planes, near_eight]);
    ascending(rng, grid, shape)
}

/// The case of a shape at a grid size, its records in cell order.
fn ascending(rng: &mut Rng, grid: usize, shape: Shape) -> Case {
    let cells = shape(rng, grid);
    let records = records(rng, grid, &cells, &USUAL);
    let header = a_header(rng, grid);
    with_room(rng, header, &records)
}

/// Points in the first and the last cells of words of 32 and in the last of the grid.
fn ends_of_words(rng: &mut Rng) -> Case {
    let grid = pick(rng, &[3, 4, 4, 5, 5, 6, 7, 8, 12]);
    ascending(rng, grid, word_ends)
}

/// About a half or all of the cells at either end of a word, and none, a few or most of the others.
fn word_ends(rng: &mut Rng, grid: usize) -> Vec<usize> {
    let last = grid.pow(3) - 1;
    let [ends, others] = [pick(rng, &[4, 4, 8]), pick(rng, &[0, 0, 1, 7])];
    let is_end = |cell: usize| matches!(cell % 32, 0 | 1 | 30 | 31) || cell == last;
    let taken = |&cell: &usize| rng.below(8) < if is_end(cell) { ends } else { others };
    (0..=last).filter(taken).collect()
}

/// Makes this of a case's records, with junk behind them once in two, and lends what the file then needs.
fn make(rng: &mut Rng, form: Form, case: &mut Case) {
    let mut records = case.file[HEADER..].as_chunks().0.to_vec();
    let count = form(rng, &mut records);
    let mut file = [&case.file[..HEADER], records.as_flattened()].concat();
    file[12..16].copy_from_slice(&(count as u32).to_le_bytes());
    if one_in(rng, 2) {
        let more = rng.range(1, 40);
        file.extend((0..more).map(|_| rng.bits() as u8));
    }
    let junk = case.junk;
    *case = exact(file, case.grid, count);
    case.out += up_to(rng, 40);
    case.junk = junk;
}

/// Any form, with the words that a file in working form needs, that another needs, one less and one more, in turn.
fn each_size(rng: &mut Rng, number: usize, case: &mut Case) {
    let form = pick(rng, &FORMS);
    make(rng, form, case);
    let [pairs, cells] = sizes(case.grid);
    case.scratch = [pairs - 1, pairs, cells - 1, cells, pairs + 1][number % 5];
}

/// The forms in turn, with the words that a file in working form needs, or any number up to what another needs.
fn each_form(rng: &mut Rng, number: usize, case: &mut Case) {
    make(rng, FORMS[number % FORMS.len()], case);
    let [pairs, cells] = sizes(case.grid);
    let between = pairs.min(cells) + up_to(rng, pairs.abs_diff(cells));
    case.scratch = pick(rng, &[pairs, pairs, between]);
}

/// Just the words that a file in working form needs, or one more.
fn pairs_alone(_: &mut Rng, number: usize, case: &mut Case) {
    let [pairs, _] = sizes(case.grid);
    case.scratch = pairs + number % 2;
}

/// The place of one of so many: the first, the last, or any.
fn a_place(rng: &mut Rng, places: usize) -> Option<usize> {
    let last = places.checked_sub(1)?;
    let any = up_to(rng, last);
    Some(pick(rng, &[0, last, any]))
}

fn kept(_: &mut Rng, records: &mut Vec<[u8; RECORD]>) -> usize {
    records.len()
}

/// A pad of one record, or of all.
fn padded(rng: &mut Rng, records: &mut Vec<[u8; RECORD]>) -> usize {
    let any = word(rng) as u16 | 1;
    let pad = pick(rng, &[1, 0x80, 0x100, 0x8000, any]).to_le_bytes();
    match a_place(rng, records.len()) {
        Some(place) if !one_in(rng, 4) => records[place][6..8].copy_from_slice(&pad),
        _ => records
            .iter_mut()
            .for_each(|record| record[6..8].copy_from_slice(&pad)),
    }
    records.len()
}

/// Two neighbours the other way round.
fn swapped(rng: &mut Rng, records: &mut Vec<[u8; RECORD]>) -> usize {
    if let Some(place) = a_place(rng, records.len().saturating_sub(1)) {
        records.swap(place, place + 1);
    }
    records.len()
}

/// A record a second time beside itself, with the same masses or others.
fn doubled(rng: &mut Rng, records: &mut Vec<[u8; RECORD]>) -> usize {
    if let Some(place) = a_place(rng, records.len()) {
        let mut again = records[place];
        if one_in(rng, 2) {
            again[8..12].copy_from_slice(&finite(rng).to_le_bytes());
        }
        records.insert(place, again);
    }
    records.len()
}

/// x outermost, z innermost.
fn by_x(_: &mut Rng, records: &mut Vec<[u8; RECORD]>) -> usize {
    records.sort_by_key(|record| [0, 2, 4].map(|at| [record[at + 1], record[at]]));
    records.len()
}

/// The last record first.
fn last_first(_: &mut Rng, records: &mut Vec<[u8; RECORD]>) -> usize {
    let count = records.len();
    records.rotate_right(count.min(1));
    count
}

fn any_order(rng: &mut Rng, records: &mut Vec<[u8; RECORD]>) -> usize {
    shuffle(rng, records);
    records.len()
}

/// More behind the records that count: the same again, in some form.
fn behind(rng: &mut Rng, records: &mut Vec<[u8; RECORD]>) -> usize {
    let (count, mut more) = (records.len(), records.clone());
    let any = pick::<Form>(rng, &[kept, padded, doubled, any_order]);
    any(rng, &mut more);
    records.append(&mut more);
    count
}

/// Fewer count than there are, at times none; the others in some form.
fn fewer(rng: &mut Rng, records: &mut Vec<[u8; RECORD]>) -> usize {
    let count = pick(rng, &[0, 1, 1, 2]) * records.len() / 2;
    let count = count.saturating_sub(usize::from(count == records.len()));
    let mut others = records.split_off(count);
    let any = pick::<Form>(rng, &[padded, doubled, last_first, any_order]);
    any(rng, &mut others);
    records.append(&mut others);
    count
}

/// Grid sizes 25 to 64; a few at 192 and 256, with few points.
fn large(rng: &mut Rng) -> Case {
    if one_in(rng, 16) {
        let grid = pick(rng, &[192, 256]);
        return drawn(rng, grid, scattered, &USUAL);
    }
    let grid = if one_in(rng, 8) {
        64
    } else {
        rng.range(25, 48) as usize
    };
    let shape = pick::<Shape>(rng, &[scattered, touching_balls, near_eight, thin]);
    drawn(rng, grid, shape, &USUAL)
}

fn all(_: &mut Rng, grid: usize) -> Vec<usize> {
    (0..grid.pow(3)).collect()
}

/// None, a few, about a share of all, all.
fn any_share(rng: &mut Rng, grid: usize) -> Vec<usize> {
    match rng.below(16) {
        0 => Vec::new(),
        1 => all(rng, grid),
        2..6 => sparse(rng, grid, 12),
        6..10 => sparse(rng, grid, 60),
        _ => {
            let share = rng.range(1, 15);
            let cells = all(rng, grid).into_iter();
            cells.filter(|_| rng.below(16) < share).collect()
        }
    }
}

fn scattered(rng: &mut Rng, grid: usize) -> Vec<usize> {
    sparse(rng, grid, 400)
}

/// About a cell in twenty.
fn thin(rng: &mut Rng, grid: usize) -> Vec<usize> {
    let cells = all(rng, grid).into_iter();
    cells.filter(|_| one_in(rng, 20)).collect()
}

/// Two balls that touch, anywhere and of any size; what is outside the grid is cut off.
fn touching_balls(rng: &mut Rng, grid: usize) -> Vec<usize> {
    let side = grid as f64;
    let middle = [0; 3].map(|_| share(rng) * side);
    let radii = [0; 2].map(|_| (0.1 + 0.3 * share(rng)) * side);
    let way = [0; 3].map(|_| share(rng) - 0.5);
    let length = way.iter().map(|part| part * part).sum::<f64>().sqrt() + 1e-9;
    let other = [0, 1, 2].map(|axis| middle[axis] + way[axis] / length * (radii[0] + radii[1]));
    let within = |cell: [u16; 3], middle: [f64; 3], radius: f64| {
        let parts = [0, 1, 2].map(|axis| f64::from(cell[axis]) + 0.5 - middle[axis]);
        parts.iter().map(|part| part * part).sum::<f64>() < radius * radius
    };
    let either = |&number: &usize| {
        let cell = cell_of(grid as u64, number as u64);
        within(cell, middle, radii[0]) || within(cell, other, radii[1])
    };
    all(rng, grid).into_iter().filter(either).collect()
}

/// One to three rows or planes along the axes, whole or with gaps.
fn rows_and_planes(rng: &mut Rng, grid: usize) -> Vec<usize> {
    let mut taken = Vec::new();
    for _ in 0..rng.range(1, 3) {
        let at = [0; 3].map(|_| up_to(rng, grid - 1) as u16);
        let fixed = pick(
            rng,
            &[
                [true, true, false],
                [true, false, true],
                [false, true, true],
                [true, false, false],
                [false, true, false],
                [false, false, true],
            ],
        );
        taken.push((at, fixed));
    }
    let gaps = pick(rng, &[0, 0, 1, 3]);
    let has = |&number: &usize| {
        let cell = cell_of(grid as u64, number as u64);
        taken
            .iter()
            .any(|(at, fixed)| (0..3).all(|axis| !fixed[axis] || cell[axis] == at[axis]))
    };
    let cells = all(rng, grid).into_iter().filter(has);
    cells.filter(|_| rng.below(8) >= gaps).collect()
}

/// 7 to 10 points in each of one to four boxes, the whole grid or parts of it.
fn near_eight(rng: &mut Rng, grid: usize) -> Vec<usize> {
    let mut cells = Vec::new();
    for _ in 0..rng.range(1, 4) {
        let ends = [0; 3].map(|_| {
            let (a, b) = (up_to(rng, grid), up_to(rng, grid));
            if a == b || one_in(rng, 4) {
                (0, grid)
            } else {
                (a.min(b), a.max(b))
            }
        });
        for _ in 0..rng.range(7, 10) {
            let [x, y, z] = ends.map(|(low, high)| low + up_to(rng, high - low - 1));
            cells.push((z * grid + y) * grid + x);
        }
    }
    cells.sort_unstable();
    cells.dedup();
    cells
}

/// Above 0, of about one size.
fn positive(rng: &mut Rng, points: usize) -> Vec<f32> {
    let size = pick(rng, &[1.0, 1e-3, 1e9, 1e-25]);
    let mass = |_| size * (0.5 + rng.below(1 << 24) as f32 / 1.6e7);
    (0..points).map(mass).collect()
}

/// Any float that is finite, and few points are enough for a sum too large.
fn any(rng: &mut Rng, points: usize) -> Vec<f32> {
    (0..points).map(|_| finite(rng)).collect()
}

/// Any float below 2^100: no sum of them is too large.
fn moderate(rng: &mut Rng, points: usize) -> Vec<f32> {
    let mass = |_| match finite(rng) {
        mass if mass.abs() < 2f32.powi(100) => mass,
        mass => mass * 2f32.powi(-100),
    };
    (0..points).map(mass).collect()
}

fn zeros(rng: &mut Rng, points: usize) -> Vec<f32> {
    (0..points).map(|_| pick(rng, &[0.0, -0.0])).collect()
}

fn edges(rng: &mut Rng, points: usize) -> Vec<f32> {
    (0..points)
        .map(|_| f32::from_bits(pick(rng, &FINITE)))
        .collect()
}

/// The same without the greatest.
fn lesser_edges(rng: &mut Rng, points: usize) -> Vec<f32> {
    let (lesser, _) = FINITE.split_at(FINITE.len() - 2);
    (0..points)
        .map(|_| f32::from_bits(pick(rng, lesser)))
        .collect()
}

/// Sums that are too large, or nearly: the greatest float and others near it, mostly of one sign.
fn huge(rng: &mut Rng, points: usize) -> Vec<f32> {
    let sign = pick(rng, &[1.0, -1.0]);
    let of = [f32::MAX, f32::MAX / 2.0, 1.2e31, -f32::MAX, 0.0];
    (0..points)
        .map(|_| sign * of[pick(rng, &[0, 0, 1, 2, 3, 4])])
        .collect()
}

/// Whole multiples of a power of two, with the sum 0; once 2^-100 is below 1e-30, twice is above.
fn balanced(rng: &mut Rng, points: usize) -> Vec<f32> {
    let unit = 2f32.powi(pick(rng, &[0, -100, -126, 100]));
    let mut times: Vec<i64> = (0..points).map(|_| rng.below(9) as i64 - 4).collect();
    let sum: i64 = times.iter().sum();
    if let Some(last) = times.last_mut() {
        *last -= sum;
    }
    times.iter().map(|&n| n as f32 * unit).collect()
}

/// Zeros of both signs and up to three masses whose sum is 1e-30, itself a multiple of 2^-149, or the multiple before or after
/// it, of either sign.
fn near_nothing(rng: &mut Rng, points: usize) -> Vec<f32> {
    let unit = f64::from(f32::from_bits(1));
    let multiple = 1e-30 / unit + rng.below(3) as f64 - 1.0;
    let mut rest = multiple * unit * pick(rng, &[1.0, -1.0]);
    let mut masses = zeros(rng, points);
    let start = up_to(rng, points.saturating_sub(3));
    for mass in masses.iter_mut().skip(start).take(3) {
        *mass = rest as f32;
        rest -= f64::from(*mass);
    }
    masses
}

/// Pairs that cancel and a small rest: moments far greater than the sum, centres far outside.
fn far(rng: &mut Rng, points: usize) -> Vec<f32> {
    let size = pick(rng, &[1.0, 1e10, 1e30, f32::MAX]);
    let paired = points.saturating_sub(1) & !1;
    let mut masses = vec![0.0; points];
    for pair in masses[..paired].chunks_mut(2) {
        pair.copy_from_slice(&[size, -size]);
    }
    if let Some(last) = masses.last_mut() {
        *last = pick(rng, &[0.0, 1e-29, 1e-31, -1e-20, 1.0]);
    }
    masses
}

/// Scratch of every length that a mistaken rule could ask for, of a file in working form or of another.
fn scratch_length(rng: &mut Rng, number: usize, case: &mut Case) {
    let [pairs, cells] = sizes(case.grid);
    let lengths = [
        pairs - 1,
        pairs,
        cells - 1,
        cells,
        0,
        1,
        pairs + 1,
        pairs + 2,
        cells + 1,
        cells + up_to(rng, 100),
        (2 * cells).div_ceil(32),
        cells / 32 * 2,
        cells.div_ceil(32),
        case.grid.pow(2),
        case.records,
        up_to(rng, cells - 1),
    ];
    case.scratch = lengths[number % lengths.len()];
    later_causes(rng, case);
}

/// A short buffer, or nothing.
fn large_lengths(rng: &mut Rng, number: usize, case: &mut Case) {
    match number % 8 {
        0 => scratch_length(rng, number / 8, case),
        1 => output_length(rng, number / 8, case),
        _ => (),
    }
}

/// Output one short, exact, longer, empty; short of a word, of a node, of the order; the point file's own length.
pub(crate) fn output_length(rng: &mut Rng, number: usize, case: &mut Case) {
    let (needed, whole) = (case.needed, case.whole());
    let lengths = [
        needed - 1,
        needed,
        needed + 1,
        needed + up_to(rng, 100),
        0,
        63,
        64,
        143,
        needed - 4,
        needed - 80,
        needed.saturating_sub(4 * case.records),
        whole,
        up_to(rng, needed - 1),
    ];
    case.out = lengths[number % lengths.len()];
}

fn several(rng: &mut Rng, _: usize, case: &mut Case) {
    several_of(rng, &[output_length, scratch_length], case);
}

#[cfg(test)]
mod tests {
    use super::*;
    use crate::rule::{judge, working};
    use std::collections::BTreeSet;

    /// Sums in any order of what a drawn list of masses holds.
    fn sums(masses: Masses, points: usize) -> Vec<f64> {
        let mut rng = Rng::new(points as u64);
        (0..200)
            .map(|_| masses(&mut rng, points).into_iter().map(f64::from).sum())
            .collect()
    }

    #[test]
    fn balanced_masses_have_the_sum_0() {
        for points in [2, 9, 60, 300] {
            assert!(sums(balanced, points).iter().all(|&sum| sum == 0.0));
        }
    }

    /// 1e-30 itself, and the sums of floats next to it, both signs.
    #[test]
    fn near_nothing_is_on_both_sides() {
        let unit = f64::from(f32::from_bits(1));
        let at = 1e-30 / unit;
        assert_eq!(at, at.floor());
        let seen: BTreeSet<i64> = sums(near_nothing, 9)
            .into_iter()
            .map(|sum| (sum / unit) as i64)
            .collect();
        let magnitudes = [at - 1.0, at, at + 1.0].map(|n| n as i64);
        let wanted = magnitudes.iter().flat_map(|&n| [n, -n]);
        assert_eq!(seen, wanted.collect::<BTreeSet<i64>>());
    }

    #[test]
    fn shapes_are_what_they_say() {
        let mut rng = Rng::new(5);
        let shapes: [Shape; 7] = [
            all,
            any_share,
            thin,
            touching_balls,
            rows_and_planes,
            near_eight,
            word_ends,
        ];
        for shape in shapes {
            for grid in 1..=24 {
                let cells = shape(&mut rng, grid);
                assert!(cells.is_sorted_by(|a, b| a < b));
                assert!(cells.last().is_none_or(|&last| last < grid.pow(3)));
            }
        }
        let sizes: Vec<usize> = (0..200).map(|_| near_eight(&mut rng, 12).len()).collect();
        assert!([7, 8, 9, 10].iter().all(|size| sizes.contains(size)));
        let balls: Vec<usize> = (0..50)
            .map(|_| touching_balls(&mut rng, 20).len())
            .collect();
        assert!(balls.iter().filter(|&&size| size > 500).count() > 25);
    }

    /// The forms, and whether each of a file of six cells is in working form, always or never.
    #[test]
    fn forms_are_what_they_say() {
        let cells = [1, 7, 12, 13, 25, 26].into_iter();
        let records = cells.map(|number| Record {
            cell: cell_of(3, number),
            cauchy_mass: 1.0,
            elliptic_mass: 0.0,
        });
        let file = point_file(Header::cube(3, 1.0), &records.collect::<Vec<_>>());
        let of = |form: Form, number: u64| {
            let mut case = exact(file.clone(), 3, 6);
            make(&mut Rng::new(number), form, &mut case);
            case
        };
        let forms: [(Form, bool); 8] = [
            (kept, true),
            (behind, true),
            (fewer, true),
            (padded, false),
            (swapped, false),
            (doubled, false),
            (by_x, false),
            (last_first, false),
        ];
        for (place, (form, works)) in forms.into_iter().enumerate() {
            for number in 0..200 {
                let case = of(form, number);
                assert_eq!(judge(&case.file), None);
                assert_eq!(working(&case.file), works, "form {place}");
                assert_eq!(case.scratch, if works { 2 } else { 27 });
            }
        }
        let counts: BTreeSet<usize> = (0..200).map(|number| of(fewer, number).records).collect();
        assert!(counts.into_iter().eq([0, 3, 5]));
        let more = (0..200).filter(|&number| of(behind, number).file.len() > 64 + 12 * 16);
        assert!(more.count() > 50);
    }
}
