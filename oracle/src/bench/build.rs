//! Building trees: the library beside the original on the same bytes.

use super::timed;
use crate::ffi::{self, Built};
use crate::original::{self, Answered};
use crate::points::{point_file, Header, Record};
use crate::rng::Rng;
use crate::rule::cell_of;
use crate::rule::tree::pairs_of_words;
use std::hint::black_box;
use std::time::Duration;

const RUNS: usize = 5;

/// One input: its grid size, and whether a cell is occupied.
struct Input {
    name: &'static str,
    grid: u32,
    occupied: fn(&mut Rng, u32, [u16; 3]) -> bool,
}

const INPUTS: [Input; 10] = [
    input("g 64, full", 64, full),
    input("g 128, full", 128, full),
    input("g 192, a ball of a fifth", 192, ball_of_a_fifth),
    input("g 192, full", 192, full),
    input("g 64, a fifth at random", 64, fifth_at_random),
    input("g 192, a fifth at random", 192, fifth_at_random),
    input("g 128, a ball of a fifth", 128, ball_of_a_fifth),
    input("g 128, a contact binary", 128, contact_binary),
    input("g 192, a contact binary", 192, contact_binary),
    input("g 256, one point", 256, one_point),
];

const fn input(
    name: &'static str,
    grid: u32,
    occupied: fn(&mut Rng, u32, [u16; 3]) -> bool,
) -> Input {
    Input {
        name,
        grid,
        occupied,
    }
}

fn full(_: &mut Rng, _: u32, _: [u16; 3]) -> bool {
    true
}

fn fifth_at_random(rng: &mut Rng, _: u32, _: [u16; 3]) -> bool {
    rng.below(5) == 0
}

/// The square of a cell's distance from a point, both in sides of the grid.
fn square_from(middle: [f64; 3], grid: u32, cell: [u16; 3]) -> f64 {
    let from = |i: u16, middle: f64| (f64::from(i) + 0.5) / f64::from(grid) - middle;
    let squares = cell
        .into_iter()
        .zip(middle)
        .map(|(i, m)| from(i, m).powi(2));
    squares.sum()
}

/// Whether a cell is in the ball round the grid's middle that has a fifth of the grid's volume.
fn ball_of_a_fifth(_: &mut Rng, grid: u32, cell: [u16; 3]) -> bool {
    let square = square_from([0.5; 3], grid, cell);
    square.powf(1.5) * std::f64::consts::PI * 4.0 / 3.0 < 0.2
}

/// Whether a cell is in one of two balls that touch, side by side along x: about a tenth of the grid.
fn contact_binary(_: &mut Rng, grid: u32, cell: [u16; 3]) -> bool {
    let ball = |x: f64, radius: f64| square_from([x, 0.5, 0.5], grid, cell) < radius * radius;
    ball(0.3, 0.25) || ball(0.75, 0.2)
}

/// Whether a cell is the one past the grid's middle.
fn one_point(_: &mut Rng, grid: u32, cell: [u16; 3]) -> bool {
    cell.map(u32::from) == [grid / 2; 3]
}

impl Input {
    /// The point file, its records in cell order.
    fn file(&self) -> Vec<u8> {
        let mut rng = Rng::new(u64::from(self.grid));
        let cells = (0..u64::from(self.grid.pow(3)))
            .map(|number| cell_of(u64::from(self.grid), number))
            .filter(|&cell| (self.occupied)(&mut rng, self.grid, cell));
        let record = |(number, cell): (u32, [u16; 3])| Record {
            cell,
            cauchy_mass: 1.0 + (number % 1000) as f32,
            elliptic_mass: 1.0,
        };
        let records: Vec<Record> = (0..).zip(cells).map(record).collect();
        point_file(Header::cube(self.grid, 8.0), &records)
    }
}

/// Best times: the library, the original, a plain copy of the file and the tree.
struct Times {
    library: Duration,
    original: Duration,
    copy: Duration,
}

/// Runs all in turn and compares their outputs; the library's buffers are there beforehand, scratch of the size that working form needs.
fn race(input: &Input) -> Result<(Built, Times), String> {
    let file = input.file();
    let told = || original::tree(&file).map(Answered::taken);
    let (tree, counts) = told().ok_or("the original is not at hand")?;
    let mut times = Times {
        library: Duration::MAX,
        original: Duration::MAX,
        copy: Duration::MAX,
    };
    let mut scratch = vec![7; pairs_of_words(u64::from(input.grid)) as usize];
    let mut out = vec![7; tree.len()];
    let mut copies = (vec![7; file.len()], vec![7; tree.len()]);
    for _ in 0..RUNS {
        let built = timed(&mut times.library, || {
            ffi::build(&file, &mut scratch, &mut out)
        });
        let again = timed(&mut times.original, told);
        timed(&mut times.copy, || {
            copies.0.copy_from_slice(black_box(&file));
            copies.1.copy_from_slice(black_box(&tree));
            black_box(&mut copies);
        });
        if built != counts || out != tree || again != Some((tree.clone(), counts)) {
            return Err(format!("{}: library and original disagree", input.name));
        }
    }
    Ok((counts, times))
}

/// Builds each input's tree, best of five.
pub(crate) fn build() -> Result<String, String> {
    for input in &INPUTS {
        let (built, times) = race(input)?;
        let told = |time: Duration| time.as_secs_f64() * 1e3;
        println!(
            "build: {:<25} library {:>8.2} ms, original {:>8.2} ms, ratio {:.2}, copy {:>6.2} ms; {} points, {} nodes",
            input.name,
            told(times.library),
            told(times.original),
            told(times.library) / told(times.original),
            told(times.copy),
            built.order,
            built.nodes
        );
    }
    Ok(format!("best of {RUNS}; outputs agree"))
}
