//! The inside test: the library's scan beside the original's ray test over the same triangles.

use super::fill::sphere;
use super::timed;
use crate::ffi;
use crate::fill::cases::Case;
use crate::meshes::{anywhere, mesh_bytes};
use crate::original;
use crate::rng::Rng;
use crate::rule::fill::Point;
use std::hint::black_box;
use std::time::Duration;

const RUNS: usize = 5;

/// Rings and segments of a lumpy sphere, points asked about, and the grid size at which it is filled.
struct Input {
    rings: usize,
    segments: usize,
    points: usize,
    grid: usize,
}

const INPUTS: [Input; 3] = [
    input(14, 30, 2000, 16),
    input(61, 100, 200, 8),
    input(251, 400, 10, 4),
];

const fn input(rings: usize, segments: usize, points: usize, grid: usize) -> Input {
    Input {
        rings,
        segments,
        points,
        grid,
    }
}

/// Best times of all points by the library, of the original's ray test of all triangles from all points, and of a fill.
struct Times {
    library: Duration,
    original: Duration,
    fill: Duration,
}

/// Runs all in turn; an error where library and original disagree about a point.
fn race(input: &Input) -> Result<(usize, Times), String> {
    let mesh = sphere(input.rings, input.segments);
    let list = mesh_bytes(&mesh);
    let mut rng = Rng::new(mesh.len() as u64);
    let points: Vec<Point> = (0..input.points)
        .map(|_| anywhere(&mut rng, -100.0, 100.0))
        .collect();
    let told = original::inside(&list, &points);
    let told = told.ok_or("the original is not at hand")?.taken();
    let mut floats = vec![0.0; mesh.len()];
    let case = Case::of(input.grid, &mesh);
    let mut out = vec![7; case.out];
    let mut times = Times {
        library: Duration::MAX,
        original: Duration::MAX,
        fill: Duration::MAX,
    };
    for _ in 0..RUNS {
        let answers = timed(&mut times.library, || {
            let inside = |&point: &Point| ffi::inside(&list, point, &mut floats) == 1;
            points.iter().map(inside).collect::<Vec<bool>>()
        });
        if answers != told {
            return Err(format!(
                "{} triangles: library and original disagree",
                mesh.len()
            ));
        }
        let cast = original::cast(&list, &points);
        let (crossings, time) = cast.ok_or("the original is not at hand")?;
        black_box(crossings);
        times.original = times.original.min(time);
        let length = timed(&mut times.fill, || {
            ffi::fill(&case.body(), &mut floats, &mut out)
        });
        if length < 64 {
            return Err(format!(
                "{} triangles: fill refused by {length}",
                mesh.len()
            ));
        }
    }
    Ok((mesh.len(), times))
}

/// Nanoseconds for a point and a triangle, best of five.
pub(crate) fn inside() -> Result<String, String> {
    for input in &INPUTS {
        let (triangles, times) = race(input)?;
        let each =
            |time: Duration, points: usize| time.as_secs_f64() * 1e9 / (points * triangles) as f64;
        let library = each(times.library, input.points);
        let original = each(times.original, input.points);
        println!(
            "inside: {triangles:>7} triangles   library {library:>6.2} ns, original's ray test {original:>6.2} ns, ratio {:.2}; \
             in a fill at g {} {:>6.2} ns",
            library / original,
            input.grid,
            each(times.fill, input.grid.pow(3))
        );
    }
    Ok(format!(
        "for a point and a triangle, best of {RUNS}; answers agree"
    ))
}
