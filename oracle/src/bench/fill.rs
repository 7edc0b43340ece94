//! Filling: the library beside the original on the same meshes and kernels.

use super::timed;
use crate::ffi;
use crate::fill::cases::Case;
use crate::meshes::{anywhere, between, bytes, Mesh};
use crate::original;
use crate::rng::Rng;
use crate::rule::fill::Point;
use std::f64::consts::PI;
use std::time::Duration;

const RUNS: usize = 3;

const KERNELS: usize = 10;

/// Grid size, rings and segments of a lumpy sphere.
const INPUTS: [(usize, usize, usize); 4] = [(24, 14, 30), (24, 31, 50), (48, 14, 30), (48, 31, 50)];

/// A lumpy sphere of 2 · segments · (rings − 1) triangles, which fills less than half of its box.
pub(super) fn sphere(rings: usize, segments: usize) -> Mesh {
    let corner = |ring: usize, segment: usize| -> Point {
        let from_pole = PI * ring as f64 / rings as f64;
        let round = 2.0 * PI * (segment % segments) as f64 / segments as f64;
        let radius = 400.0 + 100.0 * (3.0 * round).sin() * from_pole.sin();
        [
            radius * from_pole.sin() * round.cos(),
            radius * from_pole.sin() * round.sin(),
            radius * from_pole.cos(),
        ]
    };
    let mut mesh = Vec::new();
    for ring in 0..rings {
        for segment in 0..segments {
            let (a, b) = (corner(ring, segment), corner(ring + 1, segment));
            let (c, d) = (corner(ring + 1, segment + 1), corner(ring, segment + 1));
            if ring > 0 {
                mesh.push([a, b, d]);
            }
            if ring + 1 < rings {
                mesh.push([b, c, d]);
            }
        }
    }
    mesh
}

fn kernels(rng: &mut Rng) -> Vec<u8> {
    let kernel = |_| {
        let [x, y, z] = anywhere(rng, -400.0, 400.0);
        [x, y, z, between(rng, 1e-4, 1e-2), between(rng, 100.0, 2e3)]
    };
    let kernels: Vec<[f64; 5]> = (0..KERNELS).map(kernel).collect();
    bytes(kernels.as_flattened())
}

/// Runs both in turn and compares their outputs; the library's buffers are there beforehand.
fn race(grid: usize, mesh: &Mesh) -> Result<(usize, [Duration; 2]), String> {
    let mut rng = Rng::new(mesh.len() as u64);
    let case = Case {
        cauchy: kernels(&mut rng),
        elliptic: kernels(&mut rng),
        target: 4.5e11,
        ..Case::of(grid, mesh)
    };
    let (mut floats, mut out) = (vec![7.0; case.floats], vec![7; case.out]);
    let mut times = [Duration::MAX; 2];
    let mut length = 0;
    for _ in 0..RUNS {
        let answer = timed(&mut times[0], || {
            ffi::fill(&case.body(), &mut floats, &mut out)
        });
        let file = timed(&mut times[1], || original::filled(&case.body()));
        let file = file.ok_or("the original is not at hand")?.taken()?;
        length = file.len();
        if answer != length as u64 || out[..length] != file {
            return Err(format!(
                "g {grid}, {} triangles: library and original disagree",
                mesh.len()
            ));
        }
    }
    Ok(((length - 64) / 16, times))
}

/// Fills each input, best of three.
pub(crate) fn fill() -> Result<String, String> {
    for (grid, rings, segments) in INPUTS {
        let mesh = sphere(rings, segments);
        let (points, times) = race(grid, &mesh)?;
        let [library, original] = times.map(|time| time.as_secs_f64() * 1e3);
        println!(
            "fill: g {grid}, {:>5} triangles      library {library:>9.2} ms, original {original:>8.2} ms, ratio {:.2}; \
             {points} points, {:.2} ns a cell and triangle",
            mesh.len(),
            library / original,
            library * 1e6 / (grid.pow(3) * mesh.len()) as f64
        );
    }
    Ok(format!(
        "{KERNELS} kernels each, best of {RUNS}; outputs agree"
    ))
}
