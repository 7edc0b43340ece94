//! Runs the original's `RuntimeSource::mascon` at its own grid size, as it is and with the diff in the bindings' README applied. Both files of
//! each must be the same byte for byte; a kernel with another exponent is refused in the words of the diff.

use mascon::shapes;
use std::process::ExitCode;
use std::time::Instant;

include!(concat!(env!("OUT_DIR"), "/copies.rs"));

type Files = Result<(Vec<u8>, Vec<u8>), String>;

const CAUCHY: &str = "\
# in kilometres, as the original's are
total_mass_target = 4.5e11
[[kernels]]
c = [0.05, 0.02, -0.01]
sigma = 3.0
w = 1300.0
[[kernels]]
c = [-0.12, -0.03, 0.04]
sigma = 5.5
w = 700.0
";

const ELLIPTIC: &str = "\
mean_density = 1190.0
[[kernels]]
c = [0.0, 0.0, 0.0]
sigma = 1.5
w = 1190.0
";

/// What a call answers, and its time in seconds.
fn timed(call: impl FnOnce() -> Files) -> (Files, f64) {
    let start = Instant::now();
    let answer = call();
    (answer, start.elapsed().as_secs_f64())
}

fn compare(rings: usize) -> Result<(), String> {
    let mesh: Vec<[f64; 9]> = shapes::lumpy_sphere([12.0, -7.0, 5.0], 430.0, 0.13, rings)
        .iter()
        .map(|t| {
            let corners = [t.a, t.b, t.c];
            std::array::from_fn(|i| corners[i / 3][i % 3])
        })
        .collect();
    let (was, original) = timed(|| before::shim::mascon(&mesh, CAUCHY, ELLIPTIC));
    let (is, swapped) = timed(|| after::shim::mascon(&mesh, CAUCHY, ELLIPTIC));
    let ((points, tree), same) = match (was, is) {
        (Ok(was), Ok(is)) => {
            let same = was == is;
            (is, same)
        }
        (was, is) => {
            return Err(format!(
                "the original: {:?}, swapped: {:?}",
                was.err(),
                is.err()
            ))
        }
    };
    println!(
        "grid {}, {} triangles: points {} bytes, tree {} bytes, {}; {original:.2} s before, {swapped:.2} s after",
        u32::from_le_bytes([points[8], points[9], points[10], points[11]]),
        mesh.len(),
        points.len(),
        tree.len(),
        if same { "the same" } else { "NOT the same" },
    );
    same.then_some(()).ok_or_else(|| "files differ".to_string())
}

/// A kernel with another exponent than 1 is refused, not computed otherwise.
fn exponent() -> Result<(), String> {
    let corner = |x: f64, y: f64, z: f64| [x, y, z];
    let [o, a, b, c] = [
        corner(0.0, 0.0, 0.0),
        corner(90.0, 0.0, 0.0),
        corner(0.0, 90.0, 0.0),
        corner(0.0, 0.0, 90.0),
    ];
    let faces = [[o, b, a], [o, a, c], [o, c, b], [a, b, c]];
    let mesh = faces.map(|face| std::array::from_fn(|i| face[i / 3][i % 3]));
    let other = CAUCHY.replace("w = 700.0", "w = 700.0\nalpha = 1.5");
    let other = other.replace("total_mass_target = 4.5e11\n", "");
    match after::shim::mascon(&mesh, &other, ELLIPTIC) {
        Err(why) if why == "a kernel's alpha is not 1" => Ok(()),
        answer => Err(format!("alpha 1.5: {:?}", answer.err())),
    }
}

/// `swap [RINGS]`: the fineness of the body, 6 for 120 triangles, 12 for 528.
fn main() -> ExitCode {
    let rings = std::env::args().nth(1).map_or(Ok(6), |word| word.parse());
    let rings = rings.map_err(|error| format!("RINGS: {error}"));
    match exponent().and(rings).and_then(compare) {
        Ok(()) => ExitCode::SUCCESS,
        Err(why) => {
            eprintln!("swap: {why}");
            ExitCode::FAILURE
        }
    }
}
