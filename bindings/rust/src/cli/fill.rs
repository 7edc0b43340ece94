//! The command fill, with its progress.

use super::args::Args;
use super::progress::{seconds, Progress};
use super::warn::{self, Foresight, List};
use super::{is_stdin, output, read, say, shown, tell, write_model, Failure};
use mascon::check::{check_lists, Report};
use mascon::text::{judge_kind, parse_kernels, parse_obj, LineError, Mesh};
use mascon::{build_mascon, mesh, Header, Kernel, Model, Refusal, Triangle, MAX_COORDINATE};
use std::path::Path;
use std::sync::mpsc::{channel, RecvTimeoutError};
use std::time::{Duration, Instant};

struct Task<'a> {
    triangles: &'a [Triangle],
    cauchy: &'a [Kernel],
    elliptic: &'a [Kernel],
    target: f64,
    density: f64,
    grid: u32,
}

impl Task<'_> {
    fn fill(&self, grid: u32) -> Result<Vec<u8>, Refusal> {
        build_mascon(
            self.triangles,
            self.cauchy,
            self.elliptic,
            self.target,
            self.density,
            grid,
        )
    }

    fn lists(&self) -> [List<'_>; 2] {
        [("Cauchy", self.cauchy), ("elliptic", self.elliptic)]
    }

    fn faults(&self) -> Report {
        check_lists(
            self.triangles,
            self.cauchy,
            self.elliptic,
            self.target,
            self.density,
            10,
        )
    }

    fn work(&self, grid: u32) -> f64 {
        f64::from(grid).powi(3) * self.triangles.len() as f64
    }
}

impl Task<'_> {
    /// What the fill will take, in seconds, by a coarse grid and cells x triangles; none where that is little.
    fn estimate(&self) -> Option<f64> {
        let work = self.work(self.grid);
        // A hundredth of the work, or some ten million tests, whichever is less.
        let share = (work / 100.0).min(1e7) / self.triangles.len().max(1) as f64;
        let coarse = share.cbrt() as u32;
        if work <= 2e8 || coarse < 2 || super::is_silent() {
            return None;
        }
        let start = Instant::now();
        // Its answer does not matter: more points than half the cells may be found.
        let _ = self.fill(coarse);
        Some(start.elapsed().as_secs_f64() * work / self.work(coarse))
    }

    fn progress(&self, elapsed: f64, estimate: Option<f64>) -> String {
        let total = estimate.map_or(String::new(), |total| {
            format!(" of about {}", seconds(total))
        });
        format!(
            "filling, {} cells x {} triangles: {}{total}",
            u64::from(self.grid).pow(3),
            self.triangles.len(),
            seconds(elapsed)
        )
    }
}

/// Fills in a thread; the call is one piece.
fn with_progress(task: &Task) -> Result<Vec<u8>, Refusal> {
    std::thread::scope(|scope| {
        let (sender, receiver) = channel();
        scope.spawn(move || {
            let _ = sender.send(Err(task.estimate()));
            let _ = sender.send(Ok(task.fill(task.grid)));
        });
        let mut progress = Progress::new();
        let mut estimate = None;
        loop {
            match receiver.recv_timeout(Duration::from_millis(200)) {
                Ok(Ok(filled)) => return filled,
                Ok(Err(judged)) => estimate = judged,
                Err(RecvTimeoutError::Timeout) => {
                    progress.tell(|elapsed| task.progress(elapsed, estimate));
                }
                Err(RecvTimeoutError::Disconnected) => unreachable!("the thread sends its answer"),
            }
        }
    })
}

fn in_file(path: &Path, error: LineError) -> Failure {
    Failure::failed(format!("{}: {error}", shown(path)))
}

/// A mesh or a list as text, once its bytes have shown that it can be one. What is not UTF-8 becomes a mark.
fn read_input(path: &Path) -> Result<String, Failure> {
    let bytes = read(path)?;
    judge_kind(&bytes).map_err(|error| in_file(path, error))?;
    Ok(String::from_utf8_lossy(&bytes).into_owned())
}

fn read_mesh(path: &Path, scale: f64, widen: f64) -> Result<Mesh, Failure> {
    let mut mesh = parse_obj(&read_input(path)?, scale).map_err(|error| in_file(path, error))?;
    let name = shown(path);
    for (keyword, line) in &mesh.ignored {
        tell(format!("{name}: line {line}: `{keyword}` is passed over"));
    }
    if mesh.open_edges > 0 {
        tell(format!(
            "{name}: the mesh is not closed, {} edges have an odd number of faces; cells near them may be judged wrongly",
            mesh.open_edges
        ));
    }
    if widen > 0.0 {
        let triangle = mesh::widening(&mesh.triangles, widen);
        let far = triangle.a.iter().chain(&triangle.b).map(|x| x.abs());
        let far = far.fold(0.0, f64::max);
        if far > MAX_COORDINATE {
            return Err(Failure::failed(format!(
                "--widen {widen}: the box would reach {far} m, coordinates go up to 1e6 m"
            )));
        }
        mesh.triangles.push(triangle);
    }
    Ok(mesh)
}

/// The lists of Cauchy and of elliptic kernels.
fn read_kernels(args: &Args) -> Result<[Vec<Kernel>; 2], Failure> {
    let read =
        |path: &Path| parse_kernels(&read_input(path)?).map_err(|error| in_file(path, error));
    let elliptic = args.option_path("--elliptic").map(read).transpose()?;
    Ok([read(args.path(1))?, elliptic.unwrap_or_default()])
}

/// Where the point file goes: over none of the files that are read. One of these at most is standard input.
fn out(args: &Args) -> Result<&Path, Failure> {
    let mut inputs = vec![(args.path(0), "its mesh"), (args.path(1), "its kernels")];
    inputs.extend(
        args.option_path("--elliptic")
            .map(|path| (path, "its kernels")),
    );
    if inputs.iter().filter(|(path, _)| is_stdin(path)).count() > 1 {
        return Err(Failure::usage("standard input (-) can be read once"));
    }
    output(args, &inputs)
}

/// What the mesh's coordinates are multiplied by, and its box is widened by.
fn scale_and_widen(args: &Args) -> Result<(f64, f64), Failure> {
    let scale = args.number("--scale", 1.0_f64)?;
    if !(scale.is_finite() && scale > 0.0) {
        return Err(Failure::usage(format!("--scale: {scale} is not above 0")));
    }
    let widen = args.number("--widen", 0.0_f64)?;
    if !(widen.is_finite() && widen >= 0.0) {
        let why = format!("--widen: {widen} is not 0 or above");
        return Err(Failure::usage(why));
    }
    Ok((scale, widen))
}

pub(crate) fn fill(args: &Args) -> Result<(), Failure> {
    let grid = args.number("--grid", 64_u32)?;
    let target = args.number("--target", 0.0_f64)?;
    let density = args.number("--density", 1190.0_f64)?;
    let (scale, widen) = scale_and_widen(args)?;
    let out = out(args)?;
    let mesh = read_mesh(args.path(0), scale, widen)?;
    let [cauchy, elliptic] = read_kernels(args)?;
    let task = Task {
        triangles: &mesh.triangles,
        cauchy: &cauchy,
        elliptic: &elliptic,
        target,
        density,
        grid,
    };
    warn::target_before(target, task.lists());
    let foresight = Foresight::of(&mesh.triangles, grid, widen);
    foresight.warn(&shown(args.path(0)));
    let start = Instant::now();
    let filled = with_progress(&task);
    let time = start.elapsed().as_secs_f64();
    let model = filled
        .and_then(|file| Ok(Model::open(&file)?))
        .map_err(|refusal| foresight.refused(refusal, || task.faults()))?;
    if model.is_empty() {
        foresight.warn_empty();
    }
    warn::target_after(target, task.lists(), &model);
    write_model(out, &model)?;
    let triangles = mesh.triangles.len() - usize::from(widen > 0.0);
    say(summary(out, &model, triangles, time) + &foresight.note());
    Ok(())
}

fn summary(out: &Path, model: &Model, triangles: usize, time: f64) -> String {
    let Header { grid, min, max, .. } = model.header();
    let (cauchy, elliptic) = model.masses();
    format!(
        "{}: {} points of {} cells, from {triangles} triangles, in {time:.1} s\n\
         box {min:?} to {max:?} m\nCauchy mass {cauchy:.6e} kg, elliptic mass {elliptic:.6e} kg\n",
        shown(out),
        model.len(),
        u64::from(grid).pow(3),
    )
}
