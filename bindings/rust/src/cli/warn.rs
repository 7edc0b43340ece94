//! What is told of a filling: before it starts, where it can be foreseen, and after it.

use super::{tell, Failure};
use mascon::check::Report;
use mascon::mesh::{Preview, Survey};
use mascon::{Kernel, Model, Refusal, Triangle, MAX_GRID};
use std::fmt::Write as _;

/// A list's name and its kernels.
pub(crate) type List<'a> = (&'static str, &'a [Kernel]);

pub(crate) fn counted(count: usize, one: &str) -> String {
    format!("{count} {one}{}", if count == 1 { "" } else { "s" })
}

/// Metres without what rounding adds to a sum.
fn metres_of(x: f64) -> String {
    let text = format!("{x:.9}");
    text.trim_end_matches('0').trim_end_matches('.').to_string()
}

fn place([x, y, z]: [f64; 3]) -> String {
    format!("({x}, {y}, {z})")
}

/// The first few of a list.
fn first<T: Copy>(list: &[T], words: impl Fn(T) -> String) -> String {
    let mut text: Vec<String> = list.iter().take(3).map(|&x| words(x)).collect();
    if list.len() > 3 {
        text.push("...".into());
    }
    text.join(", ")
}

/// What the mesh is like at a grid.
pub(crate) struct Foresight<'a> {
    survey: Survey<'a>,
    preview: Option<Preview>,
    grid: u32,
    widened: f64,
}

impl<'a> Foresight<'a> {
    /// `widened`: what the box has been widened by already.
    pub(crate) fn of(triangles: &'a [Triangle], grid: u32, widened: f64) -> Foresight<'a> {
        let survey = Survey::of(triangles);
        Foresight {
            preview: survey.preview(grid),
            survey,
            grid,
            widened,
        }
    }

    fn cells(&self) -> u64 {
        u64::from(self.grid).pow(3)
    }

    /// How much of the box the body fills, and what to do about it.
    fn share(&self) -> String {
        let share = 100.0 * self.survey.fills_box(self.grid);
        let metres = self.survey.widening(self.grid).filter(|&more| more > 0.0);
        let widen = metres.map_or(String::new(), |more| {
            format!("; --widen {} is enough", metres_of(self.widened + more))
        });
        format!("by its enclosed volume the body fills {share:.1} % of its padded box{widen}")
    }

    fn not_closed(&self) -> String {
        format!(
            "the mesh is not closed ({} with an odd number of faces), so that rays slip through and cells are judged wrongly: close it",
            counted(self.survey.open_edges, "edge")
        )
    }

    /// Before the fill: whether it will be refused (18), and what touching shells cost.
    pub(crate) fn warn(&self, name: &str) {
        if (1..=MAX_GRID).contains(&self.grid) {
            self.warn_full(name);
            self.warn_touching(name);
        }
    }

    fn warn_full(&self, name: &str) {
        let most = self.cells().div_ceil(2);
        match self.preview {
            Some(preview) if preview.inside as u64 > most => tell(format!(
                "{name}: this will be refused (18): {} of {} cells lie inside by a preview, a point file holds {most}; {}",
                preview.inside,
                self.cells(),
                self.why_full()
            )),
            None if self.survey.fills_box(self.grid) > 0.5 => tell(format!(
                "{name}: this is likely to be refused (18), a point file holds half the cells; {}",
                self.share()
            )),
            _ => {}
        }
    }

    fn warn_touching(&self, name: &str) {
        match self.preview {
            Some(preview) if preview.misjudged > 0 => tell(format!(
                "{name}: {}; at grid {} the rays of {} in {} pass there, and these are judged wrongly, as crossings at one distance count once; {}",
                self.touching(),
                self.grid,
                counted(preview.misjudged, "cell"),
                counted(preview.rows, "row"),
                self.way_round()
            )),
            None if self.survey.touches() => tell(format!(
                "{name}: {}; cells whose rays pass there are judged wrongly",
                self.touching()
            )),
            _ => {}
        }
    }

    /// Where shells touch.
    fn touching(&self) -> String {
        let (points, edges) = (&self.survey.touching_points, &self.survey.touching_edges);
        let mut text = String::from("shells touch");
        if !points.is_empty() {
            let at = first(points, place);
            let _ = write!(text, " in {}, {at}", counted(points.len(), "point"));
        }
        if !edges.is_empty() {
            let at = first(edges, |[a, b]| format!("{} to {}", place(a), place(b)));
            let _ = write!(text, " along {}, {at}", counted(edges.len(), "edge"));
        }
        text
    }

    /// A grid and a wider box at which no row passes where shells touch.
    fn way_round(&self) -> String {
        let clear = |preview: Option<Preview>| preview.is_some_and(|p| p.misjudged == 0);
        let mut ways = Vec::new();
        let grids = [1, -1, 2, -2, 3, -3].map(|step| self.grid.saturating_add_signed(step));
        if let Some(grid) = grids.iter().find(|&&grid| clear(self.survey.preview(grid))) {
            ways.push(format!("take --grid {grid}"));
        }
        let cell = (self.survey.max[1] - self.survey.min[1]) / f64::from(self.grid);
        let metres = [0.037, 0.11, 0.23].map(|share| (share * cell * 1e3).ceil() / 1e3);
        if let Some(metres) = metres
            .iter()
            .find(|&&metres| clear(self.survey.preview_widened(self.grid, metres)))
        {
            ways.push(format!("add --widen {}", metres_of(self.widened + metres)));
        }
        ways.push("move one shell by a little".into());
        ways.join(", or ")
    }

    /// For the summary: where shells touch and cost nothing.
    pub(crate) fn note(&self) -> String {
        if !self.survey.touches() || self.preview.is_none_or(|preview| preview.misjudged > 0) {
            return String::new();
        }
        format!("{}, off every row of middles\n", self.touching())
    }

    /// After a fill that found no cell inside.
    pub(crate) fn warn_empty(&self) {
        let why = if self.survey.is_closed() {
            "try a finer grid".into()
        } else {
            self.not_closed()
        };
        tell(format!(
            "no cell's middle lies inside the mesh, the point file is empty: {why}"
        ));
    }

    /// A refusal, with what is known of its cause.
    pub(crate) fn refused(&self, refusal: Refusal, faults: impl Fn() -> Report) -> Failure {
        let mut what = format!("fill: {refusal}");
        if refusal == Refusal::TooManyPoints {
            let _ = write!(what, "\n  {}", self.why_full());
        }
        if refusal == Refusal::OutOfBounds {
            let report = faults();
            for fault in &report.faults {
                let _ = write!(what, "\n  {fault}");
            }
            let more = report.total - report.faults.len();
            if more > 0 {
                let _ = write!(what, "\n  ... and {more} more");
            }
        }
        Failure::Failed(format!("{what}\n  {}", refusal.advice()))
    }

    /// Why more than half of the cells lie inside.
    fn why_full(&self) -> String {
        if !self.survey.is_closed() {
            return self.not_closed();
        }
        let words = self.share();
        if self.survey.fills_box(self.grid) > 0.4 {
            return words;
        }
        format!("shells overlap, touch or cross themselves, so that cells outside count as inside: {words}")
    }
}

/// What the weights and the target say before the fill.
pub(crate) fn target_before(target: f64, lists: [List; 2]) {
    if target < 0.0 {
        tell(format!(
            "--target {target:e}: only a target above 0 scales the masses, they stay as the kernels give them"
        ));
    }
    for (name, kernels) in lists {
        let most = kernels
            .iter()
            .map(|kernel| kernel.w)
            .fold(f64::NEG_INFINITY, f64::max);
        if kernels.is_empty() {
            let missed = if target > 0.0 {
                ", the target is not reached"
            } else {
                ""
            };
            tell(format!("no {name} kernels: {name} masses are 0{missed}"));
        } else if target > 0.0 && most < 0.0 {
            tell(format!(
                "every {name} weight is below 0: a target above 0 turns the sign of every {name} mass"
            ));
        }
    }
}

/// What the sums say after it: of each list the name, its kernels, and the sum before scaling.
pub(crate) fn target_after(target: f64, lists: [List; 2], model: &Model) {
    let header = model.header();
    let raws = [header.cauchy_raw, header.elliptic_raw].map(f64::from);
    let sums: [f64; 2] = model.masses().into();
    let mut sizes = [0.0_f64; 2];
    for point in model.points() {
        sizes[0] += f64::from(point.cauchy_mass.abs());
        sizes[1] += f64::from(point.elliptic_mass.abs());
    }
    for (i, (name, kernels)) in lists.into_iter().enumerate() {
        if target <= 0.0 || kernels.is_empty() || model.is_empty() {
            continue;
        }
        let raw = raws[i];
        if raw.abs() <= 1e-30 {
            tell(format!(
                "the {name} masses add up to {raw} kg: no scale reaches the target, they stay as the kernels give them"
            ));
            continue;
        }
        if raw < 0.0 && kernels.iter().any(|kernel| kernel.w >= 0.0) {
            tell(format!(
                "the {name} masses added up to {raw:e} kg: the scale to the target turned the sign of every one"
            ));
        }
        // Mass, scale and product are rounded, each by 2^-24 at most.
        if (sums[i] - target).abs() > sizes[i].min(2.0 * target) * 2.0_f64.powi(-22) {
            tell(format!(
                "the {name} masses add up to {:e} kg, not to the target, {target:e} kg: masses of both signs nearly cancel, or they are too small for binary32",
                sums[i]
            ));
        }
    }
}
