//! The original, compiled from its own files by the crate `copies`; absent where they are not at hand.
//!
//! `shim` has its functions at its own grid size, 192; `build_mascon` picks a copy by the grid size. What it answers to a comparison is
//! `Answered`, which is made here alone: a case counts as beside the original only by a verdict on such an answer.

use crate::ffi::Built;
#[cfg(original)]
use crate::rule::fill::numbers;
use crate::rule::fill::{Body, Point, Triangle};
use std::time::Duration;

/// Whether the original's files were there when this was built.
pub(crate) const AT_HAND: bool = cfg!(original);

#[cfg(original)]
pub(crate) use copies::{build_mascon, shim, GRID_SIZES};

/// An answer that the original itself gave.
pub(crate) struct Answered<T>(T);

impl<T> Answered<T> {
    /// The answer, for a use that counts no case.
    pub(crate) fn taken(self) -> T {
        self.0
    }
}

impl<T> Answered<Vec<T>> {
    /// Its answer on each of several inputs.
    pub(crate) fn each(self) -> impl Iterator<Item = Answered<T>> {
        self.0.into_iter().map(Answered)
    }
}

/// What is wrong about a case, if anything is, and whether an answer of the original was compared in it.
#[derive(Default)]
pub(crate) struct Verdict {
    pub(crate) wrong: Option<String>,
    beside: bool,
}

impl Verdict {
    /// Without the original.
    pub(crate) fn by_rule(wrong: Option<String>) -> Self {
        Self {
            wrong,
            beside: false,
        }
    }

    /// By what the original answered; where it has no answer, nothing is wrong, and the case is not beside it.
    pub(crate) fn by_original<T>(
        answer: Option<Answered<T>>,
        differs: impl FnOnce(T) -> Option<String>,
    ) -> Self {
        let compared = |Answered(answer)| Self {
            wrong: differs(answer),
            beside: true,
        };
        answer.map_or_else(Self::default, compared)
    }

    /// Where nothing is wrong so far, a further look.
    pub(crate) fn and(self, further: impl FnOnce() -> Self) -> Self {
        if self.wrong.is_some() {
            return self;
        }
        let Self { wrong, beside } = further();
        Self {
            wrong,
            beside: beside || self.beside,
        }
    }

    /// The same, with what is wrong put into words.
    pub(crate) fn told(self, words: impl FnOnce(String) -> String) -> Self {
        Self {
            wrong: self.wrong.map(words),
            ..self
        }
    }

    pub(crate) fn is_beside(&self) -> bool {
        self.beside
    }
}

/// What Rust's `as f32` gives, by which the original narrows; a NaN's answer is left open.
#[cfg(original)]
pub(crate) fn narrowed(pattern: u64) -> Option<Answered<f32>> {
    let x = f64::from_bits(pattern);
    (!x.is_nan()).then_some(Answered(x as f32))
}

/// Nothing: the original is not at hand.
#[cfg(not(original))]
pub(crate) fn narrowed(_: u64) -> Option<Answered<f32>> {
    None
}

/// Runs a model that asks the original itself, about known answers; that it does is the word of the list of models.
#[cfg(original)]
pub(crate) fn modelled(model: fn() -> Result<(), String>) -> Verdict {
    Verdict::by_original(Some(Answered(model)), |model| model().err())
}

/// The original's tree of a point file that the rule lets pass, its length in `answer`, with its counts.
#[cfg(original)]
pub(crate) fn tree(file: &[u8]) -> Option<Answered<(Vec<u8>, Built)>> {
    let (tree, nodes, order) = shim::build_mascon_tree(file).expect("a file that has its records");
    let built = Built {
        answer: tree.len() as u64,
        nodes: nodes as u64,
        order: order as u64,
    };
    Some(Answered((tree, built)))
}

/// Nothing: the original is not at hand.
#[cfg(not(original))]
pub(crate) fn tree(_: &[u8]) -> Option<Answered<(Vec<u8>, Built)>> {
    None
}

/// The original's filled file of a body that 17 lets pass, or its refusal; nothing at a grid size that it is not compiled at.
#[cfg(original)]
pub(crate) fn filled(body: &Body) -> Option<Answered<Result<Vec<u8>, String>>> {
    let g = body.grid as usize;
    let lists = [body.triangles, body.cauchy, body.elliptic];
    let [triangles, cauchy, elliptic] = lists.map(numbers);
    let fill = || build_mascon(g, &triangles, &cauchy, &elliptic, body.target, body.density);
    GRID_SIZES.contains(&g).then(|| Answered(fill()))
}

/// Nothing: the original is not at hand.
#[cfg(not(original))]
pub(crate) fn filled(_: &Body) -> Option<Answered<Result<Vec<u8>, String>>> {
    None
}

/// Whether the original finds each point inside a mesh that 17 lets pass.
#[cfg(original)]
pub(crate) fn inside(triangles: &[u8], points: &[Point]) -> Option<Answered<Vec<bool>>> {
    Some(Answered(shim::inside(&numbers(triangles), points)))
}

/// Nothing: the original is not at hand.
#[cfg(not(original))]
pub(crate) fn inside(_: &[u8], _: &[Point]) -> Option<Answered<Vec<bool>>> {
    None
}

/// The distance at which the original's ray along +X from a point crosses a triangle, or -1.
#[cfg(original)]
pub(crate) fn ray(point: Point, triangle: &Triangle) -> Option<Answered<f64>> {
    let corners = triangle.as_flattened().try_into().expect("nine numbers");
    let distance = shim::ray_triangle_t(point, [1.0, 0.0, 0.0], corners);
    Some(Answered(distance))
}

/// Nothing: the original is not at hand.
#[cfg(not(original))]
pub(crate) fn ray(_: Point, _: &Triangle) -> Option<Answered<f64>> {
    None
}

/// How long the original's ray test of all triangles from all points takes, and how many crossings it finds.
#[cfg(original)]
pub(crate) fn cast(triangles: &[u8], points: &[Point]) -> Option<(usize, Duration)> {
    Some(shim::cast(&numbers(triangles), points))
}

/// Nothing: the original is not at hand.
#[cfg(not(original))]
pub(crate) fn cast(_: &[u8], _: &[Point]) -> Option<(usize, Duration)> {
    None
}

#[cfg(all(test, original))]
mod tests {
    use copies::{APPENDED, COPIES, FILES, FOLDER, GRID_SIZES, PREFIX};
    use std::fs;
    use std::path::Path;

    fn original(name: &str) -> String {
        fs::read_to_string(Path::new(FOLDER).join(format!("{PREFIX}{name}.txt"))).unwrap()
    }

    /// Nothing of the original is changed but the grid size.
    #[test]
    fn copies_are_the_original() {
        for g in GRID_SIZES {
            for name in FILES {
                let original = original(name);
                let copy =
                    fs::read_to_string(Path::new(COPIES).join(format!("g{g}/{name}"))).unwrap();
                let copy = match name {
                    "mod.rs" => copy.strip_suffix(APPENDED).expect("the appended line"),
                    _ => &copy,
                };
                let differing: Vec<_> = original
                    .lines()
                    .zip(copy.lines())
                    .filter(|(a, b)| a != b)
                    .collect();
                let line = format!("const GRID_SIZE: usize = {g};");
                match differing[..] {
                    [] => assert!(g == 192 || name != "mod.rs"),
                    [(a, b)] => assert_eq!(
                        (name, a, b),
                        ("mod.rs", "const GRID_SIZE: usize = 192;", line.as_str())
                    ),
                    _ => panic!("{name} at {g}: {differing:?}"),
                }
                assert_eq!(original.lines().count(), copy.lines().count());
            }
        }
    }
}
