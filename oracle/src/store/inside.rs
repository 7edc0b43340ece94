//! `inside.bin`: a block of 2,048 bytes for each case, answers by the rule.
//!
//! Words, little endian: the lengths of the mesh and of scratch (floats), the answer, a zero. At 16 the point, three binary64; at 64
//! the mesh, 1,440 bytes. What is left of the block is 0.

use super::blocks::{bytes_of, in_turn, laid, unlike, words_of, Block};
use crate::ffi;
use crate::inside::cases::{Case, Cloud, CLOUDS, KINDS};
use crate::inside::{called, small_fixed, unlike_the_original, Inside};
use crate::meshes::bytes as number_bytes;
use crate::original::Verdict;
use crate::rule;
use crate::rule::fill::{numbers, TRIANGLE};

const CASES: usize = 300;

const POINT: usize = 16;
const MESH: usize = 64;
const MESH_PART: usize = 1440;
const FLOATS: usize = 32;

/// Meshes that points are taken from, in turn by kind, and the points of each.
const MESHES: usize = 72;
const OF_A_MESH: usize = 3;

const SEED: u64 = 0x696e_7369;

/// One call with its answer.
#[derive(Clone)]
pub(super) struct Stored {
    case: Case,
    answer: u64,
}

fn by_rule(case: &Case) -> u64 {
    rule::fill::inside(&case.triangles, case.point, case.floats as u64)
}

fn fits(case: &Case) -> bool {
    case.triangles.len() <= MESH_PART && case.floats <= FLOATS
}

fn cloud_fits(cloud: &Cloud) -> bool {
    cloud.triangles.len() <= MESH_PART
}

/// Points of a mesh, the later ones the farther apart.
fn points_of(cloud: Cloud) -> impl Iterator<Item = Case> {
    let step = cloud.points.len() / OF_A_MESH;
    (0..OF_A_MESH).map(move |number| Case {
        triangles: cloud.triangles.clone(),
        point: cloud.points[number * step],
        floats: cloud.triangles.len() / TRIANGLE,
        junk: 3,
    })
}

impl Block for Stored {
    const LENGTH: usize = 2048;
    type Case = Case;

    /// The small fixed cases, points of meshes with the kinds in turn, then the kinds of single calls in turn.
    fn cases() -> Vec<Case> {
        let fixed = small_fixed().into_iter().map(|(_, case, _)| case);
        let clouds = in_turn(&CLOUDS, SEED, cloud_fits, MESHES);
        let mut cases: Vec<Case> = fixed
            .chain(clouds.into_iter().flat_map(points_of))
            .collect();
        let rest = CASES - cases.len();
        cases.extend(in_turn(&KINDS, SEED, fits, rest));
        cases
    }

    fn of(case: Case) -> Self {
        let answer = by_rule(&case);
        Self { case, answer }
    }

    fn block(&self) -> Vec<u8> {
        let Case {
            triangles, floats, ..
        } = &self.case;
        let words = [triangles.len() as u32, *floats as u32, self.answer as u32];
        let parts: [(usize, &[u8]); 3] = [
            (0, &bytes_of(&words)),
            (POINT, &number_bytes(&self.case.point)),
            (MESH, triangles),
        ];
        laid(Self::LENGTH, &parts)
    }

    fn read(block: &[u8]) -> Option<Self> {
        let [mesh, floats, answer] = [0, 4, 8].map(|at| words_of(&block[at..at + 4])[0] as usize);
        if mesh > MESH_PART || floats > FLOATS {
            return None;
        }
        let point = numbers(&block[POINT..POINT + 24]);
        Some(Self {
            case: Case {
                triangles: block[MESH..MESH + mesh].to_vec(),
                point: [point[0], point[1], point[2]],
                floats,
                junk: 3,
            },
            answer: answer as u64,
        })
    }

    fn verdict(&self) -> Verdict {
        let wrong = self.unlike_the_library(ffi::inside);
        let by_rule = || unlike("rule", &self.answer, &by_rule(&self.case), true);
        Verdict::by_rule(wrong.or_else(by_rule))
            .and(|| unlike_the_original(&self.case, self.answer))
    }
}

impl Stored {
    fn unlike_the_library(&self, inside: Inside) -> Option<String> {
        let (answer, besides) = called(inside, &self.case);
        unlike("library", &self.answer, &answer, true).or(besides)
    }
}

#[cfg(test)]
mod tests {
    use super::super::blocks::testing::{self, changes_are_seen, read_back};
    use super::*;
    use crate::fill::plain::INSIDE_FAULTS;
    use crate::search::tally;

    /// Every answer is well represented.
    #[test]
    fn cases_hold_every_answer() {
        let stored = Stored::cases().into_iter().map(Stored::of);
        let answers = tally(stored.map(|stored| stored.answer));
        assert!(answers.keys().eq(&[0, 1, 8, 17]), "{answers:?}");
        assert!(answers.values().all(|&cases| cases > 10), "{answers:?}");
        assert!(answers[&1] > 60, "{answers:?}");
    }

    /// Blocks are laid out as the head of this file says, and are read back.
    #[test]
    fn blocks_hold_the_cases() {
        for (case, block, _) in read_back::<Stored>(300 * 2048) {
            let mesh = case.triangles.len();
            assert_eq!(block[64..64 + mesh], case.triangles);
            assert_eq!(words_of(&block[..8]), [mesh as u32, case.floats as u32]);
            assert_eq!(block[16..40], number_bytes(&case.point));
            let mut rest = block[12..16].iter().chain(&block[40..64]);
            assert!(rest.all(|&byte| byte == 0));
            assert!(block[64 + mesh..].iter().all(|&byte| byte == 0));
        }
    }

    /// Faults that are planted are found by the stored answers too.
    #[test]
    fn faults_are_found() {
        testing::faults_are_found(&INSIDE_FAULTS, Stored::unlike_the_library);
    }

    #[test]
    fn a_wrong_answer_is_seen() {
        changes_are_seen::<Stored>(8, &[(18, 6, 1)]);
    }
}
