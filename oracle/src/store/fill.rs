//! `fill.bin`: a block of 8,192 bytes for each case; filled files are the original's, refusals the rule's.
//!
//! Words, little endian: g, the lengths of the mesh, of the Cauchy and of the elliptic kernels, of scratch (floats) and of the output,
//! the answer, a zero. At 32 the target mass and the density, binary64; at 64 the mesh, 1,440 bytes; at 1,504 and 1,904 the kernels,
//! 400 bytes each; at 2,304 the output before, at 5,248 the output after, 2,944 bytes each. What is left of each part is 0.

use super::blocks::{bytes_of, in_turn, laid, unlike, words_of, Block};
use crate::ffi;
use crate::fill::cases::{Case, KINDS};
use crate::fill::{called, fixed, unlike_the_original, Fill};
use crate::meshes::bytes as number_bytes;
use crate::original::{self, Answered, Verdict};
use crate::rule;
use crate::rule::fill::numbers;

const CASES: usize = 250;

const LONE: usize = 32;
const MESH: usize = 64;
const MESH_PART: usize = 1440;
const CAUCHY: usize = MESH + MESH_PART;
const KERNEL_PART: usize = 400;
const ELLIPTIC: usize = CAUCHY + KERNEL_PART;
const OUT_BEFORE: usize = ELLIPTIC + KERNEL_PART;
const OUT_PART: usize = 2944;
const OUT_AFTER: usize = OUT_BEFORE + OUT_PART;
const FLOATS: usize = 32;

const SEED: u64 = 0x6669_6c6c;

/// One call with its answer, the output before and after it.
#[derive(Clone)]
pub(super) struct Stored {
    case: Case,
    answer: u64,
    out: [Vec<u8>; 2],
}

/// The rule's answer, and the output after it.
fn by_rule(case: &Case, out: &[u8]) -> (u64, Vec<u8>) {
    let mut out = out.to_vec();
    let answer = rule::fill::fill(&case.body(), case.floats as u64, &mut out);
    (answer, out)
}

/// Whether a case is small and fits into a block.
fn fits(case: &Case) -> bool {
    case.triangles.len() <= MESH_PART
        && case.cauchy.len() <= KERNEL_PART
        && case.elliptic.len() <= KERNEL_PART
        && case.floats <= FLOATS
        && case.out <= OUT_PART
}

impl Block for Stored {
    const LENGTH: usize = 8192;
    type Case = Case;

    /// The small fixed cases, then the kinds in turn, each with the next of its cases that fits.
    fn cases() -> Vec<Case> {
        let fixed = fixed::small().into_iter().map(|(_, case, _)| case);
        let mut cases: Vec<Case> = fixed.filter(fits).collect();
        let rest = CASES - cases.len();
        cases.extend(in_turn(&KINDS, SEED, fits, rest));
        cases
    }

    /// The file is the original's where it is at hand.
    fn of(case: Case) -> Self {
        let out: Vec<u8> = case.out_before().collect();
        let (answer, mut after) = by_rule(&case, &out);
        if answer >= 64 {
            let filled = original::filled(&case.body()).map(Answered::taken);
            if let Some(Ok(file)) = filled {
                after[..file.len()].copy_from_slice(&file);
            }
        }
        Self {
            case,
            answer,
            out: [out, after],
        }
    }

    fn block(&self) -> Vec<u8> {
        let case = &self.case;
        let lengths = [
            case.triangles.len(),
            case.cauchy.len(),
            case.elliptic.len(),
            case.floats,
            case.out,
        ];
        let parts: [(usize, &[u8]); 9] = [
            (0, &bytes_of(&[case.grid])),
            (4, &bytes_of(&lengths.map(|length| length as u32))),
            (24, &bytes_of(&[self.answer as u32])),
            (LONE, &number_bytes(&[case.target, case.density])),
            (MESH, &case.triangles),
            (CAUCHY, &case.cauchy),
            (ELLIPTIC, &case.elliptic),
            (OUT_BEFORE, &self.out[0]),
            (OUT_AFTER, &self.out[1]),
        ];
        laid(Self::LENGTH, &parts)
    }

    fn read(block: &[u8]) -> Option<Self> {
        let words = words_of(&block[..28]);
        let length = |place: usize| words[place] as usize;
        let part = |at: usize, place: usize, most: usize| {
            let length = length(place);
            (length <= most).then(|| block[at..at + length].to_vec())
        };
        let lone = numbers(&block[LONE..LONE + 16]);
        let out = [OUT_BEFORE, OUT_AFTER].map(|at| part(at, 5, OUT_PART));
        let [Some(before), Some(after)] = out else {
            return None;
        };
        let case = Case {
            grid: words[0],
            triangles: part(MESH, 1, MESH_PART)?,
            cauchy: part(CAUCHY, 2, KERNEL_PART)?,
            elliptic: part(ELLIPTIC, 3, KERNEL_PART)?,
            target: lone[0],
            density: lone[1],
            floats: length(4),
            out: length(5),
            junk: 3,
        };
        (case.floats <= FLOATS).then_some(Self {
            case,
            answer: u64::from(words[6]),
            out: [before, after],
        })
    }

    fn verdict(&self) -> Verdict {
        let wrong = self.unlike_the_library(ffi::fill);
        Verdict::by_rule(wrong.or_else(|| self.unlike_the_rule()))
            .and(|| unlike_the_original(&self.case.body(), self.answer, &self.out[1]))
    }
}

impl Stored {
    fn unlike_the_library(&self, fill: Fill) -> Option<String> {
        let (answer, out, besides) = called(fill, &self.case, &self.out[0]);
        unlike("library", &self.answer, &answer, out == self.out[1]).or(besides)
    }

    fn unlike_the_rule(&self) -> Option<String> {
        let (answer, out) = by_rule(&self.case, &self.out[0]);
        unlike("rule", &self.answer, &answer, out == self.out[1])
    }
}

#[cfg(test)]
mod tests {
    use super::super::blocks::testing::{self, changes_are_seen, read_back};
    use super::*;
    use crate::fill::plain::FILL_FAULTS;
    use crate::search::tally;

    /// Every answer is well represented, by every grid size that fits.
    #[test]
    fn cases_hold_every_answer() {
        let grids = tally(Stored::cases().iter().map(|case| case.grid));
        let stored = Stored::cases().into_iter().map(Stored::of);
        let answers = tally(stored.map(|stored| stored.answer.min(64)));
        assert!(
            answers.keys().eq(&[3, 8, 9, 17, 18, 19, 20, 64]),
            "{answers:?}"
        );
        assert!(answers.values().all(|&cases| cases >= 3), "{answers:?}");
        assert!(answers[&64] > 120, "{answers:?}");
        assert!((1..=7).all(|g| grids.contains_key(&g)), "{grids:?}");
    }

    /// Blocks are laid out as the head of this file says, and are read back.
    #[test]
    fn blocks_hold_the_cases() {
        for (case, block, stored) in read_back::<Stored>(250 * 8192) {
            let lengths = [
                case.triangles.len(),
                case.cauchy.len(),
                case.elliptic.len(),
                case.floats,
                case.out,
            ];
            assert_eq!(words_of(&block[..4]), [case.grid]);
            let words = lengths.map(|length| length as u32);
            assert_eq!(words_of(&block[4..24]), words);
            assert_eq!(block[32..48], number_bytes(&[case.target, case.density]));
            assert_eq!(block[64..64 + lengths[0]], case.triangles);
            assert_eq!(block[1504..1504 + lengths[1]], case.cauchy);
            assert_eq!(block[1904..1904 + lengths[2]], case.elliptic);
            let mut rest = block[28..32].iter().chain(&block[48..64]);
            assert!(rest.all(|&byte| byte == 0));
            match stored.answer {
                18 | 20 => assert!(block[5248..].iter().all(|&byte| byte == 0)),
                answer => assert_eq!(block[2304..5248] == block[5248..], answer < 64),
            }
        }
    }

    /// Faults that are planted are found by the stored answers too.
    #[test]
    fn faults_are_found() {
        testing::faults_are_found(&FILL_FAULTS, Stored::unlike_the_library);
    }

    #[test]
    fn a_wrong_answer_is_seen() {
        changes_are_seen::<Stored>(24, &[(18, 5248, 1), (19, 6, 1)]);
    }
}
