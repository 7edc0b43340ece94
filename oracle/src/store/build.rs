//! `build.bin`: a block of 8,192 bytes for each case; the trees are the original's, refusals the rule's.
//!
//! Words, little endian: the lengths of the file, of scratch (words) and of the output, the answer, the node count and the order
//! count, then zeros to byte 64. At 64 the file, 1,024 bytes; at 1,088 the output before, at 4,544 the output after, 3,456 bytes
//! each. What is left of each part, and of the block, is 0.

use super::blocks::{bytes_of, in_turn, kept, laid, lend, unlike, words_of, Block};
use crate::build::cases::KINDS;
use crate::build::{scratch_cases, unlike_the_original, Build};
use crate::ffi::{self, Built};
use crate::open::cases::Case;
use crate::open::out_byte;
use crate::original::{self, Answered, Verdict};
use crate::rule;

const CASES: usize = 350;

const FILE_PART: usize = 1024;
const OUT_PART: usize = 3456;

const FILE: usize = 64;
const OUT_BEFORE: usize = FILE + FILE_PART;
const OUT_AFTER: usize = OUT_BEFORE + OUT_PART;

const SEED: u64 = 0x6275_694b;

/// One call with its answer.
#[derive(Clone)]
pub(super) struct Stored {
    file: Vec<u8>,
    scratch: usize,
    out: [Vec<u8>; 2],
    built: Built,
}

/// Whether a case is small and fits into a block.
fn fits(case: &Case) -> bool {
    case.grid <= 6
        && case.records <= 60
        && case.file.len() <= FILE_PART
        && case.scratch <= 256
        && case.out <= OUT_PART
}

impl Block for Stored {
    const LENGTH: usize = 8192;
    type Case = Case;

    /// The fixed cases of scratch that fit, then the kinds in turn, each with the next of its cases that does.
    fn cases() -> Vec<Case> {
        let mut cases: Vec<Case> = scratch_cases().filter(fits).collect();
        cases.extend(in_turn(&KINDS, SEED, fits, CASES - cases.len()));
        cases
    }

    /// The tree and the counts are the original's where it is at hand.
    fn of(case: Case) -> Self {
        let out: Vec<u8> = (0..case.out).map(|at| out_byte(case.junk, at)).collect();
        let mut stored = Self {
            file: case.file,
            scratch: case.scratch,
            out: [out.clone(), out],
            built: Built::refused(0),
        };
        stored.by_rule();
        if stored.built.answer >= 64 {
            if let Some((tree, built)) = original::tree(&stored.file).map(Answered::taken) {
                stored.out[1][..tree.len()].copy_from_slice(&tree);
                stored.built = built;
            }
        }
        stored
    }

    fn block(&self) -> Vec<u8> {
        let lengths = [self.file.len(), self.scratch, self.out[0].len()];
        let built = [self.built.answer, self.built.nodes, self.built.order];
        let parts: [(usize, &[u8]); 5] = [
            (0, &bytes_of(&lengths.map(|length| length as u32))),
            (12, &bytes_of(&built.map(|number| number as u32))),
            (FILE, &self.file),
            (OUT_BEFORE, &self.out[0]),
            (OUT_AFTER, &self.out[1]),
        ];
        laid(Self::LENGTH, &parts)
    }

    fn read(block: &[u8]) -> Option<Self> {
        let [file, scratch, out, answer, nodes, order] =
            [0, 4, 8, 12, 16, 20].map(|at| words_of(&block[at..at + 4])[0]);
        let [file, scratch, out] = [file, scratch, out].map(|length| length as usize);
        if file > FILE_PART || out > OUT_PART {
            return None;
        }
        let bytes = |at: usize| block[at..at + out].to_vec();
        Some(Self {
            file: block[FILE..FILE + file].to_vec(),
            scratch,
            out: [bytes(OUT_BEFORE), bytes(OUT_AFTER)],
            built: Built {
                answer: u64::from(answer),
                nodes: u64::from(nodes),
                order: u64::from(order),
            },
        })
    }

    fn verdict(&self) -> Verdict {
        let wrong = self.unlike_the_library(ffi::build);
        Verdict::by_rule(wrong.or_else(|| self.differs("rule", Self::by_rule)))
            .and(|| unlike_the_original(&self.file, self.built, &self.out[1]))
    }
}

impl Stored {
    /// Applies the rule to the output before, in the place of that after.
    fn by_rule(&mut self) -> bool {
        let [before, out] = &mut self.out;
        out.clone_from(before);
        self.built = rule::tree::build(&self.file, self.scratch as u64, out);
        true
    }

    /// The same for the library, and whether it kept to its buffers.
    fn by_library(&mut self, build: Build) -> bool {
        let mut lent = lend(&self.file, self.scratch, &self.out[0]);
        let (scratch, out) = (lent.scratch.slice_mut(), lent.out.slice_mut());
        self.built = build(lent.file.slice(), scratch, out);
        self.out[1] = lent.out.slice().to_vec();
        kept(&lent, &self.file, self.built.answer)
    }

    fn unlike_the_library(&self, build: Build) -> Option<String> {
        self.differs("library", |told| told.by_library(build))
    }

    fn differs(&self, by: &str, run: impl Fn(&mut Self) -> bool) -> Option<String> {
        let mut told = self.clone();
        let kept = run(&mut told);
        unlike(by, &self.built, &told.built, kept && told.out == self.out)
    }
}

#[cfg(test)]
mod tests {
    use super::super::blocks::testing::{self, changes_are_seen, read_back};
    use super::*;
    use crate::build::plain::FAULTS;
    use crate::search::tally;

    /// Every answer is well represented, by small files of every grid size; trees of many lengths.
    #[test]
    fn cases_hold_every_answer() {
        let grids = tally(Stored::cases().iter().map(|case| case.grid));
        let stored: Vec<Stored> = Stored::cases().into_iter().map(Stored::of).collect();
        let answers = tally(stored.iter().map(|stored| stored.built.answer.min(64)));
        let trees = tally(stored.iter().map(|stored| stored.built.nodes));
        assert!(
            answers.keys().eq(&[1, 2, 3, 4, 5, 6, 7, 8, 9, 21, 22, 64]),
            "{answers:?}"
        );
        assert!(answers.values().all(|&cases| cases >= 4), "{answers:?}");
        assert!(answers[&64] > 150, "{answers:?}");
        assert!(grids.keys().eq(&[1, 2, 3, 4, 5, 6]), "{grids:?}");
        assert!(trees.len() > 8, "{trees:?}");
    }

    /// Files in working form with just the words that they need, with a word less and with one for each cell; others with these and with a word
    /// less; each of them at every grid size.
    #[test]
    fn cases_hold_both_sizes() {
        let told = |case: &Case| {
            let [pairs, cells] = [case.grid.pow(3).div_ceil(32) * 2, case.grid.pow(3)];
            let sizes = [pairs, pairs - 1, cells, cells - 1];
            let size = sizes.iter().position(|&size| size == case.scratch)?;
            let good = rule::judge(&case.file).is_none();
            good.then(|| (rule::working(&case.file), size))
        };
        let cases = Stored::cases();
        let seen = tally(cases.iter().filter_map(told));
        for met in [
            (true, 0),
            (true, 1),
            (true, 2),
            (false, 0),
            (false, 2),
            (false, 3),
        ] {
            assert!(seen[&met] >= 8, "{seen:?}");
        }
    }

    /// Blocks are laid out as the head of this file says, and are read back.
    #[test]
    fn blocks_hold_the_cases() {
        for (case, block, stored) in read_back::<Stored>(350 * 8192) {
            assert_eq!(block[64..64 + case.file.len()], case.file);
            let lengths = [case.file.len(), case.scratch, case.out];
            assert_eq!(words_of(&block[..12]), lengths.map(|length| length as u32));
            assert!(block[24..64]
                .iter()
                .chain(&block[8000..])
                .all(|&byte| byte == 0));
            let refused = stored.built.answer < 64;
            assert_eq!(block[1088..4544] == block[4544..8000], refused);
            assert_eq!(words_of(&block[16..24]) == [0, 0], refused);
        }
    }

    /// Faults that are planted in a tree are found by the stored answers too.
    #[test]
    fn faults_are_found() {
        testing::faults_are_found(&FAULTS, Stored::unlike_the_library);
    }

    #[test]
    fn a_wrong_answer_is_seen() {
        changes_are_seen::<Stored>(12, &[(18, 20, 1), (19, 1, 0xff)]);
    }
}
