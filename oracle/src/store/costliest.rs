//! `costliest.bin`: a block of 8,192 bytes for each case, files and refusals by the rule.
//!
//! Words, little endian: g, the length of the output, the answer, then zeros to byte 64. At 64 the output before, at 3,520 the output
//! after, 3,456 bytes each. What is left of each part, and of the block, is 0.

use super::blocks::{bytes_of, laid, unlike, words_of, Block};
use crate::costliest::cases::Case;
use crate::costliest::{called, Write};
use crate::ffi;
use crate::open::out_byte;
use crate::original::Verdict;
use crate::rule;
use crate::rule::costliest::needed;

const OUT_BEFORE: usize = 64;
const OUT_PART: usize = 3456;
const OUT_AFTER: usize = OUT_BEFORE + OUT_PART;

/// Grids whose file does not fit, each refused by 9, and words that are refused by 3.
const OTHERS: [u32; 10] = [6, 7, 16, 255, 256, 0, 257, 258, 65_537, u32::MAX];

/// One call with its answer, the output before and after it.
pub(super) struct Stored {
    g: u32,
    answer: u64,
    out: [Vec<u8>; 2],
}

/// The rule's answer, and the output after it.
fn by_rule(g: u32, out: &[u8]) -> (u64, Vec<u8>) {
    let mut out = out.to_vec();
    let answer = rule::costliest::write(g, &mut out);
    (answer, out)
}

/// Lengths to write a grid's file in: less than a header, a header, one byte short, just enough, more.
fn lengths(g: u32) -> Vec<usize> {
    let needed = needed(g) as usize;
    let more = needed + 900 + 7 * g as usize;
    vec![0, 63, 64, needed - 1, needed, needed + 1, more]
}

impl Block for Stored {
    const LENGTH: usize = 8192;
    type Case = Case;

    /// Grids whose files fit, then the others.
    fn cases() -> Vec<Case> {
        let files = (1..=5).flat_map(|g| lengths(g).into_iter().map(move |out| (g, out)));
        let others = OTHERS.into_iter();
        let others = others.flat_map(|g| [0, 64, 80, OUT_PART].map(|out| (g, out)));
        let cases = (0..).zip(files.chain(others));
        cases
            .map(|(junk, (grid, out))| Case { grid, out, junk })
            .collect()
    }

    fn of(case: Case) -> Self {
        let out: Vec<u8> = (0..case.out).map(|at| out_byte(case.junk, at)).collect();
        let (answer, after) = by_rule(case.grid, &out);
        Self {
            g: case.grid,
            answer,
            out: [out, after],
        }
    }

    fn block(&self) -> Vec<u8> {
        let words = [self.g, self.out[0].len() as u32, self.answer as u32];
        let parts: [(usize, &[u8]); 3] = [
            (0, &bytes_of(&words)),
            (OUT_BEFORE, &self.out[0]),
            (OUT_AFTER, &self.out[1]),
        ];
        laid(Self::LENGTH, &parts)
    }

    fn read(block: &[u8]) -> Option<Self> {
        let words = words_of(&block[..12]);
        let out = words[1] as usize;
        let part = |at: usize| block[at..at + out].to_vec();
        (out <= OUT_PART).then(|| Self {
            g: words[0],
            answer: u64::from(words[2]),
            out: [OUT_BEFORE, OUT_AFTER].map(part),
        })
    }

    fn verdict(&self) -> Verdict {
        let wrong = self.unlike_the_library(ffi::write_costliest);
        Verdict::by_rule(wrong.or_else(|| self.unlike_the_rule()))
    }
}

impl Stored {
    fn unlike_the_library(&self, write: Write) -> Option<String> {
        let (answer, out, besides) = called(write, self.g, &self.out[0]);
        unlike("library", &self.answer, &answer, out == self.out[1]).or(besides)
    }

    fn unlike_the_rule(&self) -> Option<String> {
        let (answer, out) = by_rule(self.g, &self.out[0]);
        unlike("rule", &self.answer, &answer, out == self.out[1])
    }
}

#[cfg(test)]
mod tests {
    use super::super::blocks::testing::{self, changes_are_seen, read_back};
    use super::*;
    use crate::costliest::plain::WRITE_FAULTS;
    use crate::search::tally;

    /// Files of g 1 to 5, each three times; both refusals.
    #[test]
    fn cases_hold_every_answer() {
        let stored = Stored::cases().into_iter().map(Stored::of);
        let answers = tally(stored.map(|stored| stored.answer));
        let files = (1..=5).map(|g| (needed(g), 3));
        let refusals = [(3, 20), (9, 40)].into_iter();
        assert!(answers.into_iter().eq(refusals.chain(files)));
    }

    /// Blocks are laid out as the head of this file says, and are read back.
    #[test]
    fn blocks_hold_the_cases() {
        for (case, block, stored) in read_back::<Stored>(75 * 8192) {
            let words = [case.grid, case.out as u32, stored.answer as u32];
            assert_eq!(words_of(&block[..12]), words);
            let (before, after) = (&block[64..3520], &block[3520..6976]);
            let rest = [&block[12..64], &before[case.out..], &after[case.out..]];
            let mut rest = rest.iter().copied().chain([&block[6976..]]).flatten();
            assert!(rest.all(|&byte| byte == 0));
            let written = stored.answer.max(64) as usize;
            assert_eq!(
                before[written.min(case.out)..],
                after[written.min(case.out)..]
            );
            match stored.answer {
                3 | 9 => assert_eq!(before, after),
                _ => assert_eq!(after[..written], rule::costliest::file(case.grid)),
            }
        }
    }

    /// Faults that are planted are found by the stored answers too.
    #[test]
    fn faults_are_found() {
        testing::faults_are_found(&WRITE_FAULTS, Stored::unlike_the_library);
    }

    #[test]
    fn a_wrong_answer_is_seen() {
        changes_are_seen::<Stored>(8, &[(18, 3520, 1), (19, 6, 1)]);
    }
}
