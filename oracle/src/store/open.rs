//! `open.bin`: a block of 4,096 bytes for each case, answers by the rule.
//!
//! Words, little endian: the lengths of the file, of scratch (words), of the output and of the journal (words), the answer,
//! then zeros to byte 64. At 64 the file, at 1,088 the output before, at 2,112 the output after, 1,024 bytes each; at 3,136 the
//! journal before, at 3,392 the journal after, 64 words each. What is left of each part, and of the block, is 0.

use super::blocks::{bytes_of, in_turn, kept, laid, lend, unlike, words_of, Block};
use crate::ffi;
use crate::lent::Lent;
use crate::open::cases::{Case, KINDS};
use crate::open::{journal_word, out_byte, Open};
use crate::original::Verdict;
use crate::rule;

const CASES: usize = 400;

const PART: usize = 1024;
const WORDS: usize = 64;

const FILE: usize = 64;
const OUT_BEFORE: usize = FILE + PART;
const OUT_AFTER: usize = OUT_BEFORE + PART;
const JOURNAL_BEFORE: usize = OUT_AFTER + PART;
const JOURNAL_AFTER: usize = JOURNAL_BEFORE + 4 * WORDS;

const SEED: u64 = 0x6f70_656e;

/// One call with its answer.
#[derive(Clone)]
pub(super) struct Stored {
    file: Vec<u8>,
    scratch: usize,
    out: [Vec<u8>; 2],
    journal: [Vec<u32>; 2],
    answer: u64,
}

/// Whether a case is small and fits into a block.
fn fits(case: &Case) -> bool {
    case.grid <= 6
        && case.records <= 40
        && case.file.len() <= PART
        && case.scratch <= 220
        && case.out <= PART
        && case.journal <= WORDS
}

impl Block for Stored {
    const LENGTH: usize = 4096;
    type Case = Case;

    /// The kinds in turn, each with the next of its cases that fits.
    fn cases() -> Vec<Case> {
        in_turn(&KINDS, SEED, fits, CASES)
    }

    fn of(case: Case) -> Self {
        let out: Vec<u8> = (0..case.out).map(|at| out_byte(case.junk, at)).collect();
        let journal: Vec<u32> = (0..case.journal)
            .map(|at| journal_word(case.junk, at))
            .collect();
        let mut stored = Self {
            file: case.file,
            scratch: case.scratch,
            out: [out.clone(), out],
            journal: [journal.clone(), journal],
            answer: 0,
        };
        stored.by_rule();
        stored
    }

    fn block(&self) -> Vec<u8> {
        let lengths = [
            self.file.len(),
            self.scratch,
            self.out[0].len(),
            self.journal[0].len(),
        ];
        let words = lengths.map(|length| length as u32);
        let parts: [(usize, &[u8]); 7] = [
            (0, &bytes_of(&words)),
            (16, &bytes_of(&[self.answer as u32])),
            (FILE, &self.file),
            (OUT_BEFORE, &self.out[0]),
            (OUT_AFTER, &self.out[1]),
            (JOURNAL_BEFORE, &bytes_of(&self.journal[0])),
            (JOURNAL_AFTER, &bytes_of(&self.journal[1])),
        ];
        laid(Self::LENGTH, &parts)
    }

    fn read(block: &[u8]) -> Option<Self> {
        let [file, scratch, out, journal, answer] =
            [0, 4, 8, 12, 16].map(|at| words_of(&block[at..at + 4])[0] as usize);
        if file > PART || out > PART || journal > WORDS {
            return None;
        }
        let bytes = |at: usize| block[at..at + out].to_vec();
        let words = |at: usize| words_of(&block[at..at + 4 * journal]);
        Some(Self {
            file: block[FILE..FILE + file].to_vec(),
            scratch,
            out: [bytes(OUT_BEFORE), bytes(OUT_AFTER)],
            journal: [words(JOURNAL_BEFORE), words(JOURNAL_AFTER)],
            answer: answer as u64,
        })
    }

    fn verdict(&self) -> Verdict {
        let wrong = self.unlike_the_library(ffi::open);
        Verdict::by_rule(wrong.or_else(|| self.differs("rule", Self::by_rule)))
    }
}

impl Stored {
    /// Applies the rule to the buffers before, in the place of those after.
    fn by_rule(&mut self) -> bool {
        let ([before, out], [words, journal]) = (&mut self.out, &mut self.journal);
        out.clone_from(before);
        journal.clone_from(words);
        self.answer = rule::open(&self.file, self.scratch as u64, out, journal);
        true
    }

    /// The same for the library, and whether it kept to its buffers.
    fn by_library(&mut self, open: Open) -> bool {
        let mut lent = lend(&self.file, self.scratch, &self.out[0]);
        let mut journal = Lent::new();
        journal.fill(0, self.journal[0].iter().copied());
        self.answer = open(
            lent.file.slice(),
            lent.scratch.slice_mut(),
            lent.out.slice_mut(),
            journal.slice_mut(),
        );
        self.out[1] = lent.out.slice().to_vec();
        self.journal[1] = journal.slice().to_vec();
        kept(&lent, &self.file, self.answer) && journal.intact()
    }

    fn unlike_the_library(&self, open: Open) -> Option<String> {
        self.differs("library", |told| told.by_library(open))
    }

    fn differs(&self, by: &str, run: impl Fn(&mut Self) -> bool) -> Option<String> {
        let mut told = self.clone();
        let kept = run(&mut told);
        let same = kept && told.out == self.out && told.journal == self.journal;
        unlike(by, &self.answer, &told.answer, same)
    }
}

#[cfg(test)]
mod tests {
    use super::super::blocks::testing::{changes_are_seen, read_back};
    use super::*;
    use crate::open::plain::{Twice, OPENS};
    use crate::search::tally;

    /// Every answer is well represented, by small files of every grid size.
    #[test]
    fn cases_hold_every_answer() {
        let grids = tally(Stored::cases().iter().map(|case| case.grid));
        let stored = Stored::cases().into_iter().map(Stored::of);
        let answers = tally(stored.map(|stored| stored.answer.min(64)));
        assert!(
            answers.keys().eq(&[1, 2, 3, 4, 5, 6, 7, 8, 9, 13, 21, 64]),
            "{answers:?}"
        );
        assert!(answers.values().all(|&cases| cases >= 8), "{answers:?}");
        assert!(answers[&64] > 100, "{answers:?}");
        assert!(grids.keys().eq(&[1, 2, 3, 4, 5, 6]), "{grids:?}");
    }

    /// Blocks are laid out as the head of this file says, and are read back.
    #[test]
    fn blocks_hold_the_cases() {
        for (case, block, stored) in read_back::<Stored>(400 * 4096) {
            assert_eq!(block[64..64 + case.file.len()], case.file);
            let lengths = [case.file.len(), case.scratch, case.out, case.journal];
            assert_eq!(words_of(&block[..16]), lengths.map(|length| length as u32));
            assert!(block[20..64]
                .iter()
                .chain(&block[3648..])
                .all(|&byte| byte == 0));
            let refused = stored.answer < 64;
            assert_eq!(block[1088..2112] == block[2112..3136], refused);
            assert_eq!(block[3136..3392] == block[3392..3648], refused);
        }
    }

    /// Faults of 21 are found by the stored answers too, but for the one that needs a greater grid.
    #[test]
    fn faults_are_found() {
        let stored: Vec<Stored> = Stored::cases().into_iter().map(Stored::of).collect();
        let seen = |open: Open| stored.iter().any(|s| s.unlike_the_library(open).is_some());
        let unseen = OPENS.iter().filter(|(_, faulty, _)| !seen(*faulty));
        let unseen: Vec<Twice> = unseen.map(|(fault, _, _)| *fault).collect();
        assert_eq!(unseen, [Twice::ByCell16]);
    }

    #[test]
    fn a_wrong_answer_is_seen() {
        changes_are_seen::<Stored>(16, &[(18, 1, 0xff)]);
    }
}
