//! `edit.bin`: a block of 8,192 bytes for each history, answers by the rule.
//!
//! Words, little endian: the lengths of the file's buffer and of the journal (words), the number of calls, then zeros to byte 64.
//! At 64 the file's buffer before, 1,024 bytes; at 1,088 the journal before, 64 words; at 1,344 the calls, 24 of 24 bytes, words
//! kind (1 put, 2 remove, 3 undo), x, y, z and the masses' float bits; at 1,920 the answers, 24 words; at 2,016 the file's buffer
//! after the last call; at 3,040 the journal after it. What a call has no use for, and what is left of each part, is 0.

use super::blocks::{bytes_of, laid, words_of, Block};
use crate::edit::cases::{Case, DAMAGED, HISTORIES};
use crate::edit::{library, small_fixed, Edit};
use crate::lent::Lent;
use crate::original::Verdict;
use crate::rule;
use crate::rule::edit::Call;

const CASES: usize = 250;

const PART: usize = 1024;
const WORDS: usize = 64;
const CALLS: usize = 24;
const CALL: usize = 24;

const FILE_BEFORE: usize = 64;
const JOURNAL_BEFORE: usize = FILE_BEFORE + PART;
const CALLS_AT: usize = JOURNAL_BEFORE + 4 * WORDS;
const ANSWERS: usize = CALLS_AT + CALLS * CALL;
const FILE_AFTER: usize = ANSWERS + 4 * CALLS;
const JOURNAL_AFTER: usize = FILE_AFTER + PART;

/// Cases of each kind in a round: histories, their buffers as open leaves them, and damage, twice where it has many ways.
const OPENED: usize = 5;
const OF_MANY_WAYS: [&str; 4] = [
    "header words",
    "not in working form",
    "journal words",
    "last entries",
];

const SEED: u64 = 0x6564_6974;

/// Calls in turn with their answers, and both buffers before and after them.
#[derive(Clone)]
pub(super) struct Stored {
    file: [Vec<u8>; 2],
    journal: [Vec<u32>; 2],
    calls: Vec<Call>,
    answers: Vec<u64>,
}

fn call_words(call: &Call) -> [u32; 6] {
    match *call {
        Call::Put {
            cell: [x, y, z],
            masses: [cauchy, elliptic],
        } => [1, x, y, z, cauchy, elliptic],
        Call::Remove { cell: [x, y, z] } => [2, x, y, z, 0, 0],
        Call::Undo => [3, 0, 0, 0, 0, 0],
    }
}

/// The call in six words, or nothing where they are none.
fn call_of(words: &[u32]) -> Option<Call> {
    match *words {
        [1, x, y, z, cauchy, elliptic] => Some(Call::Put {
            cell: [x, y, z],
            masses: [cauchy, elliptic],
        }),
        [2, x, y, z, 0, 0] => Some(Call::Remove { cell: [x, y, z] }),
        [3, 0, 0, 0, 0, 0] => Some(Call::Undo),
        _ => None,
    }
}

/// Whether a case is small and fits into a block.
fn fits(case: &Case) -> bool {
    case.grid <= 6
        && case.file.len() <= PART
        && case.journal.len() <= WORDS
        && case.calls.len() <= CALLS
}

impl Block for Stored {
    const LENGTH: usize = 8192;
    type Case = Case;

    /// The small fixed cases, then the kinds in turn, each with the next of its cases that fit.
    fn cases() -> Vec<Case> {
        let mut opened: Vec<_> = HISTORIES
            .iter()
            .map(|kind| {
                let histories = (0..kind.cases).map(|number| kind.history(SEED, number));
                let small = histories.filter(|history| history.grid <= 6);
                small.map(|history| history.opened()).filter(fits)
            })
            .collect();
        let mut damaged: Vec<_> = DAMAGED
            .iter()
            .map(|kind| {
                let cases = (0..kind.cases).map(|number| kind.case(SEED, number));
                let some = 1 + usize::from(OF_MANY_WAYS.contains(&kind.name));
                (cases.filter(fits), some)
            })
            .collect();
        // Long histories and large grids have none that fit.
        opened.retain_mut(|cases| cases.next().is_some());
        let fixed = small_fixed();
        let mut cases: Vec<Case> = fixed.iter().map(|fixed| (fixed.case)()).collect();
        while cases.len() < CASES {
            cases.extend(opened.iter_mut().flat_map(|kind| kind.take(OPENED)));
            cases.extend(damaged.iter_mut().flat_map(|(kind, some)| kind.take(*some)));
        }
        cases.truncate(CASES);
        cases
    }

    fn of(case: Case) -> Self {
        let mut stored = Self {
            file: [case.file.clone(), case.file],
            journal: [case.journal.clone(), case.journal],
            calls: case.calls,
            answers: Vec::new(),
        };
        stored.run(rule::edit::edit);
        stored
    }

    fn block(&self) -> Vec<u8> {
        let lengths = [self.file[0].len(), self.journal[0].len(), self.calls.len()];
        let calls: Vec<u32> = self.calls.iter().flat_map(call_words).collect();
        let answers: Vec<u32> = self.answers.iter().map(|&answer| answer as u32).collect();
        let parts: [(usize, &[u8]); 7] = [
            (0, &bytes_of(&lengths.map(|length| length as u32))),
            (FILE_BEFORE, &self.file[0]),
            (JOURNAL_BEFORE, &bytes_of(&self.journal[0])),
            (CALLS_AT, &bytes_of(&calls)),
            (ANSWERS, &bytes_of(&answers)),
            (FILE_AFTER, &self.file[1]),
            (JOURNAL_AFTER, &bytes_of(&self.journal[1])),
        ];
        laid(Self::LENGTH, &parts)
    }

    /// Nothing where a call is none, too.
    fn read(block: &[u8]) -> Option<Self> {
        let [file, journal, count] = [0, 4, 8].map(|at| words_of(&block[at..at + 4])[0] as usize);
        if file > PART || journal > WORDS || count > CALLS {
            return None;
        }
        let bytes = |at: usize| block[at..at + file].to_vec();
        let words = |at: usize, count: usize| words_of(&block[at..at + 4 * count]);
        let calls = words(CALLS_AT, count * CALL / 4);
        let answers = words(ANSWERS, count).into_iter().map(u64::from);
        Some(Self {
            file: [FILE_BEFORE, FILE_AFTER].map(bytes),
            journal: [JOURNAL_BEFORE, JOURNAL_AFTER].map(|at| words(at, journal)),
            calls: calls.chunks(CALL / 4).map(call_of).collect::<Option<_>>()?,
            answers: answers.collect(),
        })
    }

    fn verdict(&self) -> Verdict {
        let wrong = self.differs("library", library);
        Verdict::by_rule(wrong.or_else(|| self.differs("rule", rule::edit::edit)))
    }
}

impl Stored {
    /// Makes the calls on the buffers before, in the place of those after; whether no write went outside them.
    fn run(&mut self, edit: Edit) -> bool {
        let (mut file, mut journal) = (Lent::new(), Lent::new());
        file.fill(0, self.file[0].iter().copied());
        journal.fill(0, self.journal[0].iter().copied());
        let answer = |call| edit(file.slice_mut(), journal.slice_mut(), call);
        self.answers = self.calls.iter().map(answer).collect();
        self.file[1] = file.slice().to_vec();
        self.journal[1] = journal.slice().to_vec();
        file.intact() && journal.intact()
    }

    fn differs(&self, by: &str, edit: Edit) -> Option<String> {
        let mut told = self.clone();
        let kept = told.run(edit);
        let mut calls = self.answers.iter().zip(&told.answers);
        if let Some(at) = calls.position(|(a, b)| a != b) {
            let (stored, told) = (self.answers[at], told.answers[at]);
            return Some(format!("call {at}: stored {stored}, {by} {told}"));
        }
        let same = told.file == self.file && told.journal == self.journal;
        (!same || !kept).then(|| format!("{by}: other bytes after the last call"))
    }
}

#[cfg(test)]
mod tests {
    use super::super::blocks::testing::{changes_are_seen, read_back};
    use super::*;
    use crate::edit::plain::{Fault, FAULTS};
    use crate::search::tally;

    /// Every answer is well represented, by small grids and one great one; most buffers are as open leaves them.
    #[test]
    fn cases_hold_every_answer() {
        let cases = Stored::cases();
        let grids = tally(cases.iter().map(|case| case.grid));
        let lengths = tally(cases.iter().map(|case| case.calls.len()));
        let as_opened =
            |case: &&Case| case.journal.first() == Some(&0) && rule::judge(&case.file).is_none();
        let opened = cases.iter().filter(as_opened).count();
        let stored = cases.into_iter().map(Stored::of);
        let answers = tally(stored.flat_map(|stored| stored.answers).map(|a| a.min(64)));
        let all = [1, 2, 3, 4, 5, 6, 7, 10, 11, 12, 13, 14, 15, 16, 64];
        assert!(answers.keys().eq(&all), "{answers:?}");
        assert!(answers.values().all(|&calls| calls >= 4), "{answers:?}");
        assert!(answers[&64] > 500, "{answers:?}");
        assert!(grids.keys().eq(&[1, 2, 3, 4, 5, 6, 256]), "{grids:?}");
        assert!(lengths.len() > 20, "{lengths:?}");
        assert!(opened > 150, "{opened}");
    }

    /// Blocks are laid out as the head of this file says, and are read back.
    #[test]
    fn blocks_hold_the_cases() {
        for (case, block, stored) in read_back::<Stored>(250 * 8192) {
            let lengths = [case.file.len(), case.journal.len(), case.calls.len()];
            assert_eq!(words_of(&block[..12]), lengths.map(|length| length as u32));
            assert_eq!(block[64..64 + case.file.len()], case.file);
            let journal = bytes_of(&case.journal);
            assert_eq!(block[1088..1088 + journal.len()], journal);
            let outside = block[12..64].iter().chain(&block[3296..]);
            assert!(outside.clone().all(|&byte| byte == 0));
            assert_eq!(stored.calls.len(), lengths[2]);
            for (at, call) in case.calls.iter().enumerate() {
                let words = words_of(&block[1344 + 24 * at..1368 + 24 * at]);
                assert_eq!(call_of(&words), Some(*call));
            }
            let answers = words_of(&block[1920..1920 + 4 * lengths[2]]);
            if answers.iter().all(|&answer| answer < 64) {
                assert_eq!(block[64..1088], block[2016..3040]);
                assert_eq!(block[1088..1344], block[3040..3296]);
            }
        }
    }

    /// Faults are found by the stored answers too, but for those that need a journal of 2^24 entries.
    #[test]
    fn faults_are_found() {
        let stored: Vec<Stored> = Stored::cases().into_iter().map(Stored::of).collect();
        let seen = |edit: Edit| stored.iter().any(|s| s.differs("library", edit).is_some());
        let unseen = FAULTS.iter().filter(|(_, faulty, _)| !seen(*faulty));
        let unseen = unseen.map(|(fault, _, _)| *fault);
        let unseen: Vec<Fault> = unseen.collect();
        assert_eq!(unseen, [Fault::OneEntryFewer, Fault::OneEntryMore]);
    }

    #[test]
    fn a_wrong_answer_is_seen() {
        let others = [
            (18, FILE_AFTER + 70, 1),
            (19, JOURNAL_AFTER, 1),
            (20, 8, 0x80),
            (21, CALLS_AT, 4),
        ];
        changes_are_seen::<Stored>(ANSWERS, &others);
    }
}
