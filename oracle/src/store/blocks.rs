//! Stored answers in blocks of one length: the parts of a block, the cases taken in turn, the replay of all of them.

use crate::lent::{mixed, Buffers};
use crate::open::cases::Kind;
use crate::original::Verdict;
use crate::report::Found;
use crate::search::Search;
use std::fmt::Display;

/// A stored call, or list of calls, with its answer, in a block of its own.
pub(super) trait Block: Sized {
    const LENGTH: usize;
    type Case;

    /// The cases that are stored, in their order.
    fn cases() -> Vec<Self::Case>;

    /// The case with its answer: the rule's, and the original's where it has one and is at hand.
    fn of(case: Self::Case) -> Self;

    fn block(&self) -> Vec<u8>;

    /// What stands in a block, or nothing where a length is past its part.
    fn read(block: &[u8]) -> Option<Self>;

    /// What is wrong with it, by the library, by the rule or by the original.
    fn verdict(&self) -> Verdict;
}

/// The bytes of a file of stored answers.
pub(super) fn bytes<B: Block>() -> Vec<u8> {
    let stored = B::cases().into_iter().map(B::of);
    stored.flat_map(|stored| stored.block()).collect()
}

/// Holds the library, the rule and the original to the stored answers.
pub(super) fn replay<B: Block>(stored: &[u8]) -> Found {
    replay_by(B::LENGTH, stored, |block| match B::read(block) {
        Some(stored) => stored.verdict(),
        None => Verdict::by_rule(Some("a length past its part, or a call of no kind".into())),
    })
}

/// Looks at each block of this length with `verdict`.
pub(super) fn replay_by(length: usize, stored: &[u8], verdict: impl Fn(&[u8]) -> Verdict) -> Found {
    let mut search = Search::default();
    let blocks = stored.chunks_exact(length);
    let rest = blocks.remainder();
    for (number, block) in (0..).zip(blocks) {
        let told = |what| format!("case {number}: {what}");
        search.note(length, number, verdict(block).told(told));
    }
    if !rest.is_empty() {
        search.note_first(0, "the file ends inside a case".into());
    }
    search.found()
}

/// What is told where an answer, or the bytes that go with it, are not as stored.
pub(super) fn unlike<A: PartialEq + Display>(
    by: &str,
    stored: &A,
    told: &A,
    same_bytes: bool,
) -> Option<String> {
    if told != stored {
        return Some(format!("stored {stored}, {by} {told}"));
    }
    (!same_bytes).then(|| format!("stored {stored}, {by} has other bytes"))
}

pub(super) fn bytes_of(words: &[u32]) -> Vec<u8> {
    words.iter().flat_map(|word| word.to_le_bytes()).collect()
}

pub(super) fn words_of(bytes: &[u8]) -> Vec<u32> {
    let (words, _) = bytes.as_chunks::<4>();
    words.iter().map(|word| u32::from_le_bytes(*word)).collect()
}

/// A block with each part from its byte on, 0 elsewhere.
pub(super) fn laid(length: usize, parts: &[(usize, &[u8])]) -> Vec<u8> {
    let mut block = vec![0; length];
    for (at, bytes) in parts {
        block[*at..at + bytes.len()].copy_from_slice(bytes);
    }
    block
}

/// The kinds in turn, each with the next of its cases that fits; so many cases in all.
pub(super) fn in_turn<C>(
    kinds: &[Kind<C>],
    seed: u64,
    fits: fn(&C) -> bool,
    count: usize,
) -> Vec<C> {
    let small = kinds.iter().map(|kind| {
        (0..kind.cases)
            .map(|number| kind.case(seed, number))
            .filter(fits)
    });
    let mut small: Vec<_> = small.collect();
    let mut cases = Vec::with_capacity(count);
    while cases.len() < count {
        cases.extend(small.iter_mut().filter_map(Iterator::next));
    }
    cases.truncate(count);
    cases
}

/// A word of scratch before a call.
fn scratch_word(at: usize) -> u32 {
    mixed(1, at)
}

/// The buffers of a stored call to open or build, as they are before it.
pub(super) fn lend(file: &[u8], scratch: usize, out: &[u8]) -> Buffers {
    let mut lent = Buffers::new();
    lent.file.fill(0, file.iter().copied());
    lent.scratch.fill(0, (0..scratch).map(scratch_word));
    lent.out.fill(0, out.iter().copied());
    lent
}

/// Whether a call of this answer kept to the buffers, left the file as it was, and scratch where it has to.
pub(super) fn kept(lent: &Buffers, file: &[u8], answer: u64) -> bool {
    let told = lent
        .broken()
        .or_else(|| lent.scratched(answer, scratch_word));
    told.is_none() && lent.file.slice() == file
}

/// What the tests of the stored answers share.
#[cfg(test)]
pub(super) mod testing {
    use super::*;

    /// Each case with its block and what is read back from that, which has the same block; so many bytes in all.
    pub(in super::super) fn read_back<B: Block>(length: usize) -> Vec<(B::Case, Vec<u8>, B)> {
        let bytes = bytes::<B>();
        assert_eq!(bytes.len(), length);
        let blocks = bytes.chunks_exact(B::LENGTH);
        assert!(blocks.remainder().is_empty());
        let cases = B::cases();
        assert_eq!(blocks.len(), cases.len());
        let read = cases.into_iter().zip(blocks).map(|(case, block)| {
            let stored = B::read(block).expect("a case");
            assert_eq!(stored.block(), block);
            (case, block.to_vec(), stored)
        });
        read.collect()
    }

    /// Faults that are planted are found by the stored answers; each is named by what shows it elsewhere.
    pub(in super::super) fn faults_are_found<B: Block, F: Copy>(
        faults: &[(F, &str)],
        unlike: fn(&B, F) -> Option<String>,
    ) {
        let stored: Vec<B> = B::cases().into_iter().map(B::of).collect();
        for (number, &(faulty, name)) in faults.iter().enumerate() {
            let found = stored.iter().any(|stored| unlike(stored, faulty).is_some());
            assert!(found, "fault {number}, shown by {name}");
        }
    }

    /// A changed answer is seen, at this byte of a block; so are changes elsewhere, by block, byte and bits, and a cut end.
    pub(in super::super) fn changes_are_seen<B: Block>(
        answer: usize,
        others: &[(usize, usize, u8)],
    ) {
        let mut bytes = bytes::<B>();
        let cases = (bytes.len() / B::LENGTH) as u64;
        assert_eq!(replay::<B>(&bytes).mismatches, 0);
        bytes[17 * B::LENGTH + answer] ^= 1;
        assert_eq!(replay::<B>(&bytes).mismatches, 1);
        for &(block, at, bits) in others {
            bytes[block * B::LENGTH + at] ^= bits;
        }
        bytes.pop();
        let found = replay::<B>(&bytes);
        let told = others.len() as u64 + 2;
        assert_eq!((found.cases.all(), found.mismatches), (cases - 1, told));
    }
}
