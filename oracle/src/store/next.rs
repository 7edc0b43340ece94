//! `next.bin`: a block of 1,024 bytes for each list of searches in one set of marks, answers by the rule. The search is not exported,
//! so the program that replays them is the only one that makes it.
//!
//! Words, little endian: how many pairs of words, at most 16; how many searches, at most 55. At 16 the pairs, the marks of 32 cells and
//! a total, which says nothing; at 144 the searches, 16 bytes each: words first, end, the cell, 0xffffffff for none, and how many mark
//! words were read. What is left of each part is 0.

#[cfg(test)]
pub(crate) mod plain;

use super::blocks::{bytes_of, laid, unlike, words_of, Block};
use crate::original::Verdict;
use crate::rng::Rng;
use crate::rule::next::{next, Next, KNOWN, KNOWN_PAIRS};

const PAIRS: usize = 16;
const SEARCHES: usize = 55;
const PAIRS_AT: usize = 16;
const SEARCHES_AT: usize = PAIRS_AT + 8 * PAIRS;
const NONE: u32 = u32::MAX;
const SEED: u64 = 0x6e65_7874;
const CASES: usize = 400;

type Search = fn(&[[u32; 2]], u32, u32) -> Next;

/// Marks, and searches in them: first and end.
pub(super) struct Case {
    pairs: Vec<[u32; 2]>,
    searches: Vec<[u32; 2]>,
}

/// The same with each search's answer.
pub(super) struct Stored {
    pairs: Vec<[u32; 2]>,
    searches: Vec<([u32; 2], Next)>,
}

/// One word of marks, of a kind.
fn marks(rng: &mut Rng, kind: u64) -> u32 {
    let bits = |rng: &mut Rng| rng.bits() as u32;
    match kind {
        0 => 0,
        1 => u32::MAX,
        2 => 1,
        3 => 1 << 31,
        4 => 1 << rng.below(32),
        5 => bits(rng),
        6 => bits(rng) & bits(rng) & bits(rng) & bits(rng),
        _ => u32::MAX << rng.below(32),
    }
}

/// A cell to start or to end at: any, one beside a word's border, one beside a mark.
fn cell(rng: &mut Rng, pairs: &[[u32; 2]]) -> u32 {
    let cells = 32 * pairs.len() as u64;
    let any = rng.range(0, cells);
    let marked = |cell: &u64| pairs[*cell as usize / 32][0] >> (cell % 32) & 1 == 1;
    let near = match rng.below(3) {
        0 => any,
        1 => any / 32 * 32,
        _ => (any..cells).find(marked).unwrap_or(any),
    };
    (near + rng.below(3)).saturating_sub(1).min(cells) as u32
}

/// Marks of words of one kind, or of kinds at random, most of them empty.
fn drawn(rng: &mut Rng, number: usize) -> Case {
    let kind = number as u64 % 10;
    let words = rng.range(1, PAIRS as u64);
    let pairs = (0..words).map(|_| {
        let kind = match kind {
            8 => rng.below(8),
            9 if rng.below(4) != 0 => 0,
            9 => rng.range(1, 7),
            _ => kind,
        };
        [marks(rng, kind), rng.bits() as u32]
    });
    let pairs: Vec<_> = pairs.collect();
    let searches = (0..SEARCHES).map(|_| [cell(rng, &pairs), cell(rng, &pairs)]);
    let mut searches: Vec<_> = searches.collect();
    let all = 32 * words as u32;
    searches[0] = [0, all];
    searches[1] = [all, all];
    searches[2] = [NONE, all];
    Case { pairs, searches }
}

impl Block for Stored {
    const LENGTH: usize = 1024;
    type Case = Case;

    /// 02's search by hand, then marks of every kind.
    fn cases() -> Vec<Case> {
        let known = Case {
            pairs: KNOWN_PAIRS.to_vec(),
            searches: KNOWN.map(|(search, _, _)| search).to_vec(),
        };
        let mut rng = Rng::new(SEED);
        let drawn = (1..CASES).map(|number| drawn(&mut rng, number));
        [known].into_iter().chain(drawn).collect()
    }

    fn of(case: Case) -> Self {
        let pairs = case.pairs;
        let answered = |[first, end]: [u32; 2]| ([first, end], next(&pairs, first, end));
        let searches = case.searches.into_iter().map(answered).collect();
        Self { pairs, searches }
    }

    fn block(&self) -> Vec<u8> {
        let lengths = [self.pairs.len(), self.searches.len()].map(|length| length as u32);
        let searches = self
            .searches
            .iter()
            .flat_map(|([first, end], next)| [*first, *end, next.cell.unwrap_or(NONE), next.read]);
        let parts: [(usize, &[u8]); 3] = [
            (0, &bytes_of(&lengths)),
            (PAIRS_AT, &bytes_of(self.pairs.as_flattened())),
            (SEARCHES_AT, &bytes_of(&searches.collect::<Vec<_>>())),
        ];
        laid(Self::LENGTH, &parts)
    }

    fn read(block: &[u8]) -> Option<Self> {
        let lengths = words_of(&block[..8]);
        let (pairs, searches) = (lengths[0] as usize, lengths[1] as usize);
        if pairs > PAIRS || searches > SEARCHES {
            return None;
        }
        let pairs = words_of(&block[PAIRS_AT..PAIRS_AT + 8 * pairs]);
        let searches = words_of(&block[SEARCHES_AT..SEARCHES_AT + 16 * searches]);
        let answered = |&[first, end, cell, read]: &[u32; 4]| {
            let cell = (cell != NONE).then_some(cell);
            ([first, end], Next { cell, read })
        };
        Some(Self {
            pairs: pairs.as_chunks().0.to_vec(),
            searches: searches.as_chunks().0.iter().map(answered).collect(),
        })
    }

    fn verdict(&self) -> Verdict {
        Verdict::by_rule(self.differs("rule", next))
    }
}

impl Stored {
    /// The first search that is answered otherwise.
    fn differs(&self, by: &str, search: Search) -> Option<String> {
        let cells = 32 * self.pairs.len() as u32;
        self.searches.iter().find_map(|([first, end], stored)| {
            if *end > cells {
                return Some(format!("an end at {end} of {cells} cells"));
            }
            let told = unlike(by, stored, &search(&self.pairs, *first, *end), true);
            told.map(|told| format!("{first} up to {end}: {told}"))
        })
    }
}

#[cfg(test)]
mod tests {
    use super::super::blocks::testing::{self, changes_are_seen, read_back};
    use super::plain::{plain_next, Fault, FAULTS};
    use super::*;

    /// Cells found in the first word, in a later one, beside the end; none with no word read, one, and many; each well represented.
    #[test]
    fn cases_hold_every_answer() {
        let stored = Stored::cases().into_iter().map(Stored::of);
        let searches: Vec<_> = stored.flat_map(|stored| stored.searches).collect();
        assert_eq!(searches.len(), 10 + 399 * 55);
        let count =
            |kind: fn(&([u32; 2], Next)) -> bool| searches.iter().filter(|s| kind(s)).count();
        assert!(count(|(_, next)| next.cell.is_some() && next.read == 1) > 2000);
        assert!(count(|(_, next)| next.cell.is_some() && next.read > 1) > 1000);
        assert!(count(|([_, end], next)| next.cell == end.checked_sub(1) && *end > 0) > 300);
        assert!(count(|([first, _], next)| next.cell == Some(*first)) > 1000);
        assert!(
            count(|([first, end], next)| *next
                == Next {
                    cell: None,
                    read: 0
                }
                && first < end)
                == 0
        );
        assert!(count(|(_, next)| next.cell.is_none() && next.read == 0) > 2000);
        assert!(count(|(_, next)| next.cell.is_none() && next.read == 1) > 500);
        assert!(count(|(_, next)| next.cell.is_none() && next.read > 1) > 500);
    }

    /// Blocks are laid out as the head of this file says, and are read back.
    #[test]
    fn blocks_hold_the_cases() {
        for (case, block, stored) in read_back::<Stored>(400 * 1024) {
            let words = words_of(&block);
            let [pairs, searches] = [case.pairs.len(), case.searches.len()];
            assert_eq!(words[..4], [pairs as u32, searches as u32, 0, 0]);
            assert_eq!(words[4..4 + 2 * pairs], *case.pairs.as_flattened());
            let laid = words[36..36 + 4 * searches].as_chunks::<4>().0;
            for ((words, search), (_, next)) in
                laid.iter().zip(&case.searches).zip(&stored.searches)
            {
                assert_eq!(words[..2], *search);
                assert_eq!(words[2..], [next.cell.unwrap_or(NONE), next.read]);
            }
            let rest = [&words[4 + 2 * pairs..36], &words[36 + 4 * searches..]];
            assert!(rest.concat().iter().all(|&word| word == 0));
        }
    }

    /// The second search is the rule's, and faults that are planted in it are found.
    #[test]
    fn faults_are_found() {
        let sound: Search = |pairs, first, end| plain_next(Fault::None, pairs, first, end);
        let mut stored = Stored::cases().into_iter().map(Stored::of);
        assert_eq!(
            stored.find_map(|stored| stored.differs("second", sound)),
            None
        );
        testing::faults_are_found(&FAULTS, |stored: &Stored, search| {
            stored.differs("second", search)
        });
    }

    #[test]
    fn a_wrong_answer_is_seen() {
        changes_are_seen::<Stored>(144 + 12, &[(18, 144 + 8, 1), (19, 0, 64), (20, 144 + 7, 1)]);
    }
}
