//! `cost.bin`: 16 bytes for each case, answers by the rule.
//!
//! Words, little endian: g, the answer, the node count and the length of the tree, both 0 in a refusal.

use super::blocks::{bytes_of, unlike, words_of, Block};
use crate::costliest::cases::FAR;
use crate::costliest::Costliest;
use crate::ffi::{self, Cost};
use crate::original::Verdict;
use crate::rule;

/// A word with its numbers.
pub(super) struct Stored {
    g: u32,
    cost: Cost,
}

impl Block for Stored {
    const LENGTH: usize = 16;
    type Case = u32;

    /// 0 to 300, then words far above.
    fn cases() -> Vec<u32> {
        (0..=300).chain(FAR).collect()
    }

    fn of(g: u32) -> Self {
        let cost = rule::costliest::costliest(g);
        Self { g, cost }
    }

    fn block(&self) -> Vec<u8> {
        let Cost {
            answer,
            nodes,
            bytes,
        } = self.cost;
        let numbers = [answer, nodes, bytes].map(|number| number as u32);
        bytes_of(&[&[self.g][..], &numbers].concat())
    }

    fn read(block: &[u8]) -> Option<Self> {
        let words = words_of(block);
        let [answer, nodes, bytes] = [1, 2, 3].map(|place| u64::from(words[place]));
        Some(Self {
            g: words[0],
            cost: Cost {
                answer,
                nodes,
                bytes,
            },
        })
    }

    fn verdict(&self) -> Verdict {
        let wrong = self.unlike_the_library(ffi::costliest);
        Verdict::by_rule(wrong.or_else(|| self.differs("rule", rule::costliest::costliest)))
    }
}

impl Stored {
    fn unlike_the_library(&self, costliest: Costliest) -> Option<String> {
        self.differs("library", costliest)
    }

    fn differs(&self, by: &str, costliest: Costliest) -> Option<String> {
        unlike(by, &self.cost, &costliest(self.g), true)
    }
}

#[cfg(test)]
mod tests {
    use super::super::blocks::testing::{self, changes_are_seen, read_back};
    use super::*;
    use crate::costliest::plain::COST_FAULTS;

    /// Every grid has its numbers, and all else is refused.
    #[test]
    fn cases_hold_every_grid() {
        let cases = Stored::cases();
        assert!((1..=256).all(|g| cases.contains(&g)));
        let refused = cases.into_iter().filter(|&g| g == 0 || g > 256);
        assert!(refused
            .map(Stored::of)
            .all(|stored| stored.cost.answer == 3));
    }

    /// Blocks are laid out as the head of this file says, and are read back.
    #[test]
    fn blocks_hold_the_cases() {
        for (g, block, _) in read_back::<Stored>(315 * 16) {
            let words = words_of(&block);
            let bytes = |cells: u32| 64 + 80 * words[2] + 4 * cells;
            match g {
                1..=256 => assert_eq!([words[1], words[3]], [0, bytes(g.pow(3))]),
                _ => assert_eq!(words[1..], [3, 0, 0]),
            }
            assert_eq!(words[0], g);
        }
    }

    /// Faults that are planted are found by the stored answers too.
    #[test]
    fn faults_are_found() {
        testing::faults_are_found(&COST_FAULTS, Stored::unlike_the_library);
    }

    #[test]
    fn a_wrong_answer_is_seen() {
        changes_are_seen::<Stored>(4, &[(18, 8, 1), (19, 12, 1)]);
    }
}
