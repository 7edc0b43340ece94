//! The journal file: what it holds, and how it names its model.

use crate::points::word_at;
use crate::save::JOURNAL_WORD;

/// The length and hash of a model file.
#[derive(Clone, Copy, Debug, PartialEq, Eq)]
pub(super) struct Print {
    pub(super) length: u64,
    hash: u64,
}

impl Print {
    /// Of no file.
    pub(super) const ABSENT: Print = Print {
        length: u64::MAX,
        hash: 0,
    };

    pub(super) fn of(bytes: &[u8]) -> Print {
        Print {
            length: bytes.len() as u64,
            hash: hash(bytes),
        }
    }
}

/// FNV-1a, 64 bits.
fn hash(bytes: &[u8]) -> u64 {
    bytes.iter().fold(0xcbf2_9ce4_8422_2325, |hash, &byte| {
        (hash ^ u64::from(byte)).wrapping_mul(0x100_0000_01b3)
    })
}

/// What a journal file holds.
///
/// Word 0 and the version; the model that the save replaced (not in version 1) and the one that the journal belongs to, each as length
/// and hash; the journal's words; how many edits can be redone, and three words for each (not in version 1); the hash of all that.
#[derive(Debug)]
pub(super) struct Journal {
    /// Not known of version 1.
    pub(super) replaced: Option<Print>,
    pub(super) model: Print,
    pub(super) words: Vec<u32>,
    pub(super) redo: Vec<u32>,
}

impl Journal {
    /// The file, version 2.
    pub(super) fn bytes(replaced: Print, print: Print, words: &[u32], redo: &[u32]) -> Vec<u8> {
        let mut bytes = Vec::with_capacity(52 + 4 * (words.len() + redo.len()));
        bytes.extend(JOURNAL_WORD.to_le_bytes());
        bytes.extend(2_u32.to_le_bytes());
        for number in [replaced.length, replaced.hash, print.length, print.hash] {
            bytes.extend(number.to_le_bytes());
        }
        bytes.extend(words.iter().flat_map(|word| word.to_le_bytes()));
        bytes.extend((redo.len() as u32 / 3).to_le_bytes());
        bytes.extend(redo.iter().flat_map(|word| word.to_le_bytes()));
        bytes.extend(hash(&bytes).to_le_bytes());
        bytes
    }

    pub(super) fn of(bytes: &[u8]) -> Result<Journal, &'static str> {
        let long_at = |at: usize| u64::from_le_bytes(bytes[at..at + 8].try_into().expect("eight"));
        let print_at = |at: usize| Print {
            length: long_at(at),
            hash: long_at(at + 8),
        };
        let length = bytes.len();
        if length < 36 || word_at(bytes, 0) != JOURNAL_WORD {
            return Err("not a journal file");
        }
        let damaged = Err("the journal file is damaged or cut off");
        let header = match word_at(bytes, 4) {
            1 => 24,
            2 if length < 56 => return damaged,
            2 => 40,
            _ => return Err("a journal file of another version"),
        };
        if !length.is_multiple_of(4) || hash(&bytes[..length - 8]) != long_at(length - 8) {
            return damaged;
        }
        let words = (header..length - 8).step_by(4);
        let mut words: Vec<u32> = words.map(|at| word_at(bytes, at)).collect();
        if header == 24 {
            return Ok(Journal {
                replaced: None,
                model: print_at(8),
                words,
                redo: Vec::new(),
            });
        }
        let split = 1 + 3 * words[0] as usize;
        if words.get(split).map(|&redo| split + 1 + 3 * redo as usize) != Some(words.len()) {
            return damaged;
        }
        Ok(Journal {
            replaced: Some(print_at(8)),
            model: print_at(24),
            redo: words.split_off(split).split_off(1),
            words,
        })
    }
}
