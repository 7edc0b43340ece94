//! A second search for the next occupied cell, word by word, and the faults that tests plant in it.

use super::Search;
use crate::rule::next::Next;

#[derive(Clone, Copy, PartialEq)]
pub(crate) enum Fault {
    None,
    // the cell
    FirstOfWholeWord,
    LastMark,
    EndSearched,
    BeforeTheEndLost,
    StopsAtEmptyWord,
    NextWordUnaligned,
    EmptyWordUntested,
    TotalsAsMarks,
    FirstLeftOut,
    ClampedToTheEnd,
    // how many words were read
    OneMore,
    FirstWordUncounted,
    WordOfTheEnd,
    FoundWordUncounted,
    WordsToTheEnd,
    OneWhereEmpty,
    EmptyWordsUncounted,
    InCells,
}

macro_rules! next_with {
    ($fault:ident) => {
        |pairs, first, end| plain_next(Fault::$fault, pairs, first, end)
    };
}

/// The search with each fault, and the search of 02's example, or another, that shows it.
pub(crate) const FAULTS: [(Search, &str); 18] = [
    (next_with!(FirstOfWholeWord), "4 up to 96"),
    (next_with!(LastMark), "a word of marks"),
    (next_with!(EndSearched), "4 up to 40"),
    (next_with!(BeforeTheEndLost), "40 up to 41"),
    (next_with!(StopsAtEmptyWord), "41 up to 96"),
    (
        next_with!(NextWordUnaligned),
        "a mark before the place in the next word",
    ),
    (next_with!(EmptyWordUntested), "4 up to 96"),
    (next_with!(TotalsAsMarks), "0 up to 96"),
    (next_with!(FirstLeftOut), "40 up to 41"),
    (next_with!(ClampedToTheEnd), "4 up to 40"),
    (next_with!(OneMore), "0 up to 96"),
    (next_with!(FirstWordUncounted), "4 up to 96"),
    (next_with!(WordOfTheEnd), "4 up to 32"),
    (next_with!(FoundWordUncounted), "40 up to 41"),
    (next_with!(WordsToTheEnd), "0 up to 96"),
    (next_with!(OneWhereEmpty), "64 up to 64"),
    (next_with!(EmptyWordsUncounted), "41 up to 64"),
    (next_with!(InCells), "4 up to 96"),
];

/// The cell that the words give.
fn found(fault: Fault, pairs: &[[u32; 2]], first: u32, end: u32) -> Option<u32> {
    let mut cell = match fault {
        Fault::FirstLeftOut => first.saturating_add(1),
        _ => first,
    };
    let last = match fault {
        Fault::EndSearched => end.saturating_add(1).min(32 * pairs.len() as u32),
        Fault::BeforeTheEndLost => end.saturating_sub(1),
        _ => end,
    };
    while cell < last {
        let pair = pairs[cell as usize / 32];
        let word = pair[usize::from(fault == Fault::TotalsAsMarks)];
        let (marks, from) = match fault {
            Fault::FirstOfWholeWord => (word, cell / 32 * 32),
            _ => (word >> (cell % 32), cell),
        };
        if marks != 0 || fault == Fault::EmptyWordUntested {
            let place = match fault {
                Fault::LastMark => 31 - marks.leading_zeros(),
                _ => marks.trailing_zeros(),
            };
            let at = from + place;
            if at < last {
                return Some(at);
            }
            return (fault == Fault::ClampedToTheEnd).then(|| last - 1);
        }
        if fault == Fault::StopsAtEmptyWord {
            return None;
        }
        cell = match fault {
            Fault::NextWordUnaligned => cell + 32,
            _ => cell / 32 * 32 + 32,
        };
    }
    None
}

/// How many words are said to be read for it.
fn read(fault: Fault, pairs: &[[u32; 2]], first: u32, end: u32, cell: Option<u32>) -> u32 {
    let stop = match fault {
        Fault::WordsToTheEnd => end,
        Fault::WordOfTheEnd if cell.is_none() => end + 1,
        _ => cell.map_or(end, |cell| cell + 1),
    };
    if first >= stop || first >= end {
        return u32::from(fault == Fault::OneWhereEmpty);
    }
    let words = first / 32..(stop - 1) / 32 + 1;
    let count = words.len() as u32;
    match fault {
        Fault::OneMore => count + 1,
        Fault::FirstWordUncounted => count - 1,
        Fault::FoundWordUncounted if cell.is_some() => count - 1,
        Fault::EmptyWordsUncounted => words
            .filter(|&word| pairs.get(word as usize).is_some_and(|pair| pair[0] != 0))
            .count() as u32,
        Fault::InCells => stop - first,
        _ => count,
    }
}

/// The least marked cell from the first up to the end, and how many words were read.
pub(crate) fn plain_next(fault: Fault, pairs: &[[u32; 2]], first: u32, end: u32) -> Next {
    let cell = found(fault, pairs, first, end);
    let read = read(fault, pairs, first, end, cell);
    Next { cell, read }
}
