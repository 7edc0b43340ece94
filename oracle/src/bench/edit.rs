//! Edits at the front of a large file: the library beside one plain pass of checks and a move of the same bytes.

use super::{cell, float, points};
use crate::build::of_cells;
use crate::edit::library;
use crate::rule::edit::Call;
use std::hint::black_box;
use std::time::{Duration, Instant};

const GRID: u32 = 192;
const RECORDS: usize = 1_000_000;
const RUNS: usize = 7;

/// Where the records move at the front.
#[derive(Clone, Copy)]
enum Move {
    Up,
    Down,
    None,
}

/// An edit at the front: where the records move by it and by its undo, the records after it.
struct Front {
    name: &'static str,
    call: Call,
    moves: [Move; 2],
    records: usize,
}

/// Cell 0 is empty and cell 1 has the first record.
const FRONTS: [Front; 3] = [
    Front {
        name: "put into an empty cell",
        call: Call::Put {
            cell: [0, 0, 0],
            masses: [0x3f80_0000; 2],
        },
        moves: [Move::Up, Move::Down],
        records: RECORDS + 1,
    },
    Front {
        name: "put over a record",
        call: Call::Put {
            cell: [1, 0, 0],
            masses: [0x3f80_0000; 2],
        },
        moves: [Move::None; 2],
        records: RECORDS,
    },
    Front {
        name: "remove",
        call: Call::Remove { cell: [1, 0, 0] },
        moves: [Move::Down, Move::Up],
        records: RECORDS - 1,
    },
];

fn length(records: usize) -> usize {
    64 + 16 * records
}

/// One pass over the records: coordinates, masses, pads, ascending cells.
fn checked(file: &[u8]) -> bool {
    let Ok((grid, records)) = header_checked(file) else {
        return false;
    };
    let (grid, mut next) = (grid as u32, 0);
    for record in records {
        let [x, y, z] = cell(record).map(|coordinate| coordinate as u32);
        if x >= grid || y >= grid || z >= grid {
            return false;
        }
        if !float(record, 8).is_finite() || !float(record, 12).is_finite() {
            return false;
        }
        let number = (z * grid + y) * grid + x;
        if number < next || record[6] | record[7] != 0 {
            return false;
        }
        next = number + 1;
    }
    true
}

/// The header's checks alone, and all the records.
fn header_checked(file: &[u8]) -> Result<(usize, &[[u8; 16]]), u64> {
    let mut header = [0; 64];
    header.copy_from_slice(&file[..64]);
    header[12..16].fill(0);
    let (grid, _) = points(&header)?;
    Ok((grid, &file[64..].as_chunks().0[..RECORDS]))
}

/// The pass of checks, then the move.
fn plain(file: &mut [u8], to: Move) -> bool {
    let good = checked(black_box(file));
    match to {
        Move::Up => file.copy_within(64..length(RECORDS), 80),
        Move::Down => file.copy_within(80..length(RECORDS), 64),
        Move::None => (),
    }
    good
}

/// Best times of an edit and of its undo: the library, the plain pass and move.
struct Times {
    library: [Duration; 2],
    plain: [Duration; 2],
}

fn timed<T>(best: &mut Duration, call: impl FnOnce() -> T) -> T {
    let started = Instant::now();
    let given = black_box(call());
    *best = (*best).min(started.elapsed());
    given
}

/// Makes an edit and its undo several times; an error where the answers or the file are wrong.
fn race(front: &Front, file: &[u8]) -> Result<Times, String> {
    let mut times = Times {
        library: [Duration::MAX; 2],
        plain: [Duration::MAX; 2],
    };
    let (mut edited, mut moved, mut journal) = (file.to_vec(), file.to_vec(), [0; 4]);
    for _ in 0..RUNS {
        let calls = [front.call, Call::Undo];
        let answers = [0, 1].map(|at| {
            timed(&mut times.library[at], || {
                library(&mut edited, &mut journal, &calls[at])
            })
        });
        let wanted = [length(front.records), length(RECORDS)].map(|length| length as u64);
        let same = edited[..length(RECORDS)] == file[..length(RECORDS)];
        if answers != wanted || !same || journal[0] != 0 {
            return Err(format!(
                "{}: answers {answers:?}, not {wanted:?}",
                front.name
            ));
        }
        for (at, to) in front.moves.into_iter().enumerate() {
            let good = timed(&mut times.plain[at], || plain(&mut moved, to));
            moved.copy_from_slice(file);
            if !good {
                return Err("the file is not in working form".into());
            }
        }
    }
    Ok(times)
}

/// Edits the front of a file of a million records at g 192 and undoes it, best of seven.
pub(crate) fn edit() -> Result<String, String> {
    let mut file = of_cells(GRID, 1..RECORDS as u64 + 1);
    file.resize(length(RECORDS + 1), 0);
    for front in &FRONTS {
        let times = race(front, &file)?;
        let undo = format!("undo of {}", front.name);
        for (at, name) in [front.name, &undo].into_iter().enumerate() {
            let told = |time: Duration| time.as_secs_f64() * 1e3;
            let (library, plain) = (told(times.library[at]), told(times.plain[at]));
            println!(
                "edit: {name:<32} library {library:>8.2} ms, checks and move {plain:>8.2} ms, ratio {:.2}",
                library / plain
            );
        }
    }
    Ok(format!(
        "{RECORDS} records at g {GRID}, best of {RUNS}; undone to the byte"
    ))
}
