//! How much scratch build asks for: little of a file in working form, a word for each cell of any other.

use crate::ffi::build;
use crate::points::{half_at, word_at, HEADER, RECORD};
use crate::rng::Rng;
use crate::{cells, shapes, Cost, Model, Point, Refusal};

/// What stands in scratch and output before a call.
const WORD: u32 = 0xa5a5_a5a5;
const BYTE: u8 = 0xa5;

/// What build answers with so many words of scratch: the tree's bytes, or why not. Then the output is as it was, and the scratch as well where
/// the cause is 8 or one before it.
fn built(file: &[u8], words: usize) -> Result<Vec<u8>, Refusal> {
    let room = Cost::of(word_at(file, 8)).map_or(0, |cost| cost.bytes.min(1 << 23));
    let (mut scratch, mut out) = (vec![WORD; words], vec![BYTE; room]);
    match build(file, &mut scratch, &mut out) {
        Ok((length, ..)) => {
            out.truncate(length);
            Ok(out)
        }
        Err(refusal) => {
            assert!(out.iter().all(|&byte| byte == BYTE), "{refusal}");
            let untouched = scratch.iter().all(|&word| word == WORD);
            assert!(untouched || refusal.number() > 8, "{refusal}");
            Err(refusal)
        }
    }
}

/// A file is refused (8) with one word less than this, and with none; the answer with this many, and with more.
fn with_just(file: &[u8], words: usize) -> Result<Vec<u8>, Refusal> {
    for fewer in [0, words / 2, words - 1] {
        let refused = built(file, fewer);
        assert_eq!(refused, Err(Refusal::ScratchTooShort), "{fewer} words");
    }
    let answer = built(file, words);
    for more in [words + 1, 2 * words] {
        assert_eq!(built(file, more), answer, "{more} words");
    }
    answer
}

/// How many words a file in working form takes.
fn small(grid: u32) -> usize {
    2 * cells(grid).div_ceil(32)
}

/// By the rule itself: whether each record is of a later cell than the one before, and has pad 0.
fn in_working_form(file: &[u8]) -> bool {
    let [grid, records] = [8, 12].map(|at| word_at(file, at));
    let cell = |record: u32| Point::at(file, record as usize).cell(grid);
    let pad = |record: u32| half_at(file, HEADER + RECORD * record as usize + 6);
    (1..records).all(|record| cell(record - 1) < cell(record))
        && (0..records).all(|record| pad(record) == 0)
}

/// A record's bytes.
fn bytes_of(record: usize) -> std::ops::Range<usize> {
    let at = HEADER + RECORD * record;
    at..at + RECORD
}

/// The same file with a pad that is not 0: another form, and the same tree.
fn padded(file: &[u8], record: usize) -> Vec<u8> {
    let mut file = file.to_vec();
    file[bytes_of(record)][7] = 1;
    file
}

/// The same file with two records in each other's place.
fn swapped(file: &[u8], one: usize, other: usize) -> Vec<u8> {
    let mut file = file.to_vec();
    let record = file[bytes_of(one)].to_vec();
    file.copy_within(bytes_of(other), bytes_of(one).start);
    file[bytes_of(other)].copy_from_slice(&record);
    file
}

/// The same file with a record once more at its end.
fn repeated(file: &[u8], record: usize) -> Vec<u8> {
    let count = word_at(file, 12) + 1;
    let mut file = [file, &file[bytes_of(record)]].concat();
    file[12..16].copy_from_slice(&count.to_le_bytes());
    file
}

/// A model without points, with one, with some, and with many.
fn models(grid: u32) -> Vec<Model> {
    let mut rng = Rng(u64::from(grid));
    let empty = Model::open(&shapes::empty_file(grid, [-1.0; 3], [1.0, 2.0, 3.0])).unwrap();
    let mut one = empty.clone();
    one.put(grid - 1, grid - 1, grid - 1, 2.5, -1.0).unwrap();
    let mut some = one.clone();
    for _ in 0..60 {
        let [x, y, z] = [0; 3].map(|_| rng.below(u64::from(grid)) as u32);
        some.put(x, y, z, rng.mass(), rng.mass()).unwrap();
    }
    let mut models = vec![empty, one, some];
    if grid <= 40 {
        models.push(Model::costliest(grid).unwrap());
        let mut most = Model::costliest(grid).unwrap();
        for step in 0..grid {
            most.remove(step, grid - 1 - step, step / 2).unwrap();
        }
        models.push(most);
    }
    models
}

const GRIDS: [u32; 9] = [1, 2, 3, 4, 5, 7, 8, 32, 40];

#[test]
fn the_words_by_grid() {
    assert_eq!(GRIDS.map(small), [2, 2, 2, 4, 8, 22, 32, 2048, 4000]);
    assert_eq!((small(192), small(256)), (442_368, 1 << 20));
}

/// The words for every 32 cells are enough and none is too many; the tree is the one that a word for each cell gives.
#[test]
fn a_file_in_working_form_takes_little() {
    for grid in GRIDS.into_iter().chain([256]) {
        for model in models(grid) {
            let file = model.as_bytes();
            assert_eq!(model.scratch_bytes(), 4 * small(grid), "{grid}");
            let tree = with_just(file, small(grid)).unwrap();
            let whole = built(file, cells(grid).max(small(grid)));
            assert_eq!(whole.as_ref(), Ok(&tree), "{grid}");
            // Bytes after the records play no part, be they records.
            let longer = [file, &[9; RECORD], file].concat();
            assert_eq!(with_just(&longer, small(grid)), whole, "{grid}");
        }
    }
}

/// A pad changes no byte of the tree, but the way that it is built.
#[test]
fn a_file_with_a_pad_takes_a_word_for_each_cell() {
    for grid in GRIDS {
        for model in models(grid).iter().filter(|model| !model.is_empty()) {
            let tree = built(model.as_bytes(), small(grid));
            for record in [0, model.len() / 2, model.len() - 1] {
                let file = padded(model.as_bytes(), record);
                assert_eq!(with_just(&file, cells(grid)), tree, "{grid}, {record}");
            }
        }
    }
}

/// Records in another order have the same nodes; the order words name their places.
#[test]
fn a_file_in_another_order_takes_a_word_for_each_cell() {
    for grid in GRIDS {
        for model in models(grid).iter().filter(|model| model.len() > 1) {
            let last = model.len() - 1;
            let tree = built(model.as_bytes(), small(grid)).unwrap();
            let order = tree.len() - 4 * model.len();
            for (one, other) in [(0, 1), (last - 1, last), (0, last)] {
                let file = swapped(model.as_bytes(), one, other);
                let again = with_just(&file, cells(grid)).unwrap();
                assert_eq!(again[..order], tree[..order], "{grid}");
                let place = |record: u32| match record as usize {
                    record if record == one => other,
                    record if record == other => one,
                    record => record,
                };
                for at in (order..tree.len()).step_by(4) {
                    let [before, now] = [&tree, &again].map(|tree| word_at(tree, at));
                    assert_eq!(place(before), now as usize, "{grid}");
                }
            }
        }
    }
}

/// 8 comes before 21: a cell that is named twice is found with a word for each cell.
#[test]
fn a_cell_twice_takes_a_word_for_each_cell() {
    for grid in GRIDS {
        for model in models(grid).iter().filter(|model| !model.is_empty()) {
            for record in [0, model.len() - 1] {
                let file = repeated(model.as_bytes(), record);
                let answer = with_just(&file, cells(grid));
                assert_eq!(answer, Err(Refusal::CellTwice), "{grid}, {record}");
            }
        }
    }
}

/// The only grid at which working form takes more than a word for each cell.
#[test]
fn grid_1_in_both_forms() {
    let mut model = Model::open(&shapes::empty_file(1, [0.0; 3], [2.0; 3])).unwrap();
    let none = with_just(model.as_bytes(), 2).unwrap();
    assert_eq!(none.len(), 144);
    model.put(0, 0, 0, 5.0, 7.0).unwrap();
    let tree = with_just(model.as_bytes(), 2).unwrap();
    let again = with_just(&padded(model.as_bytes(), 0), 1);
    assert_eq!((tree.len(), again), (148, Ok(tree)));
    let twice = with_just(&repeated(model.as_bytes(), 0), 1);
    assert_eq!(twice, Err(Refusal::CellTwice));
}

/// 1 to 7 come before 8, in either form.
#[test]
fn the_file_is_judged_before_the_scratch() {
    let [.., some] = &models(256)[..] else {
        panic!("some models");
    };
    let (file, last) = (some.as_bytes(), bytes_of(some.len() - 1).start);
    let with = |at: usize, bytes: &[u8]| {
        let mut file = file.to_vec();
        file[at..at + bytes.len()].copy_from_slice(bytes);
        file
    };
    for (file, cause) in [
        (file[..63].to_vec(), 1),
        (with(0, b"R2"), 2),
        (with(8, &[1, 1]), 3),
        (file[..file.len() - 1].to_vec(), 4),
        (with(32, &f32::NAN.to_le_bytes()), 5),
        (with(last + 4, &[0, 1]), 6),
        (with(last + 12, &f32::INFINITY.to_le_bytes()), 7),
    ] {
        for words in [0, small(256) - 1, small(256)] {
            let refused = built(&file, words).map_err(Refusal::number);
            assert_eq!(refused, Err(cause), "{words} words");
        }
    }
}

/// Files of all kinds, each with just what the rule gives it.
#[test]
fn files_of_all_kinds_by_the_rule() {
    let mut rng = Rng(44);
    let mut counts = [0; 4];
    for _ in 0..20_000 {
        let grid = 1 + rng.below(5) as u32;
        let mut model = Model::open(&shapes::empty_file(grid, [-1.0; 3], [1.0; 3])).unwrap();
        for _ in 0..rng.below(20) {
            let [x, y, z] = [0; 3].map(|_| rng.below(u64::from(grid)) as u32);
            model.put(x, y, z, rng.mass(), rng.mass()).unwrap();
        }
        let mut file = model.as_bytes().to_vec();
        let mut any = || rng.below(model.len().max(1) as u64) as usize;
        let (one, other) = (any(), any());
        match rng.below(5) {
            _ if model.is_empty() => {}
            0 => file = padded(&file, one),
            1 => file = swapped(&file, one, other),
            2 => file = repeated(&file, one),
            _ => {}
        }
        file.extend(vec![9; rng.below(40) as usize]);
        let working = in_working_form(&file);
        let words = if working { small(grid) } else { cells(grid) };
        let answer = with_just(&file, words);
        if word_at(&file, 12) as usize > model.len() {
            assert_eq!(answer, Err(Refusal::CellTwice));
        }
        counts[usize::from(working) + 2 * usize::from(answer.is_ok())] += 1;
    }
    let [twice, none, other, working] = counts;
    assert!(
        twice > 2_000 && other > 4_000 && working > 8_000,
        "{counts:?}"
    );
    assert_eq!(none, 0);
}
