//! The program `treeinfo`: the line that it prints about a file on its standard input, against the rule.

use crate::build::cases::KINDS;
use crate::build::{of_cells, two_greatest};
use crate::original::Verdict;
use crate::points::{point_file, record, Header, Record};
use crate::report::{Cases, Found, Report};
use crate::rule;
use crate::search::Search;
use std::io::{ErrorKind, Write as _};
use std::path::{Path, PathBuf};
use std::process::{Command, Stdio};
use std::{env, thread};

/// The bytes that the program reads at most.
const READ: usize = 16_384;

/// The words of scratch and the bytes of output that it lends.
const SCRATCH: u64 = 4_096;
const OUT: usize = 32_768;

/// The records of a file of `READ` bytes.
const MOST: usize = 1_020;

/// Small files, and their seed.
const SMALL: usize = 300;
const SEED: u64 = 201;

/// An input by name, with its line where 01 or arithmetic gives it.
struct Input {
    name: &'static str,
    bytes: Vec<u8>,
    line: Option<&'static str>,
}

/// The program: `MASCON_TREEINFO`, else this repository's, made by `tools/program treeinfo` if it is not there.
fn program() -> Result<PathBuf, String> {
    if let Some(path) = env::var_os("MASCON_TREEINFO") {
        return Ok(PathBuf::from(path));
    }
    let repository = Path::new(env!("CARGO_MANIFEST_DIR")).join("..");
    let path = repository.join("target/bin/treeinfo");
    if !path.is_file() {
        let run = Command::new("tools/program")
            .arg("treeinfo")
            .current_dir(&repository)
            .output()
            .map_err(|error| format!("tools/program treeinfo: {error}"))?;
        if !run.status.success() || !path.is_file() {
            return Err(format!(
                "tools/program treeinfo: {}, {} is not there\n{}{}",
                run.status,
                path.display(),
                String::from_utf8_lossy(&run.stdout),
                String::from_utf8_lossy(&run.stderr)
            ));
        }
    }
    Ok(path)
}

/// A program's standard output on an input; it has to end with status 0.
fn printed(program: &Path, input: &[u8]) -> Result<Vec<u8>, String> {
    let told = |error| format!("{}: {error}", program.display());
    let mut child = Command::new(program)
        .stdin(Stdio::piped())
        .stdout(Stdio::piped())
        .spawn()
        .map_err(told)?;
    let mut stdin = child.stdin.take().expect("a pipe");
    let (written, output) = thread::scope(|scope| {
        let writer = scope.spawn(move || stdin.write_all(input));
        let output = child.wait_with_output();
        (writer.join().expect("no panic"), output)
    });
    let output = output.map_err(told)?;
    // It may end before all is read.
    match written {
        Err(error) if error.kind() != ErrorKind::BrokenPipe => return Err(told(error)),
        _ => (),
    }
    if !output.status.success() {
        return Err(format!("ends with {}", output.status));
    }
    Ok(output.stdout)
}

/// What is to be printed, by the rule on the bytes that are read.
fn line(input: &[u8]) -> String {
    let file = &input[..input.len().min(READ)];
    let built = rule::tree::build(file, SCRATCH, &mut [0; OUT]);
    match built.answer {
        cause @ 0..64 => format!("refused {cause}\n"),
        length => format!(
            "nodes {} order {} bytes {length}\n",
            built.nodes, built.order
        ),
    }
}

/// What is wrong about an input, if anything is: in what is printed, or in the rule's line where it is known.
fn wrong(printed: Result<Vec<u8>, String>, input: &Input) -> Option<String> {
    let want = line(&input.bytes);
    if input.line.is_some_and(|known| want != format!("{known}\n")) {
        return Some(format!("the rule's line is {want:?}"));
    }
    match printed {
        Err(why) => Some(why),
        Ok(bytes) if bytes == want.as_bytes() => None,
        Ok(bytes) => Some(format!(
            "prints {:?}, not {want:?}",
            String::from_utf8_lossy(&bytes)
        )),
    }
}

fn compare(printed: impl Fn(&[u8]) -> Result<Vec<u8>, String>, inputs: &[Input]) -> Search {
    let mut search = Search::default();
    for (number, input) in (0..).zip(inputs) {
        let size = input.bytes.len();
        let wrong = wrong(printed(&input.bytes), input);
        let told = wrong.map(|what| format!("{}, {size} bytes: {what}", input.name));
        search.note(size, number, Verdict::by_rule(told));
    }
    search
}

/// The file with bytes set at an offset.
fn with(mut file: Vec<u8>, at: usize, bytes: &[u8]) -> Vec<u8> {
    file[at..at + bytes.len()].copy_from_slice(bytes);
    file
}

/// g 16 with a record in every fourth cell, so many: about 31 bytes of tree for each.
fn every_fourth(records: usize) -> Vec<u8> {
    of_cells(16, (0..4096).step_by(4).take(records))
}

/// The file with a pad in its first record.
fn padded(file: Vec<u8>) -> Vec<u8> {
    with(file, 70, &[1])
}

/// The most of these records whose tree has room.
fn as_many_as_fit() -> usize {
    let length = |records: usize| rule::tree::tree(&every_fourth(records)).1.answer;
    let fits = |&records: &usize| length(records) <= OUT as u64;
    (0..=MOST).rev().find(fits).expect("none at all fit")
}

/// The models first.
fn fixed() -> Vec<Input> {
    let plane = || of_cells(3, 0..9);
    let centred = Record {
        cell: [0; 3],
        cauchy_mass: 3.0,
        elliptic_mass: 0.0,
    };
    let corner = [0, 1, 4, 5, 16, 17, 20, 21, 12].into_iter();
    let outside = point_file(Header::cube(192, 1.0), &[record([192, 5, 0], 1)]);
    let full = || of_cells(16, 0..MOST as u64);
    let twice = |g: u32| of_cells(g, [4, 7, 0, 4].into_iter());
    let too_long_and_twice = with(every_fourth(MOST), READ - 16, &[0; 6]);
    let greatest = f32::MAX.to_le_bytes();
    let heavy = |file: Vec<u8>| with(with(file, 72, &greatest), 88, &greatest);
    let junk = (0..5000u32).map(|at| (at * 37 + 11) as u8);
    let fit = as_many_as_fit();
    let said = |name, bytes, line| Input {
        name,
        bytes,
        line: Some(line),
    };
    let by_rule = |name, bytes| Input {
        name,
        bytes,
        line: None,
    };
    vec![
        said("g 3, a plane", plane(), "nodes 3 order 9 bytes 340"),
        said(
            "g 1, no record",
            of_cells(1, 0..0),
            "nodes 1 order 0 bytes 144",
        ),
        said(
            "g 1, masses 3 and 0",
            point_file(Header::cube(1, 2.0), &[centred]),
            "nodes 1 order 1 bytes 148",
        ),
        said("g 2, full", of_cells(2, 0..8), "nodes 1 order 8 bytes 176"),
        said(
            "g 4, a corner",
            of_cells(4, corner),
            "nodes 5 order 9 bytes 500",
        ),
        said(
            "g 8, the costliest",
            rule::costliest::file(8),
            "nodes 127 order 512 bytes 12272",
        ),
        said("(192, 5, 0)", outside, "refused 6"),
        said("nothing", Vec::new(), "refused 1"),
        said("a header cut", plane()[..63].to_vec(), "refused 1"),
        said("a tree's mark", with(plane(), 0, b"RTM1"), "refused 2"),
        said("version 2", with(plane(), 4, &[2]), "refused 2"),
        said("g 0", with(plane(), 8, &[0]), "refused 3"),
        said("g 257", with(plane(), 8, &[1, 1]), "refused 3"),
        said("a record cut", plane()[..207].to_vec(), "refused 4"),
        said("no record of nine", plane()[..64].to_vec(), "refused 4"),
        said("a flat box", with(plane(), 48, &[0; 4]), "refused 5"),
        said(
            "a mass NaN",
            with(plane(), 88, &f32::NAN.to_le_bytes()),
            "refused 7",
        ),
        said("a cell twice", twice(3), "refused 21"),
        said("g 17, a cell twice", twice(17), "refused 8"),
        said(
            "every fourth cell, the first twice",
            too_long_and_twice,
            "refused 21",
        ),
        said("two greatest masses", two_greatest(2), "refused 22"),
        said("g 17, two greatest masses", two_greatest(17), "refused 22"),
        said("g 41, two greatest masses", two_greatest(41), "refused 8"),
        said("a plane, two greatest", heavy(plane()), "refused 22"),
        said("a cell twice, two greatest", heavy(twice(3)), "refused 21"),
        said(
            "every fourth cell, two greatest",
            heavy(every_fourth(MOST)),
            "refused 22",
        ),
        said(
            "g 16, one record",
            of_cells(16, 7..8),
            "nodes 1 order 1 bytes 148",
        ),
        said("every fourth cell", every_fourth(MOST), "refused 9"),
        said("one more than fits", every_fourth(fit + 1), "refused 9"),
        by_rule("as many as fit", every_fourth(fit)),
        by_rule("n 1,020", full()),
        by_rule(
            "n 1,020, junk behind",
            full().into_iter().chain(junk).collect(),
        ),
        said(
            "n 1,020, a byte cut",
            full()[..READ - 1].to_vec(),
            "refused 4",
        ),
        said("n 1,021", of_cells(16, 0..MOST as u64 + 1), "refused 4"),
    ]
}

/// What 4,096 words are enough for: grids up to 16, in working form up to 40.
fn grids() -> Vec<Input> {
    let (one, two) = ("nodes 1 order 1 bytes 148", "nodes 1 order 2 bytes 152");
    let (none, short) = ("nodes 1 order 0 bytes 144", "refused 8");
    let last = |g: u64| of_cells(g as u32, g.pow(3) - 1..g.pow(3));
    let descending = |g: u32| of_cells(g, [9, 3].into_iter());
    let counting_one = |g: u32| with(descending(g), 12, &[1]);
    let inputs = [
        ("g 16, a pad", padded(last(16)), one),
        ("g 16, descending", descending(16), two),
        ("g 17, the last cell", last(17), one),
        ("g 17, no record", of_cells(17, 0..0), none),
        ("g 17, a pad", padded(last(17)), short),
        ("g 17, descending", descending(17), short),
        ("g 17, one of two counts", counting_one(17), one),
        (
            "g 32, cells 0 and 32,767",
            of_cells(32, [0, 32_767].into_iter()),
            two,
        ),
        ("g 40, the last cell", last(40), one),
        ("g 40, no record", of_cells(40, 0..0), none),
        ("g 40, a pad", padded(last(40)), short),
        ("g 40, descending", descending(40), short),
        ("g 40, one of two counts", counting_one(40), one),
        ("g 41, the last cell", last(41), short),
        ("g 41, no record", of_cells(41, 0..0), short),
        ("g 41, a pad", padded(last(41)), short),
        ("g 256, no record", of_cells(256, 0..0), short),
    ];
    let inputs = inputs.into_iter().map(|(name, bytes, line)| Input {
        name,
        bytes,
        line: Some(line),
    });
    let sparse = |g: u32| of_cells(g, (0..MOST as u64).map(|number| number * 61));
    let by_rule = [("g 40, n 1,020", sparse(40)), ("g 41, n 1,020", sparse(41))];
    let by_rule = by_rule.into_iter().map(|(name, bytes)| Input {
        name,
        bytes,
        line: None,
    });
    inputs.chain(by_rule).collect()
}

/// Files of every kind that build is tried with, the large grids left out, that are read whole.
fn small() -> Vec<Input> {
    let kinds = KINDS.iter().filter(|kind| kind.name != "large grids");
    (0..)
        .zip(kinds.cycle())
        .map(|(number, kind)| Input {
            name: kind.name,
            bytes: kind.case(SEED, number).file,
            line: None,
        })
        .filter(|input| input.bytes.len() <= READ)
        .take(SMALL)
        .collect()
}

pub(crate) fn check(report: &mut Report) {
    let program = match program() {
        Ok(program) => program,
        Err(why) => {
            let missing = Found {
                cases: Cases::default(),
                mismatches: 1,
                smallest: Some(why),
            };
            return report.run("treeinfo", || missing);
        }
    };
    for (name, inputs) in [
        ("fixed inputs", fixed()),
        ("grids", grids()),
        ("small files", small()),
    ] {
        report.run(&format!("treeinfo: {name}"), || {
            compare(|input| printed(&program, input), &inputs).found()
        });
    }
}

#[cfg(test)]
mod tests {
    use super::*;
    use std::collections::BTreeSet;

    /// The names of inputs on which a program that prints this is found to be wrong.
    fn found_in(inputs: &[Input], printed: impl Fn(&[u8]) -> String) -> Vec<&'static str> {
        let of = |input: &Input| wrong(Ok(printed(&input.bytes).into_bytes()), input);
        let wrong = inputs.iter().filter(|input| of(input).is_some());
        wrong.map(|input| input.name).collect()
    }

    /// Of the fixed inputs.
    fn found(printed: impl Fn(&[u8]) -> String) -> Vec<&'static str> {
        found_in(&fixed(), printed)
    }

    #[test]
    fn the_rule_agrees_with_itself() {
        let by_rule = |input: &[u8]| Ok(line(input).into_bytes());
        for (inputs, cases) in [(fixed(), 34), (grids(), 19), (small(), SMALL as u64)] {
            let search = compare(by_rule, &inputs);
            assert_eq!((search.cases.apart(), search.mismatches), ((0, cases), 0));
        }
    }

    /// Every cause of build, and files that are accepted, stand among both.
    #[test]
    fn every_cause() {
        let causes = |inputs: &[Input]| {
            let lines = inputs.iter().map(|input| line(&input.bytes));
            let causes = lines.filter_map(|line| Some(line.strip_prefix("refused ")?.to_owned()));
            causes.collect::<BTreeSet<_>>()
        };
        let all = (1..10).chain([21, 22]);
        let all = all.map(|cause| format!("{cause}\n"));
        assert_eq!(causes(&fixed()), all.collect::<BTreeSet<_>>());
        let small = small();
        assert!(causes(&small).len() >= 7);
        let accepted = |input: &&Input| line(&input.bytes).starts_with("nodes ");
        assert!(small.iter().filter(accepted).count() >= 100);
    }

    /// The edges of what is read and of what is lent.
    #[test]
    fn edges() {
        let of = |name: &str| {
            let mut inputs = fixed().into_iter();
            let input = inputs.find(|input| input.name == name);
            input.expect("an input of this name").bytes
        };
        assert_eq!(of("n 1,020").len(), READ);
        assert_eq!(of("n 1,021").len(), READ + 16);
        assert!(line(&of("n 1,020")).starts_with("nodes "));
        assert_eq!(line(&of("n 1,020, junk behind")), line(&of("n 1,020")));
        assert!(line(&of("as many as fit")).starts_with("nodes "));
        assert!(as_many_as_fit() < MOST);
    }

    #[test]
    fn faults_are_found() {
        assert_eq!(found(line), Vec::<&str>::new());
        let all = fixed().len();
        assert_eq!(found(|input| line(input).trim_end().to_owned()).len(), all);
        assert_eq!(found(|input| line(input).repeat(2)).len(), all);
        assert_eq!(found(|input| line(input) + " ").len(), all);
        assert_eq!(
            found(|input| line(input).replace("refused 8", "refused 9")),
            ["g 17, a cell twice", "g 41, two greatest masses"]
        );
        let as_nine = |input: &[u8]| line(input).replace("refused 22", "refused 9");
        assert_eq!(found(as_nine).len(), 4);
        let more = |input: &[u8]| match input.len() {
            16_400 => "nodes 1 order 1 bytes 148\n".to_owned(),
            _ => line(input),
        };
        assert_eq!(found(more), ["n 1,021"]);
        let why = || Err("ends with exit status: 1".to_owned());
        assert!(fixed().iter().all(|input| wrong(why(), input).is_some()));
    }

    /// A word for each cell asked of every file, pairs of words of every file, or more or less lent.
    #[test]
    fn faults_of_scratch_are_found() {
        let in_grids = |printed: &dyn Fn(&[u8]) -> String| found_in(&grids(), printed);
        let by = |words: fn(u64) -> u64| {
            move |input: &[u8]| match words(rule::grid(input)) > SCRATCH {
                true => "refused 8\n".to_owned(),
                false => line(&rule::folded(input)),
            }
        };
        assert_eq!(in_grids(&line), [""; 0]);
        assert_eq!(
            in_grids(&by(|g| g.pow(3))),
            [
                "g 17, the last cell",
                "g 17, no record",
                "g 17, one of two counts",
                "g 32, cells 0 and 32,767",
                "g 40, the last cell",
                "g 40, no record",
                "g 40, one of two counts",
                "g 40, n 1,020",
            ]
        );
        assert_eq!(
            in_grids(&by(rule::tree::pairs_of_words)),
            [
                "g 17, a pad",
                "g 17, descending",
                "g 40, a pad",
                "g 40, descending"
            ]
        );
        let lent = |words: u64| {
            move |input: &[u8]| match rule::tree::build(input, words, &mut [0; OUT]).answer {
                8 => "refused 8\n".to_owned(),
                _ => line(input).replace("refused 8", "refused 9"),
            }
        };
        let in_40 = [
            "g 40, the last cell",
            "g 40, no record",
            "g 40, one of two counts",
        ];
        let less = in_grids(&lent(3_999));
        assert!(in_40.iter().all(|name| less.contains(name)), "{less:?}");
        let in_41 = ["g 41, the last cell", "g 41, no record"];
        let more = in_grids(&lent(4_308));
        assert!(in_41.iter().all(|name| more.contains(name)), "{more:?}");
    }

    #[test]
    fn programs_are_run() {
        let input: Vec<u8> = (0..200_000u32).map(|at| at as u8).collect();
        assert_eq!(printed(Path::new("cat"), &input), Ok(input.clone()));
        assert_eq!(printed(Path::new("true"), &input), Ok(Vec::new()));
        let failed = printed(Path::new("false"), &[]);
        assert_eq!(failed, Err("ends with exit status: 1".to_owned()));
        assert!(printed(Path::new("/no/such/program"), &[]).is_err());
    }
}
