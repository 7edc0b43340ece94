//! Looking into a model: cells, lists of points, places in metres, layers.

mod common;

use common::{command, fails, file, mascon, record, Folder, Ran};
use mascon::draw::{Mass, Picture, PictureError, Slice};
use mascon::{shapes, Model};
use std::fs;
use std::io::{BufRead, BufReader, Write};
use std::process::Stdio;

/// What a command prints that succeeds without a warning.
fn done(folder: &Folder, line: &str) -> String {
    let ran = mascon(folder, line);
    assert_eq!((ran.status, &*ran.err), (0, ""), "{line}");
    ran.out
}

/// Three points in the box (-8, -6, -4) to (8, 6, 4): cells of 4 x 3 x 2 m.
fn three(folder: &Folder) -> Model {
    let points = [
        (0, 1, 2, 5.5, -6e-40),
        (2, 2, 2, 0.1, 7.0),
        (3, 3, 3, 1e30, 2.0),
    ];
    let bytes = file(4, &points);
    fs::write(folder.file("m"), &bytes).unwrap();
    Model::open(&bytes).unwrap()
}

#[test]
fn what_a_cell_holds() {
    let folder = Folder::new("what_a_cell_holds");
    let model = three(&folder);
    let second = "cell            (2, 2, 2), number 42\n\
                  record          1 of 0 to 2\n\
                  middle          (2, 1.5, 1) m\n\
                  Cauchy mass     0.1 kg\n\
                  elliptic mass   7 kg\n";
    assert_eq!(done(&folder, "get m 2 2 2"), second);
    assert_eq!(done(&folder, "get m --at 2.5 0.25 1.9"), second);
    assert_eq!(done(&folder, "get --at 2.5 0.25 1.9 m"), second);
    let empty = done(&folder, "get m 0 0 0");
    assert!(
        empty.contains("record          none: the cell is empty"),
        "{empty}"
    );
    assert!(
        empty.contains("middle          (-6, -4.5, -3) m"),
        "{empty}"
    );
    assert!(!empty.contains("mass"), "{empty}");
    for (line, status, words) in [
        (
            "get m 0 4 0",
            1,
            "cell (0, 4, 0) lies outside the grid, whose cells go from 0 to 3",
        ),
        (
            "get m --at 0 0 4.1",
            1,
            "(0, 0, 4.1) m lies outside the box, which goes from (-8, -6, -4) to (8, 6, 4) m",
        ),
        ("get m --at 0 nan 0", 1, "outside the box"),
        ("get m --at 0 inf 0", 1, "outside the box"),
        ("get m 0 -1 0", 2, "`-1` is not a cell index"),
        ("get m 0 0", 2, "missing: Z"),
        ("get m 0 0 0 --at 0 0 0", 2, "one word too many"),
        ("get m --at 0 0", 2, "--at takes 3 values, X Y Z"),
        ("get m --at 0 0 zero", 2, "--at: `zero` is not a number"),
        ("get m --at 0 0 0 --at 0 0 0", 2, "given twice"),
        ("get none 0 0 0", 1, "none: "),
        ("get tree 0 0 0", 1, "this is a tree, give its point file"),
    ] {
        fs::write(folder.file("tree"), b"RTM1").unwrap();
        fails(&folder, line, status, words);
    }
    let mut child = command(&folder, "get - 2 2 2")
        .stdin(Stdio::piped())
        .stdout(Stdio::piped())
        .spawn()
        .unwrap();
    child
        .stdin
        .take()
        .unwrap()
        .write_all(model.as_bytes())
        .unwrap();
    let out = child.wait_with_output().unwrap();
    assert_eq!(String::from_utf8(out.stdout).unwrap(), second);
    assert_eq!(fs::read(folder.file("m")).unwrap(), model.as_bytes());
}

/// A face between two cells belongs to the upper one, the box's greatest faces to the last cells, and ends as they are printed are
/// in the box.
#[test]
fn places_on_faces() {
    let header = |min, max| {
        Model::open(&shapes::empty_file(4, min, max))
            .unwrap()
            .header()
    };
    let whole = header([-8.0, -6.0, -4.0], [8.0, 6.0, 4.0]);
    assert_eq!(whole.cell_at([-4.0, 0.0, 2.0]), Some([1, 2, 3]));
    assert_eq!(whole.cell_at([-8.0, -6.0, -4.0]), Some([0, 0, 0]));
    assert_eq!(whole.cell_at([8.0, 6.0, 4.0]), Some([3, 3, 3]));
    let below = f64::from_bits(8_f64.to_bits() - 1);
    assert_eq!(whole.cell_at([below, 5.99, 3.99]), Some([3, 3, 3]));
    assert_eq!(whole.cell_at([8.001, 0.0, 0.0]), None);
    assert_eq!(whole.cell_at([0.0, -6.001, 0.0]), None);
    assert_eq!(whole.cell_at([0.0, 0.0, f64::NAN]), None);
    let printed = header([-732.99; 3], [732.99; 3]);
    assert_eq!(printed.cell_at([-732.99; 3]), Some([0; 3]));
    assert_eq!(printed.cell_at([732.99; 3]), Some([3; 3]));
    assert_eq!(printed.cell_at([732.9901; 3]), None);
}

#[test]
fn edits_at_places() {
    let folder = Folder::new("edits_at_places");
    let mut model = three(&folder);
    let out = done(&folder, "put m --at -6 -4.5 3.9 -2.5 4");
    assert!(
        out.starts_with("put 0 0 3 -2.5 4: the cell was empty; 4 points"),
        "{out}"
    );
    model.put(0, 0, 3, -2.5, 4.0).unwrap();
    let out = done(&folder, "remove m --at 8 6 4");
    assert!(out.starts_with("remove 3 3 3: the cell held"), "{out}");
    model.remove(3, 3, 3).unwrap();
    assert_eq!(fs::read(folder.file("m")).unwrap(), model.as_bytes());
    let pair = || ["m", "m.journal"].map(|name| fs::read(folder.file(name)).unwrap());
    let before = pair();
    for (line, status, words) in [
        (
            "put m --at 0 0 5 1 1",
            1,
            "(0, 0, 5) m lies outside the box",
        ),
        (
            "remove m --at 0 -7 0",
            1,
            "(0, -7, 0) m lies outside the box",
        ),
        ("remove m --at -7 -5 -3", 1, "remove 0 0 0: refused 12"),
        ("put m --at 0 0 0 nan 1", 1, "refused 7"),
        ("put m --at 0 0 0 1", 2, "missing: ELLIPTIC"),
        ("put m --at 0 0 0 1 x", 2, "`x` is not a mass"),
        ("put m 1 1 1 --at 0 0 0 1 1", 2, "one word too many"),
        ("remove m --at", 2, "--at takes 3 values, X Y Z"),
    ] {
        fails(&folder, line, status, words);
        assert_eq!(pair(), before, "{line}");
    }
}

const HEADING: &str = "index,x,y,z,x_m,y_m,z_m,cauchy_kg,elliptic_kg";

/// The indices of the records that are listed; each line says what the model has, to the bit.
fn listed(folder: &Folder, model: &Model, line: &str) -> Vec<usize> {
    let Ran { status, out, err } = mascon(folder, line);
    assert_eq!(status, 0, "{line}: {err}");
    let mut lines = out.lines();
    assert_eq!(lines.next(), Some(HEADING), "{line}");
    let points: Vec<_> = model.points().collect();
    let read = |row: &str| {
        let fields: Vec<&str> = row.split(',').collect();
        assert_eq!(fields.len(), 9, "{row}");
        let index: usize = fields[0].parse().unwrap();
        let point = points[index];
        let cell = [1, 2, 3].map(|field| fields[field].parse::<u32>().unwrap());
        assert_eq!(cell, [point.x, point.y, point.z], "{row}");
        let middle = [4, 5, 6].map(|field| fields[field].parse::<f64>().unwrap());
        assert_eq!(
            middle,
            model.header().middle(point.x, point.y, point.z),
            "{row}"
        );
        let masses = [7, 8].map(|field| fields[field].parse::<f32>().unwrap().to_bits());
        let own = [point.cauchy_mass, point.elliptic_mass].map(f32::to_bits);
        assert_eq!(masses, own, "{row}");
        index
    };
    let indices: Vec<usize> = lines.map(read).collect();
    assert_eq!(err.is_empty(), !indices.is_empty(), "{line}: {err}");
    indices
}

/// A full grid of 3 in a box whose middles are no short numbers, with masses at their extremes.
fn full(folder: &Folder) -> Model {
    let mut bytes = shapes::empty_file(3, [-0.1, 0.3, 1e5], [0.7, 0.4, 100_001.0]);
    bytes[12] = 27;
    let masses = [f32::MAX, -1e-45, -0.0, 0.1, f32::MIN_POSITIVE, 16_777_217.0];
    for i in 0..27_u16 {
        let [a, b] = [i, i + 1].map(|i| masses[usize::from(i) % masses.len()]);
        bytes.extend(record(i % 3, i / 3 % 3, i / 9, 0, a, b));
    }
    fs::write(folder.file("full"), &bytes).unwrap();
    Model::open(&bytes).unwrap()
}

#[test]
fn points_as_a_list() {
    let folder = Folder::new("points_as_a_list");
    let model = full(&folder);
    assert_eq!(
        listed(&folder, &model, "list full"),
        (0..27).collect::<Vec<_>>()
    );
    let in_box = |low: [u32; 3], high: [u32; 3]| -> Vec<usize> {
        let within = |cell: [u32; 3]| (0..3).all(|i| (low[i]..=high[i]).contains(&cell[i]));
        let points = model.points().enumerate();
        points
            .filter(|(_, p)| within([p.x, p.y, p.z]))
            .map(|(i, _)| i)
            .collect()
    };
    for (line, low, high) in [
        ("list full --cells 0 1 2 0 1 2", [0, 1, 2], [0, 1, 2]),
        ("list full --cells 0 1 1 1 2 2", [0, 1, 1], [1, 2, 2]),
        ("list full --cells 1 1 2 0 2 1", [0, 1, 1], [1, 2, 2]),
        ("list full --cells 2 2 2 99 99 99", [2; 3], [2; 3]),
        (
            "list full --metres -1 0 1e5 1 1 100000.3",
            [0; 3],
            [2, 2, 0],
        ),
        (
            "list full --metres 1 1 100000.3 -1 0 1e5",
            [0; 3],
            [2, 2, 0],
        ),
        (
            "list full --metres -inf -inf -inf 0.2 inf inf",
            [0; 3],
            [0, 2, 2],
        ),
    ] {
        assert_eq!(listed(&folder, &model, line), in_box(low, high), "{line}");
    }
    // A middle on the box's side is in it, whichever end it is.
    let [x, y, z] = model.header().middle(1, 2, 0);
    for line in [
        format!("list full --metres {x} {y} {z} {x} {y} {z}"),
        format!("list full --metres {x} {y} {z} -9 9 9e5"),
    ] {
        assert!(listed(&folder, &model, &line).contains(&7), "{line}");
    }
    for line in [
        "list full --cells 3 0 0 9 9 9",
        "list full --metres 0 0 0 1 1 1",
    ] {
        assert!(listed(&folder, &model, line).is_empty(), "{line}");
        let Ran { out, err, .. } = mascon(&folder, line);
        assert_eq!(out, format!("{HEADING}\n"));
        assert!(err.contains("full: no point"), "{err}");
    }
    for (line, words) in [
        (
            "list full --cells 0 0 0 1 1",
            "--cells takes 6 values, X0 Y0 Z0 X1 Y1 Z1",
        ),
        (
            "list full --cells 0 0 0 1 1 -1",
            "--cells: `-1` is not a number that fits",
        ),
        (
            "list full --metres 0 0 0 1 1 nan",
            "--metres: NaN is no place",
        ),
        (
            "list full --cells 0 0 0 1 1 1 --metres 0 0 0 1 1 1",
            "exclude each other",
        ),
        ("list full 0 0 0", "one word too many"),
    ] {
        fails(&folder, line, 2, words);
    }
    fails(&folder, "list none", 1, "none: ");
}

/// A reader that goes away is no failure, a place that takes nothing is one.
#[cfg(target_os = "linux")]
#[test]
fn lists_into_pipes() {
    let folder = Folder::new("lists_into_pipes");
    let mut bytes = shapes::empty_file(64, [-1.0; 3], [1.0; 3]);
    bytes[12..16].copy_from_slice(&(1_u32 << 18).to_le_bytes());
    for i in 0..1_u32 << 18 {
        let [x, y, z] = [i, i >> 6, i >> 12].map(|index| (index & 63) as u16);
        bytes.extend(record(x, y, z, 0, i as f32, 1.0));
    }
    fs::write(folder.file("m"), bytes).unwrap();
    let mut list = command(&folder, "list m");
    let mut child = list
        .stdout(Stdio::piped())
        .stderr(Stdio::piped())
        .spawn()
        .unwrap();
    let mut first = String::new();
    let mut out = BufReader::new(child.stdout.take().unwrap());
    out.read_line(&mut first).unwrap();
    assert_eq!(first.trim_end(), HEADING);
    drop(out);
    let ended = child.wait_with_output().unwrap();
    assert!(ended.status.success() && ended.stderr.is_empty());
    let nowhere = fs::OpenOptions::new()
        .write(true)
        .open("/dev/full")
        .unwrap();
    let ended = command(&folder, "list m").stdout(nowhere).output().unwrap();
    assert_eq!(ended.status.code(), Some(1));
    assert!(String::from_utf8_lossy(&ended.stderr).contains("standard output: "));
    assert_eq!(done(&folder, "list m").lines().count(), 1 + (1 << 18));
}

/// The rectangles of an SVG picture, each with its colour, in the order in which they are painted.
fn rects(svg: &str) -> Vec<(String, [f64; 4])> {
    let mut rects = Vec::new();
    for path in svg
        .lines()
        .filter_map(|line| line.strip_prefix("<path fill=\""))
    {
        let (color, rest) = path.split_once('"').unwrap();
        let (_, list) = rest.split_once("d=\"M").unwrap();
        let (list, _) = list.split_once('"').unwrap();
        for rect in list.trim_end_matches('z').split("zM") {
            let numbers = rect
                .split([' ', 'h', 'v'])
                .map(|word| word.parse().unwrap());
            let numbers: Vec<f64> = numbers.collect();
            let rect = [numbers[0], numbers[1], numbers[2], numbers[3]];
            rects.push((color.to_string(), rect));
        }
    }
    rects
}

const GROUND: &str = "#f4f5f7";

/// The colours of a slice's cells, row by row from below.
fn colors(svg: &str, grid: u32) -> Vec<String> {
    let rects = rects(svg);
    let (_, [left, top, width, height]) = rects.iter().find(|(color, _)| color == GROUND).unwrap();
    let color = |i: u32| {
        let share = |index: u32| (f64::from(index) + 0.5) / f64::from(grid);
        let x = left + width * share(i % grid);
        let y = top + height * (1.0 - share(i / grid));
        let on = |[a, b, w, h]: [f64; 4]| a <= x && x < a + w && b <= y && y < b + h;
        let (color, _) = rects.iter().rev().find(|(_, rect)| on(*rect)).unwrap();
        color.clone()
    };
    (0..grid * grid).map(color).collect()
}

/// The cells that a slice draws as ground, right and up.
fn empty_cells(svg: &str, grid: u32) -> Vec<[u32; 2]> {
    let colors = (0..).zip(colors(svg, grid));
    let empty = colors.filter(|(_, color)| color == GROUND);
    empty.map(|(i, _)| [i % grid, i / grid]).collect()
}

/// The void of the example's edits: five cells, seen in their layer and in no other.
#[test]
fn a_slice_shows_a_void_of_five_cells() {
    let folder = Folder::new("a_slice_shows_a_void");
    done(&folder, "example . --rings 12");
    let Ran { status, err, .. } = mascon(
        &folder,
        "fill binary.obj cauchy.txt --grid 32 -o b.rym1 --quiet",
    );
    assert_eq!(status, 0, "{err}");
    fs::copy(folder.file("b.rym1"), folder.file("before.rym1")).unwrap();
    done(&folder, "apply b.rym1 edits.txt");
    let svg = |line: &str| {
        let out = done(&folder, &format!("{line} -o s.svg"));
        (fs::read_to_string(folder.file("s.svg")).unwrap(), out)
    };
    let (before, _) = svg("draw before.rym1 --slice z=15");
    let (now, out) = svg("draw b.rym1 --slice z=15");
    let without = empty_cells(&before, 32);
    let mut void = empty_cells(&now, 32);
    void.retain(|cell| !without.contains(cell));
    assert_eq!(void, [[8, 13], [9, 13], [8, 14], [9, 14], [9, 15]]);
    let points = 1024 - empty_cells(&now, 32).len();
    assert!(
        out.contains(&format!("layer z = 15, {points} points drawn")),
        "{out}"
    );
    let model = Model::open(&fs::read(folder.file("b.rym1")).unwrap()).unwrap();
    assert_eq!(points, model.points().filter(|point| point.z == 15).count());
    assert!(now.contains("b.rym1, layer z = 15<"), "{now}");
    let middle = model.header().middle(0, 0, 15)[2];
    let (_, said) = now.split_once("layer z = 15 at ").unwrap();
    let said: f64 = said.split_once(" m").unwrap().0.parse().unwrap();
    assert!((said - middle).abs() < 0.01, "{said} {middle}");
    assert!(now.contains(&format!(" m, {points} points, Cauchy mass ")));
    for words in ["x [m]", "y [m]", "xy at z = 15", "kg a cell"] {
        assert!(now.contains(words) && !now.contains("a column"), "{words}");
    }
    let (other, _) = svg("draw b.rym1 --slice z=14");
    assert_eq!(other, svg("draw before.rym1 --slice z=14 --title b.rym1").0);
    // The same layer by a place in metres, below and above the middle.
    assert_eq!(
        svg(&format!("draw b.rym1 --slice z={}m", middle - 5.0)).0,
        now
    );
    assert_eq!(
        svg(&format!("draw b.rym1 --slice=z={}m", middle + 5.0)).0,
        now
    );
    // Three of the five lie in the layer x = 9, one in y = 15.
    let seen = |line: &str| empty_cells(&svg(line).0, 32).len();
    assert_eq!(
        seen("draw b.rym1 --slice x=9"),
        3 + seen("draw before.rym1 --slice x=9")
    );
    assert_eq!(
        seen("draw b.rym1 --slice y=15"),
        1 + seen("draw before.rym1 --slice y=15")
    );
    let pngs = ["b", "before"].map(|name| {
        done(
            &folder,
            &format!("draw {name}.rym1 --slice z=15 -o s.png --title t"),
        );
        fs::read(folder.file("s.png")).unwrap()
    });
    assert!(pngs[0].starts_with(b"\x89PNG") && pngs[0] != pngs[1]);
}

/// With an earlier state, only the edits of the layer are marked and counted.
#[test]
fn a_slice_marks_its_edits() {
    let folder = Folder::new("a_slice_marks_its_edits");
    let model = three(&folder);
    fs::copy(folder.file("m"), folder.file("before")).unwrap();
    done(&folder, "put m 1 1 2 3 3");
    done(&folder, "remove m 2 2 2");
    done(&folder, "put m 0 1 2 9 9");
    done(&folder, "remove m 3 3 3");
    let drawn = |slice: &str| {
        let out = done(
            &folder,
            &format!("draw m --before before --slice {slice} -o s.svg"),
        );
        (out, fs::read_to_string(folder.file("s.svg")).unwrap())
    };
    let marks = |svg: &str| {
        ["#0a8f3c", "#d61f2c", "#f08c00"]
            .map(|color| svg.matches(&format!("stroke=\"{color}\"")).count())
    };
    let (out, svg) = drawn("z=2");
    assert!(
        out.contains("layer z = 2, 2 points drawn; 1 added, 1 removed, 1 changed"),
        "{out}"
    );
    assert!(svg.contains("in this layer; 1 cells in others"), "{svg}");
    // A mark in the legend and one on the cell, of two or four lines each.
    assert_eq!(marks(&svg), [4, 4, 8]);
    let (out, svg) = drawn("z=3");
    assert!(
        out.contains("layer z = 3, 0 points drawn; 0 added, 1 removed, 0 changed"),
        "{out}"
    );
    assert_eq!(marks(&svg), [2, 4, 4]);
    let (out, svg) = drawn("y=0");
    assert!(
        out.contains("0 points drawn; 0 added, 0 removed, 0 changed"),
        "{out}"
    );
    assert!(svg.contains("in this layer; 4 cells in others"));
    for (slice, status, words) in [
        (
            "z=4",
            1,
            "m: layer z = 4 lies outside the grid, whose cells go from 0 to 3",
        ),
        (
            "x=8.1m",
            1,
            "m: layer x = 8.1 m lies outside the box, which goes from (-8, -6, -4)",
        ),
        ("x=nanm", 1, "outside the box"),
        ("w=1", 2, "--slice: `w=1` is not as in z=12"),
        ("z", 2, "--slice: `z` is not"),
        ("z=1.5", 2, "--slice: `z=1.5` is not"),
        ("z=-1", 2, "--slice: `z=-1` is not"),
        ("z=m", 2, "--slice: `z=m` is not"),
    ] {
        fails(
            &folder,
            &format!("draw m --slice {slice} -o none.png"),
            status,
            words,
        );
        assert!(!folder.file("none.png").exists(), "{slice}");
    }
    let picture = Picture {
        slice: Some(Slice::Y(4)),
        ..Picture::new(&model)
    };
    let error = picture.svg().unwrap_err();
    let wanted = PictureError::NoSuchLayer {
        slice: Slice::Y(4),
        grid: 4,
    };
    assert_eq!((error, picture.png()), (wanted, Err(wanted)));
    assert_eq!(
        format!("{error} {error:?}"),
        ["no layer y = 4 in a grid of 4"; 2].join(" ")
    );
}

/// Boxes, masses and grids at their extremes are drawn by layers too.
#[test]
fn slices_at_extremes() {
    for (min, max) in [
        ([0.0; 3], [2.0; 3]),
        ([1e-38, 1e-38, -3e38], [2e-38, 1e30, 3e38]),
        ([999_999.9; 3], [1e6; 3]),
    ] {
        for grid in [1, 3, 256] {
            let last = grid as u16 - 1;
            let mut bytes = shapes::empty_file(grid, min, max);
            bytes[20..24].fill(0);
            let empty = Model::open(&bytes).unwrap();
            bytes[12] = 2;
            bytes.extend(record(0, 0, 0, 0, f32::MAX, f32::MIN));
            bytes.extend(record(last, last, last, 0, -1.0, 1e-45));
            // At grid 1 both name the one cell.
            let (model, _) = Model::fold(&bytes).unwrap();
            let last = u32::from(last);
            for slice in [Slice::X(0), Slice::Y(last), Slice::Z(last / 2)] {
                for (model, before) in [(&empty, None), (&model, Some(&empty))] {
                    let mass = Mass::Elliptic;
                    let slice = Some(slice);
                    let picture = Picture {
                        before,
                        mass,
                        slice,
                        ..Picture::new(model)
                    };
                    let svg = picture.svg().unwrap();
                    assert!(svg.len() < 200_000 && !svg.contains("NaN") && !svg.contains("inf"));
                    assert!(picture.png().unwrap().len() < 2_000_000);
                }
            }
        }
    }
}
