//! What is told of meshes and lists: faults, shells, what a fill will make of them, and files that are neither.

mod common;

use common::{file, mascon, record, Folder, Ran, Rng};
use mascon::check::{check_lists, check_points, check_working_form, trailing_bytes, Place, Report};
use mascon::mesh::{self, Survey};
use mascon::{build_mascon, is_inside, shapes, text, Kernel, Model, Refusal, Triangle};
use std::collections::BTreeSet;
use std::fs;

/// A command's two outputs, where it ends with this status and says these words on standard error.
fn told(folder: &Folder, line: &str, status: i32, words: &[&str]) -> (String, String) {
    let Ran {
        status: ended,
        out,
        err,
    } = mascon(folder, line);
    assert_eq!(ended, status, "{line}: {out}{err}");
    for words in words {
        assert!(err.contains(words), "{line}: {words}: {err}");
    }
    (out, err)
}

fn write(folder: &Folder, name: &str, text: impl AsRef<[u8]>) {
    fs::write(folder.file(name), text).unwrap();
}

fn one(w: f64) -> Vec<Kernel> {
    vec![Kernel {
        c: [0.0; 3],
        sigma: 0.0,
        w,
    }]
}

/// The cells of a mesh, in a box that holds `whole` too.
fn cells(mesh: &[Triangle], whole: &[Triangle], grid: u32) -> BTreeSet<[u32; 3]> {
    let mut mesh = mesh.to_vec();
    mesh.push(mesh::widening(whole, 0.0));
    let model = Model::fill(&mesh, &one(1.0), &[], 0.0, 1.0, grid).unwrap();
    model
        .points()
        .map(|point| [point.x, point.y, point.z])
        .collect()
}

/// Two balls that touch in (120, 0, 0), in the middle of their box.
fn on_the_middle_row() -> Vec<Triangle> {
    let mut mesh = shapes::lumpy_sphere([-300.0, 0.0, 0.0], 420.0, 0.12, 24);
    mesh.extend(shapes::lumpy_sphere([420.0, 0.0, 0.0], 300.0, 0.10, 24));
    mesh
}

#[test]
fn lists_are_judged_as_the_library_judges() {
    let mut rng = Rng(31);
    let good = shapes::cuboid([-9.0; 3], [9.0; 3]);
    let edge = |x: f64| [x, -x, x.next_up(), -x.next_up(), x.next_down()];
    let odd = [
        f64::NAN,
        f64::INFINITY,
        f64::NEG_INFINITY,
        -0.0,
        5e-324,
        -5e-324,
    ];
    let mut values: Vec<f64> = [1e6, 1e30, 4e6].into_iter().flat_map(edge).collect();
    values.extend(odd);
    let (mut clean, mut refused) = (0, 0);
    for _ in 0..4000 {
        let mut triangles = good.clone();
        let mut lists = [one(1.0), one(2.0)];
        let mut numbers = [1.0, 1.0];
        let value = values[rng.below(values.len() as u64) as usize];
        match rng.below(6) {
            0 => triangles[rng.below(12) as usize].b[rng.below(3) as usize] = value,
            1 => lists[rng.below(2) as usize][0].c[rng.below(3) as usize] = value,
            2 => lists[rng.below(2) as usize][0].sigma = value,
            3 => lists[rng.below(2) as usize][0].w = value,
            4 => numbers[rng.below(2) as usize] = value,
            _ => lists[rng.below(2) as usize].clear(),
        }
        let [target, density] = numbers;
        let report = check_lists(&triangles, &lists[0], &lists[1], target, density, 3);
        let answer = build_mascon(&triangles, &lists[0], &lists[1], target, density, 2);
        assert_eq!(
            report.is_clean(),
            answer != Err(Refusal::OutOfBounds),
            "{report:?} {value}"
        );
        assert!(report
            .faults
            .iter()
            .all(|fault| fault.cause == Some(Refusal::OutOfBounds)));
        clean += usize::from(report.is_clean());
        refused += usize::from(!report.is_clean());
    }
    assert!(clean > 800 && refused > 800, "{clean} {refused}");
}

#[test]
fn lengths_of_lists() {
    let mesh = shapes::cuboid([-9.0; 3], [9.0; 3]);
    let many = |count| vec![one(1.0)[0]; count];
    let triangles = |count| vec![mesh[0]; count];
    for (triangles, cauchy, elliptic, words) in [
        (
            triangles(0),
            many(1),
            many(1),
            "argument, triangles: 0, a mesh has 1 to 2^20",
        ),
        (
            triangles((1 << 20) + 1),
            many(1),
            many(1),
            "argument, triangles: 1048577",
        ),
        (
            mesh.clone(),
            many(4097),
            many(1),
            "argument, Cauchy kernels: 4097",
        ),
        (
            mesh.clone(),
            many(4096),
            many(4097),
            "argument, elliptic kernels: 4097",
        ),
    ] {
        let report = check_lists(&triangles, &cauchy, &elliptic, 0.0, 1.0, 9);
        assert_eq!((report.total, report.faults[0].place), (1, Place::Argument));
        assert!(
            report.faults[0].to_string().contains(words),
            "{:?}",
            report.faults
        );
        let answer = build_mascon(&triangles, &cauchy, &elliptic, 0.0, 1.0, 1);
        assert_eq!(answer, Err(Refusal::OutOfBounds));
    }
    assert!(check_lists(&triangles(1 << 20), &many(4096), &[], 0.0, 1.0, 9).is_clean());
}

#[test]
fn every_fault_of_the_lists_is_placed() {
    let mut mesh = shapes::cuboid([-9.0; 3], [9.0; 3]);
    mesh[3].c[2] = -2e6;
    let bad = Kernel {
        c: [0.0, f64::INFINITY, 0.0],
        sigma: -1.0,
        w: 1e31,
    };
    let report = check_lists(&mesh, &one(1.0), &[one(1.0)[0], bad], f64::NAN, -2e30, 5);
    assert_eq!((report.faults.len(), report.total), (5, 6));
    let words: Vec<String> = report.faults.iter().map(ToString::to_string).collect();
    assert_eq!(
        words,
        [
            "cause 17: triangle 3, c z: -2e6 is above 1e6 m in magnitude",
            "cause 17: elliptic kernel 1, centre y: inf is above 1e6 m in magnitude",
            "cause 17: elliptic kernel 1, sigma: -1 is not 0 to 1e6",
            "cause 17: elliptic kernel 1, w: 1e31 is above 1e30 in magnitude",
            "cause 17: argument, target mass: NaN is not a number",
        ]
    );
    assert_eq!(report.faults[0].offset, 72 * 3 + 8 * 8);
    let folder = Folder::new("faults_of_lists");
    write(
        &folder,
        "mesh",
        text::write_obj(&shapes::cuboid([-9.0; 3], [9.0; 3])),
    );
    write(&folder, "k", "0 0 0 0.1 1000\n");
    let line = "fill mesh k -o out --target nan --density inf --widen 9";
    let words = [
        "refused 17",
        "\n  cause 17: argument, target mass: NaN is not a number",
        "\n  cause 17: argument, density: inf is above 1e30",
        "\n  1 to 2^20 triangles",
    ];
    told(&folder, line, 1, &words);
}

#[test]
fn every_repeated_cell_is_found() {
    let cell = |x, y, z| (x, y, z, 1.0, 1.0);
    let records = [
        cell(1, 1, 1),
        cell(2, 1, 1),
        cell(1, 1, 1),
        cell(3, 3, 3),
        cell(2, 1, 1),
    ];
    let mut bytes = file(4, &records);
    let words =
        |report: Report| -> Vec<String> { report.faults.iter().map(ToString::to_string).collect() };
    let again = [
        "cause 21: record 2, x, byte 96: cell (1, 1, 1) again, first in record 0",
        "cause 21: record 4, x, byte 128: cell (2, 1, 1) again, first in record 1",
    ];
    assert_eq!(words(check_points(&bytes, 9)), again);
    // Two of them are out of order besides.
    assert_eq!(
        words(check_working_form(&bytes, 9)),
        [
            "cause 10: record 2, x, byte 96: cell (1, 1, 1) stands after a later cell",
            "cause 10: record 4, x, byte 128: cell (2, 1, 1) stands after a later cell",
        ]
    );
    // After the other causes, outside the grid, and where the grid is none.
    bytes[8] = 2;
    let found = words(check_points(&bytes, 99));
    assert!(found[0].starts_with("cause 6: record 1, x"), "{found:?}");
    assert_eq!(found[found.len() - 2..], again);
    bytes[8] = 0;
    let found = words(check_points(&bytes, 99));
    assert!(found[0].starts_with("cause 3"), "{found:?}");
    assert_eq!(found[1..], again);
}

/// As many records as cells, from the last to the first, and the last one again.
#[test]
fn a_full_grid_of_records_is_judged() {
    let mut bytes = shapes::empty_file(256, [0.0; 3], [256.0; 3]);
    bytes.reserve((1 << 28) + 16);
    bytes[12..16].copy_from_slice(&((1_u32 << 24) + 1).to_le_bytes());
    for number in (0..1_u32 << 24).rev().chain([0]) {
        let [x, y, z, _] = number.to_le_bytes().map(u16::from);
        bytes.extend_from_slice(&record(x, y, z, 0, 1.0, 1.0));
    }
    let last = (1 << 24) - 1;
    let report = check_working_form(&bytes, 2);
    assert_eq!((report.total, report.faults.len()), (last, 2));
    let report = check_points(&bytes, 2);
    assert_eq!(report.total, 1);
    let why = format!("cell (0, 0, 0) again, first in record {last}");
    assert_eq!(report.faults[0].why, why);
    bytes[64 + 16 * last + 6] = 1;
    bytes.drain(64..64 + 16 * last);
    bytes[12..16].copy_from_slice(&2_u32.to_le_bytes());
    assert!(check_points(&bytes, 9).faults[0]
        .why
        .contains("again, first in record 0"));
    assert_eq!(check_working_form(&bytes, 9).total, 1);
}

#[test]
fn trailing_bytes_are_a_note() {
    let folder = Folder::new("trailing_bytes");
    let mut bytes = file(4, &[(0, 1, 2, 5.0, 6.0)]);
    assert_eq!(trailing_bytes(&bytes), 0);
    write(&folder, "plain", &bytes);
    bytes.extend([1; 21]);
    assert_eq!(
        (trailing_bytes(&bytes), trailing_bytes(&bytes[..70])),
        (21, 0)
    );
    write(&folder, "longer", &bytes);
    bytes[70] = 1;
    write(&folder, "pad", &bytes);
    let note = "trailing bytes  21 after the last record";
    for (name, form) in [("longer", true), ("pad", false)] {
        let (info, _) = told(&folder, &format!("info {name}"), 0, &[]);
        let (check, _) = told(&folder, &format!("check {name}"), 0, &[]);
        assert!(info.contains(note) && check.contains(note), "{info}{check}");
        assert_eq!(info.contains("working form    yes"), form, "{info}");
        assert_eq!(!check.contains("not in working form"), form, "{check}");
        assert!(check.contains("no fault"), "{check}");
    }
    for command in ["info", "check"] {
        let (out, _) = told(&folder, &format!("{command} plain"), 0, &[]);
        assert!(!out.contains("trailing"), "{out}");
    }
}

#[test]
fn shells_volumes_and_cavities() {
    let mut mesh = shapes::cuboid([0.0; 3], [10.0; 3]);
    mesh.extend(shapes::cuboid([2.0; 3], [8.0; 3]));
    mesh.extend(shapes::cuboid([4.0; 3], [6.0; 3]));
    mesh.extend(shapes::cuboid([20.0; 3], [21.0; 3]));
    // Winding plays no part.
    for triangle in mesh.iter_mut().step_by(3) {
        std::mem::swap(&mut triangle.a, &mut triangle.b);
    }
    mesh.push(mesh::widening(&mesh, 5.0));
    let survey = Survey::of(&mesh);
    assert!(survey.is_closed() && !survey.touches());
    let found: Vec<_> = survey
        .shells
        .iter()
        .map(|s| (s.triangles, s.depth, s.volume.round()))
        .collect();
    assert_eq!(
        found,
        [(12, 0, 1000.0), (12, 1, 216.0), (12, 2, 8.0), (12, 0, 1.0)]
    );
    assert!((survey.volume() - 793.0).abs() < 1e-6);
    assert_eq!((survey.min, survey.max), ([-5.0; 3], [26.0; 3]));
    let padded = (31.0_f64 + 31.0 / 16.0).powi(3);
    assert!((survey.fills_box(16) - 793.0 / padded).abs() < 1e-9);
    // Without a face.
    mesh.remove(40);
    let survey = Survey::of(&mesh);
    assert_eq!((survey.open_edges, survey.shells[3].closed), (3, false));
    assert!((survey.volume() - 792.0).abs() < 1e-6);
    for odd in [0, 257] {
        assert_eq!((survey.preview(odd), survey.fills_box(odd)), (None, 0.0));
    }
    let flat = Survey::of(&mesh[..1]);
    assert_eq!((flat.preview(8), flat.widening(8)), (None, None));
    assert_eq!(Survey::of(&[]).shells.len(), 0);
}

#[test]
fn shells_that_touch() {
    let touching = |other: Vec<Triangle>| {
        let mut mesh = shapes::cuboid([0.0; 3], [4.0; 3]);
        mesh.extend(other);
        let survey = Survey::of(&mesh);
        assert_eq!((survey.shells.len(), survey.is_closed()), (2, true));
        (survey.touching_points.clone(), survey.touching_edges.len())
    };
    let corner = shapes::cuboid([4.0; 3], [6.0; 3]);
    assert_eq!(touching(corner), (vec![[4.0; 3]], 0));
    // Within what the rule tells apart.
    let near = shapes::cuboid([4.000004; 3], [6.0; 3]);
    assert_eq!(touching(near).0.len(), 1);
    let apart = shapes::cuboid([4.1; 3], [6.0; 3]);
    assert_eq!(touching(apart), (vec![], 0));
    let edge = shapes::cuboid([4.0, 4.0, 0.0], [6.0, 6.0, 4.0]);
    assert_eq!((touching(edge.clone()).0.len(), touching(edge).1), (2, 1));
    let face = shapes::cuboid([4.0, 0.0, 0.0], [6.0, 4.0, 4.0]);
    assert_eq!(touching(face).0.len(), 4);
}

/// Each triangle once more, for its other side, behind the mesh or beside the triangle: a ray meets both at once.
#[test]
fn meshes_with_two_sides() {
    let ball = shapes::lumpy_sphere([1.0, 2.0, 3.0], 50.0, 0.1, 10);
    let turned = |t: &Triangle| Triangle {
        a: t.b,
        b: t.a,
        c: t.c,
    };
    let mut behind = ball.clone();
    behind.extend(ball.iter().map(turned));
    let beside: Vec<_> = ball.iter().flat_map(|t| [*t, turned(t)]).collect();
    let once = Survey::of(&ball);
    for mesh in [behind, beside] {
        let survey = Survey::of(&mesh);
        assert_eq!(survey.shells, once.shells);
        assert!(survey.is_closed() && !survey.touches());
        assert_eq!(survey.preview(15), once.preview(15));
        assert_eq!(cells(&mesh, &mesh, 15), cells(&ball, &ball, 15));
    }
}

/// Triangles from anywhere: never a panic, and where the library takes them, as many cells as it finds.
#[test]
fn surveys_of_anything() {
    let mut rng = Rng(32);
    let odd = [f64::NAN, f64::INFINITY, -1e300, 1e6, 1e-300, -0.0];
    let (mut filled, mut equal) = (0, 0);
    for round in 0..3000_u64 {
        let mut number = || match rng.below(if round.is_multiple_of(3) { 40 } else { 34 }) {
            x @ 0..34 => (x as f64 - 17.0) * 1.37,
            x => odd[x as usize - 34],
        };
        let mut corner = || [number(), number(), number()];
        let mut mesh = Vec::new();
        for _ in 0..1 + round % 12 {
            let [a, b, c] = [corner(), corner(), corner()];
            mesh.push(Triangle { a, b, c });
        }
        if round % 2 == 0 {
            mesh.extend(shapes::cuboid(mesh[0].a, mesh[0].b));
        }
        let survey = Survey::of(&mesh);
        assert!(survey.volume() >= 0.0 || survey.volume().is_nan());
        let preview = survey.preview(9);
        let _ = survey.widening(5);
        match Model::fill(&mesh, &one(1.0), &[], 0.0, 1.0, 9) {
            Ok(model) => {
                filled += 1;
                equal += usize::from(preview.is_some_and(|p| p.inside == model.len()));
            }
            Err(Refusal::TooManyPoints) => assert!(preview.unwrap().inside >= 365),
            Err(_) => {}
        }
    }
    assert!(filled > 500 && equal == filled, "{equal} of {filled}");
}

/// What a preview says is what the library finds: of bodies, of a mesh that is not closed, of shells that touch on a row.
#[test]
fn a_preview_is_what_fill_finds() {
    let on_row = on_the_middle_row();
    let (off_row, _) = shapes::contact_binary(24);
    let mut open = shapes::lumpy_sphere([10.0, 20.0, 30.0], 50.0, 0.1, 12);
    open.remove(100);
    // No two triangles have a corner in common.
    let mut loose = shapes::cuboid([0.0; 3], [8.0, 8.0, 32.0]);
    for (i, triangle) in loose.iter_mut().enumerate() {
        triangle.a[0] += 1e-12 * i as f64;
        triangle.b[0] += 2e-12 * i as f64;
        triangle.c[0] += 3e-12 * i as f64;
    }
    loose.push(mesh::widening(&loose, 4.0));
    let survey = Survey::of(&on_row);
    let half = on_row.len() / 2;
    for (grid, lost) in [(31, 18), (32, 0), (33, 19), (35, 20)] {
        let [all, body, head] =
            [&on_row[..], &on_row[..half], &on_row[half..]].map(|part| cells(part, &on_row, grid));
        let union: BTreeSet<_> = body.union(&head).copied().collect();
        let preview = survey.preview(grid).unwrap();
        assert_eq!(
            (preview.inside, preview.misjudged),
            (all.len(), lost),
            "{grid}"
        );
        assert_eq!(union.symmetric_difference(&all).count(), lost, "{grid}");
        assert_eq!(preview.rows, usize::from(lost > 0));
    }
    for mesh in [&off_row, &open, &loose] {
        for grid in [1, 2, 7, 20, 33] {
            let preview = Survey::of(mesh).preview(grid).unwrap();
            assert_eq!(preview.inside, cells(mesh, mesh, grid).len(), "{grid}");
            assert_eq!(preview.misjudged, 0);
        }
    }
}

/// A face of one shell within a face of the other: no corner or edge is shared, but what it costs is counted.
#[test]
fn faces_that_touch_are_counted() {
    let mut mesh = shapes::cuboid([0.0; 3], [10.0, 30.0, 30.0]);
    mesh.extend(shapes::cuboid([10.0, 7.0, 8.0], [20.0, 15.0, 16.0]));
    let preview = Survey::of(&mesh).preview(12).unwrap();
    let all = cells(&mesh, &mesh, 12);
    let union: BTreeSet<_> = [&mesh[..12], &mesh[12..]]
        .iter()
        .flat_map(|part| cells(part, &mesh, 12))
        .collect();
    assert_eq!(preview.inside, all.len());
    assert_eq!(preview.misjudged, union.symmetric_difference(&all).count());
    assert!(preview.misjudged > 20 && preview.rows > 4, "{preview:?}");
}

/// A degenerate triangle widens the box and is met by no ray: the same places in metres lie inside.
#[test]
fn a_wider_box_holds_the_same_body() {
    let (mut mesh, _) = shapes::contact_binary(10);
    let plain = mesh.clone();
    mesh.push(mesh::widening(&mesh, 123.456));
    let (min, max) = mesh::bounds(&plain);
    assert_eq!(
        mesh::bounds(&mesh),
        (min.map(|x| x - 123.456), max.map(|x| x + 123.456))
    );
    let model = Model::fill(&mesh, &one(1.0), &[], 0.0, 1.0, 20).unwrap();
    let header = model.header();
    let mut inside = 0;
    for number in 0..20_u32.pow(3) {
        let [x, y, z] = [number % 20, number / 20 % 20, number / 400];
        let middle = header.middle(x, y, z);
        let judged = is_inside(&plain, middle);
        assert_eq!(judged, is_inside(&mesh, middle));
        assert_eq!(judged, Ok(model.get(x, y, z).is_some()), "{middle:?}");
        inside += usize::from(judged == Ok(true));
    }
    assert!(inside > 500, "{inside}");
    // From every side, at every size.
    let wide = [mesh::widening(&plain, 1e-3), mesh::widening(&plain, 9e5)];
    for triangle in wide {
        for point in [
            triangle.a,
            [0.0; 3],
            min,
            [min[0] - 1.0, triangle.b[1], triangle.b[2]],
        ] {
            assert_eq!(is_inside(&[triangle], point), Ok(false));
        }
    }
}

/// For the rings that the program allows and every grid: the triangles at the point of touching, closed to two flat cones, in the whole
/// body's box.
#[test]
fn the_example_touches_off_every_row() {
    let judge = |rings: usize| {
        let contact = [100.0, 100.0, 80.0];
        let (mesh, kernels) = shapes::contact_binary(rings);
        let mut near = Vec::new();
        for (i, t) in mesh.iter().enumerate() {
            if [t.a, t.b, t.c].contains(&contact) {
                let center = kernels[usize::from(i >= mesh.len() / 2)].c;
                let depth = 1.0 - (std::f64::consts::PI / rings as f64).cos();
                let base = [0, 1, 2].map(|x| contact[x] + depth * (center[x] - contact[x]));
                let closing = |corner| if corner == contact { base } else { corner };
                let [a, b, c] = [t.a, t.b, t.c].map(closing);
                near.extend([*t, Triangle { a, b, c }]);
            }
        }
        assert_eq!(near.len(), 8 * rings);
        near.push(mesh::widening(&mesh, 0.0));
        let survey = Survey::of(&near);
        assert_eq!(
            (survey.touching_points.as_slice(), survey.is_closed()),
            (&[contact][..], true)
        );
        for grid in 1..=256 {
            let preview = survey.preview(grid).unwrap();
            assert_eq!(preview.misjudged, 0, "{rings} rings, grid {grid}");
        }
    };
    std::thread::scope(|scope| {
        for part in 0..4 {
            scope.spawn(move || (4 + part..=256).step_by(4).for_each(judge));
        }
    });
}

#[test]
fn the_example_is_the_union_of_its_shells() {
    for (rings, grid) in [
        (24, 17),
        (24, 31),
        (24, 33),
        (12, 35),
        (7, 47),
        (4, 63),
        (5, 64),
    ] {
        let (mesh, _) = shapes::contact_binary(rings);
        let half = mesh.len() / 2;
        let union: BTreeSet<_> = [&mesh[..half], &mesh[half..]]
            .iter()
            .flat_map(|part| cells(part, &mesh, grid))
            .collect();
        assert_eq!(
            cells(&mesh, &mesh, grid),
            union,
            "{rings} rings, grid {grid}"
        );
    }
}

/// The example's edits: a boulder that stands on the body, a void in it, and denser matter in the smaller body.
#[test]
fn the_example_s_edits_fit() {
    let folder = Folder::new("example_edits");
    told(&folder, "example .", 0, &[]);
    let edits = text::parse_edits(&fs::read_to_string(folder.file("edits.txt")).unwrap()).unwrap();
    let (mesh, kernels) = shapes::contact_binary(24);
    let model = Model::fill(&mesh, &kernels, &kernels, 7e11, 1190.0, 32).unwrap();
    let (body, head) = mesh.split_at(mesh.len() / 2);
    let header = model.header();
    let within = |part: &[Triangle], x, y, z| is_inside(part, header.middle(x, y, z)) == Ok(true);
    for (i, (_, edit)) in edits.into_iter().enumerate() {
        match edit {
            text::Edit::Put(x, y, z, ..) if i < 4 => {
                assert!(
                    model.get(x, y, z).is_none() && within(body, x, y, z - 1),
                    "{edit}"
                );
            }
            text::Edit::Put(x, y, z, ..) => assert!(within(head, x, y, z), "{edit}"),
            text::Edit::Remove(x, y, z) => assert!(within(body, x, y, z), "{edit}"),
            _ => {}
        }
    }
}

/// 2^20 triangles, and 80,000 shells.
#[test]
fn surveys_of_great_meshes() {
    let (mut mesh, _) = shapes::contact_binary(361);
    mesh.truncate(1 << 20);
    let survey = Survey::of(&mesh);
    assert_eq!(
        (
            mesh.len(),
            survey.shells.len(),
            survey.touching_points.len()
        ),
        (1_039_680, 2, 1)
    );
    let preview = survey.preview(256).unwrap();
    let share = preview.inside as f64 / f64::from(1 << 24);
    assert!(
        (share / survey.fills_box(256) - 1.0).abs() < 1e-2,
        "{share}"
    );
    let mut gravel = Vec::new();
    for i in 0..80_000_u32 {
        let min = [i % 43, i / 43 % 43, i / 43 / 43].map(|x| 3.0 * f64::from(x));
        gravel.extend(shapes::cuboid(min, min.map(|x| x + 2.0)));
    }
    gravel.extend(shapes::cuboid([-1.0; 3], [130.0, 130.0, 132.0]));
    let survey = Survey::of(&gravel);
    assert_eq!((survey.shells.len(), survey.touches()), (80_001, false));
    assert!(survey.shells[..80_000].iter().all(|shell| shell.depth == 1));
    assert!(survey.preview(256).is_some());
}

#[test]
fn a_body_that_fills_its_box() {
    let folder = Folder::new("fills_its_box");
    let block = shapes::cuboid([-20.0, -10.0, -10.0], [20.0, 10.0, 10.0]);
    write(&folder, "block", text::write_obj(&block));
    write(&folder, "k", "0 0 0 0 1000\n");
    let line = "fill block k -o out --grid 16";
    let words = [
        "block: this will be refused (18): 4096 of 4096 cells lie inside by a preview, a point file holds 2048",
        "the body fills 85.9 % of its padded box; --widen ",
        "fill: refused 18",
    ];
    let (_, err) = told(&folder, line, 1, &words);
    let (_, metres) = err.split_once("--widen ").unwrap();
    let metres: f64 = metres.split_whitespace().next().unwrap().parse().unwrap();
    assert!(metres > 0.5 && metres < 5.0, "{metres}");
    let (_, err) = told(&folder, &format!("{line} --widen {metres}"), 0, &[]);
    assert!(!err.contains("block"), "{err}");
    let model = Model::open(&fs::read(folder.file("out")).unwrap()).unwrap();
    let inside = |point: mascon::Point| {
        let middle = model.header().middle(point.x, point.y, point.z);
        is_inside(&block, middle) == Ok(true)
    };
    assert!(!model.is_empty() && model.points().all(inside));
    // Not wide enough: what is suggested counts what is there.
    let (_, err) = told(&folder, &format!("{line} --widen 0.1"), 1, &["--widen "]);
    let (_, more) = err.split_once("--widen ").unwrap();
    let more: f64 = more.split_whitespace().next().unwrap().parse().unwrap();
    told(&folder, &format!("{line} --widen {more}"), 0, &[]);
    for (widen, status) in [("-1", 2), ("nan", 2), ("inf", 2), ("x", 2), ("1e6", 1)] {
        told(
            &folder,
            &format!("{line} --widen {widen}"),
            status,
            &["--widen"],
        );
    }
    assert_eq!(folder.names(), ["block", "k", "out"]);
}

#[test]
fn a_mesh_that_is_not_closed_is_the_cause() {
    let folder = Folder::new("not_closed_cause");
    let block = shapes::cuboid([0.0; 3], [40.0, 20.0, 20.0]);
    let without = |side: f64| {
        let on = |t: &&Triangle| ![t.a, t.b, t.c].iter().all(|corner| corner[0] == side);
        let open: Vec<_> = block.iter().filter(on).copied().collect();
        assert_eq!(open.len(), 10);
        text::write_obj(&open)
    };
    write(&folder, "k", "0 0 0 0 1000\n");
    write(&folder, "full", without(0.0));
    write(&folder, "empty", without(40.0));
    let cause = "the mesh is not closed (4 edges with an odd number of faces)";
    let words = [
        "full: this will be refused (18): 512 of 512 cells",
        &format!("holds 256; {cause}"),
        "refused 18",
        &format!("\n  {cause}"),
    ];
    told(&folder, "fill full k -o out --grid 8", 1, &words);
    let words = ["the point file is empty", cause];
    told(&folder, "fill empty k -o out --grid 8", 0, &words);
}

#[test]
fn a_fill_names_shells_that_touch() {
    let folder = Folder::new("names_touching");
    write(&folder, "binary", text::write_obj(&on_the_middle_row()));
    write(&folder, "k", "0 0 0 0 1000\n");
    let line = "fill binary k -o out --grid";
    let words = [
        "binary: shells touch in 1 point, (120, 0, 0); at grid 33 the rays of 19 cells in 1 row pass there",
        "take --grid 34",
        "move one shell by a little",
    ];
    let (_, err) = told(&folder, &format!("{line} 33"), 0, &words);
    // The box stays even around the row.
    assert!(!err.contains("--widen"), "{err}");
    let (out, err) = told(&folder, &format!("{line} 34"), 0, &[]);
    assert!(
        out.contains("shells touch in 1 point, (120, 0, 0), off every row of middles"),
        "{out}"
    );
    assert!(!err.contains("touch"), "{err}");
    let mut blocks = shapes::cuboid([0.0; 3], [20.0; 3]);
    blocks.extend(shapes::cuboid([20.0, 0.0, 20.0], [40.0, 20.0, 50.0]));
    write(&folder, "binary", text::write_obj(&blocks));
    let (out, err) = told(&folder, &format!("{line} 8"), 0, &[]);
    let words = "shells touch in 2 points";
    assert!(out.contains(words) || err.contains(words), "{out}{err}");
    assert!((out + &err).contains("along 1 edge, (20, "));
}

#[test]
fn targets_that_are_missed() {
    let folder = Folder::new("targets");
    write(
        &folder,
        "mesh",
        text::write_obj(&shapes::lumpy_sphere([0.0; 3], 100.0, 0.0, 8)),
    );
    let fill = |kernels: &str, target: &str, words: &[&str]| {
        write(&folder, "k", kernels);
        let line = format!("fill mesh k --elliptic k -o out --grid 12 --target {target}");
        let (_, err) = told(&folder, &line, 0, words);
        (
            err,
            Model::open(&fs::read(folder.file("out")).unwrap())
                .unwrap()
                .masses()
                .0,
        )
    };
    let (err, mass) = fill("0 0 0 0.01 1000\n", "5e9", &[]);
    assert!(err.is_empty() && (mass / 5e9 - 1.0).abs() < 1e-6, "{err}");
    assert_eq!(fill("0 0 0 0.01 1000\n", "0", &[]).0, "");
    let words = ["--target -5e9: only a target above 0 scales the masses, they stay as the kernels give them"];
    assert!(fill("0 0 0 0.01 1000\n", "-5e9", &words).1 > 0.0);
    let words = [
        "every Cauchy weight is below 0: a target above 0 turns the sign of every Cauchy mass",
        "every elliptic weight",
    ];
    let (err, mass) = fill("0 0 0 0.01 -1000\n", "5e9", &words);
    assert!(
        !err.contains("turned") && (mass / 5e9 - 1.0).abs() < 1e-6,
        "{err}"
    );
    let words = [
        "the Cauchy masses added up to -",
        "turned the sign of every one",
    ];
    let (err, _) = fill("0 0 0 0.01 10\n0 0 0 0.02 -1000\n", "5e9", &words);
    assert!(!err.contains("not to the target"), "{err}");
    let words = ["the Cauchy masses add up to 0 kg: no scale reaches the target"];
    assert_eq!(fill("0 0 0 0 10\n0 0 0 0 -10\n", "5e9", &words).1, 0.0);
    // Each mass is below what binary32 holds.
    let words = ["the Cauchy masses add up to 0e0 kg, not to the target, 1e-43 kg"];
    fill("0 0 0 0.01 1000\n", "1e-43", &words);
    let words = ["not to the target, 5e9 kg: masses of both signs nearly cancel"];
    fill("50 0 0 0.05 1000\n-50 0 0 0.05 -999.9999\n", "5e9", &words);
    // No kernels: told before.
    let words = ["no Cauchy kernels: Cauchy masses are 0, the target is not reached"];
    fill("# none\n", "5e9", &words);
}

#[test]
fn files_of_other_kinds() {
    let folder = Folder::new("other_kinds");
    let mesh = text::write_obj(&shapes::cuboid([0.0; 3], [4.0, 8.0, 4.0]));
    write(&folder, "mesh", &mesh);
    write(&folder, "k", "0 0 0 0.1 1000\n");
    let mut stl = vec![b'x'; 80];
    stl.extend(2_u32.to_le_bytes());
    stl.extend([3; 100]);
    let only = "only OBJ meshes and lists of `x y z sigma w` are read";
    let kinds: [(&[u8], &str); 10] = [
        (&stl, "a binary STL mesh"),
        (b"solid ball\n  facet normal 0 0 1\n", "an STL mesh (text)"),
        (b"glTF\x02\0\0\0", "a GLB file"),
        (b"\n{\"asset\": {\"version\": \"2.0\"}}", "JSON, as glTF is"),
        (b"ply\nformat ascii 1.0\n", "a PLY mesh"),
        (b"v 0 0 0\n\0", "binary"),
        (b"RYM1\x01\0\0\0", "a point file"),
        (b"# a list\n[[kernel]]\nsigma = 1\n", "TOML"),
        (b"sigma = 1\n", "TOML"),
        (b"PK\x03\x04", "a ZIP archive"),
    ];
    for (bytes, kind) in kinds {
        write(&folder, "other", bytes);
        for line in [
            "fill other k -o out",
            "fill mesh other -o out",
            "fill mesh k --elliptic other -o out",
        ] {
            let (_, err) = told(&folder, line, 1, &[]);
            let first = err.lines().next().unwrap();
            assert!(
                first.starts_with(&format!("mascon: other: this is {kind}")),
                "{err}"
            );
            assert!(first.ends_with(only), "{err}");
        }
    }
    write(&folder, "other", "# x y z sigma w\n0,0,0,0.1,1000\n");
    let words = ["mascon: other: line 2: numbers with commas: only OBJ meshes and lists of `x y z sigma w` are read"];
    told(&folder, "fill mesh other -o out", 1, &words);
    write(&folder, "other", "0, 0, 0, 0.1, 1000\n");
    told(
        &folder,
        "fill mesh other -o out",
        1,
        &["line 1: numbers with commas"],
    );
    write(&folder, "other", "v 0 0 0\nv 1 0 0\nv 0 1 0\n");
    told(
        &folder,
        "fill other k -o out",
        1,
        &["other: no face (`f` line) in it, 3 corners (`v` lines)"],
    );
    assert_eq!(folder.names(), ["k", "mesh", "other"]);
}

/// Comments and names in Latin-1 are no reason to refuse a text.
#[test]
fn texts_in_latin_1() {
    let folder = Folder::new("latin_1");
    let mesh = text::write_obj(&shapes::cuboid([0.0; 3], [4.0, 8.0, 4.0]));
    let latin = |text: &str| [b"# K\xf6rper \xb5\n", text.as_bytes()].concat();
    write(
        &folder,
        "mesh",
        mesh.replace("v 0 0 0\n", "v 0 0 0 # plain\n"),
    );
    write(&folder, "k", "0 0 0 0.1 1000\n");
    told(&folder, "fill mesh k -o plain --grid 8 --widen 3", 0, &[]);
    let named = [b"o K\xf6rper\nusemtl gr\xe4u\n", mesh.as_bytes()].concat();
    write(&folder, "mesh", [latin(""), named].concat());
    write(&folder, "k", latin("0 0 0 0.1 1000\n"));
    told(&folder, "fill mesh k -o out --grid 8 --widen 3", 0, &[]);
    let read = |name: &str| fs::read(folder.file(name)).unwrap();
    assert_eq!(read("plain"), read("out"));
    write(&folder, "edits", latin("put 1 1 1 1 1\n"));
    told(&folder, "apply out edits", 0, &[]);
    write(&folder, "edits", b"put 1 1 1 1 1\n\0");
    told(
        &folder,
        "apply out edits",
        1,
        &["edits: byte 14 is 0, this is not text"],
    );
    write(&folder, "mesh", b"v 0 0 \xe9\n");
    told(&folder, "fill mesh k -o other", 1, &["mesh: line 1: "]);
}
