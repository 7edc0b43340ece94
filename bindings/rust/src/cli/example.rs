//! The command example: a contact binary to try the others on.

use super::args::Args;
use super::{say, shown, write, Failure};
use mascon::text::write_obj;
use mascon::{shapes, Kernel};
use std::fmt::Write as _;
use std::path::PathBuf;

fn kernel_list(heading: &str, kernels: &[Kernel]) -> String {
    let mut text = format!("# {heading}: x y z sigma w, in metres, 1/metre and kg/m^3\n");
    for Kernel {
        c: [x, y, z],
        sigma,
        w,
    } in kernels
    {
        let _ = writeln!(text, "{x} {y} {z} {sigma} {w}");
    }
    text
}

/// A boulder on the larger body, a void inside it, and denser matter in the smaller one with a cell that is corrected; for grid 32.
const EDITS: &str = "\
# a boulder on top of the larger body
put 7 12 30 9.0e8 9.0e8
put 8 12 30 9.0e8 9.0e8
put 7 13 30 9.0e8 9.0e8
put 8 13 30 9.0e8 9.0e8
# a void inside it
remove 8 13 15
remove 8 14 15
remove 9 13 15
remove 9 14 15
remove 9 15 15
# denser matter in the smaller body
put 24 20 20 3.0e8 3.0e8
put 25 20 20 3.0e8 3.0e8
put 25 21 20 4.0e8 4.0e8
# that was too much
undo
put 25 21 20 3.0e8 3.0e8
";

pub(crate) fn example(args: &Args) -> Result<(), Failure> {
    let folder = args.path(0);
    let rings = args.number("--rings", 24_usize)?;
    if !(4..=256).contains(&rings) {
        return Err(Failure::usage(format!("--rings: {rings} is not 4 to 256")));
    }
    let (mesh, cauchy) = shapes::contact_binary(rings);
    // The elliptic list: wider kernels in the same places.
    let wider = |kernel: &Kernel| Kernel {
        sigma: kernel.sigma / 2.0,
        ..*kernel
    };
    let elliptic: Vec<Kernel> = cauchy.iter().map(wider).collect();
    let files = [
        ("binary.obj", write_obj(&mesh)),
        ("cauchy.txt", kernel_list("Cauchy kernels", &cauchy)),
        ("elliptic.txt", kernel_list("elliptic kernels", &elliptic)),
        ("edits.txt", EDITS.to_string()),
    ]
    .map(|(name, text)| (folder.join(name), text));
    let other = |(path, text): &&(PathBuf, String)| {
        std::fs::read(path).is_ok_and(|old| old != text.as_bytes())
    };
    if let Some((path, _)) = files.iter().find(other).filter(|_| !args.flag("--force")) {
        return Err(Failure::failed(format!(
            "{} is there already and is another: choose another folder, or add --force",
            shown(path)
        )));
    }
    std::fs::create_dir_all(folder)
        .map_err(|error| Failure::failed(format!("{}: {error}", shown(folder))))?;
    for (path, text) in &files {
        write(path, text.as_bytes())?;
    }
    say(format!(
        "{}: binary.obj ({} triangles), cauchy.txt, elliptic.txt, edits.txt\n",
        shown(folder),
        mesh.len()
    ));
    Ok(())
}
