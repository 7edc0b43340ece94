//! The command costliest.

use super::args::Args;
use super::{output, print, say, shown, write_model, Failure};
use mascon::{Cost, Model};

pub(crate) fn costliest(args: &Args) -> Result<(), Failure> {
    let grid = args.word("GRID", 0)?;
    let out = args.option_path("-o").map(|_| output(args, &[]));
    let out = out.transpose()?;
    let refused = |refusal| Failure::refused(format!("grid {grid}"), refusal);
    let cost = Cost::of(grid).map_err(refused)?;
    let text = in_words(grid, cost);
    let Some(out) = out else {
        return print(text);
    };
    let model = Model::costliest(grid).map_err(refused)?;
    write_model(out, &model)?;
    let (out, points) = (shown(out), model.len());
    say(format!("{out}: {points} points in working form\n{text}"));
    Ok(())
}

fn in_words(grid: u32, cost: Cost) -> String {
    format!(
        "grid            {grid} ({} cells)\n{}{} for a file in working form\npoint file      {} bytes, with a point in every cell\n",
        u64::from(grid).pow(3),
        tree_at_most(cost),
        building_takes(cost.scratch_bytes),
        cost.file_bytes
    )
}

/// The line of what a tree takes, in what is told of a grid or of a point file.
pub(crate) fn tree_at_most(cost: Cost) -> String {
    let Cost { nodes, bytes, .. } = cost;
    format!("tree            at most {nodes} nodes, {bytes} bytes at this grid\n")
}

/// The line of how much scratch memory building takes, without its end.
pub(crate) fn building_takes(bytes: usize) -> String {
    format!("building        takes {bytes} bytes of scratch")
}
