//! Copies the original's files, once for each grid size, and writes the module that has the copies.
//!
//! `MASCON_ORIGINAL` is the folder with the original's files, else `shared/docs/src` beside the repository.

use std::fmt::Write as _;
use std::path::{Path, PathBuf};
use std::{env, fs};

/// The grid sizes at which the original is compiled.
const GRID_SIZES: &[usize] = &[
    1, 2, 3, 4, 5, 6, 7, 8, 9, 10, 11, 12, 13, 14, 15, 16, 17, 18, 19, 20, 21, 22, 23, 24, 28, 32,
    40, 48, 64, 192,
];

/// The original's own grid size: its copy differs from the original in nothing but the line appended.
const ORIGINAL_GRID: usize = 192;

/// The one line of the original that is replaced.
const GRID_LINE: &str = "const GRID_SIZE: usize = 192;";

/// Appended after the original's text.
const APPENDED: &str = "pub mod shim;\n";

const PREFIX: &str = "src--src--rust--compute--source--";

/// `mod.rs` includes the others.
const FILES: [&str; 8] = [
    "mod.rs",
    "model.rs",
    "density.rs",
    "inside.rs",
    "binary.rs",
    "mascon_grid.rs",
    "mesh_pipeline.rs",
    "mascon_tree.rs",
];

fn main() {
    println!("cargo:rerun-if-changed=build.rs");
    println!("cargo:rerun-if-env-changed=MASCON_ORIGINAL");
    let root = PathBuf::from(env::var_os("CARGO_MANIFEST_DIR").expect("set by cargo"));
    let out = PathBuf::from(env::var_os("OUT_DIR").expect("set by cargo"));
    let from = match env::var_os("MASCON_ORIGINAL") {
        Some(path) => PathBuf::from(path),
        None => root.join("../../../shared/docs/src"),
    };
    original(&from, &root.join("src/shim.rs"), &out);
}

fn original(from: &Path, shim: &Path, out: &Path) {
    println!("cargo:rustc-check-cfg=cfg(original)");
    println!("cargo:rerun-if-changed={}", shim.display());
    let path = |name: &str| from.join(format!("{PREFIX}{name}.txt"));
    for name in FILES {
        println!("cargo:rerun-if-changed={}", path(name).display());
    }
    if let Some(missing) = FILES.iter().find(|name| !path(name).is_file()) {
        println!("cargo:warning=the original is not at hand ({PREFIX}{missing}.txt not found); built without it");
        return;
    }
    let read = |path: &Path| {
        fs::read_to_string(path).unwrap_or_else(|error| panic!("{}: {error}", path.display()))
    };
    let texts = FILES.map(|name| read(&path(name)));
    let shim = read(shim);
    let lines = texts[0].matches(GRID_LINE).count();
    assert_eq!(
        lines, 1,
        "mod.rs of the original has {lines} times the line {GRID_LINE:?}"
    );
    for &g in GRID_SIZES {
        let to = out.join(format!("g{g}"));
        fs::create_dir_all(&to).expect("folder of a copy");
        for (name, text) in FILES.iter().zip(&texts) {
            if *name == "mod.rs" {
                let line = GRID_LINE.replace("192", &g.to_string());
                let text = text.replace(GRID_LINE, &line) + APPENDED;
                fs::write(to.join(name), text).expect("copy of mod.rs");
            } else {
                fs::write(to.join(name), text).expect("copy of a file");
            }
        }
        fs::write(to.join("shim.rs"), &shim).expect("copy of the shim");
    }
    fs::write(out.join("originals.rs"), dispatcher(from, out)).expect("generated module");
    println!("cargo:rustc-cfg=original");
    println!("cargo:at_hand=yes");
}

/// The copies as modules, and one function that picks the copy by its grid size.
fn dispatcher(from: &Path, out: &Path) -> String {
    let mut text = String::new();
    for &g in GRID_SIZES {
        writeln!(
            text,
            "#[allow(dead_code)]\n#[path = \"g{g}/mod.rs\"]\nmod g{g};"
        )
        .unwrap();
    }
    let constants = [
        format!("/// The grid sizes that `build_mascon` has.\npub const GRID_SIZES: [usize; {}] = {GRID_SIZES:?};", GRID_SIZES.len()),
        format!("/// Where the original's files are.\npub const FOLDER: &str = {from:?};"),
        format!("/// Where the copies are.\npub const COPIES: &str = {out:?};"),
        format!("/// What the names of the original's files begin with.\npub const PREFIX: &str = {PREFIX:?};"),
        format!("/// The files that are copied.\npub const FILES: [&str; {}] = {FILES:?};", FILES.len()),
        format!("/// What is appended to `mod.rs`.\npub const APPENDED: &str = {APPENDED:?};"),
        format!("pub use g{ORIGINAL_GRID}::shim;"),
    ];
    for constant in constants {
        writeln!(text, "{constant}").unwrap();
    }
    text.push_str(
        "/// The original's `build_mascon` at grid size `g`.\n\
         pub fn build_mascon(\n    g: usize,\n    triangles: &[f64],\n    cauchy_kernels: &[f64],\n    \
         elliptic_kernels: &[f64],\n    cauchy_target_mass: f64,\n    constant_density: f64,\n\
         ) -> Result<Vec<u8>, String> {\n    let build = match g {\n",
    );
    for &g in GRID_SIZES {
        writeln!(text, "        {g} => g{g}::shim::build_mascon,").unwrap();
    }
    text.push_str(
        "        _ => panic!(\"no copy of the original at grid size {g}\"),\n    };\n    \
         build(triangles, cauchy_kernels, elliptic_kernels, cauchy_target_mass, constant_density)\n}\n",
    );
    text
}
