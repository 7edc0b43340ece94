//! Copies the original twice: as it is, and with the diff in the bindings' README applied.
//!
//! `MASCON_ORIGINAL` is the folder with the original's files, else `shared/docs/src` beside the repository.

use std::path::{Path, PathBuf};
use std::{env, fs};

const README: &str = "../../bindings/rust/README.md";
const PREFIX: &str = "src--src--rust--compute--source--";
fn read(path: &Path) -> String {
    println!("cargo:rerun-if-changed={}", path.display());
    fs::read_to_string(path).unwrap_or_else(|error| panic!("{}: {error}", path.display()))
}

fn main() {
    println!("cargo:rerun-if-changed=build.rs");
    println!("cargo:rerun-if-env-changed=MASCON_ORIGINAL");
    let root = PathBuf::from(env::var_os("CARGO_MANIFEST_DIR").expect("set by cargo"));
    let out = PathBuf::from(env::var_os("OUT_DIR").expect("set by cargo"));
    let from =
        env::var_os("MASCON_ORIGINAL").map_or(root.join("../../../shared/docs/src"), PathBuf::from);
    let original = |name: &str| read(&from.join(format!("{PREFIX}{name}.txt")));
    let before = original("mod.rs");
    let included = before
        .lines()
        .filter_map(|line| line.strip_prefix("include!(\""));
    let others: Vec<String> = included
        .map(|rest| rest.trim_end_matches("\");").to_string())
        .collect();
    let after = applied(&before, &diff(&read(&root.join(README))));
    let mut modules = String::new();
    for (name, text) in [("before", before), ("after", after)] {
        modules += &format!("#[allow(dead_code)]\n#[path = \"{name}/mod.rs\"]\nmod {name};\n");
        let folder = out.join(name);
        fs::create_dir_all(&folder).expect("folder of a copy");
        fs::write(folder.join("mod.rs"), text + "pub mod shim;\n").expect("copy of mod.rs");
        fs::write(folder.join("shim.rs"), read(&root.join("src/shim.rs"))).expect("its child");
        for name in &others {
            fs::write(folder.join(name), original(name)).expect("copy of a file");
        }
    }
    fs::write(out.join("copies.rs"), modules).expect("the copies as modules");
}

/// The lines of the README's diff.
fn diff(readme: &str) -> String {
    let (_, diff) = readme
        .split_once("```diff\n")
        .expect("a diff in the README");
    let (diff, _) = diff.split_once("```").expect("its end");
    diff.to_string()
}

/// A unified diff applied: each part where it says, on the very lines that it says, with the counts that it says.
fn applied(before: &str, diff: &str) -> String {
    let lines: Vec<&str> = before.lines().collect();
    let (mut after, mut taken) = (Vec::new(), 0);
    let mut diff = diff
        .lines()
        .skip_while(|line| !line.starts_with("@@"))
        .peekable();
    while let Some(heading) = diff.next() {
        let numbers: Vec<usize> = heading
            .split(|c: char| !c.is_ascii_digit())
            .filter_map(|word| word.parse().ok())
            .collect();
        let &[old, old_count, new, new_count] = &numbers[..] else {
            panic!("{heading}");
        };
        after.extend_from_slice(&lines[taken..old - 1]);
        taken = old - 1;
        assert_eq!(after.len(), new - 1, "{heading}");
        while let Some(line) = diff.next_if(|line| !line.starts_with("@@")) {
            let (sign, text) = line.split_at_checked(1).unwrap_or((" ", ""));
            if sign != "+" {
                assert_eq!(lines[taken], text, "line {} of mod.rs", taken + 1);
                taken += 1;
            }
            if sign != "-" {
                after.push(text);
            }
        }
        let counts = (taken + 1 - old, after.len() + 1 - new);
        assert_eq!(counts, (old_count, new_count), "{heading}");
    }
    after.extend_from_slice(&lines[taken..]);
    after.join("\n") + "\n"
}
