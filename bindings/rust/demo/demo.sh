#!/usr/bin/env bash
# A contact binary from mesh to tree: filled, edited, undone, built, checked and drawn.
#   bindings/rust/demo/demo.sh [DIR]
# DIR (target/demo) gets the files. It needs cargo, and rt or MASCON_LIB_DIR for the library.
set -euo pipefail
crate=$(cd "$(dirname "${BASH_SOURCE[0]}")/.." && pwd)
dir=${1:-$crate/target/demo}

root=$(cd "$crate/../.." && pwd)
archive=$root/target/staticlib/libmascon.a
if [ -z "${MASCON_LIB_DIR:-}" ] && { [ ! -e "$archive" ] || [ -n "$(find "$root/crates" "$root/crates.txt" -name out -prune -o -newer "$archive" -print -quit)" ]; }; then
    echo "Proving the library, a line a crate; some minutes, the first time."
    ("$root/tools/staticlib" 2>&1) | sed -nu 's/^rt: //p'
fi
echo "Building the program."
target=${CARGO_TARGET_DIR:-$crate/target}
cargo build --release --quiet --offline --manifest-path "$crate/Cargo.toml" --target-dir "$target"
program=$(cd "$target/release" && pwd)/mascon
mkdir -p "$dir"
cd "$dir"
# What an earlier demo left there.
rm -f binary.rym1 binary.rym1.journal before.rym1 copy.rym1 copy.rym1.journal binary.rtm1 before.png after.png after.svg layer.png

# Prints a command and runs it.
run() {
    printf '\n$ mascon %s\n' "$*"
    "$program" "$@"
}

echo
echo "== Two lumpy balls that touch, as a mesh, and their kernels of density"
run example .

echo
echo "== What a tree of 32 cells on each axis and building it take at most, before there is a file"
run costliest 32

echo
echo "== Filled: 32 cells on each axis, 700 million tonnes"
run fill binary.obj cauchy.txt --elliptic elliptic.txt --grid 32 --target 7e11 --density 1900 -o binary.rym1
cp binary.rym1 before.rym1
run info binary.rym1
run draw binary.rym1 -o before.png --title "Contact binary, as filled"

echo
echo "== Edited: a list, then single cells; what is wrong is refused and changes nothing"
run apply binary.rym1 edits.txt
run put binary.rym1 18 18 16 2.5e8 2.5e8
run remove binary.rym1 20 15 16
printf '\n$ mascon remove binary.rym1 0 0 0\n'
"$program" remove binary.rym1 0 0 0 && exit 1
run log binary.rym1
run draw binary.rym1 -o after.png --before before.rym1 --title "Contact binary, edited"
run draw binary.rym1 -o after.svg --before before.rym1 --title "Contact binary, edited"
run draw binary.rym1 -o layer.png --before before.rym1 --slice z=15 --title "Contact binary, the void"
run get binary.rym1 9 14 15

echo
echo "== Undone, across runs: two steps, and all of it on a copy"
run undo binary.rym1 --steps 2
cp binary.rym1 copy.rym1
cp binary.rym1.journal copy.rym1.journal
run undo copy.rym1 --all
cmp copy.rym1 before.rym1
echo "copy.rym1 is before.rym1 again, byte for byte"

echo
echo "== Built and checked"
run build binary.rym1 -o binary.rtm1
run info binary.rtm1
run check binary.rym1
run check binary.rtm1

echo
echo "Pictures: $dir/before.png, $dir/after.png, $dir/after.svg, $dir/layer.png"
