#!/bin/sh
# Times the yard's calls: bench/main.rt.txt, as a program over a copy of this crate and those that it stands on.
set -eu
top=$(cd "$(dirname "$0")/../.." && pwd)
work=$(mktemp -d)
trap 'rm -rf "$work"' EXIT
mkdir -p "$work/crates/yard_bench/src"
cp -a "$top/crates/box6346" "$top/crates/yard_core" "$work/crates"
cp "$top/HANDLES" "$work"
cp "$top/crates/yard_core/bench/main.rt.txt" "$work/crates/yard_bench/src/main.rt"
{ grep -E '^(box6346|yard_core):' "$top/crates.txt"; echo 'yard_bench: box6346 yard_core'; } > "$work/crates.txt"
cd "$work/crates/yard_bench"
rt run
