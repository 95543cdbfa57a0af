#!/bin/sh
# Builds both programs, and runs them in turn. It works in a temporary copy, so that nothing is left here.
set -eu
here=$(cd "$(dirname "$0")" && pwd)
top=$(cd "$here/../.." && pwd)
work=$(mktemp -d)
trap 'rm -rf "$work"' EXIT

mkdir -p "$work/crates/bench_walk/src"
cp -R "$top/crates/iom_base" "$top/crates/iom_phys_mem" "$top/crates/iom_stage_walk" "$work/crates/"
cp "$here/main.rt.txt" "$work/crates/bench_walk/src/main.rt"
grep -E '^iom_(base|phys_mem|stage_walk):' "$top/crates.txt" > "$work/crates.txt"
echo 'bench_walk: iom_base iom_phys_mem iom_stage_walk' >> "$work/crates.txt"

rustc --edition 2024 -O -o "$work/plain" "$here/walk.rs"
(cd "$work/crates/bench_walk" && rt run > "$work/build.log" 2>&1) || { cat "$work/build.log"; exit 1; }
for turn in 1 2 3 4 5; do
    "$work/plain" | sed "s/^/Rust $turn: /"
    "$work/crates/bench_walk/out/bench_walk" | sed "s/^/Rattle $turn: /"
done
