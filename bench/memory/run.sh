#!/bin/sh
# Builds both programs, and runs them in turn. It works in a temporary copy, so that nothing is left here.
set -eu
here=$(cd "$(dirname "$0")" && pwd)
top=$(cd "$here/../.." && pwd)
work=$(mktemp -d)
trap 'rm -rf "$work"' EXIT

mkdir -p "$work/crates/bench_memory/src"
cp -R "$top/crates/iom_base" "$top/crates/iom_phys_mem" "$work/crates/"
cp "$here/main.rt.txt" "$work/crates/bench_memory/src/main.rt"
grep -E '^iom_(base|phys_mem):' "$top/crates.txt" > "$work/crates.txt"
echo 'bench_memory: iom_phys_mem' >> "$work/crates.txt"

rustc --edition 2024 -O -o "$work/plain" "$here/memory.rs"
(cd "$work/crates/bench_memory" && rt run > "$work/build.log" 2>&1) || { cat "$work/build.log"; exit 1; }
for turn in 1 2 3 4 5; do
    "$work/plain" | sed "s/^/Rust $turn: /"
    "$work/crates/bench_memory/out/bench_memory" | sed "s/^/Rattle $turn: /"
done
