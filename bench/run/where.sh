#!/bin/sh
# Tells where the instructions go: for each script of workloads.awk, or for each SCRIPT that is named, how many there
# are, in millions, and of 100 how many are spent on what. It wants valgrind, and the program built (./count.sh builds
# it, and so does the gate). LLVM writes functions into their callers: a function's own instructions are counted where
# it was written into.
set -eu
here=$(cd "$(dirname "$0")" && pwd)
command -v valgrind >/dev/null || { echo "where.sh wants valgrind" >&2; exit 2; }
program=$here/../../crates/iommu_run/out/iommu_run
[ -x "$program" ] || { echo "where.sh wants $program" >&2; exit 2; }
work=$(mktemp -d)
trap 'rm -rf "$work"' EXIT
if [ $# -eq 0 ]; then
    (cd "$work" && for name in hot miss deep churn polls both text tiny ats disk; do awk -v name=$name -f "$here/workloads.awk"; done)
    set -- "$work"/*.script
fi

echo "script  million  reading  loop  events  lines  copies  start"
for script in "$@"; do
    valgrind --tool=callgrind --callgrind-out-file="$work/calls" "$program" "$script" >/dev/null 2>&1
    callgrind_annotate --threshold=100 "$work/calls" | awk -v name="$(basename "$script" .script)" '
        !/ \(.*%\) .*:/ { next }
        { cost = $1; gsub(/,/, "", cost); all += cost }
        /runner::script_of|iom_script::words|iom_script::parser|iom_script::lanes|reading::/ { part["reading"] += cost; next }
        /runner::tell/ { part["loop"] += cost; next }
        /iom_script::lines|iom_script::buffer/ { part["lines"] += cost; next }
        /mem(cpy|move|set)/ { part["copies"] += cost; next }
        / [^ ]*:(iom_|indexmap::|lru::|circular_buffer::)/ { part["events"] += cost; next }
        { part["start"] += cost }
        END {
            printf "%s  %.1f", name, all / 1e6
            split("reading loop events lines copies start", order)
            for (i = 1; i <= 6; i++) printf "  %.0f", 100 * part[order[i]] / all
            print ""
        }'
done
