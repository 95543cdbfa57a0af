#!/bin/sh
# Counts the instructions that the program takes for each script of workloads.awk, in millions: a figure that
# noise doesn't touch. It wants valgrind. (A string instruction counts once for each byte.)
# `./count.sh judge` counts those of `iommu-judge` for each trace that `iommu-tell` makes of a script, by the line;
# `./count.sh others` those of the other programs, each for a work of its own.
set -eu
here=$(cd "$(dirname "$0")" && pwd)
command -v valgrind >/dev/null || { echo "count.sh wants valgrind" >&2; exit 2; }
what=${1:-run}
case $what in
    run) programs=run ;;
    judge) programs="judge tell" ;;
    others) programs="hw litmus picture tell" ;;
    *) echo "count.sh takes the word judge, or others, or none" >&2; exit 2 ;;
esac
work=$(mktemp -d)
trap 'rm -rf "$work"' EXIT
for name in $programs; do
    (cd "$here/../../crates/iommu_$name" && rt run >"$work/built" 2>&1 </dev/null) || { cat "$work/built"; exit 1; }
done
built() { echo "$here/../../crates/iommu_$1/out/iommu_$1"; }

# How many instructions the command takes.
counted() {
    valgrind --tool=callgrind --callgrind-out-file=/dev/null "$@" 2>&1 >/dev/null | sed -n 's/.*Collected : //p'
}

# The script NAME, and in NAME.lines what it must print.
script() { awk -v name="$1" -f "$here/workloads.awk"; }

# Of what, how many lines, and millions of instructions.
says() { echo "$1  $2  $(($3 / 1000000))"; }

of_run() {
    "$(built run)" <"$1.script" | cmp - "$1.lines" || { echo "$1: other lines"; exit 1; }
    says "$1" "$2" "$(counted "$(built run)" "$1.script")"
}

of_judge() {
    "$(built tell)" "$1.script" >"$1.trace"
    "$(built judge)" "$1.trace" | grep -qx lawful || { echo "$1: not lawful"; exit 1; }
    echo "$1  $2  $(($(counted "$(built judge)" "$1.trace") / $2))"
}

# A driver under test, a litmus test of 1,098 places and a picture of 2,000 lines.
of_others() {
    script driver
    "$(built hw)" driver.script | cmp - driver.lines || { echo "driver: other lines"; exit 1; }
    says iommu-hw "$(wc -l <driver.script)" "$(counted "$(built hw)" driver.script)"
    test=$here/../../crates/iom_litmus_worked/data/tests/hw-ats.litmus
    says iommu-litmus "$(wc -l <"$test")" "$(counted "$(built litmus)" --quiet "$test")"
    script churn
    head -n 2000 churn.script >short.script
    "$(built tell)" short.script >short.trace
    says iommu-picture 2000 "$(counted "$(built picture)" short.trace)"
}

cd "$work"
if [ "$what" = others ]; then
    of_others
    exit
fi
for name in hot miss deep churn polls both text tiny ats disk; do
    script "$name"
    "of_$what" "$name" "$(wc -l <"$name.script")"
done
