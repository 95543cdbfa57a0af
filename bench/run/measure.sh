#!/bin/sh
# Builds the program, runs it on ten scripts of about a megabyte, compares what it prints with what it
# must, and times whole processes, the best of 20, beside `sha256sum` of the same script.
set -eu
here=$(cd "$(dirname "$0")" && pwd)
work=$(mktemp -d)
trap 'rm -rf "$work"' EXIT
(cd "$here/../../crates/iommu_run" && rt run >"$work/built" 2>&1) || { cat "$work/built"; exit 1; }
program=$here/../../crates/iommu_run/out/iommu_run

# The least time of 20 runs of a command on the script, in microseconds.
best() {
    least=999999999
    for _ in 1 2 3 4 5 6 7 8 9 10 11 12 13 14 15 16 17 18 19 20; do
        begun=$(date +%s%N)
        "$@" <"$script" >/dev/null
        took=$(( ($(date +%s%N) - begun) / 1000 ))
        [ "$took" -ge "$least" ] || least=$took
    done
    echo "$least"
}

cd "$work"
echo "workload  events  program/us  sha256sum/us"
for name in hot miss deep churn polls both text tiny ats disk; do
    awk -v name=$name -f "$here/workloads.awk"
    script=$work/$name.script
    "$program" <"$script" | cmp - "$name.lines" || { echo "$name: other lines"; exit 1; }
    echo "$name  $(wc -l <"$script")  $(best "$program")  $(best sha256sum)"
done
