#!/bin/sh
# Answers each worked litmus test with a built iommu-litmus, and compares the answer up to how many places were looked at. Says how long each took.
#     bench/litmus.sh PROGRAM [NAME..]
set -eu
program=$(realpath "${1:?usage: litmus.sh PROGRAM [NAME..]}")
shift
cd "$(dirname "$0")/../crates/iom_litmus_worked/data/tests"
[ $# -gt 0 ] || set -- *.litmus
status=0
for test in "$@"; do
    name=${test%.litmus}
    begun=$(date +%s.%N)
    told=$("$program" --quiet "$name.litmus") || true
    took=$(echo "$(date +%s.%N) - $begun" | bc)
    if [ "$(echo "$told" | sed '/^Places /,$d')" = "$(cat "$name.out")" ]; then
        echo "$name: as counted, $(echo "$told" | grep '^Places '), $took s"
    else
        echo "$name: DIFFERS, $took s"
        status=1
    fi
done
exit $status
