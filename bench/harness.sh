#!/bin/sh
# Tries examples/harness on a built iommu-hw: `harness.sh PROGRAM`. The right driver has to end with 0 and nothing wrong, the
# one whose fence stands before its invalidation with 1 and a wrong claim; and the log of each has to be answered alike.
# It wants gcc.
set -eu
here=$(cd "$(dirname "$0")" && pwd)
program=$(cd "$(dirname "${1:?usage: harness.sh PROGRAM}")" && pwd)/$(basename "$1")
work=$(mktemp -d)
trap 'rm -rf "$work"' EXIT
gcc -std=gnu11 -Wall -Wextra -Werror -O2 -o "$work/map_unmap" "$here/../examples/harness/map_unmap.c"
cd "$work"

# Runs the driver, which tells its claims with their answers. Its log has to be answered with the same status, and with the
# same words of what is wrong.
try() {
    status=0
    ./map_unmap "$program" "$@" session.hw >told || status=$?
    replayed=0
    "$program" session.hw >answers || replayed=$?
    grep -o 'wrong: .*' told >wrong || :
    grep -o 'wrong: .*' answers | cmp -s - wrong || { echo "the log is answered otherwise"; exit 1; }
    [ "$status" = "$replayed" ] || { echo "the log ends with $replayed, the session with $status"; exit 1; }
}

try
[ "$status" = 0 ] && [ ! -s wrong ] || { cat told; echo "the right driver ends with $status"; exit 1; }
try --early
[ "$status" = 1 ] && [ -s wrong ] || { cat told; echo "the wrong driver ends with $status"; exit 1; }
grep -qx 'claim done 1: wrong: 000001 can read frame 7 by cached translation of page 3 since line [0-9]*' told ||
    { cat told; echo "the wrong driver is told otherwise"; exit 1; }
echo "harness: as wanted"
