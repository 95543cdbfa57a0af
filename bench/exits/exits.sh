#!/bin/sh
# Runs the built program so that it ends in each way that it can, and compares its exit status and what it writes on
# standard error. exits.sh PROGRAM
set -u
: "${1:?usage: exits.sh PROGRAM}"
program=$(realpath "$1")
work=$(mktemp -d)
trap 'rm -rf "$work"' EXIT
cd "$work" || exit 2
wrong=0

# ends NAME STATUS TEXT: what the last run left in `status` and `told`
ends() {
    if [ "$status" = "$2" ] && [ "$(cat told)" = "$3" ]; then
        echo "$1: $2"
    else
        echo "$1: status $status for $2, and on standard error: $(cat told)"
        wrong=1
    fi
}

# run NAME STATUS TEXT SCRIPT WORD..: on a script on standard input
run() {
    name=$1 wants=$2 text=$3
    printf "$4" >script
    shift 4
    "$program" "$@" <script >lines 2>told
    status=$?
    ends "$name" "$wants" "$text"
}

run "an empty script" 0 "" ""
run "a whole script" 0 "" "world 64 1\npoll\n"
run "a line outside the grammar" 2 "iommu-run: line 2: bad script" "world 64 1\nfetch 1\n"
[ -s lines ] && { echo "a line outside the grammar: something was printed"; wrong=1; }
run "no line feed at the end" 2 "iommu-run: line 2: bad script" "world 64 1\npoll"
run "a flag that isn't there" 3 "iommu-run: bad command line" "" --help
run "two files" 3 "iommu-run: bad command line" "" a b
run "an empty word" 3 "iommu-run: bad command line" "" ""
run "a file that isn't there" 1 "iommu-run: reading failed" "" absent
run "a folder in place of a file" 1 "iommu-run: reading failed" "" .

# a script of one line more than the limit
{ echo "world 64 1"; yes poll | head -n 209714; } >script
"$program" <script >lines 2>told
status=$?
ends "a script past its limit" 2 "iommu-run: line 209715: bad script"

# writing to what is always full
printf 'world 64 1\npoll\n' >script
"$program" <script >/dev/full 2>told
status=$?
ends "a full disk" 1 "iommu-run: writing failed"

# 16 MiB of memory for the world, where the process may have 12
printf 'world 4096 3\n' >script
(ulimit -v 12288 && "$program" <script >lines 2>told)
status=$?
ends "no memory" 1 "iommu-run: out of memory"

exit $wrong
