#!/usr/bin/env bash
# memory.sh [NAME [FIRST [LAST]]]: run by hand, and by no gate. Runs whole stored runs of the program with one allocation
# refused, the first, then the second, and so on up to the end of the run.
#
# `page` has to print its whole page with status 0, or a front of it with status 6. `pipe` has to reply as in the stored run
# with status 0; or with status 6 to the requests before one of them, and then the fixed reply to want of memory, or with
# status 6 nothing at all, where memory was wanting before the connection was served.
#
# NAME is page, pipe, page/CASE or pipe/CASE, a case of tests/vectors/ (`page` alone is the run that stands beside the
# crate's sources, `pipe` alone is pipe/three); both where none is named. FIRST and LAST are the first and the last allocation
# that is refused: 1, and as many as the run has.
#
# The toolchain's `rt try` takes one number, and compiles the unproved program anew for each: some four minutes of processor
# time each, so hours for a run. So take a quiet machine, or a part of the numbers.
set -e
here=$(dirname "$(readlink -f "${BASH_SOURCE[0]}")")
top=$here/../..
cd "$top/crates/stacd"
for tool in rt python3; do
    if ! command -v $tool >/dev/null; then
        echo "memory.sh: there is no $tool, without which nothing can be tried" >&2
        exit 1
    fi
done
folder=$(mktemp -d)
trap 'rm -rf "$folder"' EXIT

# Runs the case with each allocation refused, from the first number to the last, or until the number is past the run's end.
try_all() {
    local command=$1 args=$2 given=$3 wanted=$4 first=${5:-1} last=${6:-100000}
    local -a words
    mapfile -t words <"$args"
    local n ended=0 refused=0
    for ((n = first; n <= last && ended < 3; n++)); do
        # The status of `rt try` says how the program ended, which its last line says too.
        rt try --fail-alloc "$n" -- "${words[@]}" <"$given" >"$folder/out" 2>"$folder/said" || true
        if ! status=$(sed -n 's/^run=ended status=\([0-9]*\).*/\1/p' "$folder/said") || [ -z "$status" ]; then
            echo "memory.sh: $command, allocation $n: no run ended:" >&2
            tail -n 5 "$folder/said" >&2
            return 1
        fi
        python3 "$here/stopped.py" "$command" "$status" "$folder/out" "$wanted" || {
            echo "memory.sh: $command, allocation $n: status $status, and not what it should have written" >&2
            return 1
        }
        if [ "$status" = 6 ]; then
            if ! grep -q '^stacd: no memory$' "$folder/said"; then
                echo "memory.sh: $command, allocation $n: status 6 without its text" >&2
                return 1
            fi
            refused=$((refused + 1))
            ended=0
        else
            # An allocation may be refused and not be missed. Three such in a row count as the end of the run.
            ended=$((ended + 1))
        fi
    done
    echo "memory.sh: $command, allocations $first to $((n - 1)): $refused ended for want of memory, as they should"
}

# A case by its name, with the numbers.
try_case() {
    local name=$1
    shift
    case $name in
        page) try_all page args stdin stdout "$@" ;;
        pipe) try_case pipe/three "$@" ;;
        page/* | pipe/*)
            local case=$top/tests/vectors/$name
            if [ ! -f "$case.args" ]; then
                echo "memory.sh: there is no case $case.args" >&2
                return 1
            fi
            try_all "${name%%/*}" "$case.args" "$case.in" "$case.out" "$@"
            ;;
        *)
            echo "usage: memory.sh [page|pipe|page/CASE|pipe/CASE [FIRST [LAST]]]" >&2
            return 2
            ;;
    esac
}

if [ $# = 0 ]; then
    try_case page
    try_case pipe
else
    try_case "$@"
fi
