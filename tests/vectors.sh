#!/usr/bin/env bash
# Runs the built programs over the stored cases: whole runs of `stacd page`, `stacd pipe` and `script_example`, and single questions
# to `probe` and `probe_search`; and over hostile input.
set -e
cd "$(dirname "${BASH_SOURCE[0]}")/.."
if ! command -v python3 >/dev/null; then
    echo "tests/vectors.sh: there is no python3, without which no stored case runs" >&2
    exit 1
fi
./stacd page 1 </dev/null >/dev/null
python3 tests/runs.py crates/stacd/out/stacd tests/vectors/{page,pipe,pipe-head,pipe-token}
python3 tests/hostile.py crates/stacd/out/stacd

# Builds a program where it isn't built.
build() {
    local name=$1 program=crates/$1/out/$1
    if [ ! -x "$program" ] || [ -n "$(find crates/*/src -newer "$program" -name '*.rt' -print -quit)" ]; then
        echo "tests/vectors.sh: proves and builds $name first, which takes minutes" >&2
        (cd "crates/$name" && rt run >/dev/null </dev/null)
    fi
}

build script_example
python3 tests/runs.py crates/script_example/out/script_example tests/vectors/weave

# Asks a program the questions of files.
ask() {
    local name=$1
    shift
    build "$name"
    python3 tests/parts.py "crates/$name/out/$name" "$@"
}

ask probe tests/vectors/*.txt
ask probe_search tests/vectors/search/*.txt
