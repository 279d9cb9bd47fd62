#!/usr/bin/env bash
# kill.sh [ROUNDS]: ends `stacd keep` by SIGKILL amid loads, so many times, and looks for each load that was answered. 5 rounds take
# a quarter of a minute; `ROUNDS=100 tests/kill.sh`, or `tests/kill.sh 100`, is run by hand.
set -e
cd "$(dirname "${BASH_SOURCE[0]}")/.."
if ! command -v python3 >/dev/null; then
    echo "tests/kill.sh: SKIPPED, since there is no python3: no server is killed" >&2
    exit 0
fi
./stacd page 1 </dev/null >/dev/null
timeout 1800 python3 tests/kill.py crates/stacd/out/stacd "${1:-${ROUNDS:-5}}"
