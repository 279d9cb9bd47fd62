#!/usr/bin/env bash
# Shows that a pass of a desk gives turns by the four calls of sc_desk alone: a crate that enters through the pass inside a
# DeskPass doesn't compile, and one that takes a snapshot instead does. Run by hand: it builds what sc_desk stands on.
set -e
cd "$(dirname "${BASH_SOURCE[0]}")/../.."
room=$(mktemp -d)
trap 'rm -rf "$room"' EXIT
cp -r crates crates.txt HANDLES "$room"
cd "$room"
git init -q .
outsider=crates/outsider
mkdir -p $outsider/src $outsider/specs $outsider/proofs
touch $outsider/specs/Lib.antt $outsider/proofs/Lib.antt
echo 'outsider: sc_desk sc_shelf sc_turn' >> crates.txt

# The crate whose one function does this with its pass, and whether it compiles.
compiles() {
    cat > $outsider/src/lib.rt <<END
//! A stranger with a pass of a desk.
#![tactic(auto)]

use sc_desk::DeskPass;
use std::alloc::Global;
use std::sync::Wait;

/// Takes a turn.
pub fn take<'d, R: Wait>(rt: &R, alloc: Global, pass: &mut DeskPass<'d>) {
    $1
}
END
    (cd $outsider && rt check) > "$room/log" 2>&1
}

if ! compiles 'let _ = sc_desk::take_snapshot(rt, alloc, pass);'; then
    cat "$room/log"
    echo "turns: a snapshot isn't taken"
    exit 1
fi
if compiles 'let _ = alloc; let turn = pass.pass.enter(rt); pass.pass.leave(turn);'; then
    echo "turns: a stranger enters through the pass of a DeskPass"
    exit 1
fi
if ! grep -qi 'private' "$room/log"; then
    cat "$room/log"
    echo "turns: it is refused for another reason than that the pass is private"
    exit 1
fi
echo "turns: a pass of a desk gives turns by the four calls alone"
