#!/bin/sh
# Tries the must-fail edits that stand here as the gate tries those of crates/NAME/must-fail.
#
#   edits/try.sh            all crates
#   edits/try.sh NAME ..    those of these crates
#
# Run it after the gate, on the same machine, at the top of the repository: it takes the proofs that `rt ci` kept there.
# It works in a clone of what is committed, and its last line counts what passed: each crate and each edit that was refused.
set -eu
[ -f crates.txt ] || { echo "run it at the top of the repository" >&2; exit 2; }
[ $# -gt 0 ] || set -- $(ls -d edits/*/ | cut -d/ -f2)
room=$(mktemp -d)
trap 'rm -rf "$room"' EXIT
git clone -q . "$room/repository"
cd "$room/repository"
for crate; do
    mkdir -p "crates/$crate/must-fail"
    cp "edits/$crate"/*.edit "crates/$crate/must-fail/"
done
rt ci "$@"
