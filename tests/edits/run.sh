#!/usr/bin/env bash
# Tries wrong bodies on a copy of the crates as they are: the prover must refuse each (trial.py).
#     tests/edits/run.sh [CRATE..]           all of these crates, or of all crates
#     tests/edits/run.sh --gate [CRATE..]    only those that each landing tries
# The copy begins with what `rt check` left in crates/*/out, and proves the rest first. With --since FILE it
# takes what `rt ci` built since FILE was written. One check tries most of a crate's; each of the others
# takes 10 to 150 seconds.
set -euo pipefail
cd "$(dirname "$0")/../.."
room=$(mktemp -d)
trap 'rm -rf "$room"' EXIT
cp -a crates crates.txt HANDLES "$room"
python3 -m tests.edits.trial "$room" "$@"
