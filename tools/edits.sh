#!/usr/bin/env bash
# Tries the edits of crates/NAME/more-edits, of all crates or of those that are named: the prover must refuse each.
# The gate leaves them out: it tries those of crates/NAME/must-fail.
set -euo pipefail
cd "$(dirname "$0")/.."

room=$(mktemp -d)
trap 'rm -rf "$room"' EXIT
cp -a crates crates.txt HANDLES "$room"
rm -rf "$room"/crates/*/must-fail
for folder in "$room"/crates/*/more-edits; do
    mv "$folder" "${folder%/*}/must-fail"
done
cd "$room"
rt must-fail "$@"
