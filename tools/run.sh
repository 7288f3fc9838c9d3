#!/usr/bin/env bash
# Runs `busd run` over a stream of messages and shows its replies as bytes and text: the proved program where it stands
# and no source is newer, else the same sources without proof.
set -euo pipefail
cd "$(dirname "$0")/.."
stream=$PWD/$1
program=crates/busd/out/busd

mkdir -p crates/busd/out
replies=$PWD/crates/busd/out/replies
log=$PWD/crates/busd/out/run.log
if [ -x "$program" ] && [ -z "$(find crates crates.txt \( -name '*.rt' -o -name '*.antt' -o -name crates.txt \) \
    -not -path '*/out/*' -not -path 'crates/test_*' -not -path 'crates/bench_*' -newer "$program" -print -quit)" ]; then
    "$program" run < "$stream" > "$replies"
else
    echo "the sources are not proved as they stand, so busd runs without proof; \`make prove\` proves and builds it"
    (cd crates/busd && rt try -- run < "$stream" > "$replies" 2> "$log") || { cat "$log"; exit 1; }
fi
od -A d -t x1z -v "$replies"
