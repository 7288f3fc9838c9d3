#!/usr/bin/env bash
# Runs the tests of one crate without any proof: its test functions, or the program over its rows, whose answers are
# compared.
set -euo pipefail
cd "$(dirname "$0")/../crates/$1"

if [ -e src/main.rt ]; then
    input=/dev/null
    [ -e stdin ] && input=stdin
    words=()
    [ -e args ] && mapfile -t words < args
    mkdir -p out
    rt try -- "${words[@]}" < "$input" > out/tried
    diff stdout out/tried && echo "$1 writes what it should"
else
    rt try --test
fi
