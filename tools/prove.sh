#!/usr/bin/env bash
# Proves and builds a program with all that it stands on, side by side, and leaves it in the folder out of its crate,
# busd unless another crate is named. It is a part of the gate's work: a kit that keeps what passes has the gate take it
# over.
set -euo pipefail
cd "$(dirname "$0")/.."
program=${1:-busd}
if [ ! -e "crates/$program/src/main.rt" ]; then
    echo "there is no program $program" >&2
    exit 1
fi

room=$(mktemp -d)
trap 'rm -rf "$room"' EXIT

# The crates that the program stands on, itself with them, and their lines of crates.txt.
awk -v program="$program" '
    /^[a-z]/ {
        split($0, halves, ":"); split(halves[1], words, " ")
        lines[words[1]] = $0; needs[words[1]] = halves[2]
    }
    function visit(name, list, i, count) {
        if (name in seen || !(name in lines)) return
        seen[name] = 1
        count = split(needs[name], list, " ")
        for (i = 1; i <= count; i++) visit(list[i])
        print lines[name]
    }
    END { visit(program) }
' crates.txt > "$room/crates.txt"
cp HANDLES "$room"
mkdir "$room/crates"
while read -r name _; do
    name=${name%:}
    mkdir "$room/crates/$name"
    for part in src specs proofs stdin stdout args status data; do
        [ -e "crates/$name/$part" ] && cp -a "crates/$name/$part" "$room/crates/$name/"
    done
done < "$room/crates.txt"

all=$(wc -l < "$room/crates.txt")
echo "proving $program and what it stands on: $all crates; of busd that takes an hour the first time"
proved=0
log=crates/$program/out/prove.log
mkdir -p "crates/$program/out"
while IFS= read -r line; do
    printf '%s\n' "$line" >> "$room/log"
    if [[ $line =~ ^rt:\ ([a-z_]+)\ proved ]]; then
        proved=$((proved + 1))
        echo "$proved of $all: ${BASH_REMATCH[1]}"
    fi
done < <(cd "$room" && rt ci 2>&1)
cp "$room/log" "$log"
if ! tail -n 1 "$log" | grep -q ' passed, 0 failed'; then
    tail -n 20 "$log"
    echo "not proved: $log says why"
    exit 1
fi
cp "$room/crates/$program/out/$program" "crates/$program/out/$program"
echo "proved: crates/$program/out/$program"
