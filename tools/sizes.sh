#!/usr/bin/env bash
# Writes the table of docs/GATE.md between its two marks: of each crate, in the order of crates.txt, the lines of code,
# definitions and proofs, its edits, and how many crates stand on it, which a change of it proves anew.
set -euo pipefail
cd "$(dirname "$0")/.."

lines() {
    find "crates/$1/$2" -name "*.$3" -print0 2> /dev/null | xargs -0 -r cat | wc -l
}

edits() {
    find "crates/$1/$2" -name '*.edit' 2> /dev/null | wc -l
}

table=$(mktemp)
trap 'rm -f "$table"' EXIT
{
    echo '<!-- sizes -->'
    echo '| crate | code | definitions | proofs | edits of the gate, further | crates above |'
    echo '|---|---|---|---|---|---|'
    awk '
        /^[a-z]/ {
            split($0, halves, ":"); split(halves[1], words, " ")
            names[++count] = words[1]
            parts = split(halves[2], list, " ")
            for (i = 1; i <= parts; i++) users[list[i]] = users[list[i]] " " words[1]
        }
        function visit(name, list, i, parts) {
            parts = split(users[name], list, " ")
            for (i = 1; i <= parts; i++) if (!(list[i] in seen)) { seen[list[i]] = 1; above++; visit(list[i]) }
        }
        END {
            for (k = 1; k <= count; k++) {
                delete seen; above = 0; visit(names[k])
                print names[k], above
            }
        }
    ' crates.txt | while read -r name above; do
        echo "| \`$name\` | $(lines "$name" src rt) | $(lines "$name" specs antt) | $(lines "$name" proofs antt) |" \
            "$(edits "$name" must-fail), $(edits "$name" more-edits) | $above |"
    done
    echo '<!-- /sizes -->'
} > "$table"
awk -v table="$table" '
    /^<!-- sizes -->/ { while ((getline line < table) > 0) print line; skip = 1 }
    !skip { print }
    /^<!-- \/sizes -->/ { skip = 0 }
' docs/GATE.md > "$table.page"
mv "$table.page" docs/GATE.md
