#!/usr/bin/env bash
# The gate: `rt ci`, then each allocation of four of the programs that it built refused in turn, of busd in two ways,
# and the daemon started as its users do. It is red where an edit is not well formed, too. Its last line is the count of
# `rt ci` with these six.
set -uo pipefail
cd "$(dirname "$0")/.." || exit

# As many checks at once as there are processors and 5 GB for each: left to itself `rt ci` keeps back what it takes to
# need more memory than is free, and what takes longest waits.
available=$(awk '/^MemAvailable/ { print int($2 / 5000000) }' /proc/meminfo)
processors=$(nproc)
export RT_JOBS=${RT_JOBS:-$((available < 1 ? 1 : available < processors ? available : processors))}

passed=0
failed=1
bad=()
while IFS= read -r line; do
    if [[ $line =~ ^([0-9]+)' passed, '([0-9]+)' failed'$ ]]; then
        passed=${BASH_REMATCH[1]}
        failed=${BASH_REMATCH[2]}
    else
        [[ $line == *'BAD EDIT'* ]] && bad+=("$line")
        printf '%s\n' "$line"
    fi
done < <(rt ci)
wait $!

if [ "$failed" = 0 ]; then
    if ! command -v cc > /dev/null; then
        echo "there is no C compiler here: no allocation was refused"
    elif tools/memory/check.sh; then
        passed=$((passed + 5))
    else
        failed=1
    fi
fi
if [ "$failed" = 0 ]; then
    if tools/serve/check.sh; then
        passed=$((passed + 1))
    else
        failed=1
    fi
fi
if [ "${#bad[@]}" != 0 ]; then
    echo "${#bad[@]} edits are not well formed: each is to be mended or removed"
    printf '%s\n' "${bad[@]}"
    failed=$((failed + ${#bad[@]}))
fi
spent=$(mktemp)
times > "$spent"
awk 'NR == 2 {
    split($1, user, /[ms]/); split($2, kernel, /[ms]/)
    printf "processor minutes of this run: %d\n", user[1] + kernel[1] + (user[2] + kernel[2]) / 60
}' "$spent"
rm -f "$spent"
echo "$passed passed, $failed failed"
[ "$failed" = 0 ]
