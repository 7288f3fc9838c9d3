#!/usr/bin/env bash
# Refuses each allocation of `busd run`, of the start of `busd serve`, of bus-check, and of test_scarce and
# test_scarce_routers in turn, on all processors, and fails where one answers otherwise than it should. The first three
# are started for each allocation, of the last two only the part runs again that makes it. What has passed on this
# machine is not tried again: it is kept in the user's cache, by the checksum of all that was run and compared. The system
# refuses the socket and the threads of `busd serve`, too.
set -euo pipefail
cd "$(dirname "$0")/../.."
crates=$PWD/crates
room=$(mktemp -d)
trap 'rm -rf "$room"' EXIT
cc -O2 -shared -fPIC -o "$room/refuse.so" tools/memory/refuse.c
workers=$(nproc)
kept=${XDG_CACHE_HOME:-${HOME:-/nonexistent}/.cache}/bizsorke/refused
# What a run lets go of stays with it: to give large blocks back to the system takes a quarter of the time.
export MALLOC_MMAP_THRESHOLD_=1073741824 MALLOC_TRIM_THRESHOLD_=1073741824

# with NUMBER PROGRAM ARGUMENT..: runs a program whose allocation of that number is refused; each worker has a folder.
with() {
    number=$1
    shift
    status=0
    REFUSE=$number LD_PRELOAD=$room/refuse.so "$@" > "$own/out" 2> "$own/err" 9> "$own/count" || status=$?
}

wrong() {
    echo "allocation $number${part:+ of the part $part} refused: status $status, $(wc -c < "$own/out") bytes," \
        "$(< "$own/err")"
    exit 1
}

# The reply to the Hello of the sample, with its signal, and those where the Hello or the GetNameOwner is refused for memory.
head -c 89 "$crates/busd/stdout" > "$room/named"
head -c 258 "$crates/busd/stdout" > "$room/welcome"
printf 'l\3\1\1\22\0\0\0\1\0\0\0_\0\0\0\4\1s\0#\0\0\0org.freedesktop.DBus.Error.NoMemory\0\0\0\0\0\5\1u\0\1\0\0\0\7\1s\0\24\0\0\0org.freedesktop.DBus\0\0\0\0\10\1g\0\1s\0\0\15\0\0\0Out of memory\0' > "$room/no_hello"
{
    cat "$room/welcome"
    printf 'l\3\1\1\22\0\0\0\3\0\0\0o\0\0\0\4\1s\0#\0\0\0org.freedesktop.DBus.Error.NoMemory\0\0\0\0\0\5\1u\0\2\0\0\0\6\1s\0\4\0\0\0:1.1\0\0\0\0\7\1s\0\24\0\0\0org.freedesktop.DBus\0\0\0\0\10\1g\0\1s\0\0\15\0\0\0Out of memory\0'
} > "$room/no_owner"

said() {
    [ "$status" = "$1" ] && cmp -s "$own/out" "$2" && [ "$(< "$own/err")" = "$3" ]
}

run_stream() {
    with "$1" "$crates/busd/out/busd" run < examples/hello-get-name-owner.stream
}

judge_stream() {
    said 0 "$crates/busd/stdout" "" || said 0 "$room/no_owner" "" ||
        said 3 "$room/no_hello" "busd: closed: 64" ||
        said 5 /dev/null "busd: memory" || said 5 "$room/named" "busd: memory" ||
        said 5 "$room/welcome" "busd: memory" || said 5 "$crates/busd/stdout" "busd: memory"
}

# A daemon opens its bus, and ends since its address can't be told, where that is wanted.
full='busd: device: output'
printf '5 1700000000 c0ffee\n' > "$room/keyring"
mkdir "$room/services"
for name in A B; do
    printf '%s\n' '[D-BUS Service]' "Name=com.example.$name" 'Exec=true one two' > "$room/services/$name.service"
done

# serve NUMBER OPTION..: runs a daemon so, with more options
serve() {
    number=$1
    shift
    status=0
    rm -rf "$own/bus" "$own/trace"
    mkdir "$own/trace"
    : > "$own/out"
    (cd "$own" && exec timeout 20 env REFUSE="$number" LD_PRELOAD="$room/refuse.so" "$crates/busd/out/busd" serve \
        --address bus --routers 2 --services "$room/services" --keyring "$room/keyring" --user 1000 --trace trace \
        "$@") > /dev/full 2> "$own/err" 9> "$own/count" || status=$?
}

run_serve() {
    serve "$1" --print-address
}

judge_serve() {
    said 5 /dev/null "busd: memory" || said 4 /dev/null "$full"
}

# lacks NAME VALUE: a daemon that is refused this by the system lacks memory, and leaves no socket.
lacks() {
    own=$room
    export "$1=$2"
    serve 0
    unset "$1"
    said 5 /dev/null "busd: memory" && [ ! -e "$own/bus" ] && return
    echo "busd serve under $1=$2: status $status, $(< "$own/err")"
    exit 1
}

# Its threads are one that starts the programs of services, and behind it those of its two routers.
refused_by_system() {
    local thread
    lacks REFUSE_BIND yes
    for thread in 1 2 3; do
        lacks REFUSE_THREAD "$thread"
    done
    echo "busd serve: its socket and its threads refused, each answered as it should be"
}

run_check() {
    with "$1" "$crates/trace_check/out/trace_check" - < "$crates/trace_check/stdin"
}

judge_check() {
    said 0 "$crates/trace_check/stdout" "" || said 5 /dev/null "bus-check: memory"
}

# The program whose parts are run, which stands as out/NAME of its crate.
scarce=

run_scarce() {
    with "$1" "$crates/$scarce/out/$scarce" < /dev/null
}

# The parts of that program, each named as what it tells first; how many lines each tells, which stand in a file of its
# number; and how many allocations it makes.
parts=()
lines=()
counts=()
part=

# find_parts COUNT: finds them. Together they tell what a run of all tells, and make its COUNT allocations: so each of
# those is one of one part.
find_parts() {
    local told sum=0 next=0
    parts=()
    lines=()
    counts=()
    : > "$room/told"
    mapfile -t told < "$crates/$scarce/stdout"
    while [ "$next" -lt "${#told[@]}" ]; do
        part=${told[next]%: *}
        with 0 "$crates/$scarce/out/$scarce" <<< "$part"
        said 0 "$own/out" '' && [ -s "$own/out" ] || wrong
        cp "$own/out" "$room/part${#parts[@]}"
        cat "$own/out" >> "$room/told"
        parts+=("$part")
        lines+=("$(wc -l < "$own/out")")
        counts+=("$(cut -d ' ' -f 1 "$own/count")")
        sum=$((sum + counts[-1]))
        next=$((next + lines[-1]))
    done
    cmp "$room/told" "$crates/$scarce/stdout"
    if [ "$sum" != "$1" ]; then
        echo "$scarce makes $1 allocations, and its parts by themselves $sum"
        exit 1
    fi
}

# rounds FIRST: a process runs a part again and again, and each time the next of this worker's allocations is refused.
# Whichever it is, the part tells the same.
rounds() {
    local at times refused told
    for at in "${!parts[@]}"; do
        part=${parts[at]}
        times=$(((counts[at] - $1 + workers) / workers))
        [ "$times" != 0 ] || continue
        ROUND=${lines[at]} STEP=$workers with "$1" "$crates/$scarce/out/$scarce" \
            <<< "$times times $part"
        refused=$(cut -d ' ' -f 2 "$own/count")
        told=$(< "$room/part$at")
        if said 0 <(yes "$told" | head -n $((times * lines[at]))) '' && [ "$refused" = "$times" ]; then
            continue
        fi
        number=$(awk -v first="$1" -v step="$workers" '
            NR == FNR { told[NR] = $0; lines = NR; next }
            $0 != told[(FNR - 1) % lines + 1] { exit }
            { same = FNR }
            END { print first + step * int(same / lines) }' "$room/part$at" "$own/out")
        wrong
    done
}

# worker NAME FIRST COUNT: refuses the allocations from FIRST to COUNT that are this worker's
worker() {
    local at
    own=$room/$2
    mkdir -p "$own"
    if [ "$1" = scarce ]; then
        rounds "$2"
        return
    fi
    for ((at = $2; at <= $3; at += workers)); do
        "run_$1" "$at"
        "judge_$1" || wrong
    done
}

# sum NAME PROGRAM: the checksum of how a program is run, of itself, what it reads and should write, and of what refuses
# and judges
sum() {
    {
        echo "$1"
        cat "$crates/$2/out/$2" "$crates/$2"/std* examples/*.stream tools/memory/*
    } | sha256sum | cut -d ' ' -f 1
}

# each NAME PROGRAM TITLE ANSWER..: counts the allocations of a run in which none is refused, of which there are some and
# which is answered so, and refuses each
each() {
    local name=$1 title=$3 first count passed worker failed=0 running=()
    passed=$kept/$(sum "$1" "$2")
    shift 3
    if [ -s "$passed" ]; then
        echo "$title: $(< "$passed") allocations were refused in turn before, each answered as it should be"
        return
    fi
    own=$room
    "run_$name" 0
    said "$@" || wrong
    count=$(cut -d ' ' -f 1 "$room/count")
    [[ $count =~ ^[1-9][0-9]*$ ]] || wrong
    [ "$name" != scarce ] || find_parts "$count"
    for ((first = 1; first <= workers; first++)); do
        worker "$name" "$first" "$count" &
        running+=($!)
    done
    for worker in "${running[@]}"; do
        wait "$worker" || failed=1
    done
    [ "$failed" = 0 ]
    { mkdir -p "$kept" && echo "$count" > "$passed"; } 2> /dev/null || true
    echo "$title: $count allocations refused in turn, each answered as it should be"
}

each stream busd 'busd run' 0 "$crates/busd/stdout" ''
each serve busd 'busd serve' 4 /dev/null "$full"
refused_by_system
each check trace_check bus-check 0 "$crates/trace_check/stdout" ''
for scarce in test_scarce test_scarce_routers; do
    each scarce "$scarce" "$scarce" 0 "$crates/$scarce/stdout" ''
done
