#!/usr/bin/env bash
# Loads busd with 1, 2 and 4 routers, and beside it dbus-daemon and dbus-broker where these are installed, in turn and in
# the same run, and prints what a message costs each of them. All is on sockets of a private folder, and ends by itself.
#
# ROUNDS (3) and SECONDS_EACH (0.8) say how often and how long each is measured, SCENARIOS which (tools/load/load.c tells
# them), BUSES which of `busd-N dbus-daemon dbus-broker`. The medians of the rounds are told.
set -euo pipefail
cd "$(dirname "$0")/../.."

rounds=${ROUNDS:-3}
seconds=${SECONDS_EACH:-0.8}
program=${BUSD:-crates/busd/out/busd}
scenarios=${SCENARIOS:-"connect-4 calls-1-16 calls-1-1024 calls-1-65536 calls-64-16 calls-64-1024 calls-64-65536
    calls-64-16-4 signal-1 signal-10 signal-100 owner-8 churn-8"}
buses=${BUSES:-dbus-daemon dbus-broker busd-1 busd-2 busd-4}

room=$(mktemp -d)
started=()
# Ends what was started here, by its number.
end_all() {
    for process in "${started[@]}"; do
        kill "$process" 2> /dev/null || true
    done
    wait
    rm -rf "$room"
}
trap end_all EXIT

# Starts a bus whose command writes a line once clients can connect, and keeps that line.
start() {
    local bus=$1
    shift
    mkfifo "$room/$bus.ready"
    "$@" > "$room/$bus.ready" 2> "$room/$bus.log" < /dev/null &
    started+=($!)
    if read -r -t 10 line < "$room/$bus.ready"; then
        return 0
    fi
    echo "$bus does not start:" >&2
    cat "$room/$bus.log" >&2
    return 1
}

start_busd() {
    start "$1" "$program" serve --address "$room/$1" --routers "${1#busd-}" --services "$room/none" \
        --keyring "$room/keyring" --user "$(id -u)" --anonymous --print-address
    mechanism[$1]=anonymous
    pid[$1]=${started[-1]}
}

start_daemon() {
    cat > "$room/daemon.conf" << CONF
<busconfig>
  <type>session</type>
  <listen>unix:path=$room/dbus-daemon</listen>
  <auth>ANONYMOUS</auth>
  <allow_anonymous/>
  <policy context="default">
    <allow send_destination="*"/>
    <allow receive_sender="*"/>
    <allow own="*"/>
  </policy>
</busconfig>
CONF
    start dbus-daemon dbus-daemon --nofork --print-address=1 --config-file="$room/daemon.conf"
    mechanism[dbus-daemon]=anonymous
    pid[dbus-daemon]=${started[-1]}
}

start_broker() {
    start dbus-broker python3 tools/load/broker.py "$room/dbus-broker"
    mechanism[dbus-broker]=external
    pid[dbus-broker]=$line
}

declare -A mechanism pid
mkdir "$room/none"
echo "1000000001 $(date +%s) $(od -A n -N 24 -t x1 /dev/urandom | tr -d ' \n')" > "$room/keyring"
cc -std=gnu11 -O2 -Wall -o "$room/load" tools/load/load.c tools/load/client.c

running=()
for bus in $buses; do
    case $bus in
        busd-*) start=start_busd needs=$program ;;
        dbus-daemon) start=start_daemon needs=dbus-daemon ;;
        dbus-broker) start=start_broker needs=dbus-broker ;;
        *) echo "there is no bus $bus" >&2; exit 2 ;;
    esac
    if ! command -v "$needs" > /dev/null; then
        echo "$bus is left out: there is no $needs" >&2
    elif "$start" "$bus"; then
        running+=("$bus")
    fi
done

for ((round = 1; round <= rounds; round++)); do
    for bus in "${running[@]}"; do
        # shellcheck disable=SC2086 # a list of words
        "$room/load" --auth "${mechanism[$bus]}" --pid "${pid[$bus]}" --seconds "$seconds" "$room/$bus" $scenarios |
            sed "s/^/$bus\t/" >> "$room/results" || echo "$bus: some of round $round failed" >&2
    done
done

echo "memory at most, in MiB:"
for bus in "${running[@]}"; do
    awk -v bus="$bus" '/^VmHWM/ { printf "%-16s %12.1f\n", bus, $2 / 1024 }' "/proc/${pid[$bus]}/status"
done
echo "load average $(cut -d ' ' -f 1-3 /proc/loadavg); medians of $rounds rounds of $seconds s"
awk -F '\t' -v buses="${running[*]}" -f tools/load/tables.awk "$room/results"
