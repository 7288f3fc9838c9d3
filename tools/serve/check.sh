#!/usr/bin/env bash
# Starts busd as its users do, and stops where it answers otherwise than it should: each fault at the start, the help, a
# daemon that is told to end and one that nobody calls, services that start, runs that are recorded, and sessions of a
# command. BUSD and BUS_CHECK name other programs.
set -euo pipefail
cd "$(dirname "$0")/../.."
BUSD=$(realpath "${BUSD:-crates/busd/out/busd}")
export BUSD
checker=$(realpath -m "${BUS_CHECK:-crates/trace_check/out/trace_check}")
session=$PWD/tools/busd-run-session
client=$PWD/tools/serve/client.py
room=$(TMPDIR=/tmp mktemp -d)
bus=

# Nothing goes on that was started here, whatever went wrong.
end_all() {
    local job
    for job in $(jobs -pr) $bus; do
        kill "$job" 2> /dev/null || true
    done
    rm -rf "$room"
}
trap end_all EXIT
cd "$room"

if ! command -v python3 > /dev/null; then
    echo "there is no python3 here, which the clients are written in: nothing was tried" >&2
    exit 1
fi

mkdir services home session trace
: > empty
printf '5 1700000000 c0ffee\n' > keyring
printf '5 1700000000 c0ffee\n5 1700000000\n' > bad_line
: > taken
tried=0
status=0

# run ARGUMENT..: what busd writes and its status; a daemon that should not have started is stopped.
run() {
    status=0
    timeout 20 "$BUSD" "$@" > out 2> err < /dev/null || status=$?
    tried=$((tried + 1))
}

wrong() {
    echo "busd $*: status $status"
    cat out err
    exit 1
}

# fault STATUS TEXT ARGUMENT..: busd writes this text alone, to standard error, and ends with this status.
fault() {
    local wanted=$1 text=$2
    shift 2
    run "$@"
    [ "$status" = "$wanted" ] && [ ! -s out ] && [ "$(< err)" = "$text" ] || wrong "$@"
}

# A start that nothing is wrong with, but for the options that are given; a later one takes the place of an earlier.
declare -A wanted
start() {
    wanted=([address]=bus [routers]=2 [services]=services [keyring]=keyring [user]=1000)
    others=()
    while [ "$#" -gt 0 ]; do
        case $1 in
            *=*) wanted[${1%%=*}]=${1#*=} ;;
            *) others+=("$1") ;;
        esac
        shift
    done
    words=(serve)
    for name in address routers services keyring user; do
        words+=("--$name" "${wanted[$name]}")
    done
    words+=("${others[@]}")
}

# refused STATUS TEXT OPTION..: a start with these options is refused so.
refused() {
    local wanted_status=$1 text=$2
    shift 2
    start "$@"
    fault "$wanted_status" "$text" "${words[@]}"
}

more=$'\n\nFor more information, try \'--help\'.'
usage='Usage: busd serve --address <PATH> --routers <N> --services <DIR> --keyring <FILE> --user <NAME>'
name_of_107=$(printf 'a%.0s' {1..107})

command_lines() {
    fault 2 "error: 'busd' requires a subcommand but one was not provided
  [subcommands: serve, run, help]

Usage: busd <COMMAND>$more"
    fault 2 "error: unrecognized subcommand 'listen'

Usage: busd <COMMAND>$more" listen
    fault 2 "error: the following required arguments were not provided:
  --address <PATH>
  --routers <N>
  --services <DIR>
  --keyring <FILE>
  --user <NAME>

$usage$more" serve
    fault 2 "error: the following required arguments were not provided:
  --keyring <FILE>

$usage$more" serve --address bus --routers 1 --services services --user 1000
    fault 2 "error: a value is required for '--user <NAME>' but none was supplied$more" \
        serve --address bus --routers 1 --services services --keyring keyring --user
    refused 2 "error: a value is required for '--trace <DIR>' but none was supplied$more" --trace
    refused 2 "error: invalid value '0' for '--routers <N>': 0 is not in 1..=8$more" routers=0
    refused 2 "error: invalid value '9' for '--routers <N>': 9 is not in 1..=8$more" routers=9
    refused 2 "error: invalid value 'two' for '--routers <N>': invalid digit found in string$more" routers=two
    refused 2 'error: an argument is not valid UTF-8' address=$'\xff'
    fault 2 'error: an argument is not valid UTF-8' $'\xff'
    for path in '' "b$name_of_107" 'the bus' 'bus,guid' 'bus%20' 'bus:1' 'büs' \~/bus; do
        refused 2 'busd: address' address="$path"
    done
}

files() {
    refused 4 'busd: device: input' keyring=none
    refused 4 'busd: device: input' keyring=services
    refused 4 'busd: keyring: 36' keyring=empty
    refused 4 'busd: keyring: 37/2' keyring=bad_line
    refused 4 'busd: device: input' services=none
    refused 4 'busd: device: input' services=keyring
    refused 4 'busd: device: trace' --trace none
    refused 4 'busd: device: trace' --trace ''
    refused 4 'busd: device: trace' --trace keyring
    mkdir -p half/router-2.trace
    refused 4 'busd: device: trace' --trace half
    refused 4 'busd: device: listen' address=taken
    refused 4 'busd: device: listen' address=services
    refused 4 'busd: device: listen' address=none/bus
    # Nobody is refused a file as root is not.
    if [ "$(id -u)" != 0 ]; then
        cp keyring closed
        mkdir closed_folder
        chmod 000 closed closed_folder
        refused 4 'busd: device: input' keyring=closed
        refused 4 'busd: device: input' services=closed_folder
        refused 4 'busd: device: trace' --trace closed_folder
        refused 4 'busd: device: listen' address=closed_folder/bus
        chmod 700 closed_folder
    fi
    [ ! -e bus ] || wrong "made a socket though it did not start"
}

# service FOLDER FILE LINE..: a service file of these lines
service() {
    local folder=$1 file=$2
    shift 2
    mkdir -p "$folder"
    printf '%s\n' "$@" > "$folder/$file.service"
}

group='[D-BUS Service]'

service_files() {
    service no_group a 'Name=com.example.A'
    refused 4 'busd: services: a.service: 55/1' services=no_group
    service other_group a '[Service]' 'Name=com.example.A' 'Exec=true'
    refused 4 'busd: services: a.service: 50' services=other_group
    service no_name a "$group" 'Exec=true'
    refused 4 'busd: services: a.service: 51' services=no_name
    service no_exec a "$group" 'Name=com.example.A' 'Exec= '
    refused 4 'busd: services: a.service: 52' services=no_exec
    service two_names a "$group" 'Name=com.example.A' 'Name=com.example.B' 'Exec=true'
    refused 4 'busd: services: a.service: 53' services=two_names
    service bad_name a "$group" 'Name=example' 'Exec=true'
    refused 4 'busd: services: a.service: 54' services=bad_name
    service wrong_line a "$group" '' '# Says' 'says'
    refused 4 'busd: services: a.service: 55/4' services=wrong_line
    service too_long a "$(head -c 70000 /dev/zero | tr '\0' '#')"
    refused 4 'busd: services: a.service: 55/0' services=too_long
    service twice b "$group" 'Name=com.example.A' 'Exec=true'
    service twice a "$group" 'Name=com.example.A' 'Exec=false'
    refused 4 'busd: services: b.service: 59' services=twice
    # The first file by name is told, whatever is wrong with others.
    service twice c "$group"
    service twice aa "$group" 'Name=example'
    refused 4 'busd: services: aa.service: 54' services=twice
    for i in {100..355}; do
        service many "$i" "$group" "Name=com.example.S$i" 'Exec=true'
    done
    service many 356 "$group" 'Name=com.example.S356' 'Exec=true'
    refused 4 'busd: services: 356.service: 59' services=many
    mkdir -p folder/a.service
    refused 4 'busd: device: input' services=folder
    # A file whose name is no text, or ends otherwise, is none of a service.
    service passed_over a "$group" 'Name=com.example.A' 'Exec=true'
    service passed_over b "$group"
    mv passed_over/b.service $'passed_over/\377.service'
    : > passed_over/c
    begin services=passed_over --anonymous
    told_to "org.freedesktop.DBus com.example.A" ask ListActivatableNames
    finish
}

# The first of several faults is told.
order() {
    refused 4 'busd: keyring: 36' keyring=empty services=wrong_line
    refused 4 'busd: services: a.service: 55/4' services=wrong_line address=taken
    refused 2 "error: invalid value '9' for '--routers <N>': 9 is not in 1..=8$more" routers=9 address='the bus'
    refused 2 'busd: address' address='the bus' keyring=empty
    refused 4 'busd: keyring: 36' keyring=empty services=none
    refused 4 'busd: device: input' services=none address=taken
    refused 4 'busd: keyring: 36' keyring=empty address=taken
    refused 2 'busd: address' address='the bus' --trace none
    refused 4 'busd: keyring: 36' keyring=empty --trace none
    refused 4 'busd: services: a.service: 55/4' services=wrong_line --trace none
    refused 4 'busd: device: trace' --trace none address=taken
    # A start that finds the socket taken leaves a trace as it stands.
    printf 'dbus-trace 2\n' > trace/head.trace
    refused 4 'busd: device: listen' --trace trace address=taken
    [ "$(< trace/head.trace)" = 'dbus-trace 2' ] || wrong "clears a trace that is not its own"
    rm trace/*
}

full_device() {
    if [ ! -e /dev/full ]; then
        echo "there is no /dev/full here: no full standard output was tried"
        return
    fi
    start --print-address
    status=0
    timeout 20 "$BUSD" "${words[@]}" > /dev/full 2> err < /dev/null || status=$?
    [ "$status" = 4 ] && [ "$(< err)" = 'busd: device: output' ] && [ ! -e bus ] || wrong "${words[@]}"
    status=0
    "$BUSD" --help > /dev/full 2> err || status=$?
    [ "$status" = 4 ] && [ "$(< err)" = 'busd: device: output' ] || wrong --help
    mkdir full_head full_router
    ln -s /dev/full full_head/head.trace
    refused 4 'busd: device: trace' --trace full_head
    ln -s /dev/full full_router/router-1.trace
}

# told ARGUMENT..: it is told on standard output, with status 0
told() {
    run "$@"
    [ "$status" = 0 ] && [ -s out ] && [ ! -s err ] || wrong "$@"
}

help() {
    local asked
    for asked in --help -h help 'serve --help' 'serve -h' 'help serve' 'run --help' 'help run'; do
        read -ra words <<< "$asked"
        told "${words[@]}"
        grep -q '^Usage: busd' out && grep -q '^Example' out || wrong "$asked"
    done
    for asked in --version -V; do
        told "$asked"
        grep -qx 'busd [0-9]*\.[0-9]*\.[0-9]*' out || wrong "$asked"
    done
    status=0
    "$session" --help > out 2> err || status=$?
    [ "$status" = 0 ] && grep -q '^Usage: busd-run-session' out && grep -q '^Example' out && [ ! -s err ] ||
        wrong "in a session: --help"
    for asked in --version -V; do
        [ "$("$session" "$asked")" = "$("$BUSD" --version)" ] || wrong "in a session: $asked"
    done
}

# begin OPTION..: starts a daemon, and waits until clients can connect; FILES is how many files it may have open
begin() {
    start --print-address "$@"
    mkfifo ready
    : > said
    (ulimit -n "${FILES:-1024}" && exec "$BUSD" "${words[@]}" > ready 2> said < /dev/null) &
    bus=$!
    # Opened for both, as it opens though nobody writes.
    exec 3<> ready
    IFS= read -r -t 20 address <&3 || wrong "${words[*]}: tells no address: $(< said)"
    exec 3>&-
    rm ready
    [[ $address =~ ^unix:path=${wanted[address]},guid=[0-9a-f]{32}$ ]] && [ -S "${wanted[address]}" ] ||
        wrong "tells the address $address"
}

# finish [WORDS]: a signal ends it at once, and these words are all that it has written.
finish() {
    status=0
    kill "$bus"
    wait "$bus" || status=$?
    bus=
    [ "$status" = 143 ] && [ "$(< said)" = "${1:-}" ] || wrong "told to end: $(< said)"
    rm "${wanted[address]}"
}

# waits CONDITION..: it holds within ten seconds
waits() {
    for _ in {1..100}; do
        "$@" && return
        sleep 0.1
    done
    return 1
}

threads() {
    find "/proc/$bus/task" -mindepth 1 -maxdepth 1 | wc -l
}

has_threads() {
    [ "$(threads)" = "$1" ]
}

# How often threads of the daemon have waited.
waited() {
    cat /proc/"$bus"/task/*/status | awk '/^voluntary_ctxt_switches/ { n += $2 } END { print n }'
}

sleeps_two_seconds() {
    local before
    before=$(waited)
    sleep 2
    [ "$(waited)" = "$before" ]
}

has_name() {
    "$client" "$address" ask ListNames | grep -qw "$1"
}

# A daemon that nobody calls sleeps, and is small.
idle() {
    if [ ! -r /proc/self/task ]; then
        echo "there is no /proc here: how still and how small an idle daemon is was not tried"
        return
    fi
    waits has_threads 9 || wrong "has $(threads) threads for 8 routers"
    sleeps_two_seconds || sleeps_two_seconds || sleeps_two_seconds || wrong "wakes though nobody calls"
    size=$(awk '/^VmRSS/ { print $2 }' "/proc/$bus/status")
    [ "$size" -lt 65536 ] || wrong "has $size KiB"
}

daemons() {
    begin address="$name_of_107" routers=1
    refused 4 'busd: device: listen' address="$name_of_107"
    finish
    begin routers=8
    idle
    finish
    begin routers=8 --anonymous
    "$client" "$address" own com.example.Still &
    local still=$!
    waits has_name com.example.Still || wrong "lets nobody own a name"
    idle
    kill "$still"
    wait "$still" || true
    finish
}

# told_to ANSWER ARGUMENT..: a client is told this
told_to() {
    local answer=$1
    shift
    [ "$(timeout 60 "$client" "$address" "$@" 2>&1)" = "$answer" ] || wrong "a client: $* is not told $answer"
}

# Clients are let in who know the cookie, and nobody else. Whoever is closed for a fault, or is one too many without a
# name, is told of where that is wanted.
logins() {
    local bus_name=org.freedesktop.DBus notice="busd: unnamed: closed: 31: the first byte is not zero"
    begin routers=1 --verbose
    COOKIE=1000:c0ffee told_to "$bus_name :1.1" ask ListNames
    COOKIE=1000:decaf told_to "it isn't let in" ask ListNames
    COOKIE=1001:c0ffee told_to "it isn't let in" ask ListNames
    told_to "it isn't let in" ask ListNames
    told_to '' bytes 41
    waits grep -qx "$notice" said || wrong "tells of a client that was closed: $(< said)"
    COOKIE=1000:c0ffee told_to "$bus_name :1.2" crowd 65
    finish "$notice
busd: accept: too many connections without a name"
}

# A router whose places are taken is passed over while another has some: those of one of two routers leave, and as many
# clients come.
places() {
    begin routers=2 --anonymous
    told_to "128 of 128" places 256 2
    finish
}

# Who connects and says nothing is let go of after half a minute to a whole one; who has a name stays. That is waited for
# beside all else, and for longer where the machine is slow.
patience() {
    start address=patient routers=1 --anonymous --verbose
    "$BUSD" "${words[@]}" > patient_said 2>&1 < /dev/null &
    patient=$!
    waits test -S patient || wrong "listens nowhere"
    "$client" unix:path=patient patience - > patience &
    waiter=$!
}

patience_ends() {
    local seconds names
    wait "$waiter" || wrong "a client that says nothing"
    read -r seconds names < patience
    [ "$seconds" -ge 30 ] && [ "$seconds" -le 85 ] && [ "$names" = 'org.freedesktop.DBus :1.1' ] ||
        wrong "lets go of a client that says nothing after $seconds s, with $names"
    kill "$patient"
    wait "$patient" || true
    [ "$(< patient_said)" = 'busd: unnamed: no name in time' ] ||
        wrong "tells of a client that says nothing: $(< patient_said)"
    rm patient
    tried=$((tried + 1))
}

# serves_within N: with N open files at most it serves; else it has told what it could not open, which is kept in a file
serves_within() {
    start
    status=0
    (ulimit -n "$1" && exec timeout 2 "$BUSD" "${words[@]}") > out 2> err < /dev/null || status=$?
    tried=$((tried + 1))
    rm -f bus
    case $status:$(< err) in
        4:'busd: device: '*)
            cat err >> lacking
            return 1
            ;;
        124:) ;;
        *) wrong "with $1 open files" ;;
    esac
}

# The processor time of the daemon so far, in hundredths of a second.
spent() {
    awk '{ print $14 + $15 }' "/proc/$bus/stat"
}

# Where its other files leave none for the source of random bytes, it says so.
no_random_bytes() {
    local count
    start routers=1 --trace trace
    for count in {4..16}; do
        status=0
        (ulimit -n "$count" && exec timeout 20 "$BUSD" "${words[@]}") > out 2> err < /dev/null || status=$?
        tried=$((tried + 1))
        [ "$status" != 4 ] || [ "$(< err)" != 'busd: device: random' ] || break
    done
    [ "$(< err)" = 'busd: device: random' ] || wrong "with few open files and a trace"
    rm -f trace/* bus
}

# rests N: with four open files more than the N that it starts with, it takes less than a third of a processor while
# connections wait for a file. What takes more in one run and not in another is the machine.
rests() {
    local ticks
    FILES=$(($1 + 4)) begin --anonymous
    ticks=$(spent)
    told_to "org.freedesktop.DBus :1.1" crowd 40
    ticks=$(($(spent) - ticks))
    finish
    [ "$ticks" -lt 40 ]
}

# However few files may be open, it says what it could not open, or serves.
few_files() {
    local count=4 device
    until serves_within "$count"; do
        count=$((count + 1))
        [ "$count" -lt 64 ] || wrong "does not start with $count open files"
    done
    for device in listen poll; do
        grep -qx "busd: device: $device" lacking || wrong "with few open files it does not lack $device: $(< lacking)"
    done
    [ "$count" -gt 7 ] || wrong "serves with $count open files"
    if [ ! -r /proc/self/stat ]; then
        echo "there is no /proc here: no client was kept waiting for an open file"
        return
    fi
    rests "$count" || rests "$count" || rests "$count" || wrong "does not rest while no file can be opened"
}

is_in_order() {
    [ "$(timeout 60 "$client" "$address" owners com.example.Taken 1 2>&1)" = "in order" ]
}

# Whichever routers change the owner of a name, a client is told of it in the order of the changes. Out of order come
# hundreds where nobody sees to that; one may, where the machine has a thread stand still for a tenth of a second.
owners() {
    local routers
    for routers in 2 4; do
        begin routers="$routers" --anonymous
        is_in_order || is_in_order || is_in_order || wrong "tells of a name's owners in another order"
        finish
    done
}

# program NAME LINE..: a service com.example.NAME whose program is a shell script of these lines
program() {
    local name=$1
    shift
    printf '%s\n' '#!/bin/sh' "echo run >> $room/runs.$name" "$@" > "$room/$name.sh"
    chmod +x "$room/$name.sh"
    service programs "$name" "$group" "Name=com.example.$name" "Exec=$room/$name.sh  one two"
}

# runs NAME COUNT: its program was run so often
runs() {
    [ "$(wc -l < "runs.$1")" = "$2" ] || wrong "com.example.$1 was not run $2 times"
}

has_no_zombie() {
    ! cat /proc/[0-9]*/stat 2> /dev/null | grep -q ") Z $bus "
}

# Services are started when they are called. Each daemon is told to end once its last client is answered.
starts() {
    local error=org.freedesktop.DBus.Error
    program Owns "echo \"\$* \$DBUS_STARTER_ADDRESS \$DBUS_STARTER_BUS_TYPE\" > $room/seen; cat >> $room/seen" \
        "exec $client \"\$DBUS_STARTER_ADDRESS\" own com.example.Owns"
    program Slow 'sleep 0.3' "exec $client \"\$DBUS_STARTER_ADDRESS\" own com.example.Slow"
    program Busy 'sleep 0.3' "exec $client \"\$DBUS_STARTER_ADDRESS\" own com.example.Busy"
    program Fails 'exit 1'
    program Late 'sleep 0.3' 'exit 1'
    program Killed 'kill -9 $$'
    program Idle 'exit 0'
    service programs None "$group" 'Name=com.example.None' "Exec=$room/none-such"
    for i in {0..199}; do
        service programs "Many$i" "$group" "Name=com.example.Many$i" 'Exec=/bin/sh -c false'
    done
    begin services=programs --anonymous "$@"
    timeout 60 "$client" "$address" call com.example.Idle > late &
    local late=$!
    told_to "$error.ServiceUnknown" call com.example.Unknown
    told_to "$error.ServiceUnknown" call-only com.example.Owns
    told_to here call com.example.Owns
    told_to here call com.example.Owns
    runs Owns 1
    [ "$(< seen)" = "one two unix:path=bus session" ] || wrong "a program is given: $(< seen)"
    told_to 2 start com.example.Owns
    told_to 2 start org.freedesktop.DBus
    timeout 60 "$client" "$address" call com.example.Slow > joined &
    told_to 1 start com.example.Slow
    wait "$!" && [ "$(< joined)" = here ] || wrong "two callers of one start"
    runs Slow 1
    for call in call start; do
        told_to "$error.Spawn.ChildExited" "$call" com.example.Fails
        told_to "$error.Spawn.ChildSignaled" "$call" com.example.Killed
        told_to "$error.Spawn.ExecFailed" "$call" com.example.None
    done
    runs Fails 2
    told_to "200 $error.Spawn.ChildExited" calls com.example.Many 200
    # More wait than an outbox holds.
    told_to "400 here" burst com.example.Busy 400
    told_to "400 $error.Spawn.ChildExited" burst com.example.Late 400
    waits has_no_zombie || wrong "leaves programs that nobody waited for"
    wait "$late" && [ "$(< late)" = "$error.TimedOut" ] || wrong "a program that does not take its name: $(< late)"
    told_to here call com.example.Owns
    finish
    rm runs.*
}

# The trace that a daemon has written so far.
joined() {
    cat trace/head.trace trace/main.trace trace/router-*.trace
}

says() {
    [ "$(joined | "$checker" -)" = "$1" ]
}

# A run is recorded, and is explained by one history of the bus. How many lines that is was worked out by hand: three for
# a client that comes and goes (its Hello, the reply, its leave), and what is told behind each call.
traces() {
    local bus_name=org.freedesktop.DBus
    if [ -e full_router ]; then
        begin routers=1 --anonymous --trace full_router
        timeout 20 "$client" "$address" ask ListNames > out 2>&1 || true
        status=0
        wait "$bus" || status=$?
        bus=
        [ "$status" = 4 ] && [ "$(< said)" = 'busd: device: trace' ] && [ ! -e bus ] || wrong "writes no trace: $(< said)"
    fi
    # Of an earlier trace nothing is left, and of one of more routers neither.
    for file in head main router-1 router-2 router-3 router-8; do
        printf 'c 1 1 1 hello 1\n' > "trace/$file.trace"
    done
    service recorded 1 "$group" 'Name=com.example.Owns' "Exec=$client unix:path=bus own com.example.Owns"
    service recorded 2 "$group" 'Name=com.example.Fails' 'Exec=false'
    begin routers=2 services=recorded --anonymous --trace trace
    # The message, the query, the reply.
    told_to "$bus_name com.example.Fails com.example.Owns" ask ListActivatableNames
    # The message, the error.
    told_to "$bus_name.Error.ServiceUnknown" call com.example.Unknown
    # The message, the change that holds it; of the service Hello, the reply, RequestName, the change, the reply; its answer.
    told_to here call com.example.Owns
    # The message, the change, the reply.
    told_to 2 start com.example.Owns
    # The message, the change that holds it; of the main thread the change that fails it, and the error.
    told_to "$bus_name.Error.Spawn.ChildExited" call com.example.Fails
    if [ ! -x "$checker" ]; then
        echo "there is no $checker: no trace was checked"
        finish
        return
    fi
    waits says "yes 35" || wrong "records a run of which is said: $(joined | "$checker" --explain - 2>&1)"
    finish
    says "yes 35" || wrong "has no trace once it is ended"
    printf 'dbus-trace 2\nrouters 2\nservice com.example.Fails\nservice com.example.Owns\n' | cmp - trace/head.trace
    # The first line behind the head is the main thread's: how the program of com.example.Fails ended.
    status=0
    joined | sed '5s/ r=ok / r=ignored /' | "$checker" - > out || status=$?
    [ "$status" = 1 ] && [ "$(< out)" = 'no 5 73' ] || wrong "a line was changed: $(< out)"
    # A client that does not read is put out. Two lines for each Hello, three for AddMatch and for the names, one for each
    # signal; the one that is put out leaves, and has left when its socket is closed; the other leaves.
    begin routers=2 --anonymous --trace trace
    told_to "$bus_name :1.1" flood 600
    waits says "yes 613" || wrong "puts out who does not read: $(joined | "$checker" --explain - 2>&1)"
    finish
    # The main thread tells callers that a start failed. Whoever has no room for that is put out, too: its seat, 0, makes
    # the change, and the router of the one that is out closes its socket.
    printf 'sleep 1; exit 1\n' > fails_late.sh
    service fails_late 1 "$group" 'Name=com.example.Late' "Exec=/bin/sh $room/fails_late.sh"
    begin routers=2 services=fails_late --anonymous --verbose --trace trace
    told_to "$bus_name :1.1" starts com.example.Late 300
    waits grep -q '^c [0-9]* 0 2 leave 2 => r=ok ' trace/main.trace || wrong "the main thread puts nobody out: $(< trace/main.trace)"
    waits grep -q . said || wrong "tells of nobody that was put out"
    [ "$(joined | "$checker" - | cut -d ' ' -f 1)" = yes ] || wrong "puts out who does not read answers: $(joined | "$checker" --explain - 2>&1)"
    finish "busd: :1.2: closed: 66: it didn't read its messages"
    without_standard_files
}

# A daemon that has no standard input, output and error: no file that it opens takes their place.
without_standard_files() {
    rm -f trace/*
    start routers=1 --anonymous --verbose --trace trace
    : > said
    "$BUSD" "${words[@]}" <&- >&- 2>&- &
    bus=$!
    address=unix:path=bus
    waits test -S bus || wrong "without standard files it listens nowhere"
    told_to '' bytes 41
    told_to "$bus_name :1.1" ask ListNames
    waits says "yes 6" || wrong "without standard files it records a run of which is said: $(joined | "$checker" --explain - 2>&1)"
    finish
    start --print-address
    status=0
    timeout 20 "$BUSD" "${words[@]}" 2> err < /dev/null >&- || status=$?
    tried=$((tried + 1))
    [ "$status" = 4 ] && [ "$(< err)" = 'busd: device: output' ] && [ ! -e bus ] || wrong "${words[@]} without standard output"
}

# session STATUS ARGUMENT..: a session ends so, and leaves nothing
session() {
    local wanted_status=$1
    shift
    status=0
    HOME=$room/home XDG_RUNTIME_DIR=$room/session timeout 20 "$session" "$@" > out 2> err < /dev/null || status=$?
    [ "$status" = "$wanted_status" ] && [ -z "$(find home session -mindepth 1)" ] || wrong "in a session: $*"
}

sessions() {
    session 7 sh -c 'echo "$DBUS_SESSION_BUS_ADDRESS"; exit 7'
    grep -q "^unix:path=$room/session/busd-" out && [ ! -s err ] || wrong "in a session"
    session 127 -- none-such
    session 125 --routers=9 true
    session 125 --router 1 true
    session 125
    session 143 sh -c 'kill "$PPID"; exec sleep 20'
    # The command has its caller's descriptors, and may have any name.
    echo three > three
    session 0 sh -c 'read -r word <&3 && [ "$word" = three ]' 3< three
    mkdir a=b
    printf '#!/bin/sh\nexit 9\n' > a=b/nine
    chmod +x a=b/nine
    session 9 ./a=b/nine
    # It hears of a pipe that nobody reads as its caller does, though the session itself ignores that.
    local piped=0
    sh -c 'kill -PIPE "$$"' || piped=$?
    session "$piped" sh -c 'kill -PIPE "$$"'
    unheard_sessions
    recorded_session
    renewed_key
    sessions_at_once
    # The folder of the keyrings may stand elsewhere.
    mkdir -m 700 linked elsewhere
    ln -s "$room/elsewhere" linked/.dbus-keyrings
    status=0
    HOME=$room/linked XDG_RUNTIME_DIR=$room/session timeout 20 "$session" true > out 2> err < /dev/null || status=$?
    [ "$status" = 0 ] && [ -z "$(find elsewhere session -mindepth 1)" ] || wrong "in a session with a link"
    killed_session
}

# unheard STATUS ARGUMENT..: a session whose standard error nobody reads ends so, and leaves nothing
unheard() {
    local wanted_status=$1
    shift
    mkfifo unread
    # Opened for both first, as it opens for writing only where there is a reader.
    exec 4<> unread 5> unread
    exec 4>&-
    status=0
    HOME=$room/home XDG_RUNTIME_DIR=$room/session timeout 20 "$session" "$@" > out 2>&5 < /dev/null || status=$?
    exec 5>&-
    rm unread
    tried=$((tried + 1))
    [ "$status" = "$wanted_status" ] && [ -z "$(find home session -mindepth 1)" ] || wrong "in a session nobody hears: $*"
}

# What the session tells then is lost, and what its bus tells of connections.
unheard_sessions() {
    printf '#!/bin/sh\nexit 1\n' > no_bus.sh
    chmod +x no_bus.sh
    : > err
    BUSD=$room/no_bus.sh unheard 125 true
    unheard 0 --anonymous --verbose -- \
        sh -c 'for asked in "bytes 41" "ask ListNames"; do "$0" "$DBUS_SESSION_BUS_ADDRESS" $asked || exit; done' "$client"
    [ "$(< out)" = 'org.freedesktop.DBus :1.1' ] || wrong "in a session nobody hears: a client is told $(< out)"
}

nobody_runs() {
    ! grep -qsaF "$1" /proc/[0-9]*/cmdline
}

# A session's run is recorded where that is wanted, and is explained. The bus may end before it hears that the client
# left.
recorded_session() {
    local words asked='"$0" "$DBUS_SESSION_BUS_ADDRESS" ask ListNames' verdict
    session 125 --trace none true
    session 125 --trace= true
    session 125 --trace
    for words in '--trace trace' --trace=trace; do
        rm -f trace/*
        # shellcheck disable=SC2086
        session 0 --anonymous $words -- sh -c "$asked" "$client"
        [ "$(< out)" = "org.freedesktop.DBus :1.1" ] || wrong "in a session that is recorded"
        if [ -x "$checker" ]; then
            verdict=$(joined | "$checker" -) || true
            [[ $verdict == 'yes '[56] ]] || wrong "in a session that is recorded: $verdict"
        elif [ ! -s trace/head.trace ] || [ ! -s trace/router-1.trace ]; then
            wrong "in a session that is to be recorded: $(ls trace)"
        fi
    done
    rm -f trace/*
}

# While a session lasts its key is renewed, which changes nothing but its time.
renewed_key() {
    local key=home/.dbus-keyrings/org_freedesktop_general
    sed 's/^key_life=.*/key_life=1/' "$session" > young.sh
    chmod +x young.sh
    HOME=$room/home XDG_RUNTIME_DIR=$room/session timeout 20 ./young.sh \
        sh -c "cat $key; cp $key first; while cmp -s first $key; do sleep 0.2; done; cat $key" \
        > out 2> err < /dev/null || wrong "in a session of two keys"
    tried=$((tried + 1))
    awk '{ number[NR] = $1; time[NR] = $2; cookie[NR] = $3 }
        END { exit !(NR == 2 && number[1] == number[2] && time[1] < time[2] && cookie[1] == cookie[2]) }' out ||
        wrong "in a session whose key is renewed"
}

# Sessions that begin and end beside others are as they are alone.
sessions_at_once() {
    local number ends=()
    for number in 1 2 3 4; do
        HOME=$room/home XDG_RUNTIME_DIR=$room/session timeout 40 "$session" sleep "0.$number" > out 2> err < /dev/null &
        ends+=($!)
    done
    for number in "${ends[@]}"; do
        wait "$number" || wrong "in a session beside others"
    done
    # The folder stays, where whoever made it ended before others.
    [ ! -e home/.dbus-keyrings ] || rmdir home/.dbus-keyrings
    [ -z "$(find home session -mindepth 1)" ] || wrong "in sessions at once: $(find home session)"
    tried=$((tried + 4))
}

# A session that is killed leaves its bus and its key, but nobody who renews the key.
killed_session() {
    if [ ! -r /proc/self/cmdline ]; then
        echo "there is no /proc here: no session was killed"
        return
    fi
    sed 's/^key_life=.*/key_life=1/' "$session" > killed.sh
    printf '%s\n' '#!/bin/sh' "echo \$\$ > $room/pid_of_bus" "exec $BUSD \"\$@\"" > bus.sh
    chmod +x killed.sh bus.sh
    status=0
    (HOME=$room/home XDG_RUNTIME_DIR=$room/session BUSD=$room/bus.sh timeout 20 "$room/killed.sh" \
        sh -c 'sleep 2; kill -9 "$PPID"' || exit) > out 2> err < /dev/null || status=$?
    bus=$(< pid_of_bus)
    [ "$status" = 137 ] && [ -s home/.dbus-keyrings/org_freedesktop_general ] || wrong "in a session that is killed"
    waits nobody_runs "$room/killed.sh" || wrong "in a session that is killed: its key is renewed for ever"
    kill "$bus"
    bus=
    rm -rf home/.dbus-keyrings session/*
}

patience
command_lines
files
service_files
order
full_device
help
daemons
logins
places
owners
no_random_bytes
few_files
starts routers=3
traces
sessions
patience_ends
echo "busd serve: $tried runs tried, each answered as it should be"
