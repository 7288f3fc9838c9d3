#!/bin/sh
# Serves a bus on a socket of its own until Ctrl-C, and tells what clients need: the program that BUSD names, or the one
# that `make prove` has built.
cd "$(dirname "$0")/.." || exit
BUSD=${BUSD:-crates/busd/out/busd}
export BUSD
if [ ! -x "$BUSD" ]; then
    echo "there is no $BUSD yet: \`make prove\` proves and builds it" >&2
    exit 1
fi
exec tools/busd-run-session --verbose "$@" sh -c '
    echo "The bus is served until Ctrl-C. Its clients, in another shell:"
    echo "    export DBUS_SESSION_BUS_ADDRESS=\"$DBUS_SESSION_BUS_ADDRESS\""
    echo "    dbus-send --session --print-reply --dest=org.freedesktop.DBus / org.freedesktop.DBus.ListNames"
    tail -f /dev/null &
    trap "kill $!; exit 0" INT
    trap "kill $!; exit 129" HUP
    trap "kill $!; exit 143" TERM
    wait'
