#!/usr/bin/env bash
# Puts busd and busd-run-session with their pages, completions, documents, licences and the sample stream under the
# folder that is named: the program that `make prove` has built, or the one that BUSD names. Puts bus-check there too
# where it is built, and says so where it is not.
set -euo pipefail
# What is installed is for all users.
umask 022
cd "$(dirname "$0")/.."
place=${1:?names no folder: tools/install.sh FOLDER}
program=${BUSD:-crates/busd/out/busd}
checker=${BUS_CHECK:-crates/trace_check/out/trace_check}
completions=$place/share/bash-completion/completions

if [ ! -x "$program" ]; then
    echo "there is no $program yet: \`make prove\` proves and builds it" >&2
    exit 1
fi
install -d "$place/bin" "$place/share/man/man1" "$completions" "$place/share/doc/busd/docs" \
    "$place/share/doc/busd/examples"
install -m 755 "$program" "$place/bin/busd"
install -m 755 tools/busd-run-session "$place/bin/busd-run-session"
install -m 644 docs/man/busd.1 docs/man/busd-run-session.1 "$place/share/man/man1"
install -m 644 completions/busd "$completions/busd"
ln -sf busd "$completions/busd-run-session"
install -m 644 README.md CONTRIBUTING.md LICENSE-MIT LICENSE-APACHE "$place/share/doc/busd"
install -m 644 docs/*.md "$place/share/doc/busd/docs"
install -m 644 examples/*.stream "$place/share/doc/busd/examples"
if [ -x "$checker" ]; then
    install -m 755 "$checker" "$place/bin/bus-check"
    install -m 644 docs/man/bus-check.1 "$place/share/man/man1"
    ln -sf busd "$completions/bus-check"
else
    echo "without bus-check: there is no $checker yet, which \`make prove CRATE=trace_check\` proves and builds" >&2
fi
