#!/usr/bin/env bash
# Packs busd and bus-check for machines without the toolchain: an archive with the stripped programs and all that
# `make install` puts beside them, and tells which libraries of the system busd needs.
set -euo pipefail
# What is packed is for all users.
umask 022
cd "$(dirname "$0")/.."

room=$(mktemp -d)
trap 'rm -rf "$room"' EXIT

version=$(sed -n 's/.*"busd \([0-9.]*\)".*/\1/p' docs/man/busd.1)
name=busd-$version-$(uname -s | tr '[:upper:]' '[:lower:]')-$(uname -m)
tools/install.sh "$room/$name"
if [ ! -e "$room/$name/bin/bus-check" ]; then
    echo "there is no bus-check yet: \`make prove CRATE=trace_check\` proves and builds it" >&2
    exit 1
fi
strip "$room/$name/bin/busd" "$room/$name/bin/bus-check"
packed=crates/busd/out/$name.tar.gz
mkdir -p "$(dirname "$packed")"
time=${SOURCE_DATE_EPOCH:-$(git log -1 --format=%ct 2> /dev/null || date +%s)}
tar -C "$room" --sort=name --owner=0 --group=0 --numeric-owner --mtime="@$time" -cf - "$name" |
    gzip -9n > "$packed"
echo "$packed: $(wc -c < "$packed") bytes; the program needs"
ldd "$room/$name/bin/busd" | sed 's/ (0x[0-9a-f]*)$//' || true
library=$(readelf -V "$room/$name/bin/busd" | grep -o 'GLIBC_[0-9.]*' | sort -uV | tail -n 1 || true)
echo "and of the C library at least ${library#GLIBC_}"
