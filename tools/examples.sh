#!/usr/bin/env bash
# Compiles the examples on the first pages of libraries without proof, of all or of those that are named, and runs those
# that take memory alone and answer whether they are right.
set -euo pipefail
cd "$(dirname "$0")/.."

room=$(mktemp -d)
trap 'rm -rf "$room"' EXIT
tar --exclude=out -cf - crates crates.txt HANDLES | tar -xf - -C "$room"
pages=$room/crates/first_pages/src
mkdir -p "$pages"

names=("$@")
[ $# != 0 ] || mapfile -t names < <(sed -n 's/^\([a-z_]*\)[^#]*:.*/\1/p' crates.txt)
for crate in "${names[@]}"; do
    [ -e "crates/$crate/src/lib.rt" ] || continue
    awk -v page="$pages/of_$crate" '
        /^\/\/! ```/ {
            inside = !inside
            if (inside) {
                file = page "_" ++count ".rt"
                print "//! An example.\n" > file
            } else if (call) {
                print "\n#[test]\nfn is_right(rt: HostRuntime) -> Result<(), std::test::Fail> {" > file
                print "    assert!(rt; " call ");\n    Ok(())\n}" > file
            } else {
                print "\n#[test]\nfn compiles(_rt: HostRuntime) {}" > file
            }
            call = ""
            next
        }
        inside {
            print substr($0, 5) > file
            if (match($0, /fn [a-z_]+\((alloc: Global)?\) -> (Result<bool, [A-Za-z]+>|bool) \{$/)) {
                split(substr($0, RSTART + 3), name, "(")
                call = name[1] (/alloc: Global/ ? "(rt.alloc())" : "()") (/Result</ ? "?" : "")
            }
        }' "crates/$crate/src/lib.rt"
done

cd "$pages"
{
    echo '//! The examples on the first pages of libraries.'
    echo '#![tactic(auto)]'
    echo
    for page in of_*.rt; do
        printf '#[cfg(test)]\nmod %s;\n' "${page%.rt}"
    done
} > lib.rt
used=$(sed -n 's/^use \([a-z_]*\)::.*/\1/p' of_*.rt | grep -vx std | sort -u | tr '\n' ' ')
echo "first_pages: $used" >> "$room/crates.txt"
cd ..
rt try --test
