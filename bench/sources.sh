#!/bin/sh
# Lints the Rust sources of Debian's packages that use `chrono` or `time`, which sources.txt names. Prints for each its version, how
# many sources and formats it has, and how many formats are refused; and then each error. It needs `apt-get`, the network, and the
# linter that the gate has left, or the one that $TIMEFD_LINT names. It installs nothing.
set -eu
cd "$(dirname "$0")"
linter=${TIMEFD_LINT:-$PWD/../crates/timefd_lint/out/timefd_lint}
names=$(sed -n 's/^\(librust-[^ ]*\) .*/\1/p' sources.txt)
room=$(mktemp -d)
trap 'rm -rf "$room"' EXIT
cd "$room"

# The last line that the linter writes about the sources of a folder, as three numbers.
count() {
    find "$1" -name '*.rs' -print0 | sort -z | xargs -0 "$linter" --format short 2> summary >> errors || true
    sed -n 's/^\([0-9]*\) descriptions*, \([0-9]*\) refused, \([0-9]*\) files*\(;.*\)*$/\3 \1 \2/p' summary
}

: > errors
for name in $names; do
    apt-get -qq -o APT::Sandbox::User=root download "$name" > /dev/null
    dpkg-deb -x "$name"_*.deb "$name"
    echo "$name $(dpkg-deb -f "$name"_*.deb Version) $(count "$name")"
done
cat errors
