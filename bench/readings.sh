#!/bin/sh
# Prints what Debian's `time` 0.3.9 (librust-time-dev) reads of texts: for each the description, the text and the answer. Then it checks
# whether each of these answers is in the rows of `timefd_test_rows`, which say where this library differs. It fetches
# nothing.
set -eu
cd "$(dirname "$0")/readings"
[ -d /usr/share/cargo/registry/time-0.3.9 ] || {
    echo "readings.sh: time 0.3.9 (librust-time-dev) is not installed" >&2
    exit 1
}
rows=$(mktemp)
trap 'rm -f "$rows"' EXIT
cargo run --release --offline --locked --quiet > "$rows"
cat "$rows"
stored=../../crates/timefd_test_rows/stdin
awk -F '\t' '
    NR == FNR { if (sub(/^read-beside-time [0-9] /, "")) stored[$0]; next }
    !($1 " " $2 " " $3 in stored) { print "readings.sh: not in the tests: " $0; missing = 1 }
    END { exit missing }
' "$stored" "$rows"
echo "$(wc -l < "$rows") readings, each in the tests"
