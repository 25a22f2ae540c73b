#!/bin/sh
# Times what writes a moment by a description that is parsed at each call, or was parsed before: the library's `timefd_format` and
# `timefd_format_nodes`, the crate for Rust, and Debian's `time` 0.3.9 (librust-time-dev), in one run. Then it counts the instructions
# of each call, as callgrind counts them: the difference of 520 calls and 20 by 500; and so those of a date that is read. It takes the library that `rt lib` leaves in
# crates/timefd_c, or that of the folder TIMEFD_LIB_DIR, needs valgrind, and fetches nothing.
set -eu
cd "$(dirname "$0")/dates"
cargo build --release --offline --locked --quiet
program=${CARGO_TARGET_DIR:-target}/release/formatting
"$program"

# count ROW NAME TIMES
count() {
    valgrind --tool=callgrind --callgrind-out-file=/dev/null "$program" "$1" "$2" "$3" 2>&1 | sed -n 's/.*Collected : //p'
}

# per_call ROW NAME
per_call() {
    echo $((($(count "$1" "$2" 520) - $(count "$1" "$2" 20) + 250) / 500))
}

# table NAME..: a row of instructions for each text, and a column for each call
table() {
    row=0
    for text in 'ISO date' 'ISO date and time' 'RFC 3339' 'RFC 2822'; do
        printf '| %s |' "$text"
        for name in "$@"; do
            printf ' %s |' "$(per_call $row "$name")"
        done
        echo
        row=$((row + 1))
    done
}

echo '| Text, instructions | `timefd_format` | `parse` and `format_into` |'
echo '|---|---|---|'
table text time_text
echo
echo '| Text, instructions | `timefd_format_nodes` | the crate'"'"'s `write_to_io` | `format_into` | the crate'"'"'s `format` | `time`'"'"'s `format` |'
echo '|---|---|---|---|---|---|'
table nodes crate time crate_string time_string

program=${CARGO_TARGET_DIR:-target}/release/reading
echo
echo '| Text parsed before, instructions | `timefd_read_nodes` | the crate'"'"'s `read` | `time` |'
echo '|---|---|---|---|'
row=0
for text in 'ISO date' 'ISO date and time' '`[year]-[month repr:short]-[day]`'; do
    echo "| $text | $(per_call $row nodes) | $(per_call $row crate) | $(per_call $row time) |"
    row=$((row + 1))
done
