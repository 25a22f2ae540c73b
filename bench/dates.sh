#!/bin/sh
# Compares what the library writes with what Debian's `time` 0.3.9 (librust-time-dev) writes, on ten thousand random dates, of each
# description that `time` takes; then what the program in out/ writes by formats of other languages with what their own programs write.
# It takes the library that `rt lib` leaves in crates/timefd_c, and fetches nothing.
set -eu
cd "$(dirname "$0")/dates"
[ -d /usr/share/cargo/registry/time-0.3.9 ] || {
    echo "dates.sh: time 0.3.9 (librust-time-dev) is not installed" >&2
    exit 1
}
cargo run --release --offline --locked --quiet
exec ../dialects/dialects.py
