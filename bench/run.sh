#!/bin/sh
# Times the four calls that read a text, beside the crates `time` and `chrono` if Debian's packages of them are installed: it builds
# the static library, `parse_borrowed` as a library, and the crate for Rust. It takes samples for 30 seconds; with `--quick` for 3,
# which are less exact.
set -eu
cd "$(dirname "$0")/.."

(cd crates/timefd_c && rt lib --cpu x86-64)
TIMEFD_LIB_DIR=$(packages/library)
export TIMEFD_LIB_DIR
bench/borrowed-library

registry=/usr/share/cargo/registry
folder=bench
if [ -d "$registry/time-0.3.9" ] && [ -d "$registry/chrono-0.4.23" ]; then
    folder=bench/beside
else
    echo "no comparison: time 0.3.9 and chrono 0.4.23 (librust-time-dev, librust-chrono-dev) are not installed"
fi

cd "$folder"
exec cargo run --release --offline --locked --quiet -- "$@"
