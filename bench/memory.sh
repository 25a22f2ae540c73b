#!/bin/sh
# Prints how much memory the readers of the static library take at most for each byte of a text, for texts of eleven kinds from
# 1 kB to 1 MB, beside the crates `time` and `chrono` if Debian's packages of them are installed; and how much stack
# nested texts take.
set -eu
cd "$(dirname "$0")"
libc=$(dirname "$(rt doc)")/c/liblibc_c.a
registry=/usr/share/cargo/registry
mkdir -p out

(cd ../crates/timefd_c && rt lib --cpu x86-64 > /dev/null)
set --
if [ -d "$registry/time-0.3.9" ] && [ -d "$registry/chrono-0.4.23" ]; then
    (cd beside && cargo build --release --offline --locked --quiet --lib)
    set -- -DWITH_PEERS beside/target/release/libtimefd_peers.a
fi
cc -std=gnu11 -Wall -Wextra -Werror -O2 -Wl,--wrap=malloc,--wrap=calloc,--wrap=realloc,--wrap=free -o out/memory \
    memory.c texts.c ../crates/timefd_c/out/libtimefd_c.a "$libc" "$@"
cc -std=gnu11 -Wall -Wextra -Werror -O2 -pthread -o out/stack stack.c texts.c ../crates/timefd_c/out/libtimefd_c.a "$libc"
out/memory
echo
out/stack
