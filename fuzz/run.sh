#!/bin/sh
# Tries texts in each language, and ends with status 1 where the static library says of one what
# doesn't fit what it says of others.
#
#     fuzz/run.sh [COUNT] [SEED]              COUNT texts of each of four sorts: 300000, from seed 1
#     fuzz/run.sh --valgrind [COUNT] [SEED]   the same under valgrind's memcheck: 1000
#
# It takes the library of the folder TIMEFD_LIB_DIR, or else that which `rt lib` leaves, and has it built if there is none.
# With TIMEFD_PROCESSOR=aarch64 it takes the library for that processor, and qemu runs it.
set -eu
cd "$(dirname "$0")"
. ../packages/processors
count=300000
checker=$runner
if [ "${1:-}" = --valgrind ]; then
    shift
    count=1000
    checker='valgrind --quiet --error-exitcode=1'
    command -v valgrind > /dev/null || {
        echo 'run.sh: valgrind is not installed' >&2
        exit 2
    }
fi
mkdir -p out
[ -n "${TIMEFD_LIB_DIR:-}" ] || [ -e "../$readers/libtimefd_c.a" ] || [ "$processor" != x86_64 ] || (cd ../crates/timefd_c && rt lib --cpu x86-64 > /dev/null)
library=$(../packages/library)
"$cc" -std=c11 -Wall -Wextra -Werror -g -O2 -Wl,--wrap=malloc,--wrap=realloc,--wrap=free \
    -o "out/fuzz-$processor" ./*.c "$library/libtimefd.a"
$checker "out/fuzz-$processor" "${1:-$count}" "${2:-1}"
