#!/bin/sh
# Compares what the library writes by strftime's letters with what the C library's strftime writes, on random dates. It takes the
# library that `rt lib` leaves in crates/timefd_c.
#
#     bench/strftime.sh [COUNT]    COUNT dates for each letter: 20000
set -eu
cd "$(dirname "$0")"
mkdir -p out
cc -std=c11 -Wall -Wextra -Werror -O2 -o out/strftime strftime.c "$(../packages/library)/libtimefd.a"
exec out/strftime "$@"
