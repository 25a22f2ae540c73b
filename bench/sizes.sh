#!/bin/sh
# Reads large texts of the kinds that somebody who means harm would send, compares the answers with the expected ones,
# and prints a table of how fast that is and how much memory it takes.
#
#     bench/sizes.sh              texts of a million and of ten million bytes
#     bench/sizes.sh SIZE..       texts of these sizes, in bytes
#     bench/sizes.sh --large      a literal of over 4 GiB with a fault after it instead, by the static library and then by
#                                 the program: each takes as much memory
set -eu
cd "$(dirname "$0")"
libc=$(dirname "$(rt doc)")/c/liblibc_c.a
program=../crates/timefd/out/timefd
mkdir -p out

# The program says at which index the fault stands.
read_by_the_program() {
    [ -x "$program" ] || (cd ../crates/timefd && printf '' | rt run -- 1 > /dev/null)
    (head -c 4294967297 /dev/zero | tr '\0' a && printf '[foo]') | "$program" 3 > out/line || [ $? = 1 ]
    [ "$(cat out/line)" = 'invalid component name `foo` at byte index 4294967298' ]
    printf 'the program: '
    cat out/line
}

(cd ../crates/timefd_c && rt lib --cpu x86-64 > /dev/null)
cc -std=gnu11 -Wall -Wextra -Werror -O2 -o out/sizes sizes.c texts.c ../crates/timefd_c/out/libtimefd_c.a "$libc"
[ $# -gt 0 ] || set -- 1000000 10000000
out/sizes "$@"
if [ "$1" = --large ]; then
    read_by_the_program
fi
