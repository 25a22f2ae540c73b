# How gate/c-rows and gate/web-rows ask a library the rows of a table. They read this file in the top folder.
# shellcheck shell=sh disable=SC2034

. packages/processors
rows=gate/c-rows.d
room=$(mktemp -d)
trap 'rm -rf "$room"' EXIT

# build SOURCE.. ARCHIVE..: the program that answers rows, of these sources and archives. Those of C are in this folder.
build() {
    "$cc" -std=gnu11 -Wall -Wextra -Werror -O2 -o "$room/answers" "$rows/rows.c" "$rows/buffers.c" "$@"
}

# compare NAME: what it answers to each line of NAME.in with that line of NAME.out. It prints what differs, and at last the counts.
compare() {
    ended=0
    $runner "$room/answers" < "$rows/$1.in" > "$room/out" || ended=$?
    [ "$ended" = 0 ] || echo "the program that asks the rows of $1.in ended with status $ended" >&2
    awk -v ended="$ended" '
        FILENAME == ARGV[1] { asked[FNR] = $0; count = FNR; next }
        FILENAME == ARGV[2] { wanted[FNR] = $0; wanted_count = FNR; next }
        { answered[FNR] = $0 }
        function is_row(line) { return line !~ /^(#|$)/ }
        function is_same(i) { return i in wanted && i in answered && wanted[i] "" == answered[i] "" }
        END {
            for (i = 1; i <= count || i <= wanted_count; i++) {
                if (!is_same(i)) {
                    failed++
                    print ARGV[1] ":" i ": " asked[i] "\n  wanted   " wanted[i] "\n  answered " answered[i]
                } else if (is_row(asked[i])) {
                    passed++
                }
            }
            print passed + 0 " passed, " failed + 0 " failed"
            exit failed > 0 || ended > 0 || passed == 0
        }' "$rows/$1.in" "$rows/$1.out" "$room/out"
}
