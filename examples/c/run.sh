#!/bin/sh
# Builds the programs in C over the static library, and compares what they print with what they have to. It takes the library
# that `../run.sh` or gate/c-library leaves, or that of the folder TIMEFD_LIB_DIR; with TIMEFD_PROCESSOR=aarch64 the one for that
# processor, and qemu runs them.
set -eu
cd "$(dirname "$0")/.."
. ../packages/processors
folder=$(../packages/library)
library=$folder/libtimefd.a
# A library that isn't proved has a header of its own beside it.
header=.
[ ! -e "$folder/timefd.h" ] || header=$folder
out=out/$processor
rm -rf "$out"
mkdir -p "$out"

fail() {
    echo "c/run.sh: $1" >&2
    exit 1
}

# Builds NAME.c, runs it, given a file if there is one, and compares what it prints with another file:   compare NAME WANTED [FILE]
compare() {
    "$cc" -std=c11 -Wall -Wextra -Werror -O2 "-I$header" -o "$out/$1" "c/$1.c" "$library"
    status=0
    $runner "$out/$1" ${3:+"$3"} > "$out/$1.txt" || status=$?
    # The linter ends with status 1, since it finds something in its file.
    wanted=0
    [ "$1" != lint ] || wanted=1
    [ "$status" = "$wanted" ] || fail "$out/$1 ended with status $status"
    diff -u "$2" "$out/$1.txt" || fail "$out/$1 printed something else than $2"
    echo "c/run.sh: $out/$1 printed what is expected"
}

compare first expected_first.txt
compare write expected_write.txt
compare check expected.txt
compare convert expected_convert.txt
compare nodes expected_nodes.txt
compare lint expected_lint.txt formats.txt
compare redate expected_redate.txt redates.txt
"$cc" -std=c11 -Wall -Wextra -Werror -O2 "-I$header" -o "$out/tasks" c/tasks.c "$library"
# shellcheck disable=SC2086
tasks/compare $runner "$out/tasks" > "$out/tasks.txt"
cat "$out/tasks.txt"

# Today's date, as `date` says it. Where the day ends between the two, it is asked again.
today() {
    LC_ALL=C date -u '+%A, %d %B %Y' > "$out/expected_now.txt"
    compare now "$out/expected_now.txt"
}
(today) || today

# The script that computed what is expected has no limit; the library writes no timestamp of an instant in the year 1,000,000 of UTC.
sed 's/^"31494784874398 .*/the instant is in no year that is shown/' expected_format.txt > "$out/expected_format.txt"
compare format "$out/expected_format.txt" dates.txt
# And what `time` 0.3.9 writes of the moments of moments.txt, a column each, by each description of its table.
awk -F'|' -v out="$out" 'NR == FNR { moments[NR] = $0; next }
    { for (i = 2; i <= NF; i++) { print "1 " moments[i - 1] "|" $1 > (out "/time_dates.txt"); print "\"" $i "\"" > (out "/time_expected.txt") } }
' moments.txt time-0.3.9.txt
[ "$(wc -l < "$out/time_expected.txt")" = 440 ] || fail "time-0.3.9.txt is not forty rows of eleven texts"
compare format "$out/time_expected.txt" "$out/time_dates.txt"

for file in c/*.c; do
    name=${file#c/}
    [ -e "$out/${name%.c}.txt" ] || fail "nothing runs $file"
done
