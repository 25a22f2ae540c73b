#!/bin/sh
# Prints how many instructions a call takes, as callgrind counts those of its function and of what that calls: the difference of
# 520 calls and 20 by 500. It counts `timefd_read`, `parse_borrowed` of Rattle, `parse` of the crate for Rust and `timefd_judge`, and
# `parse` of Debian's `time` 0.3.9, of the texts of version 1 that it takes. The crate and `time` are counted if Debian's packages of
# `time` and `chrono` are installed. It takes the library that `rt lib` leaves in crates/timefd_c, or that of the folder TIMEFD_LIB_DIR,
# and for `parse_borrowed` what `borrowed-library` makes, or the archive TIMEFD_BORROWED. It needs valgrind.
set -eu
cd "$(dirname "$0")"
registry=/usr/share/cargo/registry
mkdir -p out

[ -n "${TIMEFD_LIB_DIR:-}" ] || (cd ../crates/timefd_c && rt lib --cpu x86-64 > /dev/null)
TIMEFD_LIB_DIR=$(../packages/library)
export TIMEFD_LIB_DIR
borrowed=${TIMEFD_BORROWED:-}
[ -n "$borrowed" ] || borrowed=$(./borrowed-library)/libtimefd_borrowed.a
set --
if [ -d "$registry/time-0.3.9" ] && [ -d "$registry/chrono-0.4.23" ]; then
    (cd beside && cargo build --release --offline --locked --quiet --lib)
    set -- -DWITH_PEERS "${CARGO_TARGET_DIR:-beside/target}/release/libtimefd_peers.a"
fi
cc -std=gnu11 -Wall -Wextra -Werror -O2 -o out/instructions instructions.c "$@" "$TIMEFD_LIB_DIR/libtimefd.a" "$borrowed"

# function_of CALL: the function that is counted
function_of() {
    case $1 in
    read) echo timefd_read ;;
    composites) echo timefd_read_composites ;;
    borrowed) echo timefd_parse_borrowed ;;
    judge) echo timefd_judge ;;
    convert) echo convert ;;
    rust) echo parse_in_rust ;;
    time) echo peer_time ;;
    esac
}

# count CALL KIND TIMES TEXT
count() {
    valgrind --tool=callgrind --toggle-collect="$(function_of "$1")" --callgrind-out-file=/dev/null \
        out/instructions "$1" "$2" "$3" "$4" 2>&1 | sed -n 's/.*Collected : //p'
}

# per_call CALL KIND TEXT: nothing where the call isn't there, or doesn't read the text
per_call() {
    if out/instructions "$1" "$2" 1 "$3"; then
        echo $((($(count "$1" "$2" 520 "$3") - $(count "$1" "$2" 20 "$3") + 250) / 500))
    fi
}

# row NAME KIND TEXT
row() {
    line="| $1 |"
    for call in read borrowed rust judge time; do
        line="$line $(per_call "$call" "$2" "$3") |"
    done
    echo "$line"
}

# head_of NAME
head_of() {
    echo
    echo "| $1 | \`timefd_read\` | \`parse_borrowed\` | the crate's \`parse\` | \`timefd_judge\` | \`time\` 0.3.9 |"
    echo '|---|---|---|---|---|---|'
}

date='[year]-[month]-[day]'
moment="${date}T[hour]:[minute]:[second]"
zone='[offset_hour sign:mandatory]:[offset_minute]'
rfc2822='[weekday repr:short], [day] [month repr:short] [year] [hour]:[minute]:[second] [offset_hour sign:mandatory][offset_minute]'
longest=$(head -c 100035 /dev/zero | tr '\0' a)

head_of Text
for version in 1 2 3; do
    row "version $version, \`[day]\`" "$version" '[day]'
    row "version $version, ISO date" "$version" "$date"
    row "version $version, ISO date and time" "$version" "$moment"
    row "version $version, RFC 3339" "$version" "$moment.[subsecond]$zone"
    row "version $version, RFC 2822" "$version" "$rfc2822"
done
row 'version 3, ISO date and time with an optional and a `first`' 3 \
    "${moment}[optional [.[subsecond]]][first [Z] [$zone]]"
row 'version 3, `[optional [[day]]]`' 3 '[optional [[day]]]'
for text in '%d' '%Y-%m-%d %H:%M:%S' '%F %T' '%c'; do
    row "strftime, \`$text\`" 4 "$text"
done
row 'strftime, `%Y-%m-%d %Q`, which has a fault' 4 '%Y-%m-%d %Q'
row 'version 1, a literal of 100 kB' 1 "$longest"

echo
echo '| Composite letters | `timefd_read` | `timefd_read_composites` |'
echo '|---|---|---|'
for text in '%d' '%Y-%m-%d %H:%M:%S' '%F %T' '%c'; do
    echo "| \`$text\` | $(per_call read 4 "$text") | $(per_call composites 4 "$text") |"
done

echo
echo '| A format of 20 bytes, converted to version 3 | Instructions |'
echo '|---|---|'
stamp='%Y-%m-%dT%H:%M:%S%z'
echo "| \`$stamp\` of \`time\`'s strftime | $(per_call convert 4 "$stamp") |"
for dialect in 101:Python 102:C '103:GNU date' 104:chrono 105:jiff 106:Ruby; do
    echo "| \`$stamp\` of ${dialect#*:} | $(per_call convert "${dialect%%:*}" "$stamp") |"
done
echo "| \`yyyy-MM-dd'T'HH:mm:s\` of Java | $(per_call convert 107 "yyyy-MM-dd'T'HH:mm:s") |"
echo "| \`2006-01-02T15:04:05Z\` of Go | $(per_call convert 108 '2006-01-02T15:04:05Z') |"
echo "| \`YYYY-MM-DD HH:mm:ssZ\` of moment | $(per_call convert 109 'YYYY-MM-DD HH:mm:ssZ') |"

head_of 'Brackets with modifiers'
for text in '[month repr:short]' '[hour repr:12 padding:none]' '[weekday repr:sunday one_indexed:false]' \
    '[year repr:last_two base:iso_week padding:none]' '[unix_timestamp precision:nanosecond sign:mandatory]' \
    '[year padding:space repr:full range:standard base:calendar sign:automatic]' \
    '[weekday repr:long case_sensitive:false] [hour repr:12 padding:space]' \
    '[ year ]-[ month   padding:zero ]-[ day ]' '[hour repr:12 repr:24]:[minute padding:none padding:zero]' \
    '[month repr:short padding:none] [weekday repr:short one_indexed:true]'; do
    row "version 1, \`$text\`" 1 "$text"
done
for text in '[month repr:short]' '[hour repr:12 padding:none]' '[unix_timestamp precision:nanosecond sign:mandatory]'; do
    row "version 3, \`$text\`" 3 "$text"
done
