#!/bin/sh
# Prints how many instructions a line takes, as callgrind counts those of the whole program: of `timefd_format` the difference of 40,000
# lines and 20,000, beside Debian's `dateutils.dconv` where it is installed; of `timefd_lint` the difference of 101 lines and one. It
# takes the programs of the folder TIMEFD_BIN, or those that `./build` leaves in out/, and needs valgrind.
set -eu
cd "$(dirname "$0")"
bin=${TIMEFD_BIN:-../out}
room=$(mktemp -d)
trap 'rm -rf "$room"' EXIT

# Random dates of the years 1900 to 2091, in each form.
python3 - "$room" << 'END'
import datetime, random, sys

chance, first = random.Random(1), datetime.datetime(1900, 1, 1)
moments = [first + datetime.timedelta(seconds=chance.randrange(192 * 365 * 86400)) for _ in range(40000)]
forms = {
    "days": "%d/%m/%Y", "when": "7,%d/%m/%Y,a note", "names": "%Y-%m-%d", "times": "%Y-%m-%dT%H:%M:%S",
    "utc": "%Y-%m-%dT%H:%M:%SZ", "offsets": "%Y-%m-%dT%H:%M:%S+01:00",
}
for name, form in forms.items():
    head = ["id,when,note\n"] if name == "when" else []
    lines = [it.strftime(form) + "\n" for it in moments]
    for count in (20000, 40000):
        with open(f"{sys.argv[1]}/{name}.{count}", "w") as out:
            out.writelines(head + lines[:count])
END

# count FILE WORD..
count() {
    file=$1
    shift
    valgrind --tool=callgrind --callgrind-out-file=/dev/null "$@" 2>&1 > /dev/null < "$room/$file" | sed -n 's/.*Collected : //p'
}

# per_line NAME WORD..
per_line() {
    name=$1
    shift
    echo $((($(count "$name.40000" "$@") - $(count "$name.20000" "$@") + 10000) / 20000))
}

# row NAME TITLE WORD..: the peer does the same, if it is installed
row() {
    name=$1 title=$2 peer=
    shift 2
    ours=$(per_line "$name" "$bin/timefd_format" "$@")
    case $name in
    days) set -- -i '%d/%m/%Y' -f '%Y-%m-%d' ;;
    when) set -- -S -i '%d/%m/%Y' -f '%Y-%m-%d' ;;
    *) set -- -f '%d/%m/%Y' ;;
    esac
    if command -v dateutils.dconv > /dev/null; then
        peer=$(per_line "$name" dateutils.dconv "$@")
    fi
    echo "| $title | $ours | $peer |"
}

echo '| A line | `timefd_format` | `dateutils.dconv` |'
echo '|---|---|---|'
row days 'read, `--read`' --read '[day]/[month]/[year]' '[year]-[month]-[day]'
row days 'read, `--language strftime --read`' --language strftime --read '%d/%m/%Y' '%Y-%m-%d'
row days 'the only column, `--csv 1 --read`' --csv 1 --read '[day]/[month]/[year]' '[year]-[month]-[day]'
row when 'the second of three columns, `--csv when --read`' --csv when --read '[day]/[month]/[year]' '[year]-[month]-[day]'
row names 'a name like `2026-11-23`' '[day]/[month]/[year]'
row names 'a name like `2026-11-23`, `--language strftime`' --language strftime '%d/%m/%Y'
row times 'a name like `2026-11-23T05:36:07`' '[day]/[month]/[year]'
row utc 'a name like `2026-11-23T05:36:07Z`' '[day]/[month]/[year]'
row offsets 'a name like `2026-11-23T05:36:07+01:00`' '[day]/[month]/[year]'

# linted TITLE LINE WORD..
linted() {
    title=$1 line=$2
    shift 2
    echo "$line" > "$room/one"
    yes "$line" | head -101 > "$room/many"
    echo "| $title | $((($(count many "$bin/timefd_lint" "$@") - $(count one "$bin/timefd_lint" "$@") + 50) / 100)) |"
}

echo
echo '| A line | `timefd_lint` |'
echo '|---|---|'
good='[year]-[month]-[day]'
bad='[year]-[mnth]-[day]'
linted "\`$good\`" "$good"
linted "\`$bad\`, \`--format short\`" "$bad" --format short
linted "\`$bad\`, \`--format json\`" "$bad" --format json
linted "\`$bad\`, drawn" "$bad"
linted "\`$good\`, \`--explain\`" "$good" --explain
