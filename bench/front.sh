#!/bin/sh
# Counts the instructions of `write_front`, the call in Rattle that writes a moment by the leaves of a description, which were found before: a
# row for each description, as callgrind counts a thousand calls. It builds `front.txt` unproved, and needs valgrind.
set -eu
cd "$(dirname "$0")/.."
room=$(mktemp -d)
trap 'rm -rf "$room"' EXIT
git ls-files -z HANDLES bench/unproved.py examples/timefd.h gate packages web/*.py crates | xargs -0 cp -p --parents -t "$room"
mkdir -p "$room/crates/timefd_front/src"
cp bench/front.txt "$room/crates/timefd_front/src/main.rt"
{
    cat crates.txt
    sed -n 's/^timefd_test_uses:/timefd_front:/p' crates.txt
} > "$room/crates.txt"
"$room/bench/unproved.py" timefd_front "$room/front"

# count ARGUMENT..
count() {
    valgrind --tool=callgrind --callgrind-out-file=/dev/null --toggle-collect='*write_front*' "$room/front" "$@" 2>&1 |
        sed -n 's/.*Collected : //p'
}

echo '| Leaves found before, instructions | `write_front` |'
echo '|---|---|'
set -- # The program takes one argument fewer than the number of the row.
for text in 'ISO date' 'ISO date and time' 'RFC 3339' 'RFC 2822'; do
    echo "| $text | $((($(count "$@") + 500) / 1000)) |"
    set -- "$@" x
done
