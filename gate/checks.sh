# What those scripts of the gate have in common that start the programs themselves: they go to the top of the repository, and read this
# file. It finds the programs, in the folder $TIMEFD_PROGRAMS or where `rt ci` left them, makes the folder $room for files, and
# counts checks.
# shellcheck shell=sh disable=SC2034

# built NAME: where a program is
built() {
    if [ -z "${TIMEFD_PROGRAMS-}" ]; then file=$PWD/crates/$1/out/$1; else file=$(cd "$OLDPWD" && realpath -m "$TIMEFD_PROGRAMS")/$1; fi
    [ -x "$file" ] || echo "$0: build the programs, or set TIMEFD_PROGRAMS to their folder: no $file" >&2
    echo "$file"
}
timefd=$(built timefd)
timefd_format=$(built timefd_format)
timefd_lint=$(built timefd_lint)
[ -x "$timefd" ] && [ -x "$timefd_format" ] && [ -x "$timefd_lint" ] || exit 1

room=$(mktemp -d)
trap 'rm -rf "$room"' EXIT
passed=0
failed=0
# What the program has to write is in `wanted`, and what it has to say on the standard error is an argument.
: > "$room/wanted"
: > "$room/out"

# wants FORMAT WORD..: what is to be written from now on, as printf takes it
wants() {
    # shellcheck disable=SC2059
    printf "$@" > "$room/wanted"
}

# run PROGRAM ARGUMENT..: over this script's standard input
run() {
    status=0
    "$@" > "$room/out" 2> "$room/complaint" || status=$?
}

# check NAME STATUS [COMPLAINT]: whether the run before ended with this status, and wrote what is wanted
check() {
    printf '%s' "${3:+$3
}" > "$room/wanted_complaint"
    if [ "$status" = "$2" ] && cmp -s "$room/wanted" "$room/out" && cmp -s "$room/wanted_complaint" "$room/complaint"; then
        passed=$((passed + 1))
    else
        failed=$((failed + 1))
        echo "$0: $1: status $status, and not $2; it wrote:" >&2
        head -c 300 "$room/out" >&2
        head -c 300 "$room/complaint" >&2
    fi
}

# wrote FILE: whether a file is now the one in `rewritten`, and no new file is left beside it
wrote() {
    cmp -s "$1" "$room/rewritten" && [ ! -e "$1.timefd_lint" ] || status="$status, and the file is another than is wanted"
}

# counted: the last line, and the status of the script
counted() {
    echo "$passed passed, $failed failed"
    [ "$failed" = 0 ]
}
