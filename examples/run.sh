#!/bin/sh
# Builds the static library, links the C and the Rust programs with it, and compares what they print with what they have to.
# Then tests the crate of `bindings/rust` and the programs over it. Cargo fetches nothing. Where TIMEFD_LIB_DIR names the folder
# of a library that is built, as `./build` leaves one, all is over that.
set -eu

cd "$(dirname "$0")"
mkdir -p out

fail() {
    echo "run.sh: $1" >&2
    exit 1
}

# Builds rust/NAME.rs.
build() {
    rustc --edition 2024 -D warnings -O -o "out/$1_rust" "rust/$1.rs" -C link-arg="$library"
}

# Builds rust/NAME.rs, and compares what it prints with a file.
build_and_compare() {
    build "$1"
    compare "$1_rust" "$2"
}

# Compares what out/NAME prints, given a file if there is one, with another file.
compare() {
    "out/$1" ${3:+"$3"} > "out/$1.txt" || fail "out/$1 ended with status $?"
    diff -u "$2" "out/$1.txt" || fail "out/$1 printed something else than $2"
    echo "run.sh: out/$1 printed what is expected"
}

# The gate has built it over what it proved, by gate/c-library. It is for every processor of x86-64.
[ -n "${TIMEFD_LIBRARY_IS_BUILT:-}${TIMEFD_LIB_DIR:-}" ] || (cd ../crates/timefd_c && rt lib --cpu x86-64) || fail "the library was not built"
# The one archive that the packages have.
folder=$(../packages/library)
library=$folder/libtimefd.a
newer='pshufb|palignr|pabs[bwd]|phadd[wd]|pmaddubsw|psign[bwd]|pmulhrsw|pmulld|ptest|p(ins|ext)r[bdq]|pblend|pm(in|ax)(s[bd]|u[wd])|pmov[sz]x'
newer="$newer|packusdw|insertps|pcmpeqq|pcmp[ei]str|pcmpgtq|round[ps][sd]|popcnt|crc32|v[a-z]*[ps][sdb]"
objdump -d "$library" > out/library.txt || fail "objdump does not read the library"
[ "$(wc -l < out/library.txt)" -gt 1000 ] || fail "the library has no code"
grep -qE "[[:space:]]($newer)[[:space:]]" out/library.txt && fail "the library wants more than plain x86-64"

c/run.sh
build_and_compare first expected_first.txt
build_and_compare check expected.txt
build_and_compare convert expected_convert.txt

# The linter ends with status 1, since it finds something in formats.txt.
build lint
status=0
out/lint_rust formats.txt > out/lint_rust.txt || status=$?
[ "$status" = 1 ] || fail "out/lint_rust ended with status $status"
diff -u expected_lint.txt out/lint_rust.txt || fail "out/lint_rust printed something else than expected_lint.txt"
echo "run.sh: out/lint_rust printed what is expected"

# The script that computed what is expected has no limit; the library writes no timestamp of an instant in the year 1,000,000 of UTC.
sed 's/^"31494784874398 .*/the instant is in no year that is shown/' expected_format.txt > out/expected_format.txt

# Formats, lints and tests a Cargo package, and builds it.
check_package() {
    (
        cd "$1" &&
            cargo fmt --check &&
            cargo clippy --offline --locked --quiet --all-targets -- -D warnings &&
            cargo test --offline --locked --quiet &&
            cargo build --offline --locked --quiet
    ) || fail "the package $1 has a fault"
}

# Formats, lints and tests the crate, as a dependency of a package: where it is built itself, Cargo looks for its optional dependencies,
# which want a registry.
check_crate() {
    (
        (cd ../bindings/rust && cargo fmt --check) && cd dates &&
            cargo clippy --offline --locked --quiet -p timefd --all-targets -- -D warnings &&
            cargo test --offline --locked --quiet -p timefd
    ) || fail "the crate has a fault"
    (cd ../bindings/rust/features/none && cargo clippy --offline --quiet -p timefd -- -D warnings) || fail "the crate wants std"
}

# Lints and tests a feature of the crate with the crates that Debian's packages have, where they are installed: check_feature FEATURE
# PACKAGE CRATE..
registry=/usr/share/cargo/registry
check_feature() {
    feature=$1 package=$2
    shift 2
    for crate; do
        ls -d "$registry/$crate-"[0-9]* > /dev/null 2>&1 || {
            echo "run.sh: there is no $crate in $registry ($package), so the feature $feature of the crate is not tested"
            return 0
        }
    done
    (
        cd "../bindings/rust/features/$feature" &&
            cargo fmt --check &&
            cargo clippy --offline --quiet -p timefd -p "timefd_with_$feature" --all-targets -- -D warnings &&
            cargo test --offline --quiet &&
            { [ "$feature" = serde ] || cargo test --offline --quiet -p timefd --doc "$feature"; }
    ) || fail "the feature $feature of the crate has a fault"
}

# Its tests of memory take the place of calls that can't be seen in libtimefd.a, but in the archives that this is made of.
[ ! -d "$folder/parts" ] || export TIMEFD_LIB_DIR="$folder/parts"
check_crate
[ ! -d "$folder/parts" ] || export TIMEFD_LIB_DIR="$folder"
check_package dates
check_feature macros ''
(
    cd ../bindings/rust/macros && cargo fmt --check && cd ../features/macros &&
        cargo clippy --offline --quiet -p timefd_macros -- -D warnings
) || fail "the macro of the crate has a fault"
./tools
check_feature serde 'librust-serde-derive-dev, librust-serde-json-dev' serde serde_derive serde_json
check_feature time librust-time-dev time
check_feature chrono librust-chrono-dev chrono
check_feature jiff 'librust-jiff-dev, of Debian 13' jiff
cp dates/target/debug/format out/format_rust
cp dates/target/debug/read out/read_rust
tasks/compare dates/target/debug/tasks
compare format_rust out/expected_format.txt dates.txt
compare read_rust expected_read.txt reads.txt
