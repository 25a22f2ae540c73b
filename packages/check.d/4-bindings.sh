# Python's wheel and its source archive, the crate for Rust in each way that it finds the library, and the package for JavaScript.

same 'the version of the module' "$(sed -n 's/^__version__ = "\(.*\)"/\1/p' "$top/bindings/python/timefd/__init__.py")" "$version"
# python_tests ENVIRONMENT TESTS: the tests over what is installed in an environment
python_tests() {
    (cd "$room" && clean timeout 300 "$room/$1/bin/python" -B -m unittest discover -q -s "$2") || fail "the module for Python in $1"
}
python3 -m venv "$room/venv"
"$room/venv/bin/pip" install --quiet --no-index --disable-pip-version-check --find-links "$releases" --only-binary=:all: timefd
python_tests venv "$top/bindings/python/tests"
clean "$top/examples/tasks/compare" "$room/venv/bin/python" "$top/examples/tasks/tasks.py" > "$room/said" || fail 'the three tasks in Python'
has mypy 'the types of the module for Python' || true

# What the extension of a wheel exports and needs:   check_extension FILE
check_extension() {
    same "the extension for $processor shows" "$("${tools}nm" -D --defined-only "$1" | sed -n 's/.* T //p')" PyInit__timefd
    same "the extension for $processor wants no later glibc than its tag says" \
        "$(printf '%s\nGLIBC_2.17\n' "$(newest_glibc "$1")" | sort -V | tail -n 1)" GLIBC_2.17
}
check_extension "$("$room/venv/bin/python" -B -c 'from timefd import calls; print(calls._timefd.__file__)')"

# The extension over musl: its loader finds all that it wants, given names in place of Python's.
if has musl-gcc 'the wheel for musl'; then
    python3 -m zipfile -e "$releases/timefd-$version-cp39-abi3-musllinux_1_2_x86_64.whl" "$room/musl"
    extension=$room/musl/timefd/_timefd.abi3.so
    {
        printf '#include <dlfcn.h>\n#include <stdio.h>\n'
        nm -D --undefined-only "$extension" | sed -n 's/.* U \(_*Py.*\)/char \1[64];/p'
        printf 'int main(int count, char **words) {\n    void *module = count == 2 ? dlopen(words[1], RTLD_NOW) : NULL;\n'
        printf '    puts(module && dlsym(module, "PyInit__timefd") ? "loaded" : dlerror());\n}\n'
    } > "$room/load.c"
    musl-gcc -Wall -Wextra -Werror -rdynamic "$room/load.c" -o "$room/load"
    same 'the extension over musl' "$("$room/load" "$extension")" loaded
    # `_init` and `_fini` are of musl's own start files.
    same 'the extension for musl shows' "$(nm -D --defined-only "$extension" | sed -n 's/.* T //p' | grep -v '^_\(init\|fini\)$')" PyInit__timefd
fi

mkdir "$room/archive"
tar -C "$room/archive" --strip-components=1 -xzf "$releases/timefd-$version.tar.gz"
python3 -m venv "$room/sources"
clean "$room/sources/bin/pip" install --quiet --no-index --disable-pip-version-check "$releases/timefd-$version.tar.gz" ||
    fail 'the source archive for Python'
python_tests sources "$room/archive/tests"

# The crate's own tests over the library that is handed out; but for those of memory, which take the place of calls that can't
# be seen in it: examples/run.sh has them. A package that depends on the crate asks for them: Cargo looks for no optional
# dependencies then.
(
    cd "$top/examples/dates"
    for tests in '--lib --test worked' --doc; do
        # shellcheck disable=SC2086
        clean TIMEFD_LIB_DIR="$prefix/lib" cargo test --quiet --offline --locked --target-dir "$room/tests" -p timefd $tests
    done > "$room/said" 2>&1 || { cat "$room/said"; false; }
) || fail 'the tests of the crate'

same 'the version of the crate' "$(sed -n 's/^version = "\(.*\)"/\1/p' "$top/bindings/rust/Cargo.toml")" "$version"
tar -C "$room" -xzf "$releases/timefd-$version.crate"
crate=$room/timefd-$version
macros=$room/timefd_macros-$version
tar -C "$room" -xzf "$releases/timefd_macros-$version.crate"
for file in LICENSE-MIT LICENSE-APACHE native/README native/TERMS.md "native/$cargo_target/libtimefd.a" "native/$cargo_musl/libtimefd.a"; do
    for package in "$crate" "$macros"; do
        [ -s "$package/$file" ] || fail "$package has no $file"
    done
done
[ -s "$crate/CHANGELOG.md" ] || fail "the crate has no CHANGELOG.md"
# Its build for musl, for which no Rust is installed: what it tells Cargo to link.
rustc --edition 2024 -o "$room/build_script" "$crate/build.rs"
said=$(clean CARGO_MANIFEST_DIR="$crate" TARGET="$cargo_musl" HOST="$cargo_target" "$room/build_script")
same 'the crate for Rust links its own library for musl' \
    "$(echo "$said" | sed -n 's/^cargo::rustc-link-search=native=//p')" "$crate/native/$cargo_musl"
mkdir -p "$room/project/src"
cp "$top/bindings/rust/examples/first.rs" "$room/project/src/main.rs"
printf '[package]\nname = "project"\nversion = "1.0.0"\nedition = "2024"\n[dependencies]\ntimefd = { path = "%s" }\n' "$crate" \
    > "$room/project/Cargo.toml"

# project WAY VARIABLE..: builds the project with these variables alone, and runs it
project() {
    way=$1
    shift
    rm -rf "$room/project/target"
    (cd "$room/project" && clean "$@" cargo run --quiet --offline) > "$room/said" 2> "$room/complaint" || {
        cat "$room/complaint"
        fail "a project in Rust, $way"
    }
    same "a project in Rust, $way" "$(grep '^at most' "$room/said")" "$expected"
    same "a date written and one read by a project in Rust, $way" "$(tail -n 2 "$room/said" | xargs)" '23.11.2026 Monday'
}
project 'with an empty environment' CARGO_TERM_COLOR=never

# The macro, by the feature that asks for it.
mkdir -p "$room/checked/src"
printf '[package]\nname = "checked"\nversion = "1.0.0"\nedition = "2024"\n[dependencies]\ntimefd = { path = "%s", features = ["macros"] }\n' \
    "$crate" > "$room/checked/Cargo.toml"
printf '[patch.crates-io]\ntimefd_macros = { path = "%s" }\n' "$macros" >> "$room/checked/Cargo.toml"
printf 'fn main() {\n    println!("{}", timefd::format_description!("[day].[month].").max_bytes_needed());\n}\n' > "$room/checked/src/main.rs"
same 'a description that is read while a project is compiled' "$(cd "$room/checked" && clean cargo run --quiet --offline)" 6
mv "$crate/native" "$room/native"
project 'by TIMEFD_LIB_DIR' TIMEFD_LIB_DIR="$prefix/lib"
if has pkg-config 'the crate for Rust by pkg-config'; then
    project 'by pkg-config' PKG_CONFIG_PATH="$prefix/lib/pkgconfig"
    project 'over the shared library' TIMEFD_DYNAMIC=1 PKG_CONFIG_PATH="$prefix/lib/pkgconfig" LD_LIBRARY_PATH="$prefix/lib"
fi
rm -rf "$room/project/target"
said=$(cd "$room/project" && clean PKG_CONFIG_LIBDIR=/nowhere cargo build --quiet --offline 2>&1 || true)
case $said in
*'no library of timefd was found'*) ;;
*) fail "without a library the crate says: $said" ;;
esac
mv "$room/native" "$crate"

# The package for JavaScript, installed into a project without a network.
tarball=$releases/timefd-$version.tgz
if [ -e "$tarball" ]; then
    same 'the version of the package for JavaScript' "$(sed -n 's/^ *"version": "\(.*\)",$/\1/p' "$top/bindings/javascript/package.json")" "$version"
    mkdir "$room/javascript"
    printf '{ "private": true }\n' > "$room/javascript/package.json"
    cp "$top"/bindings/javascript/examples/* "$room/javascript"
    (cd "$room/javascript" && npm_config_cache="$room/npm" npm install --silent --offline --no-audit --no-fund --ignore-scripts "$tarball") ||
        fail 'npm does not install the package for JavaScript'
    for file in LICENSE-MIT LICENSE-APACHE TERMS.md BUILT README.md timefd.d.ts licenses/strsim-LICENSE; do
        [ -s "$room/javascript/node_modules/timefd/$file" ] || fail "the package for JavaScript has no $file"
    done
    same 'a project in JavaScript' "$(cd "$room/javascript" && node first.mjs)" "$(cat "$room/javascript/first.out")"
    same 'a column rewritten in JavaScript' "$(cd "$room/javascript" && node column.mjs < column.in 2> "$room/complaint")" "$(cat "$room/javascript/column.out")"
    "$top/examples/tasks/compare" node "$room/javascript/tasks.mjs" > "$room/said" || fail 'the three tasks in JavaScript'
elif has npm 'the package for JavaScript'; then
    echo "packages/check: SKIPPED: the package for JavaScript, as web/build has made no web/out/timefd.wasm" >> "$room/skipped"
fi
