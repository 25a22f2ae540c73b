# The packages for aarch64: what is in them; and the library under qemu, in C and C++, over the examples, with made-up texts, with
# each allocation refused, and on a small stack.

if has aarch64-linux-gnu-g++ 'the packages for aarch64'; then
    for_processor aarch64
    tar -C "$room" -xJf "$releases/timefd-$version-$triple.tar.xz"
    release=$room/timefd-$version-$triple
    (cd "$release" && sha256sum --quiet -c SHA256SUMS) || fail 'a sum in the release for aarch64 differs'
    same "what the prover said of the library for aarch64" \
        "$(grep -c "^$cargo_target  logic=proved .* target=$cargo_target " "$release/share/doc/timefd/BUILT")" 1
    prefix=$room/aarch64/usr
    make -s -C "$release" install PREFIX="$prefix"
    check_libraries "$prefix/lib"

    "$room/venv/bin/pip" install --quiet --no-index --no-deps --disable-pip-version-check --find-links "$releases" --only-binary=:all: \
        --platform "manylinux_2_17_$processor" --target "$room/wheel" timefd
    check_extension "$room/wheel/timefd/_timefd.abi3.so"
    cmp "$room/archive/native/$cargo_target/libtimefd.a" "$prefix/lib/libtimefd.a" || fail "the source archive has another library"
    cmp "$crate/native/$cargo_target/libtimefd.a" "$prefix/lib/libtimefd.a" || fail "the crate has another library for aarch64"
    # The build of the crate for a target that no Rust is installed for: what it tells Cargo to link.
    rustc --edition 2024 -o "$room/build_script" "$crate/build.rs"
    said=$(clean CARGO_MANIFEST_DIR="$crate" TARGET="$cargo_target" HOST=x86_64-unknown-linux-gnu "$room/build_script")
    same 'the crate for Rust links its own library for aarch64' \
        "$(echo "$said" | sed -n 's/^cargo::rustc-link-search=native=//p')" "$crate/native/$cargo_target"
    dpkg-deb -x "$releases/libtimefd${interface}_$version-1_$architecture.deb" "$room/system_aarch64"
    cmp "$room/system_aarch64/usr/lib/$triple/libtimefd.so.$interface" "$prefix/lib/libtimefd.so" ||
        fail "the Debian package for aarch64 has another library"

    if has qemu-aarch64 'the library for aarch64, under qemu'; then
        words="-I$prefix/include -L$prefix/lib -ltimefd"
        # shellcheck disable=SC2086
        "$cc" $strict "$room/first.c" $words -Wl,-rpath,"$prefix/lib" -o "$room/first"
        same 'C over the shared library for aarch64' "$($runner "$room/first")" "$expected"
        # shellcheck disable=SC2086
        "$cc" $strict -static "$room/first.c" $words -o "$room/first"
        same 'C over the static library for aarch64' "$($runner "$room/first")" "$expected"
        # shellcheck disable=SC2086
        "$triple-g++" $strict -x c++ "$room/first.c" -x none $words -Wl,-rpath,"$prefix/lib" -o "$room/first"
        same 'C++ for aarch64' "$($runner "$room/first")" "$expected"
        export TIMEFD_PROCESSOR=aarch64
        cmp "$("$here/library")/libtimefd.a" "$prefix/lib/libtimefd.a" || fail "what is tried is not the release's library"
        "$top/examples/c/run.sh"
        "$top/fuzz/run.sh" 1000
        "$top/gate/c-rows"
        "$top/gate/library"
        "$top/gate/stack"
        unset TIMEFD_PROCESSOR
    fi

    make -s -C "$release" uninstall PREFIX="$prefix"
    same 'uninstall for aarch64 leaves no file' "$(find "$room/aarch64" ! -type d)" ''
    for_processor x86_64
fi
