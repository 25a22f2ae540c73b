# The libraries, from C and C++.

same 'the version of the header' "$(grep -c "of this header's version, $version:" "$prefix/include/timefd.h")" 1
declared=$(sed -n 's/^[a-z].* \(timefd_[a-z0-9_]*\)(.*/\1/p' "$prefix/include/timefd.h" | sort | tr '\n' ' ')
# The newest version of glibc that a file needs.
newest_glibc() {
    "${tools}objdump" -T "$1" | grep -o 'GLIBC_[0-9.]*' | sort -u -V | tail -n 1
}

# What the libraries in a folder, for the processor that for_processor was given, export and need.
check_libraries() {
    defined=$("${tools}nm" -g --defined-only "$1/libtimefd.a" | sed -n 's/.* [A-Z] //p' | sort | tr '\n' ' ')
    same "libtimefd.a for $processor shows what the header declares and nothing else" "$defined" "$declared"
    defined=$("${tools}nm" -D --defined-only "$1/libtimefd.so" | sed -n 's/.* T \([^@]*\).*/\1/p' | sort | tr '\n' ' ')
    same "libtimefd.so for $processor shows what the header declares and nothing else" "$defined" "$declared"
    wanted=$("${tools}nm" -g --undefined-only "$1/libtimefd.a" | sed -n 's/.* U //p' | sort | tr '\n' ' ')
    # The first two are of the compiler's own library: they divide numbers of 128 bits, and give the remainder.
    same "libtimefd.a for $processor wants of the compiler and the C library" "$wanted" \
        '__udivti3 __umodti3 free malloc memcpy memmove memset realloc '
    same "libtimefd.so for $processor wants glibc" "$(newest_glibc "$1/libtimefd.so")" "GLIBC_$glibc"
    soname=$("${tools}objdump" -p "$1/libtimefd.so" | sed -n 's/ *SONAME *//p')
    same "the soname for $processor" "$soname" "libtimefd.so.$interface"
}
check_libraries "$prefix/lib"
for page in $declared $(inline_functions "$prefix"/include/timefd_*.h); do
    gzip -dc "$prefix/share/man/man3/$page.3.gz" | grep -q "$page *(" || fail "man/timefd.3 says nothing of $page"
done

expected=$(cat "$top/examples/expected_first.txt")
for name in first now; do
    sed 's|"\(timefd[a-z_]*.h\)"|<\1>|' "$top/examples/c/$name.c" > "$room/$name.c"
done
strict='-Wall -Wextra -Werror'
if has pkg-config 'programs built by pkg-config'; then
    export PKG_CONFIG_PATH="$prefix/lib/pkgconfig"
    # shellcheck disable=SC2046,SC2086
    cc $strict "$room/first.c" $(pkg-config --cflags --libs timefd) -Wl,-rpath,"$prefix/lib" -o "$room/first"
    same 'C over the shared library' "$("$room/first")" "$expected"
    # shellcheck disable=SC2046,SC2086
    cc $strict -static "$room/first.c" $(pkg-config --static --cflags --libs timefd) -o "$room/first"
    same 'C over the static library' "$("$room/first")" "$expected"
    if has g++ 'C++'; then
        # shellcheck disable=SC2046,SC2086
        g++ $strict -x c++ "$room/first.c" -x none $(pkg-config --cflags --libs timefd) -Wl,-rpath,"$prefix/lib" -o "$room/first"
        same 'C++' "$("$room/first")" "$expected"
        # shellcheck disable=SC2046,SC2086
        g++ $strict -x c++ "$room/now.c" -x none $(pkg-config --cflags --libs timefd) -Wl,-rpath,"$prefix/lib" -o "$room/now"
        same 'the headers over it, in C++' "$("$room/now" | wc -w)" 4
    fi
    if has musl-gcc 'C over musl'; then
        # shellcheck disable=SC2046,SC2086
        musl-gcc $strict -static "$room/first.c" $(pkg-config --static --cflags --libs timefd) -o "$room/first"
        same 'C over musl' "$("$room/first")" "$expected"
    fi
    unset PKG_CONFIG_PATH
fi
