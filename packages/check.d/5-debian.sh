# The packages for Debian, unpacked into a folder of their own.

system=$room/system
for package in "$releases"/*_"$architecture".deb; do
    dpkg-deb -x "$package" "$system"
done
libraries=$system/usr/lib/$triple
for name in timefd timefd_lint timefd_format; do
    wanted=$(objdump -p "$system/usr/bin/$name" | sed -n 's/ *NEEDED *//p' | tr '\n' ' ')
    same "$name of the Debian package wants" "$wanted" 'libc.so.6 '
    newest=$(newest_glibc "$system/usr/bin/$name")
    same "$name wants no later glibc than its package says" "$(printf '%s\nGLIBC_2.34\n' "$newest" | sort -V | tail -n 1)" GLIBC_2.34
done
same 'timefd of the Debian package' "$(printf 'due [day]' | clean "$system/usr/bin/timefd" 3)" 'ok bytes 6'
if has pkg-config 'C over the Debian packages'; then
    words=$(PKG_CONFIG_LIBDIR="$libraries/pkgconfig" PKG_CONFIG_SYSROOT_DIR="$system" PKG_CONFIG_ALLOW_SYSTEM_CFLAGS=1 \
        PKG_CONFIG_ALLOW_SYSTEM_LIBS=1 pkg-config --cflags --libs timefd)
    # shellcheck disable=SC2086
    cc $strict "$room/first.c" $words -o "$room/first"
    same 'C over the Debian packages' "$(LD_LIBRARY_PATH="$libraries" "$room/first")" "$expected"
fi
if has lintian 'lintian over the Debian packages'; then
    found=$(lintian --allow-root --fail-on error "$releases"/*.deb 2>&1) || fail "lintian: $found"
    passed=$((passed + 1))
fi
