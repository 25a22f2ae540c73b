# The packages have the same bytes from two folders, whatever the umask, the time zone and the language; and the release in a clean folder.

"$here/make"
releases=$here/out/release
elsewhere=$room/elsewhere
mkdir -p "$elsewhere/bindings" "$elsewhere/examples" "$elsewhere/crates"
cp -R "$here" "$elsewhere/packages"
cp -R "$top/bindings/python" "$top/bindings/javascript" "$elsewhere/bindings"
mkdir "$elsewhere/bindings/rust"
(cd "$top/bindings/rust" && tar -c --exclude=./target --exclude=./features .) | tar -x -C "$elsewhere/bindings/rust"
cp "$top"/examples/timefd*.h "$elsewhere/examples"
cp "$top/LICENSE-MIT" "$top/LICENSE-APACHE" "$top/CHANGELOG.md" "$elsewhere"
for file in timefd/out/timefd.o timefd_lint/out/timefd_lint.o timefd_format/out/timefd_format.o; do
    mkdir -p "$elsewhere/crates/${file%/*}"
    cp "$top/crates/$file" "$elsewhere/crates/$file"
done
mkdir -p "$elsewhere/web/out"
cp "$top/web/timefd.mjs" "$top/web/places.mjs" "$elsewhere/web"
for file in playground.html timefd.wasm; do
    [ ! -e "$top/web/out/$file" ] || cp "$top/web/out/$file" "$elsewhere/web/out"
done
for processor in $processors; do
    for_processor "$processor"
    mkdir -p "$elsewhere/$readers"
    cp "$top/$readers/libtimefd_c.a" "$elsewhere/$readers"
    [ ! -e "$top/$readers/VERDICT" ] || cp "$top/$readers/VERDICT" "$elsewhere/$readers"
done
for_processor x86_64
(
    umask 077
    export TZ=Asia/Kolkata LC_ALL=C GIT_DIR="$top/.git" GIT_WORK_TREE="$top"
    "$elsewhere/packages/make" "$room/again"
)
same 'the same bytes from two folders' "$(cat "$room/again/SHA256SUMS")" "$(cat "$releases/SHA256SUMS")"

(cd "$releases" && sha256sum --quiet -c SHA256SUMS) || fail 'a sum differs'
tar -C "$room" -xJf "$releases/timefd-$version-$triple.tar.xz"
release=$room/timefd-$version-$triple
(cd "$release" && sha256sum --quiet -c SHA256SUMS) || fail 'a sum in the release differs'
same 'the commit is named' "$(grep -c "^commit: $commit\$" "$release/share/doc/timefd/BUILT")" 1
same 'the toolchain is named' "$(grep -c "^toolchain: $(rt version)\$" "$release/share/doc/timefd/BUILT")" 1

prefix=$room/clean/usr
make -s -C "$release" install PREFIX="$prefix"
make -s -C "$release" install DESTDIR="$room/staged" PREFIX=/usr LIBDIR=/usr/lib64
same 'it is installed below DESTDIR alone' "$(ls "$room/staged")" usr
same 'the folder of libraries is as asked for' "$(sed -n 's/^libdir=//p' "$room/staged/usr/lib64/pkgconfig/timefd.pc")" /usr/lib64
