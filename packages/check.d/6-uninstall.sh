# What was installed is removed again; only folders that others share stay.

make -s -C "$release" uninstall PREFIX="$prefix"
same 'uninstall leaves no file' "$(find "$room/clean" ! -type d)" ''
same 'uninstall leaves no folder of its own' "$(find "$room/clean" -type d -name '*timefd*')" ''
make -s -C "$release" uninstall DESTDIR="$room/staged" PREFIX=/usr LIBDIR=/usr/lib64
same 'uninstall below DESTDIR leaves no file' "$(find "$room/staged" ! -type d)" ''
