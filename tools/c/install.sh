#!/usr/bin/env bash
# Installs the libraries for C, as tools/c/build.sh built them.
#
#     tools/c/install.sh PREFIX [OUT]
#
# OUT is where they were built, tools/c/out where none is given. Put are, of tsync_mirror and of tsync_peer, the header in
# PREFIX/include, both libraries in PREFIX/lib, and a file in PREFIX/lib/pkgconfig; with DESTDIR, all below that folder.
set -eu
here=$(cd "$(dirname "$0")" && pwd)
[ $# -ge 1 ] || { echo "usage: install.sh PREFIX [OUT]" >&2; exit 2; }
prefix=$1
out=${2:-$here/out}
to=${DESTDIR:-}$prefix
for name in libtsync_mirror.a libtsync_mirror.so libtsync_peer.a libtsync_peer.so; do
    [ -f "$out/$name" ] || { echo "install.sh: no $name in $out: build it by tools/c/build.sh $out" >&2; exit 1; }
done
mkdir -p "$to/include" "$to/lib/pkgconfig"

# put NAME WHAT
put() {
    install -m 644 "$here/$1.h" "$to/include/"
    install -m 644 "$out/lib$1.a" "$to/lib/"
    install -m 755 "$out/lib$1.so" "$to/lib/"
    cat > "$to/lib/pkgconfig/$1.pc" <<PC
prefix=$prefix
includedir=\${prefix}/include
libdir=\${prefix}/lib

Name: $1
Description: $2 of Trailing State Synchronization, proved
Version: 1.0
Cflags: -I\${includedir}
Libs: -L\${libdir} -l$1
PC
}

put tsync_mirror "one mirror"
put tsync_peer "one peer of a session"
