#!/usr/bin/env bash
# Builds the libraries for C, and the samples over them, into a folder.
#
#     tools/c/build.sh [OUT]
#
# OUT is tools/c/out where none is given. Each library is proved and built by `rt lib` in crates/mirror_c and in
# crates/peer_c, or is the one that the variable LIBMIRROR or LIBPEER names. The kit, whose c/liblibc_c.a has the calls for
# memory, is the one that `rt` stands in, or the folder that KIT names. In OUT stand then libtsync_mirror and
# libtsync_peer, each as .a and .so, and the samples.
set -eu
here=$(cd "$(dirname "$0")" && pwd)
out=${1:-$here/out}
kit=${KIT:-$(dirname "$(dirname "$(readlink -f "$(command -v rt || true)")")")}
[ -f "$kit/c/liblibc_c.a" ] || { echo "build.sh: no kit: rt isn't on the path, and KIT names none" >&2; exit 1; }
mkdir -p "$out"
out=$(cd "$out" && pwd)

# build CRATE NAME LIBRARY: one file for whoever links, the library and the kit's calls for memory, static and shared
build() {
    local crate=$here/../../crates/$1 name=$2 library=$3
    if [ -z "$library" ]; then
        (cd "$crate" && rt lib)
        library=$crate/out/lib$1.a
    fi
    library=$(readlink -f "$library")
    rm -rf "$out/parts" && mkdir "$out/parts"
    (cd "$out/parts" && ar x "$library" && ar x "$kit/c/liblibc_c.a")
    rm -f "$out/lib$name.a"
    ar rcs "$out/lib$name.a" "$out"/parts/*
    rm -rf "$out/parts"
    cc -shared -o "$out/lib$name.so" -Wl,-soname,"lib$name.so" -Wl,--whole-archive "$out/lib$name.a" -Wl,--no-whole-archive \
        -Wl,--version-script="$here/$name.map" -Wl,-z,defs
}

build mirror_c tsync_mirror "${LIBMIRROR:-}"
build peer_c tsync_peer "${LIBPEER:-}"
for name in sample join misuse bench; do
    cc -O2 -std=gnu11 -Wall -Wextra -I "$here" "$here/$name.c" "$out/libtsync_mirror.a" -o "$out/$name"
done
for name in peers peer_bench; do
    cc -O2 -std=gnu11 -Wall -Wextra -I "$here" "$here/$name.c" "$out/libtsync_peer.a" -o "$out/$name"
done
if command -v rustc > /dev/null; then
    rustc -O --edition 2021 "$here/sample.rs" -C link-arg="$out/libtsync_mirror.a" -o "$out/sample_rs"
fi
