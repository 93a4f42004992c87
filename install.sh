#!/usr/bin/env bash
# install.sh PREFIX: the library for C, C++ and Rust under a prefix: libaudala.a of dist/audala.c, audala.h, audala.rs, the C file itself and audala.pc for pkg-config.
# Needs a C99 compiler (CC, CFLAGS) and ar (AR), and no toolchain. Where there is a rustc (RUSTC), the command line `audala` is built too (cli/build.sh).
set -euo pipefail
top=$(cd "$(dirname "$0")" && pwd)
[ $# -eq 1 ] || { echo "install.sh PREFIX" >&2; exit 2; }
mkdir -p "$1"
prefix=$(cd "$1" && pwd)
work=$(mktemp -d)
trap 'rm -rf "$work"' EXIT
version=$(sed -n 's/^#define AUDALA_VERSION "\(.*\)"$/\1/p' "$top/include/audala.h")
${CC:-cc} -std=c99 ${CFLAGS:--O2} -c -I"$top/include" "$top/dist/audala.c" -o "$work/audala.o"
${AR:-ar} rcs "$work/libaudala.a" "$work/audala.o"
mkdir -p "$prefix"/{include,lib/pkgconfig,share/audala}
cp "$top/include/audala.h" "$top/include/audala.rs" "$prefix/include/"
cp "$top/dist/audala.c" "$prefix/share/audala/"
cp "$work/libaudala.a" "$prefix/lib/"
cat >"$prefix/lib/pkgconfig/audala.pc" <<PC
prefix=$prefix
includedir=\${prefix}/include
libdir=\${prefix}/lib

Name: audala
Description: checker, engine and reader of program text for AuDaLa
Version: $version
Cflags: -I\${includedir}
Libs: -L\${libdir} -laudala
PC
if command -v "${RUSTC:-rustc}" >/dev/null; then
    mkdir -p "$prefix/bin"
    "$top/cli/build.sh" "$prefix/bin/audala"
fi
echo "install: audala $version under $prefix"
