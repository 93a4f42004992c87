#!/usr/bin/env bash
# Builds the static library and times the proved engine against the second; with a number, compares their answers to so many
# generated cases and texts, with the word `operators` those of every operator on corner values, with `texts` times texts alone. With the
# word `c` before these, the proved engine is dist/audala.c at -O2 in place of the static library. With the word `forms` it times dist/audala.c
# against the static library, in one process. Not part of the gate.
set -euo pipefail
here=$(cd "$(dirname "$0")" && pwd)
top=$(cd "$here/.." && pwd)
c=$top/target/c
mkdir -p "$c"
gcc -std=c99 -O2 -c -I"$top/include" "$top/dist/audala.c" -o "$c/audala.o"
nm --defined-only -g "$c/audala.o" | awk '{ print $3, "c_" $3 }' >"$c/names"
objcopy --redefine-syms="$c/names" "$c/audala.o" "$c/renamed.o"
rm -f "$c"/lib*.a
ar rcs "$c/libaudala.a" "$c/audala.o"
ar rcs "$c/libc_audala.a" "$c/renamed.o"
if [ "${1-}" = c ]; then
    shift
    export AUDALA_LIB=$c
else
    "$top/tools/staticlib.sh" >/dev/null
fi
cargo run --quiet --offline --release --jobs 1 --manifest-path "$here/Cargo.toml" -- "$@"
