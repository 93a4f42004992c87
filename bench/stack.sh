#!/usr/bin/env bash
# Prints how many bytes of stack each exported entry uses, at most, on images that nest deep, are long or damaged, and on texts that nest as deep as they are long:
# of the static library, which it builds, or with the word `c` of dist/audala.c. Not part of the gate.
set -euo pipefail
here=$(cd "$(dirname "$0")" && pwd)
top=$(cd "$here/.." && pwd)
work=$(mktemp -d)
trap 'rm -rf "$work"' EXIT
if [ "${1-}" = c ]; then
    library=$top/dist/audala.c
else
    "$top/tools/staticlib.sh" >/dev/null
    library=$top/target/staticlib/libaudala.a
fi
gcc -std=gnu11 -Wall -Wextra -Werror -O2 -Wl,-z,now -I"$top/include" "$here/stack.c" "$library" -o "$work/stack"
"$work/stack"
