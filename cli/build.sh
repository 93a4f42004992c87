#!/usr/bin/env bash
# Builds the program `audala` as target/audala, with a C99 compiler and rustc alone: no crate, no network. Some ten seconds on a free core.
#   cli/build.sh [OUTPUT]
# CC and RUSTC name other compilers.
set -euo pipefail
top=$(cd "$(dirname "$0")/.." && pwd)
out=${1:-$top/target/audala}
cc=${CC:-cc}
rustc=${RUSTC:-rustc}
for compiler in "$cc" "$rustc"; do
    if ! command -v "$compiler" >/dev/null; then
        echo "cli/build.sh: there is no '$compiler' here. CC and RUSTC name other compilers; with a C compiler alone see README.md, 'Try it in a minute'." >&2
        exit 1
    fi
done
mkdir -p "$top/target/cli" "$(dirname "$out")"
echo "building ${out#"$PWD"/}: some ten seconds on a free core" >&2
"$cc" -std=c99 -O2 -fPIC -I"$top/include" -c "$top/dist/audala.c" -o "$top/target/cli/audala.o"
"$rustc" --edition 2024 -C opt-level=2 -C panic=abort --crate-name audala "$top/cli/src/main.rs" -C link-arg="$top/target/cli/audala.o" -o "$out"
