#!/usr/bin/env bash
# Proves and builds the exports and puts them where a linker looks for them: target/staticlib/libaudala.a.
set -euo pipefail
top=$(cd "$(dirname "$0")/.." && pwd)
(cd "$top/crates/audala_c" && rt lib)
mkdir -p "$top/target/staticlib"
cp "$top/crates/audala_c/out/libaudala_c.a" "$top/target/staticlib/libaudala.a"
