#!/usr/bin/env bash
# Proves and builds the programs and puts them into target/bin; rt also runs each once, on an empty input.
set -euo pipefail
top=$(cd "$(dirname "$0")/.." && pwd)
mkdir -p "$top/target/bin"
for name in audala_list audala_text audala_image audala_table audala_cases; do
    (cd "$top/crates/$name" && rt run </dev/null >/dev/null 2>&1) || true
    cp "$top/crates/$name/out/$name" "$top/target/bin/$name"
done
