#!/usr/bin/env bash
# Writes dist/audala.c, or the file that is named, from the proved libraries that rt lib leaves in crates/*/out and the kit's own.
set -euo pipefail
top=$(cd "$(dirname "$0")/.." && pwd)
cd "$top"
kit=$(dirname "$(rt doc)")
mkdir -p dist
python3 tools/mir2c "$(rt version)" include/audala.h audala crates/*/out/rlib "$kit"/rlibs/{core,std,std_alloc}.rlib >"${1:-dist/audala.c}"
