#!/usr/bin/env bash
# Holds the trace of generated runs to the runs themselves: what a trace's lines make of the table that a run begins with is the table that the run writes,
# and its last line has the run's number and turns. Not part of the gate.
#
#   trace.sh         10,000 runs that begin
#   trace.sh COUNT   so many
set -euo pipefail

here=$(cd "$(dirname "$0")" && pwd)
top=$(dirname "$here")
(cd "$top" && ${RT-rt} check audala_table >&2)
work=$(mktemp -d)
trap 'rm -rf "$work"' EXIT
gcc -std=c99 -O2 -I"$top/include" "$top/dist/audala.c" "$top/tools/files.c" -o "$work/files"
cargo build --quiet --offline --release --jobs 1 --manifest-path "$top/second/Cargo.toml"
second=${CARGO_TARGET_DIR:-$top/second/target}/release/second
python3 "$here/trace.py" "$second" "$work/files" "$top/target/bin/audala_table" "${1-10000}"
