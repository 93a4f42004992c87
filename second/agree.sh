#!/usr/bin/env bash
# Compares the proved engine with the second by their lines on cases
# (docs/CASES.md).
#
#   agree.sh             the committed cases, texts and examples
#   agree.sh SEED COUNT  and COUNT seeded cases and as many texts, in chunks
set -euo pipefail

here=$(cd "$(dirname "$0")" && pwd)
top=$(dirname "$here")
chunk=2000

case $# in
0 | 2) ;;
*)
    sed -n 's/^#   //p' "$0" >&2
    exit 2
    ;;
esac

(cd "$top" && ${RT-rt} check audala_cases >&2)
engine=$top/target/bin/audala_cases
cargo build --quiet --offline --release --jobs 1 --manifest-path "$here/Cargo.toml"
second=${CARGO_TARGET_DIR:-$here/target}/release/second
work=$(mktemp -d)
trap 'rm -rf "$work"' EXIT
total=0

# Answers $work/cases.bin by the engine and compares with the lines of
# $work/expected.txt; $1 says where the cases come from.
agree() {
    "$engine" <"$work/cases.bin" >"$work/engine.txt"
    if ! cmp -s "$work/expected.txt" "$work/engine.txt"; then
        echo "agree: the answers to $1 differ (line: second | engine)" >&2
        paste -d '|' "$work/expected.txt" "$work/engine.txt" |
            awk -F '|' '$1 != $2 { print NR ": " $1 " | " $2 }' | head -n 10 >&2
        exit 1
    fi
    total=$((total + $(wc -l <"$work/engine.txt")))
}

cat "$here/cases/cases.bin" "$here/cases/texts.bin" "$here/cases/examples.bin" >"$work/cases.bin"
cat "$here/cases/expected.txt" "$here/cases/texts.txt" "$here/cases/examples.txt" >"$work/expected.txt"
agree "the committed cases, texts and examples"
seed=${1-0}
left=${2-0}
while [ "$left" -gt 0 ]; do
    count=$((left < chunk ? left : chunk))
    for word in generate texts; do
        "$second" $word "$seed" "$count" >"$work/cases.bin"
        "$second" <"$work/cases.bin" >"$work/expected.txt"
        agree "'second $word $seed $count'"
    done
    left=$((left - count))
    seed=$((seed + 1))
done
echo "agree: $total cases agree"
