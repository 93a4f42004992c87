#!/usr/bin/env bash
# Counts of orders on steps of 13 to 20 commands, which the entry refuses with 24 (02 §14): a copy of dist/audala.c in which the entry's limit alone is another
# answers generated steps, and the second engine too; the lines have to be the same. docs/CASES.md says what the steps are. Not in the gate; half a minute.
#   tools/counts_more.sh [SEED]
set -euo pipefail
top=$(cd "$(dirname "$0")/.." && pwd)
seed=${1:-14}
work=$(mktemp -d)
trap 'rm -rf "$work"' EXIT

stop() {
    echo "counts_more: $1" >&2
    exit 1
}

# The limit: the one comparison with 12 in the functions of count_images.
limit='UINT64_C\(12\) < l[0-9]+\)'
lines=$(awk -v limit="$limit" '/^[a-z].*[ *]count_images__[a-z_]*\(/ { inside = !/;$/ } /^}/ { inside = 0 } inside && $0 ~ limit { print NR }' "$top/dist/audala.c")
[ "$(wc -w <<<"$lines")" = 1 ] || stop "the limit of count_images is not in dist/audala.c exactly once: $(wc -w <<<"$lines") lines"
sed "${lines}s/UINT64_C(12)/UINT64_C(20)/" "$top/dist/audala.c" >"$work/audala.c"
[ "$(diff "$top/dist/audala.c" "$work/audala.c" | grep -c '^>')" = 1 ] || stop "more than the limit was changed"
"${CC:-cc}" -std=c99 -O2 -I"$top/include" "$work/audala.c" "$top/tools/cases.c" -o "$work/cases"

cargo build --quiet --offline --release --jobs 1 --manifest-path "$top/second/Cargo.toml"
second=${CARGO_TARGET_DIR:-$top/second/target}/release/second
"$second" more "$seed" >"$work/cases.bin"
"$second" counts answers <"$work/cases.bin" >"$work/refused.txt"
"$second" more answers <"$work/cases.bin" >"$work/second.txt"
"$work/cases" <"$work/cases.bin" >"$work/engine.txt"

# Lines of an awk condition.
of() {
    awk "$1 { n++ } END { print n + 0 }" "$work/second.txt"
}
steps=$(of 1)
disagreeing=$(of '($3 > 0) + ($4 > 0) + ($5 > 0) > 1')
[ "$(grep -c '^count 24 0 0 0 ' "$work/refused.txt")" = "$steps" ] || stop "a step has at most 12 commands"
[ "$(of '$2 == 0')" = "$steps" ] || stop "a step is refused"
[ "$steps" -ge 200 ] || stop "there are $steps steps alone"
[ "$disagreeing" -ge 50 ] || stop "of $disagreeing steps alone the orders disagree"
if ! cmp -s "$work/second.txt" "$work/engine.txt"; then
    paste -d '|' "$work/second.txt" "$work/engine.txt" | awk -F '|' '$1 != $2 { print NR ": " $1 " | " $2 }' | head -n 10 >&2
    stop "the counts differ (line: second | engine)"
fi
echo "counts_more: $steps steps agree, $(awk '{ n += $3 + $4 + $5 } END { print n }' "$work/engine.txt") orders; of $disagreeing the orders disagree, of $(of '$5 > 0') some stop"
