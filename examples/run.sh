#!/usr/bin/env bash
# Builds the C and Rust examples over the static library and runs each pair on P's image or text: their output must be the same. Then the C command of README, the
# trace of its run and, with rule.c, every run of texts/ and tutorial/, over dist/audala.c. The static library is built, unless a folder that holds it is named.
set -euo pipefail
here=$(cd "$(dirname "$0")" && pwd)
top=$(cd "$here/.." && pwd)
work=$(mktemp -d)
trap 'rm -rf "$work"' EXIT
if [ $# -eq 0 ]; then
    "$top/tools/staticlib.sh" >/dev/null
fi
lib=${1:-$top/target/staticlib}
for name in check turns image text; do
    input=$here/sum.program
    [ $name != text ] || input=$here/sum.audala
    gcc -std=c11 -Wall -Wextra -Werror -O2 -I"$top/include" "$here/$name.c" "$lib/libaudala.a" -o "$work/c"
    rustc --edition 2024 -O "$here/$name.rs" -L"native=$lib" -l static=audala -o "$work/rs"
    "$work/c" <"$input" | tee "$work/c.txt"
    "$work/rs" <"$input" >"$work/rs.txt"
    cmp "$work/c.txt" "$work/rs.txt"
done
gcc -std=c99 -O2 -I"$top/include" "$top/dist/audala.c" "$here/first.c" -o "$work/first"
(cd "$top" && "$work/first" examples/sum.audala examples/two.table examples/zeros.turns) | tee "$work/first.txt"
cmp "$work/first.txt" "$here/first.txt"
gcc -std=c99 -Wall -Wextra -Werror -Wno-maybe-uninitialized -O2 -I"$top/include" "$top/dist/audala.c" "$here/rule.c" -o "$work/rule"
for text in "$here"/texts/*.audala "$here"/tutorial/*.audala; do
    name=${text%.audala}
    while read -r list; do
        { echo "turns $list"; "$work/rule" "$text" "$name.table" "$list"; echo; } >>"$work/runs.txt"
    done < <(sed -n 's/^turns //p' "$name.runs")
    cat "$name.runs" >>"$work/wanted.txt"
done
cmp "$work/runs.txt" "$work/wanted.txt"
echo "examples: $(grep -c '^turns ' "$work/runs.txt") runs give what the .runs files say"
gcc -std=c99 -Wall -Wextra -Werror -O2 -I"$top/include" "$top/dist/audala.c" -Wno-maybe-uninitialized "$here/trace.c" -o "$work/trace"
"$work/trace" "$here/sum.program" "$here/two.table" "$here/zeros.turns" >"$work/trace.txt"
cmp "$work/trace.txt" "$here/trace.txt"
gcc -std=c99 -Wall -Wextra -Werror -O2 -I"$top/include" "$here/loop.c" "$lib/libaudala.a" -o "$work/loop"
if "$work/loop" <"$here/sum.program" >"$work/loop.txt"; then
    echo "examples: the loop does not come to its stop" >&2
    exit 1
fi
tail -n 1 "$work/loop.txt" | tee "$work/stop.txt"
grep -q '^round 28: a result lies outside its type' "$work/stop.txt"
echo "examples: both agree, and the example over dist/audala.c prints what it should"
