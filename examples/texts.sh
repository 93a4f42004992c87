#!/usr/bin/env bash
# Reads each text of examples/texts and lists its image with the proved programs,
# runs it with dist/audala.c, and holds all of it to the second reader and engine and
# to what the text's .runs file says: for each list of turns the number, the turns
# taken and the last table. The text of the same name in examples/texts/bare, with no
# bracket that is not needed (02 §2), gives the same image. In the gate audala_cases
# reads, checks and runs the same texts, and the .runs files are held to the second
# engine (second/compare.sh); here each proved program has a part, and what it makes
# is compared byte by byte.
#
#   texts.sh        fails where something differs
#   texts.sh write  writes the .runs files anew, for the lists of turns in them
#
# A list of turns is written COUNTxBYTE,BYTE..: so many times those bytes.
set -euo pipefail
here=$(cd "$(dirname "$0")" && pwd)
top=$(dirname "$here")
bin=$top/target/bin
work=$(mktemp -d)
trap 'rm -rf "$work"' EXIT
case ${1-} in
"" | write) ;;
*)
    sed -n 's/^#   //p' "$0" >&2
    exit 2
    ;;
esac

(cd "$top" && ${RT-rt} check audala_text audala_list audala_table audala_cases >&2)
gcc -std=c99 -O2 -I"$top/include" "$top/dist/audala.c" "$top/tools/files.c" -o "$work/files"
cargo build --quiet --offline --release --jobs 1 --workspace --manifest-path "$top/second/Cargo.toml"
second=${CARGO_TARGET_DIR:-$top/second/target}/release

fail() {
    echo "texts: $1" >&2
    exit 1
}

# the bytes of a list of turns
turns() {
    LC_ALL=C awk -v list="$1" 'BEGIN {
        split(list, part, "x"); n = split(part[2], byte, ",")
        for (i = 0; i < part[1]; i++) for (j = 1; j <= n; j++) printf "%c", byte[j]
    }'
}

# a number as four bytes, the lowest first
four() {
    printf "$(printf '\\x%02x\\x%02x\\x%02x\\x%02x' $(($1 & 255)) $(($1 >> 8 & 255)) $(($1 >> 16 & 255)) $(($1 >> 24 & 255)))"
}

# the run in $work as a case (docs/CASES.md), with 1,024 list places and 8,704 output bytes
as_case() {
    printf '\x02'
    four 1024
    four 8704
    for part in program table turns; do
        four "$(wc -c <"$work/$part")"
        cat "$work/$part"
    done
}

# what the run in $work gives, by the proved engine; both engines answer it alike
gives() {
    as_case >"$work/case"
    cmp -s <("$bin/audala_cases" <"$work/case") <("$second/second" <"$work/case") || fail "the engines differ on $1"
    "$work/files" run "$work/program" "$work/table" "$work/turns" "$work/last" >"$work/report" || true
    read -r number taken _ <"$work/report" || fail "no report on $1"
    echo "gives $number $taken"
    "$bin/audala_table" "$work/program" "$work/last"
}

runs=0
for text in "$here"/texts/*.audala; do
    name=$(basename "$text" .audala)
    "$bin/audala_text" <"$text" >"$work/program"
    [ -s "$work/program" ] || fail "$name is not read"
    "$second/text_image" --bare <"$text" | cmp -s - "$work/program" || fail "the images of $name differ"
    "$bin/audala_text" <"$here/texts/bare/$name.audala" | cmp -s - "$work/program" || fail "$name without its brackets is another"
    "$bin/audala_list" <"$work/program" >"$work/listing"
    grep -q '^audala ' "$work/listing" || fail "$name: $(cat "$work/listing")"
    "$second/second" listing <"$work/program" | cmp -s - "$work/listing" || fail "the listings of $name differ"
    "$bin/audala_table" "$work/program" "${text%.audala}.table" "$work/table"
    "$second/second" table "$work/program" "${text%.audala}.table" | cmp -s - "$work/table" || fail "the tables of $name differ"
    "$second/second" table-text "$work/program" "$work/table" | cmp -s - <("$bin/audala_table" "$work/program" "$work/table") ||
        fail "the table of $name is printed otherwise"
    : >"$work/runs"
    while read -r list; do
        turns "$list" >"$work/turns"
        { echo "turns $list"; gives "$name, turns $list"; echo; } >>"$work/runs"
        runs=$((runs + 1))
    done < <(sed -n 's/^turns //p' "${text%.audala}.runs")
    if [ "${1-}" = write ]; then
        cp "$work/runs" "${text%.audala}.runs"
    else
        diff "${text%.audala}.runs" "$work/runs" >&2 || fail "$name gives otherwise than ${name}.runs says"
    fi
done
[ "$runs" -gt 0 ] || fail "there is nothing to run"
echo "texts: $(ls "$here"/texts/*.audala | wc -l) texts, $runs runs, all as written"
