#!/usr/bin/env bash
# Plants faults in a copy of tools/mir2c, one at a time, and has the gate's steps judge what it makes: its own tests, the compiler, and the committed cases answered through
# audala.h with sanitizers. dist/audala.c is taken to be made anew with the fault in it, so that the comparison with the committed file is no help. Fails if a fault survives
# or does not apply. Needs the proved libraries in crates/*/out (rt lib in crates/audala before). Not part of the gate.
set -euo pipefail
top=$(cd "$(dirname "$0")/.." && pwd)
cd "$top"
work=$(mktemp -d)
trap 'rm -rf "$work"' EXIT
kit=$(dirname "$(rt doc)")
version=$(rt version)
failed=0

# What catches the translator in $work/mir2c, if anything does.
verdict() {
    local by=""
    for tests in test test_copies; do
        python3 "$work/mir2c/$tests.py" >"$work/said" 2>&1 || by="its tests"
    done
    if ! python3 "$work/mir2c" "$version" include/audala.h audala crates/*/out/rlib "$kit"/rlibs/{core,std,std_alloc}.rlib >"$work/audala.c" 2>"$work/said"; then
        by="$by${by:+, }the translator"
    elif ! gcc -std=c99 -Wall -Wextra -Werror -Wno-maybe-uninitialized -pedantic -O1 -fsanitize=address,undefined -fno-sanitize-recover=all -Iinclude tools/cases.c "$work/audala.c" \
        -o "$work/cases" 2>"$work/said"; then
        by="$by${by:+, }the compiler"
    elif ! tools/answer.sh planted "$work/cases" >"$work/said" 2>&1; then
        by="$by${by:+, }the cases"
    fi
    echo "$by"
}

# fault NAME FILE OLD NEW: one text of a file replaced by another.
fault() {
    local said
    rm -rf "$work/mir2c"
    cp -r tools/mir2c "$work/mir2c"
    if ! python3 - "$work/mir2c/$2" "$3" "$4" <<'P'; then
import sys
file, old, new = sys.argv[1:]
text = open(file).read()
sys.exit(1) if text.count(old) != 1 else open(file, "w").write(text.replace(old, new))
P
        said="NOT APPLIED"
    else
        said=$(verdict)
    fi
    echo "$1: ${said:-SURVIVED}"
    case $said in "" | "NOT APPLIED") failed=$((failed + 1)) ;; esac
}

rm -rf "$work/mir2c"
cp -r tools/mir2c "$work/mir2c"
[ -z "$(verdict)" ] || { echo "plant: the steps fail with no fault planted"; exit 1; }

fault "a signed shift" values.py "return f\"({c})(({wide(c)}){a} {'<<'" "return f\"({c})((int{bits(c)}_t){a} {'<<'"
fault "turns and blocks, start and length exchanged" exports.py '.{field} = ({c})r.f{k}"' '.{field} = ({c})r.f{3 - k if k in (1, 2) and len(fields) > 2 else k}"'
fault "number and count exchanged" exports.py '.{field} = ({c})r.f{k}"' '.{field} = ({c})r.f{1 - k if len(fields) == 2 else k}"'
fault "structs and steps exchanged" exports.py '.{field} = ({c})r.f{k}"' '.{field} = ({c})r.f{3 - k if k in (1, 2) and given == '"'"'audala_verdict'"'"' else k}"'
fault "start and length of a part exchanged" exports.py '.{field} = ({c})r.f{k}"' '.{field} = ({c})r.f{3 - k if k in (1, 2) and given == '"'"'audala_part'"'"' else k}"'
fault "two fields of a struct exchanged where they are read" values.py 'return f"{text}.f{k}", held[k]' 'return f"{text}.f{k ^ 1 if len(held) > k ^ 1 and held[k ^ 1] == held[k] else k}", held[k]'
fault "a signed comparison as an unsigned one" values.py 'if sign == "Signed" else ""' 'if sign == "Never" else ""'
fault "a sign that is not extended" values.py 'return extended(text, given, c) if cast[0] == "Signed" else f"({c}){text}"' 'return f"({c}){text}"'
fault "a signed quotient as an unsigned one" values.py 'uint64_t q = rt_size(a) / rt_size(b);' 'uint64_t q = a / b;'
fault "small numbers computed in their own type" values.py 'return "uint64_t" if bits(c) == 64 else "uint32_t"' 'return c'
fault "a truth negated by bits" values.py 'if truth else' 'if False else'
fault "parts of an aggregate written before they are read" body.py 'if any("Deref" in step for step in to["steps"]) or any(' 'if any("Deref" in step for step in to["steps"]) and any('
fault "arms of a switch exchanged" body.py 'for k in arm) for arm in of[1]]' 'for k in arm) for arm in reversed(of[1])]'
fault "an array that is not cleared" body.py 'memset(&{target}, 0, sizeof {target});' 'memset(&{target}, 0, sizeof {target} / 2);'
fault "an array lent to be written taken for a constant" constants.py 'and not self.shared(target):' 'and False:'
fault "a struct copied without its last field" body.py 'for part in (self.parts(t) if word == "Opd" else [""])' 'for part in (self.parts(t)[:-1] or [""] if word == "Opd" else [""])'
fault "fields exchanged where a struct is copied" body.py '= {text}{part};" for part in' '= {text}{self.parts(t)[~self.parts(t).index(part)] if word == "Opd" else part};" for part in'
fault "a slot shared by two fields of a variant" shapes.py 'if slot == c and j not in taken]' 'if slot == c]'
fault "a place that is put anew taken for a steady one" copies.py 'put.get(i, []) == ([] if i <= given else [True])' '(i <= given or put.get(i, [False])[0])'
fault "a place that is lent taken for a steady one" copies.py 'if i not in lent and' 'if'
fault "a second name of another part" copies.py 'place["steps"] + form["steps"]' 'form["steps"] + place["steps"]'
fault "an answer handed on without its last part" body.py 'for part in self.answer_parts(t)], "}"]' 'for part in self.answer_parts(t)[:-1] or [""]], "}"]'
fault "an offset of one too many" values.py 'return f"{a} + (size_t){b}"' 'return f"{a} + (size_t){b} + 1"'
fault "a wrapping sum that is not one" idioms.py '{"Op2": [{"Add": "Unsigned"}' '{"Op2": ["Or"'
fault "a null pointer passed on" exports.py '(p != NULL ? p : &rt_nothing)' '(p)'
echo "plant: $failed faults survive or do not apply"
[ "$failed" -eq 0 ]
