"""python3 tools/mir2c/test.py: every operation at every width against arithmetic on whole numbers, the forms of a function, and that no other form is written.

The functions under test are MIR made here. They are translated, compiled as C99 with the address and undefined-behaviour sanitizers and called from C."""
import copy
import importlib.util
import os
import pathlib
import subprocess
import sys
import tempfile
import unittest

HERE = pathlib.Path(__file__).parent
sys.path.insert(0, str(HERE))
spec = importlib.util.spec_from_file_location("mir2c", HERE / "__main__.py")
mir2c = importlib.util.module_from_spec(spec)
spec.loader.exec_module(mir2c)
Unknown = mir2c.Unknown

COMPILE = ["gcc", "-std=c99", "-pedantic", "-Wall", "-Wextra", "-Werror", "-O1", "-fsanitize=address,undefined", "-fno-sanitize-recover=all"]
U64, BOOL = {"Int": 64}, "Bool"
VALUE = {"name": "t::Value", "lifetimes": 0, "bounds": [], "shape": {"Fields": [U64]}}


def int_(width):
    return {"Int": width}


def copy_of(i, *steps):
    return {"Copy": {"local": i, "steps": list(steps)}}


def const(value, width=64):
    return {"Int": {"width": width, "value": value}}


def put(i, value, *steps):
    return {"Assign": [{"local": i, "steps": list(steps)}, value]}


def cast(sign, width, operand):
    return {"Op1": [{"Cast": [sign, "Unsigned", width]}, operand]}


def op2(op, a, b):
    return {"Op2": [op, a, b]}


def named(name):
    return {"Named": {"name": name, "lifetimes": []}}


def slice_of(t, kind="Imm"):
    return {"Struct": ["&[]", [{"Ref": ["Erased", kind, t]}, U64]]}


def sequence(*statements):
    """Statements in a row: Seq before each but the last."""
    out = []
    for s in statements[:-1]:
        out += ["Seq", *(s if isinstance(s, list) else [s])]
    last = statements[-1]
    return out + (last if isinstance(last, list) else [last])


def function(params, locals_, *statements, types=()):
    """A function that answers t::Value: local 0, then parameters, then its own."""
    held = [named("t::Value"), *params, *locals_]
    return {
        "lifetimes": 0, "outlives": [], "params": len(params), "types": [VALUE, *types],
        "locals": [{"ty": t, "home": "ValueLocal"} for t in held], "body": sequence(*statements, "Return"),
    }  # fmt: skip


def answer(operand):
    return put(0, {"Aggregate": [operand]})


def computed(width, value, result=None, types=None):
    """Both parameters at a width, a value of locals 3 and 4 in local 5, and that as 64 bits."""
    kept = result or int_(width)
    locals_ = types or [int_(width), int_(width), kept, U64]
    return function(
        [U64, U64], locals_,
        put(3, cast("Unsigned", width, copy_of(1))), put(4, cast("Unsigned", width, copy_of(2))), put(5, value),
        put(6, cast("Unsigned", 64, copy_of(5))), answer(copy_of(6)),
    )  # fmt: skip


def signed(x, w):
    return x - (1 << w) if x >> (w - 1) else x


def toward_zero(a, b):
    q = abs(a) // abs(b)
    return q if (a < 0) == (b < 0) else -q


# Name of an operation, its MIR, its meaning on unsigned numbers of w bits, and when it is asked.
always, divisor, shift = (lambda a, b, w: True), (lambda a, b, w: b != 0), (lambda a, b, w: b < w)
OPERATIONS = {
    "add": ({"Add": "Unsigned"}, lambda a, b, w: a + b, always),
    "sub": ({"Sub": "Signed"}, lambda a, b, w: a - b, always),
    "mul": ({"Mul": "Unsigned"}, lambda a, b, w: a * b, always),
    "div": ({"Div": "Unsigned"}, lambda a, b, w: a // b, divisor),
    "rem": ({"Rem": "Unsigned"}, lambda a, b, w: a % b, divisor),
    "sdiv": ({"Div": "Signed"}, lambda a, b, w: toward_zero(signed(a, w), signed(b, w)), divisor),
    "srem": ({"Rem": "Signed"}, lambda a, b, w: signed(a, w) - signed(b, w) * toward_zero(signed(a, w), signed(b, w)), divisor),
    "and": ("And", lambda a, b, w: a & b, always),
    "or": ("Or", lambda a, b, w: a | b, always),
    "xor": ("Xor", lambda a, b, w: a ^ b, always),
    "shl": ("Shl", lambda a, b, w: a << b, shift),
    "shr": ({"Shr": "Unsigned"}, lambda a, b, w: a >> b, shift),
    "wrap": ("WrapAdd", lambda a, b, w: a + b, always),
}
TESTS = {
    "eq": ("Eq", lambda a, b, w: a == b),
    "ne": ("Ne", lambda a, b, w: a != b),
    "lt": ({"Lt": "Unsigned"}, lambda a, b, w: a < b),
    "le": ({"Le": "Unsigned"}, lambda a, b, w: a <= b),
    "slt": ({"Lt": "Signed"}, lambda a, b, w: signed(a, w) < signed(b, w)),
    "sle": ({"Le": "Signed"}, lambda a, b, w: signed(a, w) <= signed(b, w)),
}
WIDTHS = (8, 16, 32, 64)


def corners(w):
    top = 1 << w
    return sorted({0, 1, 2, 3, 7, w - 1, top // 2 - 1, top // 2, top // 2 + 1, top - 2, top - 1, 200 % top, 54321 % top})


def arithmetic():
    """Functions by name, and calls with what each must answer."""
    functions, calls = {}, []
    for w in WIDTHS:
        pairs = [(a, b) for a in corners(w) for b in corners(w)]
        for name, (op, meaning, asked) in OPERATIONS.items():
            functions[f"t_{name}_{w}"] = computed(w, op2(op, copy_of(3), copy_of(4)))
            calls += [(f"t_{name}_{w}", a, b, meaning(a, b, w) % (1 << w)) for a, b in pairs if asked(a, b, w)]
        for name, (op, meaning) in TESTS.items():
            functions[f"t_{name}_{w}"] = computed(w, op2(op, copy_of(3), copy_of(4)), BOOL)
            calls += [(f"t_{name}_{w}", a, b, int(meaning(a, b, w))) for a, b in pairs]
        functions[f"t_not_{w}"] = computed(w, {"Op1": ["Not", copy_of(3)]})
        calls += [(f"t_not_{w}", a, 0, ~a % (1 << w)) for a in corners(w)]
        for to in WIDTHS:
            functions[f"t_signed_{w}_{to}"] = computed(w, cast("Signed", to, copy_of(3)), int_(to))
            calls += [(f"t_signed_{w}_{to}", a, 0, signed(a, w) % (1 << to)) for a in corners(w)]
    return functions, calls


CHOICE = {"name": "t::Choice", "lifetimes": 0, "bounds": [], "shape": {"Variants": [[], [U64], [int_(8), U64]]}}
PAIR = {"name": "t::Pair", "lifetimes": 0, "bounds": [], "shape": {"Fields": [U64, U64]}}
RECORD = {"name": "t::Record", "lifetimes": 0, "bounds": [], "shape": {"Fields": [BOOL]}}
TAG = [{"Variant": 0}, {"Field": 0}]
ARRAY = {"Array": [U64, {"Lit": 6}]}


def sums():
    """The kit's wrapping sum at every width, which is shortened, and one that is off by one, which is not; each is called at its width."""
    functions, calls = {}, []
    for w in WIDTHS:
        right = mir2c.idioms.wrapping_sum(w)
        wrong = [s if s != right[11] else put(5, {"Opd": copy_of(7)}) for s in right]
        for name, body, off in (("right", right, 0), ("wrong", wrong, 1)):
            number = int_(w)
            callee = {**computed(w, None), "params": 2, "types": [], "body": body}
            callee["locals"] = [{"ty": t, "home": "ValueLocal"} for t in (number, number, number, number, BOOL, number, number, number)]
            functions[f"{name}_{w}"] = callee
            caller = computed(w, None)
            caller["body"][caller["body"].index(put(5, None))] = {"Call": [{"Direct": f"t::{name}_{w}"}, [copy_of(3), copy_of(4)], {"local": 5, "steps": []}]}
            functions[f"t_{name}_{w}"] = caller
            calls += [(f"t_{name}_{w}", a, b, (a + b + (off if a + b >> w else 0)) % (1 << w)) for a in corners(w) for b in corners(w)]
    return functions, calls


def forms():
    """Functions of the forms that are no arithmetic, with calls."""
    negated = computed(8, {"Op1": ["Not", copy_of(7)]}, types=[int_(8), int_(8), BOOL, U64, BOOL])
    negated["body"] = sequence(put(3, cast("Unsigned", 8, copy_of(1))), put(7, op2("Eq", copy_of(3), const(0, 8))),
                               put(5, {"Op1": ["Not", copy_of(7)]}), put(6, cast("Unsigned", 64, copy_of(5))), answer(copy_of(6)), "Return")  # fmt: skip
    swapped = function([U64, U64], [named("t::Pair"), U64], put(3, {"Aggregate": [copy_of(1), copy_of(2)]}),
                       put(3, {"Aggregate": [copy_of(3, {"Field": 1}), copy_of(3, {"Field": 0})]}),
                       put(4, op2({"Sub": "Unsigned"}, copy_of(3, {"Field": 0}), copy_of(3, {"Field": 1}))), answer(copy_of(4)), types=[PAIR])  # fmt: skip
    # counts down from the first by ones, adding the second
    looped = function([U64, U64], [U64, U64, BOOL], put(3, {"Opd": copy_of(1)}), put(4, {"Opd": const(0)}),
                      ["Block", "Loop", *sequence(put(5, op2("Eq", copy_of(3), const(0))), [{"If": copy_of(5)}, {"Exit": 1}, "Skip"],
                                                  put(3, op2({"Sub": "Unsigned"}, copy_of(3), const(1))),
                                                  put(4, op2({"Add": "Unsigned"}, copy_of(4), copy_of(2))))], answer(copy_of(4)))  # fmt: skip
    chosen = function(
        [U64, U64], [named("t::Choice"), U64, int_(8)], put(5, cast("Unsigned", 8, copy_of(2))),
        [{"Switch": [copy_of(1), [[0], [1, 7]], True]}, put(3, {"Aggregate": [const(0, 8)]}), put(3, {"Aggregate": [const(1, 8), copy_of(2)]}),
         put(3, {"Aggregate": [const(2, 8), copy_of(5), copy_of(1)]})],
        [{"Switch": [copy_of(3, *TAG), [[0], [1], [2]], False]}, put(4, {"Opd": const(1000)}), put(4, {"Opd": copy_of(3, {"Variant": 1}, {"Field": 1})}),
         put(4, op2({"Add": "Unsigned"}, copy_of(3, {"Variant": 2}, {"Field": 2}), const(5)))],
        answer(copy_of(4)), types=[CHOICE],
    )  # fmt: skip
    # an element of an array made of constants, and one of an array of a value repeated, by its place
    table = function([U64, U64], [ARRAY, "Ptr", U64, ARRAY], put(3, {"Aggregate": [const(k * k) for k in range(6)]}), put(6, {"Repeat": [copy_of(2), 6]}),
                     put(4, {"AddrOf": {"local": 3, "steps": []}}), put(5, op2({"Mul": "Unsigned"}, copy_of(1), const(8))),
                     put(4, op2("Offset", copy_of(4), copy_of(5))), put(5, {"Opd": copy_of(4, {"Deref": U64})}),
                     put(4, {"AddrOf": {"local": 6, "steps": []}}), put(5, op2({"Add": "Unsigned"}, copy_of(5), copy_of(4, {"Deref": U64}))),
                     answer(copy_of(5)))  # fmt: skip
    # an array made of constants whose first element is written, the same as one lent shared, which is a constant of the C text
    changed = function([U64, U64], [ARRAY, "Ptr", U64], put(3, {"Aggregate": [const(k) for k in range(6)]}), put(4, {"AddrOf": {"local": 3, "steps": []}}),
                       put(4, {"Opd": copy_of(1)}, {"Deref": U64}), put(5, op2({"Add": "Unsigned"}, copy_of(4, {"Deref": U64}), copy_of(2))),
                       answer(copy_of(5)))  # fmt: skip
    reference = {"Ref": ["Erased", "Imm", ARRAY]}
    lent = function([U64, U64], [ARRAY, reference, slice_of(U64), "Ptr", U64, U64], put(3, {"Aggregate": [const(k * 3) for k in range(6)]}),
                    put(4, {"AddrOf": {"local": 3, "steps": []}}), put(5, {"Aggregate": [copy_of(4), const(6)]}),
                    put(7, op2({"Mul": "Unsigned"}, copy_of(1), const(8))), put(6, op2("Offset", copy_of(5, {"Field": 0}), copy_of(7))),
                    put(8, op2({"Add": "Unsigned"}, copy_of(6, {"Deref": U64}), copy_of(2))), answer(copy_of(8)))  # fmt: skip
    functions = {"t_changed": changed, "t_lent": lent, "t_negated": negated, "t_swapped": swapped, "t_looped": looped, "t_chosen": chosen, "t_table": table}
    calls = [("t_negated", 0, 0, 0), ("t_negated", 3, 0, 1), ("t_swapped", 3, 10, 7), ("t_looped", 5, 3, 15), ("t_looped", 0, 3, 0), ("t_table", 4, 100, 116)]
    calls += [("t_changed", 70, 7, 77), ("t_lent", 5, 100, 115), ("t_chosen", 0, 9, 1000), ("t_chosen", 1, 9, 9), ("t_chosen", 7, 8, 8), ("t_chosen", 5, 9, 10)]
    return functions, calls


NESTED = {"name": "t::Nested", "lifetimes": 0, "bounds": [], "shape": {"Fields": [named("t::Pair"), int_(8), ARRAY, named("t::Choice")]}}


def placed():
    """Functions that answer a pair, one of them calls itself and another, one with much memory, and their caller; a struct in another that is copied and taken apart."""
    pair, number, flag = named("t::Pair"), [U64, U64], {"local": 5, "steps": []}

    def answering(result, params, locals_, *statements):
        return {**function(params, locals_, *statements, types=[PAIR]), "locals": [{"ty": t, "home": "ValueLocal"} for t in (result, *params, *locals_)]}

    here = answering(pair, number, [], put(0, {"Aggregate": [copy_of(2), copy_of(1)]}))
    # down to (0, b + a) by ones
    below = answering(pair, number, [], put(0, {"Aggregate": [copy_of(1), copy_of(2)]}))
    again = answering(pair, number, [BOOL, U64, U64], put(3, op2("Eq", copy_of(1), const(0))),
                      [{"If": copy_of(3)}, {"Call": [{"Direct": "t::below"}, [copy_of(1), copy_of(2)], {"local": 0, "steps": []}]},
                       *sequence(put(4, op2({"Sub": "Unsigned"}, copy_of(1), const(1))), put(5, op2({"Add": "Unsigned"}, copy_of(2), const(1))),
                                 {"Call": [{"Direct": "t::again"}, [copy_of(4), copy_of(5)], {"local": 0, "steps": []}]})])  # fmt: skip
    large = answering(U64, number, [{"Array": [U64, {"Lit": 600}]}, "Ptr"], put(3, {"Repeat": [copy_of(1), 600]}),
                      put(4, {"AddrOf": {"local": 3, "steps": []}}), put(0, op2({"Add": "Unsigned"}, copy_of(4, {"Deref": U64}), copy_of(2))))  # fmt: skip
    called = function(number, [pair, pair, U64, U64], {"Call": [{"Direct": "t::here"}, [copy_of(1), copy_of(2)], {"local": 3, "steps": []}]},
                      {"Call": [{"Direct": "t::again"}, [copy_of(3, {"Field": 0}), copy_of(3, {"Field": 1})], {"local": 4, "steps": []}]},
                      {"Call": [{"Direct": "t::large"}, [copy_of(4, {"Field": 1}), copy_of(1)], flag]}, answer(copy_of(5)), types=[PAIR])  # fmt: skip
    nested = named("t::Nested")
    copied = function(number, [pair, ARRAY, named("t::Choice"), int_(8), nested, nested, U64], put(3, {"Aggregate": [copy_of(1), copy_of(2)]}),
                      put(4, {"Repeat": [copy_of(2), 6]}), put(5, {"Aggregate": [const(1, 8), copy_of(1)]}), put(6, cast("Unsigned", 8, copy_of(2))),
                      put(7, {"Aggregate": [copy_of(3), copy_of(6), copy_of(4), copy_of(5)]}), put(8, {"Opd": copy_of(7)}),
                      put(7, {"Opd": const(0)}, {"Field": 0}, {"Field": 1}),
                      put(9, op2({"Mul": "Unsigned"}, copy_of(8, {"Field": 0}, {"Field": 1}), const(1000))),
                      put(6, {"Opd": copy_of(8, {"Field": 1})}), put(1, cast("Unsigned", 64, copy_of(6))),
                      put(9, op2({"Add": "Unsigned"}, copy_of(9), copy_of(1))),
                      put(9, op2({"Add": "Unsigned"}, copy_of(9), copy_of(8, {"Field": 3}, {"Variant": 1}, {"Field": 1}))), answer(copy_of(9)),
                      types=[PAIR, CHOICE, NESTED])  # fmt: skip
    functions = {"here": here, "below": below, "again": again, "large": large, "t_called": called, "t_copied": copied}
    return functions, [("t_called", 3, 4, 10), ("t_called", 0, 0, 0), ("t_copied", 5, 7, 7012), ("t_copied", 9, 300, 300 * 1000 + 44 + 9)]


def header(functions, parameters="uint64_t a, uint64_t b"):
    declared = "".join(f"t_value {name}({parameters});\n" for name in functions if name.startswith("t_"))
    return f"#include <stddef.h>\n#include <stdint.h>\ntypedef struct {{\n    uint64_t value; /* the result */\n}} t_value;\n{declared}"


def written(functions, head=None):
    return "\n".join(mir2c.translated("a kit", head or header(functions), "t", {f"t::{name}": f for name, f in functions.items()})) + "\n"


def ran(functions, calls):
    """What the calls answer, of the compiled text."""
    with tempfile.TemporaryDirectory() as work:
        work = pathlib.Path(work)
        (work / "t.h").write_text(header(functions))
        (work / "t.c").write_text(written(functions))
        rows = "".join(f"    {{ {name}, UINT64_C({a}), UINT64_C({b}) }},\n" for name, a, b, _ in calls)
        (work / "main.c").write_text(
            '#include "t.h"\n#include <stdio.h>\nstatic const struct { t_value (*f)(uint64_t, uint64_t); uint64_t a, b; } calls[] = {\n' + rows + "};\n"
            "int main(void) { for (size_t i = 0; i < sizeof calls / sizeof *calls; i++)"
            ' printf("%llu\\n", (unsigned long long)calls[i].f(calls[i].a, calls[i].b).value); return 0; }\n')  # fmt: skip
        subprocess.run([*COMPILE, f"-I{work}", work / "t.c", work / "main.c", "-o", work / "t"], check=True)
        return [int(line) for line in subprocess.run([work / "t"], check=True, stdout=subprocess.PIPE).stdout.split()]


class Runs(unittest.TestCase):
    def compared(self, functions, calls):
        got = ran(functions, calls)
        self.assertEqual(len(got), len(calls))
        wrong = [(*call, value) for call, value in zip(calls, got) if call[3] != value]
        self.assertEqual(wrong[:5], [])

    def test_arithmetic(self):
        functions, calls = arithmetic()
        self.assertGreater(len(calls), 5000)
        self.compared(functions, calls)

    def test_promotions(self):
        """Small numbers are computed as unsigned ones of 32 bits: C would take them to a signed type, and gcc's sanitizer does not see the product of two."""
        text = written(arithmetic()[0])
        for w in (8, 16):
            for sign in "+-*/%&|^":
                self.assertIn(f"(uint{w}_t)((uint32_t)l3 {sign} (uint32_t)l4);", text)
            for sign in ("<<", ">>"):
                self.assertIn(f"(uint{w}_t)((uint32_t)l3 {sign} l4);", text)

    def test_forms(self):
        functions, calls = forms()
        text = written(functions)
        self.assertEqual(("t__t_lent__l3 = {" in text, "t__t_changed__l3 = {" in text), (True, False))
        self.compared(functions, calls)

    def test_placed(self):
        """A function that answers two words is expanded in place, unless it calls itself; one that such a function calls where it is short and code is to be small; one
        with 4,800 bytes is kept apart. A struct is copied field by field, an array or an enum in it whole."""
        functions, calls = placed()
        text = written(functions)
        for word, result, name in (("RT_HERE", "struct t__Pair", "here"), ("RT_SHORT", "struct t__Pair", "below"), ("inline", "struct t__Pair", "again"),
                                   ("RT_APART", "uint64_t", "large")):  # fmt: skip
            self.assertEqual((name, text.count(f"static {word} {result} t__{name}(")), (name, 2))
        for part in (".f0.f0", ".f0.f1", ".f1", ".f2", ".f3"):
            self.assertEqual(text.count(f"    l8{part} = l7{part};\n"), 1)
        self.assertNotIn("l8 = l7;", text)
        self.compared(functions, calls)

    def test_sums(self):
        functions, calls = sums()
        text = written(functions)
        short = "_16(uint16_t l1, uint16_t l2)\n{\n    uint16_t l0;\n    l0 ="
        self.assertEqual((text.count("t__right" + short), text.count("t__wrong" + short)), (1, 0))
        self.compared(functions, calls)


def good():
    """A function of two numbers to change."""
    return computed(64, op2({"Add": "Unsigned"}, copy_of(3), copy_of(4)))


class Refusals(unittest.TestCase):
    """Everything that is not known is refused by its name, and nothing is written."""

    def refused(self, functions, word, head=None):
        with self.assertRaisesRegex(Unknown, word):
            written(functions, head)

    def changed(self, word, change):
        f = good()
        written({"t_f": f})
        change(f)
        self.refused({"t_f": f}, word)

    def body(self, word, *statements):
        self.changed(word, lambda f: f.update(body=sequence(*statements, "Return")))

    def test_values(self):
        for op in ({"Shr": "Signed"}, "FloatAdd", {"Add": "Saturating"}, "Rotate", {"Shl": "Unsigned"}, {"Eq": "Signed"}):
            self.body("operation|Shl|Eq", put(3, op2(op, copy_of(1), copy_of(2))), answer(copy_of(3)))
        self.body("operation", put(3, {"Op1": ["Neg", copy_of(1)]}), answer(copy_of(3)))
        self.body("operation", put(3, {"Op1": [{"FloatToFloat": 64}, copy_of(1)]}), answer(copy_of(3)))
        self.body("value", put(3, {"Discriminant": copy_of(1)}), answer(copy_of(3)))
        self.body("operand", put(3, {"Opd": {"Move": {"local": 1, "steps": []}}}), answer(copy_of(3)))
        self.body("step", put(3, {"Opd": copy_of(1, {"Index": 2})}), answer(copy_of(3)))
        self.body("step", put(3, {"Opd": copy_of(1, {"Deref": U64})}), answer(copy_of(3)))
        self.body("uint8_t for uint64_t", put(3, {"Opd": "True"}), answer(copy_of(3)))

    def test_statements(self):
        self.body("statement", {"Foreign": {"symbol": "abort", "signs": []}}, answer(const(0)))
        self.body("statement", {"Exit": 1}, answer(const(0)))
        self.body("statement", ["Block", "Loop", {"Exit": 2}], answer(const(0)))
        self.body("call", {"Call": [{"Indirect": copy_of(1)}, [], {"local": 0, "steps": []}]})
        self.body("a call", {"Call": [{"Direct": "t::absent"}, [], {"local": 0, "steps": []}]})
        self.body("t::t_f: ", [{"Switch": [copy_of(1), [[0], [1]], False]}, "Skip", "Skip"], answer(const(0)))
        self.changed("more behind", lambda f: f["body"].append("Skip"))
        self.changed("t::t_f: ", lambda f: f["body"].pop())

    def test_types(self):
        odd = {"name": "t::Odd", "lifetimes": 0, "bounds": [], "shape": {"Variants": [[int_(32)], [int_(8), int_(16)]]}}

        def local(t, *types):
            def change(f):
                f["locals"][3]["ty"] = t
                f["types"] += types
            return change  # fmt: skip

        self.changed("type", local({"Float": 64}))
        self.changed("type", local({"Int": 128}))
        self.changed("type", local({"Struct": ["()", [U64, U64]]}))
        self.changed("no shape", local(named("t::Absent")))
        self.changed("size of an element", local(slice_of(named("t::Odd")), odd))
        self.changed("size of an element", local({"Array": [named("t::Odd"), {"Lit": 3}]}, odd))
        self.changed("two shapes", lambda f: f["types"].append({**VALUE, "shape": {"Fields": [int_(8)]}}))

    def test_today(self):
        """What today's MIR adds to a call, a type and a function is taken off, or refused where it says something."""
        known, place = mir2c.forms.known, {"local": 1, "steps": []}
        given = {"types": [], "dicts": []}
        f = function([], [{"Ref": ["Erased", "Imm", {"Array": [int_(8), {"Lit": 3}]}]}], {"Call": [{"Fn": ["t::g", given]}, [], place]})
        f["locals"][0]["ty"] = {"Named": [{"name": "t::Value", "lifetimes": []}, []]}
        self.assertEqual((known(f)["body"][1]["Call"][0], known(f)["locals"][0]["ty"]), ({"Direct": "t::g"}, named("t::Value")))
        for wrong in ({"types": [U64], "dicts": []}, {"types": [], "dicts": [0]}):
            f["body"][1] = {"Call": [{"Fn": ["t::g", wrong]}, [], place]}
            self.assertRaisesRegex(Unknown, "types or bounds", known, f)
        f["body"][1] = {"LendStatic": [place, {"Array": [int_(8), {"Lit": 3}]}, {"Ints": {"width": 8, "values": [7, 8, 9]}}]}
        lent = known(f)
        self.assertEqual(lent["body"][1:4], [put(2, {"Aggregate": [const(b, 8) for b in (7, 8, 9)]}), "Seq", put(1, {"AddrOf": {"local": 2, "steps": []}})])
        self.assertEqual(lent["locals"][2]["ty"], {"Array": [int_(8), {"Lit": 3}]})
        f["body"][1] = {"LendStatic": [place, {"Array": [BOOL, {"Lit": 3}]}, {"Bools": []}]}
        self.assertRaisesRegex(Unknown, "a table of Bools", known, f)

    def test_instances(self):
        """A function is given as many types and bounds as it declares, a method is one of an impl that is declared, and no bound is left open."""
        given, place, kind = {"types": [U64], "dicts": []}, {"local": 3, "steps": []}, {"is_copy": True, "is_kept": False, "const_bits": None}
        generic = {**function([], [{"Param": 0}]), "generics": {"types": [kind], "bounds": [], "method_of": None, "impls": []}}
        impl = {"name": "t::I", "of": {"of": "t::T", "lifetimes": [], "types": [U64]}, "types": [], "bounds": [], "methods": ["t::m"]}
        method = {**function([U64], []), "generics": {**generic["generics"], "types": [], "method_of": {"Impl": ["t::I", 0]}, "impls": [impl]}}
        method["locals"][0] = {"ty": U64, "home": "ValueLocal"}
        method["body"] = sequence(put(0, {"Opd": copy_of(1)}), "Return")
        functions = {"g": generic, "m": method}

        def calling(callee):
            f = good()
            f["body"] = sequence({"Call": [callee, [copy_of(1)], place]}, answer(copy_of(3)), "Return")
            return {**functions, "t_f": f}

        impl_of = {"Impl": ["t::I", [], []]}
        self.assertEqual(ran(calling({"Method": [impl_of, 0, {"types": [], "dicts": []}]}), [("t_f", 5, 6, 5)]), [5])
        self.refused(calling({"Fn": ["t::g", {"types": [], "dicts": []}]}), "t::g with 0 types")
        self.refused(calling({"Fn": ["t::g", {"types": [U64, U64], "dicts": []}]}), "t::g with 2 types")
        self.refused(calling({"Fn": ["t::g", {"types": [U64], "dicts": [impl_of]}]}), "t::g with 1 types and 1 bounds")
        self.refused(calling({"Fn": ["t::absent", given]}), "t::absent, no function")
        self.refused(calling({"Method": [impl_of, 1, {"types": [], "dicts": []}]}), "method 1 of t::I")
        self.refused(calling({"Method": [{"Impl": ["t::J", [], []]}, 0, {"types": [], "dicts": []}]}), "no impl t::J")
        self.refused(calling({"Method": [{"Dynamic": 0}, 0, {"types": [], "dicts": []}]}), "a call")
        functions["m"]["generics"]["method_of"] = {"Impl": ["t::I", 1]}
        self.refused(calling({"Method": [impl_of, 0, {"types": [], "dicts": []}]}), "method 0 of t::I")

    def test_headers(self):
        f, lent = good(), function([slice_of(U64)], [U64], put(2, {"Opd": copy_of(1, {"Field": 1})}), answer(copy_of(2)))
        two = header(["t_f"]).replace("uint64_t value;", "uint64_t value; uint64_t more;")
        self.refused({"t_f": f}, "t_value", two)
        self.refused({"t_f": f}, "t_value", header(["t_f"]).replace("uint64_t value", "uint32_t value"))
        self.refused({"t_f": f, "t_g": f}, "declares no t_g", header(["t_f"]))
        self.refused({"t_f": f}, "0 functions", header(["t_f", "t_g"]))
        self.refused({"t_f": f}, "parameter", header(["t_f"], "uint64_t a, uint32_t b"))
        self.refused({"t_f": f}, "parameters left", header(["t_f"], "uint64_t a, uint64_t b, uint64_t c"))
        written({"t_f": lent}, header(["t_f"], "const uint64_t *a, size_t n"))
        self.refused({"t_f": lent}, "slice", header(["t_f"], "uint64_t *a, size_t n"))
        self.refused({"t_f": lent}, "slice", header(["t_f"], "const uint8_t *a, size_t n"))

    def test_program(self):
        """An unknown form ends the program with status 1 and no output; the same input gives the same bytes."""
        with tempfile.TemporaryDirectory() as work:
            work = pathlib.Path(work)
            library = work / "libraries" / "t.rlib" / "toolchain"
            library.mkdir(parents=True)
            functions = arithmetic()[0]
            (work / "t.h").write_text(header(functions))

            def run(functions, seed):
                (library / "mir.json").write_text(mir2c.json.dumps([[f"t::{name}", f] for name, f in functions.items()]))
                return subprocess.run([sys.executable, HERE, "a kit", work / "t.h", "t", work / "libraries"], env={**os.environ, "PYTHONHASHSEED": seed},
                                      stdout=subprocess.PIPE, stderr=subprocess.PIPE)  # fmt: skip

            first, second = run(functions, "1"), run(dict(reversed(functions.items())), "2")
            self.assertEqual((first.returncode, second.returncode, first.stdout == second.stdout, first.stdout.startswith(b"/* ")), (0, 0, True, True))
            bad = copy.deepcopy(functions)
            bad["t_add_8"]["body"].insert(0, {"Foreign": {}})
            third = run(bad, "1")
            self.assertEqual((third.returncode, third.stdout), (1, b""))
            self.assertIn(b"t::t_add_8", third.stderr)


if __name__ == "__main__":
    unittest.main()
