"""python3 tools/mir2c/test_copies.py: second names, and answers that are handed on.

Each function here answers otherwise where a copy is taken for a second name and is none. They are translated, compiled with the sanitizers and called, as in test.py."""
import unittest

from test import PAIR, TAG, U64, answer, const, copy_of, function, int_, named, op2, put, ran, sequence, written

POINTER = "Ptr"
# An enum that comes back in memory, and one of whose slots one holds a pointer.
ANSWER = {"name": "t::Answer", "lifetimes": 0, "bounds": [], "shape": {"Variants": [[named("t::Pair"), U64], [int_(8)]]}}
LENT = {"name": "t::Lent", "lifetimes": 0, "bounds": [], "shape": {"Variants": [[POINTER, U64, U64], [U64]]}}


def opd(operand):
    return {"Opd": operand}


def address(i):
    return {"AddrOf": {"local": i, "steps": []}}


def copies():
    """Functions of two numbers, with calls."""
    pair = named("t::Pair")
    # the second field of a pair, under three names
    field = function([U64, U64], [pair, U64, U64, pair], put(3, {"Aggregate": [copy_of(1), copy_of(2)]}), put(6, opd(copy_of(3))),
                     put(4, opd(copy_of(6, {"Field": 1}))), put(5, opd(copy_of(4))), answer(copy_of(5)), types=[PAIR])  # fmt: skip
    # a parameter that is put anew after it was copied
    parameter = function([U64, U64], [U64, U64], put(3, opd(copy_of(1))), put(1, opd(copy_of(2))),
                         put(4, op2({"Sub": "Unsigned"}, copy_of(3), copy_of(1))), answer(copy_of(4)))  # fmt: skip
    # a local that is written through a reference after it was copied, and one that is put twice
    lent = function([U64, U64], [U64, U64, POINTER], put(3, op2({"Add": "Unsigned"}, copy_of(1), const(0))), put(5, address(3)), put(4, opd(copy_of(3))),
                    put(5, opd(copy_of(2)), {"Deref": U64}), answer(copy_of(4)))  # fmt: skip
    twice = function([U64, U64], [U64, U64], put(3, opd(copy_of(1))), put(4, opd(copy_of(3))), put(3, opd(copy_of(2))), answer(copy_of(4)))
    # a pair of which one field is put anew after the pair was copied
    part = function([U64, U64], [pair, pair], put(3, {"Aggregate": [copy_of(1), copy_of(2)]}), put(4, opd(copy_of(3))), put(3, opd(const(0)), {"Field": 0}),
                    answer(copy_of(4, {"Field": 0})), types=[PAIR])  # fmt: skip
    # what stands behind a reference, copied before it is written
    behind = function([U64, U64], [U64, POINTER, U64], put(3, opd(copy_of(1))), put(4, address(3)), put(5, opd(copy_of(4, {"Deref": U64}))),
                      put(4, opd(copy_of(2)), {"Deref": U64}), answer(copy_of(5)))  # fmt: skip
    # counts up to the first number by a local that is put once, in a loop, and its second name
    looped = function([U64, U64], [U64, U64, U64, "Bool"], put(3, opd(const(0))),
                      ["Block", "Loop", *sequence(put(6, op2({"Le": "Unsigned"}, copy_of(1), copy_of(3))), [{"If": copy_of(6)}, {"Exit": 1}, "Skip"],
                                                  put(4, op2({"Add": "Unsigned"}, copy_of(3), const(1))), put(5, opd(copy_of(4))),
                                                  put(3, opd(copy_of(5))))], answer(copy_of(3)))  # fmt: skip
    functions = {"t_field": field, "t_parameter": parameter, "t_lent": lent, "t_twice": twice, "t_part": part, "t_behind": behind, "t_looped": looped}
    wanted = {"t_field": 4, "t_parameter": 5, "t_lent": 9, "t_twice": 9, "t_part": 9, "t_behind": 9, "t_looped": 9}
    return functions, [(name, 9, 4, value) for name, value in wanted.items()]


def answers():
    """Functions that hand on what another answers, an enum that comes back in memory, and their callers."""
    number, types = [U64, U64], [PAIR, ANSWER, LENT]

    def answering(result, locals_, *statements):
        return {**function(number, locals_, *statements, types=types), "locals": [{"ty": t, "home": "ValueLocal"} for t in (result, *number, *locals_)]}

    def call(name, i):
        return {"Call": [{"Direct": f"t::{name}"}, [copy_of(1), copy_of(2)], {"local": i, "steps": []}]}

    enum, lent = named("t::Answer"), named("t::Lent")
    # a pair and a number, or a byte where the first is 0
    made = answering(enum, [named("t::Pair"), "Bool"], put(3, {"Aggregate": [copy_of(2), copy_of(1)]}), put(4, op2("Eq", copy_of(1), const(0))),
                     [{"If": copy_of(4)}, put(0, {"Aggregate": [const(1, 8), const(7, 8)]}), put(0, {"Aggregate": [const(0, 8), copy_of(3), copy_of(2)]})])  # fmt: skip
    handed = answering(enum, ["Bool"], put(3, op2({"Lt": "Unsigned"}, copy_of(1), const(5))),
                       [{"If": copy_of(3)}, call("made", 0), put(0, {"Aggregate": [const(1, 8), const(8, 8)]})])  # fmt: skip
    pointing = answering(lent, [], put(0, {"Aggregate": [const(1, 8), copy_of(2)]}))
    passed = answering(lent, [], call("pointing", 0))
    taken = function(number, [enum, U64, lent], call("handed", 3), call("passed", 5),
                     [{"Switch": [copy_of(3, *TAG), [[0], [1]], False]}, put(4, opd(copy_of(3, {"Variant": 0}, {"Field": 1}, {"Field": 1}))),
                      put(4, {"Op1": [{"Cast": ["Unsigned", "Unsigned", 64]}, copy_of(3, {"Variant": 1}, {"Field": 1})]})],
                     put(4, op2({"Add": "Unsigned"}, copy_of(4), copy_of(5, {"Variant": 1}, {"Field": 1}))), answer(copy_of(4)), types=types)  # fmt: skip
    functions = {"made": made, "handed": handed, "pointing": pointing, "passed": passed, "t_taken": taken}
    return functions, [("t_taken", 3, 40, 43), ("t_taken", 0, 40, 47), ("t_taken", 6, 40, 48)]


class Copies(unittest.TestCase):
    def compared(self, functions, calls):
        self.assertEqual([(*call[:3], value) for call, value in zip(calls, ran(functions, calls))], calls)

    def test_second_names(self):
        functions, calls = copies()
        text = written(functions)
        self.assertIn("l0.f0 = l3.f1;", text)
        self.assertIn("l3 = l4;", text)
        self.compared(functions, calls)

    def test_handed_on(self):
        """An enum is taken by tag and slots, one with a pointer whole."""
        functions, calls = answers()
        text = written(functions)
        for part in (".tag", ".s0.f0", ".s0.f1", ".s1", ".s2"):
            self.assertEqual((part, text.count(f"l0{part} = r{part};")), (part, 1))
        self.assertEqual(text.count("l0 = r;"), 1)
        self.compared(functions, calls)


if __name__ == "__main__":
    unittest.main()
