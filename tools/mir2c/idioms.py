"""Functions that C says shorter, known by their whole MIR, since gcc does not see through them. A function with any other body is translated as it stands.

The kit's wrapping sum of two numbers a and b of w bits, with m = 2^w - 1, is a + b where a <= m - b, else a - (m - b) - 1. Modulo 2^w both are a + b, which is
what the unsigned sum of C is. It stands in the inner loop of a block's sums.

The kit's copy of elements, behind copy_from_slice, goes element by element from the first on. Where the two rooms do not overlap, which is asked, memcpy does the same."""


def local(i):
    return {"local": i, "steps": []}


def wrapping_sum(width):
    """The body of std::num::wrapping_add at a width."""
    a, b, most, one = {"Copy": local(1)}, {"Copy": local(2)}, {"Int": {"width": width, "value": (1 << width) - 1}}, {"Int": {"width": width, "value": 1}}

    def put(i, op, x, y):
        return {"Assign": [local(i), {"Op2": [{op: "Unsigned"}, x, y]}]}

    return [
        "Seq", put(3, "Sub", most, b), "Seq", put(4, "Le", a, {"Copy": local(3)}), "Seq", {"If": {"Copy": local(4)}}, put(5, "Add", a, b),
        "Seq", put(6, "Sub", most, b), "Seq", put(7, "Sub", a, {"Copy": local(6)}), put(5, "Sub", {"Copy": local(7)}, one),
        "Seq", {"Assign": [local(0), {"Opd": {"Copy": local(5)}}]}, "Return",
    ]  # fmt: skip


def copying(t):
    """The body of core::ptr::copy_drop::copy_bits at a type."""
    zero, one = {"Int": {"width": 64, "value": 0}}, {"Int": {"width": 64, "value": 1}}

    def put(i, value, *steps):
        return {"Assign": [{"local": i, "steps": list(steps)}, value]}

    def of(op, x, y):
        return {"Op2": [op, x, y]}

    def copy(i, *steps):
        return {"Copy": {"local": i, "steps": list(steps)}}

    times, there = {"Mul": "Unsigned"}, {"Deref": t}
    return [
        "Seq", put(4, {"Opd": zero}), "Seq", "Block", "Loop", "Seq", put(5, of({"Lt": "Unsigned"}, copy(4), copy(3))),
        "Seq", {"If": copy(5)}, "Skip", {"Exit": 1}, "Seq", "Block", "Seq", put(6, of(times, copy(4), {"SizeOf": t})),
        "Seq", put(7, of("Offset", copy(2), copy(6))), "Seq", put(8, of(times, copy(4), {"SizeOf": t})), "Seq", put(9, of("Offset", copy(1), copy(8))),
        "Seq", put(10, {"Opd": copy(9, there)}), put(7, {"Opd": copy(10)}, there), put(4, of({"Add": "Unsigned"}, copy(4), one)),
        "Seq", put(0, {"Opd": "Unit"}), "Return",
    ]  # fmt: skip


def shortened(function):
    """The function with a body that says the same, or as it is."""
    types = [place["ty"] for place in function["locals"]]
    if function["params"] == 3 and types[:4] == ["Unit", "Ptr", "Ptr", {"Int": 64}] and len(types) == 11 and function["body"] == copying(types[10]):
        return {**function, "body": ["Seq", {"Copied": types[10]}, *function["body"]]}
    width = function["locals"][0]["ty"]
    width = width.get("Int") if isinstance(width, dict) else None
    if function["params"] != 2 or width is None or function["body"] != wrapping_sum(width):
        return function
    total = {"Assign": [local(0), {"Op2": [{"Add": "Unsigned"}, {"Copy": local(1)}, {"Copy": local(2)}]}]}
    return {**function, "body": ["Seq", total, "Return"]}
