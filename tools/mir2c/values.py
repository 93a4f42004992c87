"""Places, operands and what is computed of them, as C text.

No operation is left to C's promotions: operands are taken to 32 or 64 unsigned bits and the result back to its width, so that nothing overflows a signed
type and every shift is one of an unsigned number. Locals are l0, l1, ..; l0 is the result."""
from shapes import POINTER, SLICE, UNIT, Unknown, one

# Operations whose bits do not ask for the sign of their operands.
BITS = {"Add": "+", "Sub": "-", "Mul": "*", "And": "&", "Or": "|", "Xor": "^"}
TESTS = {"Eq": "==", "Ne": "!=", "Lt": "<", "Le": "<="}
RATIOS = {"Div": "/", "Rem": "%"}

# Signed quotient and remainder, which round toward zero, on numbers of 64 bits in two's complement.
SIZE = """\
static uint64_t rt_size(uint64_t a)
{
    return a >> 63 ? UINT64_C(0) - a : a;
}"""
RATIO_HELPERS = {
    "rt_signed_div": """\
static uint64_t rt_signed_div(uint64_t a, uint64_t b)
{
    uint64_t q = rt_size(a) / rt_size(b);
    return (a ^ b) >> 63 ? UINT64_C(0) - q : q;
}""",
    "rt_signed_rem": """\
static uint64_t rt_signed_rem(uint64_t a, uint64_t b)
{
    uint64_t r = rt_size(a) % rt_size(b);
    return a >> 63 ? UINT64_C(0) - r : r;
}""",
}


# What is proved to be reached by no input.
NEVER = """\
#if defined(__GNUC__)
#define RT_NEVER __builtin_unreachable()
#else
#define RT_NEVER ((void)0)
#endif"""


def helpers(lines):
    """The helpers that these lines call."""
    used = [text for name, text in RATIO_HELPERS.items() if any(name in line for line in lines)]
    never = [NEVER] if any("RT_NEVER" in line for line in lines) else []
    return never + ([SIZE, *used] if used else [])


def bits(c):
    """The width of an unsigned C type."""
    if c in ("uint8_t", "uint16_t", "uint32_t", "uint64_t"):
        return int(c[4:-2])
    raise Unknown(f"{c} is no number")


def wide(c):
    """The type that numbers of c are computed in."""
    return "uint64_t" if bits(c) == 64 else "uint32_t"


def number(value, width):
    return f"UINT{width}_C({value % (1 << width)})"


def extended(text, c, to):
    """A signed number of type c at the width of `to`: its sign bit is turned over, and taken off again."""
    w, t = bits(c), bits(to)
    if w >= t:
        return f"({to}){text}"
    return f"({to})(({wide(to)})({text} ^ {number(1 << (w - 1), w)}) - {number(1 << (w - 1), 64 if t == 64 else 32)})"


class Values:
    """What the locals of a function make of places and values."""

    def __init__(self, locals_, shapes):
        self.locals, self.shapes, self.constants = locals_, shapes, {}

    def same(self, a, b, where):
        if a != b:
            raise Unknown(f"{where}: {a} for {b}")

    # Places and operands: their C text and their type

    def place(self, p):
        text, t, variant = self.constants.get(p["local"], f"l{p['local']}"), self.locals[p["local"]], None
        for step in p["steps"]:
            word, of = one(step, "step")
            if word == "Variant" and variant is None:
                variant = of
            elif word == "Field":
                text, t, variant = *self.field(text, t, variant, of), None
            elif word == "Deref" and variant is None and self.shapes.c(t) == POINTER:
                text, t = text if of == UNIT else f"(*({self.shapes.c(of)} *){text})", of
            else:
                raise Unknown(f"step {step!r} of {t!r}")
        if variant is not None:
            raise Unknown(f"a variant as a place: {p!r}")
        return text, t

    def field(self, text, t, variant, k):
        word, of = one(t, "a field's struct")
        if word == "Struct" and variant is None and self.shapes.c(t) == SLICE:
            return f"{text}.{'pn'[k]}", of[1][k]
        kind, held = one(self.shapes.named[of["name"]], "shape") if word == "Named" else (word, None)
        if kind == "Fields" and variant is None:
            return f"{text}.f{k}", held[k]
        if kind == "Variants" and variant is not None:
            if k == 0:
                return f"{text}.tag", {"Int": 8}
            if held[variant][k - 1] == UNIT:
                return text, UNIT
            return f"{text}.s{self.shapes.slots(of['name'])[1][variant][k - 1]}", held[variant][k - 1]
        raise Unknown(f"field {k} of {t!r}, variant {variant!r}")

    def empty(self, p):
        """Whether a place holds nothing: a unit, alone, in another place or behind a reference. What is no place is refused where it is written."""
        t, variant = self.locals[p["local"]], None
        for step in p["steps"]:
            word, of = one(step, "step")
            if word == "Variant":
                variant = of
            elif word == "Deref":
                t = of
            else:
                t = self.member(t, variant, of)
        return t == UNIT

    def member(self, t, variant, k):
        """The type of a field, or nothing where there is none."""
        word, of = next(iter(t.items())) if isinstance(t, dict) else (t, None)
        shape = self.shapes.named.get(of["name"], {}) if word == "Named" else {}
        held = of[1] if word == "Struct" else shape.get("Fields", [])
        if "Variants" in shape:
            held = [{"Int": 8}, *(shape["Variants"][variant] if variant is not None and variant < len(shape["Variants"]) else [])]
        return held[k] if isinstance(k, int) and k < len(held) else None

    def unit(self, o):
        """Whether an operand holds nothing: it is not written."""
        return o == UNIT or isinstance(o, dict) and "Copy" in o and self.empty(o["Copy"])

    def held(self, operands):
        """C texts and C types of the operands that hold something."""
        return [self.operand(o) for o in operands if not self.unit(o)]

    def operand(self, o):
        """C text and C type."""
        if o in ("True", "False"):
            return ("1" if o == "True" else "0"), "uint8_t"
        word, of = one(o, "operand")
        if word == "Copy":
            text, t = self.place(of)
            return text, self.shapes.c(t)
        if word == "Int":
            c = self.shapes.c({"Int": of["width"]})
            return number(of["value"], of["width"]), c
        if word == "SizeOf":
            return number(self.shapes.size(of), 64), "uint64_t"
        raise Unknown(f"operand {o!r}")

    # What is computed

    def value(self, form, t):
        """The C text of a value of the type t."""
        (word, of), c = one(form, "value"), self.shapes.c(t)
        if word == "Opd":
            text, given = self.operand(of)
            self.same(given, c, "assignment")
            return text
        if word == "AddrOf":
            self.same(POINTER, c, "address")
            return self.address(of)
        if word == "Op1":
            return self.unary(of, c, t == "Bool")
        if word == "Op2":
            return self.binary(of, c)
        raise Unknown(f"value {word}")

    def address(self, p):
        """The address of a place. Nothing is read through that of a unit: it is that of the place that the unit is in, or null."""
        text, t = self.place(p)
        if t != UNIT:
            return f"(uint8_t *)&{text}"
        before = {**p, "steps": p["steps"][:-1]}
        if not p["steps"]:
            return "(uint8_t *)0"
        if "Deref" in p["steps"][-1]:
            return self.place(before)[0]
        return self.address({**before, "steps": before["steps"][:-1]} if before["steps"] and "Variant" in before["steps"][-1] else before)

    def unary(self, of, c, truth):
        (text, given), op = self.operand(of[1]), of[0]
        if op == "Not":
            self.same(given, c, "not")
            return f"(uint8_t)!{text}" if truth else f"({c})~({wide(c)}){text}"
        word, cast = one(op, "operation")
        if word != "Cast" or cast[0] not in ("Signed", "Unsigned") or cast[1] not in ("Signed", "Unsigned"):
            raise Unknown(f"operation {op!r}")
        self.same(f"uint{cast[2]}_t", c, "cast")
        bits(given)
        return extended(text, given, c) if cast[0] == "Signed" else f"({c}){text}"

    def binary(self, of, c):
        op, sign = of[0], None
        if not isinstance(op, str):
            op, sign = one(op, "operation")
            if sign not in ("Signed", "Unsigned"):
                raise Unknown(f"operation {of[0]!r}")
        (a, ac), (b, bc) = self.operand(of[1]), self.operand(of[2])
        if op == "Offset" and sign is None:
            self.same((c, ac, bc), (POINTER, POINTER, "uint64_t"), "offset")
            return f"{a} + (size_t){b}"
        if op == "Shl" and sign is None or op == "Shr" and sign == "Unsigned":
            self.same(ac, c, op)
            bits(bc)
            return f"({c})(({wide(c)}){a} {'<<' if op == 'Shl' else '>>'} {b})"
        self.same(ac, bc, op)
        if op in TESTS and (sign is None) == (op in ("Eq", "Ne")):
            self.same(c, "uint8_t", op)
            turn = f" ^ {number(1 << (bits(ac) - 1), bits(ac))}" if sign == "Signed" else ""
            return f"({c})(({ac})({a}{turn}) {TESTS[op]} ({ac})({b}{turn}))" if turn else f"({c})({a} {TESTS[op]} {b})"
        self.same(ac, c, op)
        if op in RATIOS and sign == "Signed":
            return f"({c})rt_signed_{op.lower()}({extended(a, ac, 'uint64_t')}, {extended(b, ac, 'uint64_t')})"
        if op in RATIOS and sign == "Unsigned" or op in BITS and (sign is None) == (op in ("And", "Or", "Xor")):
            return f"({c})(({wide(c)}){a} {(RATIOS | BITS)[op]} ({wide(c)}){b})"
        raise Unknown(f"operation {of[0]!r}")
