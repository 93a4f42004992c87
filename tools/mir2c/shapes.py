"""Types of the MIR as C types: definitions of structs, enums and arrays, and assertions for every size and offset that the code relies on.

Integers are unsigned in C, whatever their sign in the MIR: a signed one is kept in two's complement, and what reads its sign says so. References and raw
pointers are byte pointers, a slice is one with a length of 64 bits, an enum its tag and slots for the fields of its variants: a slot serves one field of each
variant, all of one type, so that no union hides from a compiler what is where. A unit has no place in any of them; a struct of nothing, as a closure that
keeps nothing, has one byte."""


class Unknown(Exception):
    """A form of MIR, or a header, that has no C here: nothing is written."""


def one(form, where):
    """The word of a form and what stands under it."""
    if isinstance(form, dict) and len(form) == 1:
        return next(iter(form.items()))
    raise Unknown(f"{where}: {form!r}")


def c_name(name):
    """A Rattle path as a C name: crate::module::function is crate__module__function."""
    text = name.replace("::", "__")
    if not text.replace("_", "a").isalnum() or not text.isascii():
        raise Unknown(f"name {name!r}")
    return text


def row(parts):
    """Bytes and alignment of parts in a row, as C lays them out."""
    at, most = 0, 1
    for size, alignment in parts:
        at += -at % alignment + size
        most = max(most, alignment)
    return at + -at % most, most


# Widths of numbers in bits, and bytes of a pointer, of which a slice has two.
WIDTHS = (8, 16, 32, 64)
POINTER_BYTES = 8
UNIT = "Unit"
POINTER = "uint8_t *"
SLICE = "rt_slice"

# What stands before all types: exact widths, and arithmetic that no promotion makes signed.
GROUND = """\
typedef struct {
    uint8_t *p;
    uint64_t n;
} rt_slice;

#define RT_ASSERT(name, holds) typedef char rt_assert_##name[(holds) ? 1 : -1]
RT_ASSERT(byte, CHAR_BIT == 8);
RT_ASSERT(uint8, sizeof(uint8_t) == 1);
RT_ASSERT(uint16, sizeof(uint16_t) == 2);
RT_ASSERT(uint32, sizeof(uint32_t) == 4);
RT_ASSERT(uint64, sizeof(uint64_t) == 8);
RT_ASSERT(unsigned_stays, sizeof(int) <= sizeof(uint32_t)); /* numbers of 32 bits are not promoted to a signed type */
RT_ASSERT(length, sizeof(size_t) >= 4 && sizeof(size_t) <= 8); /* a length fits 64 bits, an offset fits a length */
RT_ASSERT(pointer, offsetof(rt_slice, p) == 0);"""


class Shapes:
    """The C types of the functions that are written, each defined after those that it is made of."""

    def __init__(self, named):
        self.named, self.defined = named, {}
        self.lines = []

    def c(self, t):
        """The C type of t, defined if it has to be. Unit has none: what has it is not written."""
        if t == "Bool":
            return "uint8_t"
        if t == "Ptr":
            return POINTER
        word, of = one(t, "type")
        if word == "Int" and of in WIDTHS:
            return f"uint{of}_t"
        if word == "Ref" and len(of) == 3:
            return POINTER
        if word == "Struct":
            return self.slice(of)
        if word == "Named":
            return self.define(of["name"])
        if word == "Array":
            return self.array(of)
        raise Unknown(f"type {t!r}")

    def slice(self, of):
        """A slice: a reference to its first element, and how many there are."""
        if of[0] == "&[]" and len(of[1]) == 2 and of[1][1] == {"Int": 64} and "Ref" in of[1][0]:
            self.size(of[1][0]["Ref"][2])
            return SLICE
        raise Unknown(f"type Struct {of!r}")

    def define(self, name):
        if name not in self.defined:
            self.defined[name] = "struct " + c_name(name)
            if name not in self.named:
                raise Unknown(f"type {name} has no shape")
            word, of = one(self.named[name], f"shape of {name}")
            if word == "Fields":
                members = [f"    {self.c(t)} f{i};" for i, t in enumerate(of) if t != UNIT] or ["    uint8_t none;"]
            elif word == "Variants":
                members = ["    uint8_t tag;"] + [f"    {c} s{j};" for j, c in enumerate(self.slots(name)[0])]
            else:
                raise Unknown(f"shape of {name}: {word}")
            self.lines += [f"struct {c_name(name)} {{"] + members + ["};"]
        return self.defined[name]

    def slots(self, name):
        """The C types of an enum's slots, and for each variant the slots of its fields: the first of the field's type that the variant has not taken. A unit has
        none."""
        slots, places, _ = self.slotted(name)
        return slots, places

    def slot_types(self, name):
        return self.slotted(name)[2]

    def slotted(self, name):
        slots, places, types = [], [], []
        for fields in self.named[name]["Variants"]:
            taken = []
            for t in fields:
                c = None if t == UNIT else self.c(t)
                free = [j for j, slot in enumerate(slots) if slot == c and j not in taken]
                if c and not free:
                    slots.append(c)
                    types.append(t)
                taken.append(None if c is None else free[0] if free else len(slots) - 1)
            places.append(taken)
        return slots, places, types

    def array(self, of):
        element, count = of[0], of[1].get("Lit")
        if not isinstance(count, int):
            raise Unknown(f"type Array {of!r}")
        size, c = self.size(element), self.c(element)
        name = "rt_array_" + c.replace("struct ", "").replace("_t", "") + f"_{count}"
        if name not in self.defined:
            self.defined[name] = "struct " + name
            self.lines += [f"struct {name} {{", f"    {c} a[{max(count, 1)}];", "};"]
            if count:
                self.lines.append(f"RT_ASSERT({name}, sizeof(struct {name}) == {size * count} && offsetof(struct {name}, a) == 0);")
        return self.defined[name]

    def laid(self, t):
        """Bytes and alignment of a type in the MIR: an enum is a tag and the fields of its longest variant."""
        if not isinstance(t, dict):
            return (POINTER_BYTES, POINTER_BYTES) if t == "Ptr" else (int(t != UNIT), 1)
        word, of = one(t, "type")
        if word == "Int":
            return of // 8, of // 8
        if word == "Array":
            size, alignment = self.laid(of[0])
            return size * of[1]["Lit"], alignment
        if word == "Named":
            kind, held = one(self.named[of["name"]], "shape")
            if kind == "Fields":
                return row(self.laid(f) for f in held)
            return max(row([(1, 1), *(self.laid(f) for f in fields)]) for fields in held)
        return POINTER_BYTES * (2 if word == "Struct" else 1), POINTER_BYTES

    def in_c(self, t):
        """Bytes and alignment of its C type, where that holds no pointer, whose size is the target's."""
        if t == "Bool":
            return 1, 1
        word, of = one(t, "element")
        if word == "Int" and of in WIDTHS:
            return of // 8, of // 8
        if word == "Array" and of[1].get("Lit"):
            size, alignment = self.in_c(of[0])
            return size * of[1]["Lit"], alignment
        kind, held = one(self.named.get(of["name"]), "element") if word == "Named" else (word, [])
        if kind == "Fields" and any(f != UNIT for f in held):
            return row(self.in_c(f) for f in held if f != UNIT)
        if kind == "Variants":
            return row([(1, 1), *(self.in_c(t) for t in self.slot_types(of["name"]))])
        raise Unknown(f"the size of an element {t!r}")

    def size(self, t):
        """Bytes from one element of an array or a slice to the next, which the MIR multiplies by: known where the MIR and C lay it out alike. Asserted of the
        C type, unless it is a number."""
        size = self.laid(t)[0]
        if self.in_c(t)[0] != size or not size:
            raise Unknown(f"the size of an element {t!r}")
        if isinstance(t, dict) and "Named" in t and "size of " + self.c(t) not in self.defined:
            c = self.c(t)
            self.defined["size of " + c] = c
            self.lines.append(f"RT_ASSERT({c_name(t['Named']['name'])}, sizeof({c}) == {size});")
        return size
