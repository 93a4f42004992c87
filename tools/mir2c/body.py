"""A function of the MIR as C: what it assigns, its statements, the whole of it. Assignments to locals that nothing reads are left out."""
from constants import Constants
from shapes import POINTER, UNIT, Unknown, c_name, one
from values import bits, number


# Bytes of a struct that comes back in registers at the most.
PACKED = 16


class Body(Constants):
    """The C lines of one function."""

    def __init__(self, name, functions, shapes, calls):
        super().__init__([local["ty"] for local in functions[name]["locals"]], shapes)
        self.name, self.functions, self.function, self.calls = name, functions, functions[name], calls
        self.tables, self.lines, self.blocks, self.loops, self.constants = [], [], 0, 0, {}
        self.read = set(range(len(self.locals)))
        while self.reads() != self.read:
            self.read = self.reads()
        self.constants = {i: self.constant(i) for i in sorted(self.unchanging())}

    def kept(self, target):
        """Whether an assignment to this place is written: not to a local that nothing reads, nor to one that holds nothing."""
        i = target["local"]
        return not self.empty(target) and (i == 0 or i in self.read) and i not in self.constants

    def reads(self):
        """The locals that are read by what is written: in operands and addresses, and where a place that is assigned goes through one."""
        found = set()

        def look(form):
            if isinstance(form, dict) and "local" in form:
                found.add(form["local"])
            elif isinstance(form, (dict, list)):
                for under in form.values() if isinstance(form, dict) else form:
                    look(under)

        for s in self.function["body"]:
            word = next(iter(s)) if isinstance(s, dict) else None
            if word not in ("Assign", "Call"):
                look(s)
            elif word == "Call" or self.kept(s[word][0]):
                target = s[word][2 if word == "Call" else 0]
                look(s[word][1])
                if any("Deref" in step for step in target["steps"]):
                    look(target)
        return found

    # Types

    def parameters(self):
        """The parameters that hold something."""
        return [i for i in range(1, self.function["params"] + 1) if self.locals[i] != UNIT]

    def result(self):
        return "void" if self.locals[0] == UNIT else self.shapes.c(self.locals[0])

    def signature(self):
        given = ", ".join(f"{self.shapes.c(self.locals[i])} l{i}" for i in self.parameters())
        word = self.calls.word(self.name, self.shapes, self.constants)
        return f"static {word} {self.result()} {c_name(self.name)}({given or 'void'})".replace("* ", "*")

    # Values that are made anew

    def aggregate(self, to, parts):
        """A struct, an enum's variant, a slice or an array, made anew: part by part, unless the parts may be read from what is written."""
        target, t = self.place(to)
        c, word = self.shapes.c(t), one(t, "aggregate")[0]
        given = self.held(parts)
        if word == "Array":
            self.same(len(given), t["Array"][1].get("Lit"), "elements")
            self.lines.append(f"{target} = ({c}){{ {{ {', '.join(text for text, _ in given)} }} }};")
            return
        names, types = self.members(t, parts)
        self.same([g for _, g in given], [self.shapes.c(part) for part in types], "aggregate")
        if any("Deref" in step for step in to["steps"]) or any("Copy" in o and o["Copy"]["local"] == to["local"] for o in parts if isinstance(o, dict)):
            inside = ", ".join(f".{n} = {text}" for n, (text, _) in zip(names, given)) or "0"
            self.lines.append(f"{target} = ({c}){{ {inside} }};")
        else:
            whole = [(f"{target}.{n}", text, part) for n, (text, _), of in zip(names, given, types) for part in self.parts(of)]
            self.lines += [f"{to}{part} = {text}{part};" for to, text, part in whole] or [f"{target}.none = 0;"]

    def members(self, t, parts):
        """The C names and the types of what an aggregate of t holds, without units."""
        word, of = one(t, "aggregate")
        if word == "Struct":
            return ["p", "n"], ["Ptr", {"Int": 64}]
        kind, held = one(self.shapes.named[of["name"]], "shape")
        if kind == "Fields":
            return [f"f{i}" for i, f in enumerate(held) if f != UNIT], [f for f in held if f != UNIT]
        k = one(parts[0], "tag")[1]["value"]
        places = self.shapes.slots(of["name"])[1][k]
        return ["tag"] + [f"s{j}" for j in places if j is not None], [{"Int": 8}] + [f for f in held[k] if f != UNIT]

    def repeat(self, target, t, of):
        """One value in every place of an array."""
        (text, given), count = self.operand(of[0]), of[1]
        word, array = one(t, "repeat")
        self.same((word, array[1].get("Lit"), self.shapes.c(array[0])), ("Array", count, given), "repeat")
        if one(of[0], "repeated")[0] == "Int" and of[0]["Int"]["value"] == 0:
            self.lines.append(f"memset(&{target}, 0, sizeof {target});")
        else:
            self.lines.append(f"for (size_t i = 0; i < {count}; i++) {target}.a[i] = {text};")

    def parts(self, t, before=""):
        """The parts by which a value of t is copied: a struct field by field. Copied whole, the bytes between its fields are taken along: clang then copies by
        pieces that overlap what was just stored, and the copy waits for it."""
        word, of = one(t, "type") if isinstance(t, dict) else (t, None)
        kind, held = one(self.shapes.named[of["name"]], "shape") if word == "Named" else (word, None)
        held = [(i, field) for i, field in enumerate(held) if field != UNIT] if kind == "Fields" else []
        return [part for i, field in held for part in self.parts(field, f"{before}.f{i}")] or [before]

    def answer_parts(self, t, before=""):
        """The parts of an answer that comes back in memory, enums by tag and slots: what is stored and copied by the same pieces has no copy that waits. An enum whose
        slots hold pointers is one part, since a pointer that is not set is not to be read."""
        word, of = one(t, "type") if isinstance(t, dict) else (t, None)
        kind, held = one(self.shapes.named[of["name"]], "shape") if word == "Named" else (word, None)
        if kind == "Variants":
            slots = self.shapes.slot_types(of["name"])
            held = [] if any(self.points(slot) for slot in slots) else [("tag", {"Int": 8}), *((f"s{j}", slot) for j, slot in enumerate(slots))]
        else:
            held = [(f"f{i}", field) for i, field in enumerate(held) if field != UNIT] if kind == "Fields" else []
        return [part for name, of in held for part in self.answer_parts(of, f"{before}.{name}")] or [before]

    def points(self, t):
        """Whether a value of t holds a pointer."""
        word, of = one(t, "type") if isinstance(t, dict) else (t, None)
        if word != "Named":
            return word in ("Ptr", "Ref", "Struct") or word == "Array" and self.points(of[0])
        kind, held = one(self.shapes.named[of["name"]], "shape")
        return any(self.points(f) for fields in ([held] if kind == "Fields" else held) for f in fields)

    # Statements, in the order in which a walk meets them

    def assign(self, of):
        if not self.kept(of[0]):
            return
        (target, t), (word, under) = self.place(of[0]), one(of[1], "value")
        if word == "Aggregate":
            self.aggregate(of[0], under)
        elif word == "Repeat":
            self.repeat(target, t, under)
        else:
            text = self.value(of[1], t)
            self.lines += [f"{target}{part} = {text}{part};" for part in (self.parts(t) if word == "Opd" else [""])]

    def call(self, of):
        word, callee = one(of[0], "call")
        if word != "Direct":
            raise Unknown(f"call of {of[0]!r}")
        to = self.functions[callee]
        wanted = [self.shapes.c(local["ty"]) for local in to["locals"][1 : to["params"] + 1] if local["ty"] != UNIT]
        given = self.held(of[1])
        self.same([c for _, c in given], wanted, f"arguments of {callee}")
        text = f"{c_name(callee)}({', '.join(text for text, _ in given)});"
        if self.empty(of[2]):
            self.same(to["locals"][0]["ty"], UNIT, f"result of {callee}")
        elif self.kept(of[2]):
            target, t = self.place(of[2])
            self.same(self.shapes.c(to["locals"][0]["ty"]), self.shapes.c(t), f"result of {callee}")
            if target == "l0" and self.shapes.laid(t)[0] > PACKED:
                return self.handed_on(t, text)
            text = f"{target} = {text}"
        else:
            text = "(void)" + text
        self.lines.append(text)

    def handed_on(self, t, text):
        """What a call answers as the answer: taken by its parts. Put into l0 at once, l0 would stand in memory on every way through the function."""
        self.lines += ["{", f"{self.shapes.c(t)} r = {text}", *[f"l0{part} = r{part};" for part in self.answer_parts(t)], "}"]

    def statement(self, walk, around=()):
        """The next statement; `around` has the labels that leave or repeat the blocks and loops around it, the innermost first."""
        s = next(walk)
        while s == "Seq":
            self.statement(walk, around)
            s = next(walk)
        if s == "Return":
            self.lines.append("return;" if self.locals[0] == UNIT else "return l0;")
        elif s == "Block":
            self.block(walk, around)
        elif s == "Loop":
            self.loop(walk, around)
        elif s == "Unreachable":
            self.lines.append("RT_NEVER;")
        elif s != "Skip":
            self.simple(walk, around, *one(s, "statement"))

    def simple(self, walk, around, word, of):
        """A statement that has parts."""
        if word == "Assign":
            self.assign(of)
        elif word == "Call":
            self.call(of)
        elif word == "Exit" and of in range(len(around)):
            self.lines.append(f"goto {around[of]};")
        elif word == "If":
            self.choice(walk, around, of)
        elif word == "Switch" and len(of) == 3:
            self.switch(walk, around, of)
        elif word == "Copied":
            self.copied(self.shapes.size(of))
        else:
            raise Unknown(f"statement {word}: {of!r}")

    def copied(self, size):
        """What stands before a loop that copies l3 elements from l1 to l2: the same at once, where the rooms are apart."""
        self.lines += [
            f"if ((uintptr_t)l2 - (uintptr_t)l1 >= (size_t)l3 * {size} && (uintptr_t)l1 - (uintptr_t)l2 >= (size_t)l3 * {size}) {{",
            f"memcpy(l2, l1, (size_t)l3 * {size});",
            "return;",
            "}",
        ]

    def block(self, walk, around):
        """What an exit leaves; its label stands behind it."""
        self.blocks += 1
        end = f"end{self.blocks}"
        self.statement(walk, (end, *around))
        if f"goto {end};" in self.lines:
            self.lines.append(f"{end}:;")

    def loop(self, walk, around):
        """What an exit begins again; its label stands at the end of its body."""
        self.loops += 1
        again = f"again{self.loops}"
        self.lines.append("for (;;) {")
        self.statement(walk, (again, *around))
        if f"goto {again};" in self.lines:
            self.lines.append(f"{again}:;")
        self.lines.append("}")

    def choice(self, walk, around, of):
        text, c = self.operand(of)
        self.same(c, "uint8_t", "condition")
        self.lines.append(f"if ({text}) {{")
        self.statement(walk, around)
        self.lines.append("} else {")
        self.statement(walk, around)
        if self.lines[-1] == "} else {":
            self.lines.pop()
        self.lines.append("}")

    def tags(self, o):
        """The tags of the enum whose tag the operand is."""
        p = one(o, "operand")[1]
        *before, variant, field = p["steps"]
        word, of = one(self.place({"local": p["local"], "steps": before})[1], "enum")
        if word != "Named" or "Variant" not in variant or field != {"Field": 0}:
            raise Unknown(f"a switch on {o!r} with no default")
        return list(range(len(self.shapes.named[of["name"]]["Variants"])))

    def switch(self, walk, around, of):
        """A switch with no default names every tag of its enum: its last arm takes the default, so that the C text has no way around the arms."""
        text, c = self.operand(of[0])
        self.lines.append(f"switch ({text}) {{")
        arms = [" ".join(f"case {number(k, bits(c))}:" for k in arm) for arm in of[1]] + (["default:"] if of[2] else [])
        if not of[2]:
            self.same(sorted(k for arm in of[1] for k in arm), self.tags(of[0]), "arms")
            arms[-1] += " default:"
        for arm in arms:
            self.lines.append(f"{arm} {{")
            self.statement(walk, around)
            self.lines += ["break;", "}"]
        self.lines.append("}")

    def written(self):
        """The whole function, its constants before it."""
        walk = iter(self.function["body"])
        self.statement(walk)
        if next(walk, None) is not None:
            raise Unknown("more behind the body")
        own = [i for i, t in enumerate(self.locals) if (i == 0 or i > self.function["params"]) and t != UNIT]
        held = [f"{self.shapes.c(self.locals[i])} l{i};".replace("* ", "*") for i in own if i == 0 or i in self.read and i not in self.constants]
        unread = [f"(void)l{i};" for i in self.parameters() if i not in self.read]
        return self.tables + [self.signature(), "{"] + indented(held + unread + self.lines) + ["}"]


def indented(lines):
    """Four blanks for each bracket that is open; labels one level out."""
    out, deep = [], 1
    for line in lines:
        if line.startswith("}"):
            deep -= 1
        out.append("    " * (deep - line.startswith(("end", "again"))) + line)
        if line.endswith("{"):
            deep += 1
    return out
