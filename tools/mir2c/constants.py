"""The locals of a function that are constants: they are written before it and need no place on the stack."""
from shapes import UNIT, Unknown, c_name, one
from values import Values, number


class Constants(Values):
    """What a function keeps as constants."""

    def unchanging(self):
        """The locals that are constants: tables, and arrays that are assigned once, from numbers alone, and lent to shared references alone. They need no place
        on the stack."""
        assigned, lent, out = {}, set(), set()
        for s in self.function["body"]:
            word = next(iter(s)) if isinstance(s, dict) else None
            if word in ("Assign", "Call"):
                target = s[word][0 if word == "Assign" else 2]
                assigned.setdefault(target["local"], []).append(s)
                if word == "Assign" and "AddrOf" in s[word][1] and not self.shared(target):
                    lent.add(s[word][1]["AddrOf"]["local"])
        for i in range(self.function["params"] + 1, len(self.locals)):
            made = assigned.get(i, [])
            if len(made) == 1 and made[0].get("Assign") and "Table" in made[0]["Assign"][1]:
                out.add(i)
            if i not in lent and len(made) == 1 and isinstance(self.locals[i], dict) and "Array" in self.locals[i] and made[0].get("Assign"):
                target, value = made[0]["Assign"]
                if not target["steps"] and "Aggregate" in value and all("Int" in o for o in value["Aggregate"] if isinstance(o, dict)):
                    out.add(i)
        return out & self.read

    def shared(self, target):
        """Whether a place that is assigned holds shared references."""
        t = self.locals[target["local"]]
        return not target["steps"] and isinstance(t, dict) and "Ref" in t and t["Ref"][1] == "Imm"

    def constant(self, i):
        """The name of a constant, which is written before the function."""
        word, made = one(next(s["Assign"][1] for s in self.function["body"] if isinstance(s, dict) and "Assign" in s and s["Assign"][0]["local"] == i), "constant")
        name, c = f"{c_name(self.name)}__l{i}", self.shapes.c(self.locals[i])
        if word == "Table":
            self.tables.append(f"static const {c} {name} = {self.initial(self.locals[i], made)};")
            return name
        texts = [self.operand(o)[0] for o in made]
        self.same(len(texts), self.locals[i]["Array"][1].get("Lit"), "elements")
        self.tables.append(f"static const {c} {name} = {{ {{ {', '.join(texts) or '0'} }} }};")
        return name

    def initial(self, t, held):
        """The C text of a constant of a table: a number, or the parts of an array, a struct or an enum."""
        word, of = one(held, "a table")
        if word == "Bool" or word == "Int":
            self.same(f"uint{of['width']}_t" if word == "Int" else "uint8_t", self.shapes.c(t), "a table")
            return number(of["value"], of["width"]) if word == "Int" else str(int(of))
        kind, inner = one(t, "a table")
        if word == "Ints":
            of = [{"Int": {"width": of["width"], "value": value}} for value in of["values"]]
        if word == "Repeat":
            of = [of[0]] * of[1]
        if word not in ("Ints", "Parts", "Repeat"):
            raise Unknown(f"a table of {word}")
        if kind == "Array":
            self.same(len(of), inner[1].get("Lit"), "elements")
            return f"{{ {{ {', '.join(self.initial(inner[0], part) for part in of) or '0'} }} }}"
        self.same(kind, "Named", "a table")
        return self.initial_parts(inner["name"], of)

    def initial_parts(self, name, of):
        """The same of a struct or an enum, whose tag comes first."""
        kind, held = one(self.shapes.named[name], "shape")
        names = [f"f{i}" for i in range(len(held))]
        if kind == "Variants":
            k = one(of[0], "tag")[1]["value"]
            names, held = ["tag"] + [f"s{j}" for j in self.shapes.slots(name)[1][k]], [{"Int": 8}, *held[k]]
        self.same(len(of), len(held), "parts")
        texts = [f".{n} = {self.initial(t, part)}" for n, t, part in zip(names, held, of) if t != UNIT]
        return f"{{ {', '.join(texts) or '0'} }}"
