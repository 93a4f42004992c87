"""The exported functions, under the names and types that the header declares: a slice is a pointer and a length there, a struct of the MIR one of the header's,
field by field in the same order. Header and MIR have to agree in every count and width, or nothing is written."""
import re

from shapes import Unknown, c_name, one

STRUCT = re.compile(r"typedef struct\s*\{(.*?)\}\s*(\w+)\s*;", re.S)
FUNCTION = re.compile(r"^\s*(\w+)\s+(\w+)\s*\(([^()]*)\)\s*;", re.M)

LENT = """\
/* What a caller lends. A null pointer stands for an empty buffer: the code behind it adds offsets of 0 to pointers, which null does not allow. */
static const uint64_t rt_nothing = 0;

static rt_slice rt_lent(const void *p, size_t n)
{
    rt_slice s = { (uint8_t *)(p != NULL ? p : &rt_nothing), n };
    return s;
}"""


def bare(header):
    """A header without comments, directives, what C++ alone sees and the bodies of inline functions."""
    text = re.sub(r"/\*.*?\*/", " ", header, flags=re.S)
    text = re.sub(r"^#ifdef __cplusplus$.*?^#endif$", "", text, flags=re.S | re.M)
    text = re.sub(r"^#.*?(?<!\\)$", "", text, flags=re.S | re.M)
    while re.search(r"^static inline[^;{}]*\{", text, re.M):
        start = re.search(r"^static inline[^;{}]*\{", text, re.M)
        end, deep = start.end(), 1
        while deep:
            deep += {"{": 1, "}": -1}.get(text[end], 0)
            end += 1
        text = text[: start.start()] + text[end:]
    return text


class Header:
    def __init__(self, text):
        text = bare(text)
        self.structs = {name: [field.split() for field in inside.split(";") if field.strip()] for inside, name in STRUCT.findall(text)}
        self.functions = {name: (given, [p.strip() for p in params.split(",")]) for given, name, params in FUNCTION.findall(STRUCT.sub("", text))}
        if not self.functions:
            raise Unknown("a header that declares no function")


def carries(c, t):
    """Whether a C type of the header carries a number of the MIR: usize is size_t, whose numbers fit wherever a length does."""
    width = t.get("Int") if isinstance(t, dict) else None
    return c == f"uint{width}_t" or c == "size_t" and width == 64


def found(functions, root, name):
    """The function of the root crate that has this name."""
    paths = [path for path in functions if path.split("::")[0] == root and path.split("::")[-1] == name]
    if len(paths) != 1:
        raise Unknown(f"{len(paths)} functions of the crate {root} are named {name}")
    return paths[0]


def roots(header, functions, root):
    """The exported functions: those that the header declares, which are all of the root crate whose names begin with its own."""
    named = {path.split("::")[-1] for path in functions if path.split("::")[0] == root}
    undeclared = {name for name in named if name.startswith(root + "_")} - set(header.functions)
    if undeclared:
        raise Unknown(f"the header declares no {', '.join(sorted(undeclared))}")
    return {name: found(functions, root, name) for name in sorted(header.functions)}


def argument(t, params, where):
    """One argument of the MIR from the header's parameters."""
    word, of = one(t, where)
    pointer = params.pop(0).rsplit(" ", 1) if params else ["", ""]
    if word == "Struct":
        _, kind, element = of[1][0]["Ref"]
        length = params.pop(0).split() if params else []
        wanted = ("const " if kind == "Imm" else "") + f"uint{element['Int']}_t"
        if pointer[0] != wanted or not pointer[1].startswith("*") or length[:1] != ["size_t"]:
            raise Unknown(f"{where}: {' '.join(pointer)} for a slice of {wanted}")
        return f"rt_lent({pointer[1][1:]}, {length[1]})"
    if not carries(pointer[0], t):
        raise Unknown(f"{where}: {' '.join(pointer)} for {t!r}")
    return pointer[1]


def written(header, name, path, functions, shapes):
    given, params = header.functions[name]
    function, left = functions[path], list(params)
    arguments = [argument(local["ty"], left, f"{name}, parameter {i}") for i, local in enumerate(function["locals"][1 : function["params"] + 1])]
    fields, result = header.structs.get(given), function["locals"][0]["ty"]
    held = shapes.named[result["Named"]["name"]].get("Fields", []) if "Named" in result else []
    if left or not fields or len(fields) != len(held) or not all(carries(c, t) for (c, _), t in zip(fields, held)):
        raise Unknown(f"{name}: {given} {fields} for {held}, parameters left {left}")
    inside = ", ".join(f".{field} = ({c})r.f{k}" for k, (c, field) in enumerate(fields))
    return [
        f"{given} {name}({', '.join(params)})",
        "{",
        f"    {shapes.c(result)} r = {c_name(path)}({', '.join(arguments)});",
        f"    {given} given = {{ {inside} }};",
        "    return given;",
        "}",
    ]


def assertions(header):
    """The header's structs lie as their fields do in a row, where these have one width."""
    lines = []
    for name, fields in sorted(header.structs.items()):
        if all(c == "uint32_t" for c, _ in fields):
            lines.append(f"RT_ASSERT({name}, sizeof({name}) == {4 * len(fields)});")
            lines += [f"RT_ASSERT({name}_{field}, offsetof({name}, {field}) == {4 * k});" for k, (_, field) in enumerate(fields)]
    return lines
