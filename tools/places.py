"""python3 tools/places.py [POINT]: counts, in crates/*/src, the places of the eight points of docs/DESIGN-PASS.md, or lists those of one point.

Everything is found by words and by the layout that `rt fmt` gives: what has the shape is listed, and the page says which of it is what the point means."""
import collections
import pathlib
import re
import sys

CRATES = pathlib.Path(__file__).resolve().parent.parent / "crates"
CODES = r"(?:number|form|kind|role|state|codes|fault)::[A-Z_]+|types::(?:INT|NAT|BOOL|STRUCT)\b"
WHOLE = r"u8|u16|u32|u64|usize"


class Function:
    """A function of a file: its name, parameters, clauses and body."""

    def __init__(self, file, line, name, head, body):
        self.file, self.line, self.name, self.body = file, line, name, body
        given = head[head.index("(") :]
        depth = 0
        for end, sign in enumerate(given):
            depth += (sign in "([{") - (sign in ")]}")
            if depth == 0:
                break
        parts = re.split(r",\s*(?![^<(\[]*[>)\]])", given[1:end].strip().rstrip(","))
        self.params = [tuple(p.strip() for p in part.split(":", 1)) for part in parts if ":" in part]
        self.answer = given[end + 1 :].split("requires")[0].split("ensures")[0].strip()
        self.requires = [" ".join(c.split()) for c in re.findall(r"requires(?: \w+)? \{(.*?)\}\s*(?=requires|ensures|$)", head, re.S)]

    def place(self):
        return f"{self.file}:{self.line} {self.name}"


def functions(file, lines):
    """The functions of a file, by the lines that begin and end them."""
    i = 0
    while i < len(lines):
        start = re.match(r"(\s*)(?:pub(?:\(\w+\))? )?(?:const )?fn (\w+)", lines[i])
        if start:
            shut = start[1] + "}"
            body = i
            while lines[body].rstrip() != start[1] + "{" and not (lines[body].rstrip().endswith("{") and "(" in lines[body] and "ensures" not in lines[body]):
                body += 1
                if body == len(lines) or lines[body].rstrip().endswith(";"):
                    break
            if body < len(lines) and not lines[body].rstrip().endswith(";"):
                end = body
                while end < len(lines) and lines[end].rstrip() != shut:
                    end += 1
                yield Function(file, i + 1, start[2], "\n".join(lines[i : body + 1]), lines[body + 1 : end])
                i = end
        i += 1


def files():
    for file in sorted(CRATES.glob("*/src/**/*.rt")):
        yield str(file.relative_to(CRATES)), file.read_text().split("\n")


def matching(pattern):
    """The lines of code with a match, comments and clauses left out."""
    for name, lines in files():
        for i, line in enumerate(lines):
            code = line.split("//")[0]
            if re.search(pattern, code) and not re.match(r"\s*(requires|ensures|ghost|×|→|≡)", code):
                yield f"{name}:{i + 1} {code.strip()}"


def all_functions():
    for name, lines in files():
        yield from functions(name, lines)


def enums():
    yield from matching(r"^\s*(pub(\(\w+\))? )?enum \w+")


def refusals():
    for f in all_functions():
        if re.search(r"refusal$|^fault_of$", f.name):
            yield f.place()


def flags():
    yield from matching(r"^\s*(pub(\(\w+\))? )?\w+: bool,")


def codes():
    yield from matching(r"^\s*pub(\(\w+\))? const [A-Z_]+: u(8|16|64) =")


def numbers():
    yield from matching(r"\b(number|fault|over): u(8|32),|Refused\(u8\)|No\w+\(u8\)")


def normal(f):
    """A body and a signature with names, types and numbers by their order."""
    words = {}
    text = " ".join([t for _, t in f.params] + [f.answer] + [line.split("//")[0] for line in f.body])
    return re.sub(r"\w+", lambda m: m[0] if m[0] in ("while", "if", "let", "mut", "return", "for", "match", "as", "else") else words.setdefault(m[0], f"n{len(words)}"), " ".join(text.split()))


def twins():
    groups = collections.defaultdict(list)
    for f in all_functions():
        if len([line for line in f.body if line.strip()]) > 1 and f.file.split("/")[0] != "audala_c":
            groups[normal(f)].append(f.place())
    for places in groups.values():
        if len(places) > 1:
            yield " = ".join(places)


def loops():
    yield from matching(r"^\s*('\w+: )?while ")


def casts():
    yield from matching(rf"^\s*\w+ as ({WHOLE})$|^\s*\([\w ]+\) as ({WHOLE})$")


def answers():
    yield from matching(r"^\s*return (true|false);")


def facts():
    """A clause, or a fact joined in one by ×, with the functions that require it: three or more."""
    asked = collections.defaultdict(set)
    for f in all_functions():
        for clause in f.requires:
            for fact in re.split(r"\s×\s", clause.strip()):
                asked[re.sub(r"^\(|\)$", "", fact.strip())].add(f.place())
    for fact, places in sorted(asked.items()):
        if len(places) > 2:
            yield f"{fact} -- {len(places)} functions"


def together():
    """Three parameters, by name and type, that three or more functions take side by side."""
    taken = collections.defaultdict(set)
    for f in all_functions():
        for i in range(len(f.params) - 2):
            taken[f.params[i : i + 3] and tuple(f.params[i : i + 3])].add(f.place())
    for group, places in sorted(taken.items()):
        if len(places) > 2:
            yield f"{', '.join(name + ': ' + kind for name, kind in group)} -- {len(places)} functions"


def beside():
    """Functions that take a lent buffer and then how far it is used, or where: the buffer and its length or place beside it."""
    for f in all_functions():
        for (name, kind), (after, number) in zip(f.params, f.params[1:]):
            if re.match(r"&('\w+ )?mut \[", kind) and number in ("usize", "u8") and after in ("at", "place", "n", "k", "h", "from", "height", "count", "l", "i"):
                yield f"{f.place()} ({name}, {after})"


def switches():
    """Functions that compare with three or more codes, one after the other."""
    for f in all_functions():
        tests = [line for line in f.body if re.search(rf"^\s*(}} else )?if .*==.*({CODES})", line)]
        if len(tests) > 2:
            yield f"{f.place()} ({len(tests)})"


def answered():
    """Functions with a file of answers to the goals that the check leaves."""
    for file in sorted(CRATES.glob("*/proofs/**/Answers.antt")):
        yield str(file.relative_to(CRATES))


def invariants():
    for file in sorted(CRATES.glob("*/proofs/**/Invariants.antt")):
        yield str(file.relative_to(CRATES))


POINTS = {
    "1": [("enums of our own", enums), ("functions that take a refusal out of an answer", refusals), ("flags in a struct", flags), ("codes as constants", codes), ("numbers for refusals in fields and variants", numbers)],
    "2": [("functions that differ in names, types and constants alone", twins)],
    "3": [("while loops", loops)],
    "4": [("functions that only cast", casts), ("answers of a test written out", answers)],
    "5": [("facts that three or more functions require", facts), ("three parameters side by side in three or more functions", together)],
    "6": [("a lent buffer with a place or length beside it", beside)],
    "7": [("functions that switch over three or more codes", switches)],
    "8": [("functions with answers", answered), ("functions with invariants", invariants)],
}


def main(words):
    if words:
        for what, found in POINTS[words[0]]:
            print(f"# {what}")
            for place in found():
                print(place)
        return
    for point, kinds in POINTS.items():
        for what, found in kinds:
            print(f"{point}  {len(list(found())):4}  {what}")


if __name__ == "__main__":
    main(sys.argv[1:])
