#!/usr/bin/env python3
"""Brings the repository's own definitions and lemmas to snake case: a dash in a name of specs/, or in one that a proof file declares, becomes an underscore; a type's name is joined in
camel case.

usage: respell.py [--check] [ROOT]

Run once, after the kit's port.py and before any edit by hand. A name that a file has from a library of the kit keeps its dashes, and so does a name that the prover makes from code.
In source files only clauses and ghost imports are turned, in comments and pages only what stands between backticks. It stops where two names of one file would fall together.
Needs python3 and no network.
"""
import re
import subprocess
import sys
from pathlib import Path

NAME = r"[^\s(){}.;,@\"«»\[\]\\`|/:]+"
TOKEN = re.compile(r"«[^»]*»|\"(?:[^\"\\]|\\.)*\"|" + NAME)
COMMENT = re.compile(r"(^|\s)--(\s.*|-*)?$")
DASHED = re.compile(r"^[^\W\d_A-Z](?:[\w'₀-₉]*-)+[\w'₀-₉]+$")
# A type of a library whose members are lemmas.
MEMBERS = {"Memᴰ"}
# A type or a constructor; a row that begins with the letter of its program keeps its dash.
CAMEL = re.compile(r"^[A-Z][a-z][\w']*(?:-[^\W\d_][\w']*)+$")
USE = re.compile(r"^(?:pub\s+)?use\s+(\S+?)(?:\.\{(.*?)\})?(?:\s+as\s+\S+)?\s*$", re.S)


def dashed(token):
    return bool(DASHED.match(token) or CAMEL.match(token))


def snake(token):
    """A name as it is spelled now: a type in camel case, anything else in snake case."""
    if token[0].isupper():
        return "".join(part[0].upper() + part[1:] for part in token.split("-"))
    return token.replace("-", "_")


def split(line):
    """The code and the comment of a line of antt."""
    m = COMMENT.search(line)
    return (line, "") if not m else (line[:m.start()] + (m.group(1) or ""), line[m.start() + len(m.group(1) or ""):])


def code(text):
    return "\n".join(split(line)[0] for line in text.split("\n"))


def own_path(path, crates):
    parts = path.split(".")
    return len(parts) > 1 and parts[0] == "Rattle" and parts[1] in crates


def libraries(text, crates):
    """The names that a file has from libraries of the kit."""
    names = set()
    for line in code(text).split("\n"):
        m = USE.match(line.removeprefix("ghost ").rstrip(";"))
        if m and not own_path(m.group(1), crates):
            names |= {part.strip().split(" ")[0] for part in (m.group(2) or "").split(",")}
    return names


def of_library(text, at, heads):
    """Whether the token at a place is a member of a name from a library, as `not-nil` in `Memᴰ.not-nil`."""
    m = re.search(r"([^\s(){}.;,@]+)\.$", text[max(0, at - 60):at])
    return bool(m) and (m.group(1) in heads or m.group(1) in MEMBERS)


def turned(text, chosen, taken, heads=frozenset()):
    """A text with its chosen names turned; taken has, for each name that stands there afterwards, the one from which it came."""
    def turn(m):
        token = m.group()
        if token[0] in "\"«":
            return token
        new = snake(token) if token in chosen and not of_library(text, m.start(), heads) else token
        if (dashed(token) or "_" in token) and text[m.start() - 1:m.start()] != "." and text[m.end():m.end() + 1] != ".":
            taken.setdefault(new, set()).add(token)
        return new
    return TOKEN.sub(turn, text)


def in_backticks(text, chosen):
    return re.sub(r"`[^`\n]*`", lambda m: turned(m.group(), chosen, {}), text)


def antt(text, chosen, taken, heads):
    out = []
    for line in text.split("\n"):
        body, comment = split(line)
        out.append(turned(body, chosen, taken, heads) + in_backticks(comment, chosen))
    return "\n".join(out)


def source(text, chosen, taken):
    """Clauses and ghost imports of a source file."""
    out, depth = [], 0
    for line in text.split("\n"):
        bare = line.strip()
        if bare.startswith("//"):
            out.append(in_backticks(line, chosen))
            continue
        if depth == 0 and not re.match(r"(ghost\s|requires\b|ensures\b)", bare):
            out.append(line)
            continue
        out.append(turned(line, chosen, taken))
        depth += line.count("{") - line.count("}")
    return "\n".join(out)


def edit(text, chosen):
    return "\n".join(turned(line, chosen, {}) if re.match(r"(old|new):", line) else in_backticks(line, chosen) for line in text.split("\n"))


def declared(text):
    return set(re.findall(r"^\s*(?:(?:unfoldable|abbrev|pub|pattern|axiom)\s+)*(" + NAME + r")(?:\s+\{[^}]*\})*\s*(?:\([^)]*\)\s*)*:\s", code(text), flags=re.M))


def main():
    check = "--check" in sys.argv
    rest = [a for a in sys.argv[1:] if a != "--check"]
    root = Path(rest[0] if rest else ".").resolve()
    crates = {p.name for p in (root / "crates").iterdir()}
    files = [root / f for f in subprocess.run(["git", "ls-files", "-z"], cwd=root, capture_output=True, text=True, check=True).stdout.split("\0") if f]
    files = [f for f in files if f.is_file()]
    specs = [f for f in files if f.suffix == ".antt" and "/specs/" in str(f)]
    proofs = [f for f in files if f.suffix == ".antt" and "/proofs/" in str(f)]
    own, texts = set(), {f: f.read_text() for f in specs + proofs}
    library = {f: libraries(t, crates) for f, t in texts.items()}
    for f in specs:
        text = code(texts[f])
        tokens = {m.group() for m in TOKEN.finditer(text) if dashed(m.group()) and not of_library(text, m.start(), library[f])}
        own |= tokens - library[f]
    helpers = {f: {n for n in declared(texts[f]) if dashed(n)} for f in proofs}
    wrong = 0

    def put(path, old, new, taken):
        nonlocal wrong
        for name, olds in taken.items():
            if len(olds) > 1:
                wrong += 1
                print(f"{path.relative_to(root)}: {' and '.join(sorted(olds))} would fall together")
        if new != old and not check:
            path.write_text(new)

    for f in specs + proofs:
        taken = {}
        chosen = (own | helpers.get(f, set())) - library[f]
        put(f, texts[f], antt(texts[f], chosen, taken, library[f]), taken)
    for f in files:
        if f.suffix == ".rt":
            text, taken = f.read_text(), {}
            put(f, text, source(text, own - libraries(text, crates), taken), taken)
        elif f.suffix == ".edit":
            text = f.read_text()
            place = re.search(r"^file: (\S+)", text, flags=re.M)
            target = f.parent.parent / place.group(1) if place else None
            keep = libraries(target.read_text(), crates) if target and target.is_file() else set()
            put(f, text, edit(text, own - keep), {})
        elif f.suffix == ".md":
            text = f.read_text()
            put(f, text, in_backticks(text, own), {})
    print(f"{len(own)} names of specs/ turned; {wrong} that would fall together")
    return 1 if wrong else 0


if __name__ == "__main__":
    sys.exit(main())
