"""The MIR of an instance in the forms that the rest of the translator knows.

Instances have no types and bounds left (instances.py): a call or a type that still has some is refused. The count of a repeated value is a form of its own;
wrapping arithmetic has operations of its own, and is what unsigned arithmetic of C is; a text's bytes and other constants are lent from a table of their own,
which is a local here that is assigned once, so that the translator keeps it as a constant."""
from shapes import Unknown


TABLES = {"Int", "Bool", "Parts", "Repeat"}
WRAPPING = {"WrapAdd": "Add", "WrapSub": "Sub", "WrapMul": "Mul"}


def plain(given, where):
    """That a function or a type is given no types and no bounds."""
    if any(given.values() if isinstance(given, dict) else given):
        raise Unknown(f"{where} with types or bounds: {given!r}")


def rewritten(form):
    """A form of the MIR without what today's adds to it."""
    if isinstance(form, list):
        return [rewritten(part) for part in form]
    if not isinstance(form, dict):
        return form
    if len(form) == 1:
        word, of = next(iter(form.items()))
        if word == "Named" and isinstance(of, list) and len(of) == 2 and isinstance(of[0], dict):
            plain(of[1], of[0]["name"])
            return {"Named": rewritten(of[0])}
        if word == "Fn" and isinstance(of, list) and len(of) == 2:
            plain(of[1], of[0])
            return {"Direct": of[0]}
        if word == "Repeat" and isinstance(of[1], dict) and set(of[1]) == {"Lit"}:
            return {"Repeat": [rewritten(of[0]), of[1]["Lit"]]}
        if word == "Op2" and isinstance(of[0], str) and of[0] in WRAPPING:
            return {"Op2": [{WRAPPING[of[0]]: "Unsigned"}, *rewritten(of[1:])]}
    return {word: rewritten(of) for word, of in form.items()}


def known(function):
    """A function of today's MIR; its lent tables are locals after its own."""
    locals_, body = rewritten(function["locals"]), []
    for s in rewritten(function["body"]):
        if isinstance(s, dict) and "LendStatic" in s:
            place, t, held = s["LendStatic"]
            table = {"local": len(locals_), "steps": []}
            locals_.append({"ty": t, "home": "ValueLocal"})
            if set(held) == {"Ints"} and "Array" in t:
                value = {"Aggregate": [{"Int": {"width": held["Ints"]["width"], "value": value}} for value in held["Ints"]["values"]]}
            elif set(held) <= TABLES:
                value = {"Table": held}
            else:
                raise Unknown(f"a table of {next(iter(held))}")
            body += [{"Assign": [table, value]}, "Seq"]
            s = {"Assign": [place, {"AddrOf": table}]}
        body.append(s)
    return {**function, "locals": locals_, "types": rewritten(function["types"]), "body": body}
