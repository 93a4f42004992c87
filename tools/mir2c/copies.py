"""Locals that are second names of another place: what reads them reads that place, and they need none of their own.

A local is a second name where it is assigned once, as a copy of a place of a steady local. Steady is what holds one value: a parameter that nothing is put into, or a
local that is assigned once and whole, where it is not lent. MIR reads no local that is not assigned on every way there, so between both assignments and each reading of
the second name the place is not put anew: a loop that comes back to the first assignment comes to the second before it reads."""


def forwarded(function):
    """The function with second names taken for the places that they name."""
    names = second_names(function)

    def renamed(form):
        if isinstance(form, list):
            return [renamed(part) for part in form]
        if not isinstance(form, dict):
            return form
        if "steps" in form:
            while form["local"] in names:
                place = names[form["local"]]
                form = {"local": place["local"], "steps": place["steps"] + form["steps"]}
            return form
        return {word: renamed(of) for word, of in form.items()}

    return {**function, "body": ["Skip" if names_one(s) and s["Assign"][0]["local"] in names else renamed(s) for s in function["body"]]}


def second_names(function):
    """The place of each local that is a second name."""
    held, copied = steady(function), [s["Assign"] for s in function["body"] if names_one(s)]
    pairs = [(target["local"], value["Opd"]["Copy"]) for target, value in copied]
    return {i: place for i, place in pairs if i > function["params"] and {i, place["local"]} <= held}


def names_one(s):
    """Whether a statement assigns a copy of a place to a whole local."""
    if not isinstance(s, dict) or "Assign" not in s:
        return False
    target, value = s["Assign"]
    source = value.get("Opd") if isinstance(value, dict) else None
    return not target["steps"] and isinstance(source, dict) and "Copy" in source and not through(source["Copy"])


def steady(function):
    """The locals that hold one value."""
    put, lent = {}, set()
    for s in function["body"]:
        word = next(iter(s)) if isinstance(s, dict) else None
        if word not in ("Assign", "Call"):
            continue
        target = s[word][0 if word == "Assign" else 2]
        if not through(target):
            put.setdefault(target["local"], []).append(not target["steps"])
        if word == "Assign" and "AddrOf" in s[word][1] and not through(s[word][1]["AddrOf"]):
            lent.add(s[word][1]["AddrOf"]["local"])
    given = function["params"]
    return {i for i in range(1, len(function["locals"])) if i not in lent and put.get(i, []) == ([] if i <= given else [True])}


def through(place):
    """Whether a place lies behind a reference."""
    return any("Deref" in step for step in place["steps"])
