"""Names of the instances of functions and types: the path, and after it the types and constants in short words. C tells two names apart by their first 63
letters, so a longer one is cut and ends in a checksum of what it stands for; where two would be one, all but the first have the checksum as well."""
import hashlib
import json

from shapes import Unknown, c_name

LONGEST = 63
CHECKSUM = 8


def path_name(path):
    """A path in letters that a C name may have, still with its colons."""
    if path.startswith("("):
        return f"rt_tuple{path.count(',') + 1}"
    return path.replace("+", "_")


def tails(paths):
    """For each path its last words, as few as tell it from the other paths."""
    out = {}
    for path in paths:
        words = path_name(path).split("::")
        for n in range(1, len(words) + 1):
            end = "::" + "::".join(words[-n:])
            if sum(("::" + path_name(other)).endswith(end) for other in paths) == 1:
                break
        out[path] = "_".join(words[-n:])
    return out


class Names:
    """The names of some instances, and of the types that are met in them."""

    def __init__(self, instances, declared):
        self.short, self.taken = tails(sorted(declared)), {}
        self.types, self.functions = {}, {}
        for path, types, dicts in sorted(instances, key=json.dumps):
            key = json.dumps([path, types, dicts], sort_keys=True)
            self.functions[key] = self.label("function", path, types, key)

    def label(self, kind, path, types, key):
        """The name of an instance: it stays the path where there are no types."""
        name = path_name(path) + ("__" + "_".join(self.word(t) for t in types) if types else "")
        if len(c_name(name)) > LONGEST and types:
            name = self.marked(name, key)
        if self.taken.setdefault((kind, c_name(name)), key) != key:
            name = self.marked(name, key)
            if self.taken.setdefault((kind, c_name(name)), key) != key:
                raise Unknown(f"two {kind}s {name}")
        return name

    def marked(self, name, key):
        return c_name(name)[: LONGEST - CHECKSUM - 1] + "_" + hashlib.sha256(key.encode()).hexdigest()[:CHECKSUM]

    def word(self, t):
        """A type in short."""
        if isinstance(t, str):
            return t.lower()
        kind, of = next(iter(t.items()))
        if kind == "Int":
            return f"u{of}"
        if kind == "Const":
            return str(of)
        if kind == "Ref":
            return ("mut_" if of[1] == "Mut" else "ref_") + self.word(of[2])
        if kind == "Struct" and of[0] == "&[]":
            return ("mut_slice_" if of[1][0]["Ref"][1] == "Mut" else "slice_") + self.word(of[1][0]["Ref"][2])
        if kind == "Array":
            return f"array{of[1]['Lit']}_{self.word(of[0])}"
        if kind == "Named":
            return "_".join([self.short.get(of[0]["name"], path_name(of[0]["name"]).replace("::", "_")), *map(self.word, of[1])])
        raise Unknown(f"a type argument {t!r}")

    def named(self, declared, types):
        """The name of a declared type that is given these types."""
        key = json.dumps([declared["name"], types], sort_keys=True)
        name = self.label("type", declared["name"], types, key)
        self.types[name] = (declared["name"], types)
        return name

    def plain(self, form):
        """A form whose types and calls have the names of instances."""
        if isinstance(form, list):
            return [self.plain(part) for part in form]
        if not isinstance(form, dict):
            return form
        if len(form) == 1:
            word, of = next(iter(form.items()))
            if word == "Named" and isinstance(of, list):
                return {"Named": {"name": self.named(*of)}}
            if word == "Instance":
                return {"Direct": self.functions[of]}
        return {word: self.plain(of) for word, of in form.items()}
