"""Every function that is reached, once for each list of types, constants and bounds that it is given: what comes out has no parameters.

A bound is given as an `impl` with what that impl is given in turn, or as the k-th bound of the calling function. A function names the impls that it gives, each
with its methods in the order of its trait's, so that a call of a method by its number is one of a function by its path. Lifetimes are dropped: types that differ
in nothing else are one type. Impls that do the same are one impl, as those of types with nothing to drop, of which every crate has its own."""
import json

from names import Names
from shapes import Unknown

# More instances than this come of a function that calls itself at ever larger types.
MOST = 20000
# What stands in the path of a function that a closure was made into.
CLOSURE = "::fn::"
NOTHING = {"types": [], "bounds": [], "method_of": None, "impls": []}


def key_of(form):
    return json.dumps(form, sort_keys=True)


def generics(function):
    return function.get("generics") or NOTHING


def filled(form, types, dicts):
    """A form with types for its parameters and dictionaries for its bounds."""
    if isinstance(form, list):
        return [filled(part, types, dicts) for part in form]
    if not isinstance(form, dict):
        return form
    if len(form) > 1:
        return {word: filled(of, types, dicts) for word, of in form.items()}
    word, of = next(iter(form.items()), (None, None))
    if word == "Param":
        return types[of]
    if word == "Given":
        return dicts[of]
    if word == "Ref":
        return {"Ref": ["Erased", of[1], filled(of[2], types, dicts)]}
    if word == "Named":
        declared, given = of if isinstance(of, list) else (of, [])
        return {"Named": [{"name": declared["name"]}, filled(given, types, dicts)]}
    if word in ("Array", "Repeat") and len(of) == 2:
        return {word: [filled(of[0], types, dicts), counted(filled(of[1], types, dicts))]}
    if word == "NumOf":
        return {"Int": {"width": of[0], "value": counted(filled(of[1], types, dicts))["Lit"]}}
    return {word: filled(of, types, dicts)} if word else {}


def counted(count):
    """A count that a constant parameter stood for, as a written one."""
    if isinstance(count, dict) and set(count) == {"Const"}:
        return {"Lit": count["Const"]}
    return count


class Instances:
    """The instances that are reached from some functions without parameters."""

    def __init__(self, functions, starts):
        self.functions, self.impls, self.same = functions, {}, {}
        for function in functions.values():
            for impl in generics(function)["impls"] if function else []:
                if self.impls.setdefault(impl["name"], impl) != impl:
                    raise Unknown(f"two impls {impl['name']}")
        self.found, self.shapes = {}, {}
        self.left = [(path, [], []) for path in starts]
        while self.left:
            self.reach(*self.left.pop())
        self.names = Names([(path, types, dicts) for path, types, dicts, _ in self.found.values()], self.shapes)

    def reach(self, path, types, dicts):
        """Notes an instance, and what it calls as left."""
        key = key_of([path, types, dicts])
        if key in self.found:
            return
        function = self.functions.get(path)
        if function is None:
            raise Unknown(f"two functions {path}" if path in self.functions else f"a call of {path}, no function with a body")
        wanted = generics(function)
        if (len(types), len(dicts)) != (len(wanted["types"]), len(wanted["bounds"])):
            raise Unknown(f"{path} with {len(types)} types and {len(dicts)} bounds")
        if len(self.found) == MOST:
            raise Unknown(f"more than {MOST} instances, as {path}")
        for declared in function["types"]:
            if self.shapes.setdefault(declared["name"], declared["shape"]) != declared["shape"]:
                raise Unknown(f"two shapes of {declared['name']}")
        body, helper = [], bool(types or wanted["method_of"] or CLOSURE in path)
        filled_ = {"types": [], "generics": None, "helper": helper, "locals": filled(function["locals"], types, dicts), "body": body}
        self.found[key] = (path, types, dicts, {**function, **filled_})
        for s in filled(function["body"], types, dicts):
            body.append(self.called(path, s) if isinstance(s, dict) and "Call" in s else s)

    def called(self, path, s):
        """A call of an instance; what is called is left to be reached."""
        callee, *rest = s["Call"]
        word, of = next(iter(callee.items()))
        if word == "Direct":
            to = [of, [], []]
        elif word == "Fn":
            to = [of[0], of[1]["types"], self.plain(of[1]["dicts"])]
        elif word == "Method" and set(of[0]) == {"Impl"}:
            to = self.method(of)
        else:
            raise Unknown(f"{path}: a call of {callee!r}")
        self.left.append(to)
        return {"Call": [{"Instance": key_of(to)}, *rest]}

    def method(self, of):
        """The function of an impl that a call of a method means: it is given what the impl is given, then what the call gives."""
        (name, types, dicts), number, given = of[0]["Impl"], of[1], of[2]
        methods = self.impl(name)["methods"]
        path = methods[number] if number < len(methods) else None
        if generics(self.functions.get(path) or {})["method_of"] != {"Impl": [name, number]}:
            raise Unknown(f"method {number} of {name}")
        return [path, types + given["types"], self.plain(dicts + given["dicts"])]

    def impl(self, name):
        if name not in self.impls:
            raise Unknown(f"no impl {name}")
        return self.impls[name]

    def plain(self, dicts):
        """Dictionaries with one impl for all that do the same."""
        out = []
        for given in dicts:
            if set(given) != {"Impl"}:
                raise Unknown(f"a bound {given!r}")
            name, types, under = given["Impl"]
            out.append({"Impl": [self.first(name), types, self.plain(under)]})
        return out

    def first(self, name):
        """The first impl in this program that does what this one does."""
        impl = self.impl(name)
        bodies = [{**(self.functions.get(path) or {"path": path}), "generics": None} for path in impl["methods"]]
        says = key_of([impl["of"], impl["types"], impl["bounds"], bodies])
        return self.same.setdefault(says, name)

    def written(self):
        """The instances by their names, and the shapes of the types in them by theirs."""
        functions = {}
        for key, (_, _, _, function) in self.found.items():
            functions[self.names.functions[key]] = self.names.plain(function)
        shapes, count = {}, -1
        while count != len(shapes):
            count = len(shapes)
            for label, (name, types) in sorted(self.names.types.items()):
                if label not in shapes and name in self.shapes:
                    shapes[label] = self.names.plain(filled(self.shapes[name], types, []))
        return functions, shapes
