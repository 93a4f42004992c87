"""python3 tools/mir2c KIT HEADER ROOT FOLDER...: the exported functions of the crate ROOT as one C99 file, on standard output.

KIT is what `rt version` prints, HEADER declares the functions, and each FOLDER is a library of a proved crate or holds such libraries, whose MIR stands in
toolchain/mir.json.
Functions, types, constants and bounds that are parameters are written out for each list that they are given (instances.py, names.py). The same input gives the
same bytes. A form of MIR that is not known here ends the program with status 1 and writes nothing."""
import json
import pathlib
import sys

import body
import calls
import copies
import exports
import forms
import idioms
import values
from instances import Instances
from shapes import GROUND, Shapes, Unknown, c_name

HEAD = """\
/* The AuDaLa engine as one C99 file, to be compiled beside {root}.h. It needs memcpy and memset and nothing else, keeps no data and allocates nothing.
 *
 * Written by tools/mir2c: do not edit. {count} functions, from the MIR that the libraries of the proved crates carry.
 * Kit: {kit}
 *
 * Proved, of the MIR: that each function meets its contract for every input, and so reads and writes nothing outside of what it is lent, overflows nothing and
 * returns (docs/THEOREMS.md). Not proved: this text. Like the kit's own back end for x86-64 it is a translation that is tested: the gate answers all
 * committed cases with it under the address and undefined-behaviour sanitizers, and compares the answers byte for byte with those of a second engine. */
#include "{root}.h"

#include <limits.h>
#include <string.h>
"""


def read(folders):
    """All functions of the libraries, by their paths; nothing where two have one path, as some constants of a trait in the kit's library do."""
    functions = {}
    for folder in folders:
        folder = pathlib.Path(folder)
        for file in sorted(folder.glob("toolchain/mir.json")) or sorted(folder.glob("*/toolchain/mir.json")):
            for name, function in json.loads(file.read_text()):
                if functions.setdefault(name, function) != function:
                    functions[name] = None
    return functions


def reached(functions, starts):
    """The instances that these call, and so on, in the order of their names and in the forms that are known here, and the shapes of their types."""
    found, shapes = Instances(functions, starts).written()
    written = {name: copies.forwarded(idioms.shortened(forms.known(found[name]))) for name in sorted(found)}
    if len({c_name(name) for name in written}) != len(written):
        raise Unknown("two functions with one C name")
    return written, shapes


def translated(kit, header, root, functions):
    """The whole file as lines."""
    declared = exports.Header(header)
    roots = exports.roots(declared, functions, root)
    functions, named = reached(functions, roots.values())
    shapes, called = Shapes(named), calls.Calls(functions)
    bodies = [body.Body(name, functions, shapes, called) for name in functions]
    texts = []
    for b in bodies:
        try:
            texts.append(b.written())
        except (Unknown, KeyError, IndexError, TypeError, ValueError, AttributeError, StopIteration) as e:
            raise Unknown(f"{b.name}: {e!r}" if not isinstance(e, Unknown) else f"{b.name}: {e}") from e
    out = [HEAD.format(count=len(functions), kit=kit, root=root), GROUND, calls.WORDS, *exports.assertions(declared), "", *shapes.lines, ""]
    out += values.helpers([line for text in texts for line in text])
    out += [b.signature() + ";" for b in bodies]
    for text in texts:
        out += ["", *text]
    ends = []
    for name, path in roots.items():
        ends += ["", *exports.written(declared, name, path, functions, shapes)]
    return out + (["", exports.LENT] if any("rt_lent" in line for line in ends) else []) + ends


def main(words):
    if len(words) < 4:
        print(__doc__, file=sys.stderr)
        return 2
    kit, header, root, *folders = words
    try:
        lines = translated(kit, pathlib.Path(header).read_text(), root, read(folders))
    except Unknown as e:
        print(f"mir2c: {e}", file=sys.stderr)
        return 1
    print("\n".join(lines))
    return 0


if __name__ == "__main__":
    sys.exit(main(sys.argv[1:]))
