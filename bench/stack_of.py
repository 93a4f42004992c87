#!/usr/bin/env python3
"""stack_of.py CALLS HEADER: the most bytes of stack that a call of each function of the header takes, computed from what gcc -fcallgraph-info=su says of frames and
calls, and what the header's macro for it allows; where one takes more, or has no macro, the status is 1.

The most of a function is its frame and the most of what it calls. Functions that call themselves, or each other, do so once for each level of nesting, and levels
are bounded by the format (docs/FORMAT.md); a cycle that is not listed here ends the program. What memcpy, memset and the compiler's own division take is not known
to gcc: an allowance stands for it."""
import re
import sys

# How often a cycle is entered on one way down, by what its functions are named after: levels of the format, one for the outermost, one for what is refused.
LEVELS = {
    "read_exprs__": 17,  # expressions nest 16 deep; the byte at level 17 is refused
    "read_stmts__": 10,  # a step's body, 8 ifs, and one that is refused
    "read_schedule__": 10,  # the schedule, 8 Fixes, and one that is refused
    "emit__exprs__": 16,
    "emit__stmts__": 9,
    "compile__items__": 9,
    "counting__count__": 13,  # at most 12 commands to a step, one taken at each level, and the end where none is left
    "text__digits": 20,  # digits of a number
    "text__from": 10,  # letters of a word of a listing
    "text__lines__tail": 5,  # numbers of a line
}
ALLOWANCE = 128

NODE = re.compile(r'node: \{ title: "(?:[^":]*:)?([^"]*)" label: "([^"]*)"')
EDGE = re.compile(r'edge: \{ sourcename: "(?:[^":]*:)?([^"]*)" targetname: "(?:[^":]*:)?([^"]*)"')


def read(file):
    frames, calls = {}, {}
    for line in open(file):
        if node := NODE.match(line):
            name, label = node.groups()
            frame = re.search(r"(\d+) bytes \(([\w,]+)\)", label)
            if frame and frame[2] not in ("static", "dynamic,bounded"):
                sys.exit(f"stack_of: the frame of {name} is {frame[2]}")
            frames[name] = int(frame[1]) if frame else ALLOWANCE
        elif edge := EDGE.match(line):
            calls.setdefault(edge[1], set()).add(edge[2])
    if missing := {callee for each in calls.values() for callee in each} - set(frames):
        sys.exit(f"stack_of: gcc tells nothing of the frame of {', '.join(sorted(missing))}; -fno-ipa-icf keeps functions of one body apart")
    return frames, calls


def cycles(frames, calls):
    """The cycle of each function: those that it reaches and that reach it."""
    below = {}
    for start in frames:
        seen, left = set(), list(calls.get(start, ()))
        while left:
            name = left.pop()
            if name not in seen:
                seen.add(name)
                left += calls.get(name, ())
        below[start] = seen
    return {name: frozenset({name} | {other for other in below[name] if name in below[other]}) for name in frames}, below


def levels(cycle):
    found = {LEVELS[word] for word in LEVELS if all(name.startswith(word) for name in cycle)}
    if len(found) != 1:
        sys.exit(f"stack_of: how deep do these call each other? {', '.join(sorted(cycle))}")
    return found.pop()


def most(entry, frames, calls):
    cycle_of, below = cycles(frames, calls)
    known = {}

    def of(name):
        cycle = cycle_of[name]
        if cycle not in known:
            own = sum(frames[each] for each in cycle)
            times = levels(cycle) if name in below[name] else 1
            known[cycle] = times * own + max((of(callee) for each in cycle for callee in calls.get(each, ()) if callee not in cycle), default=0)
        return known[cycle]

    return of(entry)


def allowed(header):
    """What the header says that each of its functions takes at most."""
    text = open(header).read()
    macros = dict(re.findall(r"^#define AUDALA_(\w+)_STACK (\d+)", text, re.M))
    entries = re.findall(r"^audala_\w+ audala_(\w+)\(", text, re.M)
    if missing := [entry for entry in entries if entry.upper() not in macros]:
        sys.exit(f"stack_of: no macro for the stack of {', '.join(missing)}")
    return {f"audala_{entry}": int(macros[entry.upper()]) for entry in entries}


def main(file, header):
    frames, calls = read(file)
    over = []
    for entry, limit in allowed(header).items():
        stack = most(entry, frames, calls)
        print(f"{entry} {stack} {limit}")
        if stack > limit:
            over.append(entry)
    if over:
        sys.exit(f"stack_of: more than the header allows: {', '.join(over)}")


if __name__ == "__main__":
    main(*sys.argv[1:])
