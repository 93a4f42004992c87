"""trace.py SECOND FILES TABLES COUNT: replays the traces of COUNT generated runs that begin.

A table is kept by label, from the text that audala_table gives of the run's first table. A line of the trace may write a parameter, whose old value has to
be the one that is kept, or make an instance, of the values that its command took from the stack. What is kept behind the last line has to be the
text of the table that the run writes. FILES is tools/files.c over the library, TABLES audala_table."""
import os
import re
import subprocess
import sys
import tempfile

CHUNK = 1000
RUN = 2
TURN = re.compile(r"(\d+) (\d+) (\d+) (\d+) \d+ (\d+) (.+) \[((?: \d+:-?\d+)*) \](?: (\d+)\.(\d+) (-?\d+) (-?\d+))? s[01]*")


def number(data, at):
    return int.from_bytes(data[at:at + 4], "little"), at + 4


def part(data, at):
    n, at = number(data, at)
    return data[at:at + n], at + n


def runs(data):
    """The program image, table image and turn bytes of each run (docs/CASES.md)."""
    at = 0
    while at < len(data):
        kind = data[at]
        at += 5
        if kind == RUN:
            at += 4
        program, at = part(data, at)
        if kind == RUN:
            table, at = part(data, at)
            turns, at = part(data, at)
            yield program, table, turns


def told(*command):
    return subprocess.run(command, check=True, capture_output=True, text=True).stdout


class Fault(Exception):
    pass


def hold(fact, what):
    if not fact:
        raise Fault(what)


class Replay:
    """What the lines of a trace make of a table."""

    def __init__(self, structs, text):
        self.rows = {int(l): (k, values) for l, k, *values in map(str.split, text.splitlines())}
        self.labels = structs + len(self.rows)
        self.stacks = {}
        self.turns = 0

    def line(self, line, turns):
        if re.fullmatch(r"move s[01]*", line):
            return
        found = TURN.fullmatch(line)
        hold(found, "no line of a trace: " + line)
        turn, byte, label, kind, position, command, stack, *write = found.groups()
        hold((int(turn), int(byte)) == (self.turns, turns[self.turns]), "turn or byte: " + line)
        hold(int(label) not in self.rows or self.rows[int(label)][0] == kind, "struct: " + line)
        self.turns += 1
        before = [] if position == "0" else self.stacks.get(label, [])
        after = [value.split(":")[1] for value in stack.split()]
        self.stacks[label] = after
        if command.startswith("cons "):
            self.make(command.split()[1], before, after)
        if write[0] is not None:
            self.write(*write)

    def make(self, kind, before, after):
        hold(after and after[-1] == str(self.labels), "the label of a new instance")
        self.rows[self.labels] = (kind, before[len(after) - 1:])
        self.labels += 1

    def write(self, label, parameter, old, new):
        hold(int(label) in self.rows, "a write to no instance")
        values = self.rows[int(label)][1]
        hold(values[int(parameter)] == old, "the old value of a write")
        values[int(parameter)] = new

    def text(self):
        return "".join(" ".join([str(l), k, *values]) + "\n" for l, (k, values) in sorted(self.rows.items()))


def compare(files, tables, folder, program, table, turns):
    """Whether the run begins; a fault where its trace is not the run's."""
    names = [os.path.join(folder, name) for name in ("program", "table", "turns", "last")]
    for name, data in zip(names, (program, table, turns)):
        with open(name, "wb") as file:
            file.write(data)
    *lines, end = told(files, "trace", *names[:3]).splitlines()
    answer, taken, blocks = told(files, "run", *names).split()[:3]
    hold(end == f"end {answer} {taken}", f"the last line: {end}, of a run that came to {answer} after {taken}")
    if blocks == "0":
        hold(not lines, "a line of a run that does not begin")
        return False
    replay = Replay(program[4], told(tables, names[0], names[1]))
    for line in lines:
        replay.line(line, turns)
    hold(replay.turns == int(taken), "as many lines as turns")
    hold(replay.text() == told(tables, names[0], names[3]), "the last table")
    return True


def main(second, files, tables, count):
    begun = refused = seed = 0
    with tempfile.TemporaryDirectory() as folder:
        while begun < count:
            seed += 1
            cases = subprocess.run([second, "generate", str(seed), str(CHUNK)], check=True, capture_output=True).stdout
            for i, (program, table, turns) in enumerate(runs(cases)):
                if begun == count:
                    break
                try:
                    went = compare(files, tables, folder, program, table, turns)
                except Fault as fault:
                    sys.exit(f"trace: run {i} of 'second generate {seed} {CHUNK}': {fault}")
                begun += went
                refused += not went
    print(f"trace: {begun} runs that begin and {refused} that do not: every trace is its run's")


if __name__ == "__main__":
    main(sys.argv[1], sys.argv[2], sys.argv[3], int(sys.argv[4]))
