"""python3 tools/mir2c/test_sample.py: a proved library with what a program may be written in, translated, compiled with the address and undefined-behaviour
sanitizers and called from C.

sample.txt is its source. The kit proves it and writes its MIR, half a minute's work, in a folder of its own."""
import pathlib
import shutil
import subprocess
import sys
import tempfile
import unittest

HERE = pathlib.Path(__file__).parent
WARNINGS = ["-std=c99", "-pedantic", "-Wall", "-Wextra", "-Werror", "-Wno-maybe-uninitialized"]
BUILDS = (["-O1", "-g", "-fsanitize=address,undefined", "-fno-sanitize-recover=all"], ["-O2"])
HEADER = """\
#include <stddef.h>
#include <stdint.h>
typedef struct {
    uint64_t number; /* the answer */
} sample_answer;
"""
NUMBERS, BYTES = "uint64_t a, uint64_t b", "const uint8_t *s, size_t n, uint64_t x"
PARAMETERS = {"generic": NUMBERS, "bound": NUMBERS, "closure": NUMBERS, "elements": NUMBERS, "tried": BYTES, "optional": BYTES, "chains": BYTES, "loops": BYTES,
              "buffers": "const uint8_t *s, size_t n, uint8_t *out, size_t m"}  # fmt: skip
MOST = 1 << 64


def tried(s, at):
    if len(s) <= at:
        return 2004
    if s[at] == 0:
        return 2005
    if len(s) <= at + 1:
        return 2004
    return 1000 if s[at] > 100 else s[at + 1]


def generic(a, b):
    return ((a + b) * 42 if b == 3 else a - b) % MOST


def bound(a, b):
    return (10 * (b < a) + 100 + 1000 * (a == b) + 5 + 40) % MOST


def optional(s, at):
    return (s[at] if at < len(s) else 99) if s else 500


def chains(s, x):
    b = x % 256
    flags = all(c == b for c in s) + 2 * (b in s) + 4 * any(c + 1 == x for c in s) + 8 * (s == s[::-1])
    return flags * 10000 + (s.index(b) if b in s else 50) * 100 + (s.index(b) if b in s else 60)


def loops(s, n):
    total = sum(s) + sum(int.from_bytes(s[i : i + 2], "little") for i in range(0, len(s) - 1, 2)) + sum(range(n))
    for i in reversed(range(n)):
        total = (total * 2 + i) % MOST
    return total


def elements(at, x):
    i = at % 3
    return ((x, 20, 30)[i] + i + 1 + (100, 200, 300)[i] + (0, 5, 6)[i]) % MOST


STRINGS = [b"", b"\0", b"\x07", b"\x07\x08", b"\0\x01", b"\x65\x01", b"\x64\x01\x64", b"\x05\x05\x05\x05", b"\x01\x02\x03\x02\x01", bytes(range(40)), b"\xff" * 9]
PLACES = [0, 1, 2, 5, 6, 39, 100, 257, 300]
COUNTS = [(0, 0), (1, 3), (3, 1), (7, 7), (MOST - 1, 3), (MOST - 1, MOST - 1), (5, MOST - 2)]


def expected():
    """The answers, in the order in which MAIN asks for them."""
    out = [meaning(a, b) for a, b in COUNTS for meaning in (generic, bound, elements, lambda a, b: (a + b) % MOST)]
    for s in STRINGS:
        out += [meaning(s, x) for x in PLACES for meaning in (tried, optional, chains, loops)]
        out += [1 + m - len(s) if len(s) <= m else 0 for m in ROOM]
    return out


ROOM = [0, 1, 9, 48]
MAIN = """\
#include "sample.h"
#include <stdio.h>
#include <string.h>
#include <stdlib.h>
static void say(sample_answer a) { printf("%llu\\n", (unsigned long long)a.number); }
int main(void)
{
    static const uint64_t counts[][2] = { COUNTS }, places[] = { PLACES };
    static const struct { size_t n; uint8_t s[48]; } strings[] = { STRINGS };
    static const size_t room[] = { ROOM };
    for (size_t i = 0; i < sizeof counts / sizeof *counts; i++) {
        uint64_t a = counts[i][0], b = counts[i][1];
        say(sample_generic(a, b)); say(sample_bound(a, b)); say(sample_elements(a, b)); say(sample_closure(a, b));
    }
    for (size_t i = 0; i < sizeof strings / sizeof *strings; i++) {
        size_t n = strings[i].n;
        uint8_t *s = malloc(n + !n);
        memcpy(s, strings[i].s, n);
        for (size_t k = 0; k < sizeof places / sizeof *places; k++) {
            say(sample_tried(s, n, places[k])); say(sample_optional(s, n, places[k])); say(sample_chains(s, n, places[k])); say(sample_loops(s, n, places[k]));
        }
        for (size_t k = 0; k < sizeof room / sizeof *room; k++) {
            uint8_t *out = malloc(room[k] + !room[k]);
            say(sample_buffers(s, n, out, room[k]));
            free(out);
        }
        free(s);
    }
    return 0;
}
"""


def program():
    """MAIN with what it asks about."""
    rows = {
        "COUNTS": [f"{{ UINT64_C({a}), UINT64_C({b}) }}" for a, b in COUNTS],
        "STRINGS": [f"{{ {len(s)}, {{ {', '.join(map(str, s)) or '0'} }} }}" for s in STRINGS],
        "PLACES": map(str, PLACES), "ROOM": map(str, ROOM),
    }  # fmt: skip
    text = MAIN
    for word, row in rows.items():
        text = text.replace(f"{{ {word} }}", f"{{ {', '.join(row)} }}")
    return text


def library(work):
    """The library's MIR, proved."""
    crate = work / "crates" / "sample"
    (crate / "src").mkdir(parents=True)
    (crate / "specs").mkdir()
    shutil.copy(HERE / "sample.txt", crate / "src" / "lib.rt")
    (work / "crates.txt").write_text("sample:\n")
    done = subprocess.run(["rt", "lib"], cwd=crate, stdout=subprocess.PIPE, stderr=subprocess.STDOUT, text=True)
    if done.returncode:
        raise AssertionError(done.stdout)
    return crate / "out" / "rlib"


class Sample(unittest.TestCase):
    @classmethod
    def setUpClass(cls):
        cls.folder = tempfile.TemporaryDirectory()
        cls.addClassCleanup(cls.folder.cleanup)
        cls.work = pathlib.Path(cls.folder.name)
        cls.library = pathlib.Path(sys.argv[1]) if len(sys.argv) > 1 else library(cls.work)
        kit = pathlib.Path(subprocess.run(["rt", "doc"], check=True, stdout=subprocess.PIPE, text=True).stdout.strip()).parent
        cls.folders = [cls.library, kit / "rlibs" / "core.rlib"]
        (cls.work / "sample.h").write_text(HEADER + "".join(f"sample_answer sample_{name}({p});\n" for name, p in PARAMETERS.items()))
        cls.text = cls.translated()
        (cls.work / "sample.c").write_text(cls.text)

    @classmethod
    def translated(cls):
        words = [sys.executable, HERE, "a kit", cls.work / "sample.h", "sample", *cls.folders]
        return subprocess.run(words, check=True, stdout=subprocess.PIPE, text=True).stdout

    def test_answers(self):
        (self.work / "main.c").write_text(program())
        for build in BUILDS:
            subprocess.run(["gcc", *WARNINGS, *build, f"-I{self.work}", self.work / "sample.c", self.work / "main.c", "-o", self.work / "a"], check=True)
            got = subprocess.run([self.work / "a"], check=True, stdout=subprocess.PIPE, text=True).stdout.split()
            self.assertEqual([int(number) for number in got], expected())

    def test_names(self):
        """An instance is named after its types, its own names are C's to 63 letters, and the same text comes again."""
        for name in ("sample__swapped__u64_u8", "sample__swapped__bool_u64", "sample__count__2", "sample__count__40", "sample__doubled__Load"):
            self.assertIn(f" {name}(", self.text)
        words = {word for word in self.text.replace("(", " ").replace(";", " ").split() if "__" in word}
        self.assertEqual([word for word in words if len(word) > 63 and word.isidentifier()], [])
        self.assertEqual(self.translated(), self.text)

    def test_copies(self):
        """The kit's copy of elements is known."""
        self.assertIn("memcpy(l2, l1, (size_t)l3 * 1);", self.text)

    def test_in_place(self):
        """At -O2 nothing is called but memory functions: closures, iterators and what `?` stands for are expanded in place."""
        subprocess.run(["gcc", "-std=c99", "-O2", "-S", f"-I{self.work}", self.work / "sample.c", "-o", self.work / "sample.s"], check=True)
        lines = (self.work / "sample.s").read_text().splitlines()
        called = {line.split()[1].split("@")[0] for line in lines if line.startswith("\tcall") or line.startswith("\tjmp\t") and not line.startswith("\tjmp\t.")}
        self.assertEqual([name for name in sorted(called) if name.startswith("core__") or "fn__" in name], [])


if __name__ == "__main__":
    unittest.main(argv=sys.argv[:1])
