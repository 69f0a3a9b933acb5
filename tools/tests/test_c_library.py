"""The library for C, its header and its samples: python3 -m unittest discover tools/tests

The library is built by `rt lib` in crates/mirror_c, or is the file that the variable LIBMIRROR names. Its hosts are compared with
the built program: crates/tss/out/tss, or the one that the variable TSS names.
"""

import os
import re
import shutil
import subprocess
import sys
import tempfile
import unittest

from common import PROGRAM, TOOLS, TOP, read

C = os.path.join(TOOLS, "c")
SOURCES = os.path.join(TOP, "crates", "mirror_c", "src")
SAID_BY_MISUSE = """\
no engine: 16 16 16 16 16 16 16 16 16 16 16 16 16 16 16 16 16
not legal: 20 20 20 20 20 20 20 20 20 20 20
no joiner: 20 20 17 19 19, and no engine: 16
joiner: 9, room 1
made: 9
not there: 17 17 17 17 17 17 17 17; room 0: 0
over an engine: 20 20 17 19, clock 0, length 5, copies 2, drained 0
beyond: 18 18
room 2, taken: 2, again: 3, room 1
restaggered: 7, no room: 19, plan 1
clocks: 4 3 2
late: 4, bound 2, then no room: 19
accepted 1: 0.0 for 4
turned away 1: 3.9, bound 2
"""


def why_not():
    if not shutil.which("cc") or not shutil.which("ar"):
        return "no cc or ar is here"
    if not shutil.which("rt"):
        return "no rt is here, so neither the library nor the kit's calls for memory"
    if not os.environ.get("LIBMIRROR") and not os.path.exists(PROGRAM):
        return "nothing is built: build the program first, or name the library by LIBMIRROR"
    return None


def header():
    """The header without its comments."""
    return re.sub(r"/\*.*?\*/", "", read(os.path.join(C, "tsync_mirror.h")), flags=re.S)


def source(name):
    return re.sub(r"//.*", "", read(os.path.join(SOURCES, name)))


# how a parameter or a field of the crate is passed to C
PASSED = {"u8": ["uint8_t"], "u32": ["uint32_t"], "Tick": ["uint32_t"], "usize": ["size_t"], "Answer": ["tsync_mirror_answer"], "&mut Handle": ["tsync_mirror *"],
          "&[Tick]": ["const uint32_t *", "size_t"], "Global": []}
LISTS = {"RunItem": "tsync_mirror_item", "CommandItem": "tsync_mirror_command", "TurnedItem": "tsync_mirror_turned_item", "HistoryItem": "tsync_mirror_history_item"}


def passed(kind):
    listed = re.fullmatch(r"&mut \[(\w+)\]", kind)
    return [f"{LISTS[listed[1]]} *", "size_t"] if listed else PASSED[kind]


def exports():
    """What each exported function of the crate is to C: its result and its parameters' types."""
    found = {}
    for name, given, answer in re.findall(r'pub extern "C" fn (\w+)\((.*?)\)(?: -> (\w+))?\s+(?:requires|ensures)', source("lib.rt"), re.S):
        kinds = [part.split(":", 1)[1].strip() for part in given.split(",") if ":" in part]
        found[name] = (answer and PASSED[answer][0] or "void", [one for kind in kinds for one in passed(kind)])
    return found


def prototypes():
    """What the header declares of each function."""
    found = {}
    for answer, name, given in re.findall(r"^(tsync_mirror_answer|void) (tsync_mirror_\w+)\((.*?)\);", header(), re.S | re.M):
        kinds = [re.sub(r"(\w)\s*\*\s*", r"\1 *", re.sub(r"\b(delays|count|copies|length|room|restaggers|time|from|number|copy|plan|place|out|t)$", "", one.strip()).strip())
                 for one in given.split(",")]
        found[name] = (answer, kinds)
    return found


def constants():
    """The kinds of answer and of event, in the crate and in the header."""
    ours = {f"TSYNC_MIRROR_{name}": int(n) for name, n in re.findall(r"pub const (\w+): u32 = (\d+);", source("codes.rt"))}
    theirs = {name: int(n) for name, n in re.findall(r"(TSYNC_MIRROR_\w+) = (\d+)", header())}
    return ours, theirs


def fields(of, text):
    """The names of a struct's fields of 32 bits, in order."""
    ours = re.search(rf"pub struct {of} \{{(.*?)\}}", text, re.S)
    return re.findall(r"pub (\w+): u32", ours[1])


def fields_in_c(of):
    return [name.strip() for name in re.search(r"struct \{ uint32_t ([^;]*); \} " + of + ";", header())[1].split(",")]


class Header(unittest.TestCase):
    def test_the_prototypes_are_the_exports(self):
        self.assertEqual(prototypes(), exports())
        self.assertEqual(len(exports()), 19)

    def test_the_constants_are_the_crates(self):
        ours, theirs = constants()
        self.assertEqual(theirs, ours)
        self.assertEqual(len(ours), 20)

    def test_the_structs_are_the_crates(self):
        text = source("answer.rt")
        for ours, theirs in {"Answer": "tsync_mirror_answer", **LISTS}.items():
            self.assertEqual(fields_in_c(theirs), fields(ours, text))

    def test_python_has_the_same(self):
        sys.path.insert(0, C)
        import tsync_mirror
        ours, _ = constants()
        self.assertEqual({name: getattr(tsync_mirror, name.removeprefix("TSYNC_MIRROR_")) for name in ours}, ours)
        for ours, theirs in {"Answer": "Answer", "RunItem": "Item", "CommandItem": "Command", "TurnedItem": "TurnedItem", "HistoryItem": "HistoryItem"}.items():
            names = [name.rstrip("_") for name, _ in getattr(tsync_mirror, theirs)._fields_]
            self.assertEqual(names, fields(ours, source("answer.rt")))


@unittest.skipIf(why_not(), why_not())
class Library(unittest.TestCase):
    @classmethod
    def setUpClass(cls):
        cls.folder = tempfile.TemporaryDirectory()
        cls.addClassCleanup(cls.folder.cleanup)
        built = subprocess.run([os.path.join(C, "build.sh"), cls.folder.name], capture_output=True, text=True, check=False)
        if built.returncode:
            raise AssertionError(built.stdout[-2000:] + built.stderr[-2000:])

    def path(self, name):
        return os.path.join(self.folder.name, name)

    def said(self, *words):
        done = subprocess.run(words, capture_output=True, text=True, check=False)
        self.assertEqual(done.returncode, 0, done.stdout[-2000:] + done.stderr[-2000:])
        return done.stdout

    def test_the_sample_ends_in_order(self):
        lines = self.said(self.path("sample")).splitlines()
        self.assertEqual(lines[-1], "equal to the time-ordered execution of what was accepted")
        self.assertTrue(any(": late " in line for line in lines), "a command is late")
        self.assertTrue(any(": taken 1" in line for line in lines), "a copy is repaired")

    def test_a_joiner_ends_at_the_same_worlds(self):
        lines = self.said(self.path("join")).splitlines()
        self.assertRegex(lines[0], "^joins at 8 under plan 1, of [0-9]+ accepted$")
        self.assertEqual(lines[-1], "equal")

    def test_misuse_is_answered(self):
        said = self.said(self.path("misuse"))
        self.assertEqual(said[:len(SAID_BY_MISUSE)], SAID_BY_MISUSE)
        history, made, last, *more = said[len(SAID_BY_MISUSE):].split("\n")
        self.assertEqual(history[:14], "history of 12:")
        self.assertEqual(history[14:], " arrive 0.0 for 4 restagger 1" + " tick" + " tick step 0" + " tick step 0 step 1" + " tick step 0 step 1" + " arrive 3.9 for 1")
        self.assertEqual((made, last), ("made over one that was there: 9", SAID_BY_MISUSE.split("\n")[0]))
        self.assertEqual(more, [
            "late: 4 4 4 4, room 1, noted 1, taken 2, then none: 19, late 4, repeat 3, other 19",
            "too wide: 17 17 17 17 17",
            "from within: 16, executed 1, clock 1; drained 1, executed 5",
            "",
        ])

    def test_the_rust_sample_ends_in_order(self):
        if not os.path.exists(self.path("sample_rs")):
            self.skipTest("no rustc is here")
        self.assertEqual(self.said(self.path("sample_rs")).count("|"), 8)

    def test_the_header_has_no_warning(self):
        with open(self.path("only.c"), "w") as out:
            out.write('#include "tsync_mirror.h"\nint main(void) { return sizeof(tsync_mirror) == 16 ? 0 : 1; }\n')
        for compiler, words in (("cc", ["-std=c99", "-x", "c"]), ("c++", ["-std=c++11", "-x", "c++"])):
            if shutil.which(compiler):
                self.assertEqual(self.said(compiler, *words, "-pedantic", "-Wall", "-Wextra", "-Werror", "-I", C, self.path("only.c"), "-fsyntax-only"), "")

    def test_an_installed_library_is_linked(self):
        prefix = self.path("prefix")
        self.said(os.path.join(C, "install.sh"), prefix, self.folder.name)
        pc = read(os.path.join(prefix, "lib", "pkgconfig", "tsync_mirror.pc"))
        self.assertIn(f"prefix={prefix}\n", pc)
        flags = re.search(r"^Cflags: (.*)$", pc, re.M)[1] + " " + re.search(r"^Libs: (.*)$", pc, re.M)[1]
        flags = flags.replace("${includedir}", f"{prefix}/include").replace("${libdir}", f"{prefix}/lib")
        self.said("cc", "-std=gnu11", os.path.join(C, "sample.c"), *flags.split(), f"-Wl,-rpath,{prefix}/lib", "-o", self.path("linked"))
        self.assertEqual(self.said(self.path("linked")), self.said(self.path("sample")))
        refused = subprocess.run([os.path.join(C, "install.sh"), prefix, os.path.join(prefix, "none")], capture_output=True, text=True, check=False)
        self.assertEqual(refused.returncode, 1)
        self.assertIn("build it by tools/c/build.sh", refused.stderr)

    def test_python_refuses_what_does_not_fit(self):
        sys.path.insert(0, C)
        import tsync_mirror
        lib = tsync_mirror.load(self.path("libtsync_mirror.so"))
        for plans in ([], [[0, 3], [1]], [[0, 1 << 32]]):
            with self.assertRaises(ValueError):
                tsync_mirror.Mirror(lib, plans, 8, 4, 0, list, {})
        m = tsync_mirror.Mirror(lib, [[0]], 8, 4, 0, list, {})
        with self.assertRaises(ValueError):
            m.arrive(1, 1 << 32, 0)
        self.assertEqual(m.arrive(1, 300, 0).kind, tsync_mirror.NOT_THERE)
        self.assertEqual((m.length(), m.clock(), m.drained()), (8, 0, False))

    def test_it_hides_what_is_not_its_own(self):
        names = {line.split()[-1] for line in self.said("nm", "-D", "--defined-only", self.path("libtsync_mirror.so")).splitlines()}
        self.assertEqual(names, set(exports()))

    @unittest.skipUnless(os.path.exists(PROGRAM), "the program isn't built")
    def test_a_host_plays_as_the_program(self):
        said = self.said(sys.executable, os.path.join(C, "compare.py"), self.path("libtsync_mirror.so"), PROGRAM, "1", "40")
        self.assertRegex(said, "^40 matches of seed 1, no difference: .*, joins [1-9]")

    @unittest.skipUnless(shutil.which("valgrind"), "no valgrind is here")
    def test_no_memory_is_lost(self):
        for name in ("sample", "join", "misuse"):
            self.said("valgrind", "-q", "--leak-check=full", "--error-exitcode=9", self.path(name))


if __name__ == "__main__":
    unittest.main()
