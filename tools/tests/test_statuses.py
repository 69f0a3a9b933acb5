"""Each status that the program ends with, by a process of its own: python3 -m unittest discover tools/tests

What a process ends with, and what it says on standard error, no test of a crate sees. Run is the built program:
crates/tss/out/tss, or the one that the variable TSS names.
"""

import os
import resource
import subprocess
import unittest

from common import PROGRAM, TOP

ENDED = "tss match 1\nlength 1\ngrid 3 1\nmirrors 1\ndelays 0\npace 0\nplayer ann 0 0 e\nscript\nturn 0\nturn 0\nend\n"


PAGE = 4096


def sample(name):
    with open(os.path.join(TOP, "examples", name), encoding="ascii") as file:
        return file.read()


def ended(words, text="", limit=None, **streams):
    """The status, what was written, and what was said on standard error. A limit is of the process's memory, in bytes."""
    def limited():
        if limit is not None:
            resource.setrlimit(resource.RLIMIT_AS, (limit, limit))

    given = {} if "stdin" in streams else {"input": text.encode()}
    streams = {"stdout": subprocess.PIPE, "stderr": subprocess.PIPE, **streams}
    done = subprocess.run([PROGRAM, *words], preexec_fn=limited, check=False, **given, **streams)
    return done.returncode, (done.stdout or b"").decode(), (done.stderr or b"").decode()


def least_limit(words, text):
    """The least memory, in pages, with which the words are answered."""
    low, high = 1, 1 << 16
    while low < high:
        middle = (low + high) // 2
        low, high = (low, middle) if ended(words, text, limit=middle * PAGE)[0] == 0 else (middle + 1, high)
    return low


@unittest.skipUnless(os.path.exists(PROGRAM), "the program isn't built")
class Statuses(unittest.TestCase):
    def test_0_what_is_due_is_written(self):
        status, written, said = ended(["order"], sample("late.match"))
        self.assertEqual((status, written[:6], written[-5:], said), (0, "order ", "done\n", ""))

    def test_0_each_word_is_sent_where_it_belongs(self):
        """`main` chooses: `score` has its watchers, and `race` writes a record that `audit` finds legal."""
        status, written, said = ended(["score"], sample("copies.match"))
        self.assertEqual((status, said), (0, ""))
        self.assertEqual([line for line in written.split("\n") if line.startswith("watch ")], ["watch first 1", "watch repairs 3", "watch late 0"])
        status, record, said = ended(["race"], sample("late.match"))
        self.assertEqual((status, record[:13], said), (0, "tss record 1\n", ""))
        self.assertEqual(ended(["audit"], record)[0], 0)
        status, written, said = ended(["rewind", "2", "2", "4", "2", "3", "1", "0"], sample("late.match"))
        self.assertEqual((status, [line.split(" ")[1] for line in written.split("\n") if line.startswith("at ")], said), (0, ["4", "2", "3", "1", "0"], ""), "no word is lost")

    def test_1_memory_runs_out(self):
        needed = next(limit for limit in range(1, 4096) if ended(["soak", "0"], limit=limit << 20)[0] == 0)
        for limit in range(needed - 1, 0, -1):
            status, written, said = ended(["soak", "0"], limit=limit << 20)
            if status != 1:
                break  # too little for the process itself, which no program ends
            self.assertEqual((written, said), ("", "tss: out of memory\n"))
        self.assertLess(limit, needed - 1)

    def test_1_a_world_that_was_looked_up_finds_no_memory(self):
        """Looks at one tick and at 16 print as much, but keep one world and 16: some memory is enough for the former alone."""
        text = ENDED.replace("length 1\n", "length 8192\n")
        for kept in range(1, 256):
            one, each = (["rewind", str(8192 // kept), "64", *map(str, ticks)] for ticks in ([100] * 16, range(100, 116)))
            limit = (least_limit(one, text) + 16) * PAGE
            if (ended(one, text, limit=limit)[0], ended(each, text, limit=limit)[0]) == (0, 1):
                self.assertEqual(ended(each, text, limit=limit), (1, "", "tss: out of memory\n"))
                return
        self.fail("each memory is enough for all looks, or for none")

    def test_2_words_ask_for_nothing(self):
        status, written, said = ended(["order", "order"], stdin=subprocess.DEVNULL)
        self.assertEqual((status, written[:11], said), (2, "usage: tss ", ""))

    def test_3_a_read_fails(self):
        folder = os.open(TOP, os.O_RDONLY)
        self.addCleanup(os.close, folder)
        self.assertEqual(ended(["order"], stdin=folder), (3, "", "tss: reading standard input failed\n"))

    def test_4_a_write_fails(self):
        with open("/dev/full", "wb") as full:
            self.assertEqual(ended(["order"], sample("late.match"), stdout=full), (4, "", "tss: writing standard output failed\n"))

    def test_5_a_text_is_refused(self):
        self.assertEqual(ended(["order"], "tss match 3\n"), (5, "refused line 1 cause 1 head\n", ""))

    def test_6_a_record_is_not_legal(self):
        text = sample("two_mirrors.record")
        self.assertEqual(ended(["audit"], text)[0], 0)
        status, written, said = ended(["audit"], text.replace("tick\nstep 0\n", "step 0\ntick\n", 1))
        self.assertEqual((status, written.split(" ")[0], said), (6, "not", ""))

    def test_7_no_tick_is_left_for_a_joiner(self):
        self.assertEqual(ended(["join", "0", "2"], ENDED), (7, "too late 1 1\n", ""))

    def test_the_code_tells_where_standard_error_fails_too(self):
        folder = os.open(TOP, os.O_RDONLY)
        self.addCleanup(os.close, folder)
        with open("/dev/full", "wb") as full:
            self.assertEqual(ended(["order"], stdin=folder, stderr=full)[0], 3)


if __name__ == "__main__":
    unittest.main()
