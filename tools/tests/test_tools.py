"""Tests of the tools, by hand: python3 -m unittest discover tools/tests

They run the built program: crates/tss/out/tss, or the one that the variable TSS names; and crates/tss_mirror/out/tss_mirror, or the
one that TSS_MIRROR names, where it is built.
"""

import os
import re
import subprocess
import sys
import unittest

from common import PROGRAM, TOP, Files, read, tool

MIRROR = os.environ.get("TSS_MIRROR", os.path.join(TOP, "crates", "tss_mirror", "out", "tss_mirror"))


@unittest.skipUnless(os.path.exists(PROGRAM), "the program isn't built")
class Failures(unittest.TestCase):
    """What `main` does with a failure: no test of a crate sees the real streams and standard error."""

    def ended(self, given, taken):
        done = subprocess.run([PROGRAM, "order"], stdin=given, stdout=taken, stderr=subprocess.PIPE)
        return done.returncode, done.stderr.decode()

    def test_a_folder_is_no_input(self):
        folder = os.open(TOP, os.O_RDONLY)
        self.addCleanup(os.close, folder)
        self.assertEqual(self.ended(folder, subprocess.DEVNULL), (3, "tss: reading standard input failed\n"))

    def test_a_full_device_takes_nothing(self):
        with open(os.path.join(TOP, "examples", "late.match"), "rb") as match, open("/dev/full", "wb") as full:
            self.assertEqual(self.ended(match, full), (4, "tss: writing standard output failed\n"))

    def test_nothing_is_said_where_nothing_failed(self):
        with open(os.path.join(TOP, "examples", "late.match"), "rb") as match:
            self.assertEqual(self.ended(match, subprocess.DEVNULL), (0, ""))
        self.assertEqual(self.ended(subprocess.DEVNULL, subprocess.DEVNULL), (5, ""))


@unittest.skipUnless(os.path.exists(MIRROR), "tss_mirror isn't built")
class LiveMirrors(unittest.TestCase):
    def test_drawn_talks_are_answered_as_the_slow_model_says(self):
        printed, said, status = tool("slow_live.py", MIRROR, "7", "60")
        self.assertEqual((printed, said, status), ("60 talks of seed 7: no difference\n", "", 0))

    def test_failures_are_told(self):
        with open("/dev/full", "wb") as full:
            done = subprocess.run([MIRROR], stdin=subprocess.DEVNULL, stdout=full, stderr=subprocess.PIPE)
        self.assertEqual((done.returncode, done.stderr), (4, b"tss_mirror: writing standard output failed\n"))


class Faults(unittest.TestCase):
    def test_a_program_that_isnt_there_is_told_in_a_line(self):
        for words in (("races.py", "/no/program"), ("slow_words.py", "/no/program"), ("broken_texts.py", "/no/program", "1", "1"),
                      ("bench.py", "/no/program"), ("show_match.py", os.path.join(TOP, "examples", "late.match"), "--program", "/no/program")):
            out, said, status = tool(*words)
            self.assertEqual((out, status, said.count("\n")), ("", 1, 1), said)
            self.assertIn("build it by `cd crates/tss && rt run`", said)

    def test_words_that_ask_for_nothing_have_status_2(self):
        for words in (("claim.py", "--bogus"), ("draw_record.py",), ("study_delays.py",), ("races.py",), ("bench.py", "x", "--word", "y")):
            out, said, status = tool(*words)
            self.assertEqual((out, status), ("", 2), said)

    def test_a_closed_pipe_ends_a_tool_quietly(self):
        words = [sys.executable, os.path.join(TOP, "tools", "draw_record.py"), os.path.join(TOP, "examples", "two_mirrors.record")]
        read_end, write_end = os.pipe()
        os.close(read_end)
        done = subprocess.run(words, stdout=write_end, stderr=subprocess.PIPE)
        os.close(write_end)
        self.assertEqual(done.stderr, b"")


class Helps(unittest.TestCase):
    def test_each_tool_says_its_use(self):
        folder = os.path.join(TOP, "tools")
        for name in sorted(name for name in os.listdir(folder) if name.endswith(".py")):
            if not read(os.path.join(folder, name)).startswith("#!"):
                continue  # what tools share, which nobody runs
            with self.subTest(name):
                printed, said, status = tool(name, "--help")
                self.assertEqual((said, status), ("", 0))
                self.assertIn(f"    python3 tools/{name}", printed)


RECORD = """tss record 1
tss match 1
length 1
grid 3 1
mirrors 1
delays 0 1
pace 1
player ann 0 0 e
end
log 0 4
tick
step 0
tick
step 1
world 0 0 1
live ann 0 0 e 3 5 0
world 0 1 1
live ann 0 0 e 3 5 0
done
"""


class Drawings(Files):
    def drawn(self, text):
        return tool("draw_record.py", self.file("a.record", text))

    def test_a_lane_for_each_copy(self):
        picture, said, status = self.drawn(RECORD)
        self.assertEqual((said, status, picture.count("<polyline")), ("", 0, 2))

    def test_what_is_no_record_is_told_in_a_line(self):
        for text, wrong in (("", "line 1 isn't 'tss record 1'"), (RECORD[:-5], "the last line isn't 'done'"),
                            (RECORD.replace("step 1", "step 2"), "line 14, 'step 2', can't stand there in a legal record"),
                            ("tss record 1\ndone\n", "it has no log")):
            picture, said, status = self.drawn(text)
            self.assertEqual((picture, status, said.count("\n")), ("", 1, 1))
            self.assertTrue(said.endswith(f"is no record: {wrong}\n"), said)
        self.assertIn("No such file", tool("draw_record.py", "no/such/file")[1])

    def test_a_part_is_drawn(self):
        path = self.file("a.record", RECORD)
        picture, said, status = tool("draw_record.py", path, "--mirror", "0", "--from", "2", "--to", "4")
        self.assertEqual((said, status), ("", 0))
        self.assertIn("mirror 0, events 2 to 3 of 4", picture)
        for words, wrong in ((("--mirror", "1"), "no such mirror"), (("--from", "9"), "has 4 events"), (("--from", "2", "--to", "2"), "--to is above --from")):
            self.assertIn(wrong, tool("draw_record.py", path, *words)[1])

    def test_a_long_log_has_a_size_that_opens(self):
        events = [line for _ in range(6000) for line in ("tick", "step 0")]
        arrivals = [f"arrive 0 {n}" for n in range(4000)]
        setup = RECORD.split("log 0 4\n")[0].replace("length 1\n", "length 8192\n").replace("delays 0 1\n", "delays 0\n")
        setup = setup.replace("end\n", "".join(f"cmd 8000 0 {n} 0 go\n" for n in range(4000)) + "end\n")
        picture, said, status = self.drawn(setup + f"log 0 {len(events) + len(arrivals)}\n" + "\n".join(arrivals + events) + "\ndone\n")
        self.assertEqual((said, status), ("", 0))
        self.assertLess(len(picture), 400_000)
        self.assertLess(int(re.search(r'height="(\d+)"', picture).group(1)), 400)

    def test_help(self):
        self.assertIn("Draws a record as a picture", tool("draw_record.py", "--help")[0])


class Manuals(unittest.TestCase):
    def test_the_programs_page_has_each_word_and_status(self):
        page, said, status = tool("make_man.py")
        self.assertEqual((said, status), ("", 0))
        for word in ("order", "race", "soak N", "rewind E C T ...", "paint order, paint play", "0", "7"):
            self.assertIn(f"\n.TP\n.B {word}\n", page)
        self.assertIn("\n.B tss order|play|race|audit|score|lift|soak N|", page)

    def test_the_live_mirrors_page_has_each_request(self):
        page, said, status = tool("make_man.py", "tss_mirror")
        self.assertEqual((said, status), ("", 0))
        for request in ("own P ACT", "cmd T F N P ACT", "commands", "end"):
            self.assertIn(f"\n.TP\n.B {request}\n", page)
        self.assertIn("usage: tss_mirror M and status 2", page)

    def test_the_page_of_tools_is_what_they_say(self):
        page, said, status = tool("make_man.py", "--tools")
        self.assertEqual((said, status), ("", 0))
        self.assertEqual(read(os.path.join(TOP, "docs", "TOOLS.md")), page, "python3 tools/make_man.py --tools > docs/TOOLS.md")

    def test_each_tool_has_a_page(self):
        page, said, status = tool("make_man.py", "study_delays")
        self.assertEqual((said, status), ("", 0))
        self.assertIn("ticks that were executed again", page)
        self.assertEqual(tool("make_man.py", "nothing")[2], 1)
        self.assertEqual(tool("make_man.py", "match_lines")[2], 1)

    @unittest.skipUnless(os.path.exists("/bin/bash"), "bash isn't installed")
    def test_words_are_completed(self):
        script = tool("make_man.py", "--completions")[0] + 'COMP_WORDS=(tss pa); COMP_CWORD=1; _tss; echo "${COMPREPLY[@]}"; COMP_WORDS=(tss paint ""); COMP_CWORD=2; _tss; echo "${COMPREPLY[@]}"\n'
        done = subprocess.run(["/bin/bash", "-c", script], capture_output=True, text=True)
        self.assertEqual((done.stdout, done.stderr), ("paint\norder play\n", ""))


class Claims(unittest.TestCase):
    def files(self, cell):
        return ", ".join(re.findall(r"`([\w/]+)`", cell))

    def rows(self, table):
        """For each crate of a table of the page its files of specs/ and src/."""
        cells = [[cell.strip() for cell in line.split("|")[1:4]] for line in table.split("\n") if line.startswith("| `")]
        return [(crate.strip("`"), self.files(specs), self.files(src)) for crate, specs, src in cells]

    def listed(self, lines):
        """The same of what the tool prints."""
        rows = []
        for crate, files in (line.split(": ") for line in lines.split("\n") if line):
            parts = files.split("; ")
            src = parts[-1].replace(".rt", "") if ".rt" in parts[-1] else ""
            rows.append((crate, parts[0] if ".rt" not in parts[0] else "", src))
        return rows

    def test_each_crate_has_a_readme(self):
        architecture = read(os.path.join(TOP, "docs", "ARCHITECTURE.md"))
        for name in sorted(os.listdir(os.path.join(TOP, "crates"))):
            self.assertIn(f"[`{name}`](../crates/{name})", architecture)
            page = read(os.path.join(TOP, "crates", name, "README.md"))
            self.assertTrue(page.startswith(f"# {name}\n"), name)

    def test_each_crates_map_is_what_its_files_say(self):
        printed, said, status = tool("make_maps.py")
        self.assertEqual((said, status), ("", 0))
        for name, lines in re.findall(r"^(\w+):\n((?:- .*\n)+)", printed, re.M):
            self.assertIn(f"\n## Map\n\n{lines}", read(os.path.join(TOP, "crates", name, "README.md")), "python3 tools/make_maps.py --write")
        self.assertIn("there is no crate nothing", tool("make_maps.py", "nothing")[1])

    def test_the_page_lists_what_the_clauses_cite(self):
        printed, said, status = tool("claim.py")
        self.assertEqual((said, status), ("", 0))
        calls, behind = printed.split("\nThe laws add:\n")
        laws, live = behind.split("\nLive mirrors add:\n")
        page = read(os.path.join(TOP, "docs", "READING.md")).split("## What to read to believe the headline")[1]
        tables = page.split("| Crate |")[1:]
        self.assertEqual(self.rows(tables[0]), self.listed(calls))
        self.assertEqual(self.rows(tables[1]), self.listed(laws))
        self.assertEqual(self.rows(tables[2]), self.listed(live))


if __name__ == "__main__":
    unittest.main()
