"""What a session keeps in a folder while it is played and at its end, and what is put together of it again."""

import os
import re
import subprocess
import sys
import time
import unittest

from common import PROGRAM, Files, read, tool
from live_sessions import RIGHT, Served, free_ports
from test_serving import ARENA, BUILT, MIRROR_PROGRAM, SERVE


@unittest.skipUnless(BUILT, "tss and tss_mirror aren't built")
class Folders(Files):
    """What is kept, and what is put together of it."""

    def match(self, name="kept.match", **others):
        text = read(ARENA).replace("delays 0 4 20\n", "delays 0 4 200\n")
        for word, value in others.items():
            text = re.sub(rf"^{word} .*$", f"{word} {value}", text, flags=re.M)
        return self.file(name, text)

    def words(self, *words):
        return [*words, "--program", PROGRAM, "--mirror-program", MIRROR_PROGRAM]

    def gathered(self, *folders, match=None, more=()):
        return tool("serve_mirrors.py", match or self.match(), *self.words("--gather", *folders), *more)

    def killed(self, folder, *words, ticks=200, match=None):
        """A session whose tool is killed once its last mirror has gone through so many ticks."""
        journal = os.path.join(folder, "journal3")
        with Served("--no-page", "--bots", "8", "--rate", "50", "--lag", "100", "--jitter", "50", "--out", folder, *words, match=match or self.match()) as served:
            until = time.monotonic() + 90
            while time.monotonic() < until and not (os.path.exists(journal) and read(journal).count("\nturn\n") >= ticks):
                time.sleep(0.05)
            served.process.kill()
            served.process.wait()

    def test_a_session_whose_tool_was_killed_is_played_again(self):
        out = self.path("out")
        self.killed(out)
        told, said, status = self.gathered(out, more=("--out", self.path("again")))
        self.assertEqual((said, status), ("", 0), told)
        self.assertRegex(told, f"^{RIGHT}\n$")
        self.assertGreater(int(re.search(r"(\d+) commands", told).group(1)), 50)
        self.assertIn("played.record", os.listdir(self.path("again")))
        # the next session keeps these journals, and leaves none of its own
        again = tool("serve_mirrors.py", self.match(), *self.words("--no-page", "--bots", "4", "--seconds", "1", "--out", out))
        self.assertIn("unended1", again[0])
        self.assertEqual((again[2], sorted(os.listdir(out))), (0, ["commands.match", "played.match", "played.record", "unended1"]), again)
        self.assertEqual(self.gathered(os.path.join(out, "unended1")), (told, "", 0))

    def test_a_session_without_an_end_is_played_again(self):
        match = self.match("window.match", length=400)
        self.killed(self.path("out"), "--endless", ticks=300, match=match)
        told, said, status = self.gathered(self.path("out"), match=match, more=("--endless",))
        self.assertEqual((said, status), ("", 0), told)
        self.assertRegex(told, r"^mirrors 0, 1, 2, 3 show one world at tick \d\d\d+, which follows from the base at ticks? ")

    def test_a_journal_that_was_cut_is_played_as_far_as_it_goes(self):
        self.killed(self.path("out"), ticks=100)
        journal = os.path.join(self.path("out"), "journal2")
        with open(journal, "r+b") as file:
            file.truncate(os.path.getsize(journal) - 3)
        self.assertRegex(self.gathered(self.path("out"))[0], "^4 mirrors end at one world")
        self.assertIn("it is no journal of this match", self.gathered(self.path("out"), match=self.match("other.match", pace=1))[1])

    def test_a_folder_that_can_not_be_written_is_told_at_the_start(self):
        for out, why in ((self.file("taken", ""), "File exists"), ("/proc/x", "No such file or directory")):
            began = time.monotonic()
            told, said, status = tool("serve_mirrors.py", self.match(), *self.words("--no-page", "--seconds", "8", "--out", out))
            self.assertEqual((told, status), ("", 1))
            self.assertIn(f"{out}: {why}", said)
            self.assertLess(time.monotonic() - began, 8)

    def test_a_verdict_is_printed_though_nothing_can_be_kept(self):
        out = self.path("out")
        os.makedirs(os.path.join(out, "played.record"))
        told, said, status = tool("serve_mirrors.py", self.match(), *self.words("--no-page", "--bots", "4", "--seconds", "2", "--out", out))
        self.assertEqual((said, status), ("", 1), told)
        self.assertRegex(told, RIGHT)
        self.assertIn("Is a directory", told.split("\n")[-2])
        self.assertIn("journal0", os.listdir(out))

    def test_an_output_that_nobody_reads_or_that_is_closed_stops_nothing(self):
        for is_closed in (False, True):
            reading, writing = os.pipe()
            os.set_blocking(writing, False)
            try:
                while not is_closed:
                    os.write(writing, b"x" * 4096)
            except BlockingIOError:
                os.set_blocking(writing, True)
            if is_closed:
                os.close(reading)
            out = self.path(f"out{is_closed}")
            with Served("--no-page", "--bots", "4", "--seconds", "2", "--out", out, match=self.match(), stdout=writing) as served:
                os.close(writing)
                _, said, status = served.ended(60)
            self.assertEqual((said, status), ([], 0))
            self.assertIn("played.record", os.listdir(out))

    def test_broken_folders_are_told_in_a_line(self):
        match = self.match("two.match", mirrors=2, length=100)
        key, parts = self.file("key", "0123456789abcdef0123456789abcdef\n"), [self.path("part0"), self.path("part1")]
        self.ended_alone(match, key, parts)
        self.assertRegex(self.gathered(*parts, match=match)[0], "^2 mirrors end at one world, as `tss order` has it; ")
        whole = read(os.path.join(parts[1], "ended"))
        for text in ("", "\n".join(line for line in whole.split("\n") if line.startswith("cmd ")), whole[:len(whole) // 2], whole[:-5], "\udcff\udcfe\n", "tss match 1\n",
                     whole.replace("log 1 ", "log 1 9"), whole.replace("arrive", "arrived", 1), "".join(line + "\n" for line in whole.split("\n")[1:-1])):
            with open(os.path.join(parts[1], "ended"), "wb") as file:
                file.write(text.encode("utf-8", "surrogateescape"))
            told, said, status = self.gathered(*parts, match=match)
            self.assertEqual((told, status, said.count("\n")), ("", 1, 1), said + told)
            self.assertIn("part1", said)
        with open(os.path.join(parts[1], "ended"), "w") as file:
            file.write(whole)
        self.assertIn("it is of no mirror of this match", self.gathered(*parts, match=self.match("o.match", mirrors=2, length=101))[1])
        self.assertIn("it is of mirror 0, as another folder", self.gathered(parts[0], parts[0], match=match)[1])
        self.assertIn("wants a folder for each mirror", self.gathered(parts[0], match=match)[1])
        self.assertIn("no such folder", self.gathered(self.path("none"), match=match)[1])

    def ended_alone(self, match, key, parts):
        """Two mirrors, each run by a tool of its own, and ended."""
        places = [f"127.0.0.1:{port}" for port in free_ports(2)]
        running = [subprocess.Popen([sys.executable, SERVE, match, *self.words("--no-page", "--rate", "50", "--bots", "3", "--mirror", str(m), "--listen", places[m]),
                                     "--peer", f"{1 - m}={places[1 - m]}", "--key", key, "--out", parts[m]], stdout=subprocess.DEVNULL) for m in (1, 0)]
        self.assertEqual([one.wait(60) for one in running], [0, 0])


if __name__ == "__main__":
    unittest.main()
