"""The page of a match, in a real browser; and the sessions that pages of docs/ print."""

import os
import random
import re
import shutil
import subprocess
import unittest

from common import PROGRAM, TOP, Files, play, read, tool

CHROMIUM = shutil.which("chromium") or shutil.which("chromium-browser")


def blocks(lines):
    """The blocks among printed lines, by their heads without the clock."""
    found, at = {}, None
    for line in lines:
        words = line.split(" ")
        if words[0] == "world":
            at = found[tuple(words[1:3])] = []
        elif at is not None and words[0] in ("live", "dead", "shot", "item"):
            at.append(line)
        else:
            at = None
    return {head: "\n".join(block) for head, block in found.items()}


@unittest.skipUnless(os.path.exists(PROGRAM), "the program isn't built")
class Films(Files):
    """What needs no browser: which lines a page has, and faults."""

    def made(self, match, *words):
        page = self.path("page.html")
        out, said, status = tool("show_match.py", match, "--out", page, "--program", PROGRAM, *words)
        return said, status, read(page) if status == 0 else ""

    def test_records_races_and_nets_are_shown(self):
        for name, words, line in (("two_mirrors.record", (), "arrive 0 0 0"), ("race.match", ("--race",), "step 0 0"), ("net.lossy", (), "carry 0 1 0")):
            said, status, page = self.made(os.path.join(TOP, "examples", name), *words)
            self.assertEqual((said, status), ("", 0))
            self.assertIn(f'"line":"{line}"', page)

    def test_a_record_is_gone_through_as_its_logs_say(self):
        path = os.path.join(TOP, "examples", "two_mirrors.record")
        lines = read(path).split("\n")
        begin = lines.index("log 0 49") + 1
        shown = re.findall(r'"line":"(\w+ 0[^"]*)"', self.made(path)[2])
        due = [" ".join([line.split(" ")[0], "0", *line.split(" ")[1:]]) for line in lines[begin:begin + 49]]
        self.assertEqual(shown, due)

    def test_a_match_without_a_script_says_so(self):
        said, status, _ = self.made(os.path.join(TOP, "examples", "race.match"))
        self.assertEqual(status, 0)
        self.assertIn("there is no script", said)

    def test_the_end_of_a_long_script_is_shown(self):
        setup = read(os.path.join(TOP, "examples", "late.match")).split("script\n")[0]
        for lines, shown in (("tick 0\n" * 262_144, 144), ("arrive 0 0 0\n" * 262_144, 144)):
            said, status, page = self.made(self.file("long.match", setup + "script\n" + lines + "end\n"), "--from", "262000")
            self.assertEqual(status, 0)
            self.assertNotIn("can't be shown", said)
            self.assertEqual(sum(page.count(f'"line":"{line}"') for line in set(lines.split("\n")[:-1])), shown)

    def test_a_script_that_leaves_no_room_for_worlds_says_so(self):
        setup = read(os.path.join(TOP, "examples", "late.match")).split("script\n")[0]
        long = self.file("long.match", setup + "script\n" + "step 0 0\n" * 262_144 + "end\n")
        said, status, page = self.made(long, "--from", "262000")
        self.assertEqual(status, 0)
        self.assertIn("can't be shown", said)
        self.assertGreater(page.count('"line":"step 0 0"'), 30)

    def test_faults_are_told_in_one_line(self):
        text = read(os.path.join(TOP, "examples", "late.match"))
        for name, words in ((self.file("a.match", text.replace("turn 0", "turn x", 1)), ()), (self.file("b.match", text), ("--from", "99999")),
                            (self.path("nothing"), ()), (self.file("c.match", text), ("--program", "/bin/true"))):
            said, status, _ = self.made(name, *words)
            self.assertEqual((said.count("\n"), status), (1, 1), said)

    def test_the_title_is_the_files_name_alone(self):
        page = self.made(self.file("DATA {{data}}.match", read(os.path.join(TOP, "examples", "late.match"))))[2]
        self.assertIn("<title>DATA {{data}}.match</title>", page)


@unittest.skipUnless(os.path.exists(PROGRAM), "the program isn't built")
class Sessions(unittest.TestCase):
    """What pages print is what the program prints: their indented lines, of which `...` stands for some that are left out."""

    def blocks(self, page, behind):
        """The indented blocks behind a sentence of a page."""
        text = read(os.path.join(TOP, page)).split(behind, 1)[1]
        return [[line[4:] for line in block.split("\n") if line] for block in re.findall(r"(?m)(?:^    .*\n)+", text)]

    def printed(self, words, text):
        return subprocess.run([PROGRAM, *words], input=text.encode(), capture_output=True).stdout.decode().split("\n")[:-1]

    def example(self, name):
        return read(os.path.join(TOP, "examples", name))

    def test_readme(self):
        self.assertEqual(self.blocks("README.md", "rt try -- play < ../../examples/late.match\n")[0], self.printed(["play"], self.example("late.match")))

    def test_tour(self):
        order, _, *rest = self.blocks("docs/TOUR.md", "# A tour")
        self.assertEqual(order[1:], self.printed(["order"], self.example("copies.match")))
        left = iter(self.printed(["play"], self.example("copies.match")))
        for line in [line for block in rest for line in block if line != "..."]:
            self.assertIn(line, left)

    def test_arena(self):
        match, shown = self.blocks("docs/ARENA.md", "## An example\n")
        words = re.search(r"`(rewind [\d ]+)`", read(os.path.join(TOP, "docs", "ARENA.md"))).group(1).split(" ")
        self.assertEqual(shown, self.printed(words, "".join(line + "\n" for line in match)))

    def test_net(self):
        shown = self.blocks("docs/FORMATS.md", "[examples/net.lossy]")[0]
        self.assertEqual(shown[-1], "...")
        self.assertEqual(shown[:-1], self.printed(["lossy"], self.example("net.lossy"))[:len(shown) - 1])

    def test_order_and_rewind(self):
        for behind, words in (("## What `order` prints", ["order"]), ("So `rewind 2 1 4 2`", ["rewind", "2", "1", "4", "2"])):
            self.assertEqual(self.blocks("docs/FORMATS.md", behind)[0], self.printed(words, self.example("late.match")))

    def test_painting(self):
        setup = ["tss match 1", "length 2", "grid 3 1", "mirrors 1", "delays 0", "pace 0", "player ann 0 0 e", "cmd 0 0 0 0 go", "end"]
        shown = self.blocks("docs/FORMATS.md", "## Painting\n")[0]
        self.assertEqual(shown, self.printed(["paint", "order"], "".join(line + "\n" for line in setup)))


@unittest.skipUnless(CHROMIUM and os.path.exists(PROGRAM), "Chromium isn't installed, or the program isn't built")
class Pages(Files):
    def open(self, place):
        words = ["--headless", "--no-sandbox", "--disable-gpu", "--dump-dom", f"file://{self.path('page.html')}#{place}"]
        return subprocess.run([CHROMIUM, *words], capture_output=True, text=True).stdout

    def shown(self, dom):
        return {(m, c): text for m, c, text in re.findall(r'<pre id="block-(\d+)-(\d+)">([^<]*)</pre>', dom)}

    def make(self, match):
        out, said, status = tool("show_match.py", match, "--out", self.path("page.html"), "--program", PROGRAM)
        self.assertEqual((out, status), ("", 0))

    def test_each_pane_shows_what_play_prints_there(self):
        path = os.path.join(TOP, "examples", "copies.match")
        self.make(path)
        lines = read(path).split("\n")[:-1]
        begin = lines.index("script")
        script = [line for line in lines[begin + 1:-1] if line.split(" ")[0] not in ("world", "run")]
        late = script.index("arrive 1 0 0") + 1
        for place in (0, late, late + 1):
            worlds = [f"world {mirror} {copy}" for mirror in range(2) for copy in range(3)]
            text = "\n".join(lines[:begin + 1] + script[:place] + worlds + ["end", ""])
            dom = self.open(place)
            printed = play(text)
            end = next(at for at, line in enumerate(printed) if line.startswith("mirror "))
            self.assertEqual(self.shown(dom), blocks(printed[:end]))
        self.assertIn('class="copy repaired"', dom)
        self.assertIn('aria-label="mirror 1, copy 0, clock 6: live ann', dom)
        self.assertIn("a ann</b>health 3, ammo 5, score 0", dom)

    def test_delays_are_those_of_the_plan_in_force(self):
        text = read(os.path.join(TOP, "examples", "late.match")).replace("pace 1\n", "pace 0\nplan 5\n").replace("script\n", "script\nrestagger 0 1\nturn 0\n")
        self.make(self.file("plans.match", text))
        self.assertIn("copy 0, delay 2, clock 0", self.open(0))
        dom = self.open(2)
        self.assertIn("copy 0, delay 5, clock 0", dom)
        self.assertIn("<small>clock 1, plan 1</small>", dom)

    def test_the_widest_match_opens_in_two_seconds(self):
        draw = random.Random(3)
        lines = ["tss match 2", "length 400", "grid 64 64", "mirrors 8", "delays 0 1 2 4 8 16 32 64", "pace 0"]
        lines += [f"player p{i} {2 * i} {2 * (i % 8)} s" for i in range(32)]
        lines += [f"cmd {draw.randrange(400)} {i % 8} {i // 8} {i % 32} {draw.choice(('go', 'left', 'shoot'))}" for i in range(2000)]
        lines += ["script"] + [f"turn {i % 8}" for i in range(2400)] + ["end", ""]
        self.make(self.file("wide.match", "\n".join(lines)))
        dom = self.open(2000)
        self.assertEqual(len(self.shown(dom)), 64)
        self.assertEqual(len(set(re.findall(r'<b style="color: ([^"]*)"', dom))), 32)
        opened = int(re.search(r'data-opened="(\d+)"', dom).group(1))
        self.assertLess(opened, 2000, "milliseconds until all panes were drawn")


if __name__ == "__main__":
    unittest.main()
