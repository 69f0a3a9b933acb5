"""The study of delays: its counts beside a slow model over whole runs, its faults, its files."""

import csv
import json
import os
import random
import re
import unittest

from common import PROGRAM, SAMPLE, TOP, Files, play, read, tool

import slow_model
from study_delays import Along


class Counted(slow_model.Mirror):
    """A slow mirror that counts what its repairs execute again."""

    def __init__(self, match, opening):
        super().__init__(match, opening)
        self.again = [0] * len(match.plans[0])

    def settle(self, runs):
        for c in range(len(runs) - 2, -1, -1):
            if runs[c][:len(runs[c + 1])] != runs[c + 1]:
                self.again[c] += slow_model.beats(runs[c]) - slow_model.beats(runs[c + 1])
                runs[c] = runs[c + 1] + slow_model.ordered(self.accepted, slow_model.beats(runs[c + 1]), slow_model.beats(runs[c]))
                self.repairs += 1
        repaired, before = self.repairs, super().settle(runs)
        assert before == 0 and repaired == self.repairs
        return None

    def out_of_place(self):
        """How many commands of copy 0's run stand behind another number of beats than their time."""
        ran, count = 0, 0
        for item in self.runs[0]:
            if item is slow_model.BEAT:
                ran += 1
            else:
                count += item[0] != ran
        return count


def drawn_match(seed):
    draw = random.Random(seed)
    length, mirrors, copies = draw.randrange(3, 14), draw.randrange(1, 3), draw.randrange(1, 5)
    delays = sorted(draw.sample(range(8), copies))
    commands = [(draw.randrange(length), f, n, 0, "go") for f in range(mirrors) for n in range(draw.randrange(6))]
    script = []
    for _ in range(draw.randrange(10, 70)):
        m = draw.randrange(mirrors)
        arrives = commands and draw.random() < 0.4
        script.append(("arrive", m) + draw.choice(commands)[1:3] if arrives else (draw.choice(("turn", "turn", "turn", "tick")), m))
    return slow_model.Match(length, (5, 1), mirrors, [delays], 0, set(), [], [("ann", 0, 0, "e")], commands, script)


class Counts(unittest.TestCase):
    def test_what_is_counted_is_what_whole_runs_say(self):
        repaired = 0
        for seed in range(250):
            match = drawn_match(seed)
            times = {x[1:3]: x[0] for x in match.commands}
            slow = [Counted(match, lambda: slow_model.Arena(match)) for _ in range(match.mirrors)]
            along = [Along(number, match.plans[0], match.length) for number in range(match.mirrors)]
            for line in match.script:
                slow_one, one = slow[line[1]], along[line[1]]
                if line[0] == "arrive":
                    slow_one.arrive(match.command(*line[2:]))
                    one.arrive(line[2:], times[line[2:]])
                else:
                    slow_one.turn() if line[0] == "turn" else slow_one.tick()
                    one.turn(steps=line[0] == "turn")
                    self.assertEqual(one.astray[-1], slow_one.out_of_place(), f"seed {seed}, {line}")
            for slow_one, one in zip(slow, along):
                while any(slow_model.beats(run) < match.length for run in slow_one.runs):
                    slow_one.turn()
                one.drain()
                self.assertEqual((one.again, one.repaired, len(one.names)), (slow_one.again, slow_one.repairs, len(slow_one.accepted)), f"seed {seed}")
                self.assertEqual((one.at.out_of_place(), one.since, sum(one.waits)), (0, {}, sum(one.astray)), f"seed {seed}")
                repaired += one.repaired
        self.assertGreater(repaired, 200, "repairs in drawn matches")

    def test_a_repair_is_booked_where_its_copy_ran(self):
        match = slow_model.Match(8, (9, 1), 1, [[0, 4]], 0, set(), [], [("ann", 0, 0, "e")], [(1, 0, 0, 0, "go")], [])
        one = Along(0, [0, 4], match.length)
        told = [one.turn(True) for _ in range(3)] + [one.arrive((0, 0), 1)] + [one.turn(True) for _ in range(4)]
        self.assertEqual(told, [[]] * 6 + [["repair 0 1"]] + [[]])
        self.assertEqual((one.again, one.waits), ([4, 0], [2]))


def sample_match(delays):
    """The sample as the slow model has it."""
    lines = tool("match_of_trace.py", SAMPLE, "--delays", delays, "--grid", "24", "12")[0].split("\n")
    numbers = lambda word: next([int(n) for n in line.split(" ")[1:]] for line in lines if line.startswith(word + " "))
    of = lambda *words: [line.split(" ") for line in lines if line.split(" ", 1)[0] in words]
    commands = [(int(c[1]), int(c[2]), int(c[3]), int(c[4]), c[5]) for c in of("cmd")]
    script = [(words[0], *map(int, words[1:])) for words in of("turn", "arrive")]
    return slow_model.Match(numbers("length")[0], tuple(numbers("grid")), numbers("mirrors")[0], [numbers("delays")], 0, set(), [],
                            [("ann", 0, 0, "e")], commands, script)


class Page(unittest.TestCase):
    """The tables of docs/STUDY.md, beside whole runs of the sample."""

    def figures(self, delays):
        match = sample_match(delays)
        commands = {x[1:3]: x for x in match.commands}
        mirrors = [Counted(match, None) for _ in range(match.mirrors)]
        astray = []
        for line in match.script:
            if line[0] == "arrive":
                mirrors[line[1]].arrive(commands[line[2:]])
            else:
                mirrors[line[1]].turn()
                astray.append(mirrors[line[1]].out_of_place())
        for mirror in mirrors:
            while any(slow_model.beats(run) < match.length for run in mirror.runs):
                mirror.turn()
                astray.append(mirror.out_of_place())
        again = sum(map(sum, (mirror.again for mirror in mirrors)))
        repaired = sum(mirror.repairs for mirror in mirrors)
        return {"late": str(sum(mirror.turned for mirror in mirrors)), "accepted": f"{sum(len(mirror.accepted) for mirror in mirrors):,}",
                "repaired": f"{repaired:,}", "again": f"{again:,}", "each": f"{again / repaired:.1f}",
                "executed": f"{match.mirrors * len(mirrors[0].runs) * match.length + again:,}",
                "astray": f"{sum(astray) / len(astray):.2f}", "copies": str(len(mirrors[0].runs))}

    def test_its_figures_are_those_of_whole_runs(self):
        tables = re.findall(r"\| Delays \|([^\n]*)\|\n[^\n]*\n((?:\| [^\n]*\n)+)", read(os.path.join(TOP, "docs", "STUDY.md")))
        rows = 0
        for head, lines in tables:
            names = [name.strip() for name in head.split("|")]
            for line in lines.strip().split("\n"):
                delays, *cells = [cell.strip() for cell in line.strip("|").split("|")]
                found = self.figures(delays)
                for name, cell in zip(names, cells):
                    if name in found:
                        self.assertEqual(cell, found[name], f"{name} of {delays}")
                rows += 1
        self.assertEqual(rows, 11)


@unittest.skipUnless(os.path.exists(PROGRAM), "the program isn't built")
class Studies(Files):
    def setUp(self):
        super().setUp()
        self.text = tool("match_of_trace.py", SAMPLE, "--delays", "0 10 30")[0]
        self.match = self.file("a.match", self.text)

    def study(self, *words, path=None):
        return tool("study_delays.py", path or self.match, "--program", PROGRAM, *words)

    def test_the_numbers_are_those_of_play(self):
        table, data = self.path("a.csv"), self.path("a.json")
        _, said, status = self.study("--delays", "0 10 30", "--delays", "0 60", "--csv", table, "--json", data)
        self.assertEqual((said, status), ("", 0))
        rows = list(csv.DictReader(read(table).split("\n")))
        for row, one in zip(rows, json.loads(read(data))):
            lines = play(self.text.replace("delays 0 10 30\n", f"delays {row['delays']}\n"))
            mirrors = [line.split(" ") for line in lines if line.startswith("mirror ")]
            self.assertEqual(int(row["late"]), sum(int(words[5]) for words in mirrors))
            self.assertEqual(int(row["accepted"]), sum(int(words[3]) for words in mirrors))
            self.assertEqual(int(row["repaired"]), sum(int(words[7]) for words in mirrors))
            self.assertEqual((one["late"], one["again"], one["executed"]), (int(row["late"]), int(row["again"]), int(row["executed"])))
            self.assertEqual((sum(one["again_by_copy"]), len(one["late_commands"])), (one["again"], one["late"]))
        self.assertEqual(len(rows), 2)

    def test_a_delay_that_is_told_lets_the_command_in(self):
        out = self.study("--delays", "0 10 30")[0]
        f, n, lag, mirror, last = re.search(r"command (\d+)\.(\d+) came (\d+) ticks after its own at mirror (\d+); a last delay of (\d+) lets it in", out).groups()
        for delay, late in ((int(last), False), (int(last) - 1, True)):
            lines = play(self.text.replace("delays 0 10 30\n", f"delays 0 10 {delay}\n"))
            self.assertEqual(any(line.startswith(f"late {mirror} {f} {n} ") for line in lines), late)

    def test_a_plot_shows_the_lags_and_each_set(self):
        plot = self.path("a.svg")
        self.study("--last", "20", "60", "20", "--svg", plot)
        self.assertEqual((read(plot).count("<polyline"), read(plot).count("<circle")), (1, 9))

    def test_a_cut_match_is_refused_as_the_program_refuses_it(self):
        cut = self.file("cut.match", self.text[:20000])
        out, said, status = self.study("--delays", "0 10", path=cut)
        self.assertEqual((out, status), ("", 1))
        self.assertRegex(said, r"cut.match: refused line \d+ cause 8 end\n$")

    def test_lines_that_name_a_copy_are_told(self):
        some = self.file("some.match", self.text.replace("script\n", "script\nstep 0 0\nworld 0 0\nworld 1 1\n", 1))
        out, said, status = self.study("--delays", "0 10", path=some)
        self.assertEqual((said, status), ("", 0))
        self.assertTrue(out.startswith(f"{some}: lines of the script that name a copy or a plan are left out: 1 step, 2 world\n"), out)

    def test_faults_are_told_in_one_line(self):
        for words in (["--delays", "a b"], ["--delays", "0 0"], ["--delays", "0 2000"], ["--last", "10", "20", "0"], [],
                      ["--delays", "0", "--csv", "/no/such/file"], ["--delays", "0", "--program", "/no/program"], ["--delays", "0", "--program", "/bin/true"]):
            out, said, status = self.study(*words)
            self.assertNotIn("Traceback", said)
            self.assertEqual((said.count("\n"), status, "\nTrace" in said), (1, 1, False), said)

    def test_a_script_without_turns_is_no_study(self):
        empty = self.file("empty.match", self.text[:self.text.index("script\n")] + "end\n")
        self.assertIn("nothing to study", self.study("--delays", "0", path=empty)[1])


if __name__ == "__main__":
    unittest.main()
