"""The comparison of schemes: each scheme on a match that was worked out by hand, laws, slow models beside the short ones, files, faults,
and the tables of docs/STUDY.md."""

import csv
import json
import os
import random
import re
import unittest

from common import PROGRAM, SAMPLE, TOP, Files, read, tool

import slow_model
from schemes import Trace, bucket, lockstep, rollback, time_warp

SETS = ["--delays", "0 6 20", "--delays", "0 20", "--delays", "0 60", "--delays", "3 20", "--bucket", "3", "--bucket", "6", "--bucket", "20"]


def by_hand():
    """Two mirrors and eight ticks: mirror 0's command of tick 2 is at mirror 1 three frames later. Mirror 1 issues nothing."""
    return Trace(8, 2, {(0, 0): 2}, [{(0, 0): 2}, {(0, 0): 5}])


def drawn_trace(seed, lags=6, lost=0.1):
    draw = random.Random(seed)
    length, mirrors = draw.randrange(2, 14), draw.randrange(1, 4)
    times = {(f, n): draw.randrange(length) for f in range(mirrors) for n in range(draw.randrange(5))}
    came = [{name: time + (0 if name[0] == m else draw.randrange(lags)) for name, time in times.items() if name[0] == m or draw.random() >= lost}
            for m in range(mirrors)]
    return Trace(length, mirrors, times, came)


class ByHand(unittest.TestCase):
    def figures(self, outcome):
        return outcome.own, len(outcome.lost), outcome.waited, outcome.longest, outcome.rollbacks, outcome.again, outcome.worlds

    def test_bucket(self):
        self.assertEqual(self.figures(bucket(by_hand(), 2)), ([2], 1, 0, 0, 0, 0, 1))
        self.assertEqual(bucket(by_hand(), 2).lost, [((0, 0), 1)])
        self.assertEqual(self.figures(bucket(by_hand(), 3)), ([3], 0, 0, 0, 0, 0, 1))

    def test_time_warp(self):
        # in frame 5 mirror 1 goes back to tick 2: snapshots of ticks 2, 3, 4, 5 are kept, and the world that it plays on
        self.assertEqual(self.figures(time_warp(by_hand(), 1)), ([0], 0, 0, 0, 1, 3, 5))
        # to the snapshot of tick 0, the last of every fourth: those of ticks 0 and 4
        self.assertEqual(self.figures(time_warp(by_hand(), 4)), ([0], 0, 0, 0, 1, 5, 3))

    def test_lockstep(self):
        # mirror 1 executes ticks 0 to 7 in frames 3, 4, 8, 9, 13, 14, 18, 19, mirror 0 in 0, 4, 5, 9, 10, 14, 15, 19
        self.assertEqual(self.figures(lockstep(by_hand())), ([0], 0, 24, 3, 0, 0, 1))

    def test_rollback(self):
        # mirror 1 hears of tick 2 in frame 5, when it has executed ticks 0 to 4
        self.assertEqual(self.figures(rollback(by_hand(), 8)), ([0], 0, 0, 0, 1, 3, 9))
        # with two ticks ahead it stands in frame 2, since it knows of tick 0 in frame 3; so by frame 5 it has executed ticks 0 to 3
        self.assertEqual(self.figures(rollback(by_hand(), 2)), ([0], 0, 1, 1, 1, 2, 3))


class SlowWarp:
    """A mirror with worlds, which keeps each `every`-th, goes back to one, and executes again."""

    def __init__(self, match, every):
        self.match, self.every, self.at, self.again, self.rollbacks = match, every, 0, 0, 0
        self.commands, self.kept = [], {}
        self.world = slow_model.Arena(match)

    def execute(self):
        if self.at % self.every == 0:
            self.kept[self.at] = self.twin(self.world)
        for command in sorted(x for x in self.commands if x[0] == self.at):
            self.world.apply(command)
        self.world.beat()
        self.at += 1

    def twin(self, world):
        other = slow_model.Arena(self.match)
        other.players = [{**p, "live": p["live"] and list(p["live"])} for p in world.players]
        other.shots, other.waits = [list(shot) for shot in world.shots], list(world.waits)
        return other

    def come(self, commands):
        self.commands += commands
        late = min((x[0] for x in commands), default=self.at)
        if late < self.at:
            until, self.at = self.at, max(at for at in self.kept if at <= late)
            self.world = self.twin(self.kept[self.at])
            self.again, self.rollbacks = self.again + until - self.at, self.rollbacks + 1
            while self.at < until:
                self.execute()


def slow_in_step(trace, ahead):
    """Frame by frame over lists of all messages: who executes which tick when, and what is executed again."""
    count, messages = trace.mirrors, []
    at, told, executed, known_in, frame = [0] * count, [{} for _ in range(count)], [[] for _ in range(count)], [set() for _ in range(count)], 0
    again = 0
    lags = {(j, i): trace.lags(j, i) for j in range(count) for i in range(count) if i != j}
    known = lambda i: min((max([t for j, to, t, when in messages if (j, to) == (o, i) and when <= frame], default=-1) for o in range(count) if o != i), default=99)
    ready = lambda i: at[i] < trace.length and at[i] - known(i) <= ahead
    while any(a < trace.length for a in at) or any(when >= frame for *_, when in messages):
        early = [ready(i) for i in range(count)]
        for i in range(count):
            if at[i] < trace.length and at[i] not in told[i] and (ahead == 0 or early[i]):
                told[i][at[i]] = frame
                messages += [(i, o, at[i], frame + lags[i, o][at[i]]) for o in range(count) if o != i]
        for i in range(count):
            knows = {(j, u) for j, to, t, when in messages if to == i and when <= frame for u in range(t + 1) if (j, u) in trace.by_tick}
            wrong = [u for j, u in knows - known_in[i] if u < at[i]]
            again += at[i] - min(wrong, default=at[i])
            known_in[i] = knows
        for i in [i for i in range(count) if ready(i) and at[i] in told[i]]:
            executed[i].append(frame)
            at[i] += 1
        frame += 1
    return executed, again


class Laws(Files):
    def test_with_no_lag_all_are_alike(self):
        for seed in range(60):
            trace = drawn_trace(seed, lags=1, lost=0)
            for outcome in (lockstep(trace), bucket(trace, 0), time_warp(trace, 1), time_warp(trace, 3), rollback(trace, 1), rollback(trace, 8)):
                figures = (set(outcome.own) - {0}, outcome.lost, outcome.waited, outcome.rollbacks, outcome.again, outcome.taken)
                self.assertEqual(figures, (set(), [], 0, 0, 0, [set(trace.times)] * trace.mirrors), f"seed {seed}")

    def test_lockstep_never_goes_back_and_rollback_waits_no_more_than_it(self):
        waited = 0
        for seed in range(200):
            trace = drawn_trace(seed)
            steps, back = lockstep(trace), rollback(trace, 3)
            self.assertEqual((steps.rollbacks, steps.again, steps.lost), (0, 0, []))
            self.assertLessEqual(back.waited, steps.waited, f"seed {seed}")
            waited += back.waited
        self.assertGreater(waited, 50)

    def test_a_longer_bucket_loses_no_more(self):
        for seed in range(200):
            trace = drawn_trace(seed)
            lost = [len(bucket(trace, delay).lost) for delay in range(7)]
            self.assertEqual(lost, sorted(lost, reverse=True))
            self.assertEqual(lost[-1], 0)

    def test_waiting_is_as_a_slow_model_says(self):
        went_back = 0
        for seed in range(120):
            trace = drawn_trace(seed)
            for ahead in (0, 1, 2, 5):
                outcome = rollback(trace, ahead) if ahead else lockstep(trace)
                executed, again = slow_in_step(trace, ahead)
                waited = sum(frames[-1] + 1 - trace.length for frames in executed)
                longest = max(b - a - 1 for frames in executed for a, b in zip([-1] + frames, frames))
                self.assertEqual((outcome.waited, outcome.longest, outcome.again), (waited, longest, again), f"seed {seed}, {ahead} ahead")
                went_back += again
        self.assertGreater(went_back, 100)

    @unittest.skipUnless(os.path.exists(PROGRAM), "the program isn't built")
    def test_time_warp_ends_at_the_world_of_order_and_counts_as_worlds_do(self):
        for seed in range(25):
            trace, every = drawn_trace(seed), 1 + seed % 4
            commands = [(time, *name, name[0], ("go", "left", "shoot")[name[1] % 3]) for name, time in sorted(trace.times.items())]
            players = [(f"p{m}", 1 + 3 * m, 2, "e") for m in range(trace.mirrors)]
            match = slow_model.Match(trace.length, (12, 5), trace.mirrors, [[0]], 0, set(), [], players, commands, [])
            outcome = time_warp(trace, every)
            mirrors = [SlowWarp(match, every) for _ in range(trace.mirrors)]
            for frame in range(trace.length + 8):
                for number, mirror in enumerate(mirrors):
                    mirror.come([x for x in commands if trace.came[number].get(x[1:3]) == frame])
                    if frame < trace.length:
                        mirror.execute()
            self.assertEqual((sum(m.rollbacks for m in mirrors), sum(m.again for m in mirrors)), (outcome.rollbacks, outcome.again), f"seed {seed}")
            for number, mirror in enumerate(mirrors):
                came = slow_model.Match(trace.length, (12, 5), trace.mirrors, [[0]], 0, set(), [], players, [x for x in commands if x[1:3] in outcome.taken[number]], [])
                self.assertEqual(mirror.world.lines(), ordered(came, self), f"seed {seed}")


def ordered(match, files):
    """The world that `tss order` prints of a match."""
    import subprocess
    printed = subprocess.run([PROGRAM, "order"], input="".join(line + "\n" for line in match.lines(False)).encode(), capture_output=True).stdout.decode().split("\n")
    return printed[1:-2]


@unittest.skipUnless(os.path.exists(PROGRAM), "the program isn't built")
class Tool(Files):
    def compare(self, *words):
        return tool("compare_schemes.py", *words, "--program", PROGRAM)

    def sample(self):
        return self.file("sample.match", tool("match_of_trace.py", SAMPLE, "--delays", "0 6 20", "--grid", "24", "12")[0])

    def test_the_page_has_what_is_printed(self):
        page = read(os.path.join(TOP, "docs", "STUDY.md"))
        for words in ([self.sample(), *SETS], *[["--net", net, *SETS] for net in ("home", "far")]):
            printed, said, status = self.compare(*words)
            self.assertEqual((said, status), ("", 0))
            self.assertIn("".join(f"    {line}\n" for line in printed.split("\n")[:-1]), page, words)

    def test_a_local_net_is_as_the_page_says(self):
        rows = {row["title"]: row for row in self.data("--net", "lan", *SETS)}
        self.assertEqual({row["lost"] for row in rows.values()}, {0})
        self.assertLess(rows["lockstep"]["own_act_mean"], 0.34)
        self.assertEqual(rows["tss 3 20"]["rollbacks"], 0)
        self.assertGreater(min(row["worlds"] for title, row in rows.items() if title.startswith("tss")), rows["lockstep"]["worlds"])

    def test_the_picture_of_the_page_is_what_is_drawn(self):
        self.compare("--net", "far", *SETS, "--svg", self.path("a.svg"))
        self.assertEqual(read(self.path("a.svg")), read(os.path.join(TOP, "docs", "pictures", "schemes.svg")))

    def test_tss_and_time_warp_end_alike_where_nothing_is_lost(self):
        rows = self.data("--net", "home", "--scheme", "tss", "--scheme", "timewarp", "--delays", "0 60")
        self.assertEqual([(row["lost"], row["apart"]) for row in rows], [(0, 0)] * 3)
        self.assertEqual([row["title"] for row in rows], ["tss 0 60", "timewarp 1", "timewarp 8"])

    def data(self, *words):
        printed, said, status = self.compare(*words, "--json", self.path("a.json"))
        self.assertEqual((said, status), ("", 0))
        return json.loads(read(self.path("a.json")))

    def test_files_have_what_is_printed(self):
        printed = self.compare("--net", "lan", "--csv", self.path("a.csv"), "--svg", self.path("a.svg"), "--match-out", self.path("a.match"))[0].split("\n")
        rows = list(csv.reader(read(self.path("a.csv")).split("\n")[:-1]))
        self.assertEqual([re.split(" {2,}", line.strip()) for line in printed[1:-1]], rows)
        drawn = read(self.path("a.svg"))
        self.assertEqual(drawn.count("<title>"), 2 * (len(rows) - 1))
        again = self.compare(self.path("a.match"))[0].split("\n")
        self.assertEqual(again, printed[1:], "the match that was written is the one that was played")

    def test_bad_input_gets_one_line(self):
        for words in ([], ["--net", "lan", "a.match"], ["/no/match"], ["--net", "lan", "--delays", "4 4"], [self.file("b.match", "tss match 1\n")],
                      ["--net", "lan", "--csv", "/no/folder/a"], [SAMPLE], [os.path.join(TOP, "examples", "late.match"), "--match-out", self.path("c")]):
            printed, said, status = self.compare(*words)
            self.assertEqual((status, said.count("\n")), (1, 1), (words, said))


if __name__ == "__main__":
    unittest.main()
