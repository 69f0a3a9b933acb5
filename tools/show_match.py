#!/usr/bin/env python3
"""Makes one page on which a match is gone through, line by line.

    python3 tools/show_match.py MATCH [--out page.html] [--from LINE] [--race] [--program PROGRAM]

MATCH is a file with a match text, whose script is gone through; with the record of a race, whose logs are, tick by tick of all
mirrors; or with a lossy net. With `--race` the match is raced now, and its record is shown.

The page opens from a file and needs no network. A slider, or the arrow keys, goes over the lines; for each mirror its copies
stand side by side, each with its delay, its clock and its world: the grid with walls, players with the way they face, shots and
pickups. Beside the slider stand the line and what it printed; under it marks stand where copies were repaired and where a command
was late, and the keys `n` and `p` go to the next and the previous one. A repair shows what it changed, and a box what differs from
the last copy. `page.html#17` opens at the 17th line; 0 is the opening, and behind the last line the mirrors are drained.

The worlds are those that `play` prints for `world` lines, which the tool puts behind each line, at most 1,024 in one run of the
program for each mirror. The script's own `world` and `run` lines change nothing and are left out. A page has at most 20,000 worlds: of
a longer script it shows as many lines as that from `--from` on, and says so.
"""

import argparse
import html
import json
import os
import re
import sys

from match_lines import PROGRAM, Wrong, end_with, number_in, opened, progress, run
from match_sources import source_of

PAGE = os.path.join(os.path.dirname(os.path.abspath(__file__)), "show_match.html")
MOST_A_RUN, MOST_WORLDS, MOST_SCRIPT_LINES = 1024, 20_000, 262_144
OF_A_BLOCK = ("live", "dead", "shot", "item")


class Worlds:
    """The blocks that are shown, each text once."""

    def __init__(self):
        self.texts, self.places = [], {}

    def place(self, text):
        if text not in self.places:
            self.places[text] = len(self.texts)
            self.texts.append(text)
        return self.places[text]


class Output:
    """What `play` printed, read line by line."""

    def __init__(self, lines):
        self.lines, self.at = lines, 0

    def until_world(self):
        """The lines up to the next block."""
        begin = self.at
        while not self.lines[self.at].startswith("world "):
            self.at += 1
        return self.lines[begin:self.at]

    def block(self):
        """The clock and the lines of the block that stands here."""
        clock = int(self.lines[self.at].split(" ")[3])
        begin = self.at = self.at + 1
        while self.lines[self.at].split(" ", 1)[0] in OF_A_BLOCK:
            self.at += 1
        return clock, "\n".join(self.lines[begin:self.at])


class Clock:
    """A mirror's clock and the plan that is in force, along its script lines."""

    def __init__(self, length):
        self.length, self.clock, self.plan = length, 0, 0

    def along(self, line, plans):
        word, *rest = line.split(" ")
        if word == "restagger":
            self.plan = int(rest[1])
        elif word in ("tick", "turn") and self.clock < self.length + plans[self.plan][-1]:
            self.clock += 1


class Film:
    """The steps of a match: each has its line, what it printed, and how its mirror's copies stood behind it."""

    def __init__(self, program, source, first):
        self.program, self.match, self.worlds, self.steps = program, source.match, Worlds(), []
        self.plans = [self.match.numbers("delays")] + [[int(n) for n in words] for words in self.match.lines_of("plan")]
        self.mirrors, self.copies = self.match.numbers("mirrors")[0], len(self.plans[0])
        self.clocks = [Clock(self.match.numbers("length")[0]) for _ in range(self.mirrors)]
        self.lines = source.lines
        if first > len(self.lines):
            raise Wrong(f"--from {first}: there are {len(self.lines)} lines")
        for _, line in self.lines[:first]:
            self.follow(line)
        self.first = first
        self.last = min(len(self.lines), first + max(0, MOST_WORLDS // self.copies - 2 * self.mirrors))
        self.views(first)
        self.windows(first)
        if self.last == len(self.lines):
            self.drained()

    def windows(self, at):
        while at < self.last:
            progress(f"line {at} of {self.last}")
            behind = self.window(at)
            if behind == at:
                print(f"lines from {at + 1} on can't be shown: with the worlds behind them the script would have over {MOST_SCRIPT_LINES} lines", file=sys.stderr)
                self.last = at
            at = behind
        progress("")

    def follow(self, line):
        if line:
            self.clocks[int(line.split(" ")[1])].along(line, self.plans)

    def front(self, end, mirror):
        """A mirror's lines before this one, without those that change none of its worlds whatever they print: arrivals that stood
        before, and ticks of a clock that stands at its end."""
        kept, arrived, clock = [], set(), Clock(self.match.numbers("length")[0])
        for _, line in self.lines[:end]:
            if not line or int(line.split(" ")[1]) != mirror or line in arrived:
                continue
            before = clock.clock
            clock.along(line, self.plans)
            if line.startswith("arrive "):
                arrived.add(line)
            if clock.clock > before or not line.startswith("tick "):
                kept.append(line)
        return kept

    def world_lines(self, mirror):
        return [f"world {mirror} {copy}" for copy in range(self.copies)]

    def play(self, script):
        return run(self.program, "play", self.match.bytes(script))

    def step(self, line, mirror, said, blocks):
        repaired = max((int(words[2]) for words in map(str.split, said) if words[0] == "repair"), default=0)
        self.steps.append({"line": line, "mirror": mirror, "said": said, "repaired": repaired, "clock": self.clocks[mirror].clock,
                           "plan": self.clocks[mirror].plan, "clocks": [clock for clock, _ in blocks],
                           "worlds": [self.worlds.place(text) for _, text in blocks]})

    def blocks(self, output):
        return [output.block() for _ in range(self.copies)]

    def views(self, at):
        """How all mirrors stand before a line."""
        self.before = []
        for mirror in range(self.mirrors):
            front = self.front(at, mirror)
            if len(front) + self.copies > MOST_SCRIPT_LINES:
                raise Wrong(f"--from {at}: with the worlds behind them the script would have over {MOST_SCRIPT_LINES} lines")
            self.before.append(self.played(front, mirror, [])[1])
            self.step("opening" if at == 0 else f"after {at} lines", mirror, [], self.before[mirror])

    def played(self, front, mirror, lines):
        """What a mirror prints behind its lines in front, each of these lines with its worlds behind it; and its worlds before them."""
        shown = [word for line in lines for word in (line, *self.world_lines(mirror))]
        output = Output(self.play(front + self.world_lines(mirror) + shown))
        output.until_world()
        return output, self.blocks(output)

    def window(self, begin):
        """The steps of as many lines as a run of the program for each mirror shows, and the line behind them."""
        fronts = [self.front(begin, mirror) for mirror in range(self.mirrors)]
        room = (MOST_SCRIPT_LINES - max(map(len, fronts)) - self.copies) // (1 + self.copies)
        end = min(self.last, begin + max(0, min(MOST_A_RUN // self.copies - 1, room)))
        of_mirror = {}
        for _, line in self.lines[begin:end]:
            if line:
                of_mirror.setdefault(int(line.split(" ")[1]), []).append(line)
        outputs = {mirror: self.played(fronts[mirror], mirror, lines)[0] for mirror, lines in of_mirror.items()}
        for shown, line in self.lines[begin:end]:
            self.show(shown, line, outputs)
        return end

    def show(self, shown, line, outputs):
        if not line:
            mirror = int(shown.split(" ")[1])
            self.step(shown, mirror, [], self.before[mirror])
            return
        mirror = int(line.split(" ")[1])
        said = outputs[mirror].until_world()
        self.follow(line)
        self.before[mirror] = self.blocks(outputs[mirror])
        self.step(shown, mirror, said, self.before[mirror])

    def drained(self):
        """How all mirrors stand at the end."""
        lines = self.play([line for _, line in self.lines if line])
        at = next(place for place, line in enumerate(lines) if line.startswith("mirror "))
        output = Output(lines[at:])
        for mirror, clock in enumerate(self.clocks):
            clock.clock = max(clock.clock, clock.length + self.plans[clock.plan][-1])
            self.step("drained", mirror, output.until_world(), self.blocks(output))

    def part(self):
        """Which part of the lines the page shows, where it isn't the whole."""
        if not self.lines:
            return "there is no script: the opening, and the drained mirrors"
        if self.first == 0 and self.last == len(self.lines):
            return ""
        return f"lines {self.first + 1} to {self.last} of {len(self.lines)}"

    def data(self):
        match = self.match
        return {
            "grid": match.numbers("grid"), "walls": [[int(x), int(y)] for x, y in match.lines_of("wall")],
            "players": [words[0] for words in match.lines_of("player")], "plans": self.plans,
            "mirrors": self.mirrors, "first": self.first, "lines": self.last - self.first, "part": self.part(),
            "worlds": self.worlds.texts, "steps": self.steps,
        }


def page_of(title, film):
    with open(PAGE, encoding="utf-8") as file:
        page = file.read()
    parts = {"title": html.escape(title), "data": json.dumps(film.data(), separators=(",", ":")).replace("<", "\\u003c")}
    return re.sub(r"\{\{(title|data)\}\}", lambda found: parts[found.group(1)], page)


def main():
    parser = argparse.ArgumentParser(description=__doc__, formatter_class=argparse.RawDescriptionHelpFormatter)
    parser.add_argument("match", metavar="MATCH")
    parser.add_argument("--out", default="page.html", help="where the page is written (default: page.html)")
    parser.add_argument("--from", type=number_in(0, MOST_SCRIPT_LINES), default=0, dest="first", metavar="LINE", help="how many lines come before the page's first (default: 0)")
    parser.add_argument("--race", action="store_true", help="races the match now, and shows its record")
    parser.add_argument("--program", default=PROGRAM, help="the built program (default: the one of this repository)")
    given = parser.parse_args()
    source = source_of(given.match, given.program, given.race)
    with opened(given.out) as file:
        film = Film(given.program, source, given.first)
        file.write(page_of(os.path.basename(given.match), film))
    if film.part():
        print(f"{given.out}: the page shows {film.part()}", file=sys.stderr)


if __name__ == "__main__":
    end_with(main)
