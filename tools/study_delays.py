#!/usr/bin/env python3
"""Plays one match under several sets of delays, and says what each costs and what each shows.

    python3 tools/study_delays.py MATCH --delays "0 20 60" --delays "0 100" [--svg FILE] [--csv FILE] [--json FILE]
    python3 tools/study_delays.py MATCH --last 40 200 20

MATCH is a file with a match text; the lines `step`, `world`, `run` and `restagger` of its script name a copy or a plan, and are
left out, and the tool says so. Each set of delays is put in the place of the match's own, with the same arrivals, and `play` says
what came of it. `--last FROM TO STEP` tries the match's own delays with another last one.

A row of the table has, of all mirrors together:

    late           arrivals that were turned away for good
    repaired       how often a copy was set from the one behind it
    again          ticks that were executed again for that, and how many for each repair of a copy
    executed       ticks executed in all: each mirror runs the whole match in each of its copies, and some again
    astray         commands that the leading copy has executed out of their place: the mean over a mirror's turns
    turns astray   how many turns such a command waits until the leading copy has it in its place: the median, and the most
    apart          mirrors whose last world differs from mirror 0's, since they turned away other commands

`--by copy` adds the ticks again of each copy. Then stand the late commands of the set that lost most, the latest first, and how
long a last delay would let each in. What is counted is compared with each line that `play` prints; times aren't told, since
`play` executes a copy only where it is shown.
"""

import argparse
import csv
import json
import statistics

from match_lines import PROGRAM, MatchText, Wrong, delays_in, end_with, number_in, opened, progress, run
from mirror_clocks import MirrorClocks

LEFT_OUT = ("step", "world", "run", "restagger")
LONGEST_DELAY = 1024
WORLD_BYTES = 2560


class Along:
    """One mirror along the script: its clocks, what it accepted, and what is out of place since when."""

    def __init__(self, number, delays, length):
        self.number, self.at = number, MirrorClocks(delays, length)
        self.names, self.turns, self.since = set(), 0, {}
        self.repaired, self.again = 0, [0] * len(delays)
        self.astray, self.waits = [], []

    def tell_repair(self, repair, told):
        if repair is None:
            return
        told.append(f"repair {self.number} {len(repair.copies)}")
        self.repaired += len(repair.copies)
        # each copy is set from the one behind it, and runs on from there
        for copy, until, since in zip(repair.copies, repair.until, repair.until[1:] + [repair.since]):
            self.again[copy] += until - since
        for name in repair.late:
            self.waits.append(self.turns - self.since.pop(name))

    def turn(self, steps):
        moved = self.at.tick()
        told = [] if moved or steps else [f"over {self.number}"]
        for copy in range(len(self.at.copies) if steps else 0):
            self.tell_repair(self.at.step(copy)[1], told)
        self.turns += 1
        self.astray.append(self.at.out_of_place())
        return told

    def drain(self):
        told = []
        while not self.at.is_drained():
            told += self.turn(steps=True)
        return told

    def arrive(self, name, time):
        sender, number = name
        if name in self.names:
            return [f"repeat {self.number} {sender} {number}"]
        if time < self.at.bound():
            return [f"late {self.number} {sender} {number} {self.at.bound()}"]
        told = []
        self.names.add(name)
        before = self.at.out_of_place()
        repair = self.at.take(name, time)
        self.tell_repair(repair, told)
        if self.at.out_of_place() + (len(repair.late) if repair else 0) > before:
            self.since[name] = self.turns
        return told


class Study:
    """What `play` says of the match under one set of delays, and what is counted along its script."""

    def __init__(self, program, match, delays):
        self.delays, self.length = delays, match.numbers("length")[0]
        self.mirrors = match.numbers("mirrors")[0]
        lines = run(program, "play", with_delays(match, delays))
        self.late, told = [], []
        mirrors = [Along(number, delays, self.length) for number in range(self.mirrors)]
        times = {(int(c[1]), int(c[2])): int(c[0]) for c in match.lines_of("cmd")}
        for words in match.events():
            mirror = mirrors[int(words[1])]
            if words[0] == "arrive":
                told += self.arrive(mirror, (int(words[2]), int(words[3])), times)
            else:
                told += mirror.turn(steps=words[0] == "turn")
        for mirror in mirrors:
            told += mirror.drain()
        self.compare(told, mirrors, lines)
        self.sum_up(mirrors, lines)

    def arrive(self, mirror, name, times):
        told = mirror.arrive(name, times[name])
        if told and told[0].startswith("late "):
            late = mirror.at.bound() - times[name]
            lag = max(mirror.at.clock - times[name], self.delays[-1] + late)
            self.late.append((lag, *name, mirror.number))
        return told

    def compare(self, told, mirrors, lines):
        """What was counted is what was printed, line by line."""
        end = next((place for place, line in enumerate(lines) if line.startswith("mirror ")), len(lines))
        for place, (counted, printed) in enumerate(zip(told + ["the end"], lines[:end] + ["the end"])):
            if counted != printed:
                raise Wrong(f"line {place + 1} of what play prints under delays {self.delays} is '{printed}', and '{counted}' was counted")
        for mirror in mirrors:
            if f"mirror {mirror.number} accepted {len(mirror.names)} " not in "\n".join(lines[end:]) + "\n":
                raise Wrong(f"under delays {self.delays} mirror {mirror.number} accepted another number than {len(mirror.names)}")

    def sum_up(self, mirrors, lines):
        self.accepted = sum(len(mirror.names) for mirror in mirrors)
        self.repaired = sum(mirror.repaired for mirror in mirrors)
        self.again_by_copy = [sum(mirror.again[copy] for mirror in mirrors) for copy in range(len(self.delays))]
        self.again = sum(self.again_by_copy)
        self.executed = self.mirrors * len(self.delays) * self.length + self.again
        astray = [count for mirror in mirrors for count in mirror.astray]
        self.astray, self.most_astray = sum(astray) / max(1, len(astray)), max(astray, default=0)
        self.waits = sorted(wait for mirror in mirrors for wait in mirror.waits)
        self.apart = apart(lines, self.mirrors, len(self.delays) - 1)
        self.memory = self.mirrors * (len(self.delays) + 1) * WORLD_BYTES


def apart(lines, mirrors, copy):
    """How many mirrors end at another world than mirror 0."""
    worlds, at = {}, None
    for line in lines:
        words = line.split(" ")
        if words[0] == "world":
            at = worlds[int(words[1]), int(words[2])] = []
        elif words[0] in ("mirror", "done"):
            at = None
        elif at is not None:
            at.append(line)
    return sum(worlds[mirror, copy] != worlds[0, copy] for mirror in range(mirrors))


def with_delays(match, delays):
    """The match's text with other delays, and with the script's lines that don't name a copy or a plan."""
    pace = min(match.numbers("pace")[0], delays[-1])
    setup = []
    for line in match.setup:
        word = line.split(" ", 1)[0]
        if word == "delays":
            setup.append("delays " + " ".join(map(str, delays)))
        elif word == "pace":
            setup.append(f"pace {pace}")
        elif word != "plan":
            setup.append(line)
    other = MatchText([])
    other.setup, other.script = setup, [" ".join(words) for words in match.events()]
    return other.bytes()


class Match(MatchText):
    def events(self):
        return [line.split(" ") for line in self.script if line.split(" ", 1)[0] not in LEFT_OUT]

    def lags(self):
        """For each arrival at another mirror by which clock behind the command's tick it came, in ticks."""
        times = {tuple(c[1:3]): int(c[0]) for c in self.lines_of("cmd")}
        clocks, lags = {}, []
        for words in self.events():
            if words[0] != "arrive":
                clocks[words[1]] = clocks.get(words[1], 0) + 1
            elif words[1] != words[2]:
                lags.append(max(0, clocks.get(words[1], 0) - times[words[2], words[3]]))
        return sorted(lags)


def read_match(path, program):
    match = Match.read(path, program)
    left = {word: sum(line.split(" ", 1)[0] == word for line in match.script) for word in LEFT_OUT}
    named = ", ".join(f"{count} {word}" for word, count in left.items() if count)
    if named:
        print(f"{path}: lines of the script that name a copy or a plan are left out: {named}")
    if not match.events():
        raise Wrong(f"{path}: the script has no tick, turn or arrive, so there is nothing to study")
    return match


def sets_of_delays(given, match):
    sets = [delays_in(words) for words in given.delays]
    if given.last:
        first, to, by = given.last
        if by < 1 or to < first:
            raise Wrong("--last FROM TO STEP: TO isn't below FROM, and STEP is at least 1")
        own = " ".join(map(str, match.numbers("delays")[:-1]))
        sets += [delays_in(f"{own} {last}") for last in range(first, to + 1, by)]
    if not sets:
        raise Wrong("give --delays or --last")
    return sets


COLUMNS = [("delays", 0), ("late", 1), ("accepted", 1), ("repaired", 1), ("again", 1), ("each", 1), ("executed", 1), ("astray", 1),
           ("turns astray", 1), ("apart", 1)]


def cells_of(study):
    each = f"{study.again / study.repaired:.1f}" if study.repaired else "-"
    waits = f"{statistics.median_low(study.waits)} {study.waits[-1]}" if study.waits else "-"
    return [" ".join(map(str, study.delays)), len(study.late), study.accepted, study.repaired, study.again, each, study.executed,
            f"{study.astray:.2f}", waits, study.apart]


def row_line(cells, widths):
    return "  ".join(str(cell).rjust(width) if right else str(cell).ljust(width) for cell, width, (_, right) in zip(cells, widths, COLUMNS))


def studied(program, match, sets):
    """Plays each set, and prints its row as soon as it is known."""
    widths = [max(8, len(name)) for name, _ in COLUMNS]
    widths[0] = max(len("delays"), *(len(" ".join(map(str, delays))) for delays in sets))
    print(row_line([name for name, _ in COLUMNS], widths))
    studies = []
    for place, delays in enumerate(sets):
        progress(f"{place + 1} of {len(sets)}: delays {' '.join(map(str, delays))}")
        studies.append(Study(program, match, delays))
        progress("")
        print(row_line(cells_of(studies[-1]), widths), flush=True)
    return studies


def tell_by_copy(studies):
    for study in studies:
        told = ", ".join(f"copy {copy} {again:,}" for copy, again in enumerate(study.again_by_copy[:-1]))
        if told:
            print(f"delays {' '.join(map(str, study.delays))}: ticks again in {told}; {study.memory:,} bytes of worlds")


def tell_late(studies, most):
    """Of the set that lost most, the latest commands, and how long a last delay lets each in."""
    study = max(studies, key=lambda one: len(one.late))
    late = sorted(study.late, key=lambda one: (-one[0], one))
    delays = " ".join(map(str, study.delays))
    for lag, sender, number, mirror in late[:most]:
        lets_in = f"a last delay of {lag} lets it in" if lag <= LONGEST_DELAY else "no delay lets it in"
        print(f"delays {delays}: command {sender}.{number} came {lag} ticks after its own at mirror {mirror}; {lets_in}")
    if len(late) > most:
        print(f"delays {delays}: {len(late) - most} more were late")


def label(x, y, text, anchor="start", colour="#333"):
    return f'<text x="{x:.1f}" y="{y:.1f}" fill="{colour}" text-anchor="{anchor}">{text}</text>'


def plot(studies, lags):
    """Above the share of arrivals over their lag; below, on the same axis, a line for each set with its delays and figures."""
    width, left, right, top, high, row = 900, 60, 260, 40, 200, 24
    most = max([study.delays[-1] for study in studies] + lags + [1])
    across = lambda tick: left + (width - left - right) * tick / most
    floor = top + high
    height = floor + 60 + row * len(studies) + 20
    out = [f'<svg xmlns="http://www.w3.org/2000/svg" width="{width}" height="{height}" font-family="sans-serif" font-size="13">',
           f'<rect width="{width}" height="{height}" fill="white"/>',
           label(left, 22, "share of arrivals at other mirrors that came within so many ticks")]
    for part in range(5):
        y = floor - high * part / 4
        out += [f'<line x1="{left}" y1="{y}" x2="{width - right}" y2="{y}" stroke="#ddd"/>', label(left - 8, y + 4, f"{25 * part} %", "end")]
    if lags:
        points = [(0, 0)] + [(lag, (place + 1) / len(lags)) for place, lag in enumerate(lags)]
        path = " ".join(f"{across(lag):.1f},{floor - high * share:.1f}" for lag, share in points)
        out.append(f'<polyline points="{path}" fill="none" stroke="#1f5fa8" stroke-width="2"/>')
    step = next(by for by in (1, 2, 5, 10, 20, 50, 100, 200, 500) if most / by <= 12)
    out += [label(across(tick), floor + 18, tick, "middle") for tick in range(0, most + 1, step)]
    out.append(label(left, floor + 44, "the sets, each copy at its delay"))
    heads = [("late", 60), ("again", 140), ("astray", 220)]
    out += [label(width - right + x, floor + 44, name, "end") for name, x in heads]
    for place, study in enumerate(studies):
        y = floor + 66 + row * place
        out.append(f'<line x1="{across(0):.1f}" y1="{y}" x2="{across(study.delays[-1]):.1f}" y2="{y}" stroke="#bbb"/>')
        for copy, delay in enumerate(study.delays):
            last = copy == len(study.delays) - 1
            colour = "#c0392b" if last else "#1f5fa8"
            out.append(f'<circle cx="{across(delay):.1f}" cy="{y}" r="4.5" fill="{colour}"><title>copy {copy}, {delay} ticks</title></circle>')
        for value, (_, x) in zip((f"{len(study.late):,}", f"{study.again:,}", f"{study.astray:.2f}"), heads):
            out.append(label(width - right + x, y + 4, value, "end"))
    return "\n".join(out + ["</svg>"]) + "\n"


def as_data(study):
    return {"delays": study.delays, "late": len(study.late), "accepted": study.accepted, "repaired": study.repaired, "again": study.again,
            "again_by_copy": study.again_by_copy, "executed": study.executed, "astray_mean": round(study.astray, 4),
            "turns_astray_median": statistics.median_low(study.waits) if study.waits else None,
            "turns_astray_most": study.waits[-1] if study.waits else None, "apart": study.apart, "bytes_of_worlds": study.memory,
            "late_commands": [{"from": f, "number": n, "mirror": m, "lag": lag} for lag, f, n, m in sorted(study.late, key=lambda one: (-one[0], one))]}


def main():
    parser = argparse.ArgumentParser(description=__doc__, formatter_class=argparse.RawDescriptionHelpFormatter)
    parser.add_argument("match", metavar="MATCH")
    parser.add_argument("--delays", action="append", default=[], help="one set of delays, in ticks; may be given again")
    parser.add_argument("--last", type=number_in(0, 1024), nargs=3, metavar=("FROM", "TO", "STEP"), help="the match's own delays with each of these last ones")
    parser.add_argument("--program", default=PROGRAM, help="the built program (default: the one of this repository)")
    parser.add_argument("--by", choices=["copy"], help="tells ticks again and bytes of worlds by copy too")
    parser.add_argument("--most", type=number_in(0, 1000), default=3, help="how many late commands are told (default: 3)")
    parser.add_argument("--csv", help="writes the table to this file too")
    parser.add_argument("--json", help="writes all figures and late commands to this file")
    parser.add_argument("--svg", help="writes a plot of lags and delays to this file")
    given = parser.parse_args()
    match = read_match(given.match, given.program)
    sets = sets_of_delays(given, match)
    files = {name: opened(path) for name, path in (("csv", given.csv), ("json", given.json), ("svg", given.svg)) if path}
    studies = studied(given.program, match, sets)
    if given.by:
        tell_by_copy(studies)
    tell_late(studies, given.most)
    if "csv" in files:
        csv.writer(files["csv"]).writerows([[name for name, _ in COLUMNS]] + [cells_of(study) for study in studies])
    if "json" in files:
        json.dump([as_data(study) for study in studies], files["json"], indent=1)
    if "svg" in files:
        files["svg"].write(plot(studies, match.lags()))
    for file in files.values():
        file.close()


if __name__ == "__main__":
    end_with(main)
