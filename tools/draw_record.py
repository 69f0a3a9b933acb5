#!/usr/bin/env python3
"""Draws a record as a picture: for each mirror a lane for each of its copies, and that copy's clock over the mirror's log.

    python3 tools/draw_record.py RECORD [--mirror M] [--from EVENT] [--to EVENT] > PICTURE.svg

RECORD is a file with a legal record (docs/FORMATS.md); of a text that is none it says in one line what is wrong. From left to
right stands the log, one column an event; in a lane the clock rises by one tick at each step of its copy. Below a mirror's lanes
stands what arrived, at its event:

- a filled mark: the command was taken;
- a hollow mark: it was older than the last copy's clock, and was turned away;
- a bar in a lane: the copy was repaired there, and the bar reaches back over the ticks that it ran again, from the clock of
  the copy that it was set to up to its own.

`--mirror M` draws one mirror, `--from` and `--to` the events from the one up to the other, without it, counted from 0 in each log.
Of more than 4,000 events marks are short strokes, and have no names: draw a part to read them.

No world is executed and no run is built. Clocks are steps counted (`mirror_clocks.py`).

Only Python's standard library is used.
"""

import argparse
import sys

from match_lines import Wrong, end_with, number_in
from mirror_clocks import MirrorClocks

WIDTH = 1100
LANE = 70
LEFT = 90
MOST_NAMED = 4000
COLOURS = {"clock": "#1f5fa8", "repair": "#c0392b", "taken": "#2e7d32", "late": "#b26a00", "grid": "#d8d8d8", "ink": "#333"}


class Part:
    """The events that are drawn: from the first up to the last, without it."""

    def __init__(self, first, last):
        self.first, self.last = first, last

    def has(self, place):
        return self.first <= place and (self.last is None or place < self.last)


class Mirror:
    """What the log of one mirror says of its copies' clocks, of arrivals and of repairs, in the part that is drawn."""

    def __init__(self, number, match, part):
        self.number, self.times, self.part = number, match.times, part
        self.at = MirrorClocks([0] * match.copies, match.length)
        self.place, self.is_drawn, self.names = 0, False, set()
        self.points = [[] for _ in range(match.copies)]
        self.arrivals, self.repairs, self.restaggers = [], [], []

    def event(self, words):
        if self.place == self.part.first:
            self.mark_all()
        self.is_drawn = self.part.has(self.place)
        self.place += 1
        if words[0] == "step":
            self.step(int(words[1]))
        elif words[0] == "arrive":
            self.arrive(int(words[1]), int(words[2]))
        elif words[0] == "restagger":
            if self.is_drawn:
                self.restaggers.append((self.place, int(words[1])))
        elif words != ["tick"]:
            raise ValueError(f"{words[0]} is no event")
        if self.place == self.part.last:
            self.mark_all()

    def mark_all(self):
        for copy, clock in enumerate(self.at.copies):
            self.points[copy].append((self.place, clock))

    def repair(self, repair):
        if repair and self.is_drawn:
            self.repairs += [(copy, self.place, repair.since, until) for copy, until in zip(repair.copies, repair.until)]

    def step(self, copy):
        before = self.at.copies[copy]
        self.repair(self.at.ran(copy))
        if self.is_drawn:
            self.points[copy] += [(self.place, before), (self.place, before + 1)]

    def arrive(self, sender, number):
        time = self.times[sender, number]
        if (sender, number) in self.names:
            raise ValueError("it arrived before")
        turned = time < self.at.bound()
        if self.is_drawn:
            self.arrivals.append((self.place, sender, number, time, turned))
        if not turned:
            self.names.add((sender, number))
            self.repair(self.at.take((sender, number), time))

    def end(self):
        if self.part.first > self.place:
            raise Wrong(f"--from {self.part.first}: the log of mirror {self.number} has {self.place} events")
        self.first, self.last = self.part.first, min(self.place, self.part.last or self.place)
        if self.part.has(self.place):
            self.mark_all()


class Reader:
    """A record, line by line."""

    def __init__(self, part, mirror):
        self.length, self.copies, self.times, self.mirrors = 0, 0, {}, []
        self.part, self.mirror = part, mirror
        self.in_match, self.left, self.logs = False, 0, 0

    def line(self, line):
        words = line.split(" ")
        if self.left > 0:
            self.log.event(words)
            self.left -= 1
        elif line in ("tss match 1", "tss match 2"):
            self.in_match = True
        elif self.in_match and line == "end":
            self.in_match = False
        elif self.in_match and words[0] == "length":
            self.length = int(words[1])
        elif self.in_match and words[0] == "delays":
            self.copies = len(words) - 1
        elif self.in_match and words[0] == "cmd":
            self.times[int(words[2]), int(words[3])] = int(words[1])
        elif not self.in_match and words[0] == "log":
            self.log = Mirror(int(words[1]), self, self.part)
            self.left, self.logs = int(words[2]), self.logs + 1
            if self.mirror in (None, self.log.number):
                self.mirrors.append(self.log)


def read(text, part, mirror):
    """The length of the match and its mirrors, as the record's logs say."""
    lines = text.splitlines()
    if not lines or lines[0] != "tss record 1":
        raise Wrong("line 1 isn't 'tss record 1'")
    if lines[-1] != "done":
        raise Wrong("the last line isn't 'done'")
    reader = Reader(part, mirror)
    for number, line in enumerate(lines, 1):
        try:
            reader.line(line)
        except (KeyError, IndexError, ValueError):
            raise Wrong(f"line {number}, '{line[:60]}', can't stand there in a legal record") from None
    if not reader.logs or reader.left > 0:
        raise Wrong("it has no log" if not reader.logs else f"the last log is {reader.left} events short")
    return reader.length, reader.mirrors


def label(x, y, text, size=12, anchor="start", colour=COLOURS["ink"]):
    return f'<text x="{x:.1f}" y="{y:.1f}" font-size="{size}" text-anchor="{anchor}" fill="{colour}">{text}</text>'


def line(x1, y1, x2, y2, colour, width=1.0):
    return f'<line x1="{x1:.1f}" y1="{y1:.1f}" x2="{x2:.1f}" y2="{y2:.1f}" stroke="{colour}" stroke-width="{width}"/>'


def mark(x, y, fill, edge, title):
    return f'<circle cx="{x:.1f}" cy="{y:.1f}" r="4" fill="{fill}" stroke="{edge}" stroke-width="1.5"><title>{title}</title></circle>'


def free_row(ends, x, width):
    """The first row in which a label of this width fits around x; `ends` has where each row's last label ends."""
    for row, end in enumerate(ends):
        if end <= x - width / 2:
            ends[row] = x + width / 2
            return row
    ends.append(x + width / 2)
    return len(ends) - 1


def clock_lines(mirror, length, across, top):
    """A lane for each copy with its clock and its repairs, and the height of the last one's floor."""
    parts, floor = [], top
    for copy, points in enumerate(mirror.points):
        floor = top + 24 + (copy + 1) * LANE - 8
        height = lambda clock, floor=floor: floor - clock * (LANE - 16) / max(length, 1)
        parts.append(line(LEFT, floor, WIDTH - 20, floor, COLOURS["grid"]))
        parts.append(label(LEFT - 8, floor - LANE / 2 + 12, f"copy {copy}", 12, "end"))
        parts.append(label(LEFT - 8, floor, "0", 9, "end"))
        parts.append(label(LEFT - 8, height(length) + 4, str(length), 9, "end"))
        parts += [bar(across(place), height, copy, since, until) for which, place, since, until in mirror.repairs if which == copy]
        drawn = [f"{across(place):.1f},{height(clock):.1f}" for place, clock in points]
        path = " ".join(point for at, point in enumerate(drawn) if at == 0 or point != drawn[at - 1])
        parts.append(f'<polyline points="{path}" fill="none" stroke="{COLOURS["clock"]}" stroke-width="1.5"/>')
    return parts, floor


def bar(x, height, copy, since, until):
    title = f"copy {copy} ran ticks {since} to {until - 1} again" if since < until else f"copy {copy} was set back"
    return (f'<line x1="{x:.1f}" y1="{height(since) + 2:.1f}" x2="{x:.1f}" y2="{height(until) - 2:.1f}"'
            f' stroke="{COLOURS["repair"]}" stroke-width="5" stroke-opacity="0.7"><title>{title}</title></line>')


def named_arrivals(mirror, across, below):
    """A mark with a name for each arrival, and how many rows of names there are."""
    parts, ends = [], []
    for place, sender, number, time, turned in mirror.arrivals:
        title = f"command {sender}.{number}, due in tick {time}" + (", turned away" if turned else "")
        colour = COLOURS["late" if turned else "taken"]
        parts.append(mark(across(place), below, "white" if turned else colour, colour, title))
        text = f"{sender}.{number}@{time}"
        row = free_row(ends, across(place), 6 * len(text))
        parts.append(label(across(place), below + 17 + 11 * row, text, 9, "middle"))
    return parts, len(ends)


def stroked_arrivals(mirror, across, below):
    """A stroke for each place at which something arrived: up where it was taken, down where it was turned away."""
    parts = []
    for is_turned, colour, by in ((False, COLOURS["taken"], -7), (True, COLOURS["late"], 7)):
        places = sorted({round(across(place), 1) for place, *_, turned in mirror.arrivals if turned == is_turned})
        if places:
            path = "".join(f"M{x:.1f} {below}v{by}" for x in places)
            parts.append(f'<path d="{path}" stroke="{colour}" stroke-width="1"/>')
    return parts, 1


def lanes(mirror, length, top):
    """The drawing of one mirror from this height on, and the height below it."""
    events = mirror.last - mirror.first
    some = "" if events == mirror.place else f", events {mirror.first} to {mirror.last - 1} of {mirror.place}"
    scale = (WIDTH - LEFT - 20) / max(events, 1)
    across = lambda place: LEFT + (place - mirror.first) * scale
    parts, floor = clock_lines(mirror, length, across, top)
    parts.insert(0, label(8, top + 14, f"mirror {mirror.number}{some}", 14))
    below = floor + 22
    parts.append(label(LEFT - 8, below + 4, "arrivals", 12, "end"))
    more, rows = (named_arrivals if events <= MOST_NAMED else stroked_arrivals)(mirror, across, below)
    parts += more
    for place, plan in mirror.restaggers:
        parts.append(line(across(place), top + 20, across(place), floor, COLOURS["ink"], 0.7))
        parts.append(label(across(place) + 2, top + 28, f"plan {plan}", 9))
    return parts, below + 23 + 11 * max(rows, 1)


def draw(length, mirrors):
    parts, top = [], 10
    for mirror in mirrors:
        more, top = lanes(mirror, length, top)
        parts.extend(more)
    parts.append(
        label(LEFT, top + 8, "across: the log, one column an event. Up: a copy's clock in ticks. Red: ticks that a repair ran again. "
              "Filled: taken; hollow: turned away, too old for the last copy.", 11)
    )
    parts.append(label(LEFT, top + 24, "Under an arrival: its mirror and number, and behind the @ the tick in which it is due.", 11))
    head = f'<svg xmlns="http://www.w3.org/2000/svg" width="{WIDTH}" height="{top + 36:.0f}" font-family="sans-serif">'
    return "\n".join([head, '<rect width="100%" height="100%" fill="white"/>', *parts, "</svg>"]) + "\n"


def main():
    parser = argparse.ArgumentParser(description=__doc__, formatter_class=argparse.RawDescriptionHelpFormatter)
    parser.add_argument("record", metavar="RECORD")
    parser.add_argument("--mirror", type=number_in(0, 7), metavar="M", help="draws this mirror alone")
    parser.add_argument("--from", type=number_in(0, 131072), default=0, dest="first", metavar="EVENT", help="the first event that is drawn (default: 0)")
    parser.add_argument("--to", type=number_in(1, 131072), dest="last", metavar="EVENT", help="the event behind the last that is drawn")
    given = parser.parse_args()
    if given.last is not None and given.last <= given.first:
        raise Wrong("--to is above --from")
    try:
        with open(given.record, encoding="ascii") as file:
            length, mirrors = read(file.read(), Part(given.first, given.last), given.mirror)
    except OSError as fault:
        raise Wrong(f"{given.record}: {fault.strerror}")
    except UnicodeDecodeError:
        raise Wrong(f"{given.record} is no record: it isn't ASCII")
    except Wrong as wrong:
        raise Wrong(f"{given.record} is no record: {wrong}")
    if not mirrors:
        raise Wrong(f"--mirror {given.mirror}: the record has no such mirror")
    for mirror in mirrors:
        mirror.end()
    sys.stdout.write(draw(length, mirrors))


if __name__ == "__main__":
    end_with(main)
