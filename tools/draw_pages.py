#!/usr/bin/env python3
"""Draws the pictures of pages from what is there: the scheme, the layers of crates, a race, and live mirrors.

    python3 tools/draw_pages.py scheme > docs/pictures/scheme.svg     the copies of the tour's match, and a late command
    python3 tools/draw_pages.py layers > docs/pictures/layers.svg     the crates of crates.txt, each above all that it stands on
    python3 tools/draw_pages.py race > docs/pictures/race.svg         the threads of a race, and what lies between them
    python3 tools/draw_pages.py mirrors > docs/pictures/mirrors.svg   the processes of live mirrors, and what carries commands between them

The scheme is the match of `examples/copies.match`, run by the slow model; colours of layers are the headings of docs/ARCHITECTURE.md;
what stands in the boxes of live mirrors is what the files of tools/serving say of themselves, and the delays of `examples/arena.match`.
Only Python's standard library is used.
"""

import argparse
import ast
import os
import re
import sys
import textwrap
from xml.sax.saxutils import escape

import slow_model
from match_lines import Wrong, end_with

TOP = os.path.join(os.path.dirname(os.path.abspath(__file__)), "..")
INK, PALE, GRID = "#333", "#777", "#d8d8d8"
COMMANDS = {(0, 0): "#b26a00", (1, 0): "#1f5fa8"}
REPAIR = "#c0392b"


def read(*names):
    with open(os.path.join(TOP, *names), encoding="utf-8") as file:
        return file.read()


class Picture:
    """Shapes on a white ground, so that a dark page shows them as print does."""

    def __init__(self, width, height, said):
        self.head = (f'<svg xmlns="http://www.w3.org/2000/svg" width="{width}" height="{height}" viewBox="0 0 {width} {height}" '
                     f'font-family="sans-serif" font-size="13" role="img">')
        self.parts = [f"<title>{escape(said)}</title>", f'<rect width="{width}" height="{height}" fill="white"/>']

    def text(self, x, y, words, colour=INK, anchor="start", size=None, bold=False):
        extra = (f' font-size="{size}"' if size else "") + (' font-weight="bold"' if bold else "")
        self.parts.append(f'<text x="{x:.1f}" y="{y:.1f}" fill="{colour}" text-anchor="{anchor}"{extra}>{escape(words)}</text>')

    def rect(self, x, y, width, height, fill, stroke="none"):
        self.parts.append(f'<rect x="{x:.1f}" y="{y:.1f}" width="{width:.1f}" height="{height:.1f}" rx="4" fill="{fill}" stroke="{stroke}"/>')

    def line(self, x, y, to_x, to_y, colour=INK, dash=None, arrow=False, width=1.5):
        extra = f' stroke-dasharray="{dash}"' if dash else ""
        self.parts.append(f'<line x1="{x:.1f}" y1="{y:.1f}" x2="{to_x:.1f}" y2="{to_y:.1f}" stroke="{colour}" stroke-width="{width}"{extra}/>')
        if arrow:
            length = max(((to_x - x) ** 2 + (to_y - y) ** 2) ** 0.5, 1e-9)
            ux, uy = (to_x - x) / length, (to_y - y) / length
            left, right = (to_x - 9 * ux + 4 * uy, to_y - 9 * uy - 4 * ux), (to_x - 9 * ux - 4 * uy, to_y - 9 * uy + 4 * ux)
            points = " ".join(f"{a:.1f},{b:.1f}" for a, b in ((to_x, to_y), left, right))
            self.parts.append(f'<polygon points="{points}" fill="{colour}"/>')

    def disc(self, x, y, words, colour):
        self.parts.append(f'<circle cx="{x:.1f}" cy="{y:.1f}" r="13" fill="{colour}"/>')
        self.text(x, y + 4, words, "white", "middle", 11)

    def svg(self):
        return "\n".join([self.head, *self.parts, "</svg>"]) + "\n"


# ---- the scheme

class Moment:
    """What stands at a mirror at one moment: its clock and the runs of its copies, and those before."""

    def __init__(self, title, mirror, before=None):
        self.title, self.clock, self.runs, self.before = title, mirror.clock, [list(run) for run in mirror.runs], before

    def repaired_from(self, copy):
        """The tick from which a copy was repaired: that of the first item that it has otherwise than before."""
        if self.before is None:
            return None
        old, new = self.before.runs[copy], self.runs[copy]
        same = next((at for at, (a, b) in enumerate(zip(old, new)) if a != b), min(len(old), len(new)))
        return slow_model.beats(old[:same]) if same < len(old) else None


def tour():
    """The moments of mirror 1 in the tour's match."""
    lines = [line.split(" ") for line in read("examples", "copies.match").splitlines()]
    of = lambda word: [line[1:] for line in lines if line[0] == word]
    commands = [(*map(int, words[:4]), words[4]) for words in of("cmd")]
    match = slow_model.Match(int(of("length")[0][0]), (7, 1), 2, [[int(d) for d in of("delays")[0]]], 0, set(), [], [], commands, [])
    mirror, moments = slow_model.Mirror(match, None), []
    script = lines[lines.index(["script"]) + 1:-1]
    for words in script:
        if words[1] != "1" or words[0] not in ("arrive", "turn"):
            continue
        if words[0] == "turn":
            mirror.turn()
            if moments and len(moments) == 2:
                moments.append(Moment("The last copy runs tick 1: the runs ahead begin otherwise, so both copies are repaired", mirror, moments[-1]))
            continue
        x = match.command(int(words[2]), int(words[3]))
        if x[0] < mirror.clock:
            moments.append(Moment("In time order so far: each copy runs behind the clock by its delay", mirror))
            mirror.arrive(x)
            moments.append(Moment(f"Command {x[1]}.{x[2]} of tick {x[0]} arrives: copies that are past that tick execute it at once, out of order", mirror, moments[-1]))
        else:
            mirror.arrive(x)
    return match, moments


def scheme():
    match, moments = tour()
    left, tick, lane, head = 150, 105, 44, 34
    height = len(moments) * (head + 3 * lane + 26) + 34
    late = next(x for x in match.commands if x[1] == 0)
    picture = Picture(left + 7 * tick + 30, height, "Three copies of one world at delays of 0, 2 and 4 ticks: before a late command, when it arrives, and when the last copy runs its tick and both copies ahead are repaired")
    y = 10
    for moment in moments:
        picture.text(20, y + 16, moment.title, bold=True)
        bottom = y + head + 3 * lane
        for at in range(8):
            picture.line(left + at * tick, y + head - 6, left + at * tick, bottom, GRID, width=1)
        picture.rect(left + late[0] * tick, y + head - 6, tick, 3 * lane + 6, "#fdf3e1")
        for copy, run in enumerate(moment.runs):
            draw_copy(picture, left, y + head + copy * lane, tick, copy, match.plans[0][copy], run, moment.repaired_from(copy))
        picture.line(left + moment.clock * tick, y + head - 10, left + moment.clock * tick, bottom, PALE, "4 3")
        picture.text(left + moment.clock * tick + 6, y + head + 3 * lane - 4, "clock", PALE, size=12)
        y = bottom + 26
    for at in range(7):
        picture.text(left + (at + 0.5) * tick, y, f"tick {at}", PALE, "middle")
    return picture.svg()


def draw_copy(picture, left, y, tick, copy, delay, run, back):
    beats, colour = slow_model.beats(run), "#e8eef6"
    picture.text(20, y + 22, f"copy {copy}")
    picture.text(74, y + 22, f"delay {delay}", PALE)
    picture.rect(left, y + 2, max(beats * tick, 3), 32, colour, "#9db4d0")
    if back is not None and back < beats:
        picture.line(left + beats * tick - 4, y + 38, left + back * tick + 4, y + 38, REPAIR, arrow=True, width=2)
    at, inside = 0, 0
    for item in run:
        if item is slow_model.BEAT:
            at, inside = at + 1, 0
        else:
            picture.disc(left + at * tick + 22 + 30 * inside, y + 18, f"{item[1]}.{item[2]}", COMMANDS[item[1:3]])
            inside += 1


# ---- the layers

GROUPS = {"Values": "#5d6d7e", "Texts and streams": "#2874a6", "Games": "#b9770e", "A mirror": "#1e8449", "Along a script": "#7d3c98",
          "On threads": "#c0392b", "Live": "#117a65", "Peers": "#6e2c00", "The program": "#333"}


def stands_on():
    """Of each crate of crates.txt the crates of ours that it names."""
    rows = [line.split("#")[0].partition(":") for line in read("crates.txt").splitlines()]
    named = {row[0].split(" ")[0].strip(): row[2].split() for row in rows if row[0].strip()}
    return {crate: [other for other in others if other in named] for crate, others in named.items()}


def groups():
    """Under which heading of the page each crate stands."""
    found, group = {}, None
    for line in read("docs", "ARCHITECTURE.md").splitlines():
        heading = re.fullmatch(r"\*\*(.+)\*\*", line)
        group = heading.group(1) if heading else group
        for crate in re.findall(r"\]\(\.\./crates/(\w+)\)", line) if group else []:
            found.setdefault(crate, group)
    return found


def heights(below):
    """How high each crate stands: above the highest that it names."""
    found = {}

    def height(crate):
        if crate not in found:
            found[crate] = 1 + max((height(other) for other in below[crate]), default=-1)
        return found[crate]
    for crate in below:
        height(crate)
    return found


def layers():
    below, group = stands_on(), groups()
    unknown = [crate for crate in below if group.get(crate) not in GROUPS]
    if unknown:
        raise Wrong(f"docs/ARCHITECTURE.md has {', '.join(unknown)} under no heading that has a colour")
    level = heights(below)
    order = list(GROUPS)
    rows = [sorted((crate for crate in below if level[crate] == at), key=lambda crate: (order.index(group[crate]), crate)) for at in range(max(level.values()) + 1)]
    width, box, gap, row, left = 1010, 118, 6, 34, 20
    most = (width - left) // (box + gap)
    lines = [(at, crates[i:i + most]) for at, crates in enumerate(rows) for i in range(0, len(crates), most)]
    picture = Picture(width, 60 + row * len(lines) + 14 * len(rows), "The crates: each stands only on crates in rows below its own")
    y, last = 44, len(rows) - 1
    x = left
    for name in order:
        picture.rect(x, 12, 12, 12, GROUPS[name])
        picture.text(x + 16, 22, name, size=12)
        x += 46 + 7 * len(name)
    for at, crates in reversed(lines):
        if at != last:
            y, last = y + 14, at
        for x, crate in enumerate(crates):
            picture.rect(left + x * (box + gap), y, box, row - 8, GROUPS[group[crate]])
            picture.text(left + x * (box + gap) + box / 2, y + 17, crate, "white", "middle", 12)
        y += row
    return picture.svg()


# ---- a race

def race():
    picture = Picture(900, 400, "A race: in each mirror a feeder and a worker for each copy call one lock; links carry the commands from each feeder to the feeders of the other mirrors")
    for number, left in ((0, 20), (1, 480)):
        draw_mirror(picture, left, number)
    for y, sender, words in ((100, 0, "link of mirror 0"), (146, 1, "link of mirror 1")):
        x, to = (400, 500) if sender == 0 else (500, 400)
        picture.line(x, y, to, y, "#1e8449", arrow=True, width=2)
        picture.text(450, y - 8, words, "#1e8449", "middle", 12)
    for at, words in enumerate(("A link carries a feeder's commands of a tick, and then a mark: no more of this tick comes.",
                                "A worker drafts a due tick under the lock, executes it on its own world, and commits it; a stale draft is drafted again.")):
        picture.text(20, 362 + 22 * at, words)
    return picture.svg()


def draw_mirror(picture, left, number):
    picture.rect(left, 20, 400, 310, "#fafafa", GRID)
    picture.text(left + 14, 44, f"mirror {number}", bold=True)
    feeder = left + (250 if number == 0 else 20)
    picture.rect(feeder, 70, 130, 100, "#e3f1e7", "#1e8449")
    picture.text(feeder + 65, 98, "feeder", anchor="middle", bold=True)
    for at, words in enumerate(("issues its plan,", "hears the links,", "ticks the clock")):
        picture.text(feeder + 65, 118 + 16 * at, words, PALE, "middle", 12)
    lock = left + (60 if number == 0 else 210)
    picture.rect(lock, 70, 130, 100, "#f7e6e3", REPAIR)
    picture.text(lock + 65, 98, "turn lock", anchor="middle", bold=True)
    for at, words in enumerate(("one call at a time,", "in the order of tickets;", "inside: the mirror")):
        picture.text(lock + 65, 118 + 16 * at, words, PALE, "middle", 12)
    ends = (feeder, lock + 130) if number == 0 else (feeder + 130, lock)
    picture.line(ends[0], 120, ends[1], 120, arrow=True)
    for copy in range(3):
        x = left + 24 + 122 * copy
        picture.rect(x, 250, 108, 56, "#e8eef6", "#9db4d0")
        picture.text(x + 54, 273, f"worker {copy}", anchor="middle", bold=True)
        picture.text(x + 54, 292, f"copy {copy}'s ticks", PALE, "middle", 12)
        picture.line(x + 54, 250, lock + 30 + 35 * copy, 172, arrow=True)


# ---- live mirrors

def said_of(name):
    """The first sentence that a file of the tool says of itself, without its marks."""
    said = ast.get_docstring(ast.parse(read("tools", "serving", f"{name}.py")))
    return re.split(r"[.:](?:\s|$)", said)[0].replace("`", "").replace("\n", " ")


def mirrors():
    picture = Picture(900, 536, "Live mirrors on two machines: on each a page speaks with the tool over a WebSocket, and the tool over pipes with one proved process tss_mirror; between the tools links over TCP carry the commands, or a broker does")
    for number, left in ((0, 20), (1, 540)):
        draw_machine(picture, left, number)
    for y, x, to, words in ((206, 346, 554, "link of mirror 0"), (250, 554, 346, "link of mirror 1")):
        picture.line(x, y, to, y, "#1e8449", arrow=True, width=2)
        picture.text(450, y - 8, words, "#1e8449", "middle", 12)
    picture.text(450, 272, "TCP, each line sealed", "#1e8449", "middle", 12)
    picture.text(450, 304, "or", PALE, "middle", 12)
    picture.rect(390, 316, 120, 44, "#fdf3e1", "#b26a00")
    picture.text(450, 335, "broker", anchor="middle", bold=True)
    picture.text(450, 352, "MQTT", PALE, "middle", 12)
    for x, to in ((346, 390), (554, 510)):
        picture.line(x, 338, to, 338, "#b26a00", "4 3")
    for at, (colour, stroke, words) in enumerate((("#e8eef6", "#9db4d0", "proved: each answer is the model's, whatever is told"), ("#fafafa", PALE, "tested: what carries lines, keeps the clock and draws the page"))):
        picture.rect(20 + 390 * at, 500, 16, 16, colour, stroke)
        picture.text(44 + 390 * at, 513, words)
    return picture.svg()


def draw_machine(picture, left, number):
    delays = re.search(r"(?m)^delays (.+)$", read("examples", "arena.match")).group(1).split(" ")
    picture.rect(left, 16, 340, 468, "white", GRID)
    picture.text(left + 14, 38, "one machine" if number == 0 else "another machine", PALE)
    draw_role(picture, left + 20, 50, 66, "page", "web", "#fafafa")
    picture.rect(left + 14, 160, 312, 216, "#f4f4f4", PALE)
    picture.text(left + 170, 180, "serve_mirrors.py", anchor="middle", bold=True)
    for at, name in enumerate(("session", "room", "journal")):
        draw_role(picture, left + 20, 190 + 61 * at, 56, f"{name}.py", name, "#fafafa")
    picture.rect(left + 20, 420, 300, 52, "#e8eef6", "#9db4d0")
    picture.text(left + 170, 441, f"tss_mirror, mirror {number}", anchor="middle", bold=True)
    picture.text(left + 170, 460, f"copies at delays of {', '.join(delays[:-1])} and {delays[-1]} ticks", PALE, "middle", 12)
    for y, to, words in ((116, 160, "WebSocket: acts, and the copies' worlds"), (376, 420, "pipes: requests, and their answers")):
        picture.line(left + 40, y, left + 40, to, arrow=True)
        picture.line(left + 56, to, left + 56, y, arrow=True)
        picture.text(left + 70, (y + to) / 2 + 5, words, PALE, size=12)


def draw_role(picture, x, y, height, title, file, colour):
    picture.rect(x, y, 300, height, colour, PALE)
    picture.text(x + 150, y + 18, title, anchor="middle", bold=True)
    for at, words in enumerate(textwrap.wrap(said_of(file), 44)[:2]):
        picture.text(x + 150, y + 34 + 15 * at, words, PALE, "middle", 12)


PICTURES = {"scheme": scheme, "layers": layers, "race": race, "mirrors": mirrors}


def main():
    parser = argparse.ArgumentParser(description=__doc__, formatter_class=argparse.RawDescriptionHelpFormatter)
    parser.add_argument("picture", choices=sorted(PICTURES))
    sys.stdout.write(PICTURES[parser.parse_args().picture]())


if __name__ == "__main__":
    end_with(main)
