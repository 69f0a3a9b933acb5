#!/usr/bin/env python3
"""Damages match texts at random, takes each count at its limit and one past it, and compares the answers with those of a slow reader
that is written after docs/FORMATS.md.

    python3 tools/broken_texts.py PROGRAM SEED COUNT [WORD ..]

PROGRAM is run with the WORDs (default: `lift`) for each text on its standard input. A text that it refuses gets status 5 and the line
`refused line L cause C WORD`. Where the slow reader finds no fault, PROGRAM must not answer status 5 with one of a line above 0.
With `--batch` as the first WORD, PROGRAM reads many texts at once, each as a line with its length and then its bytes, and answers a line
for each: `ok`, or the refusal.
"""

import argparse
import random
import subprocess
import sys

from match_lines import end_with, number_in, program_at

CAUSES = ["", "head", "shape", "number", "place", "name", "order", "many", "end", "long"]
HEAD, SHAPE, NUMBER, PLACE, NAME, ORDER, MANY, END, LONG = range(1, 10)


class Fault(Exception):
    def __init__(self, cause):
        self.cause = cause


def number(word, least, most):
    if not word.isdigit() or not word.isascii() or (len(word) > 1 and word[0] == "0"):
        raise Fault(NUMBER)
    value = int(word)
    if not least <= value <= most:
        raise Fault(NUMBER)
    return value


def is_name(word):
    letters = "abcdefghijklmnopqrstuvwxyz"
    return 1 <= len(word) <= 12 and word[0] in letters and all(c in letters + "0123456789" for c in word)


class Reader:
    """One match text, line by line: each line's checks in the order of the page."""

    def __init__(self):
        self.plans, self.walls, self.pickups, self.players = [], [], [], []
        self.commands, self.script, self.shown, self.stage = set(), 0, 0, "open"
        self.command_count = 0

    def line(self, at, raw):
        if at == 1:
            if raw not in (b"tss match 1", b"tss match 2"):
                raise Fault(HEAD)
            self.version = int(raw[-1:])
            return
        words = raw.split(b" ")
        if any(not w or any(not 33 <= b <= 126 for b in w) for w in words):
            raise Fault(SHAPE)
        words = [w.decode("ascii") for w in words]
        opening = {2: "length", 3: "grid", 4: "mirrors", 5: "delays", 6: "pace"}
        if at in opening:
            if words[0] != opening[at] or len(words) < 2:
                raise Fault(SHAPE)
            getattr(self, words[0])(words[1:])
            return
        if words == ["script"]:
            self.need(self.stage == "open" and self.players)
            self.stage = "script"
        elif words == ["end"]:
            self.need((self.stage == "open" and self.players) or (self.stage == "script" and self.script > 0))
            self.stage = "ended"
        else:
            kind = getattr(self, "take_" + words[0], None) if words[0] in KINDS else None
            self.need(kind is not None and len(words) > 1)
            kind(words[1:])

    def need(self, holds):
        if not holds:
            raise Fault(SHAPE)

    def length(self, w):
        self.need(len(w) == 1)
        self.ticks = number(w[0], 1, 8192)

    def grid(self, w):
        self.need(len(w) == 2)
        self.width, self.height = number(w[0], 3, 64), number(w[1], 1, 64)

    def mirrors(self, w):
        self.need(len(w) == 1)
        self.mirror_count = number(w[0], 1, 8)

    def rising(self, w):
        values = [number(x, 0, 1024) for x in w]
        if any(b <= a for a, b in zip(values, values[1:])):
            raise Fault(ORDER)
        return values

    def delays(self, w):
        if len(w) > 8:
            raise Fault(MANY)
        self.delay = self.rising(w)

    def pace(self, w):
        self.need(len(w) == 1)
        number(w[0], 0, self.delay[-1])

    def open(self, *later):
        self.need(self.stage == "open" and not any(later))

    def take_plan(self, w):
        self.open(self.walls, self.pickups, self.players, self.command_count)
        self.need(len(w) == len(self.delay))
        if len(self.plans) >= 7:
            raise Fault(MANY)
        self.plans.append(self.rising(w))

    def cell(self, x, y):
        return number(x, 0, 2**32 - 1), number(y, 0, 2**32 - 1)

    def in_grid(self, x, y):
        if x >= self.width or y >= self.height:
            raise Fault(PLACE)

    def take_wall(self, w):
        self.open(self.pickups, self.players, self.command_count)
        self.need(len(w) == 2)
        x, y = self.cell(*w)
        self.in_grid(x, y)
        if self.walls and (y, x) <= self.walls[-1]:
            raise Fault(ORDER)
        self.walls.append((y, x))

    def take_pickup(self, w):
        self.open(self.players, self.command_count)
        self.need(len(w) == 3 and w[2] in ("ammo", "heal", "gold"))
        if len(self.pickups) >= 32:
            raise Fault(MANY)
        x, y = self.cell(w[0], w[1])
        self.in_grid(x, y)
        if (y, x) in self.walls or (x, y) in self.pickups:
            raise Fault(PLACE)
        self.pickups.append((x, y))

    def take_player(self, w):
        self.open(self.command_count)
        self.need(len(w) == 4 and w[3] in ("n", "e", "s", "w"))
        if len(self.players) >= (16 if self.version == 1 else 32):
            raise Fault(MANY)
        x, y = self.cell(w[1], w[2])
        if not is_name(w[0]) or any(p[0] == w[0] for p in self.players):
            raise Fault(NAME)
        self.in_grid(x, y)
        if (y, x) in self.walls or (x, y) in self.pickups or any(p[1] == (x, y) for p in self.players):
            raise Fault(PLACE)
        self.players.append((w[0], (x, y)))

    def take_cmd(self, w):
        self.open()
        acts = ("go", "left", "right", "shoot") + (("dash",) if self.version == 2 else ())
        self.need(self.players and len(w) == 5 and w[4] in acts)
        if self.command_count >= (16384 if self.version == 1 else 32768):
            raise Fault(MANY)
        number(w[0], 0, self.ticks - 1)
        name = (number(w[1], 0, self.mirror_count - 1), number(w[2], 0, 999999))
        player = number(w[3], 0, 15 if self.version == 1 else 31)
        if player >= len(self.players) or name in self.commands:
            raise Fault(NAME)
        self.commands.add(name)
        self.command_count += 1

    def scripted(self, holds, shows=False):
        self.need(self.stage == "script" and holds)
        if self.script >= 262144 or (shows and self.shown >= 1024):
            raise Fault(MANY)

    def done(self, shows=False):
        self.script += 1
        self.shown += shows

    def mirror(self, w):
        return number(w, 0, self.mirror_count - 1)

    def take_tick(self, w):
        self.scripted(len(w) == 1)
        self.mirror(w[0])
        self.done()

    take_turn = take_tick

    def take_arrive(self, w):
        self.scripted(len(w) == 3)
        self.mirror(w[0])
        name = (self.mirror(w[1]), number(w[2], 0, 999999))
        if name not in self.commands:
            raise Fault(NAME)
        self.done()

    def of_copy(self, w, shows):
        self.scripted(len(w) == 2, shows)
        self.mirror(w[0])
        number(w[1], 0, len(self.delay) - 1)
        self.done(shows)

    def take_step(self, w):
        self.of_copy(w, False)

    def take_world(self, w):
        self.of_copy(w, True)

    take_run = take_world

    def take_restagger(self, w):
        self.scripted(len(w) == 2)
        self.mirror(w[0])
        number(w[1], 0, len(self.plans))
        self.done()


KINDS = ["plan", "wall", "pickup", "player", "cmd", "tick", "turn", "arrive", "step", "world", "run", "restagger"]


def first_fault(text):
    """The line and the cause of the first fault, or None."""
    if len(text) > 8388608:
        return 0, LONG
    reader, start, at = Reader(), 0, 0
    while True:
        at += 1
        if reader.stage == "ended":
            return (at, END) if start < len(text) else None
        if start == len(text):
            return at, END
        stop = text.find(b"\n", start)
        raw = text[start:] if stop < 0 else text[start:stop]
        if len(raw) > 120:
            return at, LONG
        if stop < 0:
            return at, END
        start = stop + 1
        try:
            reader.line(at, raw)
        except Fault as fault:
            return at, fault.cause


def good_text(r):
    """A match text of the grammar's whole width."""
    version = r.choice([1, 2])
    ticks, width, height = r.choice([1, 4, 100, 8192]), r.randint(3, 64), r.randint(1, 64)
    mirrors, copies = r.randint(1, 8), r.randint(1, 8)
    rising = lambda: sorted(r.sample(range(r.choice([20, 1025])), copies))
    delays = rising()
    lines = ["tss match %d" % version, "length %d" % ticks, "grid %d %d" % (width, height), "mirrors %d" % mirrors]
    lines += ["delays " + " ".join(map(str, delays)), "pace %d" % r.randint(0, delays[-1])]
    plans = r.choice([0, 0, 1, 7])
    lines += ["plan " + " ".join(map(str, rising())) for _ in range(plans)]
    cells = [(y, x) for y in range(height) for x in range(width)]
    r.shuffle(cells)
    players = min(r.choice([1, 2, 16, 16 if version == 1 else 32]), len(cells))
    homes, cells = cells[:players], cells[players:]
    pickups = min(r.choice([0, 1, 32]), len(cells))
    laid, cells = cells[:pickups], cells[pickups:]
    lines += ["wall %d %d" % (x, y) for y, x in sorted(cells[: r.choice([0, 1, 5, 40])])]
    lines += ["pickup %d %d %s" % (x, y, r.choice(["ammo", "heal", "gold"])) for y, x in laid]
    names = r.sample(["ann", "bob", "cat", "d1", "e", "f00", "abcdefghijkl"] + ["p%d" % i for i in range(40)], players)
    lines += ["player %s %d %d %s" % (n, x, y, r.choice("nesw")) for n, (y, x) in zip(names, homes)]
    acts = ["go", "left", "right", "shoot"] + (["dash"] if version == 2 else [])
    taken = {}
    for _ in range(r.choice([0, 1, 6])):
        name = (r.randrange(mirrors), r.choice([0, 1, 7, 999999, r.randrange(1000000)]))
        taken.setdefault(name, "cmd %d %d %d %d %s" % (r.randrange(ticks), name[0], name[1], r.randrange(players), r.choice(acts)))
    lines += taken.values()
    script = []
    for _ in range(r.choice([0, 0, 1, 9])):
        m, c = r.randrange(mirrors), r.randrange(copies)
        kinds = ["tick %d" % m, "turn %d" % m, "step %d %d" % (m, c), "world %d %d" % (m, c), "run %d %d" % (m, c), "restagger %d %d" % (m, r.randint(0, plans))]
        kinds += ["arrive %d %d %d" % ((m,) + name) for name in list(taken)[:2]]
        script.append(r.choice(kinds))
    return lines + (["script"] + script if script else []) + ["end"]


ODD = ["", "0", "00", "01", "1", "2", "7", "8", "15", "16", "31", "32", "64", "65", "1024", "1025", "8192", "8193", "999999", "1000000", "4294967295", "4294967296", "99999999999999999999", "-1", "+1", "x", "Ann", "1ann", "abcdefghijklm", "fly", "dash", "north", "silver", "\t", "\r", "\x7f", "script", "end", "cmd"]


def damaged(r, lines):
    """The text of the lines, with one to three faults of random kinds."""
    lines = list(lines)
    for _ in range(r.choice([1, 1, 1, 2, 3])):
        i = r.randrange(len(lines)) if lines else 0
        if not lines:
            lines = ["end"]
        kind = r.randrange(11)
        words = lines[i].split(" ")
        j = r.randrange(len(words))
        if kind <= 3:
            words[j] = r.choice(ODD)
            lines[i] = " ".join(words)
        elif kind == 4:
            words.insert(j, r.choice(ODD))
            lines[i] = " ".join(words)
        elif kind == 5:
            del words[j]
            lines[i] = " ".join(words)
        elif kind == 6:
            del lines[i]
        elif kind == 7:
            lines.insert(i, r.choice(lines))
        elif kind == 8:
            k = r.randrange(len(lines))
            lines[i], lines[k] = lines[k], lines[i]
        elif kind == 9:
            lines[i] = lines[i] + " " * r.choice([1, 2]) if r.random() < 0.5 else lines[i].replace(" ", "  ", 1)
        else:
            lines[i] = lines[i] + " " + "9" * r.choice([100, 120, 200])
    text = "".join(line + "\n" for line in lines).encode("latin-1")
    cut = r.random()
    if cut < 0.08:
        text = text[: r.randrange(len(text) + 1)]
    elif cut < 0.12:
        text += r.choice([b"\n", b"x", b"end\n", b"y" * 300])
    elif cut < 0.15:
        text = text.replace(b"\n", b"\r\n")
    return text


def limit_texts():
    """Texts with each count at its limit, and with one past it."""

    def text(version, front=(), mirrors=1, delays=(0,), players=1, commands=0, script=()):
        lines = ["tss match %d" % version, "length 8192", "grid 64 64", "mirrors %d" % mirrors, "delays " + " ".join(map(str, delays)), "pace 0"]
        lines += front
        lines += ["player p%d %d %d e" % (i, i, 63) for i in range(players)]
        lines += ["cmd %d 0 %d 0 go" % (i % 8192, i) for i in range(commands)]
        lines += (["script"] if script else []) + list(script) + ["end"]
        return "".join(line + "\n" for line in lines).encode()

    for past in (0, 1):
        for version in (1, 2):
            yield text(version, commands=16384 * version + past)
            yield text(version, players=16 * version + past)
            yield text(version, mirrors=8 + past)
            yield text(version, delays=range(8 + past))
            yield text(version, front=["plan %d" % i for i in range(7 + past)])
            yield text(version, front=["pickup %d 0 gold" % i for i in range(32 + past)])
            yield text(version, script=["tick 0"] * (262144 + past))
            yield text(version, script=["world 0 0", "run 0 0"] * 512 + ["run 0 0"] * past)
            yield text(version, front=["wall %d %d" % (x, y) for y in range(63) for x in range(64)] + ["wall 63 62"] * past)
        yield b"x" * (120 + past) + b"\n"
        yield b"x" * (8388608 + past)


def told(fault):
    return "ok" if fault is None else "refused line %d cause %d %s" % (fault[0], fault[1], CAUSES[fault[1]])


def main():
    parser = argparse.ArgumentParser(description=__doc__, formatter_class=argparse.RawDescriptionHelpFormatter)
    parser.add_argument("program", metavar="PROGRAM")
    parser.add_argument("seed", metavar="SEED", type=number_in(0, 10 ** 18))
    parser.add_argument("count", metavar="COUNT", type=number_in(0, 10 ** 9), help="how many texts are drawn")
    parser.add_argument("words", metavar="WORD", nargs=argparse.REMAINDER, help="what PROGRAM is run with (default: lift)")
    given = parser.parse_args()
    program, seed, count, words = program_at(given.program), given.seed, given.count, given.words or ["lift"]
    r = random.Random(seed)
    texts = [damaged(r, good_text(r)) if r.random() < 0.95 else "".join(x + "\n" for x in good_text(r)).encode() for _ in range(count)]
    texts += limit_texts()
    wanted = [told(first_fault(t)) for t in texts]
    if words[0] == "--batch":
        sent = b"".join(b"%d\n" % len(t) + t for t in texts)
        answers = subprocess.run([program] + words[1:], input=sent, stdout=subprocess.PIPE, check=True).stdout.decode().splitlines()
    else:
        answers = []
        for t in texts:
            run = subprocess.run([program] + words, input=t, stdout=subprocess.PIPE)
            answers.append(run.stdout.decode().rstrip("\n") if run.returncode == 5 else "ok")
    causes = {}
    for t, want, got in zip(texts, wanted, answers):
        causes[want.split(" ")[-1]] = causes.get(want.split(" ")[-1], 0) + 1
        if want != got:
            sys.stdout.write("wanted %s, got %s, for:\n%s\n" % (want, got, t.decode("latin-1")))
            sys.exit(1)
    if len(answers) != len(texts):
        sys.exit("answered %d of %d texts" % (len(answers), len(texts)))
    print("%d texts, seed %d, no difference: %s" % (len(texts), seed, " ".join("%s %d" % c for c in sorted(causes.items()))))


if __name__ == "__main__":
    end_with(main)
