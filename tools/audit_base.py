#!/usr/bin/env python3
"""Executes what a mirror without an end told at its end, and says whether its last world follows from the base's.

    python3 tools/audit_base.py FILE|-

FILE, or standard input, has the lines of a match, whose setup is taken, and then what the mirror was answered to `end`, from `base` to
`done`: `serve_mirrors.py --endless --out FOLDER` keeps such a text of each mirror. The remembered commands are executed in time order,
by slow plain rules, from the base's world on up to the tick of the last world. Where this comes to that world, byte for byte, and the
commands are such as the mirror may remember, `legal M FROM TO` is printed, with the mirror, the base and that tick; else the first
difference, with status 1. What is no such text is told in a line, with status 2.

Whether the base's world is right isn't audited: what led to it is forgotten.
"""

import argparse
import sys

from broken_texts import CAUSES, Fault, number
from live_model import LAST_NUMBER, LAST_TICK, Head
from match_lines import end_with
from slow_model import Arena

MOST_SCORE, MOST_SHOTS = 1_000_000, 64


class Unreadable(Exception):
    """Why a text isn't one, with its line."""


class Lines:
    """The lines behind the match, each taken in its turn."""

    def __init__(self, lines, at):
        self.lines, self.at = lines, at

    def wrong(self, why):
        shown = repr(self.lines[self.at]) if self.at < len(self.lines) else "the end of the text"
        return Unreadable(f"line {self.at + 1}, {shown[:60]}: {why}")

    def words(self, form):
        """The words of the next line behind its first one, which has to be of this form, say `world M C TIME`."""
        found = self.lines[self.at].split(" ") if self.at < len(self.lines) else []
        due = form.split(" ")
        if len(found) != len(due) or found[0] != due[0]:
            raise self.wrong(f"'{form}' is due")
        return found[1:]

    def numbers(self, form, *most):
        """The numbers of the next line, each at most so high."""
        words = self.words(form)
        try:
            return [number(word, 0, top) for word, top in zip(words, most)]
        except Fault:
            raise self.wrong("a number isn't canonical, or out of range")

    def block(self):
        first = self.at
        while self.at < len(self.lines) and self.lines[self.at].split(" ")[0] in ("live", "dead", "shot", "item"):
            self.at += 1
        return first, self.lines[first:self.at]


def match_in(lines):
    """The match that stands in front, and the place of the line behind it."""
    head = Head()
    for at, line in enumerate(lines, 1):
        try:
            head.line(at, line.encode())
        except Fault as fault:
            raise Unreadable(f"line {at}: cause {fault.cause} {CAUSES[fault.cause]}")
        if head.stage == "ended":
            return head.match(), at
    raise Unreadable("there is no match in front")


class Shown:
    """A world that a block of lines shows. With the match's setup these lines tell all of it."""

    def __init__(self, match):
        self.match, self.world = match, Arena(match)
        self.names = [player["name"] for player in self.world.players]

    def read(self, lines):
        """The world, or None where the lines are no block of a world of this match."""
        players, items = len(self.names), len(self.match.pickups)
        shots = lines[players:len(lines) - items]
        if len(lines) < players + items or len(shots) > MOST_SHOTS:
            return None
        try:
            for player, line in zip(self.world.players, lines):
                self.read_player(player, line.split(" "))
            self.world.shots = [self.shot(*line.split(" ")) for line in shots]
            self.world.waits = [number(line.split(" ")[-1], 0, 20) for line in lines[players + len(shots):]]
        except (Fault, TypeError, ValueError):
            return None
        cells = [player["live"][0] for player in self.world.players if player["live"]]
        return self.world if len(cells) == len(set(cells)) and self.world.lines() == lines else None

    def read_player(self, player, words):
        player["score"] = (-1 if words[-1].startswith("-") else 1) * number(words[-1].lstrip("-"), 0, MOST_SCORE)
        if words[0] == "live":
            _, _, x, y, face, health, ammo, _ = words
            player["live"] = [*self.place(x, y, face), number(health, 1, 3), number(ammo, 0, 9)]
        else:
            _, _, wait, _ = words
            player["live"], player["wait"] = None, number(wait, 0, 10)

    def shot(self, word, name, x, y, face, left):
        return [self.names.index(name), *self.place(x, y, face), number(left, 1, 8)]

    def place(self, x, y, face):
        cell = number(x, 0, 63), number(y, 0, 63)
        if not self.match.is_open(cell) or face not in tuple("nesw"):
            raise ValueError
        return cell, face


class BaseText:
    """What a mirror without an end told at its end, behind its match: the base's world, the remembered commands, the last world."""

    def __init__(self, lines):
        self.match, at = match_in(lines)
        rest = Lines(lines, at)
        mirrors, last = self.match.mirrors - 1, len(self.match.plans[0]) - 1
        self.mirror, self.base = rest.numbers("base M B", mirrors, LAST_TICK)
        rest.at += 1
        self.base_world = self.world(rest, last, self.base)[1]
        count = rest.numbers("log M E", self.of_mirror(rest, "log M E"), 10**6)[1]
        rest.at += 1
        self.commands, self.first_command = [], rest.at
        for _ in range(count):
            self.commands.append(self.command(rest))
            rest.at += 1
        self.time = rest.numbers("world M C TIME", self.of_mirror(rest, "world M C TIME"), last, LAST_TICK)[2]
        self.first_line, self.last_world = self.world(rest, last, self.time)
        if rest.lines[rest.at:] != ["done"]:
            raise rest.wrong("'done' is due, and then nothing")

    def of_mirror(self, rest, form):
        if rest.words(form)[0] != str(self.mirror):
            raise rest.wrong(f"mirror {self.mirror} is due")
        return self.mirror

    def world(self, rest, copy, tick):
        """The place of a block's first line, and its lines, behind a head of the last copy and this tick."""
        if rest.words("world M C TIME") != [str(self.mirror), str(copy), str(tick)]:
            raise rest.wrong(f"'world {self.mirror} {copy} {tick}' is due")
        rest.at += 1
        first, lines = rest.block()
        if Shown(self.match).read(lines) is None:
            rest.at = first
            raise rest.wrong("here begins no block of a world of this match")
        return first, lines

    def command(self, rest):
        act = rest.words("cmd T F N P ACT")[-1]
        acts = ("go", "left", "right", "shoot") + (("dash",) if self.match.version == 2 else ())
        if act not in acts:
            raise rest.wrong("it is no act")
        return (*rest.numbers("cmd T F N P ACT", LAST_TICK - 1, self.match.mirrors - 1, LAST_NUMBER, len(self.match.players) - 1), act)

    def world_at(self, tick):
        """The lines of the world at this tick, from the base on, after the remembered commands in time order."""
        world, due = Shown(self.match).read(self.base_world), sorted(self.commands, reverse=True)
        for now in range(self.base, tick):
            while due and due[-1][0] == now:
                world.apply(due.pop())
            world.beat()
        return world.lines()

    def difference(self):
        """The first one from what a mirror may tell, or None."""
        end, names = self.base + self.match.length, set()
        for at, x in enumerate(self.commands, self.first_command):
            why = "its name stands above" if x[1:3] in names else "" if self.base <= x[0] < end else f"its time isn't in {self.base} to {end - 1}"
            if why:
                return f"line {at + 1}: cmd {' '.join(map(str, x))}: {why}"
            names.add(x[1:3])
        if not self.base <= self.time < end:
            return f"line {self.first_line}: the last world's tick isn't in {self.base} to {end - 1}"
        due = self.world_at(self.time)
        for at, (found, wanted) in enumerate(zip(self.last_world + [None], due + [None])):
            if found != wanted:
                return f"line {self.first_line + at + 1}: {found or 'no line'}, due {wanted or 'none'}"
        return None

    def verdict(self):
        """The line that is printed, and whether all is as it should be."""
        difference = self.difference()
        return f"not legal {self.mirror} {difference}" if difference else f"legal {self.mirror} {self.base} {self.time}", difference is None


def lines_in(path):
    try:
        if path == "-":
            text = sys.stdin.buffer.read()
        else:
            with open(path, "rb") as file:
                text = file.read()
    except OSError as fault:
        raise Unreadable(fault.strerror)
    if not text.isascii() or not text.endswith(b"\n"):
        raise Unreadable("it isn't ASCII, or its last line has no end")
    return text.decode().split("\n")[:-1]


def main():
    parser = argparse.ArgumentParser(description=__doc__, formatter_class=argparse.RawDescriptionHelpFormatter)
    parser.add_argument("file", metavar="FILE")
    path = parser.parse_args().file
    try:
        verdict, is_legal = BaseText(lines_in(path)).verdict()
    except Unreadable as why:
        print(f"audit_base.py: {path}: {why}", file=sys.stderr)
        return 2
    print(verdict)
    return 0 if is_legal else 1


if __name__ == "__main__":
    end_with(main)
