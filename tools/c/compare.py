#!/usr/bin/env python3
"""Compares a Python host over libtsync_mirror.so with `tss play`, `tss paint play`, `tss join` and `tss audit`, on drawn scripts.

    python3 compare.py LIBRARY PROGRAM [SEED] [COUNT]

The host executes what the library tells it, and prints what play prints; every line is compared, also `run` lines. A second
host makes each turn by one call, and must have the same worlds and the same history; that history, as a record, must be legal.
A third joins each mirror late.
"""

import os
import random
import subprocess
import sys

sys.path.insert(0, os.path.join(os.path.dirname(os.path.abspath(__file__)), ".."))
import tsync_mirror as tss
from slow_model import Arena, Paint, vars_of
from slow_words import match_of, script_of, text


class Host:
    """A mirror of a match, line by line."""

    def __init__(self, lib, match, opening):
        self.match, self.length, self.accepted, self.repairs, self.late = match, match.length, 0, 0, []
        payloads = {x[1:3]: x for x in match.commands}
        room = len(match.script)
        self.mirror = tss.Mirror(lib, match.plans, match.length, room, room, opening, payloads)

    def step(self, of):
        answer = self.mirror.step(of)
        if answer.kind == tss.RAN:
            self.repairs += answer.value
        return answer

    def turn(self):
        self.mirror.tick()
        return [a.value for a in map(self.step, range(self.mirror.copies)) if a.kind == tss.RAN and a.value]

    def drain(self):
        repaired = []
        while any(self.mirror.copy_clock(c) < self.length for c in range(self.mirror.copies)):
            repaired += self.turn()
        return repaired

    def arrive(self, m, sender, number):
        answer = self.mirror.arrive(self.match.command(sender, number)[0], sender, number)
        if answer.kind == tss.TAKEN:
            self.accepted, self.repairs = self.accepted + 1, self.repairs + answer.value
            return [f"repair {m} {answer.value}"] if answer.value else []
        if answer.kind == tss.REPEAT:
            return [f"repeat {m} {sender} {number}"]
        self.late.append((sender, number))
        return [f"late {m} {sender} {number} {answer.value}"]

    def line(self, words):
        word, m, *rest = words
        if word == "tick":
            return [] if self.mirror.tick().kind == tss.MOVED else [f"over {m}"]
        if word == "turn":
            return [f"repair {m} {r}" for r in self.turn()]
        if word == "arrive":
            return self.arrive(m, *rest)
        if word == "restagger":
            assert self.mirror.restagger(rest[0]).kind == tss.RESTAGGERED
            return []
        if word == "step":
            answer = self.step(rest[0])
            return [f"idle {m} {rest[0]}"] if answer.kind == tss.IDLE else [f"repair {m} {answer.value}"] if answer.value else []
        if word == "world":
            return self.block(m, rest[0])
        items = self.mirror.items(rest[0])
        return [f"run {m} {rest[0]}:" + "".join(" |" if it.is_beat else f" {it.from_}.{it.number}" for it in items)]

    def block(self, m, of):
        return [f"world {m} {of} {self.mirror.copy_clock(of)}", *self.mirror.worlds[of].lines()]

    def blocks(self, m):
        return [line for of in range(self.mirror.copies) for line in self.block(m, of)]

    def log(self, m):
        """The lines of a record: the events, and the worlds behind them."""
        words = {tss.A_TICK: "tick", tss.AN_ARRIVAL: "arrive {0.from_} {0.number}", tss.A_STEP: "step {0.which}", tss.A_RESTAGGER: "restagger {0.which}"}
        events = [words[event.what].format(event) for event in self.mirror.history()]
        return [f"log {m} {len(events)}", *events, *self.blocks(m)]


class Turning(Host):
    """The same, with each turn by one call."""

    def turn(self):
        answer = self.mirror.turn()
        return [answer.value] if answer.value else []


class Late(Host):
    """A mirror that joins late."""

    def __init__(self, lib, other):
        self.match, self.repairs, self.late = other.match, 0, []
        self.start, _, _, accepted = snapshot = other.mirror.snapshot()
        self.length, self.passed = other.length - self.start, {x[:2] for x in accepted if x[2] < self.start}
        self.accepted, room = len(accepted) - len(self.passed), len(self.match.script)
        self.mirror = tss.join(lib, self.match.plans, other.length, room, room + 1, snapshot, other.mirror.payloads)

    def arrive(self, _, sender, number):
        time = self.match.command(sender, number)[0]
        if (sender, number) in self.passed:
            return [f"repeat {sender} {number}"]
        if time < self.start:
            return [f"before {sender} {number} {time} {self.start}"]
        answer = self.mirror.arrive(time - self.start, sender, number)
        if answer.kind == tss.TAKEN:
            self.accepted, self.repairs = self.accepted + 1, self.repairs + answer.value
            return []
        if answer.kind == tss.REPEAT:
            return [f"repeat {sender} {number}"]
        self.late.append((sender, number))
        return [f"late {sender} {number} {answer.value + self.start}"]

    def along(self, words):
        """What `join` prints of a line."""
        lines = self.line(words)
        return lines if words[0] == "arrive" else []


def counts(head, host):
    """The program notes a late command each time, the library once."""
    assert [(x.from_, x.number) for x in host.mirror.turned()] == list(dict.fromkeys(host.late))
    return f"{head} accepted {host.accepted} turned {len(host.late)} repairs {host.repairs}"


def joined(lib, match, number, first):
    """The status and the lines of a mirror and one that joins late from it."""
    host, mine = Host(lib, match, lambda: Arena(match)), [words for words in match.script[:first] if words[1] == number]
    for words in mine:
        host.line(words)
    start, last = host.mirror.copy_clock(host.mirror.copies - 1), host.mirror.copies - 1
    if start == match.length:
        return 7, [f"too late {start} {match.length}"]
    late, lines = Late(lib, host), [f"join {number} {first} clock {start}"]
    for words in match.script[first:]:
        if words[1] == number:
            host.line(words)
            lines += late.along(words)
    host.drain()
    late.drain()
    worlds = [one.mirror.worlds[last] for one in (host, late)]
    lines += [counts(f"mirror {number}", host), f"world {number} {last} {match.length}", *worlds[0].lines()]
    lines += [counts("joiner", late), f"world joiner {match.length}", *worlds[1].lines()]
    return 0, [*lines, "same " + ("yes" if vars_of(worlds[0]) == vars_of(worlds[1]) else "no"), "done"]


def hosts_of(kind, lib, match, opening):
    """The mirrors of a match behind its script, and what the script printed."""
    hosts, lines = [kind(lib, match, opening) for _ in range(match.mirrors)], []
    for words in match.script:
        lines += hosts[words[1]].line(words)
    for m, host in enumerate(hosts):
        lines += [f"repair {m} {r}" for r in host.drain()]
    return hosts, lines


def ends(hosts):
    lines = []
    for m, host in enumerate(hosts):
        assert host.mirror.spare() == len(host.match.script) - host.accepted - len(set(host.late))
        assert host.accepted == sum(1 for _ in host.mirror.accepted())
        lines += [counts(f"mirror {m}", host), *host.blocks(m)]
    return lines + ["done"]


def logs(hosts):
    return [line for m, host in enumerate(hosts) for line in host.log(m)]


def ran(program, words, given):
    done = subprocess.run([program, *words], input=given, capture_output=True, check=False)
    return done.returncode, done.stdout


def differs(name, given, found, wanted):
    print(f"{name} differs\n{given.decode()}")
    for was, due in zip(found.decode().splitlines(), wanted.decode().splitlines()):
        if was != due:
            sys.exit(f"  {was}\n  {due}")
    sys.exit("  another length")


def compared(lib, program, match, words, world, tally):
    given = text(match.lines())
    hosts, lines = hosts_of(Host, lib, match, lambda: world(match))
    found = text(lines + ends(hosts))
    status, wanted = ran(program, words, given)
    if status or found != wanted:
        differs(" ".join(words), given, found, wanted)
    turning, _ = hosts_of(Turning, lib, match, lambda: world(match))
    if logs(turning) != logs(hosts):
        differs("a host of whole turns", given, text(logs(turning)), text(logs(hosts)))
    if world is Arena:
        record = text(["tss record 1", *match.lines(), *logs(hosts), "done"])
        if ran(program, ["audit"], record)[1][:6] != b"legal ":
            differs("audit", record, ran(program, ["audit"], record)[1], b"legal")
        tally["records"] += 1
    tally["runs"] += 1
    tally["lines"] += found.count(b"\n")
    for word in ("repair", "late", "repeat"):
        tally[word] += sum(line.startswith(word.encode() + b" ") for line in found.splitlines())


def compared_joins(lib, program, draw, match, tally):
    given = text(match.lines())
    for m in range(match.mirrors):
        first = draw.randint(0, len(match.script) + 1)
        words = ["join", str(m), str(first)]
        status, lines = joined(lib, match, m, first)
        found = (status, text(lines))
        wanted = ran(program, words, given)
        if found != wanted:
            differs(" ".join(words), given, found[1], wanted[1])
        tally["joins"] += 1


def main():
    library, program = sys.argv[1:3]
    seed, count = (int(sys.argv[3]) if len(sys.argv) > 3 else 1), (int(sys.argv[4]) if len(sys.argv) > 4 else 200)
    lib, draw = tss.load(os.path.abspath(library)), random.Random(seed)
    tally = dict.fromkeys(("runs", "lines", "records", "joins", "repair", "late", "repeat", "restagger"), 0)
    for _ in range(count):
        match = match_of(draw)
        match.script = script_of(draw, match)
        tally["restagger"] += sum(words[0] == "restagger" for words in match.script)
        compared(lib, program, match, ["play"], Arena, tally)
        compared(lib, program, match, ["paint", "play"], Paint, tally)
        compared_joins(lib, program, draw, match, tally)
    print(f"{count} matches of seed {seed}, no difference: " + ", ".join(f"{name} {n}" for name, n in tally.items()))


if __name__ == "__main__":
    main()
