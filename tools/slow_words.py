#!/usr/bin/env python3
"""Compares the built program with a slow plain model, on small matches drawn from a seed.

    python3 tools/slow_words.py PROGRAM [SEED] [COUNT]

Each match has 1 to 4 mirrors of 1 to 4 copies, up to 12 ticks, 3 players, walls, pickups and 16 commands, and a script or what a
net does. For each of them `order`, `play`, `paint order`, `paint play`, `lossy`, `join` at each mirror and some line, and `rewind`
at some ticks have to print what `slow_model.py` says, which is written from the pages in docs/. The first difference is shown,
and the exit status is then 1. Default: 200 matches of seed 1.
"""

import argparse
import random
import subprocess

from match_lines import end_with, number_in, program_at
from slow_model import Arena, Match, Paint, join, lossy, order, play, rewind


def plans_of(draw, copies):
    return [sorted(draw.sample(range(0, 7), copies)) for _ in range(draw.randint(1, 3))]


def cells_of(draw, grid, count):
    cells = [(x, y) for x in range(grid[0]) for y in range(grid[1])]
    return draw.sample(cells, count)


def match_of(draw):
    mirrors, copies, length = draw.randint(1, 4), draw.randint(1, 4), draw.randint(1, 12)
    version = draw.randint(1, 2)
    grid = (draw.randint(4, 7), draw.randint(2, 4))
    walls, pickups, players = draw.randint(0, 2), draw.randint(0, 2), draw.randint(1, 3)
    cells = cells_of(draw, grid, walls + pickups + players)
    acts = ["go", "go", "left", "right", "shoot"] + (["dash"] if version == 2 else [])
    commands = [(draw.randrange(length), draw.randrange(mirrors), number, draw.randrange(players), draw.choice(acts))
                for number in range(draw.randint(0, 16))]
    plans = plans_of(draw, copies)
    return Match(length, grid, mirrors, plans, 0, set(cells[:walls]),
                 [(*cell, draw.choice(("ammo", "heal", "gold"))) for cell in cells[walls:walls + pickups]],
                 [(f"p{at}", *cell, draw.choice("nesw")) for at, cell in enumerate(cells[walls + pickups:])],
                 commands, [], version)


def script_of(draw, match):
    script = []
    for _ in range(draw.randint(0, 60)):
        mirror, copy = draw.randrange(match.mirrors), draw.randrange(len(match.plans[0]))
        word = draw.choice(("turn", "turn", "turn", "arrive", "arrive", "arrive", "tick", "step", "world", "run", "restagger"))
        if word == "arrive":
            if match.commands:
                script.append(("arrive", mirror, *draw.choice(match.commands)[1:3]))
        elif word in ("tick", "turn"):
            script.append((word, mirror))
        else:
            script.append((word, mirror, draw.randrange(len(match.plans)) if word == "restagger" else copy))
    return script


def net_of(draw, match):
    net = []
    for _ in range(draw.randint(0, 80)):
        word = draw.choice(("issue", "issue", "send", "send", "carry", "carry", "carry", "ack", "hear", "turn", "turn"))
        pair = draw.sample(range(match.mirrors), 2) if match.mirrors > 1 else None
        if word == "turn":
            net.append(("turn", draw.randrange(match.mirrors)))
        elif word == "issue":
            if match.commands:
                net.append(("issue", *draw.choice(match.commands)[1:3]))
        elif pair:
            net.append((word, *pair) + (() if word == "ack" else (draw.randrange(4),)))
    return net


def text(lines):
    return "".join(line + "\n" for line in lines).encode()


def runs_of(draw, match):
    """Each run: its words, its input, and the status and the lines that are due."""
    match.script = script_of(draw, match)
    given = text(match.lines())
    yield ["order"], given, 0, order(match, lambda: Arena(match))
    yield ["play"], given, 0, play(match, lambda: Arena(match))
    yield ["paint", "order"], given, 0, order(match, lambda: Paint(match))
    yield ["paint", "play"], given, 0, play(match, lambda: Paint(match))
    for mirror in range(match.mirrors):
        lines = draw.randint(0, len(match.script) + 1)
        yield ["join", str(mirror), str(lines)], given, *join(match, mirror, lines)
    ticks = [draw.randint(0, match.length) for _ in range(draw.randint(1, 16))]
    every, room = draw.randint(1, 8), draw.randint(1, 4)
    yield ["rewind", str(every), str(room), *map(str, ticks)], given, 0, rewind(match, room, ticks)
    net = net_of(draw, match)
    net_lines = [" ".join(map(str, line)) for line in net]
    yield ["lossy"], text(["tss lossy 1", *match.lines(), f"net {len(net)}", *net_lines, "done"]), 0, lossy(match, net)


def main():
    parser = argparse.ArgumentParser(description=__doc__, formatter_class=argparse.RawDescriptionHelpFormatter)
    parser.add_argument("program", metavar="PROGRAM")
    parser.add_argument("seed", metavar="SEED", type=number_in(0, 10 ** 18), nargs="?", default=1)
    parser.add_argument("count", metavar="COUNT", type=number_in(1, 10 ** 9), nargs="?", default=200, help="how many matches are drawn")
    given = parser.parse_args()
    program, seed, count = program_at(given.program), given.seed, given.count
    draw, runs = random.Random(seed), 0
    for number in range(count):
        for words, given, status, lines in runs_of(draw, match_of(draw)):
            found = subprocess.run([program, *words], input=given, capture_output=True)
            runs += 1
            if (found.returncode, found.stdout) != (status, text(lines)):
                print(f"match {number} of seed {seed}: {' '.join(words)}: status {found.returncode}, due {status}\n{given.decode()}")
                wanted = text(lines).decode().splitlines()
                for at, (was, due) in enumerate(zip(found.stdout.decode().splitlines() + [None], wanted + [None])):
                    if was != due:
                        print(f"line {at + 1}: {was}\n   due: {due}")
                        break
                return 1
    print(f"{count} matches of seed {seed}: {runs} runs, no difference")
    return 0


if __name__ == "__main__":
    end_with(main)
