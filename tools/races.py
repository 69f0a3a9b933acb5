#!/usr/bin/env python3
"""Races many small matches drawn from a seed with the built program, and audits each record.

    python3 tools/races.py PROGRAM [--races N] [--seed S]

Each match has 1 to 4 mirrors of 1 to 4 copies, 4 to 40 ticks, a pace of 1 to the longest delay, 1 to 3 players and up to 24
commands. Every record must be legal, and have one event for each tick of a mirror's clock, each command at each mirror, and each
tick of each copy. The last line says how many were, and the exit status is 1 where one wasn't. Default: 10,000 races of seed 1.
"""

import argparse
import random
import subprocess
import sys

from match_lines import end_with, number_in, program_at


def match_text(draw):
    mirrors, copies, length = draw.randint(1, 4), draw.randint(1, 4), draw.randint(4, 40)
    delays = sorted(draw.sample(range(0, 9), copies))
    if delays[-1] == 0:
        delays[-1] = draw.randint(1, 8)
    players = draw.randint(1, 3)
    lines = ["tss match 1", f"length {length}", "grid 9 5", f"mirrors {mirrors}"]
    lines += ["delays " + " ".join(map(str, delays)), f"pace {draw.randint(1, delays[-1])}"]
    lines += [f"player p{i} {2 * i + 1} 2 {draw.choice('nesw')}" for i in range(players)]
    commands = draw.randint(0, 24)
    for number in range(commands):
        act = draw.choice(("go", "left", "right", "shoot"))
        lines.append(f"cmd {draw.randrange(length)} {draw.randrange(mirrors)} {number} {draw.randrange(players)} {act}")
    lines.append("end")
    events = mirrors * (length + delays[-1] + commands + copies * length)
    return "".join(line + "\n" for line in lines).encode(), events


def main():
    parser = argparse.ArgumentParser(description=__doc__, formatter_class=argparse.RawDescriptionHelpFormatter)
    parser.add_argument("program")
    parser.add_argument("--races", type=number_in(1, 10 ** 9), default=10_000)
    parser.add_argument("--seed", type=number_in(0, 10 ** 18), default=1)
    given = parser.parse_args()
    program, draw = program_at(given.program), random.Random(given.seed)
    wrong = 0
    for race in range(given.races):
        text, events = match_text(draw)
        raced = subprocess.run([program, "race"], input=text, capture_output=True)
        audited = subprocess.run([program, "audit"], input=raced.stdout, capture_output=True)
        due = f"legal {events}\ndone\n".encode()
        if (raced.returncode, audited.returncode, audited.stdout) != (0, 0, due):
            wrong += 1
            print(f"race {race}: status {raced.returncode}, audit {audited.returncode} {audited.stdout!r} in place of {due!r}")
            sys.stdout.buffer.write(text)
    print(f"{given.races - wrong} of {given.races} races were legal")
    return int(wrong != 0)


if __name__ == "__main__":
    end_with(main)
