#!/usr/bin/env python3
"""Compares the built program `tss_mirror` with a slow plain model, on talks drawn from a seed.

    python3 tools/slow_live.py PROGRAM [SEED] [COUNT]

Each talk is a head of a small match (some are damaged, or are of a mirror that isn't there) and up to 120 requests, or 300 of a session
without an end (`tss live 2`), by turns; some are faulty, with or without `end`, `cmd` lines that other mirrors may have issued, and
bytes behind the last newline. In two more talks a mirror is full of commands until it forgets them. PROGRAM has to tell what
`live_model.py` says, which is written from the pages in docs/, also where its input comes in two pieces with a pause between them. The
first difference is shown, and the exit status is then 1. Default: 300 talks of seed 1.
"""

import argparse
import contextlib
import os
import random
import select
import subprocess
import sys
import threading

from broken_texts import damaged
from live_model import Live, room_of, run
from slow_model import Match
from slow_words import match_of, script_of

ODD = ["", "x", "00", "01", "8", "16", "32", "1000000", "4294967296", "-1", "tick", "fly", "dash", "own", "\t", "y" * 121, "y" * 120]
ENDLESS_WORDS = ("own", "own", "cmd", "cmd", "cmd", "cmd", "tick", "step", "step", "restagger", "world", "run", "commands")
WORDS = ("own", "own", "own", "cmd", "cmd", "cmd", "cmd", "turn", "turn", "turn", "turn", "tick", "step", "step", "restagger", "world", "run", "commands")


def request_of(draw, match, name, words=WORDS):
    """A request, mostly one that is read."""
    copies, players = len(match.plans[0]), len(match.players)
    act = draw.choice(("go", "go", "left", "right", "shoot", "dash"))
    word = draw.choice(words)
    rest = {
        "own": (draw.randint(0, players), act),
        "cmd": (draw.randrange(match.length + 1), draw.randrange(match.mirrors), draw.choice((draw.randrange(12), 999_999 if draw.random() < 0.05 else 0)), draw.randint(0, players), act),
        "step": (draw.randint(0, copies),),
        "restagger": (draw.randint(0, len(match.plans)),),
        "world": (draw.randrange(copies),),
        "run": (draw.randrange(copies),),
    }.get(word, ())
    return with_faults(draw, [word, *map(str, rest)])


def with_faults(draw, words):
    if draw.random() < 0.1:
        at = draw.randrange(len(words))
        words[at:at + draw.randint(0, 1)] = [draw.choice(ODD)]
    return " ".join(words)


def head_of(draw, match):
    match.script = script_of(draw, match)
    head = match.lines()
    if draw.random() < 0.2:
        head = damaged(draw, head).decode("latin-1").split("\n")[:-1]
    if draw.random() < 0.05:
        head = head[:draw.randrange(len(head))]
    return head


def whole(draw, name, lines):
    """The word of a run, and its input: the lines, an end or none, and bytes behind the last newline or none."""
    lines = lines + draw.choice((["end"], ["end"], ["end", "turn"], []))
    given = "\n".join(lines) + draw.choice(("\n", "\n", "\n", "", "\nturn", "\n" + "z" * draw.randint(119, 200)))
    return str(min(name, 7)), given.encode("latin-1")


def talk_of(draw):
    """A talk with a mirror of a match."""
    match = match_of(draw)
    name = draw.randrange(match.mirrors + (draw.random() < 0.1))
    lines = [draw.choice(("tss live 1",) * 30 + ("tss live 3", "tss live 1 ", ""))] + head_of(draw, match)
    return whole(draw, name, lines + [request_of(draw, match, name) for _ in range(draw.randint(0, 120))])


def endless_talk_of(draw):
    """A talk with a mirror of a session without an end: times are drawn about the clock, which counts the ticks that were asked for."""
    match = match_of(draw)
    match.length = max(plan[-1] for plan in match.plans) + draw.choice((1, 2, 2, 2, 3, 4, 6, 10, 20))
    match.commands = []
    name = draw.randrange(match.mirrors + (draw.random() < 0.05))
    lines, clock, number = ["tss live 2"] + head_of(draw, match), 0, 0
    turns = ("turn",) * draw.choice((1, 4, 12))
    for _ in range(draw.randint(0, 300)):
        line = request_of(draw, match, name, ENDLESS_WORDS + turns)
        words = line.split(" ")
        if words[0] == "cmd" and draw.random() < 0.9:
            number += 1
            words[1] = str(max(0, clock + draw.randint(-match.length, match.length) // draw.choice((1, 1, 4))))
            if draw.random() < 0.02:
                words[1] = draw.choice(("4294967294", "4294967295"))
            if len(words) > 3 and draw.random() < 0.7:
                words[3] = str(number)
            line = " ".join(words)
        clock += words[0] in ("tick", "turn")
        lines.append(line)
    return whole(draw, name, lines)


def full_talk_of(version):
    """A talk in which as many commands are remembered as may be, until the mirror forgets them."""
    match = Match(8, (3, 1), 2, [[0, 1]], 0, set(), [], [("ann", 0, 0, "e")], [], [], version)
    room = room_of(match)
    lines = ["tss live 2", *match.lines(), *[f"cmd {number % 4} 1 {number} 0 left" for number in range(room - 2)], "own 0 go", "own 0 right"]
    full = ["own 0 go", "cmd 0 1 0 0 left", f"cmd 9 1 {room} 0 go", "cmd 9 9 0 0 go", "restagger 0"]
    lines += [*full, *["turn", "own 0 go"] * 12, *full, "cmd 9 0 499999 0 go", "cmd 9 0 999999 0 go", "own 0 go", "own 0 left"]
    lines += [*["cmd 12 0 999999 0 go", "own 0 go"] * 2, "turn", "commands", "end"]
    return "0", "\n".join([*lines, ""]).encode()


def talks(draw, count):
    yield from map(full_talk_of, (1, 2))
    for number in range(count):
        yield talk_of(draw) if number % 2 == 0 else endless_talk_of(draw)


def written(process, text, is_last):
    """Writes a text beside whoever reads, so that neither waits for the other."""
    def write():
        with contextlib.suppress(BrokenPipeError):
            process.stdin.write(text)
            process.stdin.flush()
        if is_last:
            with contextlib.suppress(BrokenPipeError):
                process.stdin.close()
    writer = threading.Thread(target=write)
    writer.start()
    return writer


def read(process, most=None, seconds=10):
    """What a process tells: so many bytes, or all up to its end; less where for so long nothing more comes."""
    told = b""
    while (most is None or len(told) < most) and select.select([process.stdout], [], [], seconds)[0]:
        piece = os.read(process.stdout.fileno(), 1 << 16 if most is None else most - len(told))
        if not piece:
            break
        told += piece
    return told


def told_at_once(program, word, front, rest):
    """What a run tells of its input's front alone, before it hears the rest; and all of it, and the status."""
    live = Live(int(word))
    due = live.feed(front)
    with subprocess.Popen([program, word], stdin=subprocess.PIPE, stdout=subprocess.PIPE) as found:
        writer = written(found, front, is_last=False)
        first = read(found, len(due))
        if first != due:
            found.kill()
        writer.join()
        writer = written(found, rest, is_last=True)
        told = first + read(found)
        writer.join()
        return first == due, told, found.wait()


def main():
    parser = argparse.ArgumentParser(description=__doc__, formatter_class=argparse.RawDescriptionHelpFormatter)
    parser.add_argument("program", metavar="PROGRAM")
    parser.add_argument("seed", metavar="SEED", type=int, nargs="?", default=1)
    parser.add_argument("count", metavar="COUNT", type=int, nargs="?", default=300, help="how many talks are drawn")
    given = parser.parse_args()
    program, seed, count = given.program, given.seed, given.count
    draw = random.Random(seed)
    for number, (word, text) in enumerate(talks(draw, count)):
        cut = draw.randint(0, len(text))
        status, due = run([word], text)
        at_once, told, found = told_at_once(program, word, text[:cut], text[cut:])
        if (at_once, told, found) != (True, due, status):
            print(f"talk {number} of seed {seed}: tss_mirror {word}: status {found}, due {status}; at once: {at_once}\n{text.decode('latin-1')}")
            for at, (was, wanted) in enumerate(zip(told.decode().splitlines() + [None], due.decode().splitlines() + [None])):
                if was != wanted:
                    print(f"line {at + 1}: {was}\n   due: {wanted}")
                    break
            return 1
    print(f"{count} talks of seed {seed}: no difference")
    return 0


if __name__ == "__main__":
    sys.exit(main())
