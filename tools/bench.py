#!/usr/bin/env python3
"""Times the built program on the largest plain match, and shows how time grows with the commands.

    python3 tools/bench.py PROGRAM [--word order|play|score] [--text KIND] [--runs N]
    python3 tools/bench.py PROGRAM --word audit [--record FILE] [--runs N]
    python3 tools/bench.py PROGRAM --word soak [--runs N]
    python3 tools/bench.py PROGRAM --word race [--text four|eight|largest] [--runs N]
    python3 tools/bench.py PROGRAM --word beside [--runs N]
    python3 tools/bench.py TSS_MIRROR --word live [--runs N]
    python3 tools/bench.py TSS_MIRROR --word endless [--ticks N]
    python3 tools/bench.py LOCK_BENCH --word lock [--runs N]

PROGRAM is the built program `tss`. The match has 8,192 ticks and 2,048 to 16,384 commands of one mirror, in a mixed
order of lines. A plain text has no script. In a `script` text there is one turn a tick, and each command arrives at a lag
of 0 to 40 ticks behind its time, so that some are in time and some are late. In a `late` text all commands arrive after
the last turn, so each is found, turned away and printed, and none is executed: that measures reading, finding and
printing apart. `order` on a `script` text measures reading and executing without a mirror. A `copies` text is a script text
with four copies at delays of 0, 10, 40 and 100 ticks and lags of 0 to 100 ticks, so that every command is taken and most are
repaired. In a `falling` text all commands are of one tick, and arrive at each of eight mirrors in falling key order. An `arena`
text has 4,096 ticks, eight players who shoot a third of the time, walls and pickups, so it measures the arena's rules. A `large`
text has 300 walls, 16 script lines for each command, all arrivals at one mirror, and up to 262,144 of them. The kinds `four`,
`eight` and `largest` have several mirrors, as many copies, eight players and one turn a tick of each mirror, and each command
arrives at every mirror: 4 mirrors, 4,096 ticks and lags up to 100 ticks; 8 mirrors, 2,048 ticks and lags up to 400; 8 mirrors,
8,192 ticks and lags up to 1,024. The other kinds are plain, script and late. Without --text it is plain
for `order` and script for `play` and `score`. With the word `soak` the program is run with `soak 0`, `soak 1`, `soak 7` and
`soak 4294967295`, and reads nothing. Each match is run N times (default 15); the least wall time, the start of the process
included, and the greatest peak memory are printed, and by how much each doubling multiplies the time.

With the word `audit` the texts are records of eight mirrors with eight copies each, and of 1,024 to 8,192 ticks, with 12,500 to
100,000 events a log: each command turns a player, arrives at every mirror in time, and all worlds are stated as they are. With
--record the record in FILE is audited alone.

With the word `race` a match of such a kind (four, if none is given) with 8,192 commands, whose pace is the longest delay,
is raced on 1, 2 and 4 cores; `play` of the same text stands beside it.

With the word `beside` the words of painting, late mirrors, worlds at ticks and lossy nets are timed in turn with `order` or `play` of
the same match, `four` with 8,192 commands. `join` stands beside `play` of one mirror's lines, taken twice; so it does once more of a
match in which 196,608 arrivals of one command from before the joiner's start come behind 32,767 that it was handed. `lossy` has a net
of 262,144 lines over 32,768 commands, and beside it stands `play` of a script with the same arrivals and turns.

TSS_MIRROR is the built program `tss_mirror`. With the word `live` it is fed whole inputs at once: a million requests that change nothing
(`step`, answered `idle`), a million that are refused, and a `play` of a match of 4 mirrors with four copies, in which three commands of
other mirrors and one of its own come each tick, up to 100 ticks late, with a turn and a look at copy 0; and a `wide` one of eight
copies and 32 players with 20 commands a tick. Then it is spoken to over pipes, each request once the one before was answered:
the `play` once more, and of the `wide` match the time from a turn to the block of the leading copy, and how much memory was asked for
by the end of the head and by the end of all requests.

With the word `endless` it is a mirror of a session without an end, of a window of 2,048 ticks, eight copies with delays up to 1,024 and
32 players, for N ticks (default a million), or until Ctrl-C. Each tick it is sent 19 commands of other mirrors, most up to 100 ticks
old and a fiftieth up to 1,100, so that some are late, and asked for one of its own, a turn and the block of the leading copy. How long
ticks take until all of that is answered, how much memory is in use at the start, in the middle and at the end, and what audit_base.py
says of its end are printed.

LOCK_BENCH is the built program `lock_bench`. With the word `lock` it makes 3,600,000 calls of a counter, of 1, 2, 4 and 9
threads together, each with a seat of a turn lock, and then behind a mutex of std; the calls a second are printed.
"""

import argparse
import array
import contextlib
import os
import signal
import subprocess
import sys
import threading
import time

from audit_base import BaseText
from match_lines import Wrong, end_with, number_in, program_at, progress

LENGTH = 8192
# The delays of a text's copies, and by how many ticks at most its commands come after their time.
DELAYS = {"plain": "0", "copies": "0 10 40 100"}
LAGS = {"copies": 100}
ACTS = ("go", "left", "right")
COUNTS = (2048, 4096, 8192, 16384)
# The commands of records whose logs have 12,500 to 100,000 events.
RECORD_COUNTS = (3156, 6312, 12624, 25248)
NUMBERS = (0, 1, 7, 4294967295)
CALLS = 3_600_000
THREADS = (1, 2, 4, 9)


class Draws:
    """A small linear congruential generator, so that every run measures the same text."""

    def __init__(self, seed):
        self.state = seed

    def below(self, bound):
        self.state = (1664525 * self.state + 1013904223) % 4294967296
        return (self.state >> 16) % bound


def match_text(count, kind):
    draws = Draws(7)
    commands = [(draws.below(LENGTH), number, ACTS[draws.below(3)]) for number in range(count)]
    for at in range(count - 1, 0, -1):
        other = draws.below(at + 1)
        commands[at], commands[other] = commands[other], commands[at]
    delays = DELAYS.get(kind, "20")
    longest = int(delays.split()[-1])
    lines = ["tss match 1", f"length {LENGTH}", "grid 64 64", "mirrors 1", f"delays {delays}", "pace 0", "player ann 32 32 e"]
    lines += [f"cmd {tick} 0 {number} 0 {act}" for tick, number, act in commands]
    if kind != "plain":
        arrivals = {}
        for tick, number, _ in commands:
            clock = LENGTH + longest if kind == "late" else tick + draws.below(LAGS.get(kind, 40) + 1)
            arrivals.setdefault(clock, []).append(number)
        lines.append("script")
        for clock in range(LENGTH + longest + 1):
            lines += [f"arrive 0 0 {number}" for number in arrivals.get(clock, ())]
            if clock < LENGTH + longest:
                lines.append("turn 0")
    lines.append("end")
    return "".join(line + "\n" for line in lines).encode()


def falling_text(count):
    lines = ["tss match 1", f"length {LENGTH}", "grid 64 64", "mirrors 8", "delays 0", "pace 0", "player ann 32 32 e"]
    lines += [f"cmd 100 0 {number} 0 go" for number in range(count)]
    lines.append("script")
    lines += [f"arrive {mirror} 0 {number}" for number in range(count - 1, -1, -1) for mirror in range(8)]
    lines.append("end")
    return "".join(line + "\n" for line in lines).encode()


def arena_text(count):
    draws = Draws(7)
    lines = ["tss match 1", "length 4096", "grid 64 64", "mirrors 1", "delays 0", "pace 0"]
    lines += [f"wall {x} {y}" for y in range(4, 64, 8) for x in range(4, 64, 8)]
    lines += [f"pickup {x} 0 {('ammo', 'heal', 'gold')[x % 3]}" for x in range(32)]
    lines += [f"player p{i} {8 * i + 1} 2 {'nesw'[i % 4]}" for i in range(8)]
    for number in range(count):
        act = "shoot" if draws.below(3) == 0 else ("go", "go", "left", "right")[draws.below(4)]
        lines.append(f"cmd {number * 4096 // count} 0 {number} {draws.below(8)} {act}")
    lines.append("end")
    return "".join(line + "\n" for line in lines).encode()


def large_text(count):
    draws = Draws(7)
    lines = ["tss match 1", f"length {LENGTH}", "grid 64 64", "mirrors 1", "delays 20", "pace 0"]
    lines += [f"wall {x} {y}" for y in range(5) for x in range(60)]
    lines.append("player ann 32 32 e")
    lines += [f"cmd {draws.below(LENGTH)} 0 {number} 0 {ACTS[draws.below(3)]}" for number in range(count)]
    lines.append("script")
    lines += [f"arrive 0 0 {draws.below(count)}" for _ in range(16 * count)]
    lines.append("end")
    return "".join(line + "\n" for line in lines).encode()


HALLS = {
    "four": (4, (0, 25, 50, 100), 4096, 100),
    "eight": (8, (0, 50, 100, 150, 200, 250, 300, 400), 2048, 400),
    "largest": (8, (0, 128, 256, 384, 512, 640, 768, 1024), 8192, 1024),
}


def hall_text(count, kind):
    mirrors, delays, length, lag = HALLS[kind]
    draws = Draws(7)
    lines = ["tss match 1", f"length {length}", "grid 64 64", f"mirrors {mirrors}", "delays " + " ".join(map(str, delays)), "pace 0"]
    lines += [f"player p{i} {8 * i + 1} 2 {'nesw'[i % 4]}" for i in range(8)]
    arrivals = {}
    for number in range(count):
        tick, sender = draws.below(length), number % mirrors
        lines.append(f"cmd {tick} {sender} {number} {draws.below(8)} {('go', 'go', 'left', 'right', 'shoot')[draws.below(5)]}")
        for mirror in range(mirrors):
            clock = tick if mirror == sender else tick + draws.below(lag + 1)
            arrivals.setdefault((clock, mirror), []).append(f"arrive {mirror} {sender} {number}")
    lines.append("script")
    for clock in range(length):
        for mirror in range(mirrors):
            lines += arrivals.pop((clock, mirror), [])
            lines.append(f"turn {mirror}")
    for key in sorted(arrivals):
        lines += arrivals[key]
    lines.append("end")
    return "".join(line + "\n" for line in lines).encode()


def turned_log(length, delays, arrivals):
    """The events of one mirror, along turns until every copy has run the match; arrivals by the clock at which they come."""
    events, clock, clocks = [], 0, [0] * len(delays)
    while clocks[-1] < length:
        events += arrivals.get(clock, ())
        events.append("tick")
        clock += 1
        for copy, delay in enumerate(delays):
            if clocks[copy] < min(length, clock - delay):
                clocks[copy] += 1
                events.append(f"step {copy}")
    return events


def record_text(count):
    """A record of 8 mirrors with 8 copies each, whose players only turn, so that their worlds can be told without a match."""
    length, draws = count * 8192 // 25248, Draws(7)
    delays = [copy * length // 8 // 7 for copy in range(7)] + [length // 8]
    commands = [(draws.below(length), number % 8, number, draws.below(8), draws.below(2)) for number in range(count)]
    lines = ["tss record 1", "tss match 2", f"length {length}", "grid 64 64", "mirrors 8", "delays " + " ".join(map(str, delays)), "pace 0"]
    lines += [f"player p{i} {8 * i + 1} 2 {'nesw'[i % 4]}" for i in range(8)]
    lines += [f"cmd {tick} {sender} {number} {player} {('left', 'right')[right]}" for tick, sender, number, player, right in commands]
    lines.append("end")
    faces = [i % 4 for i in range(8)]
    for _, _, _, player, right in commands:
        faces[player] += 1 if right else -1
    world = [f"live p{i} {8 * i + 1} 2 {'nesw'[face % 4]} 3 5 0" for i, face in enumerate(faces)]
    for mirror in range(8):
        arrivals = {}
        for tick, sender, number, _, _ in commands:
            clock = tick if mirror == sender else tick + draws.below(delays[-1] + 1)
            arrivals.setdefault(clock, []).append(f"arrive {sender} {number}")
        events = turned_log(length, delays, arrivals)
        lines += [f"log {mirror} {len(events)}", *events]
        for copy in range(8):
            lines += [f"world {mirror} {copy} {length}", *world]
    lines.append("done")
    return "".join(line + "\n" for line in lines).encode()


def net_texts():
    """A lossy text of 262,144 lines of a net, and a match whose script has the same arrivals and turns."""
    mirrors, delays, length, lag = HALLS["four"]
    draws = Draws(7)
    head = ["tss match 2", f"length {length}", "grid 64 64", f"mirrors {mirrors}", "delays " + " ".join(map(str, delays)), "pace 0"]
    head += [f"player p{i} {8 * i + 1} 2 {'nesw'[i % 4]}" for i in range(8)]
    commands = sorted((draws.below(length), number % mirrors, number, draws.below(8), draws.below(5)) for number in range(32_768))
    head += [f"cmd {tick} {sender} {number} {player} {('go', 'go', 'left', 'right', 'shoot')[act]}" for tick, sender, number, player, act in commands]
    net, script, packets, last = {}, {}, {}, {}
    for tick, sender, number, _, _ in commands:
        net.setdefault(tick, []).append(f"issue {sender} {number}")
        script.setdefault(tick, []).append(f"arrive {sender} {sender} {number}")
        packet = packets[sender] = packets.get(sender, -1) + 1
        for receiver in range(mirrors):
            if receiver != sender:
                clock = last[sender, receiver] = max(last.get((sender, receiver), 0), tick + draws.below(lag + 1))
                net.setdefault(clock, []).extend((f"send {sender} {receiver} {packet}", f"carry {sender} {receiver} {packet}"))
                script.setdefault(clock, []).append(f"arrive {receiver} {sender} {number}")
    turns = [f"turn {mirror}" for mirror in range(mirrors)]
    net_lines, script_lines = [], []
    for clock in range(length + lag + 1):
        net_lines += net.get(clock, []) + (turns if clock < length else [])
        script_lines += script.get(clock, []) + (turns if clock < length else [])
    pairs = [(f, t) for f in range(mirrors) for t in range(mirrors) if f != t]
    while len(net_lines) < 262_144:
        net_lines.append("ack %d %d" % pairs[len(net_lines) % len(pairs)])
    lossy = ["tss lossy 1", *head, "end", f"net {len(net_lines)}", *net_lines, "done"]
    match = [*head, "script", *script_lines, "end"]
    return tuple("".join(line + "\n" for line in lines).encode() for lines in (lossy, match))


def one_mirror(text):
    """The match of a text with mirror 0 alone, which issues every command, and the number of its script's lines."""
    lines = text.decode().splitlines()
    begin = lines.index("script")
    head = ["mirrors 1" if line.startswith("mirrors") else line for line in lines[:begin + 1]]
    head = [" ".join(w if at != 2 else "0" for at, w in enumerate(line.split(" "))) if line.startswith("cmd ") else line for line in head]
    own = [line.split(" ") for line in lines[begin + 1:-1] if line.split(" ")[1] == "0"]
    own = [" ".join((*words[:2], "0", words[3])) if words[0] == "arrive" else " ".join(words) for words in own]
    return "".join(line + "\n" for line in [*head, *own, "end"]).encode(), len(own)


def old_text():
    """A match whose mirror takes 32,767 commands for later and is brought an old one again and again behind the start of a joiner, and
    the number of lines before that start."""
    start, old = LENGTH // 2, 32_767
    lines = ["tss match 2", f"length {LENGTH}", "grid 64 64", "mirrors 1", "delays 0", "pace 0", "player ann 32 32 e"]
    lines += [f"cmd {start + number % start} 0 {number} 0 {('left', 'right')[number % 2]}" for number in range(old)]
    lines += [f"cmd 0 0 {old} 0 go", "script"]
    begun = [f"arrive 0 0 {number}" for number in range(old)] + ["turn 0"] * start
    lines += [*begun, *[f"arrive 0 0 {old}"] * 196_608, "end"]
    return "".join(line + "\n" for line in lines).encode(), len(begun)


def time_beside(program, runs):
    """Times words in turn with `order` or `play` of the same match, and prints how many times as long they take."""
    text = hall_text(8192, "four")
    one, own = one_mirror(text)
    net, script = net_texts()
    olds, begun = old_text()
    ticks = [str(256 * k) for k in range(16)]
    for words, given, beside, other, times in (
        (["paint", "order"], text, ["order"], text, 1), (["paint", "play"], text, ["play"], text, 1),
        (["rewind", "64", "16", *ticks], text, ["order"], text, 1),
        (["join", "0", str(own // 2)], one, ["play"], one, 2), (["join", "0", str(begun)], olds, ["play"], olds, 2),
        (["lossy"], net, ["play"], script, 1),
    ):
        made = [(run_once(program, words, given), run_once(program, beside, other)) for _ in range(runs)]
        least, by = (min(pair[at][0] for pair in made) for at in (0, 1))
        peak = max(pair[0][1] for pair in made)
        print(f"{' '.join(words[:3]):12} {least * 1000:8.2f} ms  {peak / 1024:6.1f} MiB  {beside[0]} {by * 1000:8.2f} ms"
              f"  x{least / by / times:.2f}{' of it twice' if times == 2 else ''}")


def live_head(mirrors, delays, length, players):
    lines = ["tss live 1", "tss match 2", f"length {length}", "grid 64 64", f"mirrors {mirrors}", "delays " + " ".join(map(str, delays)), "pace 0"]
    return lines + [f"player p{i} {2 * i} {i % 2} {'nesw'[i % 4]}" for i in range(players)] + ["end"]


def live_requests(mirrors, ticks, players, others):
    """Requests of a match: each tick so many commands of other mirrors, up to 100 ticks late, one of its own, a turn and a look."""
    draws, lines = Draws(7), []
    for tick in range(ticks):
        for number in range(tick * others, tick * others + others):
            time_of, sender = max(0, tick - draws.below(101)), 1 + number % (mirrors - 1)
            act = ("go", "go", "left", "right", "shoot")[draws.below(5)]
            lines.append(f"cmd {time_of} {sender} {number} {draws.below(players)} {act}")
        lines += [f"own {draws.below(players)} go", "turn", "world 0"]
    return lines


LIVES = {
    "play": (live_head(4, (0, 25, 50, 100), 4096, 8), live_requests(4, 4096, 8, 3)),
    "wide": (live_head(8, (0, 14, 28, 42, 56, 70, 84, 100), 2048, 32), live_requests(8, 1500, 32, 19)),
}


def asked_for(process):
    """The memory in KiB that a process has asked for at most so far, touched or not."""
    with open(f"/proc/{process.pid}/status", encoding="utf-8") as status:
        return next(int(line.split()[1]) for line in status if line.startswith("VmPeak:"))


def converse(program, head, requests):
    """Speaks to a live mirror, each request once the one before was answered; gives the seconds of each, and the memory in KiB that was
    asked for by the end of the head and by the end of the requests."""
    with subprocess.Popen([program, "0"], stdin=subprocess.PIPE, stdout=subprocess.PIPE, bufsize=0) as mirror:
        seconds = []

        def ask(text):
            begun = time.perf_counter()
            mirror.stdin.write(text)
            told = b""
            while not told.endswith(b"\nok\n") and told != b"ok\n":
                told += os.read(mirror.stdout.fileno(), 65536)
            seconds.append(time.perf_counter() - begun)

        ask("".join(line + "\n" for line in head).encode())
        opened = asked_for(mirror)
        for line in requests:
            ask(line.encode() + b"\n")
        ended = asked_for(mirror)
        mirror.stdin.close()
        mirror.wait()
        return seconds[1:], opened, ended


def time_live(program, runs):
    head = LIVES["play"][0]
    for name, lines in (
        ("idle", [*head, *["step 0"] * 1_000_000]), ("refused", [*head, *["step 9"] * 1_000_000]), *((k, [*h, *r]) for k, (h, r) in LIVES.items()),
    ):
        text = "".join(line + "\n" for line in lines).encode()
        made = [run_once(program, ["0"], text) for _ in range(runs)]
        least = min(seconds for seconds, _ in made)
        peak = max(memory for _, memory in made)
        print(f"at once {name:8} {len(lines) - len(head):8} requests  {least * 1000:8.2f} ms  {(len(lines) - len(head)) / least / 1e6:6.2f} million a second  {peak / 1024:6.1f} MiB")
    head, requests = LIVES["play"]
    least = min(sum(converse(program, head, requests[:6000])[0]) for _ in range(max(1, runs // 5)))
    print(f"conversation   6000 requests  {least * 1000:8.2f} ms  {6000 / least:8.0f} a second")
    head, requests = LIVES["wide"]
    seconds, opened, ended = converse(program, head, requests)
    turns = [a + b for a, b, line in zip(seconds[:-1], seconds[1:], requests) if line == "turn"]
    print(f"wide: a turn with the block of copy 0  {sum(turns) / len(turns) * 1e6:8.1f} us, the longest {max(turns) * 1e6:8.1f} us")
    print(f"wide: memory asked for by the end of the head {opened / 1024:8.1f} MiB, by the end of {len(requests)} requests {ended / 1024:8.1f} MiB")


ENDLESS = (8, (0, 8, 32, 64, 128, 256, 512, 1024), 2048, 32)


def endless_requests(tick, draws):
    """What a mirror of a session without an end is sent in a tick."""
    lines = []
    for at in range(19):
        number = 19 * tick + at
        age = draws.below(1101 if draws.below(50) == 0 else 101)
        act = ("go", "go", "left", "right", "shoot")[draws.below(5)]
        lines.append(f"cmd {max(0, tick - age)} {1 + number % 7} {number // 7 % 1_000_000} {draws.below(32)} {act}")
    return lines + [f"own {draws.below(32)} go", "turn", "world 0"]


class Spoken:
    """A live mirror that is spoken to: requests are sent together, and their answers read."""

    def __init__(self, program):
        self.process = subprocess.Popen([program, "0"], stdin=subprocess.PIPE, stdout=subprocess.PIPE, bufsize=0, start_new_session=True)

    def ask(self, lines, answers):
        """The seconds until so many were answered, and what was told."""
        text = "".join(line + "\n" for line in lines).encode()
        begun = time.perf_counter()
        self.process.stdin.write(text)
        told = b""
        while told.count(b"ok\n") + told.count(b"done\n") < answers:
            piece = os.read(self.process.stdout.fileno(), 1 << 18)
            if not piece or b"refused line" in piece:
                raise Wrong(f"the mirror told {(told + piece)[-100:]}: does it know `tss live 2`?")
            told += piece
        return time.perf_counter() - begun, told

    def memory(self):
        """In MiB, what is in use."""
        with open(f"/proc/{self.process.pid}/status", encoding="utf-8") as status:
            return next(int(line.split()[1]) for line in status if line.startswith("VmRSS:")) / 1024


@contextlib.contextmanager
def asked_to_stop():
    """An event that an interrupt sets, where it would end the tool."""
    stop = threading.Event()
    before = signal.signal(signal.SIGINT, lambda *_: stop.set())
    try:
        yield stop
    finally:
        signal.signal(signal.SIGINT, before)


def time_endless(program, ticks):
    head = ["tss live 2", *live_head(*ENDLESS)[1:]]
    draws, mirror, seconds, late, used = Draws(7), Spoken(program), array.array("d"), 0, []
    mirror.ask(head, 1)
    with asked_to_stop() as stop:
        while len(seconds) < ticks and not stop.is_set():
            if len(seconds) % 1000 == 0:
                used.append(mirror.memory())
                progress(f"{len(seconds)} of {ticks} ticks")
            took, told = mirror.ask(endless_requests(len(seconds), draws), 22)
            seconds.append(took)
            late += told.count(b"late ")
    ticks = len(seconds)
    used = [used[0], used[len(used) // 2], mirror.memory()]
    told = mirror.ask(["end"], 1)[1].decode()
    mirror.process.wait()
    progress("")
    ranked = sorted(seconds)
    parts = ", ".join(f"{100 * part:g} of 100 within {1000 * ranked[min(ticks - 1, int(part * ticks))]:.3f}" for part in (0.5, 0.9, 0.99, 0.999, 0.9999))
    print(f"endless: {ticks} ticks with 20 commands, {late} of them late; ms of a tick: {parts}, the longest {1000 * ranked[-1]:.3f}")
    print("endless: memory in use at the start {:.1f} MiB, in the middle {:.1f} MiB, at the end {:.1f} MiB".format(*used))
    print(f"endless: {BaseText(head[1:] + told.splitlines()).verdict()[0]}")


def run_once(program, words, text):
    """The wall time in seconds and the peak memory in KiB of one run."""
    read_end, write_end = os.pipe()
    child = os.fork()
    if child == 0:
        os.dup2(read_end, 0)
        os.close(read_end)
        os.close(write_end)
        sink = os.open(os.devnull, os.O_WRONLY)
        os.dup2(sink, 1)
        os.execv(program, [program, *words])
    os.close(read_end)
    begun = time.perf_counter()
    with os.fdopen(write_end, "wb") as stream:
        stream.write(text)
    _, status, usage = os.wait4(child, 0)
    ended = time.perf_counter()
    if os.waitstatus_to_exitcode(status) != 0:
        sys.exit(f"{program} {' '.join(words)} ended with status {os.waitstatus_to_exitcode(status)}")
    return ended - begun, usage.ru_maxrss


def processor():
    try:
        with open("/proc/cpuinfo", encoding="utf-8") as info:
            return next(line.split(":", 1)[1].strip() for line in info if line.startswith("model name"))
    except (OSError, StopIteration):
        return "unknown"


def time_locks(program, runs):
    for threads in THREADS:
        least = {}
        for kind in ("turn", "mutex"):
            words = [kind, str(threads), str(CALLS // threads)]
            least[kind] = min(run_once(program, words, b"")[0] for _ in range(runs))
            print(f"{kind:5} {threads} threads  {least[kind] * 1000:8.1f} ms  {CALLS / least[kind] / 1e6:6.2f} million calls a second")
        print(f"      a turn takes x{least['turn'] / least['mutex']:.2f} the time of the mutex")


def time_soaks(program, runs):
    for number in NUMBERS:
        made = [run_once(program, ["soak", str(number)], b"") for _ in range(runs)]
        least = min(seconds for seconds, _ in made)
        peak = max(memory for _, memory in made)
        print(f"soak {number:10}  {least * 1000:8.2f} ms  {peak / 1024:6.1f} MiB")


def time_races(program, kind, runs):
    delay = HALLS[kind][1][-1]
    text = hall_text(8192, kind).replace(b"\npace 0\n", b"\npace %d\n" % delay, 1)
    there = os.sched_getaffinity(0)
    for word, cores in (("play", 1), ("race", 1), ("race", 2), ("race", 4)):
        os.sched_setaffinity(0, set(sorted(there)[:cores]))
        made = [run_once(program, [word], text) for _ in range(runs)]
        least = min(seconds for seconds, _ in made)
        peak = max(memory for _, memory in made)
        print(f"{word} {kind} on {min(cores, len(there))} cores  {least * 1000:8.2f} ms  {peak / 1024:6.1f} MiB")
    os.sched_setaffinity(0, there)


def main():
    parser = argparse.ArgumentParser(description=__doc__, formatter_class=argparse.RawDescriptionHelpFormatter)
    parser.add_argument("program")
    parser.add_argument("--word", choices=("order", "play", "score", "audit", "soak", "race", "beside", "live", "endless", "lock"), default="order")
    parser.add_argument("--text", choices=("plain", "script", "late", "copies", "falling", "arena", "large", *HALLS))
    parser.add_argument("--record", help="the file of a record that is audited alone")
    parser.add_argument("--ticks", type=number_in(1, 100_000_000), default=1_000_000, help="of a session without an end")
    parser.add_argument("--runs", type=number_in(1, 10_000), default=15)
    given = parser.parse_args()
    kind = given.text or {"play": "script", "score": "script", "audit": "record"}.get(given.word, "plain")
    program = program_at(given.program)
    print(f"processor: {processor()}, {os.cpu_count()} cores")
    if given.word == "lock":
        time_locks(program, given.runs)
        return
    if given.word == "endless":
        time_endless(program, given.ticks)
        return
    if given.word == "live":
        time_live(program, given.runs)
        return
    if given.word == "soak":
        time_soaks(program, given.runs)
        return
    if given.word == "beside":
        time_beside(program, given.runs)
        return
    if given.word == "race":
        time_races(program, given.text or "four", given.runs)
        return
    if given.record is not None:
        with open(given.record, "rb") as stream:
            time_text(program, "audit", given.record, stream.read(), given.runs, None)
        return
    own = {"arena": arena_text, "large": large_text, "falling": falling_text}
    before = None
    for count in RECORD_COUNTS if given.word == "audit" else COUNTS:
        if given.word == "audit":
            text = record_text(count)
        else:
            text = own.get(kind, lambda n: (hall_text if kind in HALLS else match_text)(n, kind))(count)
        before = time_text(program, given.word, f"{kind} {count:6} commands", text, given.runs, before)


def time_text(program, word, name, text, runs, before):
    """Times a word on a text, prints what was measured, and gives the least time."""
    measured = [run_once(program, [word], text) for _ in range(runs)]
    least = min(seconds for seconds, _ in measured)
    peak = max(memory for _, memory in measured)
    growth = "" if before is None else f"  x{least / before:.2f}"
    print(f"{word} {name}  {len(text):8} bytes  {least * 1000:8.2f} ms  {peak / 1024:6.1f} MiB{growth}")
    return least


if __name__ == "__main__":
    end_with(main)
