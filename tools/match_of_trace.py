#!/usr/bin/env python3
"""Writes a trace of issued commands as a match text.

    python3 tools/match_of_trace.py TRACE.csv [--delays "0 20 60"] [--length L] [--grid W H] > trace.match
    python3 tools/match_of_trace.py TRACE.csv --ms-per-tick 50 --from 60000 --to 90000 --act go > part.match

Each row of the trace is one command: the tick at which it was issued, the mirror that issued it, the player, the act, and
then for each mirror the tick of its own clock at which the command arrived there, empty where it never came:

    tick,mirror,player,act,at 0,at 1
    3,0,ann,go,3,17
    4,1,bob,shoot,,4

Columns are read by these names, in any order, with any case; `at N` has the arrivals at mirror N. They are parted by commas,
semicolons or tabs. A column `act` may be missing where `--act` names one for all. A player has any name; one that isn't a letter
a to z and up to 11 more letters and digits is numbered (p0, p1, ..), and told. Players stand on the grid in the order in which
they first come, and face south. An act is go, left, right, shoot or dash. A command's number is counted for its mirror from 0 in
the order of the rows.

Ticks count from 0 and are whole. With `--ms-per-tick MS` the columns `tick` and `at N` are milliseconds, which may have a fraction,
and count in ticks of so many; `--from` and `--to`, in the trace's own unit, take the commands that were issued from the one up to the
other, without it, and count ticks from there.

The script makes turns of all mirrors in step, tick by tick, and lets each command arrive just before its mirror's turn of
the arrival's tick. Rows that can't be read are named by their lines, up to ten, and then nothing is written. A command that never
reaches its own mirror, or that arrives somewhere before it was issued, is told and kept.
"""

import argparse
import csv
import math
import re
import sys

from match_lines import Wrong, delays_in, end_with, number_in

ACTS = ("go", "left", "right", "shoot", "dash")
MOST_MIRRORS, LONGEST, MOST_PLAYERS = 8, 8192, 32
LONGEST_DELAY, MOST_COMMANDS, MOST_SCRIPT_LINES = 1024, 32768, 262144
MOST_TOLD = 10


class Columns:
    """Where each column stands, by its name."""

    def __init__(self, head, with_acts):
        self.places, wrong = {}, []
        for place, name in enumerate(word.strip().lower() for word in head):
            if name == "" and place == len(head) - 1:
                continue  # what a spreadsheet leaves behind the last comma
            if name in self.places:
                wrong.append(f"the column '{name}' stands twice")
            elif name not in ("tick", "mirror", "player", "act") and not re.fullmatch("at [0-7]", name):
                wrong.append(f"'{name}' is no column")
            self.places[name] = place
        lacking = [name for name in ("tick", "mirror", "player") + (("act",) if with_acts else ()) if name not in self.places]
        wrong += [f"there is no column '{name}'" for name in lacking]
        self.mirrors = sum(name.startswith("at ") for name in self.places)
        wrong += [f"there is no column 'at {m}'" for m in range(max(1, self.mirrors)) if f"at {m}" not in self.places]
        if wrong:
            raise Wrong(f"line 1: {'; '.join(wrong)}. The columns are tick, mirror, player, act, and at 0, at 1 .. for 1 to 8 mirrors")
        self.width = len(head)

    def cell(self, row, name):
        place = self.places.get(name)
        return row[place].strip() if place is not None and place < len(row) else ""


class Units:
    """How the trace's numbers become ticks of the match."""

    def __init__(self, given):
        self.per_tick = given.ms_per_tick
        self.first, self.last = given.first, given.last

    def value(self, what, word):
        form = r"[0-9]{1,15}(\.[0-9]{1,9})?" if self.per_tick else "[0-9]{1,15}"
        if not re.fullmatch(form, word):
            raise Wrong(f"'{word[:40]}' is no {what}: a {'time in milliseconds' if self.per_tick else 'whole number of ticks'} from 0 on")
        return float(word) if self.per_tick else int(word)

    def takes(self, value):
        return value >= self.first and (self.last is None or value < self.last)

    def tick(self, value):
        ahead = value - self.first
        return int(ahead // self.per_tick) if self.per_tick else int(ahead)


class Command:
    """One row: what was issued, and at which tick it arrived at each mirror."""

    def __init__(self, row, columns, units, act):
        if any(cell.strip() for cell in row[columns.width:]):
            raise Wrong(f"{len(row)} columns in place of {columns.width}")
        self.issued = units.value("tick", columns.cell(row, "tick"))
        self.tick = units.tick(self.issued)
        mirror = columns.cell(row, "mirror")
        if not re.fullmatch("[0-7]", mirror) or int(mirror) >= columns.mirrors:
            raise Wrong(f"'{mirror[:40]}' is no mirror: a number from 0 to {columns.mirrors - 1}")
        self.mirror = int(mirror)
        self.player = columns.cell(row, "player")
        if not self.player:
            raise Wrong("there is no player")
        self.act = act or columns.cell(row, "act").lower()
        if self.act not in ACTS:
            raise Wrong(f"'{self.act[:40]}' is none of the acts {', '.join(ACTS)}")
        cells = [columns.cell(row, f"at {m}") for m in range(columns.mirrors)]
        self.arrivals = [max(0, units.tick(units.value(f"arrival at mirror {m}", cell))) if cell else None for m, cell in enumerate(cells)]


def rows_of(path):
    """The rows of a file with their lines, whichever of the three signs parts its columns."""
    try:
        with open(path, encoding="utf-8-sig", newline="") as file:
            text = file.read().replace("\r\n", "\n").replace("\r", "\n")
    except OSError as fault:
        raise Wrong(f"{path}: {fault.strerror}")
    except UnicodeDecodeError:
        raise Wrong(f"{path}: it isn't UTF-8")
    head = text.split("\n", 1)[0]
    rows = csv.reader(text.split("\n"), delimiter=max(",;\t", key=head.count))
    try:
        return [(rows.line_num, row) for row in rows]
    except csv.Error as fault:
        raise Wrong(f"{path}: line {rows.line_num}: {fault}")


def read_trace(path, units, act):
    """The commands of a trace, and how many mirrors it has."""
    rows = rows_of(path)
    columns = Columns(rows[0][1] if rows else [], act is None)
    commands, wrong = [], []
    for line, row in rows[1:]:
        if not any(cell.strip() for cell in row):
            continue
        try:
            command = Command(row, columns, units, act)
        except Wrong as fault:
            wrong.append(f"line {line}: {fault}")
            continue
        if units.takes(command.issued):
            commands.append(command)
    if wrong:
        more = f"\n{len(wrong) - MOST_TOLD} more rows can't be read" if len(wrong) > MOST_TOLD else ""
        raise Wrong("\n".join(wrong[:MOST_TOLD]) + more)
    return commands, columns.mirrors


def tell_odd(path, commands):
    """Says what a trace has that a net doesn't do."""
    never = sum(command.arrivals[command.mirror] is None for command in commands)
    early = sum(any(at is not None and at < command.tick for at in command.arrivals) for command in commands)
    for count, what in ((never, "never reach the mirror that issued them"), (early, "arrive somewhere before they were issued")):
        if count:
            print(f"{path}: {count} commands {what}", file=sys.stderr)


def named(commands, path):
    """A name of the match for each player, in the order in which they come."""
    players = list(dict.fromkeys(command.player for command in commands)) or ["ann"]
    if all(re.fullmatch("[a-z][a-z0-9]{0,11}", player) for player in players):
        return {player: player for player in players}
    names = {player: f"p{place}" for place, player in enumerate(players)}
    print(f"{path}: players are numbered in order, from p0, '{players[0]}', to p{len(players) - 1}, '{players[-1]}'", file=sys.stderr)
    return names


def homes(players, width, height):
    """A cell for each player, spread over the grid in rows."""
    across = min(width, math.ceil(math.sqrt(players * width / height)))
    down = math.ceil(players / across)
    if players > MOST_PLAYERS or down > height:
        raise Wrong(f"{players} players; a match has at most {MOST_PLAYERS}, one a cell")
    return [((2 * (place % across) + 1) * width // (2 * across), (2 * (place // across) + 1) * height // (2 * down)) for place in range(players)]


def script_of(commands, mirrors):
    """Turns of all mirrors in step, each command arriving before its mirror's turn of that tick."""
    arriving, numbers = {}, [0] * mirrors
    for command in commands:
        name = (command.mirror, numbers[command.mirror])
        numbers[command.mirror] += 1
        for mirror, tick in enumerate(command.arrivals):
            if tick is not None:
                arriving.setdefault((tick, mirror), []).append(name)
    last = max((tick for tick, _ in arriving), default=-1)
    lines = len(arriving) and sum(map(len, arriving.values())) + (last + 1) * mirrors
    if lines > MOST_SCRIPT_LINES:
        raise Wrong(f"{lines} script lines; a match has at most {MOST_SCRIPT_LINES}: cut the trace by --from and --to")
    script = []
    for tick in range(last + 1):
        for mirror in range(mirrors):
            script += [f"arrive {mirror} {f} {n}" for f, n in arriving.get((tick, mirror), ())]
            script.append(f"turn {mirror}")
    return script


def match_of(commands, mirrors, delays, length, grid, names):
    """The lines of the match."""
    last = max((command.tick for command in commands), default=0)
    length = length or last + 1
    if last >= length or length > LONGEST:
        raise Wrong(f"the last command is issued at tick {last}, and a match has {min(length, LONGEST)} ticks here and at most {LONGEST}: cut the trace by --from and --to")
    if len(commands) > MOST_COMMANDS:
        raise Wrong(f"{len(commands)} commands; a match has at most {MOST_COMMANDS}: cut the trace by --from and --to")
    lines = ["tss match 2", f"length {length}", f"grid {grid[0]} {grid[1]}", f"mirrors {mirrors}"]
    lines += ["delays " + " ".join(map(str, delays)), "pace 0"]
    lines += [f"player {name} {x} {y} s" for name, (x, y) in zip(names.values(), homes(len(names), *grid))]
    numbers, places = [0] * mirrors, {player: place for place, player in enumerate(names)}
    for command in commands:
        lines.append(f"cmd {command.tick} {command.mirror} {numbers[command.mirror]} {places[command.player]} {command.act}")
        numbers[command.mirror] += 1
    script = script_of(commands, mirrors)
    return lines + (["script"] + script if script else []) + ["end"]


def positive(word):
    try:
        value = float(word)
    except ValueError:
        value = 0
    if not 0 < value < 1e9:
        raise argparse.ArgumentTypeError(f"'{word[:20]}' is no number of milliseconds above 0")
    return value


def main():
    parser = argparse.ArgumentParser(description=__doc__, formatter_class=argparse.RawDescriptionHelpFormatter)
    parser.add_argument("trace", metavar="TRACE.csv")
    parser.add_argument("--delays", default="0 20 60", help="of the copies of each mirror, in ticks (default: 0 20 60)")
    parser.add_argument("--length", type=number_in(1, LONGEST), help="of the match, in ticks (default: up to the last command's tick)")
    parser.add_argument("--grid", type=number_in(1, 64), nargs=2, default=(32, 16), metavar=("W", "H"), help="in cells, 3 to 64 by 1 to 64 (default: 32 16)")
    parser.add_argument("--act", choices=ACTS, help="one act for all commands, in place of the column")
    parser.add_argument("--ms-per-tick", type=positive, metavar="MS", help="times are milliseconds, so many a tick")
    parser.add_argument("--from", type=number_in(0, 10 ** 15), default=0, dest="first", metavar="TIME", help="the first time that is taken, which is tick 0 (default: 0)")
    parser.add_argument("--to", type=number_in(0, 10 ** 15), dest="last", metavar="TIME", help="what was issued from here on is left out")
    given = parser.parse_args()
    delays = delays_in(given.delays)
    if given.grid[0] < 3:
        raise Wrong("--grid: a grid is 3 to 64 cells wide, and 1 to 64 high")
    commands, mirrors = read_trace(given.trace, Units(given), given.act)
    tell_odd(given.trace, commands)
    lines = match_of(commands, mirrors, delays, given.length, given.grid, named(commands, given.trace))
    sys.stdout.write("".join(line + "\n" for line in lines))


if __name__ == "__main__":
    end_with(main)
