#!/usr/bin/env python3
"""Plays one match under several schemes of keeping mirrors in step, and says what each costs.

    python3 tools/compare_schemes.py MATCH [--scheme NAME ..] [--delays "0 20 60" ..] [--bucket D ..] [--snapshot K ..] [--window N ..]
    python3 tools/compare_schemes.py --net lan|home|far [--seed N] [..]

MATCH is a file with a match text, whose script tells when each command came to each mirror: `match_of_trace.py` makes one of a trace.
With --net a game is drawn in its place, over the net of that name. docs/STUDY.md has the rules of the schemes:

    lockstep    a tick is executed once all mirrors' commands of it are there
    bucket      each command is executed D ticks after it was issued, and what comes later is lost (--bucket)
    timewarp    what comes late sends a mirror back to the last of its snapshots, one before each K-th tick (--snapshot)
    rollback    as GGPO has it: so too, but nobody is more than N ticks ahead of what is known of all others (--window)
    tss         copies at delays, as this engine has it: one row for each --delays

A row of the table has, of all mirrors together:

    own act        frames from an own command's tick until it shows at its own mirror: the mean
    lost           arrivals that came too late and were never executed
    apart          mirrors whose last world differs from mirror 0's
    waited         frames in which a mirror stood, since it waited for another
    longest        the most of these at one go
    rollbacks      how often a mirror (in tss a copy) went back
    again          ticks that were executed again for it
    worlds         the most worlds that a mirror keeps
    astray, most   commands that what players see has executed out of their place: the mean over all turns, and the most

What never came to a mirror is in no row; lockstep and rollback tell it again. `tss` plays tss and the last worlds; the other figures
come of short models of clocks (schemes.py).
"""

import argparse
import csv
import json

from drawn_nets import MIRRORS, NETS, TICKS, rows_of
from match_lines import PROGRAM, Wrong, delays_in, end_with, number_in, opened, progress, run
from match_of_trace import match_of
from schemes import Outcome, Trace, bucket, lockstep, rollback, time_warp
from study_delays import WORLD_BYTES, Match, Study, read_match

SCHEMES = ("lockstep", "bucket", "timewarp", "rollback", "tss")
COLOURS = {"lockstep": "#7d3c98", "bucket": "#b9770e", "timewarp": "#1f5fa8", "rollback": "#117a65", "tss": "#c0392b"}


class Row:
    """One scheme with its own number or delays, and what came of it."""

    def __init__(self, scheme, title, outcome, apart):
        self.scheme, self.title, self.outcome, self.apart = scheme, title, outcome, apart

    def own(self):
        return sum(self.outcome.own) / max(1, len(self.outcome.own))

    def cells(self):
        o = self.outcome
        return [self.title, f"{self.own():.2f}", len(o.lost), self.apart, o.waited, o.longest, o.rollbacks, o.again, o.worlds,
                f"{o.astray:.2f}", o.most]

    def data(self):
        o = self.outcome
        return {"scheme": self.scheme, "title": self.title, "own_act_mean": round(self.own(), 4), "own_act_most": max(o.own, default=0),
                "lost": len(o.lost), "apart": self.apart, "waited": o.waited, "longest_wait": o.longest, "rollbacks": o.rollbacks,
                "again": o.again, "worlds": o.worlds, "bytes_of_worlds": o.worlds * WORLD_BYTES, "astray_mean": round(o.astray, 4),
                "astray_most": o.most}


COLUMNS = ["scheme", "own act", "lost", "apart", "waited", "longest", "rollbacks", "again", "worlds", "astray", "most"]


class Worlds:
    """The last world of whoever executed some of the match's commands in time order, as `tss order` has it."""

    def __init__(self, program, match):
        self.program, self.match, self.known = program, match, {}

    def of(self, names):
        key = frozenset(names)
        if key not in self.known:
            lines = [line for line in self.match.setup if not line.startswith("cmd ") or tuple(map(int, line.split(" ")[2:4])) in key]
            self.known[key] = run(self.program, "order", "".join(line + "\n" for line in lines + ["end"]).encode("ascii"))
        return self.known[key]

    def apart(self, taken):
        return sum(self.of(names) != self.of(taken[0]) for names in taken)


def tss(program, match, trace, delays):
    """The outcome that `tss play` tells, counted as study_delays.py does."""
    study = Study(program, match, delays)
    own = [max(delays[0], came[name] - time) for name, time in trace.times.items() for came in [trace.came[name[0]]] if name in came]
    lost = [((sender, number), mirror) for _, sender, number, mirror in study.late]
    outcome = Outcome(own, lost, None, 0, 0, study.repaired, study.again, len(delays) + 1, study.astray, study.most_astray)
    return Row("tss", "tss " + " ".join(map(str, delays)), outcome, study.apart)


def plays(given, match):
    """For each row that is asked for, its scheme, its title and how it is played."""
    own = match.numbers("delays")
    asked = given.scheme or SCHEMES
    buckets = given.bucket or [delay for delay in own if delay] or [0]
    some = {"lockstep": [("lockstep", lockstep, ())],
            "bucket": [(f"bucket {delay}", bucket, (delay,)) for delay in buckets],
            "timewarp": [(f"timewarp {every}", time_warp, (every,)) for every in given.snapshot or [1, 8]],
            "rollback": [(f"rollback {window}", rollback, (window,)) for window in given.window or [8]],
            "tss": [(None, tss, (delays_in(words),)) for words in given.delays or [" ".join(map(str, own))]]}
    return [(scheme, *play) for scheme in asked for play in some[scheme]]


def rows_played(given, match):
    """Plays each, and prints its row as soon as it is known."""
    trace, worlds, rows = Trace.of(match), Worlds(given.program, match), []
    due = plays(given, match)
    widths = [max(7, len(name)) for name in COLUMNS]
    widths[0] = max([16] + [len("tss " + " ".join(map(str, words[0]))) for scheme, _, _, words in due if scheme == "tss"])
    print(line_of(COLUMNS, widths))
    for place, (scheme, title, play, words) in enumerate(due):
        progress(f"{place + 1} of {len(due)}: {title or scheme}")
        if scheme == "tss":
            row = tss(given.program, match, trace, *words)
        else:
            outcome = play(trace, *words)
            row = Row(scheme, title, outcome, worlds.apart(outcome.taken))
        progress("")
        print(line_of(row.cells(), widths), flush=True)
        rows.append(row)
    if trace.never():
        print(f"{trace.never()} arrivals never came")
    return rows


def line_of(cells, widths):
    return "  ".join([str(cells[0]).ljust(widths[0])] + [str(cell).rjust(width) for cell, width in zip(cells[1:], widths[1:])]).rstrip()


# ---- the picture


def text(x, y, said, anchor="start", colour="#333"):
    return f'<text x="{x:.1f}" y="{y:.1f}" fill="{colour}" text-anchor="{anchor}">{said}</text>'


def panel(rows, left, title, value, across, widest):
    """Each scheme as a point: across, how late an own act shows; up, a cost."""
    top, wide, high = 60, 330, 260
    most = max([value(row) for row in rows] + [1])
    out = [text(left, 40, title), f'<rect x="{left}" y="{top}" width="{wide}" height="{high}" fill="none" stroke="#999"/>']
    out += [text(left - 16, top + high - high * part / 4 + 4, f"{most * part / 4:,.0f}", "end") for part in range(5)]
    out += [text(left + wide * part / 4, top + high + 24, f"{widest * part / 4:.3g}", "middle") for part in range(5)]
    out.append(text(left + wide / 2, top + high + 42, "frames until an own act shows", "middle"))
    taken = []
    for place, row in enumerate(rows):
        x, y = left + wide * across(row) / widest, top + high - high * value(row) / most
        while any(abs(x - a) < 14 and abs(y - b) < 14 for a, b in taken):  # beside those that stand there already
            x += 14
        taken.append((x, y))
        said = f"{row.title}: own act {row.own():.2f}, {value(row):,}"
        out.append(f'<circle cx="{x:.1f}" cy="{y:.1f}" r="9" fill="{COLOURS[row.scheme]}" stroke="white"><title>{said}</title></circle>')
        out.append(text(x, y + 4, place + 1, "middle", "white"))
    return out


def plot(rows):
    """What is executed again, and what is lost, against the delay of one's own act; the points are numbered as the rows."""
    widest = max([row.own() for row in rows] + [1])
    out = panel(rows, 90, "ticks executed again", lambda row: row.outcome.again, Row.own, widest)
    out += panel(rows, 510, "arrivals lost", lambda row: len(row.outcome.lost), Row.own, widest)
    for place, row in enumerate(rows):
        x, y = 90 + 210 * (place % 4), 395 + 22 * (place // 4)
        out += [f'<circle cx="{x}" cy="{y - 4}" r="8" fill="{COLOURS[row.scheme]}"/>', text(x, y, place + 1, "middle", "white"), text(x + 14, y, row.title)]
    height = 415 + 22 * ((len(rows) + 3) // 4)
    return "\n".join([f'<svg xmlns="http://www.w3.org/2000/svg" width="900" height="{height}" font-family="sans-serif" font-size="12">',
                      f'<rect width="900" height="{height}" fill="white"/>'] + out + ["</svg>"]) + "\n"


# ---- the command


def drawn(name, seed):
    """A match that is drawn over a net, and a line that tells of it."""
    rows = rows_of(name, seed)
    lines = match_of(rows, MIRRORS, [0, 6, 20], TICKS, (24, 12), {row.player: row.player for row in sorted(rows, key=lambda row: row.player)})
    lags = sorted(at - row.tick for row in rows for other, at in enumerate(row.arrivals) if other != row.mirror)
    print(f"net {name}, seed {seed}: {MIRRORS} mirrors, {TICKS} ticks of 50 ms, {len(rows)} commands; latency to another mirror p50 "
          f"{lags[len(lags) // 2]} ticks, p99 {lags[len(lags) * 99 // 100]}, max {lags[-1]}; "
          f"{sum(row.again for row in rows)} of {len(lags)} were lost and sent again")
    return Match(lines), lines


def parser_of():
    parser = argparse.ArgumentParser(description=__doc__, formatter_class=argparse.RawDescriptionHelpFormatter)
    parser.add_argument("match", metavar="MATCH", nargs="?")
    parser.add_argument("--net", choices=NETS, help="draws a game over such a net, in place of MATCH")
    parser.add_argument("--seed", type=number_in(0, 10 ** 9), default=1, help="of what is drawn (default: 1)")
    parser.add_argument("--match-out", metavar="FILE", help="writes the match that was drawn to this file")
    parser.add_argument("--scheme", choices=SCHEMES, action="append", help="plays this one; may be given again (default: all)")
    parser.add_argument("--delays", action="append", help="of tss, in ticks; may be given again (default: the match's own)")
    parser.add_argument("--bucket", type=number_in(0, 8192), action="append", metavar="D", help="in ticks; may be given again (default: the match's own delays)")
    parser.add_argument("--snapshot", type=number_in(1, 8192), action="append", metavar="K", help="a snapshot before each K-th tick; may be given again (default: 1 and 8)")
    parser.add_argument("--window", type=number_in(1, 8192), action="append", metavar="N", help="of rollback, in ticks; may be given again (default: 8)")
    parser.add_argument("--program", default=PROGRAM, help="the built program (default: the one of this repository)")
    parser.add_argument("--csv", help="writes the table to this file too")
    parser.add_argument("--json", help="writes all figures to this file")
    parser.add_argument("--svg", help="writes a picture of the schemes to this file")
    return parser


def main():
    given = parser_of().parse_args()
    if (given.match is None) == (given.net is None):
        raise Wrong("give a MATCH, or --net and the name of one")
    if given.match_out and not given.net:
        raise Wrong("--match-out goes with --net")
    names = ("match_out", "csv", "json", "svg")
    files = {name: opened(getattr(given, name)) for name in names if getattr(given, name)}
    if given.net:
        match, lines = drawn(given.net, given.seed)
        if "match_out" in files:
            files["match_out"].write("".join(line + "\n" for line in lines))
    else:
        match = read_match(given.match, given.program)
    rows = rows_played(given, match)
    if "csv" in files:
        csv.writer(files["csv"]).writerows([COLUMNS] + [row.cells() for row in rows])
    if "json" in files:
        json.dump([row.data() for row in rows], files["json"], indent=1)
    if "svg" in files:
        files["svg"].write(plot(rows))
    for file in files.values():
        file.close()


if __name__ == "__main__":
    end_with(main)
