#!/usr/bin/env python3
"""Prints the worked rows of peers as lines that `crates/peer_rows` makes, one call of a peer each.

    python3 tools/peer_rows_text.py             prints the file of the rows
    python3 tools/peer_rows_text.py --write     puts it into crates/peer_rows/src/tests/rows.rt
    python3 tools/peer_rows_text.py --check     says whether that file is what the rows come to

The rows are those of tools/tests/peer_rows.json. The first line of a row is `session`, and then the session's number, its
slots, its payload, and a peer's window, keep, relay and room. All copies have delays of 0 and 2 ticks: a row of others is refused. Each
further line is a peer (a, b, c, in the order in which they come up), a call with its words, and behind ` = ` the kind, `other` and `value`
that it answers, and what it puts out or tells. Bytes begin with x. Left out are the steps that a peer isn't asked for: those that are
answered NO_PEER or NOT_LEGAL, since which peer there is, and with which config, is looked at by the library for C.
Only Python's standard library is used.
"""

import argparse
import json
import os
import sys

from match_lines import Wrong, end_with

TOP = os.path.join(os.path.dirname(os.path.abspath(__file__)), "..")
ROWS = os.path.join(TOP, "tools", "tests", "peer_rows.json")
TEXT = os.path.join(TOP, "crates", "peer_rows", "src", "tests", "rows.rt")
DELAYS = [0, 2]

# as the library for C numbers them
KINDS = {
    "MOVED": 0, "OVER": 1, "TAKEN": 2, "RAN": 3, "IDLE": 4, "RESTAGGERED": 5, "VALUE": 6, "MADE": 7, "HEARD": 8, "MARKED": 9,
    "NO_PEER": 16, "NOT_THERE": 17, "FAR": 18, "FULL": 19, "NOT_LEGAL": 20, "NO_MEMORY": 21, "TOO_LONG": 22, "BEHIND": 23, "END": 24,
    "SHORT": 25, "MALFORMED": 26, "OTHER_SESSION": 27, "NOT_FOR_ME": 28, "AHEAD": 29, "CONFLICT": 30, "USED": 31, "AGAIN": 32,
}
NOT_ASKED = ("NO_PEER", "NOT_LEGAL")

# the words of each call, in this order; those that are bytes
WORDS = {
    "new": ["me"], "join": ["me", "bytes"], "own": ["ahead", "payload"], "turn": [], "step": ["copy"], "restagger": ["plan"],
    "packet": ["to", "room"], "hear": ["bytes"], "mark": ["sum"], "snapshot": ["room"], "clock": [], "base": [], "copy_clock": ["copy"],
    "run_len": ["copy"], "items": ["copy", "place", "room"], "payload": ["from_", "number", "room"], "slot_of": ["slot_number"],
    "known": ["who", "of"],
}
BYTES = ("bytes", "payload")

# what is told of a packet, and of a slot, in this order
TOLD = ("from", "taken", "late", "repaired", "stopped", "differs")
SLOT = ("have", "kept", "last", "late", "heard", "clock", "echo", "at", "marked", "mark_tick", "mark_sum", "differs", "differs_tick")

HEAD = """//! Worked rows of peers, each call with its exact answer. `tools/peer_rows_text.py` makes this file, and says how to read
//! a line.

// Each row's name, and its lines.
pub(super) const ROWS: [(&str, &str); {count}] = [
"""


def word_of(step, name):
    return f"x{step[name]}" if name in BYTES else str(step[name])


def shown_by(step):
    """What a call puts out or tells, as words."""
    if "out" in step:
        return [f"x{step['out']}"]
    if "heard" in step:
        return [str(step["heard"][name]) for name in TOLD]
    if "slot" in step:
        return [str(step["slot"][name]) for name in SLOT]
    return [str(number) for item in step.get("items", []) for number in item]


def line_of(step, names):
    call = step["call"]
    if call not in WORDS:
        raise Wrong(f"no call {call}")
    words = [names[step["at"]], call, *(word_of(step, name) for name in WORDS[call])]
    kind, other, value = step["answer"]
    return " ".join([*words, "=", str(KINDS[kind]), str(other), str(value), *shown_by(step)])


def lines_of(row):
    """The lines of a row."""
    config = row["config"]
    if config["plans"] != [DELAYS]:
        raise Wrong(f"{row['name']}: other delays than {DELAYS}")
    head = ["session", *(str(config[name]) for name in ("session", "slots", "payload", "window", "keep", "relay", "room"))]
    peers = list(dict.fromkeys(step["at"] for step in row["steps"]))
    if len(peers) > 3:
        raise Wrong(f"{row['name']}: more than three peers")
    names = dict(zip(peers, "abc"))
    return [" ".join(head), *(line_of(step, names) for step in row["steps"] if step["answer"][0] not in NOT_ASKED)]


def text_of(rows):
    """The file of the rows, as `rt fmt` lays it out."""
    text = HEAD.replace("{count}", str(len(rows)))
    for row in rows:
        lines = [line + "\\n" for line in lines_of(row)]
        text += "    (\n        \"" + row["name"] + "\",\n        \"" + "\\\n            ".join(lines) + "\",\n    ),\n"
    return text + "];\n"


def main():
    parser = argparse.ArgumentParser(description=__doc__, formatter_class=argparse.RawDescriptionHelpFormatter)
    parser.add_argument("--write", action="store_true")
    parser.add_argument("--check", action="store_true")
    given = parser.parse_args()
    with open(ROWS, encoding="utf-8") as file:
        text = text_of(json.load(file))
    if given.write:
        with open(TEXT, "w", encoding="utf-8") as file:
            file.write(text)
    elif given.check:
        with open(TEXT, encoding="utf-8") as file:
            if file.read() != text:
                raise Wrong("crates/peer_rows/src/tests/rows.rt isn't what tools/tests/peer_rows.json comes to: --write makes it")
    else:
        sys.stdout.write(text)


if __name__ == "__main__":
    end_with(main)
