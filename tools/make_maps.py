#!/usr/bin/env python3
"""Prints the maps of crates: of each file of `specs/` and `src/` the first sentence, as the READMEs of the crates have them.

    python3 tools/make_maps.py [CRATE ..]         prints the map of each of these crates, or of all
    python3 tools/make_maps.py --write            puts each map into its crate's README, behind the line `## Map`

The first sentence of a file is that of the comment with which it begins: `//!` in `src/`, `--` in `specs/`. What stands in a README
behind a further heading stays. Only Python's standard library is used.
"""

import argparse
import os
import re

from match_lines import Wrong, end_with

CRATES = os.path.join(os.path.dirname(os.path.abspath(__file__)), "..", "crates")
MARKS = {"specs": (".antt", "-- "), "src": (".rt", "//! ")}


def sentence(path, mark):
    """The first sentence of the comment at the front of a file, with a small letter at its front, or None."""
    with open(path, encoding="utf-8") as file:
        lines = file.read().split("\n")
    front = []
    for line in lines:
        if not line.startswith(mark):
            break
        front.append(line[len(mark):].strip())
    found = re.match(r"(.+?[.:])(?= [A-Z]|$)", " ".join(front))
    text = found.group(1) if found and found.group(1).endswith(".") else " ".join(front)
    return text[:1].lower() + text[1:] if text else None


def files_below(folder, end):
    return sorted(os.path.join(at, name) for at, _, names in os.walk(folder) for name in names if name.endswith(end))


def map_of(crate):
    """The lines of a crate's map."""
    lines = []
    for part, (end, mark) in MARKS.items():
        for path in files_below(os.path.join(CRATES, crate, part), end):
            said, name = sentence(path, mark), os.path.relpath(path, os.path.join(CRATES, crate))
            if said is None and os.path.basename(path) == "Lib.antt":
                continue  # it only names the others
            if said is None:
                raise Wrong(f"crates/{crate}/{name} begins with no comment")
            lines.append(f"- `{name}`: {said}")
    return lines


def readme(crate):
    return os.path.join(CRATES, crate, "README.md")


def page_of(crate):
    """The README of a crate with its map as it is."""
    with open(readme(crate), encoding="utf-8") as file:
        text = file.read()
    if "\n## Map\n" not in text:
        raise Wrong(f"crates/{crate}/README.md has no line '## Map'")
    front, behind = text.split("\n## Map\n", 1)
    rest = behind.split("\n## ", 1)
    made = front + "\n## Map\n\n" + "\n".join(map_of(crate)) + "\n"
    return made + ("\n## " + rest[1] if len(rest) == 2 else "")


def main():
    parser = argparse.ArgumentParser(description=__doc__, formatter_class=argparse.RawDescriptionHelpFormatter)
    parser.add_argument("crates", nargs="*", metavar="CRATE")
    parser.add_argument("--write", action="store_true")
    given = parser.parse_args()
    every = sorted(os.listdir(CRATES))
    for crate in given.crates or every:
        if crate not in every:
            raise Wrong(f"there is no crate {crate}")
        if given.write:
            page = page_of(crate)
            with open(readme(crate), "w", encoding="utf-8") as file:
                file.write(page)
        else:
            print("\n".join([f"{crate}:", *map_of(crate)]))


if __name__ == "__main__":
    end_with(main)
