#!/usr/bin/env python3
"""Lists what the program's headline says: the definitions that the clauses of its calls cite, and all that these stand on.

    python3 tools/claim.py [--names | --write]

It begins at the clauses of `run_watched`, `run` and `run_plain` (crates/tss_program/src), looks up each name in the imports of its
file, and goes on from the definition that it finds, over all crates. It prints a line for each crate, the lowest first: the files of
its specs/, and the files of its src/ whose types and constants the definitions name. Then it prints what the laws of tss_program
(src/laws.rt), which take the clause of the calls apart, add to that, and in the same way what the clauses of `live`
(crates/tss_mirror/src) and the laws of live_mirror, live_laws, endless_mirror and tss_mirror add. With --names it prints what stands in each file.
docs/READING.md has the same lists, with what each crate's files say; tools/tests compares the two. With --write it brings the page's
tables up to date, and keeps what they say of each crate; of a new one that is to be written by hand.

Names of std and of the kit's crates aren't followed. A name is looked up as a word, so where a variable is called as a definition
of its file, that one is listed too: the list may have a definition too many, and none too few.

Only Python's standard library is used.
"""

import os
import re
import sys

from match_lines import end_with

TOP = os.path.join(os.path.dirname(os.path.abspath(__file__)), "..")
PAGE = os.path.join(TOP, "docs", "READING.md")
LIVE_CALLS = [("live.rt", "live", "tss_mirror")]
CALLS = [("watched.rt", "run_watched"), ("race.rt", "run_race"), ("plain.rt", "run_plain")]
WORD = re.compile(r"[^\s(){}\[\],;]+")
IMPORT = re.compile(r"^\s*(?:ghost )?(?:pub )?use Rattle\.(\w+)\.specs\.([\w.]+?)(?:\.\{([^}]*)\}| as ([\w-]+));?$", re.M)
BEGIN = re.compile(r"^(?: *(?:abbrev|unfoldable) (?:pub )?| *pub (?:record|data) |(?:record|data) )(\S+)")
RUST_TYPE = r"^ *(?:pub(?:\([^)]*\))? )?(?:struct|enum|type|trait) {}\b"


def read(path):
    with open(path, encoding="utf-8") as file:
        return file.read()


def crates():
    """The crates of the repository, each behind those that it stands on."""
    below = {}
    for line in read(os.path.join(TOP, "crates.txt")).splitlines():
        name, _, rest = line.split("#")[0].partition(":")
        if name.strip():
            below[name.split()[0]] = rest.split()
    order = []

    def visit(name):
        for low in below[name]:
            if low in below:
                visit(low)
        if name not in order:
            order.append(name)

    for name in below:
        visit(name)
    return order


CRATES = crates()


def words_of(text):
    """The words of a text without comments and literals; of `a.b` also `a`, of an operator its parts."""
    text = re.sub(r'"[^"]*"', " ", re.sub(r"(?m)(--|//).*$", " ", text))
    found = set()
    for word in WORD.findall(text):
        found |= {word, word.split(".")[0]}
    return found


def imports(text):
    """For each name that a file imports the place of its definition: crate, path and name. For an alias of a module the name is None."""
    places = {}
    for crate, path, names, alias in IMPORT.findall(text):
        if crate not in CRATES:
            continue
        if alias:
            places[alias] = (crate, path, None)
        for name in filter(None, (n.strip() for n in names.split(","))):
            name, _, renamed = name.partition(" as ")
            places[(renamed or name).strip()] = (crate, path, name.strip())
    return places


class Spec:
    """One file of specs/: the text of each of its definitions, and its imports."""

    def __init__(self, path):
        text = read(path)
        self.imports, self.texts, self.homes = imports(text), {}, {}
        name, shared, in_data = None, "", False
        for line in text.splitlines():
            begin = BEGIN.match(line)
            if line.startswith("module "):
                shared, name = line, None
            elif begin:
                name = begin.group(1)
                in_data = "data " in line[: begin.end()]
                self.texts[name] = shared + "\n" + line
                self.homes[name] = name
            elif name is not None:
                self.texts[name] += "\n" + line
                case = re.match(r"^  (\S+) :", line) if in_data else None
                if case:
                    self.homes[case.group(1)] = name


SPECS, RUST = {}, {}


def spec(crate, name):
    if (crate, name) not in SPECS:
        SPECS[crate, name] = Spec(os.path.join(TOP, "crates", crate, "specs", name + ".antt"))
    return SPECS[crate, name]


def rust(crate, path):
    if (crate, path) not in RUST:
        RUST[crate, path] = read(os.path.join(TOP, "crates", crate, "src", path))
    return RUST[crate, path]


def rust_files(crate):
    top = os.path.join(TOP, "crates", crate, "src")
    for folder, _, names in os.walk(top):
        for name in sorted(names):
            if name.endswith(".rt"):
                yield os.path.relpath(os.path.join(folder, name), top)


def rust_item(crate, path):
    """The file and the name of a type or of constants, by its path under `declared`; a path of constants has no name."""
    parts = path.split(".")[1:]
    if parts[-1] in ("TheVariants", "TheConstants"):
        parts = parts[:-1] if parts[-1] == "TheVariants" else parts[:-1] + [None]
    *module, name = parts
    return crate, os.path.join(*module) + ".rt", name


def find_type(crate, name):
    """Where a crate of the repository has this type."""
    for path in rust_files(crate):
        if re.search(RUST_TYPE.format(name), rust(crate, path), re.M):
            return crate, path, name
    return None


def block(text, start):
    """The text from here to the end of its braces, or of its statement."""
    depth = 0
    for at in range(start, len(text)):
        if text[at] == "{":
            depth += 1
        elif text[at] == "}":
            depth -= 1
            if depth == 0:
                return text[start : at + 1]
        elif text[at] == ";" and depth == 0:
            return text[start:at]
    return text[start:]


def type_stands_on(place):
    """What a Rust type stands on: where contracts see it as another value, that value's type, and else the types of its fields."""
    crate, path, name = place
    text = rust(crate, path)
    model = re.search(rf"^impl(?:<[^\n]*>)? Model for {name}\b", text, re.M)
    if model:
        body = block(text, model.start())
        value = re.search(r"ghost Value = \{(.*?)\};", body, re.S)
        outside = re.sub(r"(?m)^    .*$", "", text)
        return from_words(words_of(value.group(1)), {**imports(outside), **imports(body)}, crate, None)
    begin = re.search(RUST_TYPE.format(name), text, re.M)
    if not begin:
        return set()
    found = set()
    for word in set(re.findall(r"\b[A-Z]\w*", re.sub(r"//.*", "", block(text, begin.start())))):
        if word == name:
            continue
        if re.search(RUST_TYPE.format(word), text, re.M):
            found.add(("src", crate, path, word))
            continue
        for source, names in re.findall(r"^use (\w+)[\w:]*(?:::\{([^}]*)\}|::\w+);", text, re.M):
            line = re.search(rf"^use {source}\b[^;]*\b{word}\b", text, re.M)
            home = crate if source == "crate" else source
            if line and home in CRATES:
                there = find_type(home, word) or next(filter(None, (find_type(c, word) for c in CRATES)), None)
                if there:
                    found.add(("src", *there))
                    break
    return found


def find(crate, path, name):
    """What a name of this place is: a definition of specs/, or a type or constant of src/."""
    if path.startswith("declared."):
        home = rust_item(crate, path)
        return ("src", home[0], home[1], home[2] or name)
    if path == "declared":
        return None
    file = spec(crate, path)
    if name in file.homes:
        return ("specs", crate, path, file.homes[name])
    if name in file.imports:
        return find(*file.imports[name])
    return None


def from_words(words, places, crate, path):
    """What these words are, by the imports of their file and by what it defines itself."""
    found = set()
    local = spec(crate, path).homes if path else {}
    parts = {part: name for name in [*places, *local] if "◌" in name for part in name.split("◌") if part}
    for word in words:
        word = parts.get(word, word)
        if word in local:
            found.add(("specs", crate, path, local[word]))
        elif word in places:
            found.add(find(*places[word]))
    return found - {None}


def stands_on(item):
    kind, crate, path, name = item
    if kind == "specs":
        file = spec(crate, path)
        return from_words(words_of(file.texts[name]), file.imports, crate, path)
    return type_stands_on((crate, path, name))


def clauses(path, name, crate="tss_program"):
    """What the clauses of a function of a crate cite."""
    text = rust(crate, path)
    begin = re.search(rf"^pub fn {name}\b", text, re.M).start()
    head = text[begin : text.index("\n{", begin)]
    said = "\n".join(re.split(r"(?m)^    (?=requires|ensures)", head)[1:])
    return from_words(words_of(said), imports(text), crate, None)


def all_of(items):
    """These, and all that they stand on."""
    found, left = set(), list(items)
    while left:
        item = left.pop()
        if item not in found:
            found.add(item)
            left += stands_on(item)
    return found


def by_crate(items):
    """For each crate, by `specs` and `src`, the files, and what of them is among the items."""
    listed = {}
    for crate in CRATES:
        for kind, of, path, name in items:
            if of == crate:
                listed.setdefault(crate, {"specs": {}, "src": {}})[kind].setdefault(path, set()).add(name)
    return listed


def claim():
    """What the calls say, what the laws add to it, and what live mirrors do: files that the calls' list doesn't have."""
    calls = all_of(item for call in CALLS for item in clauses(*call))
    laws = re.findall(r"^pub fn (\w+)", rust("tss_program", "laws.rt"), re.M)
    told = {item[:3] for item in calls}
    added = all_of(item for law in laws for item in clauses("laws.rt", law)) - calls
    live = all_of(item for of in LIVE_CALLS for item in clauses(*of))
    for crate in ("live_mirror", "live_laws", "endless_mirror", "tss_mirror"):
        live |= all_of(item for law in re.findall(r"^pub fn (\w+)", rust(crate, "laws.rt"), re.M) for item in clauses("laws.rt", law, crate))
    lists = calls, [item for item in added if item[:3] not in told], [item for item in live if item[:3] not in told]
    return tuple(by_crate(items) for items in lists)


def show(listed, with_names):
    for crate, kinds in listed.items():
        if not with_names:
            print(f"{crate}: " + "; ".join(", ".join(sorted(files)) for files in kinds.values() if files))
            continue
        for kind, files in kinds.items():
            for path, names in sorted(files.items()):
                print(f"{crate} {kind}/{path}: {', '.join(sorted(names))}")


def rows(listed, table):
    """The rows of a table of the page for this list, with what the table says of each crate now."""
    says = dict(re.findall(r"^\| `(\w+)` \|.*\| ([^|]*) \|$", table, re.M))
    lines = []
    for crate, kinds in listed.items():
        cells = [", ".join(f"`{name.removesuffix('.rt')}`" for name in sorted(files)) for files in kinds.values()]
        lines.append(f"| `{crate}` | {cells[0]} | {cells[1]} | {says.get(crate, '')} |\n")
    return "".join(lines)


def write(lists):
    """Brings the tables of the page up to date, which stand in the order of the lists."""
    page = read(PAGE)
    front, *tables = re.split(r"(?<=\|---\|---\|---\|---\|\n)", page)
    for at, listed in enumerate(lists):
        old = re.match(r"(?:\|.*\n)*", tables[at]).group(0)
        tables[at] = rows(listed, old) + tables[at][len(old) :]
    with open(PAGE, "w", encoding="utf-8") as file:
        file.write(front + "".join(tables))


def main():
    if sys.argv[1:] not in ([], ["--names"], ["--write"]):
        wanted = sys.argv[1:] in (["-h"], ["--help"])
        print(__doc__.strip(), file=sys.stdout if wanted else sys.stderr)
        return 0 if wanted else 2
    calls, laws, live = claim()
    if sys.argv[1:] == ["--write"]:
        write([calls, laws, live])
        return 0
    show(calls, bool(sys.argv[1:]))
    print("\nThe laws add:")
    show(laws, bool(sys.argv[1:]))
    print("\nLive mirrors add:")
    show(live, bool(sys.argv[1:]))
    return 0


if __name__ == "__main__":
    end_with(main)
