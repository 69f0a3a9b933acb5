#!/usr/bin/env python3
"""Prints a manual page or shell completions, made from docs/FORMATS.md and from what the tools say to --help.

    python3 tools/make_man.py > tss.1                 then: man ./tss.1
    python3 tools/make_man.py tss_mirror > tss_mirror.1
    python3 tools/make_man.py study_delays > study_delays.1
    python3 tools/make_man.py --completions > tss.bash    then: . ./tss.bash
    python3 tools/make_man.py --tools > docs/TOOLS.md

Without a name the page is that of the program `tss`: its words, its numbers and its statuses are the tables of docs/FORMATS.md; that
of `tss_mirror` is made of its section there. Another name is that of a tool in tools/, whose page is what it says to --help. --tools
prints docs/TOOLS.md: of each tool the first sentence and the first command line of that. Nothing is installed.
"""

import argparse
import os
import re
import subprocess
import sys
import textwrap

from match_lines import Wrong, end_with

TOOLS = os.path.dirname(os.path.abspath(__file__))
FORMATS = os.path.join(TOOLS, "..", "docs", "FORMATS.md")


def formats():
    with open(FORMATS, encoding="utf-8") as file:
        return file.read()


def section(text, title):
    return text.split(f"\n## {title}\n", 1)[1].split("\n## ", 1)[0]


def rows(part):
    """The rows of the first table of a part of a page, without its head."""
    lines = part[part.index("\n|"):].strip().split("\n")
    table = lines[:next((at for at, line in enumerate(lines) if not line.startswith("|")), len(lines))]
    return [[plain(cell.strip()) for cell in re.split(r"(?<!\\)\|", line)[1:-1]] for line in table[2:]]


def plain(cell):
    cell = re.sub(r"\[([^]]*)\]\([^)]*\)", r"\1", cell)
    return cell.replace("`", "").replace("\\|", "|")


def roff(text):
    lines = text.replace("\\", "\\e").replace("-", "\\-").split("\n")
    return "\n".join("\\&" + line if line.startswith((".", "'")) else line for line in lines)


def usage(text):
    return re.search(r"\n    tss (order[^\n]*)\n", text).group(1)


def page_of_program():
    text = formats()
    words = section(text, "Words of the command line")
    out = ['.TH TSS 1 "" "" "tss"', ".SH NAME", roff("tss - plays, races, audits and scores matches on mirrored servers"), ".SH SYNOPSIS", f".B tss {roff(usage(text))}",
           ".SH DESCRIPTION", roff("Input is standard input, output standard output."), ".SH WORDS"]
    for word, reads, prints in rows(words):
        out += [".TP", f".B {roff(word)}", roff(f"reads {reads}; prints {prints}")]
    out.append(".SH NUMBERS")
    for number, values in rows(words[words.index("| Number |") - 1:]):
        out += [".TP", f".B {roff(number)}", roff(values)]
    out.append(".SH EXIT STATUS")
    for status, when, written in rows(section(text, "Statuses")):
        out += [".TP", f".B {status}", roff(f"{when}; written: {written}")]
    return "\n".join(out + [".SH SEE ALSO", roff("docs/FORMATS.md of the repository has the texts byte by byte.")]) + "\n"


def page_of_mirror():
    part = section(formats(), "The text of a live mirror")
    what = re.search(r"(?s)is one mirror of.*?(?=\n\nThe first two)", part)[0]
    statuses = part[part.index("The status is"):].strip()
    out = ['.TH TSS_MIRROR 1 "" "" "tss"', ".SH NAME", roff("tss_mirror - one mirror of a match, spoken to line by line"), ".SH SYNOPSIS", ".B tss_mirror M",
           ".SH DESCRIPTION", roff("It " + plain(what)), ".SH REQUESTS"]
    for request, happens, told in rows(part):
        out += [".TP", f".B {roff(request)}", roff(f"at the mirror: {happens}; told: {told}")]
    return "\n".join([*out, ".SH EXIT STATUS", roff(plain(statuses)), ".SH SEE ALSO", roff("docs/FORMATS.md of the repository has its refusals.")]) + "\n"


def tools():
    return sorted(file[:-3] for file in os.listdir(TOOLS) if file.endswith(".py"))


def help_of(name):
    """What a tool says to --help; nothing of a file that the tools share."""
    return subprocess.run([sys.executable, os.path.join(TOOLS, f"{name}.py"), "--help"], capture_output=True, text=True).stdout


def page_of_tools():
    """Each tool's first sentence and its first command line."""
    about = ("Each runs the built programs where it needs them. `--help` says all its forms; `tools/make_man.py NAME` makes that a manual page. "
             "Only `serve_mirrors.py` needs more than Python's standard library, for its page and a broker. `tools/make_man.py --tools` makes this page.")
    out = ["# Tools\n", textwrap.fill(about, 120)]
    for name in tools():
        said = help_of(name).split("options:")[0]
        if said:
            about = said.split("\n\n", 1)[1] if said.startswith("usage:") else said
            first = re.match(r"(?s).*?\.(?=\s)", about)[0]
            line = re.search(rf"(?m)^    python3 tools/{name}\.py.*?(?=  +then:|$)", about)[0]
            out += [f"\n## {name}.py\n", textwrap.fill(" ".join(first.split()), 120) + "\n", line]
    return "\n".join(out) + "\n"


def page_of_tool(name):
    path = os.path.join(TOOLS, f"{name.removesuffix('.py')}.py")
    if not re.fullmatch(r"[a-z_]+(\.py)?", name) or not os.path.isfile(path):
        raise Wrong(f"'{name}' is no tool; there are {', '.join(tools())}")
    said = help_of(name.removesuffix(".py"))
    if not said:
        raise Wrong(f"{name} is no tool: it has no --help, since the tools share it")
    title = name.removesuffix(".py")
    return f'.TH {title.upper()} 1 "" "" "tss"\n.SH NAME\n{roff(title)}\n.SH DESCRIPTION\n.nf\n{roff(said)}.fi\n'


def completions():
    words = {}
    for form in usage(formats()).split("|"):
        first, *rest = form.split(" ")
        second = [word for word in rest if word.islower()]
        words.setdefault(first, []).extend(second)
    cases = "".join(f'    {first}) COMPREPLY=($(compgen -W "{" ".join(seconds)}" -- "$word")) ;;\n' for first, seconds in words.items() if seconds)
    return (f'_tss() {{\n  local word="${{COMP_WORDS[COMP_CWORD]}}"\n  if [ "$COMP_CWORD" = 1 ]; then\n    COMPREPLY=($(compgen -W "{" ".join(words)}" -- "$word"))\n'
            f'    return\n  fi\n  case "${{COMP_WORDS[1]}}" in\n{cases}  esac\n}}\ncomplete -F _tss tss\n')


def main():
    parser = argparse.ArgumentParser(description=__doc__, formatter_class=argparse.RawDescriptionHelpFormatter)
    parser.add_argument("tool", metavar="TOOL", nargs="?", help="the tool whose page is made (default: the program's)")
    parser.add_argument("--completions", action="store_true", help="prints completions for bash")
    parser.add_argument("--tools", action="store_true", help="prints docs/TOOLS.md")
    given = parser.parse_args()
    if given.completions:
        sys.stdout.write(completions())
    elif given.tools:
        sys.stdout.write(page_of_tools())
    elif given.tool == "tss_mirror":
        sys.stdout.write(page_of_mirror())
    else:
        sys.stdout.write(page_of_tool(given.tool) if given.tool else page_of_program())


if __name__ == "__main__":
    end_with(main)
