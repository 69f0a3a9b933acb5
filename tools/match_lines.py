"""What the tools share: a match text cut into its parts, the built program run on one, and how a tool ends.

A match text is cut only as far as the tools need it. Whether it is one, the program says: `MatchText.read` asks it first.
"""

import argparse
import os
import subprocess
import sys

PROGRAM = os.path.normpath(os.path.join(os.path.dirname(os.path.abspath(__file__)), "..", "crates", "tss", "out", "tss"))
HOW_TO_BUILD = "build it by `cd crates/tss && rt run`, or name it by --program"


class Wrong(Exception):
    """A sentence that says what is wrong with what was given."""


class MatchText:
    """The lines of a match text: those before the script, and the script's."""

    def __init__(self, lines):
        last = len(lines) - 1 if lines and lines[-1] == "end" else len(lines)
        cut = lines.index("script") if "script" in lines else last
        self.setup = lines[:cut]
        self.script = lines[cut + 1:last]

    @classmethod
    def read(cls, path, program):
        """The match in a file. What the program refuses is told with the line and the cause that it names."""
        try:
            with open(path, "rb") as file:
                text = file.read()
        except OSError as fault:
            raise Wrong(f"{path}: {fault.strerror}")
        done = start(program, ["lift"], text)
        if done.returncode != 0:
            raise Wrong(f"{path}: {said_by(done)}")
        return cls(text.decode("ascii").split("\n")[:-1])

    def numbers(self, word):
        """The numbers of the first line of this word, before the script."""
        return next([int(n) for n in line.split(" ")[1:]] for line in self.setup if line.startswith(word + " "))

    def lines_of(self, word):
        return [line.split(" ")[1:] for line in self.setup if line.startswith(word + " ")]

    def bytes(self, script=None):
        script = self.script if script is None else script
        lines = self.setup + (["script"] + script if script else []) + ["end"]
        return "".join(line + "\n" for line in lines).encode("ascii")


def start(program, words, text):
    try:
        return subprocess.run([program, *words], input=text, capture_output=True)
    except OSError as fault:
        raise Wrong(f"{program}: {fault.strerror}; {HOW_TO_BUILD}")


def program_at(path):
    """The built program, if it is there."""
    if not (os.path.isfile(path) and os.access(path, os.X_OK)):
        raise Wrong(f"{path} is no program; {HOW_TO_BUILD}")
    return os.path.abspath(path)


def said_by(done):
    said = (done.stdout[:200] or done.stderr[:200]).decode("ascii", "replace").strip()
    return said or f"the program ended with status {done.returncode} and said nothing"


def run(program, word, text):
    """The lines that the program prints for a text. A refusal, or another status than 0, is `Wrong`."""
    done = start(program, word.split(" "), text)
    if done.returncode != 0:
        raise Wrong(f"{program} {word} ended with status {done.returncode}: {said_by(done)}")
    lines = done.stdout.decode("ascii", "replace").split("\n")[:-1]
    if not lines:
        raise Wrong(f"{program} {word} printed nothing: is it the program?")
    return lines


def number_in(least, most):
    """For argparse: a number within these."""
    def read(word):
        if len(word) > 20 or not word.lstrip("-").isdigit() or not least <= int(word) <= most:
            raise argparse.ArgumentTypeError(f"'{word[:20]}' is no number from {least} to {most}")
        return int(word)
    return read


def delays_in(words):
    """A set of delays: 1 to 8 numbers of ticks, strictly rising."""
    parts = words.replace(",", " ").split()
    if not 1 <= len(parts) <= 8 or not all(part.isdigit() and len(part) < 6 for part in parts):
        raise Wrong(f"'{words}': 1 to 8 delays in ticks, as \"0 20 60\"")
    delays = [int(part) for part in parts]
    if any(a >= b for a, b in zip(delays, delays[1:])) or delays[-1] > 1024:
        raise Wrong(f"'{words}': delays are strictly rising, each 0 to 1,024 ticks")
    return delays


def opened(path):
    """A file to be written, opened before any work is done."""
    try:
        return open(path, "w", encoding="utf-8", newline="")
    except OSError as fault:
        raise Wrong(f"{path}: {fault.strerror}")


def progress(text):
    """Says how far the work is, where somebody looks."""
    if sys.stderr.isatty():
        print(f"\r{text}\033[K", end="", file=sys.stderr, flush=True)


def end_with(main):
    """Runs a tool, which may give a status: what was wrong is told in one line with status 1, and an interrupt or a closed pipe ends
    it quietly."""
    name = os.path.basename(sys.argv[0])
    try:
        status = main()
        sys.stdout.flush()
        sys.exit(status)
    except Wrong as wrong:
        sys.exit(f"{name}: {wrong}")
    except BrokenPipeError:
        os.dup2(os.open(os.devnull, os.O_WRONLY), sys.stdout.fileno())
        sys.exit(1)
    except KeyboardInterrupt:
        progress("")
        sys.exit(130)
    except OSError as fault:
        sys.exit(f"{name}: {fault.strerror or fault}")
