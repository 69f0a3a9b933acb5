"""What the tests of the tools share."""

import os
import subprocess
import sys
import tempfile
import unittest

TOP = os.path.normpath(os.path.join(os.path.dirname(os.path.abspath(__file__)), "..", ".."))
TOOLS = os.path.join(TOP, "tools")
PROGRAM = os.environ.get("TSS", os.path.join(TOP, "crates", "tss", "out", "tss"))
SAMPLE = os.path.join(TOP, "examples", "lossy_game.csv")
if TOOLS not in sys.path:
    sys.path.insert(0, TOOLS)


def tool(name, *words):
    """What a tool prints, what it says on standard error, and its status."""
    done = subprocess.run([sys.executable, os.path.join(TOOLS, name), *words], capture_output=True, text=True)
    return done.stdout, done.stderr, done.returncode


def play(text):
    return subprocess.run([PROGRAM, "play"], input=text.encode(), capture_output=True).stdout.decode().split("\n")[:-1]


def read(path):
    with open(path, encoding="utf-8") as file:
        return file.read()


class Files(unittest.TestCase):
    def setUp(self):
        self.folder = tempfile.TemporaryDirectory()
        self.addCleanup(self.folder.cleanup)

    def path(self, name):
        return os.path.join(self.folder.name, name)

    def file(self, name, text):
        with open(self.path(name), "w", encoding="utf-8", newline="") as file:
            file.write(text)
        return self.path(name)
