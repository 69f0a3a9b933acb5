"""What is kept in a folder: files that are whole or not there, and a journal of each mirror.

A journal `journalM` has what mirror M was told: its head, and each line that it answered. A mirror's answers follow from that, so a
session whose tool was killed is made again of its journals (`replayed`). A journal is begun beside the one that is there, which it
takes the place of once the mirror is where it was.
"""

import contextlib
import os

from match_lines import Wrong

from .log import ERROR

QUIET = ("world ", "commands", "end")  # what changes nothing


def name_of(number):
    return f"journal{number}"


def write_lines(folder, name, lines):
    """Writes a file beside and then renames it."""
    path = os.path.join(folder, name)
    try:
        with open(path + ".new", "w", encoding="ascii") as file:
            file.write("".join(line + "\n" for line in lines))
            file.flush()
            os.fsync(file.fileno())
        os.replace(path + ".new", path)
    except OSError:
        with contextlib.suppress(OSError):
            os.remove(path + ".new")
        raise


def try_folder(folder):
    """Makes the folder, and a file in it, before anything is played."""
    try:
        os.makedirs(folder, exist_ok=True)
        write_lines(folder, "tried", ["a line"])
        os.remove(os.path.join(folder, "tried"))
    except OSError as fault:
        raise Wrong(f"--out {folder}: {fault.strerror}")


def set_aside(folder):
    """Journals that lie in the folder are of a session that didn't come to its end: they get a folder of their own, which is answered."""
    left = [name for name in os.listdir(folder) if name.startswith("journal") and name[7:].isdigit()]
    if not left:
        return None
    aside = next(path for path in (os.path.join(folder, f"unended{at}") for at in range(1, 1 << 30)) if not os.path.exists(path))
    os.mkdir(aside)
    for name in left:
        os.replace(os.path.join(folder, name), os.path.join(aside, name))
    return aside


class Journal:
    """The journal of one mirror. One that can't be written any more is left, which is told once."""

    MOST_BYTES = 1 << 28

    def __init__(self, folder, number, told):
        self.path, self.number, self.told, self.file, self.size = os.path.join(folder, name_of(number)), number, told, None, 0

    def anew(self, head):
        self.close()
        try:
            self.file, self.size = open(self.path + ".new", "wb", buffering=0), 0
        except OSError as fault:
            self.give_up(fault.strerror)
        self.write("".join(line + "\n" for line in head).encode("ascii"))

    def in_place(self):
        """The mirror is where it was."""
        if self.file:
            os.replace(self.path + ".new", self.path)

    def add(self, lines):
        self.write("".join(line + "\n" for line in lines if not line.startswith(QUIET)).encode("ascii"))

    def write(self, text):
        if not self.file or not text:
            return
        self.size += len(text)
        try:
            if self.size > self.MOST_BYTES or self.file.write(text) != len(text):
                self.give_up("no room" if self.size <= self.MOST_BYTES else f"it has {self.MOST_BYTES} bytes")
        except OSError as fault:
            self.give_up(fault.strerror)

    def give_up(self, why):
        self.close()
        self.told(self.number, f"its journal isn't written any more: {why}; a kill of this tool loses what is played from here on", ERROR)

    def close(self):
        if self.file:
            self.file.close()
            self.file = None

    def remove(self):
        self.close()
        for path in (self.path, self.path + ".new"):
            if os.path.exists(path):
                os.remove(path)


def lines_in(path, head):
    """The lines of a journal behind its head, which is to be this one. What a kill cut off, it lacks."""
    try:
        with open(path, encoding="ascii") as file:
            lines = file.read().split("\n")[:-1]
    except OSError as fault:
        raise Wrong(f"{path}: {fault.strerror}")
    except UnicodeDecodeError:
        raise Wrong(f"{path}: it is no journal")
    if lines[:len(head)] != head:
        raise Wrong(f"{path}: it is no journal of this match" + (" without --endless" if lines[:1] == ["tss live 2"] else ""))
    return lines[len(head):]


async def replayed(room, path):
    """Begins the mirror and brings it to where its journal ends. The commands that it was told or gave, in order."""
    lines, commands = lines_in(path, [room.process.head, *room.process.setup]), []
    await room.process.begin()
    for first in range(0, len(lines), 256):
        part = lines[first:first + 256]
        for line, answer in zip(part, await room.process.ask(*part)):
            commands += room.take(line, answer)
    return commands
