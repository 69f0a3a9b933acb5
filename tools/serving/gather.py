"""What was played, put together of what sessions kept in folders: mirrors that ran alone, or a session whose tool was killed.

A mirror that ended has a file `ended` there: `match DIGEST`, a `cmd` line for each command that came to it, and what it told at its
end (without an end, `mirrorM.base`). One that didn't end has a journal, which is played again; what the others' commands it lacks
then comes to it, as the links would have brought it.
"""

import hashlib
import os
import re

from match_lines import Wrong

from .endless import EndlessRoom, PlayedWithoutEnd, name_of as base_name_of
from .journal import name_of, replayed, write_lines
from .log import Told
from .mirror_process import Died
from .played import Played
from .room import Room
from .wire import COMMAND


def digest_of(match):
    return hashlib.sha256("\n".join(match.setup).encode("ascii")).hexdigest()


def write_ended(folder, match, commands, told):
    write_lines(folder, "ended", [f"match {digest_of(match)}"] + [f"cmd {command}" for command in commands] + told)


def lines_of(path):
    try:
        with open(path, encoding="ascii") as file:
            lines = file.read().split("\n")
    except OSError as fault:
        raise Wrong(f"{path}: {fault.strerror}")
    except UnicodeDecodeError:
        raise Wrong(f"{path}: it isn't ASCII")
    if lines[-1] or len(lines) < 2:
        raise Wrong(f"{path}: it is empty, or cut off")
    return lines[:-1]


def read_ended(match, folder):
    """The mirror, its commands, and what it told, of a file `ended`."""
    path = os.path.join(folder, "ended")
    lines = lines_of(path)
    if lines[0] != f"match {digest_of(match)}":
        raise Wrong(f"{path}: it is of no mirror of this match")
    cut = next((at for at, line in enumerate(lines[1:], 1) if not line.startswith("cmd ")), len(lines))
    bad = next((line for line in lines[1:cut] if not COMMAND.fullmatch(line[4:])), None)
    if bad is not None:
        raise Wrong(f"{path}: '{bad[:60]}' is no command")
    told = lines[cut:]
    number = next((int(line.split(" ")[1]) for line in told if re.fullmatch(r"mirror \d accepted \d+ turned \d+ repairs \d+", line)), None)
    last = len(match.numbers("delays")) - 1
    if number is None or not is_log(told, number) or not any(re.fullmatch(rf"world {number} {last} \d+", line) for line in told):
        raise Wrong(f"{path}: it isn't what a mirror tells at its end")
    return number, [line[4:] for line in lines[1:cut]], told


def is_log(told, number):
    """Whether a log of this mirror stands there with as many events as it says."""
    at = next((at for at, line in enumerate(told) if line.startswith("log ")), None)
    found = at is not None and re.fullmatch(rf"log {number} (\d{{1,6}})", told[at])
    if not found:
        return False
    events = told[at + 1:at + 1 + int(found.group(1))]
    return len(events) == int(found.group(1)) and all(re.fullmatch(r"tick|arrive \d \d{1,6}|step \d|restagger \d", line) for line in events)


def journals_in(match, folders):
    """The journals that lie there, by their mirrors."""
    found = {}
    for folder in folders:
        for number in range(match.numbers("mirrors")[0]):
            path = os.path.join(folder, name_of(number))
            if os.path.exists(path):
                if number in found:
                    raise Wrong(f"{folder}: {found[number]} is of mirror {number} too")
                found[number] = path
    return found


def ended_in(match, folders):
    found = {}
    for folder in folders:
        if not os.path.isdir(folder):
            raise Wrong(f"{folder}: no such folder")
        if os.path.exists(os.path.join(folder, "ended")):
            number, commands, told = read_ended(match, folder)
            if number in found:
                raise Wrong(f"{folder}: it is of mirror {number}, as another folder")
            found[number] = commands, told
        elif not journals_in(match, [folder]):
            raise Wrong(f"{folder}: neither 'ended' nor a journal is there")
    return found


async def played_again(kind, match, program, journals, others):
    """The mirrors of these journals, each with all commands that it and the others were told or gave."""
    rooms = {number: kind(program, number, match, Told(quiet=True)) for number in journals}
    had = {}
    for number, path in journals.items():
        try:
            had[number] = dict.fromkeys(await replayed(rooms[number], path))
        except Died as died:
            raise Wrong(f"{path}: the mirror {died} while it was played again")
    for number, room in rooms.items():
        known = dict.fromkeys([*others, *[command for commands in had.values() for command in commands]])
        room.heard += [command for command in known if command not in had[number]]
    return rooms


async def gathered(match, program, folders):
    ended = ended_in(match, folders)
    journals = {number: path for number, path in journals_in(match, folders).items() if number not in ended}
    others = [command for commands, _ in ended.values() for command in commands]
    rooms = await played_again(Room, match, program, journals, others)
    told = {number: lines for number, (_, lines) in ended.items()}
    told.update({number: await room.end() for number, room in rooms.items()})
    for room in rooms.values():
        await room.process.stop()
    commands = others + [command for room in rooms.values() for command in room.commands.values()]
    if not set(told) >= set(range(match.numbers("mirrors")[0])) and not journals:
        raise Wrong(f"--gather wants a folder for each mirror; there are those of {sorted(told)}")
    return Played(match, {number: lines for number, lines in sorted(told.items()) if lines is not None}, commands, [])


async def gathered_without_end(match, program, folders):
    """Mirrors that ended are compared at their first end; those of journals are brought to the tick of the last of them."""
    played = PlayedWithoutEnd(match, {}, [])
    for number in range(match.numbers("mirrors")[0]):
        path = next((path for path in (os.path.join(folder, base_name_of(number)) for folder in folders) if os.path.exists(path)), None)
        if path:
            played.texts[number] = lines_of(path)
            if played.texts[number][:len(match.setup)] != match.setup:
                raise Wrong(f"{path}: it is of no mirror of this match")
    journals = {number: path for number, path in journals_in(match, folders).items() if number not in played.texts}
    rooms = await played_again(EndlessRoom, match, program, journals, [])
    tick = max((room.clock for room in rooms.values()), default=0)
    for number, room in rooms.items():
        await room.run_up_to(tick)
        played.texts[number] = match.setup + ["end"] + await room.end()
        await room.process.stop()
    played.left = [number for number in range(match.numbers("mirrors")[0]) if number not in played.texts]
    if not played.texts:
        raise Wrong(f"--gather finds no '{base_name_of(0)}' there, nor of another mirror")
    return played
