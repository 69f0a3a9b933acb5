"""A session without an end: its mirrors forget what lies behind their last copies, so what they told is no record of all.

A mirror that dies can't be begun anew, since nobody has what was forgotten: it leaves the session, and the others go on. At the end
the last copies of all that are there are brought to one tick, and what each tells is audited (`audit_base.py`).
"""

import asyncio
import heapq
import re

from audit_base import BaseText, Unreadable

from .clock import now
from .journal import write_lines
from .log import ERROR, WARNING
from .mirror_process import Died
from .played import counted
from .room import MOST_LINES, Room
from .session import Session

NO_ROOM = re.compile(r"refused line \d+ cause 7 many")


def time_of(command):
    return int(command.split(" ", 1)[0])


class EndlessRoom(Room):
    """A mirror that remembers a window of ticks. `far` and `full` are heaps, by time, of commands that are handed in again: the window
    didn't reach them yet, or there was no room for them until the mirror forgets."""

    HEAD, MOST_KEPT, WINDOWS_SENT = "tss live 2", 65_536, 2

    def __init__(self, *given):
        super().__init__(*given)
        self.plans = [self.delays] + [[int(word) for word in words] for words in self.match.lines_of("plan")]
        self.far, self.full, self.last_tick = [], [], None

    def is_over(self):
        return self.has_left or (self.last_tick is not None and self.clock >= self.last_tick)

    def keep(self, command):
        pass

    def enter(self, line):
        pass

    async def accepted(self):
        try:
            return [line[4:] for line in (await self.process.ask("commands"))[0].lines]
        except Died:
            return []

    async def come_back(self, died):
        """It can't. Its links still bring what it told."""
        self.leave(died)

    def leave(self, died):
        self.has_left, self.acts, self.heard, self.far, self.full = True, [], [], [], []
        self.say(f"the mirror {died}, and has left the session; what it had told nobody is lost", ERROR)

    async def make_turn(self, looks):
        self.hear_again()
        blocks = await super().make_turn(looks)
        if self.clock % 256 == 0:
            self.give_up_old()
        return blocks

    def turned(self, lines):
        self.clock += f"over {self.number}" not in lines
        self.notes += lines

    def hear_again(self):
        """What is due by now the window reaches, and so much as is handed in together of what there was no room for."""
        while self.far and self.far[0][0] <= self.clock:
            self.heard.append(heapq.heappop(self.far)[1])
        self.heard += [heapq.heappop(self.full)[1] for _ in self.full[:MOST_LINES]]

    def take_heard(self, command, answer):
        if answer.refusal is not None and NO_ROOM.fullmatch(answer.refusal):
            self.keep_for_later(self.full, command, "commands for which there is no room")
        elif any(line.startswith("far ") for line in answer.lines):
            self.keep_for_later(self.far, command, "commands far ahead")
        else:
            super().take_heard(command, answer)

    def keep_for_later(self, heap, command, which):
        if len(heap) < self.MOST_KEPT:
            heapq.heappush(heap, (time_of(command), command))
        else:
            self.notes.append(f"turned away: cmd {command}")
            self.say(f"{which} are turned away: there are too many", WARNING)

    def give_up_old(self):
        """What couldn't be brought for two windows comes late wherever it comes."""
        for link in self.out.values():
            old = [at for at, (command, _) in link.waiting.items() if time_of(command) < self.clock - self.WINDOWS_SENT * self.length]
            for at in old:
                del link.waiting[at]
            if old:
                self.say(f"{len(old)} commands to mirror {link.other} are given up: they are {self.WINDOWS_SENT} windows old", WARNING)

    # ---- the end

    async def run_up_to(self, tick):
        """Turns until the last copy has run all ticks before this one, which the clock has reached at most, and none from there on."""
        last = len(self.delays) - 1
        self.acts = []
        self.hear_again()
        await self.hand_in()
        while self.clock < tick + self.plans[self.plan][-1]:
            await self.make_turn(())
        # behind a change of delays a last copy may stand further back than its delay
        while (await self.process.ask(*[f"step {copy}" for copy in range(last + 1)]))[-1].lines != [f"idle {self.number} {last}"]:
            pass

    async def end(self):
        """What its end tells, from `base` on."""
        return (await self.process.ask("end", patience=self.process.END_PATIENCE))[0].lines + ["done"]


class EndlessSession(Session):
    """Mirrors of `tss live 2`, ticked until somebody ends them."""

    ROOM, LATE_FOR = EndlessRoom, "its first window"

    def length(self):
        return None

    def there(self):
        return [room for _, room in sorted(self.rooms.items()) if not room.has_left]

    def left(self):
        return [number for number, room in sorted(self.rooms.items()) if room.has_left]

    async def run(self, seconds, stop):
        """The seconds are those of the session, so that mirrors of several machines end at one tick."""
        for room in self.rooms.values():
            room.last_tick = None if seconds is None else seconds * self.rate
        await super().run(None, stop)

    def most_behind(self, room):
        return room.length

    async def finish(self):
        """Brings the last copies of all mirrors that are there to one tick, and ends them. What each told."""
        tick = max((room.clock for room in self.there()), default=0)
        if len(self.rooms) == 1:
            await self.run_out(tick)
        await self.settle()
        told = {}
        for room in self.there():
            try:
                await room.run_up_to(tick)
                told[room.number] = await room.end()
            except Died as died:
                room.leave(died)
        await self.close()
        return told

    async def run_out(self, tick):
        """A mirror that runs alone goes on at the rate, without players, until what others sent before the tick has come or comes late."""
        for room in self.there():
            room.acts = []
            while not room.has_left and room.clock < tick + room.plans[room.plan][-1]:
                await asyncio.sleep(max(0.0, (room.start or now()) + room.clock / self.rate - now()))
                await room.turn()


class PlayedWithoutEnd:
    """What mirrors of a session without an end told at its end."""

    def __init__(self, match, told, left):
        self.left, self.texts = left, {number: match.setup + ["end"] + lines for number, lines in told.items()}

    @staticmethod
    def of(session, told):
        return PlayedWithoutEnd(session.match, told, session.left())

    def missing(self):
        return self.left

    def write(self, folder):
        for number, lines in self.texts.items():
            write_lines(folder, name_of(number), lines)

    def verdict(self, tss=None):
        """One line on what mirrors told, and whether all is as it should be. They are compared at the first tick at which one of them
        ended: each of the others is executed from its base up to there."""
        said, is_right = self.judged()
        return "; ".join([said] + [f"mirror {number} has left" for number in self.left]), is_right

    def judged(self):
        try:
            bases = [BaseText(lines) for _, lines in sorted(self.texts.items())]
        except Unreadable as why:
            return f"what a mirror told can't be read: {why}", False
        wrong = [verdict for verdict, is_legal in (base.verdict() for base in bases) if not is_legal]
        if wrong or not bases:
            return "; ".join(wrong) or "no mirror is there", False
        tick, ticks = min(base.time for base in bases), sorted(base.base for base in bases)
        if ticks[-1] > tick:
            return "the mirrors have no tick in common", False
        is_one = len({tuple(base.world_at(tick)) for base in bases}) == 1
        said = "one world" if is_one else f"different worlds ({reasons(bases, ticks[-1], tick)})"
        numbers = ", ".join(str(base.mirror) for base in bases)
        who, shown = (f"mirror {numbers}", "shows its world") if len(bases) == 1 else (f"mirrors {numbers}", f"show {said}")
        base = f"tick {ticks[0]}" if ticks[0] == ticks[-1] else f"ticks {ticks[0]} to {ticks[-1]}"
        return f"{who} {shown} at tick {tick}, which follows from the base at {base}", is_one


def reasons(bases, first, last):
    """Which commands of the ticks that all remember which mirror lacks."""
    held = {base.mirror: {command for command in base.commands if first <= command[0] < last} for base in bases}
    union, found = set().union(*held.values()), []
    for mirror, commands in held.items():
        lacks = [" ".join(map(str, command)) for command in sorted(union - commands)]
        found += [f"mirror {mirror} lacks {counted(lacks)}"] if lacks else []
    return "; ".join(found) or f"what parted them lies before tick {first}, and is forgotten"


def name_of(number):
    return f"mirror{number}.base"
