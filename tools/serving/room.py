"""One mirror with its players, what comes to it, and its turns."""

import asyncio
import re

from match_lines import Wrong

from .log import ERROR, WARNING
from .mirror_process import Died, MirrorProcess

OWN = re.compile(r"cmd (\d+ \d \d+ \d+ \w+)")
MOST_LINES = 256  # that are handed in together


class Room:
    """A mirror that is ticked. Between two turns its players act and links bring commands; each turn hands all of them in."""

    HEAD, MOST_OWN_A_TICK, MOST_TRIES, PAUSE = "tss live 1", 64, 6, 0.25

    def __init__(self, program, number, match, told):
        self.number, self.match, self.told = number, match, told
        self.mirrors, self.length = match.numbers("mirrors")[0], match.numbers("length")[0]
        self.delays = match.numbers("delays")
        self.last_delay = min(int(words[-1]) for words in [self.delays, *match.lines_of("plan")])
        self.process = MirrorProcess(program, number, self.HEAD, match.setup + ["end"])
        self.out, self.tokens, self.bots, self.beside = {}, {}, [], {number: self}
        self.clock, self.start, self.plan, self.wants = 0, None, 0, False
        self.acts, self.heard, self.olds, self.olds_from = [], [], set(), set()
        self.commands, self.script, self.notes, self.restarts, self.tries = {}, [], [], 0, 0
        self.back_at, self.is_held, self.is_closed, self.has_left = 0, False, False, False
        self.giving = None  # the clock at which own commands were handed in that aren't answered yet

    def say(self, text, *given, **named):
        self.told(self.number, text, *given, **named)

    def set_start(self, at):
        """The time of tick 0 as mirror 0 has set it."""
        self.start = at
        for link in self.out.values():
            link.tell_start()

    # ---- what links bring

    def hear(self, command):
        if not self.has_left:
            self.heard.append(command)

    def hear_old(self, command):
        self.olds.add(command)

    def heard_olds(self, other):
        self.olds_from.add(other)

    async def accepted(self):
        """The commands that the mirror was told and gave, for one that begins anew."""
        return list(self.commands.values())

    # ---- players

    def act(self, player, act):
        """Whether the act is taken: at most so many come in a tick, and none once the session is over."""
        if self.is_closed or self.is_over() or len(self.acts) >= self.MOST_OWN_A_TICK:
            return False
        self.acts.append((player, act))
        return True

    async def close_acts(self, clock):
        """At the end: what was taken until now is handed in at this clock at the earliest, and nothing is taken any more."""
        self.is_closed, self.is_held = True, False
        while self.acts and not self.is_over():
            try:
                await self.catch_up(clock)
                await self.make_turn(())
            except Died as died:
                await self.come_back(died)
        self.acts = []

    # ---- turns

    async def turn(self, looks=()):
        """Hands in what came, makes a turn, and answers the blocks of the copies that are looked at."""
        try:
            blocks = await self.make_turn(looks)
        except Died as died:
            await self.come_back(died)
            return {}
        self.tries = 0
        return blocks

    async def make_turn(self, looks):
        acts, self.acts = ([], self.acts) if self.is_held else (self.acts, [])
        heard, self.heard = self.heard, []
        lines = [f"own {player} {act}" for player, act in acts] + [f"cmd {command}" for command in heard] + ["turn"]
        lines += [f"world {copy}" for copy in looks]
        self.giving = self.clock if acts else None
        try:
            answers = await self.process.ask(*lines)
        except Died:
            self.acts, self.heard = acts + self.acts, heard + self.heard
            raise
        finally:
            self.giving = None
        for answer in answers[:len(acts)]:
            self.take_own(answer)
        for command, answer in zip(heard, answers[len(acts):]):
            self.take_heard(command, answer)
        turn = len(acts) + len(heard)
        self.turned(answers[turn].lines)
        return {copy: answer.lines for copy, answer in zip(looks, answers[turn + 1:])}

    def turned(self, lines):
        self.clock += 1
        self.enter(f"turn {self.number}")
        self.notes += lines

    def enter(self, line):
        self.script.append((next(self.told.counter), line))

    def take_own(self, answer):
        for line in answer.lines:
            found = OWN.fullmatch(line)
            if found:
                self.keep(found.group(1))
                for link in self.out.values():
                    link.put(found.group(1))
            else:
                self.notes.append(line)
        if answer.refusal:
            self.notes.append(answer.refusal)
            self.say(f"what a player did is refused: {answer.refusal}", WARNING, key="refused")

    def take_heard(self, command, answer):
        if answer.refusal:
            self.notes.append(f"{answer.refusal}: cmd {command}")
            self.say(f"a command is refused: {answer.refusal}: cmd {command}", WARNING, key="refused")
            return
        self.keep(command)
        self.notes += answer.lines
        if any(line.startswith("late ") for line in answer.lines):
            self.say(f"a command came late and is turned away: cmd {command}", WARNING, key="late")

    def keep(self, command):
        words = command.split(" ")
        self.commands.setdefault((int(words[1]), int(words[2])), command)
        self.enter(f"arrive {self.number} {words[1]} {words[2]}")

    def take(self, line, answer):
        """Takes what a line of a journal is answered. The commands in it."""
        word, _, rest = line.partition(" ")
        if word == "own":
            self.take_own(answer)
            return [found.group(1) for found in map(OWN.fullmatch, answer.lines) if found]
        if word == "turn":
            self.turned(answer.lines)
        elif word == "restagger" and answer.refusal is None:
            self.plan = int(rest)
        elif word == "cmd":
            self.take_heard(rest, answer)
        return [rest] if word == "cmd" else []

    async def hand_in(self):
        """Hands in what links brought, without a turn."""
        while self.heard:
            heard, self.heard = self.heard[:MOST_LINES], self.heard[MOST_LINES:]
            try:
                answers = await self.process.ask(*[f"cmd {command}" for command in heard])
            except Died:
                self.heard = heard + self.heard
                raise
            for command, answer in zip(heard, answers):
                self.take_heard(command, answer)

    async def catch_up(self, clock):
        """Turns up to this clock. Nobody acts in these ticks."""
        while self.clock < clock and not self.is_over():
            await self.hand_in()
            for answer in await self.process.ask(*["turn"] * min(MOST_LINES, clock - self.clock)):
                self.turned(answer.lines)

    # ---- a mirror that died

    async def come_back(self, died):
        """Begins the mirror anew, up to where it was. One that dies so many times before it makes a turn leaves the session."""
        clock = self.back_at = self.clock
        while self.tries < self.MOST_TRIES:
            self.tries, self.restarts = self.tries + 1, self.restarts + 1
            self.say(f"the mirror {died}, and is begun anew", WARNING, key="begun anew")
            try:
                await self.begin_again(clock)
                return
            except (Died, Wrong) as again:
                died = again
                await asyncio.sleep(self.PAUSE * self.tries)
        self.leave(died)

    def leave(self, died):
        self.has_left, self.acts, self.heard = True, [], []
        self.say(f"the mirror {died}, {self.tries} times in turn, and has left the session", ERROR)

    async def begin_again(self, clock):
        """The mirror is handed the commands that all mirrors of this machine and, over links, of others have, and is turned up to
        where it was. What its players did meanwhile is handed in once it is there."""
        await self.process.stop()
        self.clock, self.script = 0, []
        await self.process.begin()
        known = await self.known()
        self.heard = known + self.heard
        await self.hand_in()
        if self.plan:
            await self.process.ask(f"restagger {self.plan}")
            self.enter(f"restagger {self.number} {self.plan}")
        await self.catch_up(clock)
        self.notes = [note for note in self.notes if not note.startswith(("repair ", "repeat "))]
        if self.process.journal:
            self.process.journal.in_place()
        self.say(f"the mirror is back at tick {self.clock} with {len(known)} commands", key="is back")

    async def known(self):
        """All commands that mirrors have, its own first, each mirror's in order."""
        self.olds, self.olds_from = {command for room in self.beside.values() for command in room.commands.values()}, set()
        if len(self.beside) < self.mirrors:
            await self.ask_others()
        return sorted(self.olds, key=lambda command: (int(command.split(" ")[1]) != self.number, *map(int, command.split(" ")[1:3])))

    async def ask_others(self, seconds=3):
        self.wants = True
        for link in self.out.values():
            link.again()
        for _ in range(int(seconds / 0.05)):
            if len(self.olds_from) == len(self.out):
                break
            await asyncio.sleep(0.05)
        self.wants = False

    async def restagger(self, plan):
        answer = (await self.process.ask(f"restagger {plan}"))[0]
        if answer.refusal is None:
            self.plan = plan
            self.enter(f"restagger {self.number} {plan}")
        return answer.refusal

    def reached(self):
        """Its clock, or, while it is begun anew, the one that it comes back to."""
        return max(self.clock, self.back_at)

    def is_over(self):
        return self.has_left or self.clock >= self.length

    async def end(self):
        """What its end tells: repair lines, and from the `log` line on what a record has of a mirror. None of one that has left."""
        while not self.has_left:
            try:
                await self.hand_in()
                return (await self.process.ask("end", patience=self.process.END_PATIENCE))[0].lines
            except Died as died:
                await self.come_back(died)
        return None
