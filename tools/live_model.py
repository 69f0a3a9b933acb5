"""A slow plain model of `tss_mirror`, written from docs/FORMATS.md over `slow_model.py`: of "The text of a live mirror", and of
"The text of a mirror without an end".

`slow_live.py` compares the built program with it. The head is read by the slow reader of `broken_texts.py`.
"""

from broken_texts import CAUSES, END, HEAD, LONG, MANY, NAME, NUMBER, SHAPE, Fault, Reader, number
from slow_model import BEAT, Arena, Match, Mirror, arrival_lines, beats, ordered, repairs_of, world_of

LONGEST_LINE = 120
LAST_NUMBER, LAST_TICK = 999_999, 2**32 - 1
USAGE = b"usage: tss_mirror M\n"


def text(lines):
    return "".join(line + "\n" for line in lines).encode()


def refused(line, cause):
    return f"refused line {line} cause {cause} {CAUSES[cause]}"


def command_line(x):
    return "cmd %d %d %d %d %s" % x


def room_of(match):
    """How many commands a match of the version may have."""
    return 16_384 if match.version == 1 else 32_768


class Head(Reader):
    """A reader of a match text that keeps the lines that a match is made of."""

    def __init__(self):
        super().__init__()
        self.pickup_lines, self.player_lines = [], []

    def take_pickup(self, w):
        super().take_pickup(w)
        self.pickup_lines.append((int(w[0]), int(w[1]), w[2]))

    def take_player(self, w):
        super().take_player(w)
        self.player_lines.append((w[0], int(w[1]), int(w[2]), w[3]))

    def match(self):
        plans = [self.delay, *self.plans]
        return Match(self.ticks, (self.width, self.height), self.mirror_count, plans, 0, {(x, y) for y, x in self.walls},
                     self.pickup_lines, self.player_lines, [], [], self.version)


class Live:
    """One live mirror: `feed` answers bytes, `close` the end of the input; `status` is None while it goes on."""

    def __init__(self, name):
        self.name, self.at, self.begun, self.status = name, 0, b"", None
        self.head, self.kind, self.asked = Head(), None, None

    def feed(self, piece):
        *lines, self.begun = (self.begun + piece).split(b"\n")
        return text([told for line in lines for told in self.line(line)])

    def close(self):
        if self.status is not None:
            return b""
        if self.asked is None:
            self.status = 5
            return text([refused(self.at + 1, LONG if len(self.begun) > LONGEST_LINE else END)])
        self.status = 0
        return text([refused(self.at + 1, END)] if self.begun else [])

    def line(self, raw):
        if self.status is not None:
            return []
        self.at = min(self.at + 1, 2**32 - 2)
        try:
            if len(raw) > LONGEST_LINE:
                raise Fault(LONG)
            return self.head_line(raw) if self.asked is None else self.request(raw)
        except Fault as fault:
            if self.asked is None:
                self.status = 5
            return [refused(self.at, fault.cause)]

    def head_line(self, raw):
        if self.at == 1:
            self.kind = {b"tss live 1": Asked, b"tss live 2": AskedWithoutEnd}.get(raw)
            if self.kind is None:
                raise Fault(HEAD)
            return []
        self.head.line(self.at - 1, raw)
        if self.head.stage != "ended":
            return []
        if self.name >= self.head.mirror_count:
            raise Fault(NUMBER)
        self.asked = self.kind(self.name, self.head.match())
        return ["ok"]

    def request(self, raw):
        told = self.asked.request(raw)
        if told[-1] == "done":
            self.status = 0
        return told


class Asked:
    """A mirror of a match, behind its head: what each request is answered."""

    forms = {"own": 2, "cmd": 5, "tick": 0, "turn": 0, "step": 1, "restagger": 1, "world": 1, "run": 1, "commands": 0, "end": 0}

    def __init__(self, name, match):
        self.name, self.match, self.mirror = name, match, Mirror(match, lambda: Arena(match))
        self.next, self.room, self.changes, self.log = 0, room_of(match), 1_024, []

    def request(self, raw):
        words = raw.split(b" ")
        if any(not w or any(not 33 <= b <= 126 for b in w) for w in words):
            raise Fault(SHAPE)
        word, *rest = [w.decode("ascii") for w in words]
        acts = ("go", "left", "right", "shoot") + (("dash",) if self.match.version == 2 else ())
        if self.forms.get(word) != len(rest) or (word in ("own", "cmd") and rest[-1] not in acts):
            raise Fault(SHAPE)
        self.check_room(word)
        told = getattr(self, "ask_" + word)(*rest)
        return told + ["done" if word == "end" else "ok"]

    def check_room(self, word):
        if word in ("own", "cmd") and self.room == 0 or word == "own" and self.next == 1_000_000 or word == "restagger" and self.changes == 0:
            raise Fault(MANY)

    def player(self, word):
        player = number(word, 0, 15 if self.match.version == 1 else 31)
        return player

    def is_there(self, player):
        if player >= len(self.match.players):
            raise Fault(NAME)

    def copy(self, word):
        return number(word, 0, len(self.match.plans[0]) - 1)

    def end_of_time(self):
        """The tick before which the commands of others and of its own are due."""
        return self.match.length

    def arrive(self, x):
        answer = self.mirror.arrive(x)
        if x[1] == self.name:
            self.next = max(self.next, x[2] + 1)
        if answer[0] != "repeat":
            self.room -= 1
            self.log.append("arrive %d %d" % x[1:3])
        return arrival_lines(self.name, x, answer)

    def ask_own(self, player, act):
        player = self.player(player)
        self.is_there(player)
        if self.mirror.clock >= self.end_of_time():
            return [f"over {self.name}"]
        x = (self.mirror.clock, self.name, self.next, player, act)
        self.arrive(x)
        return [command_line(x)]

    def ask_cmd(self, time, sender, name, player, act):
        time, sender = number(time, 0, self.end_of_time() - 1), number(sender, 0, self.match.mirrors - 1)
        x = (time, sender, number(name, 0, LAST_NUMBER), self.player(player), act)
        self.is_there(x[3])
        return self.arrive(x)

    def ask_tick(self):
        if not self.mirror.tick():
            return [f"over {self.name}"]
        self.log.append("tick")
        return []

    def step(self, copy):
        repaired = self.mirror.step(copy)
        if repaired is not None:
            self.log.append(f"step {copy}")
        return repaired

    def steps(self):
        return repairs_of(self.name, [r for r in map(self.step, range(len(self.mirror.runs))) if r])

    def ask_turn(self):
        self.ask_tick()
        return self.steps()

    def ask_step(self, copy):
        copy = self.copy(copy)
        repaired = self.step(copy)
        return [f"idle {self.name} {copy}"] if repaired is None else repairs_of(self.name, [repaired] if repaired else [])

    def ask_restagger(self, plan):
        self.mirror.plan = number(plan, 0, len(self.match.plans) - 1)
        self.changes -= 1
        self.log.append(f"restagger {self.mirror.plan}")
        return []

    def block(self, copy):
        return self.mirror.block(f"world {self.name} {copy} {beats(self.mirror.runs[copy])}", copy)

    def ask_world(self, copy):
        return self.block(self.copy(copy))

    def ask_run(self, copy):
        copy = self.copy(copy)
        return [f"run {self.name} {copy}:" + "".join(" |" if item is BEAT else f" {item[1]}.{item[2]}" for item in self.mirror.runs[copy])]

    def ask_commands(self):
        return [command_line(x) for x in self.mirror.accepted]

    def ask_end(self):
        lines = []
        while any(beats(run) < self.match.length for run in self.mirror.runs):
            lines += self.ask_turn()
        lines += [self.mirror.line(f"mirror {self.name}"), f"log {self.name} {len(self.log)}", *self.log]
        for copy in range(len(self.mirror.runs)):
            lines += self.block(copy)
        return lines


class RollingMirror(Mirror):
    """A mirror of a session without an end. All that its copies ran is kept here; what the program forgets is forgotten too: `remembered`
    has the commands whose names it knows, by name, and `base` is the tick at which its window begins."""

    def __init__(self, match, opening):
        super().__init__(match, opening)
        self.window, self.keep, self.room, self.base, self.remembered = match.length, match.length // 4, room_of(match), 0, {}

    def tick(self):
        passed, is_full = beats(self.runs[-1]) - self.base, self.clock + 1 == self.base + self.window
        if passed == 0 and is_full or self.clock == LAST_TICK:
            return False
        if passed > 0 and (passed >= self.keep or is_full or len(self.remembered) == self.room):
            self.base += passed
            self.remembered = {name: x for name, x in self.remembered.items() if x[0] >= self.base}
        self.clock += 1
        return True

    def arrive(self, x):
        """What it is answered: `repeat`, the bound of a late one, the end of the window, or how many copies were repaired."""
        if x[1:3] in self.remembered:
            return "repeat", 0
        bound, end = beats(self.runs[-1]), self.base + self.window
        if not bound <= x[0] < end:
            return ("late", bound) if x[0] < bound else ("far", end)
        self.accepted.append(x)
        self.remembered[x[1:3]] = x
        return "taken", self.settle([run + [x] if beats(run) > x[0] else list(run) for run in self.runs])

    def limit(self, copy):
        own = max(0, self.clock - self.match.plans[self.plan][copy])
        return min(own, beats(self.runs[copy - 1])) if copy else own


class AskedWithoutEnd(Asked):
    """A mirror of a session without an end, behind its head."""

    def __init__(self, name, match):
        super().__init__(name, match)
        if any(plan[-1] + 2 > match.length for plan in match.plans):
            raise Fault(NUMBER)
        self.mirror = RollingMirror(match, lambda: Arena(match))

    def check_room(self, word):
        remembered = self.mirror.remembered
        if word in ("own", "cmd") and len(remembered) == self.room or word == "own" and (self.name, self.next) in remembered:
            raise Fault(MANY)

    def end_of_time(self):
        return LAST_TICK

    def arrive(self, x):
        kind, value = self.mirror.arrive(x)
        if x[1] == self.name and (x[2] - self.next) % (LAST_NUMBER + 1) < (LAST_NUMBER + 1) // 2:
            self.next = 0 if x[2] == LAST_NUMBER else x[2] + 1
        return [f"far {self.name} {x[1]} {x[2]} {value}"] if kind == "far" else arrival_lines(self.name, x, (kind, value))

    def ask_turn(self):
        return self.ask_tick() + self.steps()

    def ask_run(self, copy):
        """Only the end of a run is remembered, so these words are no form here; a copy that isn't there is refused as elsewhere."""
        self.copy(copy)
        raise Fault(SHAPE)

    def ask_commands(self):
        return [command_line(x) for x in self.mirror.remembered.values()]

    def ask_end(self):
        last, remembered = len(self.mirror.runs) - 1, self.ask_commands()
        base = world_of(self.mirror.opening, ordered(self.mirror.accepted, 0, self.mirror.base))
        head = [f"base {self.name} {self.mirror.base}", f"world {self.name} {last} {self.mirror.base}"]
        return [*head, *base.lines(), f"log {self.name} {len(remembered)}", *remembered, *self.block(last)]


def run(words, given):
    """The status and all that is told, of a run of the program on an input."""
    if len(words) != 1 or words[0] not in list("01234567"):
        return 2, USAGE
    live = Live(int(words[0]))
    told = live.feed(given)
    told += live.close()
    return live.status, told
