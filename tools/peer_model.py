"""A slow plain model of a peer: a mirror of a session without an end, with its links and without a socket.

`slow_peers.py` checks with it what a peer promises, over drawn nets. Whole lists, and nothing kept that can be made anew: a mirror
remembers all that arrived and its whole runs; what a peer forgot is told by `base` and `forgotten` alone. Times are ticks of the
session; a number counts the commands of a slot from 0.
"""

from dataclasses import dataclass, field

LIMIT = 2**32 - 1
PART_HEAD = 11
FIELDS = {"KIND": 1, "SESSION": 2, "ENDS": 3, "HEAD": 4, "VECTOR": 5, "MARK": 6, "PART": 7, "COMMAND": 8, "REST": 9}
GAP, STOP_FAR, STOP_FULL = 1, 2, 4
BEAT = None

Command = tuple[int, bytes]
Answer = tuple[str, int, int]
Item = tuple[int, int, int] | None


class Refused(Exception):
    """A call that is refused, with its answer; it changes nothing."""

    def __init__(self, kind: str, other: int = 0, value: int = 0):
        super().__init__(kind)
        self.answer = (kind, other, value)


def malformed(name: str) -> Refused:
    return Refused("MALFORMED", 0, FIELDS[name])


def need(holds: bool, refusal: Refused) -> None:
    if not holds:
        raise refusal


@dataclass
class Config:
    """What a peer is made with; `plans` are delays of its copies, the first in force."""

    session: int
    slots: int
    payload: int
    plans: list[list[int]]
    window: int
    keep: int
    relay: int
    room: int

    @property
    def longest(self) -> int:
        return max(plan[-1] for plan in self.plans)

    def is_legal(self) -> bool:
        rising = all(all(a < b for a, b in zip(plan, plan[1:])) and plan[-1] <= 1024 for plan in self.plans if plan)
        copies = {len(plan) for plan in self.plans}
        return (0 <= self.session < 2**64 and 2 <= self.slots <= 64 and 0 <= self.payload <= 64 and 1 <= len(self.plans) <= 8
                and len(copies) == 1 and 1 <= max(copies) <= 8 and rising and self.keep >= 1
                and self.longest + self.keep + 2 <= self.window <= 8192 and 0 <= self.relay <= LIMIT and 1 <= self.room <= 16384)


# ---- the mirror

def beats(run: list[Item]) -> int:
    return run.count(BEAT)


class Mirror:
    """A mirror that remembers all that arrived from `begin` on, and knows what its window would have forgotten."""

    def __init__(self, config: Config, begin: int):
        self.config, self.begin, self.base, self.clock, self.plan = config, begin, begin, begin, 0
        self.accepted: list[tuple[int, int, int]] = []
        self.turned: list[tuple[int, int, int]] = []
        self.runs: list[list[Item]] = [[] for _ in config.plans[0]]
        self.forgotten = 0

    def at(self, copy: int) -> int:
        """A copy's clock, as a tick of the session."""
        return self.begin + beats(self.runs[copy])

    @property
    def last(self) -> int:
        return self.at(len(self.runs) - 1)

    @property
    def end(self) -> int:
        return self.base + self.config.window

    def ordered(self, start: int, end: int) -> list[Item]:
        items: list[Item] = []
        for tick in range(start, end):
            items += sorted(x for x in self.accepted if x[0] == tick) + [BEAT]
        return items

    def settle(self, runs: list[list[Item]]) -> int:
        """From the last copy to the first, a run that doesn't begin with the one behind it is made anew; answers how many."""
        repaired = 0
        for c in range(len(runs) - 2, -1, -1):
            if runs[c][:len(runs[c + 1])] != runs[c + 1]:
                runs[c] = runs[c + 1] + self.ordered(self.begin + beats(runs[c + 1]), self.begin + beats(runs[c]))
                repaired += 1
        self.runs = runs
        return repaired

    def room(self) -> int:
        remembered = sum(1 for x in self.accepted if x[0] >= self.base)
        return self.config.slots * self.config.room - remembered

    def arrive(self, x: tuple[int, int, int]) -> tuple[str, int]:
        """(time, from, number) arrives: `late`, `far`, `full` or `taken`, with the bound, the end, 0 or how many copies were repaired."""
        if x[0] < self.last:
            self.turned.append(x)
            return "late", self.last
        if x[0] >= self.end:
            return "far", self.end
        if self.room() == 0:
            return "full", 0
        self.accepted.append(x)
        return "taken", self.settle([run + [x] if self.begin + beats(run) > x[0] else list(run) for run in self.runs])

    def tick(self) -> bool:
        """The clock goes on, and the window is forgotten where the last copy has run it; False at the session's last tick."""
        passed = self.last - self.base
        full = self.clock + 1 == self.end
        if self.clock == LIMIT or (passed == 0 and full):
            return False
        if passed > 0 and (passed >= self.config.keep or full or self.room() == 0):
            self.forgotten += len(self.runs[-1]) - self.forgotten
            self.base = self.last
        self.clock += 1
        return True

    def step(self, copy: int) -> int | None:
        """A copy runs a tick where it may, and how many were repaired; None where it stands at its limit."""
        at = self.at(copy)
        limit = max(0, self.clock - self.config.plans[self.plan][copy])
        if copy > 0:
            limit = min(limit, self.at(copy - 1))
        if at >= min(limit, self.end):
            return None
        runs = [list(run) for run in self.runs]
        runs[copy] += self.ordered(at, at + 1)
        return self.settle(runs)


# ---- packets

@dataclass
class Part:
    """A piece of what `origin` issued: numbers from `first` on; number `first` - 1 is due at `before`."""

    origin: int
    first: int
    before: int
    commands: list[Command]

    def bytes(self) -> bytes:
        head = bytes([self.origin]) + len(self.commands).to_bytes(2, "little") + word(self.first) + word(self.before)
        return head + b"".join(map(command_bytes, self.commands))


@dataclass
class Packet:
    sender: int
    to: int
    clock: int
    echo: int
    have: list[int]
    mark: tuple[int, int] | None
    parts: list[Part]

    def head(self, session: int) -> bytes:
        front = b"\x01" + session.to_bytes(8, "little") + bytes([self.sender, self.to, self.mark is not None])
        mark = b"" if self.mark is None else word(self.mark[0]) + word(self.mark[1])
        return front + word(self.clock) + word(self.echo) + vector_bytes(self.have) + mark

    def bytes(self, session: int) -> bytes:
        return self.head(session) + b"".join(part.bytes() for part in self.parts)


def word(n: int) -> bytes:
    return n.to_bytes(4, "little")


def command_bytes(c: Command) -> bytes:
    return word(c[0]) + bytes([len(c[1])]) + c[1]


def vector_bytes(have: list[int]) -> bytes:
    mask = sum(1 << o for o, n in enumerate(have) if n > 0)
    return mask.to_bytes(8, "little") + b"".join(word(n) for n in have if n > 0)


class Reader:
    """Fields from left to right; what is cut is refused with the field's name."""

    def __init__(self, data: bytes):
        self.data, self.place = data, 0

    def is_over(self) -> bool:
        return self.place == len(self.data)

    def piece(self, size: int, name: str) -> bytes:
        need(self.place + size <= len(self.data), malformed(name))
        self.place += size
        return self.data[self.place - size:self.place]

    def number(self, size: int, name: str) -> int:
        return int.from_bytes(self.piece(size, name), "little")

    def vector(self, slots: int) -> list[int]:
        mask = self.number(8, "VECTOR")
        have = []
        for o in range(slots):
            n = self.number(4, "VECTOR") if mask >> o & 1 else 0
            need(n > 0 or not mask >> o & 1, malformed("VECTOR"))
            have.append(n)
        need(mask >> slots == 0, malformed("VECTOR"))
        return have

    def commands(self, count: int, before: int, payload: int) -> list[Command]:
        commands = []
        for _ in range(count):
            time, size = self.number(4, "COMMAND"), self.number(1, "COMMAND")
            need(time >= before and size <= payload, malformed("COMMAND"))
            commands.append((time, self.piece(size, "COMMAND")))
            before = time
        return commands


def read_packet(config: Config, data: bytes) -> Packet:
    """The packet of these bytes, or the first fault from left to right."""
    r = Reader(data)
    need(r.number(1, "KIND") == 1, malformed("KIND"))
    need(r.number(8, "SESSION") == config.session, Refused("OTHER_SESSION"))
    sender, to = r.number(1, "ENDS"), r.number(1, "ENDS")
    need(sender < config.slots and to < config.slots and sender != to, malformed("ENDS"))
    flags, clock, echo = r.number(1, "HEAD"), r.number(4, "HEAD"), r.number(4, "HEAD")
    need(flags <= 1, malformed("HEAD"))
    have = r.vector(config.slots)
    mark = (r.number(4, "MARK"), r.number(4, "MARK")) if flags else None
    parts: list[Part] = []
    least = 0
    while not r.is_over():
        origin, count, first, before = (r.number(size, "PART") for size in (1, 2, 4, 4))
        need(least <= origin < config.slots and origin != to and first + count <= have[origin]
             and (first > 0 or (before == 0 and count > 0)), malformed("PART"))
        parts.append(Part(origin, first, before, r.commands(count, before, config.payload)))
        least = origin + 1
    return Packet(sender, to, clock, echo, have, mark, parts)


# ---- the peer

@dataclass
class Queue:
    """What is remembered of a slot: its numbers from `kept` on; number `kept` - 1 was due at `gone`."""

    kept: int = 0
    gone: int = 0
    commands: list[Command] = field(default_factory=list)
    late: int = 0

    @property
    def have(self) -> int:
        return self.kept + len(self.commands)

    @property
    def last(self) -> int:
        return self.before(self.have)

    def before(self, n: int) -> int:
        """The time of number n - 1."""
        return self.gone if n == self.kept else self.commands[n - self.kept - 1][0]


@dataclass
class Other:
    """What is known of another peer; `newest` is its newest clock and echo."""

    known: list[int]
    newest: tuple[int, int] | None = None
    at: int = 0
    mark: tuple[int, int] | None = None
    differs: int | None = None
    cursor: tuple[int, int] = (0, 0)


@dataclass
class Told:
    """What is told of a packet that was heard."""

    sender: int
    taken: int = 0
    late: int = 0
    repaired: int = 0
    stopped: int = 0
    differs: int = 0


class Peer:
    """A peer; `new` and `join` make one. Each call answers a kind, `other` and `value`, or raises `Refused`."""

    def __init__(self, config: Config, me: int, base: int, start: int, queues: list[Queue]):
        self.config, self.me, self.start, self.queues = config, me, start, queues
        self.mirror = Mirror(config, base)
        self.others = [Other([0] * config.slots) for _ in range(config.slots)]
        self.marks: list[tuple[int, int]] = []

    @classmethod
    def new(cls, config: Config, me: int) -> "Peer":
        need(config.is_legal() and 0 <= me < config.slots, Refused("NOT_LEGAL"))
        return cls(config, me, 0, 0, [Queue() for _ in range(config.slots)])

    @classmethod
    def join(cls, config: Config, me: int, data: bytes) -> "Peer":
        """A joiner, by a snapshot that another peer of the session made."""
        need(config.is_legal() and 0 <= me < config.slots, Refused("NOT_LEGAL"))
        maker, base, clock, have, queues = read_snapshot(config, data)
        need(me != maker and have[me] == 0, Refused("USED"))
        need(all(time < base + config.window for q in queues for time, _ in q.commands), Refused("FAR", 0, base + config.window))
        need(all(len(q.commands) <= config.room for q in queues), Refused("FULL"))
        peer = cls(config, me, base, clock, queues)
        for o, q in enumerate(queues):
            for n, (time, _) in enumerate(q.commands, q.kept):
                assert peer.mirror.arrive((time, o, n))[0] == "taken"
        return peer

    @property
    def clock(self) -> int:
        return self.mirror.clock

    def have(self) -> list[int]:
        return [q.have for q in self.queues]

    def own(self, ahead: int, payload: bytes) -> Answer:
        q = self.queues[self.me]
        need(len(payload) <= self.config.payload, Refused("TOO_LONG"))
        need(self.clock >= self.start, Refused("BEHIND", 0, self.start))
        t = max(self.clock + ahead, q.last)
        need(t < LIMIT and q.have < LIMIT, Refused("END"))
        need(t < self.mirror.end, Refused("FAR", 0, self.mirror.end))
        need(len(q.commands) < self.config.room and self.mirror.room() > 0, Refused("FULL"))
        number = q.have
        assert self.mirror.arrive((t, self.me, number)) == ("taken", 0)
        q.commands.append((t, payload))
        return "TAKEN", t, number

    def turn(self) -> Answer:
        moved = self.mirror.tick()
        repaired = [self.mirror.step(c) or 0 for c in range(len(self.mirror.runs))]
        for q in self.queues:
            while q.commands and q.commands[0][0] + self.config.keep < self.mirror.last:
                q.gone, q.kept = q.commands.pop(0)[0], q.kept + 1
        return "MOVED" if moved else "OVER", 0, max(repaired)

    def step(self, copy: int) -> Answer:
        need(0 <= copy < len(self.mirror.runs), Refused("NOT_THERE"))
        repaired = self.mirror.step(copy)
        return ("IDLE", 0, 0) if repaired is None else ("RAN", 0, repaired)

    def restagger(self, plan: int) -> Answer:
        need(0 <= plan < len(self.config.plans), Refused("NOT_THERE"))
        self.mirror.plan = plan
        return "RESTAGGERED", 0, 0

    # ---- packets

    def due(self, to: int) -> list[Part]:
        """What is due for another peer, by rising slot."""
        parts = []
        for o, q in enumerate(self.queues):
            if o == to:
                continue
            k = self.others[to].known[o]
            passed_on = sum(1 for time, _ in q.commands if time + self.config.relay <= self.clock)
            end = q.have if o == self.me else q.kept + passed_on
            first = max(k, q.kept)
            if first < end:
                parts.append(self.part(o, first, end))
            elif k < q.kept:
                parts.append(self.part(o, q.kept, q.kept))
        return parts

    def part(self, o: int, first: int, end: int) -> Part:
        q = self.queues[o]
        return Part(o, first, q.before(first), q.commands[first - q.kept:end - q.kept])

    def behind(self, due: list[Part], cursor: tuple[int, int]) -> list[Part]:
        """What is due behind a cursor, or all where that is nothing."""
        slot, number = cursor
        left = []
        for part in due:
            end = part.first + len(part.commands)
            if part.origin > slot or (part.origin == slot and part.first >= number):
                left.append(part)
            elif part.origin == slot and number < end:
                left.append(self.part(slot, number, end))
        return left or due

    def packet(self, to: int, room: int) -> tuple[Answer, bytes]:
        need(0 <= to < self.config.slots and to != self.me, Refused("NOT_THERE"))
        other = self.others[to]
        packet = Packet(self.me, to, self.clock, other.newest[0] if other.newest else 0, self.have(), self.marks[-1] if self.marks else None, [])
        left = room - len(packet.head(self.config.session))
        need(left >= 0, Refused("SHORT", 0, room - left))
        due = self.due(to)
        packet.parts, other.cursor = filled(self.behind(due, other.cursor), left)
        data = packet.bytes(self.config.session)
        return ("VALUE", int(packet.parts != due), len(data)), data

    def hear(self, data: bytes) -> tuple[Answer, Told]:
        packet = read_packet(self.config, data)
        need(packet.to == self.me, Refused("NOT_FOR_ME"))
        need(packet.have[self.me] <= self.queues[self.me].have and packet.echo <= self.clock, Refused("AHEAD"))
        for part in packet.parts:
            need(not self.conflicts(part), Refused("CONFLICT", 0, part.origin))
        told = Told(packet.sender)
        self.hear_head(packet, told)
        for part in packet.parts:
            self.hear_part(part, told)
        return ("HEARD", packet.sender, told.repaired), told

    def conflicts(self, part: Part) -> bool:
        q = self.queues[part.origin]
        if part.first + len(part.commands) <= q.have:
            return False
        if part.first > q.have:
            return part.before < q.last
        told = part.before if part.first == q.have else part.commands[q.have - part.first - 1][0]
        return told != q.last

    def hear_head(self, packet: Packet, told: Told) -> None:
        other = self.others[packet.sender]
        other.known = list(map(max, other.known, packet.have))
        if other.newest is None or (packet.clock, packet.echo) > other.newest:
            other.newest, other.at = (packet.clock, packet.echo), self.clock
        if packet.mark is not None and (other.mark is None or packet.mark[0] > other.mark[0]):
            other.mark = packet.mark
        if packet.mark is not None and any(tick == packet.mark[0] and total != packet.mark[1] for tick, total in self.marks):
            told.differs = 1
            other.differs = packet.mark[0] if other.differs is None else other.differs

    def hear_part(self, part: Part, told: Told) -> None:
        q = self.queues[part.origin]
        if part.first > q.have:
            if part.before >= self.mirror.last:
                told.stopped |= GAP
                return
            missing = part.first - q.have
            q.late, told.late = q.late + missing, told.late + missing
            q.kept, q.gone, q.commands = part.first, part.before, []
        for command in part.commands[q.have - part.first:]:
            if not self.count(part.origin, command, told):
                return

    def count(self, o: int, command: Command, told: Told) -> bool:
        """The slot's next command is counted, unless something stops it."""
        q = self.queues[o]
        kind, value = ("full", 0) if len(q.commands) == self.config.room else self.mirror.arrive((command[0], o, q.have))
        if kind in ("far", "full"):
            told.stopped |= STOP_FAR if kind == "far" else STOP_FULL
            return False
        if kind == "taken":
            told.taken, told.repaired = told.taken + 1, max(told.repaired, value)
        else:
            told.late, q.late = told.late + 1, q.late + 1
        q.commands.append(command)
        return True

    def mark(self, total: int) -> Answer:
        tick = self.mirror.last
        need(not self.marks or self.marks[-1][0] < tick, Refused("AGAIN"))
        self.marks = (self.marks + [(tick, total)])[-64:]
        differing = [x for x in self.others if x.mark is not None and x.mark[0] == tick and x.mark[1] != total]
        for other in differing:
            other.differs = tick if other.differs is None else other.differs
        return "MARKED", len(differing), tick

    def snapshot(self, room: int) -> tuple[Answer, bytes]:
        base = self.mirror.last
        data = b"\x02" + self.config.session.to_bytes(8, "little") + bytes([self.config.slots, self.config.payload, self.me])
        data += word(base) + word(self.clock) + vector_bytes(self.have())
        for q in self.queues:
            if q.have > 0:
                commands = [c for c in q.commands if c[0] >= base]
                data += word(q.late) + len(commands).to_bytes(2, "little") + word(q.before(q.have - len(commands)))
                data += b"".join(map(command_bytes, commands))
        need(len(data) <= room, Refused("SHORT", 0, len(data)))
        return ("VALUE", 0, len(data)), data

    # ---- looks

    def items(self, copy: int, place: int, room: int) -> list[Item]:
        need(0 <= copy < len(self.mirror.runs), Refused("NOT_THERE"))
        run = self.mirror.runs[copy]
        need(self.mirror.forgotten <= place <= len(run), Refused("NOT_THERE"))
        return run[place:place + room]

    def payload(self, o: int, number: int, room: int) -> bytes:
        need(0 <= o < self.config.slots, Refused("NOT_THERE"))
        q = self.queues[o]
        need(q.kept <= number < q.have, Refused("NOT_THERE"))
        payload = q.commands[number - q.kept][1]
        need(len(payload) <= room, Refused("SHORT", 0, len(payload)))
        return payload

    def known(self, who: int, of: int) -> int:
        need(0 <= who < self.config.slots and 0 <= of < self.config.slots, Refused("NOT_THERE"))
        return self.queues[of].have if who == self.me else self.others[who].known[of]

    def slot(self, o: int) -> dict[str, int]:
        need(0 <= o < self.config.slots, Refused("NOT_THERE"))
        q, other = self.queues[o], self.others[o]
        mark = (self.marks[-1] if self.marks else None) if o == self.me else other.mark
        clock, echo = other.newest or (0, 0)
        return {"have": q.have, "kept": q.kept, "last": q.last, "late": q.late, "heard": int(other.newest is not None), "clock": clock,
                "echo": echo, "at": other.at, "marked": int(mark is not None), "mark_tick": mark[0] if mark else 0,
                "mark_sum": mark[1] if mark else 0, "differs": int(other.differs is not None), "differs_tick": other.differs or 0}


def filled(left: list[Part], room: int) -> tuple[list[Part], tuple[int, int]]:
    """As much of these parts as there is room for, and the cursor behind it."""
    parts: list[Part] = []
    for part in left:
        fit, size = 0, PART_HEAD
        while fit < len(part.commands) and size + len(command_bytes(part.commands[fit])) <= room:
            size += len(command_bytes(part.commands[fit]))
            fit += 1
        if room < PART_HEAD or (part.commands and fit == 0):
            return parts, (part.origin, part.first)
        parts.append(Part(part.origin, part.first, part.before, part.commands[:fit]))
        if fit < len(part.commands):
            return parts, (part.origin, part.first + fit)
        room -= size
    return parts, (0, 0)


def read_snapshot(config: Config, data: bytes) -> tuple[int, int, int, list[int], list[Queue]]:
    """A snapshot's maker, base, clock, counts and queues, or the first fault from left to right."""
    r = Reader(data)
    need(r.number(1, "KIND") == 2, malformed("KIND"))
    terms = tuple(r.number(size, "SESSION") for size in (8, 1, 1))
    need(terms == (config.session, config.slots, config.payload), Refused("OTHER_SESSION"))
    maker = r.number(1, "ENDS")
    need(maker < config.slots, malformed("ENDS"))
    base, clock = r.number(4, "HEAD"), r.number(4, "HEAD")
    need(base <= clock, malformed("HEAD"))
    have = r.vector(config.slots)
    queues = []
    for n in have:
        if n == 0:
            queues.append(Queue())
            continue
        late, count, before = (r.number(size, "PART") for size in (4, 2, 4))
        need(late + count <= n and (before == 0 if count == n else before < base), malformed("PART"))
        queues.append(Queue(n - count, before, r.commands(count, base, config.payload), late))
    need(r.is_over(), malformed("REST"))
    return maker, base, clock, have, queues
