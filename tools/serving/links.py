"""Links that carry commands from mirror to mirror over TCP, line by line as wire.py seals them.

The side that connected sends `cmd SEQUENCE T F N P ACT`, and the other answers `ack SEQUENCE` to each. What isn't acknowledged is sent again
over the next connection; a mirror takes a command that it has once more without harm. `want` asks for all commands that the other
side's mirror has, which come as `old T F N P ACT` and then `olds`: for a mirror that begins anew. `ping TIME` is answered by `pong TIME
WALL START`, with the other's clock and the time of its tick 0, or 0 where it knows none. `ended TICK`, behind the last command, says that no
more come, and is answered by the same. `closed WHY` says why a connection is closed, `refused WHY` that the other isn't let in at all.
"""

import asyncio
import math
import re
import time

from .clock import now
from .log import ERROR, INFO, WARNING, peer_of
from .peers import linked
from .wire import COMMAND, LONGEST_LINE, Bucket, Refused, Stranger, first_of, greet, send

TIME = r"\d{1,12}\.\d{6}"
PONG, PING = re.compile(rf"({TIME}) ({TIME}) ({TIME})"), re.compile(TIME)
GREETED_WITHIN, RETRY, AN_HOUR = 5.0, 0.3, 3600.0  # seconds
LEAST_COST = 100  # bytes for which a line counts at least: more than a command's with its seal


class LinkOut:
    """Brings a mirror's own commands to one other mirror, until each is acknowledged."""

    MOST_BYTES_A_SECOND, is_shared = 1 << 18, False  # half of what the other side takes

    def __init__(self, room, other, place, net):
        self.room, self.other, self.place, self.net = room, other, place, net
        self.waiting, self.next, self.lag_ms, self.is_up, self.is_away, self.best = {}, 0, None, False, True, (math.inf, 0.0)
        self.end_tick, self.end_due, self.is_end_heard = None, 0.0, False
        self.changed, self.task, self.pace = asyncio.Event(), None, Bucket(self.MOST_BYTES_A_SECOND)

    def begin(self):
        self.task = asyncio.get_running_loop().create_task(self.run())

    async def close(self):
        if self.task:
            self.task.cancel()
            self.task = None

    def tell_start(self):
        pass  # each `pong` tells it

    def again(self):
        """Connects anew."""
        self.task.cancel()
        self.is_up, self.is_away = False, True
        self.begin()

    def put(self, command):
        self.waiting[self.next] = [command, 0.0]
        self.next += 1
        self.changed.set()

    def oldest(self):
        """The tick of the first command that waits: an own command is never older than the one before."""
        return int(next(iter(self.waiting.values()))[0].split(" ", 1)[0])

    def end(self, tick):
        """No command comes any more."""
        self.end_tick = tick
        self.changed.set()

    def missing(self):
        """Whom the link waits for before tick 0: it must be linked both ways."""
        return [] if self.is_up and self.room.peers.links[self.other] > 1 else [f"mirror {self.other}"]

    def awaited(self):
        """Whom it waits for at the end: who lacks something of this mirror, or hasn't ended. One that has ended and is gone lacks nothing that it has acknowledged."""
        is_over = not self.waiting and self.other in self.room.peers.ended and (self.is_end_heard or self.is_away)
        return [] if is_over else [f"mirror {self.other}"]

    def state(self, state, text, grade=INFO):
        self.room.peers.state(f"link {self.other}", state, text, grade, ":".join(map(str, self.place)))

    def waiting_words(self):
        return f"; {len(self.waiting)} commands wait" if self.waiting else ""

    async def run(self):
        while True:
            try:
                await self.connect()
            except Exception as fault:  # whatever it is, the link is begun again
                self.lost(fault)
            await asyncio.sleep(RETRY)

    def lost(self, fault):
        why = str(fault) or ("no answer came in time" if isinstance(fault, TimeoutError) else type(fault).__name__)
        if self.is_up:
            self.state("lost", f"the link to mirror {self.other} is lost: {why}{self.waiting_words()}", WARNING)
        else:
            grade = ERROR if isinstance(fault, Refused) else WARNING
            self.state(f"away {why}", f"mirror {self.other} isn't reached: {why}", grade)
        self.is_up, self.is_away, self.lag_ms = False, True, None

    async def connect(self):
        async with asyncio.timeout(GREETED_WITHIN):
            reader, writer = await asyncio.open_connection(*self.place, limit=LONGEST_LINE + 1)
        try:
            async with asyncio.timeout(GREETED_WITHIN):
                wire = await greet(reader, writer, self.room.peers.identity, is_first=True)
            if wire.other != self.other:
                raise Stranger(f"mirror {wire.other} answers in its place")
            with linked(self.room.peers, wire):
                await self.use(wire)
        finally:
            writer.close()

    async def use(self, wire):
        self.is_away = False
        for entry in self.waiting.values():
            entry[1] = 0.0
        self.end_due = 0.0
        if self.room.wants:
            wire.send("want")
        await first_of(self.hear(wire), self.keep_sending(wire))

    # ---- what is sent

    async def keep_sending(self, wire):
        pinged = 0.0
        while True:
            at = time.monotonic()
            self.send_due(wire, at)
            if at - pinged > (1 if self.room.start is not None else 0.1):
                pinged = at
                asyncio.get_running_loop().call_later(self.net.lag / 1000, wire.send, f"ping {at:.6f}")
            self.changed.clear()
            await wire.writer.drain()
            try:
                async with asyncio.timeout(0.05):
                    await self.changed.wait()
            except TimeoutError:
                pass

    def send_due(self, wire, at):
        """Over one connection each command is written once, since TCP brings it, but for those that the pretended net loses."""
        for sequence, entry in list(self.waiting.items()):
            if at < entry[1]:
                continue
            if not self.pace.take(LEAST_COST):
                return
            entry[1] = self.on_its_way(at, self.deliver, wire, sequence)
        if self.end_tick is not None and not self.waiting and not self.is_end_heard and at >= self.end_due:
            self.end_due = self.on_its_way(at, wire.send, f"ended {self.end_tick}")

    def on_its_way(self, at, deliver, *given):
        """When it is to be sent again over this connection."""
        way = self.net.way()
        if way is None:
            return at + self.net.patience()
        asyncio.get_running_loop().call_later(way, deliver, *given)
        return math.inf

    def deliver(self, wire, sequence):
        if sequence in self.waiting:
            wire.send(f"cmd {sequence} {self.waiting[sequence][0]}")

    # ---- what comes

    async def hear(self, wire):
        while True:
            limit = self.net.silence()
            try:
                async with asyncio.timeout(limit):
                    line = await wire.read()
            except TimeoutError:
                raise ConnectionResetError(f"no pong came for {limit:.0f} s")
            self.take(line)

    def take(self, line):
        word, _, rest = line.partition(" ")
        pong = PONG.fullmatch(rest)
        if word == "ack" and rest.isdigit():
            self.waiting.pop(int(rest), None)
        elif word == "pong" and pong:
            self.hear_pong(*map(float, pong.groups()))
        elif word == "old" and COMMAND.fullmatch(rest):
            if self.room.wants:
                self.room.hear_old(rest)
        elif line == "olds":
            self.room.heard_olds(self.other)
        elif line == f"ended {self.end_tick}":
            self.is_end_heard = True
        elif word == "closed":
            raise Stranger(f"the other side closed it: {rest}")
        elif word == "refused":
            self.room.peers.refused(self.other, rest)
        else:
            raise Stranger("it says what no mirror says")

    def hear_pong(self, sent, wall, start):
        """The offset of the quickest answer counts for tick 0."""
        way = time.monotonic() - sent
        if not 0 <= way < AN_HOUR or start > wall + AN_HOUR:
            raise Stranger("it says times that can't be")
        if not self.is_up:
            self.is_up = True
            self.room.peers.met.add(self.other)
            self.state("up", f"linked to mirror {self.other}{self.waiting_words()}")
        self.lag_ms, offset = 1000 * way, wall + way / 2 - now()
        self.best = min(self.best, (way, offset))
        self.room.peers.hear_clock(self.other, offset if self.room.start is not None else self.best[1], start, way)


class LinkIn:
    """Takes what another mirror sends. What breaks a limit closes it with a reason, which is told."""

    MOST_BYTES_A_SECOND = 1 << 19

    def __init__(self, room, net):
        self.room, self.net, self.wire, self.telling, self.bucket = room, net, None, None, Bucket(self.MOST_BYTES_A_SECOND)

    async def serve(self, reader, writer):
        try:
            async with asyncio.timeout(GREETED_WITHIN):
                self.wire = await greet(reader, writer, self.room.peers.identity, is_first=False)
            if self.wire.other == self.room.number or self.wire.other >= self.room.mirrors:
                raise Stranger(f"there is no other mirror {self.wire.other}")
            with linked(self.room.peers, self.wire):
                await self.hear(self.wire)
        except Stranger as why:
            self.say_closed(why, writer)
        except TimeoutError:
            self.say_closed(Stranger("it fell silent"), writer)
        except (OSError, asyncio.CancelledError):
            pass  # it went away, and comes back with what wasn't acknowledged; or the session is over
        except Exception as fault:
            self.say_closed(f"{type(fault).__name__}: {fault}", writer)
        finally:
            if self.telling:
                self.telling.cancel()
            writer.close()

    async def hear(self, wire):
        while True:
            async with asyncio.timeout(2 * self.net.silence()):
                line = await wire.read()
                if not self.bucket.take(max(len(line), LEAST_COST)):
                    raise Stranger("too many bytes in a second")
                self.take(line, wire)
                await wire.writer.drain()

    def say_closed(self, why, writer):
        self.room.say(f"a connection was closed: {why}", ERROR if isinstance(why, Refused) else WARNING, peer=peer_of(writer))
        line = f"closed {why}".encode("ascii", "replace").decode("ascii")[:LONGEST_LINE - 40]
        if not isinstance(why, Refused):
            self.wire.send(line) if self.wire else send(writer, line)

    def take(self, line, wire):
        word, _, rest = line.partition(" ")
        sequence, _, command = rest.partition(" ")
        if word == "cmd" and sequence.isdigit() and len(sequence) < 16:
            self.take_command(command)
            wire.send(f"ack {sequence}")
        elif word == "ping" and PING.fullmatch(rest):
            self.room.peers.met.add(wire.other)
            asyncio.get_running_loop().call_later(self.net.lag / 1000, wire.send, f"pong {rest} {now():.6f} {self.room.start or 0:.6f}")
        elif line == "want" and self.telling is None:
            self.telling = asyncio.get_running_loop().create_task(self.tell_all(wire))
        elif word == "ended" and rest.isdigit() and len(rest) < 11:
            self.room.peers.hear_ended(wire.other, int(rest))
            wire.send(line)
        elif word == "refused":
            self.room.peers.refused(wire.other, rest)
        elif line == "want":
            raise Stranger("it asks for all commands twice")
        else:
            raise Stranger("it says what no mirror says")

    def take_command(self, command):
        found = COMMAND.fullmatch(command)
        if not found:
            raise Stranger("it sends what is no command")
        if int(found.group(2)) != self.wire.other:
            raise Stranger(f"mirror {self.wire.other} sends a command of mirror {found.group(2)}")
        self.room.hear(command)

    async def tell_all(self, wire):
        pace = Bucket(2 * self.MOST_BYTES_A_SECOND)
        try:
            for command in await self.room.accepted():
                await pace.wait(LEAST_COST)
                wire.send(f"old {command}")
                await wire.writer.drain()
            wire.send("olds")
        except OSError:
            pass  # it went away, and asks again
