"""The mirrors of this machine, and their common clock."""

import asyncio
import collections
import gc
import itertools
import random
import time

from match_lines import Wrong

from .clock import now
from .limits import Doors
from .links import LinkIn, LinkOut
from .log import ERROR, WARNING, peer_of
from .meeting import hear_start, is_shared, look_for_refusal, open_session, part
from .mirror_process import Died
from .peers import Peers
from .room import Room
from .wire import LONGEST_LINE, Identity, digest_of_match

__all__ = ["Played", "Session", "Told", "setup_of"]

ACTS = ("go", "go", "left", "right", "shoot")
WAIT = 0.005  # seconds after which it is looked again whether a mirror may turn


class Session:
    """`wait` is for how many seconds mirror 0 waits for the others, or None: as long as it takes."""

    ROOM, MOST_LINKS, MOST_OF_ONE, SILENT, LATE_FOR, wait = Room, 64, 16, 1.0, "its last delay", None

    def __init__(self, match, program, numbers, key, net, rate, told):
        self.match, self.key, self.net, self.rate, self.told = match, key, net, rate, told
        self.rooms = {number: self.ROOM(program, number, match, told) for number in numbers}
        digest = digest_of_match([self.ROOM.HEAD, *match.setup, f"rate {rate}"])
        for number, room in self.rooms.items():
            room.peers = Peers(room, Identity(key, number, digest), rate)
        self.players = [words[0] for words in match.lines_of("player")]
        self.claims, self.servers, self.looked_at, self.shown, self.shown_left = {}, [], set(), None, None
        self.works = collections.deque(maxlen=1 << 17)  # seconds: more than a match has ticks of mirrors
        self.stalled, self.silent, self.draw = set(), set(), random.Random(5)
        for room in self.rooms.values():
            room.beside = self.rooms

    # ---- links

    async def listen(self, number, host, port):
        doors = Doors(self.MOST_LINKS, self.MOST_OF_ONE)

        async def serve(reader, writer):
            with doors.entered(writer) as is_in:
                if is_in:
                    await LinkIn(self.rooms[number], self.net).serve(reader, writer)
                else:
                    self.told(number, "a connection was closed: too many are open", WARNING, peer=peer_of(writer))
                    writer.close()
        server = await asyncio.start_server(serve, host, port, limit=LONGEST_LINE + 1)
        self.servers.append(server)
        return server.sockets[0].getsockname()[:2]

    def link(self, number, other, place):
        self.rooms[number].out[other] = LinkOut(self.rooms[number], other, place, self.net)

    async def begin(self):
        for room in self.rooms.values():
            try:
                await room.process.begin()
            except Died as died:
                raise Wrong(f"mirror {room.number} {died} before it was begun")
            if room.process.journal:
                room.process.journal.in_place()
            for link in room.out.values():
                link.begin()

    # ---- players

    def claim(self, number, player):
        """Whether the player is free: a player is played at one mirror."""
        if player in self.claims:
            return False
        self.claims[player] = number
        return True

    def release(self, player):
        self.claims.pop(player, None)

    def add_bots(self, count):
        rooms = itertools.cycle(self.rooms.values())
        for player in range(len(self.players)):
            if count > 0 and self.claim(room := next(rooms), player):
                self.claims[player] = room.number
                room.bots.append(player)
                count -= 1
        if count:
            raise Wrong(f"--bots: the match has {len(self.players)} players, {count} too few")

    def play_bots(self, room):
        for player in room.bots:
            if not room.is_held and self.draw.random() < 0.25:
                room.act(player, self.draw.choice(ACTS))

    # ---- the clock

    async def run(self, seconds, stop):
        """Ticks until all mirrors have gone through the match, the time is over, or somebody stops it."""
        watch = asyncio.get_running_loop().create_task(self.watch())
        try:
            if min(self.rooms) == 0:
                await open_session(self, stop)
            await self.wait_for_start(stop)
            end = None if seconds is None else now() + seconds
            self.spare_collections()
            await asyncio.gather(*[self.tick(room, end, stop) for room in self.rooms.values()])
            await self.close_acts()
        finally:
            watch.cancel()
            gc.unfreeze()

    def spare_collections(self):
        """A collection of all that is there stops all mirrors for some 10 ms: what was there before isn't looked at again."""
        gc.collect()
        gc.freeze()

    async def wait_for_start(self, stop):
        await hear_start(self, stop)

    def most_behind(self, room):
        """By how many ticks a mirror may come late."""
        return room.delays[-1]

    async def tick(self, room, end, stop):
        while not (stop.is_set() or room.is_over() or room.peers.is_stopped() or (end is not None and now() >= end)):
            look_for_refusal(self)
            ahead = room.start + room.clock / self.rate - now()
            if ahead > 0 or not self.may_turn(room):
                await asyncio.sleep(min(ahead, 0.25) if ahead > 0 else WAIT)
                continue
            self.watch_stall(room, -ahead)
            began = time.perf_counter()
            self.play_bots(room)
            blocks = await room.turn(self.copies_to_show(room) if ahead > -1 or room.clock % 10 == 0 else ())
            self.works.append(time.perf_counter() - began)
            self.show(room, blocks)
        if room.has_left:
            self.let_go(room)

    def may_turn(self, room):
        """Whether its turn makes no command of this machine late: none that another mirror is giving, and none on its way to it over a
        link that is up. Where the machine stands for a while, mirrors would else catch up faster than their commands are brought."""
        others = [other for other in self.rooms.values() if other is not room]
        links = [other.out[room.number] for other in others if room.number in other.out]
        times = [other.giving for other in others if other.giving is not None] + [link.oldest() for link in links if link.is_up and link.waiting]
        return not room.last_delay or room.clock < min(times, default=room.clock) + room.last_delay

    def show(self, room, blocks):
        notes, room.notes = room.notes, []
        if self.shown:
            try:
                self.shown(room, blocks, notes)
            except Exception as fault:  # a page stops no mirror
                self.told(room.number, f"a tick couldn't be shown: {fault!r}", ERROR, key="show")

    def let_go(self, room):
        for player in [player for player, number in self.claims.items() if number == room.number]:
            self.release(player)
        if self.shown_left:
            self.shown_left(room.number)

    async def close_acts(self):
        """What players did until now is handed in at the latest clock, so that it comes late nowhere."""
        clock = max(room.reached() for room in self.rooms.values())
        await asyncio.gather(*[room.close_acts(clock) for room in self.rooms.values()])

    def copies_to_show(self, room):
        """Where somebody looks at the mirror: its leading copy, and its trailing ones in turn, one a tick."""
        if room.number not in self.looked_at:
            return ()
        trailing = len(room.delays) - 1
        return (0, 1 + room.clock % trailing) if trailing else (0,)

    def watch_stall(self, room, behind):
        """What players do at a mirror that is behind the others is held until it isn't: it would be dated at its clock, and come late."""
        ticks, most = int(behind * self.rate), max(1, room.delays[-1] // 4)
        ahead = max(other.reached() for other in self.rooms.values()) - room.clock
        room.is_held = ahead > most or (len(self.rooms) < room.mirrors and ticks > most)
        if ticks > room.delays[-1] and room.number not in self.stalled:
            self.stalled.add(room.number)
            room.say(f"the mirror is {ticks} ticks behind, more than its last delay", WARNING, key="behind")
        elif ticks == 0:
            self.stalled.discard(room.number)

    async def watch(self):
        """Says what repeated, and which mirror gives no answer."""
        while True:
            await asyncio.sleep(0.25)
            self.told.sum_up()
            for number, room in self.rooms.items():
                is_silent = room.process.silent_for() > self.SILENT
                if is_silent and number not in self.silent:
                    self.silent.add(number)
                    room.say(f"the mirror hasn't answered for {self.SILENT:g} s", WARNING, key="silent")
                elif not is_silent:
                    self.silent.discard(number)

    def length(self):
        return self.match.numbers("length")[0]

    # ---- the end

    async def settle(self, seconds=10):
        """Waits until the links have brought all that was sent, and hands it in."""
        until = time.monotonic() + seconds
        links = [link for room in self.rooms.values() for link in room.out.values()]
        while time.monotonic() < until and any(link.waiting for link in links):
            await asyncio.sleep(0.02)
        left = sum(len(link.waiting) for link in links)
        if left:
            self.told(None, f"{left} commands could not be brought to other mirrors", WARNING)
        await asyncio.sleep(0.02)

    async def finish(self):
        """Ends all mirrors. What each told that is there."""
        await (part(self) if is_shared(self) else self.settle())
        ended = {number: await room.end() for number, room in sorted(self.rooms.items())}
        await self.close()
        return {number: lines for number, lines in ended.items() if lines is not None}

    async def close(self):
        """Leaves no link, server or process. What is closed stays so."""
        for room in self.rooms.values():
            for link in room.out.values():
                await link.close()
            await room.process.stop()
        for server in self.servers:
            server.close()
        self.told.sum_up(is_end=True)

    def work_line(self):
        if not self.works:
            return "no tick was made"
        works = sorted(self.works)
        pick = lambda part: 1000 * works[min(len(works) - 1, int(part * len(works)))]
        return f"a tick's work took {pick(0.5):.1f} ms in the middle, {pick(0.99):.1f} ms in 99 of 100, at most {1000 * works[-1]:.1f} ms"
