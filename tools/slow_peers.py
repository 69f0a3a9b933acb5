#!/usr/bin/env python3
"""Checks what peers promise on sessions over nets drawn from a seed, with a slow plain model of a peer.

    python3 tools/slow_peers.py [SEED] [COUNT]

A net loses up to 30 in 100 of its packets, delays, reorders and repeats them, is cut for a while, and breaks bytes; peers die, join by
snapshots of any age, issue more than there is room for, and change their plans. What is promised is checked at each step: fronts, gaps,
each command counted once and late exactly, no packet refused by whom it is to, one run where peers have the same, all that is due in
finitely many packets, refused calls that change nothing. The first promise that is broken is shown, and the exit status is then 1.
Default: 20 nets of seed 1.
"""

import argparse
import copy
import random
import sys

from peer_model import BEAT, PART_HEAD, Command, Config, Packet, Peer, Refused, beats, filled, read_packet


class Broken(Exception):
    """A promise that doesn't hold."""


def promise(holds: bool, what: str, *seen: object) -> None:
    if not holds:
        raise Broken(" ".join(map(str, (what, *seen))))


def state_of(peer: Peer) -> object:
    """All that a call may change."""
    m = peer.mirror
    return copy.deepcopy((peer.queues, peer.others, peer.marks, m.base, m.clock, m.plan, m.accepted, m.turned, m.runs, m.forgotten))


def config_of(draw: random.Random) -> Config:
    copies = draw.randint(1, 4)
    plans = [sorted(draw.sample(range(1, 16), copies)) for _ in range(draw.randint(1, 3))]
    keep = draw.choice((1, 2, 8, 20))
    longest = max(plan[-1] for plan in plans)
    relay = draw.choice((0, 2, 6, 2**32 - 1))
    return Config(draw.getrandbits(64), draw.randint(2, 6), draw.choice((0, 4, 64)), plans, longest + keep + 2 + draw.choice((0, 5, 40)), keep, relay, draw.choice((1, 3, 16, 200)))


class Session:
    """The peers of a session, what each slot issued, and the packets that are on their way as (tick, to, bytes)."""

    def __init__(self, draw: random.Random):
        self.draw, self.config = draw, config_of(draw)
        self.loss, self.lag = draw.choice((0, 5, 30)), draw.choice((1, 4, 20))
        self.issued: list[list[Command]] = [[] for _ in range(self.config.slots)]
        first = draw.randint(2, self.config.slots)
        self.peers = {me: Peer.new(self.config, me) for me in range(first)}
        self.fresh = set(self.peers)
        self.free = list(range(first, self.config.slots))
        self.way: list[tuple[int, int, bytes]] = []
        self.snapshots: list[bytes] = []
        self.now, self.cut_until, self.cut = 0, 0, set()
        self.seen: dict[tuple[int, int], list] = {}

    # ---- steps

    def run(self, ticks: int) -> None:
        for _ in range(ticks):
            self.now += 1
            self.disturb()
            for me in sorted(self.peers):
                self.turn(me)
            for to, data in self.arrivals():
                self.hear(to, data)

    def disturb(self) -> None:
        """Now and then a cut, a death, a join, another plan, marks."""
        if self.draw.random() < 0.02:
            self.cut, self.cut_until = {me for me in self.peers if self.draw.random() < 0.5}, self.now + self.draw.randint(1, 40)
        if self.draw.random() < 0.004 and len(self.peers) > 2:
            del self.peers[self.draw.choice(sorted(self.peers))]
        maker = self.peers[self.draw.choice(sorted(self.peers))]
        if self.draw.random() < 0.05:
            self.snapshots.append(maker.snapshot(2**20)[1])
        if self.draw.random() < 0.02 and self.free and self.snapshots:
            self.join(self.free[0], self.draw.choice(self.snapshots[-4:]))
        if self.draw.random() < 0.02:
            maker.restagger(self.draw.randrange(len(self.config.plans)))
        if self.draw.random() < 0.05:
            self.attempt(maker, lambda: maker.mark(hash(tuple(maker.mirror.runs[-1])) % 2**32))

    def join(self, me: int, data: bytes) -> None:
        try:
            peer = Peer.join(self.config, me, data)
        except Refused as refused:
            promise(refused.answer[0] in ("FAR", "FULL", "USED"), "a snapshot is refused:", refused.answer)
            return
        self.free.remove(me)
        self.peers[me] = peer
        promise(peer.mirror.last == peer.mirror.base == peer.clock, "a joiner begins at its base")
        self.check(me)

    def turn(self, me: int) -> None:
        peer = self.peers[me]
        rounds = 1 if self.draw.random() < 0.95 else self.draw.choice((0, 2))
        for _ in range(rounds + (4 if peer.clock < peer.start else 0)):
            answer = peer.turn()
            promise(answer[0] == "MOVED", "a clock stops at", peer.clock)
        flood = self.draw.random() < 0.01
        for _ in range(40 if flood else self.draw.choice((0, 0, 0, 1, 2))):
            self.own(peer)
        self.check(me)
        self.send(peer)

    def own(self, peer: Peer) -> None:
        payload = self.draw.randbytes(self.draw.randint(0, self.config.payload + (self.draw.random() < 0.05)))
        answer = self.attempt(peer, lambda: peer.own(self.draw.choice((0, 0, 3, 30)), payload))
        if answer is not None:
            promise(answer[2] == len(self.issued[peer.me]) and peer.clock >= peer.start, "an own number", answer)
            self.issued[peer.me].append((answer[1], payload))

    def attempt(self, peer: Peer, call):
        """What a call answers, or None where it is refused, and then nothing has changed."""
        before = state_of(peer)
        try:
            return call()
        except Refused as refused:
            promise(state_of(peer) == before, "a refused call changes something:", refused.answer)
            return None

    def send(self, peer: Peer) -> None:
        for to in range(self.config.slots):
            if to == peer.me or self.draw.random() < 0.2:
                continue
            room = self.draw.choice((1200, 200, 28 + 4 * self.config.slots + 8 + 16 + self.config.payload))
            made = self.attempt(peer, lambda: peer.packet(to, room))
            if made is None:
                continue
            promise(len(made[1]) <= room, "a packet is longer than its room")
            self.check_text(made[1])
            if to in self.peers and self.draw.random() < 0.05:
                self.check_all_due(peer, to, room)
            is_cut = self.now < self.cut_until and (peer.me in self.cut) != (to in self.cut)
            for _ in range(0 if is_cut or self.draw.random() * 100 < self.loss else self.draw.choice((1, 1, 1, 2))):
                self.way.append((self.now + self.draw.randrange(self.lag), to, made[1]))

    def arrivals(self) -> list[tuple[int, bytes]]:
        here = [(to, data) for due, to, data in self.way if due <= self.now and to in self.peers]
        self.way = [packet for packet in self.way if packet[0] > self.now]
        self.draw.shuffle(here)
        return here

    def hear(self, to: int, data: bytes) -> None:
        peer = self.peers[to]
        if self.draw.random() < 0.1:
            self.hear_broken(peer, data)
        have, late, known, bound = peer.have(), [q.late for q in peer.queues], copy.deepcopy([x.known for x in peer.others]), peer.mirror.last
        try:
            _, told = peer.hear(data)
        except Refused as refused:
            raise Broken(f"a packet is refused by whom it is to: {refused.answer}") from None
        for o, q in enumerate(peer.queues):
            gained = self.issued[o][have[o]:q.have]
            promise(have[o] <= q.have, "a count goes back")
            promise(q.late - late[o] == sum(time < bound for time, _ in gained), "late exactly, of slot", o)
        for j, other in enumerate(peer.others):
            promise(all(map(int.__le__, known[j], other.known)) and (j == told.sender or other.known == known[j]), "what is known")
        self.check(to)
        if not told.stopped:
            self.check_whole(peer, read_packet(self.config, data))

    def hear_broken(self, peer: Peer, data: bytes) -> None:
        """Bytes that nobody made are refused without a change, or are another packet; on a copy, since nothing tells these apart."""
        broken = bytearray(data)
        for _ in range(self.draw.randint(1, 3)):
            broken[self.draw.randrange(len(broken))] = self.draw.randrange(256)
        cut = bytes(broken[:self.draw.choice((len(broken), self.draw.randrange(len(broken) + 1)))])
        self.attempt(copy.deepcopy(peer), lambda p=copy.deepcopy(peer): p.hear(cut))

    # ---- what is promised

    def check_text(self, data: bytes) -> None:
        """Reading what was put gives the packet, and putting what was read the bytes."""
        promise(read_packet(self.config, data).bytes(self.config.session) == data, "a packet's text")

    def check_whole(self, peer: Peer, packet: Packet) -> None:
        """Nothing stopped a packet: each part of it is had."""
        for part in packet.parts:
            promise(part.first + len(part.commands) <= peer.queues[part.origin].have, "a part isn't had")

    def check_all_due(self, peer: Peer, to: int, room: int) -> None:
        """Packets that are made one after another have all that is due in finitely many; one with m = 0 brings it at once."""
        maker, hearer = copy.deepcopy(peer), copy.deepcopy(self.peers[to])
        due = maker.due(to)
        wanted = {(part.origin, part.first + i) for part in due for i in range(max(1, len(part.commands)))}
        for _ in range(2 * len(wanted) + 2):
            (_, more, _), data = maker.packet(to, room)
            for part in read_packet(self.config, data).parts:
                wanted -= {(part.origin, part.first + i) for i in range(max(1, len(part.commands)))}
            if not wanted:
                break
        promise(not wanted, "what is due isn't sent:", sorted(wanted)[:4])
        maker.others[to].cursor = (0, 0)
        (_, more, _), data = maker.packet(to, 2**20)
        promise(more == 0, "a packet of any room has all")
        _, told = hearer.hear(data)
        for o, q in enumerate(maker.queues):
            passed_on = sum(time + self.config.relay <= maker.clock for time, _ in q.commands)
            end = q.have if o == peer.me else q.kept + passed_on
            promise(told.stopped or o == to or end <= hearer.queues[o].have, "m = 0, and it isn't had, of slot", o)

    def check(self, me: int) -> None:
        peer = self.peers[me]
        m, bound = peer.mirror, peer.mirror.last
        for o, q in enumerate(peer.queues):
            log = self.issued[o]
            promise(all(a[0] <= b[0] for a, b in zip(log, log[1:])), "times fall in slot", o)
            promise(q.have <= len(log) and (o != me or q.have == len(log)), "a front of slot", o)
            promise(q.commands == log[q.kept:q.have], "what is remembered of slot", o)
            promise(q.gone == (log[q.kept - 1][0] if q.kept else 0) and (q.kept == 0 or q.gone < bound), "the time before it")
            promise(len(q.commands) <= self.config.room, "the room of slot", o)
            mine = [(time, n) for time, slot, n in m.accepted if slot == o]
            promise(len(set(n for _, n in mine)) == len(mine) and all(log[n][0] == time for time, n in mine), "a command comes twice")
            promise(me not in self.fresh or len(mine) + q.late == q.have, "each command is counted once, of slot", o)
        for j in self.peers:
            known = peer.others[j].known
            promise(j == me or all(map(int.__le__, known, self.peers[j].have())), "known of", j)
        self.check_run(peer)

    def check_run(self, peer: Peer) -> None:
        """A peer that has all that is due, and turned none of it away, has it in time order; so have two at one tick."""
        bound = peer.mirror.last
        due = [(time, o, n) for o, log in enumerate(self.issued) for n, (time, _) in enumerate(log) if time < bound]
        if any(q.late for q in peer.queues) or any(n >= peer.queues[o].have for _, o, n in due):
            return
        run = []
        for tick in range(peer.mirror.begin, bound):
            run += sorted(x for x in due if x[0] == tick) + [BEAT]
        promise(peer.mirror.runs[-1] == run, "the last run of", peer.me, "at", bound)
        for r in peer.mirror.runs:
            promise(r[:len(run)] == run, "a copy's run begins otherwise")


def main() -> int:
    parser = argparse.ArgumentParser(description=__doc__, formatter_class=argparse.RawDescriptionHelpFormatter)
    parser.add_argument("seed", nargs="?", type=int, default=1)
    parser.add_argument("count", nargs="?", type=int, default=20)
    given = parser.parse_args()
    for net in range(given.count):
        session = Session(random.Random(f"{given.seed} {net}"))
        try:
            session.run(120)
        except Broken as broken:
            print(f"net {net} of seed {given.seed}, tick {session.now}: {broken}")
            return 1
    print(f"{given.count} nets of seed {given.seed}: as promised")
    return 0


if __name__ == "__main__":
    sys.exit(main())
