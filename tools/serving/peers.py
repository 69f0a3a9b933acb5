"""What a mirror knows of the others: which runs of their tools it lets in, how their clocks go, and which have ended."""

from collections import Counter

from .log import INFO, WARNING
from .wire import LONGEST_LINE, Refused


class Peers:
    """`runs` are those of the other mirrors' tools that are known, `links` how many connections there are now, `met` who has ever been
    linked, and `ended` at which ticks others have ended; `is_over`, whether this one has. `refusal` says why another doesn't let this one in."""

    def __init__(self, room, identity, rate):
        self.room, self.identity, self.rate = room, identity, rate
        self.runs, self.links, self.met, self.ended, self.is_over, self.refusal = {}, Counter(), set(), {}, False, None

    def admit(self, wire):
        """Refuses who isn't of this session, or can't be right in it: its numbers would stand twice, and it lacks what others have acknowledged."""
        other, known = wire.other, self.runs.get(wire.other)
        if not wire.is_of_match:
            raise Refused("it plays another match, at another rate, or one of them is without an end: the digests of both setups differ")
        if known not in (None, wire.run):
            if self.room.start is not None:
                raise Refused(f"mirror {other} was begun again beside a running session, which can't let it in: begin a new session")
            if self.links[other]:
                raise Refused(f"mirror {other} is linked already: this is a second process of it")
        self.runs[other] = wire.run

    def refused(self, other, why):
        """Who has never been linked to the other gives up; who has been, isn't stopped by it."""
        if other not in self.met:
            self.refusal = f"mirror {other} refuses: {why}"
        raise Refused(f"it refuses: {why}")

    def hear_clock(self, other, offset, start, way):
        """By how many seconds the other's clock is ahead, and its time of tick 0, as an answer told that was so long on its way."""
        if start <= 0:
            return
        if self.room.start is None:
            self.room.start = start - offset
            self.room.say(f"tick 0 as mirror {other} says; its wall clock is {1000 * offset:+.1f} ms off")
            return
        apart, half = start - offset - self.room.start, self.room.delays[-1] / self.rate / 2
        if abs(apart) - way / 2 > half:
            text = f"tick 0 is {1000 * apart:+.0f} ms off at mirror {other}, over half the last delay: clocks go apart, and commands may come late"
            self.state(f"clock {other}", "apart", text, WARNING)

    def hear_ended(self, other, tick):
        if other not in self.ended:
            self.ended[other] = tick
            self.room.say(f"mirror {other} has ended at tick {tick}" + (", and so does this one" if self.is_stopped() and not self.is_over else ""))

    def is_stopped(self):
        """Whether another has ended before the match's end: from there on this one would play alone."""
        return any(tick < self.room.length for tick in self.ended.values())

    def state(self, key, state, text, grade=INFO, peer=None):
        self.room.told.state(self.room.number, key, state, text, grade, peer)


class linked:
    """While a wire is used its other side counts as linked. One that isn't let in is told why."""

    def __init__(self, peers, wire):
        self.peers, self.wire = peers, wire

    def __enter__(self):
        try:
            self.peers.admit(self.wire)
        except Refused as why:
            self.wire.send(f"refused {why}"[:LONGEST_LINE - 40])
            raise
        self.peers.links[self.wire.other] += 1

    def __exit__(self, *_):
        self.peers.links[self.wire.other] -= 1
