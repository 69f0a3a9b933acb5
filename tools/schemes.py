"""What a trace of arrivals costs under ways of keeping mirrors in step, in short plain models: clocks and sets of commands, no worlds.

A frame is a turn of the trace's clock. A command of tick T that mirror M got just before its turn of frame C has the lag C - T on its
way there; it is in time for whoever executes tick T in frame C or later. A command that never came has no lag. Two schemes wait for
each other's ticks, so they send a message of each tick, also where nothing was issued. The trace has lags of commands alone: such a
message has the lag of the last command before it on that way (of the first one, before there is any). Where a command of its tick was
lost it is lost, and goes again in the next frame. Each message tells again what the ones before it told.
"""

from collections import namedtuple

LOST = None

# own: for each command, how many frames after it was issued it shows at its own mirror. lost: pairs of a command and a mirror at which
# it came too late. taken: for each mirror the commands that it executed. waited, longest: frames in which a mirror stood, of all mirrors
# together, and at one go. rollbacks, again: how often a mirror went back, and ticks that were executed again for it. worlds: the most
# that a mirror keeps at once. astray, most: commands that what players see has executed out of their place, the mean over all turns
# and the most.
Outcome = namedtuple("Outcome", "own lost taken waited longest rollbacks again worlds astray most")


class Trace:
    """Commands with their ticks, and for each mirror the frame in which each came."""

    def __init__(self, length, mirrors, times, came):
        self.length, self.mirrors, self.times, self.came = length, mirrors, times, came
        self.by_tick = {}
        for name, time in times.items():
            self.by_tick.setdefault((name[0], time), []).append(name)

    @classmethod
    def of(cls, match):
        """The trace of a match's script: its ticks and turns are frames, its arrivals are told."""
        times = {(int(c[1]), int(c[2])): int(c[0]) for c in match.lines_of("cmd")}
        mirrors = match.numbers("mirrors")[0]
        clocks, came = [0] * mirrors, [{} for _ in range(mirrors)]
        for words in match.events():
            mirror = int(words[1])
            if words[0] == "arrive":
                came[mirror].setdefault((int(words[2]), int(words[3])), clocks[mirror])
            else:
                clocks[mirror] += 1
        return cls(match.numbers("length")[0], mirrors, times, came)

    def arrivals(self, mirror):
        """What came to the mirror, with its frame, in order."""
        return sorted((frame, name) for name, frame in self.came[mirror].items())

    def never(self):
        """How many ways of a command to a mirror it never went."""
        return sum(name not in came for came in self.came for name in self.times)

    def lags(self, sender, mirror):
        """After how many frames the sender's message of each tick is at the mirror."""
        of = lambda name: max(0, self.came[mirror][name] - self.times[name]) if name in self.came[mirror] else LOST
        told = [[of(name) for name in self.by_tick.get((sender, tick), [])] for tick in range(self.length)]
        last, lags = next((lag for tick in told for lag in tick if lag is not LOST), 0), []
        for tick in told:
            last = max(tick) if tick and LOST not in tick else last
            lags.append(last + (LOST in tick))
        return lags


# ---- schemes that execute on a fixed frame


def bucket(trace, delay):
    """Each command is executed `delay` ticks after it was issued, at its own mirror too; what comes later is lost."""
    taken = [{name for name, frame in came.items() if frame <= trace.times[name] + delay} for came in trace.came]
    lost = [(name, mirror) for mirror, came in enumerate(trace.came) for name in came if name not in taken[mirror]]
    own = [delay for name in trace.times if name in taken[name[0]]]
    return Outcome(own, lost, taken, 0, 0, 0, 0, 1, 0.0, 0)


# ---- schemes that go back


def time_warp(trace, every):
    """Each tick is executed at once, and a snapshot is taken before each `every`-th; what comes later sends the mirror back to the last
    snapshot before it. All that comes between two ticks is handled together. A snapshot is kept as long as something may still come
    that is older than the one behind it."""
    rollbacks = again = worlds = 0
    for mirror in range(trace.mirrors):
        went = warped(trace, mirror, every)
        rollbacks, again = rollbacks + went[0], again + went[1]
        worlds = max(worlds, most_kept(trace, mirror, every))
    taken = [set(came) for came in trace.came]
    return Outcome(shown_at_once(trace), [], taken, 0, 0, rollbacks, again, worlds, 0.0, 0)


def shown_at_once(trace):
    """An own command shows with its tick, or as soon as it came, where that is later."""
    return [max(0, trace.came[name[0]][name] - time) for name, time in trace.times.items() if name in trace.came[name[0]]]


def warped(trace, mirror, every):
    """How often a mirror goes back, and how many ticks it executes again."""
    oldest = {}
    for frame, name in trace.arrivals(mirror):
        if trace.times[name] < min(frame, trace.length):
            oldest[frame] = min(trace.times[name], oldest.get(frame, trace.length))
    again = sum(min(frame, trace.length) - time // every * every for frame, time in oldest.items())
    return len(oldest), again


def most_kept(trace, mirror, every):
    """The most snapshots that a mirror keeps at once, with the world that it plays on."""
    # what is still to come to anybody, the oldest tick of it by frame: nobody goes back behind that
    least = [trace.length] * (trace.length + 1)
    for came in trace.came:
        for name, frame in came.items():
            first, last = min(trace.times[name], trace.length), min(frame, trace.length)
            for at in range(first, last + 1):
                least[at] = min(least[at], trace.times[name])
    kept = [frame // every - min(least[frame], frame) // every + 1 for frame in range(trace.length + 1)]
    return max(kept) + 1


# ---- schemes that wait


def lockstep(trace):
    """A mirror tells what was issued in a tick when it comes to the tick, and executes it once it has all others' of it."""
    return in_step(trace, ahead=0)


def rollback(trace, window):
    """As GGPO and GGRS have it: a mirror executes a tick at once, as if the others had issued nothing, goes back where they had, and
    waits where it would be more than `window` ticks ahead of what it knows of all others."""
    return in_step(trace, ahead=window)


class Walker:
    """A mirror that goes in step with others: the tick that it comes to, what it knows of each other, and what is on its way to it."""

    def __init__(self, trace, number, ahead):
        self.trace, self.number, self.ahead = trace, number, ahead
        self.lags = {other: trace.lags(number, other) for other in range(trace.mirrors) if other != number}
        self.at, self.told_in, self.back = 0, -1, 0
        self.knows, self.coming = dict.fromkeys(self.lags, -1), {}
        self.own, self.waited, self.stood, self.longest, self.rollbacks, self.again = [], 0, 0, 0, 0, 0

    def known(self):
        """The last tick of which it knows all."""
        return min(self.knows.values(), default=self.trace.length)

    def may_execute(self):
        return self.at < self.trace.length and self.at - self.known() <= self.ahead

    def tell(self, walkers, frame):
        """Lockstep tells a tick before it may be executed, rollback as it is executed."""
        if self.told_in < 0 and self.at < self.trace.length and (self.ahead == 0 or self.may_execute()):
            self.told_in = frame
            for other, lags in self.lags.items():
                at = walkers[other].coming.setdefault(frame + lags[self.at], {})
                at[self.number] = max(self.at, at.get(self.number, -1))

    def hear(self, walkers, frame):
        for sender, tick in self.coming.pop(frame, {}).items():
            new = range(self.knows[sender] + 1, min(tick + 1, self.at))
            self.back = min([at for at in new if (sender, at) in self.trace.by_tick] + [self.back])
            self.knows[sender] = max(self.knows[sender], tick)

    def execute(self, walkers, frame):
        if self.back < self.at:
            self.rollbacks, self.again = self.rollbacks + 1, self.again + self.at - self.back
        if self.told_in >= 0 and self.may_execute():
            self.own += [frame - self.told_in] * len(self.trace.by_tick.get((self.number, self.at), []))
            self.at, self.told_in, self.stood = self.at + 1, -1, 0
        self.back = self.at

    def wait(self, frames):
        if self.at < self.trace.length:
            self.waited, self.stood = self.waited + frames, self.stood + frames
            self.longest = max(self.longest, self.stood)


def in_step(trace, ahead):
    walkers = [Walker(trace, number, ahead) for number in range(trace.mirrors)]
    frame = 0
    while any(walker.at < trace.length or walker.coming for walker in walkers):
        before = [walker.at for walker in walkers]
        for does in (Walker.hear, Walker.tell, Walker.hear, Walker.execute):
            for walker in walkers:
                does(walker, walkers, frame)
        moved = [walker.at > at for walker, at in zip(walkers, before)]
        ahead_of = 1 if any(moved) else min([at for walker in walkers for at in walker.coming], default=frame + 1) - frame
        for walker, has_moved in zip(walkers, moved):
            walker.wait(0 if has_moved else ahead_of)
        frame += ahead_of
    of = lambda name: [getattr(walker, name) for walker in walkers]
    taken = [set(trace.times) for _ in walkers]
    return Outcome(sum(of("own"), []), [], taken, sum(of("waited")), max(of("longest")), sum(of("rollbacks")), sum(of("again")),
                   ahead + 1, 0.0, 0)
