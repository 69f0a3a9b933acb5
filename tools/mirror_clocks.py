"""The clocks of a mirror's copies along its events, and what arrivals and steps repair.

No world is executed and no run is built: clocks are steps counted. A command that is taken is late at the copies whose clock is
past its time. The last of these executes it out of its place; the copies further on are repaired at once. Once the copy behind
that one runs the command's tick, that step repairs all copies ahead, and the command is in its place.
"""

from collections import namedtuple

# Copies 0 up to `copies`, without that one, were set from the copy behind them and ran its ticks from `since` on again, each up to
# its own clock; `late` are the commands that are in their place now.
Repair = namedtuple("Repair", "copies since until late")


class MirrorClocks:
    """A mirror's clock, and for each copy its clock and the late commands that it executed out of their place."""

    def __init__(self, delays, length):
        self.delays, self.length = delays, length
        self.clock, self.copies = 0, [0] * len(delays)
        # for each copy, by tick, the commands that are late there and not at the copy behind
        self.late = [{} for _ in delays]

    def tick(self):
        """Whether the clock moved."""
        if self.clock >= self.length + self.delays[-1]:
            return False
        self.clock += 1
        return True

    def limit(self, copy):
        ahead = self.copies[copy - 1] if copy else self.length
        return min(self.length, max(0, self.clock - self.delays[copy]), ahead)

    def step(self, copy):
        """Whether the copy ran a tick, and the repair that this made, if any."""
        tick = self.copies[copy]
        if tick >= self.limit(copy):
            return False, None
        return True, self.ran(copy)

    def ran(self, copy):
        """The copy runs its tick, whatever its limit is: the repair that this makes, if any."""
        tick = self.copies[copy]
        self.copies[copy] = tick + 1
        if copy == 0 or tick not in self.late[copy - 1]:
            return None
        return self.repaired(range(copy), tick + 1)

    def bound(self):
        """What is older than this is turned away."""
        return self.copies[-1]

    def take(self, name, time):
        """A command of this time is taken, which isn't older than the bound: the repair that this makes, if any."""
        late = [copy for copy, clock in enumerate(self.copies) if time < clock]
        if not late:
            return None
        since = self.copies[late[-1]]
        copies = [copy for copy in late if self.copies[copy] > since]
        repair = self.repaired(copies, since) if copies else None
        self.late[late[-1]].setdefault(time, []).append(name)
        return repair

    def repaired(self, copies, since):
        names = [name for copy in copies for late in self.late[copy].values() for name in late]
        for copy in copies:
            self.late[copy].clear()
        return Repair(list(copies), since, [self.copies[copy] for copy in copies], names)

    def out_of_place(self):
        """How many commands the leading copy has executed out of their place."""
        return sum(len(names) for late in self.late for names in late.values())

    def is_drained(self):
        return self.copies[-1] >= self.length
