"""How many connections may be open at a door, in all and of one address."""

import collections
import contextlib


class Doors:
    """Those that are open now, by address."""

    def __init__(self, most, most_of_one):
        self.most, self.most_of_one, self.open = most, most_of_one, collections.Counter()

    def enter(self, address):
        """Whether there is room for one more of this address."""
        if self.open.total() >= self.most or self.open[address] >= self.most_of_one:
            return False
        self.open[address] += 1
        return True

    def leave(self, address):
        self.open[address] -= 1
        if not self.open[address]:
            del self.open[address]

    @contextlib.contextmanager
    def entered(self, transport):
        address = (transport.get_extra_info("peername") or ("",))[0]
        is_in = self.enter(address)
        try:
            yield is_in
        finally:
            if is_in:
                self.leave(address)
