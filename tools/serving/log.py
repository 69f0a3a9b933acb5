"""What an operator reads: a line for each change of state, with its time, grade, mirror and peer, and nothing without a limit.

    told = Told(Out(1))                 # or Told(quiet=True), which keeps its lines and writes none
    told(number, text)                  # INFO; `number` is the mirror's, or None for the session as a whole
    told(number, text, WARNING, peer="10.0.0.2:51234")
    told(number, text, key="late")      # lines of one mirror and key share one limit
    told.state(number, "link 1", "away", "mirror 1 can't be reached", WARNING)
                                        # said only where the state of this mirror and key differs from the last one given
    told.sum_up()                       # says what is due of `n more`; the session calls it each second and at its end

Of one mirror and key `Told.MOST` lines are said within `Told.SECONDS`; what is more is counted, and told once they are over as the last
of these lines with `(and n more)`. Without a key a line's text stands for it, with its numbers left out.

`Out` writes on a thread of its own, so that an output that nobody reads, or that is closed, stops no mirror: what it can't hold is
counted, and told in a line once there is room.
"""

import collections
import itertools
import logging
import os
import queue
import re
import threading
import time
from logging import ERROR, INFO, WARNING

__all__ = ["ERROR", "INFO", "WARNING", "Out", "Told", "peer_of"]

FORM = "{asctime}.{msecs:03.0f} {levelname} {message}"


def peer_of(writer):
    """The address of a connection's other side, as a line has it."""
    name = writer.get_extra_info("peername")
    return f"{name[0]}:{name[1]}" if name else None


class Out(logging.Handler):
    """Lines on their way to a file descriptor."""

    MOST_LINES = 2000

    def __init__(self, descriptor):
        super().__init__()
        self.setFormatter(logging.Formatter(FORM, "%Y-%m-%d %H:%M:%S", style="{"))
        self.descriptor, self.queue, self.lost = descriptor, queue.Queue(self.MOST_LINES), 0
        threading.Thread(target=self.run, daemon=True).start()

    def emit(self, record):
        self.line(self.format(record))

    def line(self, text):
        """Puts a line, as it is, behind those that wait. It never waits itself."""
        lost, self.lost = self.lost, 0
        try:
            if lost:
                self.queue.put_nowait(f"{lost} lines were lost here: nobody read them")
                lost = 0
            self.queue.put_nowait(text)
        except queue.Full:
            self.lost += lost + 1

    def run(self):
        while True:
            rest = (self.queue.get() + "\n").encode("utf-8", "backslashreplace")
            try:
                while rest:
                    rest = rest[os.write(self.descriptor, rest):]
            except OSError:
                pass  # it is closed: whoever waits for a verdict finds it in --out
            self.queue.task_done()

    def drain(self, seconds):
        """Waits until all lines are written, at most so long."""
        until = time.monotonic() + seconds
        while self.queue.unfinished_tasks and time.monotonic() < until:
            time.sleep(0.005)


class ToTold(logging.Handler):
    """Has what a library says told, with the limit of all that is told."""

    def __init__(self, told):
        super().__init__(WARNING)
        self.told = told

    def emit(self, record):
        fault = record.exc_info[1] if record.exc_info else None
        first = record.getMessage().split("\n")[0][:200]
        self.told(None, f"{record.name}: {first}" + (f": {fault!r}" if fault else ""), record.levelno, key=f"{record.name} {first[:40]}")


class Limit:
    """How many lines of one key were said since a time, and the last one that wasn't."""

    def __init__(self, now):
        self.since, self.said, self.more, self.last = now, 0, 0, None


class Told:
    """What mirrors say, in one place, with a counter that orders what they do. Who sets `heard` hears each line that is said."""

    MOST, SECONDS, MOST_KEYS = 5, 10.0, 1000

    def __init__(self, out=None, quiet=False):
        self.counter, self.lines, self.heard = itertools.count(), collections.deque(maxlen=10_000), None
        self.out = None if quiet else out or Out(1)
        self.limits, self.states = collections.OrderedDict(), collections.OrderedDict()

    def __call__(self, number, text, grade=INFO, key=None, peer=None):
        now, key = time.monotonic(), (number, key or re.sub(r"\d+", "#", text))
        self.sum_up(now)
        limit = self.limits.setdefault(key, Limit(now))
        if limit.said >= self.MOST:
            limit.more, limit.last = limit.more + 1, (number, text, grade, peer)
            return
        limit.said += 1
        self.say(number, text, grade, peer)
        while len(self.limits) > self.MOST_KEYS:
            self.limits.popitem(last=False)

    def hear_asyncio(self):
        """What asyncio and the page's library say comes here too."""
        for name in ("asyncio", "aiohttp"):
            logging.getLogger(name).addHandler(ToTold(self))
            logging.getLogger(name).propagate = False

    def state(self, number, key, state, text, grade=INFO, peer=None):
        if self.states.get((number, key)) == state:
            return
        self.states[number, key] = state
        while len(self.states) > self.MOST_KEYS:
            self.states.popitem(last=False)
        self(number, text, grade, f"{key} {state}", peer)

    def sum_up(self, now=None, is_end=False):
        now = time.monotonic() if now is None else now
        over = [key for key, limit in self.limits.items() if is_end or now - limit.since > self.SECONDS]
        for limit in [self.limits.pop(key) for key in over]:
            if limit.more:
                number, text, grade, peer = limit.last
                self.say(number, text + (f" (and {limit.more - 1} more)" if limit.more > 1 else ""), grade, peer)

    def say(self, number, text, grade, peer):
        who = "the session" if number is None else f"mirror {number}"
        self.lines.append(f"{who}: {text}")
        if self.out:
            self.out.handle(logging.makeLogRecord({"levelno": grade, "levelname": logging.getLevelName(grade), "msg": f"{who}{f', {peer}' if peer else ''}: {text}"}))
        if self.heard:
            self.heard(number, text)
