"""The library from Python, by ctypes over libtsync_mirror.so. The host's worlds are any objects.

A world has `apply(payload)` and `beat()`, and `copy.deepcopy` makes a twin.
"""

import copy
import ctypes

(MOVED, OVER, TAKEN, REPEAT, LATE, RAN, IDLE, RESTAGGERED, VALUE, MADE) = range(10)
NO_ENGINE, NOT_THERE, BEYOND, NO_ROOM, NOT_LEGAL, NO_MEMORY = range(16, 22)
A_TICK, AN_ARRIVAL, A_STEP, A_RESTAGGER = range(4)
AT_ONCE = 64


def numbers(*names):
    return [(name, ctypes.c_uint32) for name in names]


class Handle(ctypes.Structure):
    _fields_ = [("engine", ctypes.c_void_p), ("live", ctypes.c_uint32)]


class Answer(ctypes.Structure):
    _fields_ = numbers("kind", "value")


class Item(ctypes.Structure):
    _fields_ = numbers("is_beat", "from_", "number", "time")


class Command(ctypes.Structure):
    _fields_ = numbers("from_", "number", "time")


class TurnedItem(ctypes.Structure):
    _fields_ = numbers("from_", "number", "bound")


class HistoryItem(ctypes.Structure):
    _fields_ = numbers("what", "which", "time", "from_", "number")


def load(path):
    lib, u32, size = ctypes.CDLL(path), ctypes.c_uint32, ctypes.c_size_t
    calls = {
        "new": [ctypes.POINTER(u32), size, size, u32, u32, u32], "free": [],
        "tick": [], "arrive": [u32, u32, u32], "step": [u32], "restagger": [u32], "turn": [],
        "clock": [], "copy_clock": [u32], "run_len": [u32], "length": [], "copies": [], "drained": [], "spare": [], "plan": [],
        "items": [u32, u32, ctypes.POINTER(Item), size],
        "accepted": [u32, ctypes.POINTER(Command), size],
        "turned": [u32, ctypes.POINTER(TurnedItem), size],
        "history": [u32, ctypes.POINTER(HistoryItem), size],
    }
    for name, given in calls.items():
        call = getattr(lib, f"tsync_mirror_{name}")
        call.argtypes, call.restype = [ctypes.POINTER(Handle), *given], None if name == "free" else Answer
    return lib


def fits(*given):
    """Numbers for the library, which ctypes would cut off in silence: from 0 to 2^32 - 1, else ValueError."""
    for n in given:
        if not 0 <= n < 1 << 32:
            raise ValueError(f"{n} isn't a number from 0 to {(1 << 32) - 1}")
    return given


class Mirror:
    """A mirror with a world for each copy, and the payloads of commands, by (from, number)."""

    def __init__(self, lib, plans, length, room, restaggers, opening, payloads):
        self.lib, self.handle, self.payloads = lib, Handle(), payloads
        if not plans or any(len(plan) != len(plans[0]) for plan in plans):
            raise ValueError("each plan has a delay for each copy, and there is a plan")
        self.copies, delays = len(plans[0]), fits(*(delay for plan in plans for delay in plan))
        given = (ctypes.c_uint32 * len(delays))(*delays)
        answer = lib.tsync_mirror_new(self.handle, given, len(delays), self.copies, *fits(length, room, restaggers))
        if answer.kind != MADE:
            raise ValueError(f"tsync_mirror_new answers {answer.kind}")
        self.worlds, self.executed = [opening() for _ in plans[0]], [0] * self.copies

    def __del__(self):
        if hasattr(self, "handle"):
            self.lib.tsync_mirror_free(self.handle)

    def each(self, call, of, *words, place=0, handle=None):
        out = (of * AT_ONCE)()
        while (answer := call(handle or self.handle, *words, place, out, AT_ONCE)).value:
            yield from out[:answer.value]
            place += answer.value

    def items(self, of, place=0, handle=None):
        return self.each(self.lib.tsync_mirror_items, Item, of, place=place, handle=handle)

    def accepted(self):
        return self.each(self.lib.tsync_mirror_accepted, Command)

    def turned(self):
        return self.each(self.lib.tsync_mirror_turned, TurnedItem)

    def history(self):
        return self.each(self.lib.tsync_mirror_history, HistoryItem)

    def follow(self, answer):
        """What a host does after a change: see tsync_mirror.h. A call from within a world is answered NO_ENGINE meanwhile."""
        repaired = answer.value if answer.kind in (TAKEN, RAN, MOVED, OVER) else 0
        own, self.handle = self.handle, Handle()
        try:
            for k in range(self.copies - 1, -1, -1):
                if k < repaired:
                    self.worlds[k], self.executed[k] = copy.deepcopy(self.worlds[k + 1]), self.executed[k + 1]
                for item in self.items(k, self.executed[k], own):
                    if item.is_beat:
                        self.worlds[k].beat()
                    else:
                        self.worlds[k].apply(self.payloads[item.from_, item.number])
                    self.executed[k] += 1
        finally:
            self.handle = own
        return answer

    def tick(self):
        return self.lib.tsync_mirror_tick(self.handle)

    def turn(self):
        return self.follow(self.lib.tsync_mirror_turn(self.handle))

    def drain(self):
        """The end of a match: turns until each copy has run the whole match."""
        while not self.drained():
            self.turn()

    def arrive(self, time, sender, number):
        return self.follow(self.lib.tsync_mirror_arrive(self.handle, *fits(time, sender, number)))

    def step(self, of):
        return self.follow(self.lib.tsync_mirror_step(self.handle, *fits(of)))

    def restagger(self, plan):
        return self.lib.tsync_mirror_restagger(self.handle, *fits(plan))

    def spare(self):
        return self.lib.tsync_mirror_spare(self.handle).value

    def plan(self):
        return self.lib.tsync_mirror_plan(self.handle).value

    def clock(self):
        return self.lib.tsync_mirror_clock(self.handle).value

    def length(self):
        return self.lib.tsync_mirror_length(self.handle).value

    def drained(self):
        return bool(self.lib.tsync_mirror_drained(self.handle).value)

    def copy_clock(self, of):
        return self.lib.tsync_mirror_copy_clock(self.handle, *fits(of)).value

    def snapshot(self):
        """What is handed to a host that joins late: the last copy's clock and world, the plan, and what was accepted."""
        last = self.copies - 1
        return self.copy_clock(last), copy.deepcopy(self.worlds[last]), self.plan(), [(x.from_, x.number, x.time) for x in self.accepted()]


def join(lib, plans, length, room, restaggers, snapshot, payloads):
    """A mirror that joins late: see tsync_mirror.h. Its times and clocks are counted from the snapshot's clock."""
    clock, world, plan, accepted = snapshot
    late = Mirror(lib, plans, length - clock, room, restaggers, lambda: copy.deepcopy(world), payloads)
    late.restagger(plan)
    for sender, number, time in accepted:
        if time >= clock:
            late.arrive(time - clock, sender, number)
    return late
