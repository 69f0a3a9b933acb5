"""A peer of a session without an end, from Python: the library for C, loaded.

    library = load("libtsync_peer.so")
    peer = Peer.new(library, config, 0)
    peer.own(0, b"jump")
    peer.turn()
    size, is_more, data = peer.packet(1, 1200)

Each call answers as tsync_peer.h says, or raises `Refused` with the kind's name, `other` and `value`. A handle stays on its thread.
"""

import ctypes as c
from dataclasses import dataclass, field
from typing import NamedTuple

KINDS = {
    0: "MOVED", 1: "OVER", 2: "TAKEN", 3: "RAN", 4: "IDLE", 5: "RESTAGGERED", 6: "VALUE", 7: "MADE", 8: "HEARD", 9: "MARKED",
    16: "NO_PEER", 17: "NOT_THERE", 18: "FAR", 19: "FULL", 20: "NOT_LEGAL", 21: "NO_MEMORY", 22: "TOO_LONG", 23: "BEHIND", 24: "END",
    25: "SHORT", 26: "MALFORMED", 27: "OTHER_SESSION", 28: "NOT_FOR_ME", 29: "AHEAD", 30: "CONFLICT", 31: "USED", 32: "AGAIN",
}
FIRST_REFUSAL = 16


class Handle(c.Structure):
    _fields_ = [("engine", c.c_void_p), ("live", c.c_uint32)]


class AnswerC(c.Structure):
    _fields_ = [("kind", c.c_uint32), ("other", c.c_uint32), ("value", c.c_uint64)]


class ConfigC(c.Structure):
    _fields_ = [("session", c.c_uint64), ("window", c.c_uint32), ("keep", c.c_uint32), ("relay", c.c_uint32), ("room", c.c_uint32),
                ("slots", c.c_uint8), ("payload", c.c_uint8), ("copies", c.c_uint8), ("plans", c.c_uint8), ("delays", c.c_uint32 * 64)]


class HeardC(c.Structure):
    _fields_ = [("late", c.c_uint64)] + [(name, c.c_uint32) for name in ("sender", "taken", "repaired", "stopped", "differs", "zero")]


class ItemC(c.Structure):
    _fields_ = [(name, c.c_uint32) for name in ("is_beat", "sender", "number", "time")]


SLOT = ("have", "kept", "last", "late", "heard", "clock", "echo", "at", "marked", "mark_tick", "mark_sum", "differs", "differs_tick")


class SlotC(c.Structure):
    _fields_ = [(name, c.c_uint32) for name in SLOT]


class Answer(NamedTuple):
    """A kind's name, and two numbers that go with it."""

    kind: str
    other: int
    value: int


class Refused(Exception):
    """A call that was refused, and changed nothing."""

    def __init__(self, answer: Answer):
        super().__init__(*answer)
        self.answer = answer


@dataclass
class Config:
    """What a peer is made with; times are ticks."""

    session: int
    slots: int
    payload: int
    plans: list[list[int]] = field(default_factory=lambda: [[0, 4]])
    window: int = 256
    keep: int = 32
    relay: int = 2**32 - 1
    room: int = 256

    def for_c(self) -> ConfigC:
        delays = [delay for plan in self.plans for delay in plan]
        return ConfigC(self.session, self.window, self.keep, self.relay, self.room, self.slots, self.payload, len(self.plans[0]),
                       len(self.plans), (c.c_uint32 * 64)(*delays))


def load(path: str) -> c.CDLL:
    """The library at a path, its calls with their types."""
    library = c.CDLL(path)
    handle, data, size = c.POINTER(Handle), c.c_char_p, c.c_size_t
    calls = {
        "new": (handle, c.POINTER(ConfigC), c.c_uint8), "join": (handle, c.POINTER(ConfigC), c.c_uint8, data, size),
        "own": (handle, c.c_uint32, data, size), "turn": (handle,), "step": (handle, c.c_uint8), "restagger": (handle, c.c_uint8),
        "packet": (handle, c.c_uint8, data, size), "hear": (handle, data, size, c.POINTER(HeardC)), "mark": (handle, c.c_uint32),
        "snapshot": (handle, data, size), "clock": (handle,), "base": (handle,), "copy_clock": (handle, c.c_uint8),
        "run_len": (handle, c.c_uint8), "items": (handle, c.c_uint8, c.c_uint64, c.POINTER(ItemC), size),
        "payload": (handle, c.c_uint8, c.c_uint32, data, size), "slot_of": (handle, c.c_uint8, c.POINTER(SlotC)),
        "known": (handle, c.c_uint8, c.c_uint8),
    }
    for name, types in calls.items():
        call = getattr(library, "tsync_peer_" + name)
        call.argtypes, call.restype = types, AnswerC
    library.tsync_peer_free.argtypes, library.tsync_peer_free.restype = (handle,), None
    return library


class Peer:
    """A peer; `new` and `join` make one, and it is freed with its object."""

    def __init__(self, library: c.CDLL):
        self.library, self.handle = library, Handle()

    def __del__(self) -> None:
        self.library.tsync_peer_free(c.byref(self.handle))

    def call(self, name: str, *words: object) -> Answer:
        said = getattr(self.library, "tsync_peer_" + name)(c.byref(self.handle), *words)
        answer = Answer(KINDS[said.kind], said.other, said.value)
        if said.kind >= FIRST_REFUSAL:
            raise Refused(answer)
        return answer

    @classmethod
    def new(cls, library: c.CDLL, config: Config, me: int) -> "Peer":
        """The peer in slot `me` of a session that begins."""
        peer = cls(library)
        peer.call("new", c.byref(config.for_c()), me)
        return peer

    @classmethod
    def join(cls, library: c.CDLL, config: Config, me: int, data: bytes) -> "Peer":
        """The peer in slot `me` that joins by a snapshot's bytes."""
        peer = cls(library)
        peer.call("join", c.byref(config.for_c()), me, data, len(data))
        return peer

    def own(self, ahead: int, payload: bytes) -> Answer:
        return self.call("own", ahead, payload, len(payload))

    def turn(self) -> Answer:
        return self.call("turn")

    def step(self, copy: int) -> Answer:
        return self.call("step", copy)

    def restagger(self, plan: int) -> Answer:
        return self.call("restagger", plan)

    def packet(self, to: int, room: int) -> tuple[Answer, bytes]:
        out = c.create_string_buffer(max(1, room))
        answer = self.call("packet", to, out, room)
        return answer, out.raw[: answer.value]

    def hear(self, data: bytes) -> tuple[Answer, HeardC]:
        heard = HeardC()
        return self.call("hear", data, len(data), c.byref(heard)), heard

    def mark(self, total: int) -> Answer:
        return self.call("mark", total)

    def snapshot(self, room: int) -> tuple[Answer, bytes]:
        out = c.create_string_buffer(max(1, room))
        answer = self.call("snapshot", out, room)
        return answer, out.raw[: answer.value]

    def clock(self) -> Answer:
        return self.call("clock")

    def base(self) -> Answer:
        return self.call("base")

    def copy_clock(self, copy: int) -> Answer:
        return self.call("copy_clock", copy)

    def run_len(self, copy: int) -> Answer:
        return self.call("run_len", copy)

    def items(self, copy: int, place: int, room: int) -> list[ItemC]:
        out = (ItemC * max(1, room))()
        answer = self.call("items", copy, place, out, room)
        return list(out[: answer.value])

    def payload(self, sender: int, number: int, room: int = 64) -> bytes:
        out = c.create_string_buffer(max(1, room))
        answer = self.call("payload", sender, number, out, room)
        return out.raw[: answer.value]

    def slot_of(self, slot: int) -> dict[str, int]:
        out = SlotC()
        self.call("slot_of", slot, c.byref(out))
        return {name: getattr(out, name) for name in SLOT}

    def known(self, who: int, of: int) -> int:
        return self.call("known", who, of).value
