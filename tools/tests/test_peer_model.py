"""The slow model of a peer: worked rows byte for byte, drawn nets, limits."""

import json
import os
import random
import unittest

from common import TOP, tool

from peer_model import LIMIT, Config, Other, Packet, Part, Peer, Refused, filled, read_packet
from slow_peers import Broken, Session

ROWS = os.path.join(TOP, "tools", "tests", "peer_rows.json")
SESSION = 0x0102030405060708
TWO_COPIES = {"session": SESSION, "slots": 2, "payload": 4, "plans": [[0, 2]], "window": 16, "keep": 4, "relay": 3, "room": 8}


def config(**changed):
    return Config(**{**TWO_COPIES, **changed})


def told_of(told):
    return {"from": told.sender, "taken": told.taken, "late": told.late, "repaired": told.repaired, "stopped": told.stopped, "differs": told.differs}


class Row:
    """The peers of a worked row, which makes its calls."""

    def __init__(self, row):
        self.config, self.peers = Config(**row["config"]), {}

    def make(self, step):
        """What a call answers, and what it puts out or tells."""
        try:
            return getattr(self, "call_" + step["call"])(self.peers.get(step["at"]), step)
        except Refused as refused:
            return refused.answer, {}

    def call_new(self, _, step):
        self.peers[step["at"]] = Peer.new(self.config, step["me"])
        return ("MADE", 0, 0), {}

    def call_join(self, _, step):
        self.peers[step["at"]] = Peer.join(self.config, step["me"], bytes.fromhex(step["bytes"]))
        return ("MADE", 0, 0), {}

    def call_own(self, peer, step):
        return peer.own(step["ahead"], bytes.fromhex(step["payload"])), {}

    def call_turn(self, peer, _):
        return peer.turn(), {}

    def call_packet(self, peer, step):
        answer, data = peer.packet(step["to"], step["room"])
        return answer, {"out": data.hex()}

    def call_hear(self, peer, step):
        answer, told = peer.hear(bytes.fromhex(step["bytes"]))
        return answer, {"heard": told_of(told)}

    def call_mark(self, peer, step):
        return peer.mark(step["sum"]), {}

    def call_snapshot(self, peer, step):
        answer, data = peer.snapshot(step["room"])
        return answer, {"out": data.hex()}

    def call_clock(self, peer, _):
        return ("VALUE", peer.start, peer.clock), {}

    def call_known(self, peer, step):
        return ("VALUE", 0, peer.known(step["who"], step["of"])), {}

    def call_payload(self, peer, step):
        data = peer.payload(step["from_"], step["number"], step["room"])
        return ("VALUE", 0, len(data)), {"out": data.hex()}

    def call_slot_of(self, peer, step):
        slot = peer.slot(step["slot_number"])
        return ("VALUE", 0, slot["have"]), {"slot": slot}

    def call_items(self, peer, step):
        items = peer.items(step["copy"], step["place"], step["room"])
        return ("VALUE", 0, len(items)), {"items": [[1, 0, 0, 0] if x is None else [0, x[1], x[2], x[0]] for x in items]}


class Rows(unittest.TestCase):
    def test_rows(self):
        with open(ROWS, encoding="utf-8") as file:
            rows = json.load(file)
        self.assertEqual(len(rows), 16)
        for row in rows:
            made = Row(row)
            for at, step in enumerate(row["steps"]):
                with self.subTest(row=row["name"], step=at):
                    answer, shown = made.make(step)
                    self.assertEqual(list(answer), step["answer"])
                    self.assertEqual(shown, {key: step[key] for key in ("out", "heard", "slot", "items") if key in step})


class Nets(unittest.TestCase):
    def test_drawn_nets(self):
        printed, said, status = tool("slow_peers.py", "7", "8")
        self.assertEqual((printed, said, status), ("8 nets of seed 7: as promised\n", "", 0))

    def test_a_broken_promise_is_seen(self):
        """A peer that forgets a command which it counted."""
        session = Session(random.Random("1 0"))
        session.run(30)
        peer = next(peer for peer in session.peers.values() if any(q.commands for q in peer.queues))
        next(q for q in peer.queues if q.commands).commands.pop()
        with self.assertRaises(Broken):
            session.check(peer.me)


class Limits(unittest.TestCase):
    def refused(self, kind, call):
        with self.assertRaises(Refused) as caught:
            call()
        self.assertEqual(caught.exception.answer[0], kind)

    def test_configs(self):
        for changed in ({}, {"slots": 64}, {"payload": 0}, {"payload": 64}, {"window": 8}, {"window": 8192}, {"room": 16384}, {"plans": [[1024]], "window": 1030}, {"relay": LIMIT}):
            Peer.new(config(**changed), 1)
        for changed in ({"slots": 1}, {"slots": 65}, {"payload": 65}, {"window": 7}, {"window": 8193}, {"keep": 0}, {"room": 0}, {"room": 16385}, {"relay": LIMIT + 1},
                        {"plans": []}, {"plans": [[]]}, {"plans": [[2, 2]]}, {"plans": [[1025]], "window": 2000}, {"plans": [[0], [0, 2]]}, {"plans": [[0, 2]] * 9}):
            with self.subTest(changed=changed):
                self.refused("NOT_LEGAL", lambda c=config(**changed): Peer.new(c, 1))
        self.refused("NOT_LEGAL", lambda: Peer.new(config(), 2))

    def test_a_queue_of_most_commands_in_one_datagram(self):
        """16,384 commands don't fit into 65,507 bytes: the packets that bring them follow one another."""
        one = config(room=16384, payload=0, window=8192)
        maker, hearer = Peer.new(one, 0), Peer.new(one, 1)
        maker.queues[0].commands = [(0, b"")] * 16384
        counts = []
        while sum(counts) < 16384:
            (_, more, length), data = maker.packet(1, 65507)
            packet = read_packet(one, data)
            counts.append(len(packet.parts[0].commands))
            self.assertLessEqual(length, 65507)
            self.assertEqual(more, 1)
        self.assertEqual(len(counts), 2)
        self.assertEqual(maker.others[1].cursor, (0, 0))
        self.assertEqual(hearer.have(), [0, 0])

    def test_the_least_room(self):
        """Room for a head, 16 bytes and a payload brings one command at least."""
        maker = Peer.new(config(), 0)
        for n in range(5):
            maker.own(0, bytes(4))
        (_, more, length), _ = maker.packet(1, 32 + 16 + 4)
        self.assertEqual((more, length), (1, 52))
        self.refused("SHORT", lambda: maker.packet(1, 31))

    def test_what_is_filled_ends_where_a_head_does_not_fit(self):
        parts = [Part(0, 0, 0, [(0, b"a")]), Part(1, 3, 0, [])]
        self.assertEqual(filled(parts, 17 + 11), (parts, (0, 0)))
        self.assertEqual(filled(parts, 17 + 10), (parts[:1], (1, 3)))
        self.assertEqual(filled(parts, 16), ([], (0, 0)))

    def test_64_marks_are_kept(self):
        peer = Peer.new(config(), 0)
        for n in range(70):
            peer.turn()
            if peer.mirror.last > (peer.marks[-1][0] if peer.marks else -1):
                peer.mark(n)
        self.assertEqual(len(peer.marks), 64)
        self.refused("AGAIN", lambda: peer.mark(1))

    def test_packets_of_64_slots(self):
        wide = config(slots=64)
        packet = Packet(63, 0, LIMIT, LIMIT, [LIMIT] * 64, (LIMIT, LIMIT), [Part(o, LIMIT - 1, 5, [(LIMIT, b"abcd")]) for o in range(1, 64)])
        self.assertEqual(read_packet(wide, packet.bytes(SESSION)), packet)

    def test_what_is_known_of_nobody(self):
        self.assertEqual(Peer.new(config(), 0).others[1], Other([0, 0]))


if __name__ == "__main__":
    unittest.main()
