"""The library of peers for C, its header, and the module for Python: python3 -m unittest test_peer_library

The library is built by `rt lib` in crates/peer_c, or is the file that the variable LIBPEER names. Its calls are compared with the
worked rows and with the slow model of a peer, call by call, over drawn nets.
"""

import copy
import ctypes
import json
import os
import random
import re
import shutil
import socket
import subprocess
import sys
import tempfile
import time
import unittest

from common import TOOLS, TOP, read

C = os.path.join(TOOLS, "c")
sys.path.insert(0, C)

import peer_model  # noqa: E402
import slow_peers  # noqa: E402
import tsync_peer  # noqa: E402

ROWS = os.path.join(TOP, "tools", "tests", "peer_rows.json")
LIBRARY = None
FOLDER = None


def why_not():
    if not shutil.which("cc") or not shutil.which("ar"):
        return "no cc or ar is here"
    if not shutil.which("rt"):
        return "no rt is here, so neither the library nor the kit's calls for memory"
    if not os.environ.get("LIBPEER") and not os.path.exists(os.path.join(TOP, "crates", "peer_c", "out", "libpeer_c.a")):
        return "nothing is built: run `rt lib` in crates/peer_c, or name the library by LIBPEER"
    return None


def setUpModule():
    global FOLDER, LIBRARY
    if why_not():
        raise unittest.SkipTest(why_not())
    FOLDER = tempfile.TemporaryDirectory()
    kit = os.path.dirname(os.path.dirname(os.path.realpath(shutil.which("rt"))))
    built = os.environ.get("LIBPEER") or os.path.join(TOP, "crates", "peer_c", "out", "libpeer_c.a")
    parts = os.path.join(FOLDER.name, "parts")
    os.mkdir(parts)
    for archive in (built, os.path.join(kit, "c", "liblibc_c.a")):
        subprocess.run(["ar", "x", os.path.realpath(archive)], cwd=parts, check=True)
    path = os.path.join(FOLDER.name, "libtsync_peer.so")
    objects = [os.path.join(parts, name) for name in os.listdir(parts)]
    subprocess.run(["cc", "-shared", "-o", path, *objects, "-Wl,--version-script=" + os.path.join(C, "tsync_peer.map"), "-Wl,-z,defs"], check=True)
    LIBRARY = tsync_peer.load(path)


def tearDownModule():
    if FOLDER:
        FOLDER.cleanup()


def header():
    return re.sub(r"/\*.*?\*/", "", read(os.path.join(C, "tsync_peer.h")), flags=re.S)


def config_of(config):
    return tsync_peer.Config(config.session, config.slots, config.payload, config.plans, config.window, config.keep, config.relay, config.room)


def told_of(heard):
    return {"from": heard.sender, **{name: getattr(heard, name) for name in ("taken", "late", "repaired", "stopped", "differs")}}


def item_of(item):
    return [item.is_beat, item.sender, item.number, item.time]


class Row:
    """The library's peers of a worked row."""

    def __init__(self, row):
        words = dict(row["config"])
        self.config, self.peers = tsync_peer.Config(**words), {}

    def make(self, step):
        try:
            return getattr(self, "call_" + step["call"])(self.peers.get(step["at"]), step)
        except tsync_peer.Refused as refused:
            return refused.answer, {}

    def call_new(self, _, step):
        self.peers[step["at"]] = tsync_peer.Peer.new(LIBRARY, self.config, step["me"])
        return ("MADE", 0, 0), {}

    def call_join(self, _, step):
        self.peers[step["at"]] = tsync_peer.Peer.join(LIBRARY, self.config, step["me"], bytes.fromhex(step["bytes"]))
        return ("MADE", 0, 0), {}

    def call_own(self, peer, step):
        return peer.own(step["ahead"], bytes.fromhex(step["payload"])), {}

    def call_turn(self, peer, _):
        return peer.turn(), {}

    def call_packet(self, peer, step):
        answer, data = peer.packet(step["to"], step["room"])
        return answer, {"out": data.hex()}

    def call_hear(self, peer, step):
        answer, heard = peer.hear(bytes.fromhex(step["bytes"]))
        return answer, {"heard": told_of(heard)}

    def call_mark(self, peer, step):
        return peer.mark(step["sum"]), {}

    def call_snapshot(self, peer, step):
        answer, data = peer.snapshot(step["room"])
        return answer, {"out": data.hex()}

    def call_clock(self, peer, _):
        return peer.clock(), {}

    def call_known(self, peer, step):
        return ("VALUE", 0, peer.known(step["who"], step["of"])), {}

    def call_payload(self, peer, step):
        data = peer.payload(step["from_"], step["number"], step["room"])
        return ("VALUE", 0, len(data)), {"out": data.hex()}

    def call_slot_of(self, peer, step):
        slot = peer.slot_of(step["slot_number"])
        return ("VALUE", 0, step["answer"][2]), {"slot": slot}

    def call_items(self, peer, step):
        items = peer.items(step["copy"], step["place"], step["room"])
        return ("VALUE", 0, len(items)), {"items": [item_of(item) for item in items]}


class Rows(unittest.TestCase):
    def test_rows(self):
        with open(ROWS, encoding="utf-8") as file:
            rows = json.load(file)
        for row in rows:
            made = Row(row)
            for at, step in enumerate(row["steps"]):
                with self.subTest(row=row["name"], step=at):
                    answer, shown = made.make(step)
                    self.assertEqual(list(answer), step["answer"])
                    wanted = {key: step[key] for key in ("out", "heard", "slot", "items") if key in step}
                    if "slot" in shown:
                        shown = {"slot": {key: shown["slot"][key] for key in wanted.get("slot", shown["slot"])}}
                    self.assertEqual(shown, wanted)


class Twin(peer_model.Peer):
    """A peer of the slow model beside one of the library: each call is made of both, and must answer alike."""

    calls = 0

    @classmethod
    def new(cls, config, me):
        twin = super().new(config, me)
        twin.beside = tsync_peer.Peer.new(LIBRARY, config_of(config), me)
        return twin

    @classmethod
    def join(cls, config, me, data):
        try:
            beside = tsync_peer.Peer.join(LIBRARY, config_of(config), me, data)
        except tsync_peer.Refused as refused:
            beside = refused.answer
        try:
            twin = super().join(config, me, data)
        except peer_model.Refused as refused:
            assert tuple(refused.answer) == tuple(beside), (refused.answer, beside)
            raise
        twin.beside = beside
        return twin

    def __deepcopy__(self, memo):
        """A copy is of the model alone: what is tried on it is the sessions' own check."""
        copied = object.__new__(peer_model.Peer)
        copied.__dict__.update({key: copy.deepcopy(value, memo) for key, value in self.__dict__.items() if key != "beside"})
        return copied

    def both(self, name, show, *words):
        Twin.calls += 1
        try:
            theirs = show(getattr(self.beside, name)(*words))
        except tsync_peer.Refused as refused:
            theirs = refused.answer
        try:
            mine = getattr(peer_model.Peer, name)(self, *words)
        except peer_model.Refused as refused:
            assert tuple(refused.answer) == tuple(theirs), (name, words, refused.answer, theirs)
            raise
        return mine, theirs

    def same(self, name, show, *words):
        mine, theirs = self.both(name, show, *words)
        assert mine == theirs, (name, words, mine, theirs)
        return mine

    def own(self, ahead, payload):
        return self.same("own", tuple, ahead, payload)

    def turn(self):
        answer = self.same("turn", tuple)
        self.compare()
        return answer

    def step(self, copy):
        return self.same("step", tuple, copy)

    def restagger(self, plan):
        return self.same("restagger", tuple, plan)

    def packet(self, to, room):
        return self.same("packet", lambda said: (tuple(said[0]), said[1]), to, room)

    def hear(self, data):
        mine, theirs = self.both("hear", lambda said: (tuple(said[0]), told_of(said[1])), data)
        told = mine[1]
        shown = {"from": told.sender, **{name: getattr(told, name) for name in ("taken", "late", "repaired", "stopped", "differs")}}
        assert (mine[0], shown) == theirs, (mine[0], shown, theirs)
        return mine

    def mark(self, total):
        return self.same("mark", tuple, total)

    def snapshot(self, room):
        return self.same("snapshot", lambda said: (tuple(said[0]), said[1]), room)

    def compare(self):
        """Looks."""
        assert tuple(self.beside.clock()) == ("VALUE", self.start, self.clock)
        m = self.mirror
        assert tuple(self.beside.base()) == ("VALUE", m.base, m.forgotten)
        for o in range(self.config.slots):
            slot = self.slot(o)
            theirs = self.beside.slot_of(o)
            assert all(theirs[key] == slot[key] for key in slot), (o, slot, theirs)
        for k, run in enumerate(m.runs):
            assert self.beside.copy_clock(k).value == m.at(k)
            assert self.beside.run_len(k).value == len(run)
            items = [item_of(item) for item in self.beside.items(k, m.forgotten, len(run) + 1)]
            wanted = [[1, 0, 0, 0] if x is None else [0, x[1], x[2], x[0]] for x in peer_model.Peer.items(self, k, m.forgotten, len(run) + 1)]
            assert items == wanted, (k, items, wanted)
        for o, queue in enumerate(self.queues):
            for number, (_, payload) in enumerate(queue.commands, queue.kept):
                assert self.beside.payload(o, number) == payload


class DrawnCalls(unittest.TestCase):
    def test_drawn_nets(self):
        """The sessions that check the model's promises, each of whose peers is a twin."""
        before, slow_peers.Peer = slow_peers.Peer, Twin
        try:
            for seed in range(12):
                with self.subTest(seed=seed):
                    slow_peers.Session(random.Random(f"library {seed}")).run(60)
        finally:
            slow_peers.Peer = before
        self.assertGreater(Twin.calls, 1000)

    def test_another_answer_is_seen(self):
        """A twin whose peer in the library is another one."""
        config = peer_model.Config(7, 2, 4, [[0, 2]], 16, 4, 3, 8)
        twin = Twin.new(config, 0)
        twin.beside.own(0, b"x")
        with self.assertRaises(AssertionError):
            twin.own(0, b"y")


class Misuse(unittest.TestCase):
    def test_no_peer(self):
        """A handle of zeroes, also behind `free`."""
        peer = tsync_peer.Peer(LIBRARY)
        calls = [("own", 0, b""), ("turn",), ("step", 0), ("restagger", 0), ("packet", 1, 64), ("hear", b"x"), ("mark", 1), ("snapshot", 64),
                 ("clock",), ("base",), ("copy_clock", 0), ("run_len", 0), ("items", 0, 0, 4), ("payload", 0, 0), ("slot_of", 0), ("known", 0, 0)]
        for _ in range(2):
            for name, *words in calls:
                with self.subTest(call=name), self.assertRaises(tsync_peer.Refused) as caught:
                    getattr(peer, name)(*words)
                self.assertEqual(tuple(caught.exception.answer), ("NO_PEER", 0, 0))
            LIBRARY.tsync_peer_free(ctypes.byref(peer.handle))

    def test_configs(self):
        good = {"session": 1, "slots": 2, "payload": 4, "plans": [[0, 2]], "window": 8, "keep": 4, "relay": 0, "room": 1}
        tsync_peer.Peer.new(LIBRARY, tsync_peer.Config(**good), 1)
        for changed in ({"slots": 1}, {"slots": 65}, {"payload": 65}, {"keep": 0}, {"room": 0}, {"room": 16385}, {"window": 7}, {"window": 8193},
                        {"plans": [[0, 0]]}, {"plans": [[0, 1025]], "window": 2000}, {"plans": [[0] * 9]}, {"keep": 2**32 - 1}):
            with self.subTest(changed=changed), self.assertRaises(tsync_peer.Refused) as caught:
                tsync_peer.Peer.new(LIBRARY, tsync_peer.Config(**{**good, **changed}), 0)
            self.assertEqual(caught.exception.answer.kind, "NOT_LEGAL")
        with self.assertRaises(tsync_peer.Refused):
            tsync_peer.Peer.new(LIBRARY, tsync_peer.Config(**good), 2)

    def test_a_peer_stays_where_new_is_refused(self):
        good = tsync_peer.Config(1, 2, 4, [[0, 2]], 8, 4, 0, 4)
        peer = tsync_peer.Peer.new(LIBRARY, good, 0)
        peer.own(0, b"a")
        with self.assertRaises(tsync_peer.Refused):
            peer.call("new", ctypes.byref(good.for_c()), 9)
        self.assertEqual(peer.slot_of(0)["have"], 1)
        peer.call("new", ctypes.byref(good.for_c()), 1)
        self.assertEqual(peer.slot_of(0)["have"], 0)
        with self.assertRaises(tsync_peer.Refused) as caught:
            peer.call("join", ctypes.byref(good.for_c()), 1, b"", 0)
        self.assertEqual(tuple(caught.exception.answer), ("MALFORMED", 0, 1))
        with self.assertRaises(tsync_peer.Refused) as caught:
            peer.turn()
        self.assertEqual(caught.exception.answer.kind, "NO_PEER")

    def test_null_with_length_0(self):
        peer = tsync_peer.Peer.new(LIBRARY, tsync_peer.Config(1, 2, 4, [[0, 2]], 8, 4, 0, 4), 0)
        self.assertEqual(tuple(peer.call("own", 0, None, 0)), ("TAKEN", 0, 0))
        for call, words in (("packet", (1, None, 0)), ("snapshot", (None, 0)), ("payload", (0, 1, None, 0))):
            with self.subTest(call=call), self.assertRaises(tsync_peer.Refused):
                peer.call(call, *words)


class Sample(unittest.TestCase):
    """Processes over UDP on this machine (tools/c/peers.c)."""

    def setUp(self):
        self.program = os.path.join(FOLDER.name, "peers")
        objects = [os.path.join(FOLDER.name, "parts", name) for name in os.listdir(os.path.join(FOLDER.name, "parts"))]
        said = subprocess.run(["cc", "-O2", "-std=gnu11", "-Wall", "-Wextra", "-I", C, os.path.join(C, "peers.c"), *objects, "-o", self.program], capture_output=True, text=True)
        self.assertEqual((said.returncode, said.stderr), (0, ""))
        with socket.socket(socket.AF_INET, socket.SOCK_DGRAM) as free:
            free.bind(("127.0.0.1", 0))
            self.port = min(free.getsockname()[1], 60000)

    def begin(self, *words):
        process = subprocess.Popen([self.program, str(self.port), "4", *map(str, words)], stdout=subprocess.PIPE, text=True)
        self.addCleanup(process.stdout.close)
        self.addCleanup(process.kill)
        return process

    def test_one_is_killed_and_one_joins(self):
        """A fifth of the datagrams is lost; all that play to the end print one world."""
        peers = [self.begin(me, 2000, 20) for me in range(3)]
        time.sleep(1)
        peers[1].kill()
        peers[1].wait()
        peers[1] = self.begin(3, 2000, 20, "join")
        printed = [peer.communicate(timeout=60)[0] for peer in peers]
        shown = [re.fullmatch(r"peer (\d) world ([0-9a-f]{8}) at tick 2000, late 0, rollbacks (\d+)\n", text) for text in printed]
        self.assertTrue(all(shown), printed)
        self.assertEqual([found[1] for found in shown], ["0", "3", "2"])
        self.assertEqual(len({found[2] for found in shown}), 1, printed)
        self.assertNotEqual(shown[0][2], "00000000")


class Header(unittest.TestCase):
    def test_constants(self):
        """The header's kinds are those of the crate."""
        codes = dict(re.findall(r"pub const (\w+): u32 = (\d+);", read(os.path.join(TOP, "crates", "peer_c", "src", "codes.rt"))))
        named = dict(re.findall(r"TSYNC_PEER_(\w+) = (\d+)", header()))
        fields = ("KIND", "SESSION", "ENDS", "HEAD", "VECTOR", "MARK", "PART", "COMMAND", "REST")
        self.assertEqual({name: n for name, n in named.items() if name not in fields}, codes)
        self.assertEqual([int(named[name]) for name in fields], list(range(1, 10)))
        self.assertEqual({n: name for name, n in codes.items() if name not in ("GAP", "STOP_FAR", "STOP_FULL")}, {str(n): name for n, name in tsync_peer.KINDS.items()})

    def test_calls_are_those_of_the_library(self):
        declared = set(re.findall(r"\b(tsync_peer_\w+)\(", header())) - {"tsync_peer_follow"}
        written = set(re.findall(r'extern "C" fn (\w+)\(', read(os.path.join(TOP, "crates", "peer_c", "src", "lib.rt"))))
        self.assertEqual(declared, written)

    def test_no_warning(self):
        for words in (["cc", "-std=c99", "-x", "c"], ["c++", "-x", "c++"]):
            if not shutil.which(words[0]):
                continue
            said = subprocess.run([*words, "-Wall", "-Wextra", "-pedantic", "-fsyntax-only", "-I", C, "-"], input='#include "tsync_peer.h"\nint main(void) { return 0; }\n',
                                  capture_output=True, text=True)
            self.assertEqual((said.returncode, said.stderr), (0, ""), words)


if __name__ == "__main__":
    unittest.main()
