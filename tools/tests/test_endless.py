"""Sessions without an end: the slow model of their mirrors, what their ends tell, and whole sessions over TCP.

They run the built programs `tss` and `tss_mirror`, or those that the variables TSS and TSS_MIRROR name.
"""

import asyncio
import json
import os
import subprocess
import sys
import time
import unittest

from common import PROGRAM, TOOLS, Files, read, tool
from test_serving import ARENA, BUILT, CHROMIUM, MIRROR_PROGRAM, SERVE, Browser, aiohttp

import live_model
from audit_base import BaseText
from match_lines import Wrong
from serving.endless import EndlessSession, PlayedWithoutEnd
from serving.log import Told
from serving.played import setup_of
from serving.wire import Net

# A window of eight ticks, so that a tick forgets once the last copy has run two of them.
MATCH = ["tss match 1", "length 8", "grid 7 2", "mirrors 2", "delays 0 2", "pace 0", "plan 1 6", "pickup 1 0 gold", "player ann 0 0 e", "player bob 4 0 w", "end"]
TALK = [  # worked by hand: a line, and its answer
    ("own 0 go", ["cmd 0 0 0 0 go", "ok"]), ("cmd 0 1 7 1 right", ["ok"]), ("cmd 0 1 7 1 right", ["repeat 0 1 7", "ok"]),
    ("cmd 7 1 8 1 left", ["ok"]), ("cmd 8 1 9 1 left", ["far 0 1 9 8", "ok"]), ("run 0", ["refused line 18 cause 2 shape"]),
    ("run 2", ["refused line 19 cause 3 number"]), ("cmd 4294967295 1 9 1 left", ["refused line 20 cause 3 number"]),
    ("turn", ["ok"]), ("turn", ["ok"]), ("cmd 0 1 10 0 shoot", ["ok"]), ("turn", ["repair 0 1", "ok"]), ("cmd 0 1 11 1 go", ["late 0 1 11 1", "ok"]),
    ("world 1", ["world 0 1 1", "live ann 1 0 e 3 4 1", "live bob 4 0 n 3 5 0", "shot ann 2 0 e 7", "item 1 0 gold 19", "ok"]),
    ("turn", ["ok"]), ("commands", ["cmd 0 0 0 0 go", "cmd 0 1 7 1 right", "cmd 7 1 8 1 left", "cmd 0 1 10 0 shoot", "ok"]),
    ("turn", ["ok"]), ("commands", ["cmd 7 1 8 1 left", "ok"]), ("cmd 0 1 7 1 right", ["late 0 1 7 3", "ok"]), ("cmd 8 1 9 1 left", ["ok"]),
    ("cmd 10 1 12 0 go", ["far 0 1 12 10", "ok"]), ("step 1", ["idle 0 1", "ok"]), ("restagger 1", ["ok"]),
    ("cmd 5 0 999999 0 left", ["ok"]), ("cmd 5 0 499999 0 left", ["ok"]), ("cmd 5 0 999998 0 left", ["ok"]),
    ("own 0 go", ["refused line 39 cause 7 many"]), ("cmd 5 0 999999 0 left", ["repeat 0 0 999999", "ok"]), ("own 0 go", ["cmd 5 0 0 0 go", "ok"]),
    ("end", ["base 0 2", "world 0 1 2", "live ann 1 0 e 3 4 1", "live bob 4 0 n 3 5 0", "shot ann 3 0 e 6", "item 1 0 gold 18",
             "log 0 6", "cmd 7 1 8 1 left", "cmd 8 1 9 1 left", "cmd 5 0 999999 0 left", "cmd 5 0 499999 0 left", "cmd 5 0 999998 0 left", "cmd 5 0 0 0 go",
             "world 0 1 3", "live ann 1 0 e 3 4 1", "live bob 4 0 n 2 5 0", "item 1 0 gold 17", "done"]),
]


def told_of(lines):
    return live_model.run(["0"], "".join(line + "\n" for line in lines).encode())


class Models(unittest.TestCase):
    def test_a_worked_talk(self):
        status, told = told_of(["tss live 2", *MATCH, *[asked for asked, _ in TALK]])
        self.assertEqual((status, told.decode().split("\n")[:-1]), (0, ["ok", *[line for _, lines in TALK for line in lines]]))

    @unittest.skipUnless(BUILT, "tss and tss_mirror aren't built")
    def test_the_program_tells_the_same(self):
        text = "".join(line + "\n" for line in ["tss live 2", *MATCH, *[asked for asked, _ in TALK]])
        done = subprocess.run([MIRROR_PROGRAM, "0"], input=text.encode(), capture_output=True)
        self.assertEqual((done.returncode, done.stdout.decode().split("\n")[:-1]), (0, ["ok", *[line for _, lines in TALK for line in lines]]))

    def test_a_last_copy_needs_two_ticks_more_than_its_delay(self):
        for length, due in (("length 7", b"refused line 12 cause 3 number\n"), ("length 8", b"ok\n")):
            self.assertEqual(told_of(["tss live 2", *[length if line.startswith("length") else line for line in MATCH]])[1], due)

    def test_a_mirror_a_whole_window_ahead_is_held(self):
        told = told_of(["tss live 2", *MATCH, *["tick"] * 8, "turn", "own 0 go", "tick", "own 0 go"])[1].decode().split("\n")
        self.assertEqual(told, ["ok"] * 8 + ["over 0", "ok", "over 0", "ok", "cmd 7 0 0 0 go", "ok", "ok", "cmd 8 0 1 0 go", "ok", ""])


class Audits(Files):
    def setUp(self):
        super().setUp()
        self.lines = MATCH + TALK[-1][1]

    def audited(self, lines):
        return tool("audit_base.py", self.file("a.base", "".join(line + "\n" for line in lines)))

    def changed(self, line, *others):
        at = len(self.lines) - 1 - self.lines[::-1].index(line)
        return self.audited(self.lines[:at] + list(others) + self.lines[at + 1:])

    def test_what_follows_from_the_base_is_legal(self):
        self.assertEqual(self.audited(self.lines), ("legal 0 2 3\n", "", 0))
        done = subprocess.run([sys.executable, os.path.join(TOOLS, "audit_base.py"), "-"], input="".join(line + "\n" for line in self.lines), capture_output=True, text=True)
        self.assertEqual((done.stdout, done.returncode), ("legal 0 2 3\n", 0))

    def test_the_first_difference_is_told(self):
        for line, others, due in (
            ("live bob 4 0 n 2 5 0", ["live bob 4 0 n 3 5 0"], "line 27: live bob 4 0 n 3 5 0, due live bob 4 0 n 2 5 0"),
            ("item 1 0 gold 17", ["shot ann 4 0 e 5", "item 1 0 gold 17"], "line 28: shot ann 4 0 e 5, due item 1 0 gold 17"),
            ("cmd 8 1 9 1 left", ["cmd 10 1 9 1 left"], "line 20: cmd 10 1 9 1 left: its time isn't in 2 to 9"),
            ("cmd 8 1 9 1 left", ["cmd 1 1 9 1 left"], "line 20: cmd 1 1 9 1 left: its time isn't in 2 to 9"),
            ("cmd 8 1 9 1 left", ["cmd 8 1 8 1 left"], "line 20: cmd 8 1 8 1 left: its name stands above"),
            ("cmd 8 1 9 1 left", ["cmd 2 1 9 1 left"], "line 27: live bob 4 0 n 2 5 0, due live bob 4 0 w 2 5 0"),
            ("world 0 1 3", ["world 0 1 10"], "line 25: the last world's tick isn't in 2 to 9"),
        ):
            self.assertEqual(self.changed(line, *others), (f"not legal 0 {due}\n", "", 1))

    def test_what_is_no_such_text_is_told_in_a_line(self):
        for line, others, wrong in (
            ("base 0 2", ["base 2 2"], "line 12, 'base 2 2': a number isn't canonical, or out of range"), ("world 0 1 2", ["world 0 0 2"], "'world 0 1 2' is due"),
            ("shot ann 3 0 e 6", ["shot eve 3 0 e 6"], "here begins no block"), ("live bob 4 0 n 3 5 0", ["live bob 1 0 n 3 5 0"], "here begins no block"),
            ("item 1 0 gold 18", [], "here begins no block"), ("log 0 6", ["log 0 7"], "'cmd T F N P ACT' is due"), ("log 0 6", ["log 1 6"], "mirror 0 is due"),
            ("cmd 8 1 9 1 left", ["cmd 8 1 9 1 dash"], "it is no act"), ("cmd 8 1 9 1 left", ["cmd 8 1 9 2 left"], "out of range"),
            ("done", [], "the end of the text"), ("done", ["done", "done"], "'done' is due, and then nothing"), ("end", [], "line 11: cause 2 shape"),
        ):
            out, said, status = self.changed(line, *others)
            self.assertEqual((out, status, said.count("\n")), ("", 2, 1), said)
            self.assertIn(wrong, said)
        self.assertIn("No such file", tool("audit_base.py", self.path("nothing"))[1])

    def test_a_mirror_that_ended_later_is_compared_at_the_first_end(self):
        match = type("Setup", (), {"setup": MATCH[:-1]})
        later = told_of(["tss live 2", *MATCH, *[asked for asked, _ in TALK[:-1]], "restagger 0", "turn", "end"])[1].decode().split("\n")
        later = later[next(at for at, line in enumerate(later) if line.startswith("base ")):-1]
        self.assertEqual(BaseText(MATCH + later).time, 4)
        two = PlayedWithoutEnd(match, {0: TALK[-1][1], 1: [line.replace(" 0 ", " 1 ", 1) if line.split(" ")[0] in ("base", "world", "log") else line for line in later]}, [])
        self.assertEqual(two.verdict(), ("mirrors 0, 1 show one world at tick 3, which follows from the base at tick 2", True))


class Sessions(Files, unittest.IsolatedAsyncioTestCase):
    """What runs a session in this process, with a window of 80 ticks and a last delay of 60."""

    def match(self, window=80):
        text = read(ARENA).replace("length 8192\n", f"length {window}\n").replace("delays 0 4 20\n", "delays 0 4 60\n")
        return setup_of(self.file("a.match", text), PROGRAM)

    async def session(self, net, bots=8, rate=100):
        session = EndlessSession(self.match(), MIRROR_PROGRAM, range(4), b"k" * 16, net, rate, Told(quiet=True))
        places = {number: await session.listen(number, "127.0.0.1", 0) for number in range(4)}
        for number in range(4):
            for other in set(range(4)) - {number}:
                session.link(number, other, places[other])
        await session.begin()
        session.add_bots(bots)
        return session

    async def played(self, session, seconds, *beside):
        await asyncio.gather(session.run(seconds, asyncio.Event()), *beside)
        return PlayedWithoutEnd.of(session, await session.finish())


@unittest.skipUnless(BUILT, "tss and tss_mirror aren't built")
class Nets(Sessions):
    async def test_four_mirrors_go_on_past_their_windows(self):
        session = await self.session(Net(100, 80, 0, seed=1))
        said, is_right = (await self.played(session, 4)).verdict()
        self.assertTrue(is_right, said)
        self.assertRegex(said, r"^mirrors 0, 1, 2, 3 show one world at tick 4\d\d, which follows from the base at ticks? \d+( to \d+)?$")

    async def test_a_mirror_that_dies_leaves(self):
        session = await self.session(Net(20, 10, 0, seed=2))
        room = session.rooms[2]

        async def kill():
            await asyncio.sleep(2)
            room.process.end()
        played = await self.played(session, 4, kill())
        said, is_right = played.verdict()
        self.assertTrue(is_right, said)
        self.assertRegex(said, r"^mirrors 0, 1, 3 show one world at tick 4\d\d, .*; mirror 2 has left$")
        self.assertIn("mirror 2: the mirror died, and has left the session; what it had told nobody is lost", session.told.lines)
        self.assertNotIn(2, session.claims.values())

    async def test_a_mirror_that_stalls_past_its_window_takes_what_was_far(self):
        session = await self.session(Net(seed=3))
        room = session.rooms[1]
        room.bots, far = [], []
        take = room.take_heard
        room.take_heard = lambda command, answer: (far.extend(answer.lines), take(command, answer))

        async def stall():
            await asyncio.sleep(1)
            async with room.process.turn:
                await asyncio.sleep(1.2)
        said, is_right = (await self.played(session, 5, stall())).verdict()
        self.assertTrue(is_right, said)
        self.assertTrue(any(line.startswith("far 1 ") for line in far))
        self.assertEqual(room.far, [])

    async def test_plans_change_and_all_end_at_one_tick(self):
        session = await self.session(Net(20, 10, 0, seed=4))

        async def change():
            await asyncio.sleep(1)
            await session.rooms[0].restagger(1)
            await session.rooms[3].restagger(2)
            await asyncio.sleep(1)
            await session.rooms[3].restagger(0)
        played = await self.played(session, 4, change())
        said, is_right = played.verdict()
        self.assertTrue(is_right, said)
        self.assertEqual({BaseText(lines).time for lines in played.texts.values()}, {400})

    async def test_commands_that_cant_be_brought_are_given_up(self):
        session = await self.session(Net(seed=5))
        session.servers[1].close()
        for link in list(session.rooms[0].out.values()):
            if link.other == 1:
                link.place = ("127.0.0.1", 1)
                link.again()
        await asyncio.gather(session.run(6, asyncio.Event()))
        self.assertTrue(any("commands to mirror 1 are given up" in line for line in session.told.lines), session.told.lines)
        waiting = session.rooms[0].out[1].waiting.values()
        self.assertTrue(all(int(command.split(" ")[0]) > 600 - 160 - 256 - 30 for command, _ in waiting))
        await session.close()

    async def test_a_mirror_cant_join_past_the_first_window(self):
        session = await self.session(Net(seed=6))
        session.rooms[0].start = time.time() - 2
        for room in session.rooms.values():
            room.start = room.start or time.time()
        with self.assertRaisesRegex(Wrong, "past its first window"):
            await session.wait_for_start(asyncio.Event())
        await session.close()


@unittest.skipUnless(BUILT, "tss and tss_mirror aren't built")
class Programs(Files):
    def serve(self, *words, match=ARENA):
        return tool("serve_mirrors.py", match, "--endless", "--no-page", "--program", PROGRAM, "--mirror-program", MIRROR_PROGRAM, *words)

    def window(self, name, **others):
        text = read(ARENA).replace("length 8192\n", "length 200\n").replace("delays 0 4 20\n", "delays 0 4 100\n")
        for word, value in others.items():
            text = text.replace(f"{word} 4\n", f"{word} {value}\n")
        return self.file(name, text)

    def test_what_is_kept_is_audited(self):
        out, said, status = self.serve("--bots", "8", "--rate", "100", "--seconds", "4", "--lag", "30", "--out", self.path("kept"), match=self.window("a.match"))
        self.assertEqual((said, status), ("", 0), out)
        self.assertIn("mirrors 0, 1, 2, 3 show one world at tick 400", out)
        for mirror in range(4):
            self.assertRegex(tool("audit_base.py", os.path.join(self.path("kept"), f"mirror{mirror}.base"))[0], rf"^legal {mirror} [123]\d\d 400\n$")

    def test_two_machines_end_at_one_tick(self):
        key, match = self.file("key", "0123456789abcdef0123456789abcdef\n"), self.window("two.match", mirrors=2)
        words = [sys.executable, SERVE, match, "--endless", "--program", PROGRAM, "--mirror-program", MIRROR_PROGRAM, "--no-page", "--rate", "100", "--bots", "3", "--seconds", "4"]
        places = {0: "127.0.0.1:8961", 1: "127.0.0.1:8962"}
        running = [subprocess.Popen([*words, "--mirror", str(m), "--listen", places[m], "--peer", f"{1 - m}={places[1 - m]}", "--key", key, "--out", self.path(f"part{m}")],
                                    stdout=subprocess.PIPE, stderr=subprocess.PIPE, text=True) for m in (0, 1)]
        ended = [one.communicate(timeout=60) for one in running]
        self.assertEqual([said for _, said in ended], ["", ""])
        self.assertIn("mirror 1 shows its world at tick 400", ended[1][0])
        out, said, status = self.serve("--gather", self.path("part0"), self.path("part1"), match=match)
        self.assertEqual((said, status), ("", 0), out)
        self.assertRegex(out, r"^mirrors 0, 1 show one world at tick 400, which follows from the base at ticks? \d+( to \d+)?\n$")
        self.assertRegex(self.serve("--gather", self.path("part1"), match=match)[0], "^mirror 1 shows its world .*; mirror 0 has left\n$")

    def test_faults_are_told_in_a_line(self):
        short = self.file("short.match", read(ARENA).replace("length 8192\n", "length 61\n"))
        for words, match, wrong in ((["--broker", "127.0.0.1:1"], ARENA, "--endless wants links"), ([], short, "cause 3 number (counted from 'tss live 2')"),
                                    (["--gather", self.folder.name], ARENA, "--gather finds no 'mirror0.base' there")):
            out, said, status = self.serve(*words, match=match)
            self.assertNotIn("Traceback", said)
            self.assertEqual(status, 1)
            self.assertIn(wrong, said)

    def test_long_sessions_are_timed(self):
        out, said, status = tool("bench.py", MIRROR_PROGRAM, "--word", "endless", "--ticks", "30")
        self.assertEqual((said, status), ("", 0))
        self.assertRegex(out, r"endless: 30 ticks with 20 commands, \d+ of them late; ms of a tick: .*\nendless: memory in use at the start .*\nendless: legal 0 0 0\n$")


@unittest.skipUnless(BUILT and aiohttp, "tss and tss_mirror aren't built, or aiohttp isn't installed")
class Pages(Sessions):
    async def asyncSetUp(self):
        from serving.web import Page
        self.served, self.stop = await self.session(Net(seed=7), bots=0, rate=50), asyncio.Event()
        self.page = Page(self.served, self.stop)
        self.url = await self.page.begin(0)
        self.running = asyncio.get_running_loop().create_task(self.served.run(None, self.stop))

    async def asyncTearDown(self):
        self.stop.set()
        await self.running
        await self.page.tell_end("over")
        said, is_right = PlayedWithoutEnd.of(self.served, await self.served.finish()).verdict()
        self.assertTrue(is_right, said)

    async def test_who_looks_at_a_mirror_that_leaves_may_choose_another(self):
        session = self.served

        async def hear(socket, key):
            async with asyncio.timeout(20):
                while True:
                    message = json.loads((await socket.receive()).data)
                    if key in message:
                        return message
        async with aiohttp.ClientSession() as client, client.ws_connect(self.url + "live") as socket:
            opening = (await hear(socket, "opening"))["opening"]
            self.assertEqual((opening["length"], opening["mirrors"]), (None, [0, 1, 2, 3]))
            await socket.send_json({"do": "look", "mirror": 1})
            await socket.send_json({"do": "claim", "player": 6})
            token = (await hear(socket, "token"))["token"]
            session.rooms[1].process.end()
            message = await hear(socket, "left")
            self.assertEqual((message["left"], message["claims"]), (1, {}))
            await socket.send_json({"do": "act", "act": "go", "token": token})
            self.assertIn("isn't this page's player", (await hear(socket, "error"))["error"])
            await socket.send_json({"do": "look", "mirror": 1})
            self.assertIn("that mirror isn't here", (await hear(socket, "error"))["error"])
            await socket.send_json({"do": "look", "mirror": 2})
            await socket.send_json({"do": "claim", "player": 6})
            await hear(socket, "token")

    @unittest.skipUnless(CHROMIUM, "Chromium isn't installed")
    async def test_a_browser_shows_a_tick_without_an_end(self):
        async with Browser(self.path("profile"), self.url + "#3-5") as browser:
            await browser.until("player === 5 && window.ticks > 10")
            self.assertRegex(await browser.value("document.getElementById('state').textContent"), r"^mirror 3, tick \d+, you are fay$")
            self.served.rooms[3].process.end()
            await browser.until("mirror === null && player === null")
            self.assertEqual(await browser.value("document.getElementById('state').textContent"), "mirror 3 has left; choose another")
            self.assertEqual(await browser.value("document.querySelectorAll('#mirrors button').length"), 3)


if __name__ == "__main__":
    unittest.main()
