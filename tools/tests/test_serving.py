"""Mirrors that people play on: whole sessions over TCP, a mirror that dies, strangers, floods, the page.

They run the built programs `tss` and `tss_mirror`, or those that the variables TSS and TSS_MIRROR name.
"""

import asyncio
import base64
import json
import os
import re
import shutil
import signal
import subprocess
import sys
import time
import unittest

from common import PROGRAM, TOP, Files, read, tool

MIRROR_PROGRAM = os.environ.get("TSS_MIRROR", os.path.join(TOP, "crates", "tss_mirror", "out", "tss_mirror"))
CHROMIUM = shutil.which("chromium") or shutil.which("chromium-browser")
ARENA = os.path.join(TOP, "examples", "arena.match")
SERVE = os.path.join(TOP, "tools", "serve_mirrors.py")
BUILT = os.path.exists(PROGRAM) and os.path.exists(MIRROR_PROGRAM)

MOSQUITTO = shutil.which("mosquitto") or shutil.which("/usr/sbin/mosquitto")

try:
    import aiohttp
except ImportError:
    aiohttp = None
try:
    import paho.mqtt.client as paho
except ImportError:
    paho = None

from match_lines import MatchText
from serving import wire
from serving.links import LinkIn
from serving.log import Told
from serving.played import Played, setup_of
from serving.session import Session
from serving.wire import Net


class Sessions(Files, unittest.IsolatedAsyncioTestCase):
    """What runs a session in this process."""

    def match(self, length=400, last=20):
        text = read(ARENA).replace("length 8192\n", f"length {length}\n").replace("delays 0 4 20\n", f"delays 0 4 {last}\n")
        return setup_of(self.file("a.match", text), PROGRAM)

    async def session(self, match, net, rate=100, numbers=range(4), bots=8):
        session = Session(match, MIRROR_PROGRAM, numbers, b"k" * 16, net, rate, Told(quiet=True))
        places = {number: await session.listen(number, "127.0.0.1", 0) for number in numbers}
        for number in numbers:
            for other in numbers:
                if other != number:
                    session.link(number, other, places[other])
        await session.begin()
        session.add_bots(bots)
        session.places = places
        return session

    async def played(self, session, seconds=None, beside=None):
        tasks = [session.run(seconds, asyncio.Event())] + ([beside] if beside else [])
        await asyncio.gather(*tasks)
        return Played.of(session, await session.finish())


@unittest.skipUnless(BUILT, "tss and tss_mirror aren't built")
class Nets(Sessions):
    async def test_four_mirrors_over_a_slow_net_end_at_one_world(self):
        session = await self.session(self.match(last=60), Net(100, 80, 0, seed=1))
        played = await self.played(session)
        verdict, is_right = played.verdict(PROGRAM)
        self.assertTrue(is_right, verdict)
        self.assertIn("4 mirrors end at one world", verdict)
        self.assertGreater(len(played.commands), 200)
        repaired = [int(line.split(" ")[-1]) for told in played.told.values() for line in told if line.startswith("mirror ")]
        self.assertGreater(sum(repaired), 100, "repairs over a slow net")

    async def test_what_is_lost_is_sent_again(self):
        session = await self.session(self.match(last=120), Net(20, 20, 0.02, seed=2))
        verdict, is_right = (await self.played(session)).verdict(PROGRAM)
        self.assertTrue(is_right, verdict)

    async def test_what_was_played_is_a_match_with_a_script(self):
        session = await self.session(self.match(100), Net(60, 40, 0, seed=3))
        played = await self.played(session)
        path = self.file("played.match", "".join(line + "\n" for line in played.script_lines()))
        MatchText.read(path, PROGRAM)
        done = subprocess.run([PROGRAM, "play"], input=read(path).encode(), capture_output=True, text=False)
        lines = done.stdout.decode().split("\n")
        for number, told in played.told.items():
            self.assertIn(next(line for line in told if line.startswith("mirror ")), lines)

    async def test_a_mirror_that_is_killed_comes_back(self):
        session = await self.session(self.match(300, last=250), Net(20, 10, 0, seed=4))
        room = session.rooms[2]

        async def kill():
            while room.clock < 100:
                await asyncio.sleep(0.01)
            room.process.end()
        played = await self.played(session, beside=kill())
        verdict, is_right = played.verdict(PROGRAM)
        self.assertEqual(room.restarts, 1)
        self.assertTrue(is_right, verdict)
        numbers = [int(command.split(" ")[2]) for command in played.commands if command.split(" ")[1] == "2"]
        self.assertEqual(len(numbers), len(set(numbers)))
        self.assertTrue(any("begun anew" in line for line in session.told.lines), session.told.lines)

    async def test_strangers_bring_nothing(self):
        session = await self.session(self.match(60), Net(seed=5), numbers=range(4), bots=0)
        while not all(link.is_up for room in session.rooms.values() for link in room.out.values()):
            await asyncio.sleep(0.01)
        before = {number: list(room.heard) for number, room in session.rooms.items()}
        place = session.places[0]
        self.addCleanup(setattr, LinkIn, "MOST_BYTES_A_SECOND", LinkIn.MOST_BYTES_A_SECOND)

        async def said(*lines, identity=wire.Identity(b"x" * 16, 1, session.rooms[1].peers.identity.match)):
            reader, writer = await asyncio.open_connection(*place)
            try:
                sealed = identity and await wire.greet(reader, writer, identity, is_first=True)
                for line in lines:
                    sealed.send(line[:-1].decode("ascii")) if sealed else writer.write(line)
                heard = b""
                while piece := await asyncio.wait_for(reader.read(1 << 16), 3):
                    heard += piece
                return heard.decode("ascii", "replace")[-200:]
            except (wire.Stranger, ConnectionError, asyncio.IncompleteReadError) as fault:
                return str(fault)
            finally:
                writer.close()
        self.assertIn("it hasn't the key", await said(b"cmd 0 1 1 0 0 go\n"))
        for lines, why in (([b"GET / HTTP/1.1\r\n\r\n"], "doesn't greet as a mirror"), ([b"x" * 5000 + b"\n"], "a line is too long")):
            await said(*lines, identity=None)
            self.assertIn(why, session.told.lines[-1])
        for lines, why in (([b"cmd 0 1 2 0 0 go\n"], "mirror 1 sends a command of mirror 2"), ([b"cmd 0 1 1 0 0 fly\n"], "what is no command"),
                           ([b"end\n"], "says what no mirror says"), ([b"ping 1.000000\n"] * 5000, "too many bytes in a second")):
            LinkIn.MOST_BYTES_A_SECOND = 1 << 16  # a busy machine reads slowly
            await said(*lines, identity=session.rooms[1].peers.identity)
            self.assertIn(why, session.told.lines[-1])
        self.assertEqual({number: room.heard for number, room in session.rooms.items()}, before)
        await self.played(session)


@unittest.skipUnless(BUILT, "tss and tss_mirror aren't built")
class Programs(Files):
    """The tool as it is run."""

    def patient(self):
        """The arena with a last delay of a second at 100 ticks a second, so that a busy machine turns no command away."""
        return self.file("patient.match", read(ARENA).replace("delays 0 4 20\n", "delays 0 4 100\n"))

    def serve(self, *words, match=None):
        return tool("serve_mirrors.py", match or self.patient(), "--program", PROGRAM, "--mirror-program", MIRROR_PROGRAM, *words)

    def test_a_session_is_kept_and_audited(self):
        folder = self.path("played")
        out, said, status = self.serve("--no-page", "--bots", "8", "--rate", "100", "--seconds", "2", "--lag", "30", "--out", folder)
        self.assertEqual((said, status), ("", 0), out)
        self.assertRegex(out, r"4 mirrors end at one world, as `tss order` has it; \d+ commands; the record is legal \d+\n$")
        with open(os.path.join(folder, "played.record"), "rb") as record:
            self.assertTrue(subprocess.run([PROGRAM, "audit"], stdin=record, capture_output=True).stdout.startswith(b"legal "))
        self.assertEqual(tool("draw_record.py", os.path.join(folder, "played.record"), "--mirror", "0", "--to", "100")[2], 0)
        study = tool("study_delays.py", os.path.join(folder, "played.match"), "--program", PROGRAM, "--delays", "0 8 40")
        self.assertEqual(study[2], 0, study[1])

    def test_ctrl_c_ends_a_session(self):
        words = [sys.executable, SERVE, self.patient(), "--program", PROGRAM, "--mirror-program", MIRROR_PROGRAM, "--no-page", "--bots", "4", "--rate", "100"]
        with subprocess.Popen(words, stdout=subprocess.PIPE, stderr=subprocess.PIPE) as served:
            time.sleep(2.5)
            served.send_signal(signal.SIGINT)
            out, said = served.communicate(timeout=60)
        self.assertEqual((said, served.returncode), (b"", 0))
        self.assertIn(b"the record is legal", out)

    def test_two_machines_are_two_processes_with_one_key(self):
        key = self.file("key", "0123456789abcdef0123456789abcdef\n")
        match = self.file("two.match", read(self.patient()).replace("mirrors 4\n", "mirrors 2\n").replace("length 8192\n", "length 100\n"))
        places = {0: "127.0.0.1:8951", 1: "127.0.0.1:8952"}
        running = [subprocess.Popen([sys.executable, SERVE, match, "--program", PROGRAM, "--mirror-program", MIRROR_PROGRAM, "--no-page", "--rate", "50", "--bots", "3",
                                     "--mirror", str(m), "--listen", places[m], "--peer", f"{1 - m}={places[1 - m]}", "--key", key, "--out", self.path(f"part{m}")],
                                    stdout=subprocess.PIPE, stderr=subprocess.PIPE, text=True) for m in (0, 1)]
        ended = [one.communicate(timeout=60) for one in running]
        self.assertEqual([said for _, said in ended], ["", ""])
        self.assertIn("its wall clock is", ended[1][0])
        out, said, status = self.serve("--gather", self.path("part0"), self.path("part1"), match=match)
        self.assertEqual((said, status), ("", 0), out)
        self.assertRegex(out, r"^2 mirrors end at one world, as `tss order` has it; \d+ commands; the record is legal \d+\n$")

    @unittest.skipUnless(MOSQUITTO and paho, "mosquitto or paho isn't installed")
    def test_mirrors_over_a_broker(self):
        config = self.file("mosquitto.conf", "listener 8953 127.0.0.1\nallow_anonymous true\npersistence false\n")
        with subprocess.Popen([MOSQUITTO, "-c", config], stdout=subprocess.DEVNULL, stderr=subprocess.DEVNULL) as broker:
            try:
                time.sleep(0.5)
                words = ["--no-page", "--bots", "8", "--rate", "100", "--seconds", "4", "--broker", "127.0.0.1:8953"]
                outs = [self.serve(*words) for _ in range(2)]
            finally:
                broker.terminate()
        for out, said, status in outs:
            self.assertEqual((said, status), ("", 0), out)
            self.assertIn("4 mirrors end at one world", out)

    def test_faults_are_told_in_a_line(self):
        for words, wrong in ((["--mirror", "1"], "--key FILE"), (["--mirror", "9"], "no number from 0 to 7"), (["--bots", "17"], "1 too few"),
                             (["--mirror-program", "/no/program"], "build it by"), (["--loss", "2"], "no part from 0 to 0.5")):
            out, said, status = self.serve("--no-page", *words)
            self.assertNotIn("Traceback", said)
            self.assertNotEqual(status, 0)
            self.assertIn(wrong, said)


@unittest.skipUnless(BUILT and aiohttp, "tss and tss_mirror aren't built, or aiohttp isn't installed")
class Pages(Sessions):
    async def asyncSetUp(self):
        from serving.web import Page
        self.served = await self.session(self.match(2000), Net(seed=6), rate=20, bots=2)
        self.stop = asyncio.Event()
        self.page = Page(self.served, self.stop)
        self.url = await self.page.begin(0)
        self.running = asyncio.get_running_loop().create_task(self.served.run(None, self.stop))

    async def asyncTearDown(self):
        self.stop.set()
        await self.running
        await self.page.tell_end("over")
        await self.served.finish()

    async def hear(self, socket, key, seconds=5):
        until = time.monotonic() + seconds
        while time.monotonic() < until:
            message = json.loads((await asyncio.wait_for(socket.receive(), seconds)).data)
            if key in message:
                return message
        self.fail(f"no message with '{key}'")

    async def test_a_player_is_claimed_and_acts(self):
        async with aiohttp.ClientSession() as client, client.ws_connect(self.url + "live") as socket:
            opening = (await self.hear(socket, "opening"))["opening"]
            self.assertEqual((opening["players"][0], opening["mirrors"]), ("ann", [0, 1, 2, 3]))
            await socket.send_json({"do": "look", "mirror": 1})
            await socket.send_json({"do": "claim", "player": 6})
            token = (await self.hear(socket, "token"))["token"]
            await socket.send_json({"do": "act", "act": "left", "token": token})
            await asyncio.sleep(0.5)
            tick = await self.hear(socket, "tick")
            self.assertEqual(tick["mirror"], 1)
            shown = [[copy for copy, _, _ in (await self.hear(socket, "tick"))["copies"]] for _ in range(4)]
            self.assertEqual(({copies[0] for copies in shown}, {tuple(copies[1:]) for copies in shown}), ({0}, {(1,), (2,)}))
            own = [command for command in self.served.rooms[1].commands.values() if command.split(" ")[3] == "6"]
            self.assertEqual([command.split(" ")[4] for command in own], ["left"])
        await asyncio.sleep(0.2)
        self.assertNotIn(6, self.served.claims)

    async def test_broken_messages_change_nothing(self):
        async with aiohttp.ClientSession() as client, client.ws_connect(self.url + "live") as socket, client.ws_connect(self.url + "live") as other:
            await other.send_json({"do": "look", "mirror": 0})
            await other.send_json({"do": "claim", "player": 7})
            token = (await self.hear(other, "token"))["token"]
            for message, wrong in (("{", "no JSON"), ("[]", "no object"), ('{"do":"fly"}', "no object"), ('{"do":"claim","player":6}', "choose a mirror first"),
                                   ('{"do":"look","mirror":9}', "no number from 0 to 7"), ('{"do":"look","mirror":true}', "no number"), ('{"do":"look","mirror":1.5}', "no whole"),
                                   ('{"do":"act","act":"go","token":"x"}', "isn't this page's player"), (json.dumps({"do": "act", "act": "go", "token": token}), "isn't this page's"),
                                   ('{"do":"net","lag":-1,"jitter":0,"loss":0}', "'lag' is no number"), ('{"do":"plan","plan":1}', "choose a mirror first")):
                await socket.send_str(message)
                self.assertIn(wrong, (await self.hear(socket, "error"))["error"], message)
            await socket.send_json({"do": "look", "mirror": 0})
            await socket.send_json({"do": "claim", "player": 7})
            self.assertIn("hal is played already", (await self.hear(socket, "error"))["error"])
            self.assertEqual(self.served.net.lag, 0)

    async def test_a_flood_is_closed(self):
        async with aiohttp.ClientSession() as client, client.ws_connect(self.url + "live") as socket:
            for _ in range(200):
                await socket.send_str("{}")
            while True:
                message = await asyncio.wait_for(socket.receive(), 5)
                if message.type in (aiohttp.WSMsgType.CLOSE, aiohttp.WSMsgType.CLOSED, aiohttp.WSMsgType.CLOSING):
                    break
            self.assertEqual(socket.close_code, 1008)

    async def test_a_page_of_another_place_is_turned_away(self):
        async with aiohttp.ClientSession() as client:
            with self.assertRaises(aiohttp.WSServerHandshakeError):
                await client.ws_connect(self.url + "live", headers={"Origin": "http://example.org"})

    async def test_the_net_and_the_plan_are_changed_while_it_runs(self):
        async with aiohttp.ClientSession() as client, client.ws_connect(self.url + "live") as socket:
            await socket.send_json({"do": "look", "mirror": 2})
            await socket.send_json({"do": "net", "lag": 50, "jitter": 5, "loss": 0.01})
            self.assertEqual((await self.hear(socket, "net"))["net"], [50, 5, 0.01])
            await socket.send_json({"do": "plan", "plan": 2})
            for _ in range(100):
                if (await self.hear(socket, "tick"))["plan"] == 2:
                    return
            self.fail("the plan isn't in force")

    @unittest.skipUnless(CHROMIUM, "Chromium isn't installed")
    async def test_a_browser_plays(self):
        async with Browser(self.path("profile"), self.url + "#3-5") as browser:
            await browser.until("player === 5 && window.ticks > 10")
            for key, text in (("ArrowLeft", ""), (" ", " ")):
                await browser.key(key, text)
            await asyncio.sleep(0.5)
            self.assertRegex(await browser.value("document.getElementById('state').textContent"), r"mirror 3, tick \d+ of 2000, you are fay")
            self.assertEqual(await browser.value("document.querySelectorAll('.copy canvas').length"), 3)
            self.assertGreater(await browser.value(INKED), 300)
            self.assertGreater(len(await browser.picture()), 20_000)
        own = [command.split(" ")[4] for command in self.served.rooms[3].commands.values() if command.split(" ")[3] == "5"]
        self.assertEqual(sorted(own), ["left", "shoot"])


# How many pixels of the leading copy have a colour.
INKED = """(() => { const canvas = panes[0].canvas, bytes = canvas.getContext("2d").getImageData(0, 0, canvas.width, canvas.height).data;
let count = 0; for (let at = 3; at < bytes.length; at += 4) count += bytes[at] > 0; return count; })()"""


class Browser:
    """A headless Chromium with one page, driven over its own protocol."""

    def __init__(self, profile, url):
        self.profile, self.url, self.next = profile, url, 0

    async def __aenter__(self):
        words = [CHROMIUM, "--headless", "--no-sandbox", "--disable-gpu", "--window-size=1280,950", "--remote-debugging-port=0", f"--user-data-dir={self.profile}", "about:blank"]
        self.process = await asyncio.create_subprocess_exec(*words, stdout=asyncio.subprocess.DEVNULL, stderr=asyncio.subprocess.PIPE)
        while True:
            line = (await asyncio.wait_for(self.process.stderr.readline(), 30)).decode()
            found = re.search(r"ws://([\d.:]+)/", line)
            if found:
                break
            if not line:
                raise AssertionError("Chromium ended before it listened")
        self.client = aiohttp.ClientSession()
        async with self.client.put(f"http://{found.group(1)}/json/new?{self.url.replace('#', '%23')}") as made:
            target = json.loads(await made.text())["webSocketDebuggerUrl"]
        self.socket = await self.client.ws_connect(target, max_msg_size=0)
        return self

    async def __aexit__(self, *_):
        await self.socket.close()
        await self.client.close()
        self.process.kill()
        await self.process.wait()

    async def ask(self, method, **given):
        self.next += 1
        await self.socket.send_json({"id": self.next, "method": method, "params": given})
        while True:
            message = json.loads((await asyncio.wait_for(self.socket.receive(), 30)).data)
            if message.get("id") == self.next:
                return message["result"]

    async def value(self, text):
        return (await self.ask("Runtime.evaluate", expression=text))["result"].get("value")

    async def until(self, text, seconds=30):
        until = time.monotonic() + seconds
        while await self.value(text) is not True:
            if time.monotonic() > until:
                raise AssertionError(f"never so: {text}")
            await asyncio.sleep(0.1)

    async def key(self, key, text):
        for kind in ("keyDown", "keyUp"):
            await self.ask("Input.dispatchKeyEvent", type=kind, key=key, text=text if kind == "keyDown" else "")

    async def picture(self):
        return base64.b64decode((await self.ask("Page.captureScreenshot"))["data"])


if __name__ == "__main__":
    unittest.main()
