"""Mirrors over a broker of messages: sessions before and beside this one, strangers at the broker, and a broker that goes.

They run the built programs `tss` and `tss_mirror`, or those that the variables TSS and TSS_MIRROR name, and mosquitto.
"""

import asyncio
import os
import re
import shutil
import subprocess
import time
import unittest

from common import Files, read
from live_sessions import free_ports
from machines import MOSQUITTO, Machines, Tool
from test_serving import ARENA, BUILT, paho

from match_lines import Wrong

PASSWORDS, OPENSSL = shutil.which("mosquitto_passwd"), shutil.which("openssl")


class Broker:
    """A mosquitto of its own, which keeps nothing on a disk."""

    def __init__(self, case, *lines):
        self.case, (self.port,) = case, free_ports(1)
        self.config = case.file(f"mosquitto{self.port}.conf", "\n".join([f"listener {self.port} 127.0.0.1", "persistence false", *(lines or ["allow_anonymous true"]), ""]))
        self.begin()
        case.addCleanup(self.end)

    def begin(self):
        self.process = subprocess.Popen([MOSQUITTO, "-c", self.config], stdout=subprocess.DEVNULL, stderr=subprocess.DEVNULL)
        with Watcher(self.port, ()):
            pass  # it listens

    def end(self):
        self.process.kill()
        self.process.wait()


class Watcher:
    """Whoever is at the broker and hasn't the key: it hears all messages, and may send any."""

    def __init__(self, port, topics=("#",)):
        self.messages, self.port, self.topics = [], port, topics

    def __enter__(self):
        version = getattr(paho, "CallbackAPIVersion", None)
        self.client = paho.Client(version.VERSION1) if version else paho.Client()
        self.client.on_message = lambda client, userdata, message: self.messages.append((message.topic, message.payload, message.retain))
        until = time.monotonic() + 20
        while True:
            try:
                self.client.connect("127.0.0.1", self.port)
                break
            except OSError:
                if time.monotonic() > until:
                    raise
                time.sleep(0.05)
        for topic in self.topics:
            self.client.subscribe(topic, 1)
        self.client.loop_start()
        return self

    def __exit__(self, *_):
        self.client.disconnect()
        self.client.loop_stop()

    def say(self, topic, payload, retain=False):
        self.client.publish(topic, payload, qos=1, retain=retain).wait_for_publish(10)

    def kept(self):
        """The topics of what the broker keeps now."""
        with Watcher(self.port) as other:
            time.sleep(0.7)
            return sorted({topic for topic, payload, is_kept in other.messages if is_kept and payload})


@unittest.skipUnless(BUILT and MOSQUITTO and paho, "tss, tss_mirror, mosquitto or paho isn't there")
class Machined(Machines, unittest.IsolatedAsyncioTestCase):
    """A session of two machines over a broker, in this process."""

    async def asyncSetUp(self):
        asyncio.get_running_loop().set_debug(False)
        self.broker = Broker(self)

    async def machine_at(self, match, number, forget=None, **given):
        from serving.broker import BrokerLink
        from serving.broker_client import Access
        session = await self.machine(match, number, **given)
        for server in session.servers:
            server.close()
        room = session.rooms[number]
        room.out["broker"] = BrokerLink(room, Access(("127.0.0.1", self.broker.port)), forget)
        return session

    async def machines_at(self, match, **given):
        sessions = [await self.machine_at(match, number, **given) for number in (0, 1)]
        await self.begun(*sessions)
        return sessions

    async def running(self, *sessions):
        runs = [asyncio.ensure_future(session.run(None, asyncio.Event())) for session in sessions]
        self.addCleanup(lambda: [run.cancel() for run in runs])
        await self.until(lambda: all(room.clock > 10 for session in sessions for room in session.rooms.values()))
        return runs

    async def ended(self, match, sessions, runs):
        for session in sessions:
            for room in session.rooms.values():
                room.length = room.clock  # its last tick
        await asyncio.gather(*runs)
        return self.together(match, sessions, await asyncio.gather(*[session.finish() for session in sessions]))


class Sessions(Machined):
    async def test_machines_that_end_apart_lose_no_command_and_leave_none_at_the_broker(self):
        match = self.match(last=100)
        one, other = await self.machines_at(match)
        told = await asyncio.gather(self.played(one, 1.5), self.played(other, 2))
        said, is_right = self.together(match, (one, other), told)
        self.assertTrue(is_right, said)
        self.assertEqual(one.rooms[0].commands, other.rooms[1].commands)
        self.assertGreater(len(one.rooms[0].commands), 20)
        with Watcher(self.broker.port) as watcher:
            self.assertEqual(watcher.kept(), [])

    async def test_what_a_stranger_sends_again_is_taken_by_nobody(self):
        match = self.match(length=8000)
        with Watcher(self.broker.port) as watcher:
            sessions = await self.machines_at(match)
            said, is_right = await self.ended(match, sessions, await self.running(*sessions))
            self.assertTrue(is_right, said)
            old = [(topic, payload) for topic, payload, _ in watcher.messages if payload]
            self.assertGreater(len(old), 20)
            sessions = await self.machines_at(match)
            runs = await self.running(*sessions)
            for topic, payload in old:
                for retain in (False, True):
                    watcher.say(topic, payload, retain)
            number = next(iter(sessions[0].rooms[0].out.values())).session
            for topic, payload in old:
                parts = topic.split("/")
                if len(parts) > 4:
                    watcher.say("/".join([*parts[:2], number, *parts[3:]]), payload)
            await asyncio.sleep(1)
            own = {name for session in sessions for room in session.rooms.values() for name in room.commands if name[0] == room.number}
            said, is_right = await self.ended(match, sessions, runs)
            self.assertTrue(is_right, said)
            self.assertLessEqual(own, set(sessions[0].rooms[0].commands))
            self.assertEqual(sessions[0].rooms[0].commands, sessions[1].rooms[1].commands)

    async def test_a_tool_that_is_started_again_is_refused(self):
        for number in (0, 1):
            match = self.match(length=8000)
            sessions = await self.machines_at(match)
            runs = await self.running(*sessions)
            again = await self.machine_at(match, number)
            await again.begin()
            with self.assertRaisesRegex(Wrong, f"mirror {number} was begun again beside a running session"):
                async with asyncio.timeout(20):
                    await again.run(None, asyncio.Event())
            self.assertFalse(runs[1 - number].done(), "who was there goes on")
            await again.close()
            said, is_right = await self.ended(match, sessions, runs)
            self.assertTrue(is_right, said)

    async def test_mirrors_of_different_matches_dont_play_together(self):
        one, other = await self.machine_at(self.match(), 0), await self.machine_at(self.match(last=99), 1)
        await self.begun(one, other)
        with self.assertRaisesRegex(Wrong, "it plays another match"):
            async with asyncio.timeout(20):
                await asyncio.gather(one.run(None, asyncio.Event()), other.run(None, asyncio.Event()))
        self.assertTold(one, "mirror 1 isn't let in: it plays another match")

    async def test_wall_clocks_neednt_agree(self):
        match, wall = self.match(length=8000), 3.0
        one, other = await self.machine_at(match, 0), await self.machine_at(match, 1)
        from serving import broker
        real = broker.now
        broker.now = lambda: real() + wall  # only mirror 0 says its clock there, and only mirror 1 looks at its own
        self.addCleanup(setattr, broker, "now", real)
        link = other.rooms[1].out["broker"]
        hear = link.hear_welcome

        def hear_welcome(*given):
            broker.now = real
            hear(*given)
            broker.now = lambda: real() + wall
        link.hear_welcome = hear_welcome
        await self.begun(one, other)
        started = asyncio.ensure_future(asyncio.gather(one.run(0.5, asyncio.Event()), other.run(0.5, asyncio.Event())))
        await self.until(lambda: other.rooms[1].start is not None)
        self.assertLess(abs(one.rooms[0].start - other.rooms[1].start - wall), 0.3)
        started.cancel()
        await asyncio.gather(started, return_exceptions=True)


class Strangers(Machined):
    async def test_odd_messages_are_left(self):
        match = self.match(length=8000)
        sessions = await self.machines_at(match)
        runs = await self.running(*sessions)
        link = sessions[0].rooms[0].out["broker"]
        faults = []
        asyncio.get_running_loop().set_exception_handler(lambda loop, context: faults.append(context))
        with Watcher(self.broker.port, ()) as stranger:
            for payload in (b"\xff\xfe cmd", "ä" * 64 + " cmd 1 1 1 4 go", b"x" * 100_000, b"a b", b" ", b"\x00", "0" * 64 + " start inf", "0" * 64 + " hello"):
                for rest in ("hello", f"{link.session}/cmd/1/1", f"{link.session}/start", f"up/{'a' * 16}", f"{link.session}/ä"):
                    stranger.say(link.topic(rest), payload)
            await asyncio.sleep(0.5)
        self.assertEqual(faults, [])
        self.assertTold(sessions[0], "a message was left: it hasn't the key")
        said, is_right = await self.ended(match, sessions, runs)
        self.assertTrue(is_right, said)

    async def test_what_a_stranger_takes_away_harms_no_mirror_that_begins_anew(self):
        match = self.match(length=8000, last=1000)
        sessions = await self.machines_at(match)
        runs = await self.running(*sessions)
        room = sessions[1].rooms[1]
        await self.until(lambda: room.clock > 150)
        with Watcher(self.broker.port) as stranger:
            for topic in stranger.kept():
                stranger.say(topic, b"", True)
        room.process.end()
        await self.until(lambda: room.restarts == 1 and room.clock > 200)
        said, is_right = await self.ended(match, sessions, runs)
        self.assertTrue(is_right, said)


class Brokers(Machined):
    async def test_a_broker_that_goes_and_comes_back_loses_nothing(self):
        match = self.match(length=8000, last=1000)
        sessions = await self.machines_at(match)
        runs = await self.running(*sessions)
        await asyncio.to_thread(self.broker.end)
        await self.until(lambda: all(any("the broker is away" in line for line in session.told.lines) for session in sessions))
        await asyncio.sleep(1)
        await asyncio.to_thread(self.broker.begin)
        await self.until(lambda: all(session.rooms[number].out["broker"].is_up for number, session in enumerate(sessions)))
        said, is_right = await self.ended(match, sessions, runs)
        self.assertTrue(is_right, said)
        self.assertEqual(sessions[0].rooms[0].commands, sessions[1].rooms[1].commands)


@unittest.skipUnless(BUILT and MOSQUITTO and paho, "tss, tss_mirror, mosquitto or paho isn't there")
class Programs(Files):
    def patient(self):
        return self.file("patient.match", read(ARENA).replace("delays 0 4 20\n", "delays 0 4 100\n"))

    def test_a_broker_that_is_away_at_the_end_costs_no_verdict(self):
        broker = Broker(self)
        tool = Tool(self, self.patient(), "--bots", "8", "--rate", "50", "--broker", f"127.0.0.1:{broker.port}", "--out", self.path("out"))
        tool.until("mirror 3: mirror 2 is at the broker")
        time.sleep(3)
        broker.end()
        tool.until("the broker is away")
        time.sleep(0.5)
        tool.interrupt()
        said, status = tool.ended(90)
        self.assertNotIn("Traceback", said)
        self.assertIn("last commands may be missing here", said)
        self.assertIn("messages of session", said)
        self.assertRegex(said, r"4 mirrors end at .*; \d+ commands; the record is legal \d+\n$")
        self.assertTrue(os.path.exists(os.path.join(self.path("out"), "played.record")))

    def two(self, broker, *more):
        """A tool for each mirror of a match of two, once both are linked."""
        key, match = self.file("key", "0123456789abcdef0123456789abcdef\n"), self.file("two.match", read(self.patient()).replace("mirrors 4\n", "mirrors 2\n"))
        words = ["--bots", "3", "--rate", "50", "--key", key, "--broker", f"127.0.0.1:{broker.port}", *more]
        return [Tool(self, match, *words, "--mirror", str(number), "--out", self.path(f"part{number}")) for number in (0, 1)], match

    def test_what_a_killed_session_left_stops_the_next_and_can_be_forgotten(self):
        broker = Broker(self)
        tools, _ = self.two(broker)
        tools[1].until("tick 0 as mirror 0 says")
        time.sleep(2)
        for tool in tools:
            tool.kill()
        tools, _ = self.two(broker)
        said, status = tools[0].ended()
        self.assertEqual(status, 1, said)
        found = re.search(r"the broker keeps (\d+) messages of session (\w+) with this key, for which nobody answers.*--forget (\w+) takes them away", said)
        self.assertTrue(found and int(found.group(1)) > 20 and found.group(2) == found.group(3), said)
        tools[1].kill()
        tools, match = self.two(broker, "--forget", found.group(2), "--seconds", "2")
        for tool in tools:
            said, status = tool.ended()
            self.assertEqual(status, 0, said)
        said, status = Tool(self, match, "--gather", self.path("part0"), self.path("part1")).ended()
        self.assertEqual(status, 0, said)
        self.assertIn("2 mirrors end at one world, as `tss order` has it", said)
        with Watcher(broker.port) as watcher:
            self.assertEqual(watcher.kept(), [])

    def test_a_broker_that_never_was_is_told(self):
        tool = Tool(self, self.patient(), "--bots", "8", "--broker", f"127.0.0.1:{free_ports(1)[0]}")
        tool.until("the broker isn't reached")
        tool.interrupt()
        said, status = tool.ended()
        self.assertNotIn("Traceback", said)
        self.assertIn("the record is legal", said)

    @unittest.skipUnless(PASSWORDS, "mosquitto_passwd isn't there")
    def test_a_broker_may_want_a_user_and_a_password(self):
        passwords = self.file("passwords", "")
        subprocess.run([PASSWORDS, "-b", "-c", passwords, "ann", "secret of ann"], check=True, capture_output=True)
        os.chmod(passwords, 0o644)
        os.chmod(self.folder.name, 0o755)
        broker = Broker(self, "allow_anonymous false", f"password_file {passwords}")
        words = ["--bots", "8", "--rate", "100", "--seconds", "2", "--broker", f"127.0.0.1:{broker.port}"]
        tool = Tool(self, self.patient(), *words)
        tool.until("the broker refuses: ")
        self.assertIn("uthori", tool.said())
        tool.interrupt()
        said, status = Tool(self, self.patient(), *words, env={"TSS_BROKER_USER": "ann", "TSS_BROKER_PASSWORD": "secret of ann"}).ended()
        self.assertEqual(status, 0, said)
        self.assertIn("4 mirrors end at one world", said)

    @unittest.skipUnless(OPENSSL, "openssl isn't there")
    def test_a_broker_may_speak_tls(self):
        def openssl(*words):
            subprocess.run([OPENSSL, *words], check=True, capture_output=True, cwd=self.folder.name)
        openssl("req", "-x509", "-newkey", "rsa:2048", "-nodes", "-keyout", "ca.key", "-out", "ca.pem", "-days", "2", "-subj", "/CN=a test")
        openssl("req", "-newkey", "rsa:2048", "-nodes", "-keyout", "broker.key", "-out", "broker.csr", "-subj", "/CN=127.0.0.1")
        self.file("names", "subjectAltName=IP:127.0.0.1\n")
        openssl("x509", "-req", "-in", "broker.csr", "-CA", "ca.pem", "-CAkey", "ca.key", "-CAcreateserial", "-out", "broker.pem", "-days", "2", "-extfile", "names")
        os.chmod(self.folder.name, 0o755)
        os.chmod(self.path("broker.key"), 0o644)
        broker = Broker(self, "allow_anonymous true", f"certfile {self.path('broker.pem')}", f"keyfile {self.path('broker.key')}")
        words = ["--bots", "8", "--rate", "50", "--seconds", "2", "--broker", f"127.0.0.1:{broker.port}"]
        said, status = Tool(self, self.patient(), *words, "--broker-ca", self.path("ca.pem")).ended()
        self.assertEqual(status, 0, said)
        self.assertIn("4 mirrors end at one world", said)
        tool = Tool(self, self.patient(), *words, "--broker-ca", self.path("broker.pem"))
        tool.until("the broker isn't reached")


if __name__ == "__main__":
    unittest.main()
