"""What members, who have the key, may do wrong; keys; and whole tools of several machines.

They run the built programs `tss` and `tss_mirror`, or those that the variables TSS and TSS_MIRROR name.
"""

import argparse
import asyncio
import os
import time
import unittest
from unittest import mock

from common import Files, read
from live_sessions import free_ports
from machines import KEY, Bridged, Linked, Tool
from test_serving import ARENA, BUILT

import serve_mirrors
from match_lines import Wrong


class Odd:
    """A number that a line can't have."""

    def __format__(self, form):
        return "inf.nan"


@unittest.skipUnless(BUILT, "tss and tss_mirror aren't built")
class Members(Linked):
    """What a member, who has the key, may do wrong."""

    async def test_odd_answers_end_no_link_for_ever(self):
        for odd in (float("inf"), Odd()):
            one, other = await self.machines(self.match())
            one.rooms[0].start = odd
            await self.begun(one, other)
            await asyncio.sleep(1)
            self.assertIsNone(other.rooms[1].start)
            self.assertTold(other, "it says what no mirror says")
            one.rooms[0].start = time.time() + 3600
            await self.until(lambda: other.rooms[1].start is not None)
            await self.begun_again(one, other)

    async def begun_again(self, *sessions):
        for session in sessions:
            await session.close()

    async def greeted(self, session, number):
        """A connection to a session's first mirror, of one that says that it is this run of another."""
        from serving import wire
        room = next(iter(session.rooms.values()))
        reader, writer = await asyncio.open_connection(*session.place)
        self.addCleanup(writer.close)
        identity = wire.Identity(KEY, number, room.peers.identity.match)
        identity.run = room.peers.runs.get(number, identity.run)
        return await wire.greet(reader, writer, identity, is_first=True)

    async def test_all_commands_are_asked_for_once(self):
        one, _ = await self.machines(self.match())
        for at in range(300):
            one.rooms[0].commands[0, at] = f"0 0 {at} 0 go"
        await one.begin()
        sealed = await self.greeted(one, 1)
        sealed.send("want")
        heard = []
        async with asyncio.timeout(20):
            while heard[-1:] != ["olds"]:
                heard.append(await sealed.read())
        self.assertEqual(len(heard), 301)
        sealed.send("want")
        self.assertIn("it asks for all commands twice", await asyncio.wait_for(sealed.read(), 20))

    async def test_who_asks_and_goes_stops_no_mirror(self):
        one, _ = await self.machines(self.match())
        await one.begin()
        for _ in range(20):
            sealed = await self.greeted(one, 1)
            sealed.send("want")
            sealed.writer.close()
        await asyncio.sleep(0.5)
        self.assertEqual((await one.rooms[0].process.ask("commands"))[0].lines, [])
        self.assertEqual(one.rooms[0].restarts, 0)

    async def test_olds_are_taken_only_while_they_are_wanted(self):
        one, other = await self.machines(self.match())
        await self.begun(one, other)
        link = one.rooms[0].out[1]
        await self.until(lambda: link.is_up)
        link.take("old 1 1 0 4 go")
        self.assertEqual(one.rooms[0].olds, set())
        one.rooms[0].wants = True
        link.take("old 1 1 0 4 go")
        self.assertEqual(one.rooms[0].olds, {"1 1 0 4 go"})

    async def test_who_connects_proves_first(self):
        one, _ = await self.machines(self.match())
        await one.begin()
        reader, writer = await asyncio.open_connection(*one.place)
        self.addCleanup(writer.close)
        writer.write(f"peer 2 1 {'a' * 16} {'b' * 32} {one.rooms[0].peers.identity.match}\n".encode())
        self.assertTrue((await asyncio.wait_for(reader.readline(), 20)).startswith(b"who 2 0 "))
        with self.assertRaises(TimeoutError):
            await asyncio.wait_for(reader.read(1), 1)

    async def test_another_version_is_told(self):
        one, _ = await self.machines(self.match())
        await one.begin()
        reader, writer = await asyncio.open_connection(*one.place)
        self.addCleanup(writer.close)
        writer.write(f"peer 3 1 {'a' * 16} {'b' * 32} {'c' * 32}\n".encode())
        self.assertIn(b"it speaks version 3 of the links, and this side 2", await asyncio.wait_for(reader.readline(), 20))


class Keys(Files):
    def key(self, data, mode=0o600):
        with open(self.path("key"), "wb") as file:
            file.write(data)
        os.chmod(self.path("key"), mode)
        return serve_mirrors.key_of(argparse.Namespace(key=self.path("key"), mirror=0))

    def test_random_bytes_are_taken_as_they_are(self):
        for data in (b"\n" + bytes(range(128, 143)), bytes(range(128, 143)) + b"\r\n\t", b" \x00" + bytes(range(200, 214))):
            self.assertEqual(self.key(data), data)

    def test_a_line_of_text_is_taken_without_its_newline(self):
        for data in (b"0123456789abcdef", b"0123456789abcdef\n", b"0123456789abcdef\r\n"):
            self.assertEqual(self.key(data), b"0123456789abcdef")

    def test_a_key_that_is_guessed_is_refused(self):
        for data in (b"a" * 16, b"abab" * 10, b"\x00" * 40, b"0123456789abcde", b"0123456789abcde\n"):
            with self.assertRaises(Wrong):
                self.key(data)

    def test_one_that_others_may_read_is_told(self):
        said = []
        with mock.patch.object(serve_mirrors.OUT, "line", said.append):
            self.key(bytes(range(32)))
            self.assertEqual(said, [])
            self.key(bytes(range(32)), 0o644)
        self.assertEqual(len(said), 1)
        self.assertIn("chmod 600", said[0])


@unittest.skipUnless(BUILT, "tss and tss_mirror aren't built")
class Programs(Files):
    def words(self, number, ports, *more):
        return ["--mirror", str(number), "--listen", f"127.0.0.1:{ports[number]}", "--peer", f"{1 - number}=127.0.0.1:{ports[1 - number]}",
                "--key", self.key, "--rate", "50", *more]

    def setUp(self):
        super().setUp()
        self.key = self.file("key", "0123456789abcdef0123456789abcdef\n")
        with open(ARENA, encoding="ascii") as file:
            self.two = self.file("two.match", file.read().replace("mirrors 4\n", "mirrors 2\n").replace("delays 0 4 20\n", "delays 0 4 100\n"))

    def test_a_tool_that_was_killed_is_refused(self):
        for number in (0, 1):
            ports = free_ports(2)
            tools = [Tool(self, self.two, *self.words(at, ports, "--bots", "3")) for at in (0, 1)]
            tools[1].until("tick 0 as mirror 0 says")
            time.sleep(1)
            tools[number].kill()
            said, status = Tool(self, self.two, *self.words(number, ports, "--bots", "3")).ended()
            self.assertEqual(status, 1, said)
            self.assertRegex(said, f"mirror {number} gives up: mirror {1 - number} refuses: mirror {number} was begun again beside a running session")
            self.assertNotIn("Traceback", said)
            self.assertIsNone(tools[1 - number].process.poll(), tools[1 - number].said())
            tools[1 - number].kill()

    def test_an_end_by_ctrl_c_on_one_machine_ends_both(self):
        ports = free_ports(2)
        tools = [Tool(self, self.two, *self.words(at, ports, "--bots", "3", "--lag", "100", "--jitter", "50", "--out", self.path(f"part{at}"))) for at in (0, 1)]
        tools[1].until("tick 0 as mirror 0 says")
        time.sleep(2)
        tools[1].interrupt()
        for tool in tools:
            said, status = tool.ended()
            self.assertEqual(status, 0, said)
        gathered = Tool(self, self.two, "--gather", self.path("part0"), self.path("part1"))
        said, status = gathered.ended()
        self.assertEqual(status, 0, said)
        self.assertIn("2 mirrors end at one world, as `tss order` has it", said)

    def test_machines_whose_net_drops_all_for_a_while_end_at_one_world(self):
        net = Bridged(self)
        match = self.file("slow.match", read(self.two).replace("delays 0 4 100\n", "delays 0 4 1000\n"))
        tools = [Tool(self, match, "--mirror", str(at), "--listen", f"{net.hosts[at]}:9000", "--peer", f"{1 - at}={net.hosts[1 - at]}:9000", "--key", self.key, "--rate", "50",
                      "--bots", "8", "--out", self.path(f"part{at}"), before=net.inside(at)) for at in (0, 1)]
        tools[1].until("tick 0 as mirror 0 says")
        time.sleep(1)
        net.cut()
        for at, tool in enumerate(tools):
            tool.until(f"the link to mirror {1 - at} is lost: no pong came for 5 s")
        time.sleep(2)
        net.heal()
        for at, tool in enumerate(tools):
            tool.until(f"linked to mirror {1 - at}", times=2)
        time.sleep(1)
        tools[0].interrupt()
        for tool in tools:
            said, status = tool.ended()
            self.assertEqual(status, 0, said)
        said, status = Tool(self, match, "--gather", self.path("part0"), self.path("part1")).ended()
        self.assertEqual(status, 0, said)
        self.assertIn("2 mirrors end at one world, as `tss order` has it", said)

    def test_a_lag_behind_the_last_delay_isnt_offered(self):
        said, status = Tool(self, self.two, *self.words(0, free_ports(2), "--lag", "1900", "--jitter", "200", "--seconds", "2", "--wait", "1")).ended()
        self.assertEqual(status, 1, said)
        self.assertIn("over the last delay", said)

    def test_an_address_of_ipv6_stands_in_brackets(self):
        self.assertEqual(serve_mirrors.place_of("[::1]:9000"), ("::1", 9000))
        for word in ("::1:9000", "[::1]9000", "[]:1", "a:b:1"):
            with self.assertRaises(argparse.ArgumentTypeError):
                serve_mirrors.place_of(word)


if __name__ == "__main__":
    unittest.main()
