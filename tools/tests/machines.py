"""What the tests of links and of a broker share: sessions of one mirror each, as on several machines, and what stands between them."""

import asyncio
import os
import shutil
import signal
import subprocess
import sys
import time
import unittest

from common import PROGRAM, Files, read
from test_serving import ARENA, MIRROR_PROGRAM, SERVE

from serving.log import Told
from serving.played import Played, setup_of
from serving.session import Session
from serving.wire import Net

KEY = b"0123456789abcdefghijklmnopqrstuv"
MOSQUITTO = shutil.which("mosquitto") or shutil.which("/usr/sbin/mosquitto")


class Between:
    """A listener that hands lines on to a place and back. `change(line, is_back)` answers the lines that go on in a line's stead; while
    `is_cut` nothing goes on in either direction, while `is_mute` nothing back, and no connection is closed."""

    def __init__(self):
        self.place, self.is_cut, self.is_mute, self.change, self.tasks, self.writers = None, False, False, lambda line, is_back: [line], set(), []

    async def listen(self):
        self.server = await asyncio.start_server(self.serve, "127.0.0.1", 0)
        return self.server.sockets[0].getsockname()[:2]

    async def serve(self, reader, writer):
        there_reader, there_writer = await asyncio.open_connection(*self.place)
        self.writers += [writer, there_writer]
        ways = [asyncio.ensure_future(self.hand_on(*way)) for way in ((reader, there_writer, False), (there_reader, writer, True))]
        self.tasks |= set(ways)
        await asyncio.wait(ways, return_when=asyncio.FIRST_COMPLETED)
        for closed in (writer, there_writer):
            closed.close()

    async def hand_on(self, reader, writer, is_back):
        while line := await reader.readline():
            while self.is_cut or (is_back and self.is_mute):
                await asyncio.sleep(0.02)
            for changed in self.change(line, is_back):
                writer.write(changed)

    async def close(self):
        self.server.close()
        for task in self.tasks:
            task.cancel()
        for writer in self.writers:
            writer.close()
        await asyncio.gather(*self.tasks, return_exceptions=True)


class Machines(Files):
    """Sessions of one mirror each in this process, which are linked over TCP as those of several machines are."""

    def match(self, mirrors=2, length=400, last=100):
        text = read(ARENA).replace("length 8192\n", f"length {length}\n").replace("delays 0 4 20\n", f"delays 0 4 {last}\n").replace("mirrors 4\n", f"mirrors {mirrors}\n")
        return setup_of(self.file("machines.match", text), PROGRAM)

    async def machine(self, match, number, net=None, rate=50, bots=4, port=0):
        session = Session(match, MIRROR_PROGRAM, [number], KEY, net or Net(seed=number), rate, Told(quiet=True))
        session.place = await session.listen(number, "127.0.0.1", port)
        for player in range(number * bots, number * bots + bots):
            session.claim(number, player)
            session.rooms[number].bots.append(player)
        self.addAsyncCleanup(session.close)
        return session

    async def machines(self, match, net=lambda number: None, **given):
        """One for each mirror, linked to each other."""
        sessions = [await self.machine(match, number, net(number), **given) for number in range(match.numbers("mirrors")[0])]
        for number, session in enumerate(sessions):
            for other, another in enumerate(sessions):
                if other != number:
                    session.link(number, other, another.place)
        return sessions

    async def begun(self, *sessions):
        for session in sessions:
            await session.begin()

    async def played(self, session, seconds=None, stop=None):
        """What a session's mirror tells at its end."""
        await session.run(seconds, stop or asyncio.Event())
        return await session.finish()

    def together(self, match, sessions, told):
        """What was played on all machines."""
        commands = {name: command for session in sessions for room in session.rooms.values() for name, command in room.commands.items()}
        played = Played(match, {number: lines for one in told for number, lines in one.items()}, [commands[name] for name in sorted(commands)], [])
        return played.verdict(PROGRAM)

    def assertTold(self, session, words):
        self.assertTrue(any(words in line for line in session.told.lines), f"never said: {words}; but {list(session.told.lines)}")

    async def until(self, is_so, seconds=30):
        """Waits until this is so."""
        until = time.monotonic() + seconds
        while not is_so():
            if time.monotonic() > until:
                self.fail("it never came to that")
            await asyncio.sleep(0.02)


class Linked(Machines, unittest.IsolatedAsyncioTestCase):
    """Two mirrors of two machines, in this process."""

    async def asyncSetUp(self):
        asyncio.get_running_loop().set_debug(False)

    async def running(self, match, *sessions, seconds=None):
        """The sessions' runs, once each has made some ticks."""
        await self.begun(*sessions)
        runs = [asyncio.ensure_future(session.run(seconds, asyncio.Event())) for session in sessions]
        self.addCleanup(lambda: [run.cancel() for run in runs])
        await self.until(lambda: all(room.clock > 10 for session in sessions for room in session.rooms.values()))
        return runs

    async def between(self, match, net=lambda number: None, **given):
        """Two machines, of which mirror 0 reaches mirror 1 through what stands between them."""
        one, other = [await self.machine(match, number, net(number), **given) for number in (0, 1)]
        between = Between()
        between.place = other.place
        one.link(0, 1, await between.listen())
        other.link(1, 0, one.place)
        self.addAsyncCleanup(between.close)
        return one, other, between


class Tool:
    """`serve_mirrors.py` as a process. What it prints goes to a file, so that nothing waits for a reader."""

    def __init__(self, case, match, *words, before=(), env=None):
        self.path = case.path(f"out{time.monotonic_ns()}")
        with open(self.path, "wb") as out:
            self.process = subprocess.Popen([*before, sys.executable, SERVE, match, "--program", PROGRAM, "--mirror-program", MIRROR_PROGRAM, "--no-page", *words],
                                            stdout=out, stderr=subprocess.STDOUT, env={**os.environ, **(env or {})})
        case.addCleanup(self.kill)

    def kill(self):
        if self.process.poll() is None:
            self.process.kill()
        return self.process.wait()

    def interrupt(self):
        self.process.send_signal(signal.SIGINT)

    def said(self):
        return read(self.path)

    def ended(self, seconds=120):
        """What it has printed, and its status."""
        status = self.process.wait(seconds)
        return self.said(), status

    def until(self, words, seconds=60, times=1):
        until = time.monotonic() + seconds
        while self.said().count(words) < times:
            if time.monotonic() > until or self.process.poll() is not None:
                raise AssertionError(f"never printed: {words}; but {self.said()}")
            time.sleep(0.02)


class Bridged:
    """Two network namespaces on one bridge, from which the first can be cut off so that what it sends vanishes."""

    def __init__(self, case):
        mark = f"t{os.getpid() % 100_000}"
        self.bridge, self.spaces, self.ends = f"{mark}b", [f"{mark}n{at}" for at in (0, 1)], [f"{mark}v{at}" for at in (0, 1)]
        self.hosts = ["10.213.77.1", "10.213.77.2"]
        case.addCleanup(self.close)
        if shutil.which("ip") is None or not self.ip(f"link add {self.bridge} type bridge"):
            case.skipTest("no bridge and namespaces can be made here")
        self.ip(f"link set {self.bridge} up")
        for space, end, host in zip(self.spaces, self.ends, self.hosts):
            made = [self.ip(words) for words in (
                f"netns add {space}", f"link add {end} type veth peer name {end}x", f"link set {end}x netns {space}", f"link set {end} master {self.bridge} up",
                f"-n {space} addr add {host}/24 dev {end}x", f"-n {space} link set {end}x up", f"-n {space} link set lo up")]
            if not all(made):
                case.skipTest("no namespaces can be made here")

    def ip(self, words):
        return subprocess.run(["ip", *words.split(" ")], capture_output=True).returncode == 0

    def inside(self, at):
        return ("ip", "netns", "exec", self.spaces[at])

    def cut(self):
        self.ip(f"link set {self.ends[0]} nomaster")

    def heal(self):
        self.ip(f"link set {self.ends[0]} master {self.bridge}")

    def close(self):
        for space in self.spaces:
            self.ip(f"netns del {space}")
        self.ip(f"link del {self.bridge}")
