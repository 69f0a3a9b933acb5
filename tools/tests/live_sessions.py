"""What the tests of sessions share: the tool as a process with its mirrors, and a page that presses keys."""

import asyncio
import os
import re
import signal
import socket
import subprocess
import sys
import threading
import time

from common import PROGRAM
from test_serving import ARENA, MIRROR_PROGRAM, SERVE

KEYS = ("go", "left", "right", "shoot")
RIGHT = r"4 mirrors end at one world, as `tss order` has it; \d+ commands; the record is legal \d+"


def free_ports(count):
    """So many ports that nobody listens at."""
    held = [socket.create_server(("127.0.0.1", 0)) for _ in range(count)]
    ports = [one.getsockname()[1] for one in held]
    for one in held:
        one.close()
    return ports


class Served:
    """`serve_mirrors.py` as it is run. A process for which nobody waits any more is killed."""

    def __init__(self, *words, match=ARENA, **streams):
        words = [sys.executable, SERVE, match, "--program", PROGRAM, "--mirror-program", MIRROR_PROGRAM, *words]
        self.process = subprocess.Popen(words, **{"stdout": subprocess.PIPE, "stderr": subprocess.PIPE, **streams})
        self.out, self.said = [], []
        self.readers = [threading.Thread(target=self.read, args=given, daemon=True) for given in ((self.process.stdout, self.out), (self.process.stderr, self.said)) if given[0]]
        for reader in self.readers:
            reader.start()

    def read(self, stream, lines):
        with stream:
            for line in stream:
                lines.append(line.decode().rstrip("\n"))

    def __enter__(self):
        return self

    def __exit__(self, *_):
        if self.process.poll() is None:
            for pid in self.mirrors().values():
                os.kill(pid, signal.SIGKILL)
            self.process.kill()
        self.process.wait()

    def until(self, text, seconds=60):
        """The first line that is printed with this text."""
        until = time.monotonic() + seconds
        while time.monotonic() < until:
            found = next((line for line in list(self.out) if re.search(text, line)), None)
            if found:
                return found
            if self.process.poll() is not None:
                break
            time.sleep(0.02)
        raise AssertionError(f"never printed: {text}; but {self.out[-20:]}, {self.said[-20:]}")

    def mirrors(self):
        """The process of each mirror."""
        found = {}
        for name in filter(str.isdigit, os.listdir("/proc")):
            try:
                with open(f"/proc/{name}/stat") as stat, open(f"/proc/{name}/cmdline") as line:
                    parent, words = int(stat.read().rsplit(")", 1)[1].split()[1]), line.read().split("\0")
            except OSError:
                continue  # it has ended
            if parent == self.process.pid and words[0] == MIRROR_PROGRAM:
                found[int(words[1])] = int(name)
        return found

    def kill(self, *numbers, how=signal.SIGKILL):
        there = self.mirrors()
        for number in numbers:
            if number in there:
                os.kill(there[number], how)

    def interrupt(self, how=signal.SIGINT):
        self.process.send_signal(how)

    def ended(self, seconds=120):
        """What it printed, what it said on standard error, and its status."""
        status = self.process.wait(seconds)
        for reader in self.readers:
            reader.join(10)
        return self.out, self.said, status


class Presser:
    """A page that presses keys until its session is over. `taken` counts those that weren't refused."""

    def __init__(self, socket, mirror, player):
        self.socket, self.mirror, self.player, self.sent, self.errors, self.end, self.token = socket, mirror, player, 0, [], None, None
        self.claimed = asyncio.Event()

    async def hear(self):
        async for message in self.socket:
            given = message.json()
            if "token" in given:
                self.token = given["token"]
                self.claimed.set()
            if "error" in given:
                self.errors.append(given["error"])
            self.end = given.get("end", self.end)

    async def press(self, a_second):
        await self.socket.send_json({"do": "look", "mirror": self.mirror})
        await self.socket.send_json({"do": "claim", "player": self.player})
        await self.claimed.wait()
        while not self.socket.closed:
            try:
                await self.socket.send_json({"do": "act", "act": KEYS[self.sent % len(KEYS)], "token": self.token})
            except ConnectionError:
                return
            self.sent += 1
            await asyncio.sleep(1 / a_second)
