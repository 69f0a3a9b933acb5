"""How two mirrors' tools greet each other over TCP, the seal on each line behind the greeting, and the net that links pretend to be.

A line is text, closed by a newline. Whoever connects says `peer VERSION M RUN NONCE MATCH`: its mirror, a number drawn for this run of
its tool, a nonce, and a digest of all in which two mirrors of one session agree. The other answers `who VERSION M RUN NONCE MATCH`. Whoever connects
sends `proof DIGEST`, an HMAC of the shared key over both lines, and only who has seen that it is right answers with its own.

From then on each line is `SEAL TEXT`. The seal is an HMAC, under a key that comes of the shared key, both greetings and the direction, over
the line's number on this connection and its text. So no line can be changed, left out, put in or sent again without the connection being closed.
Texts aren't secret. What they say is told in links.py.
"""

import asyncio
import hashlib
import hmac
import random
import re
import secrets
import time

VERSION = 2
LONGEST_LINE = 200  # bytes, with the seal and the newline
COMMAND = re.compile(r"(\d{1,10}) (\d) (\d{1,6}) (\d{1,2}) (go|left|right|shoot|dash)")
HELLO = re.compile(r"(peer|who) (\d{1,4}) ([0-7]) ([0-9a-f]{16}) [0-9a-f]{32} ([0-9a-f]{32})")


class Stranger(Exception):
    """Why a connection is closed."""


class Refused(Stranger):
    """Why a mirror that has the key isn't let in. It is told, and gives up."""


class Net:
    """What the links pretend: a lag and a jitter in milliseconds, and the part of lines that is lost on its way."""

    def __init__(self, lag=0, jitter=0, loss=0.0, seed=None):
        self.lag, self.jitter, self.loss = lag, jitter, loss
        self.draw = random.Random(seed)

    def way(self):
        """For how many seconds a line is on its way, or None where it is lost."""
        if self.draw.random() < self.loss:
            return None
        return max(0.0, self.lag + self.jitter * self.draw.uniform(-1, 1)) / 1000

    def patience(self):
        """After how many seconds a line that the net has lost is sent again."""
        return 0.1 + 3 * (self.lag + self.jitter) / 1000

    def silence(self):
        """After how many seconds in which nothing came a link counts as lost."""
        return 5.0 + 2 * (self.lag + self.jitter) / 1000


class Bucket:
    """A token bucket: so many bytes a second, and at most those of a second at once."""

    def __init__(self, rate):
        self.rate, self.tokens, self.since = rate, rate, time.monotonic()

    def take(self, count):
        """Whether so many bytes may go now."""
        now = time.monotonic()
        self.tokens, self.since = min(self.rate, self.tokens + (now - self.since) * self.rate), now
        if count > self.tokens:
            return False
        self.tokens -= count
        return True

    async def wait(self, count):
        while not self.take(count):
            await asyncio.sleep(0.05)


class Identity:
    """By what one run of a tool is known to the others: its mirror, the session's key and match, and a number drawn for the run."""

    def __init__(self, key, number, match):
        self.key, self.number, self.match, self.run = key, number, match, secrets.token_hex(8)


def digest_of_match(lines):
    """Of all in which two mirrors of one session agree."""
    return hashlib.sha256("\n".join([f"links {VERSION}", *lines]).encode("ascii")).hexdigest()[:32]


def hmac_of(key, text):
    return hmac.digest(key, text.encode("ascii"), "sha256").hex()


class Wire:
    """A connection both of whose sides have greeted: `other` is the other's mirror, `run` its run."""

    def __init__(self, reader, writer, identity, hello, keys):
        self.reader, self.writer, (self.own, self.others) = reader, writer, keys
        self.other, self.run, self.is_of_match = int(hello.group(3)), hello.group(4), hello.group(5) == identity.match
        self.sent = self.heard = 0

    def send(self, text):
        if not self.writer.is_closing():
            send(self.writer, f"{hmac_of(self.own, f'{self.sent} {text}')[:32]} {text}")
            self.sent += 1

    async def read(self):
        seal, _, text = (await read_line(self.reader)).partition(" ")
        if not hmac.compare_digest(seal, hmac_of(self.others, f"{self.heard} {text}")[:32]):
            raise Stranger("a line was changed, left out or put in on its way")
        self.heard += 1
        return text


async def read_line(reader):
    """A line without its newline. One that is too long, or isn't ASCII, is a stranger's."""
    try:
        line = await reader.readuntil(b"\n")
    except asyncio.IncompleteReadError:
        raise ConnectionResetError("the other side closed it")
    except asyncio.LimitOverrunError:
        raise Stranger("a line is too long")
    if len(line) > LONGEST_LINE or not line.isascii():
        raise Stranger("a line is too long, or isn't ASCII")
    return line[:-1].decode("ascii")


def send(writer, line):
    writer.write(line.encode("ascii") + b"\n")


async def read_hello(reader, word):
    line = await read_line(reader)
    if line.startswith("closed "):
        raise Stranger(f"the other side closed it: {line[7:]}")
    found = HELLO.fullmatch(line)
    if not found or found.group(1) != word:
        raise Stranger("it doesn't greet as a mirror")
    if int(found.group(2)) != VERSION:
        raise Stranger(f"it speaks version {found.group(2)} of the links, and this side {VERSION}")
    return found


async def hear_proof(reader, due):
    line = await read_line(reader)
    if line.startswith("closed "):
        raise Stranger(f"the other side closed it: {line[7:]}")
    if not hmac.compare_digest(line, f"proof {due}"):
        raise Stranger("it hasn't the key")


async def greet(reader, writer, identity, is_first):
    """Both prove that they have the key, who connects first. The wire behind it."""
    own_word, other_word = ("peer", "who") if is_first else ("who", "peer")
    own = f"{own_word} {VERSION} {identity.number} {identity.run} {secrets.token_hex(16)} {identity.match}"
    if is_first:
        send(writer, own)
    hello = await read_hello(reader, other_word)
    if not is_first:
        send(writer, own)
    both = f"{own}\n{hello.group()}" if is_first else f"{hello.group()}\n{own}"
    proofs, keys = [{word: hmac_of(identity.key, f"{word} {use}\n{both}") for word in ("peer", "who")} for use in ("proves", "seals")]
    if not is_first:
        await hear_proof(reader, proofs["peer"])
    send(writer, f"proof {proofs[own_word]}")
    if is_first:
        await hear_proof(reader, proofs["who"])
    return Wire(reader, writer, identity, hello, [keys[word].encode("ascii") for word in (own_word, other_word)])


async def first_of(*works):
    """Both directions of a wire, until one of them ends or fails: then the other is over too."""
    tasks = [asyncio.get_running_loop().create_task(work) for work in works]
    try:
        done, _ = await asyncio.wait(tasks, return_when=asyncio.FIRST_COMPLETED)
        done.pop().result()
    finally:
        for task in tasks:
            task.cancel()
        await asyncio.gather(*tasks, return_exceptions=True)
