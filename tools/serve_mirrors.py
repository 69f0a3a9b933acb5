#!/usr/bin/env python3
"""Serves mirrors that people play on, and has what was played audited at the end.

    python3 tools/serve_mirrors.py MATCH [--bots N] [--rate 20] [--lag MS] [--jitter MS] [--loss PART] [--seconds S] [--no-page] [--out FOLDER]
    python3 tools/serve_mirrors.py MATCH --mirror M --listen HOST:PORT --peer K=HOST:PORT .. --key FILE
    python3 tools/serve_mirrors.py MATCH [--mirror M --key FILE] --broker HOST:PORT
    python3 tools/serve_mirrors.py MATCH --gather FOLDER ..
    python3 tools/serve_mirrors.py MATCH --endless [..]

MATCH is a file with a match text, of which the setup is taken: length, grid, mirrors, delays, plans, walls, pickups, players. Each
mirror is a process `tss_mirror`, which is spoken to line by line; all are ticked by one clock, and linked by TCP. In the first form
all mirrors run on this machine, and the address of a page is printed on which one plays; in the second one mirror runs here, and is
linked to those named. With `--broker` their commands go over a broker of messages (MQTT) in place of links. `--lag`, `--jitter`
(milliseconds) and `--loss` (0 to 0.5) make the links a net; what is lost is sent again.

At the end of the match, after `--seconds`, or at Ctrl-C every mirror is ended, and one line says whether all end at one world and
whether `tss audit` finds the record legal. A second Ctrl-C ends all at once. `--out FOLDER` keeps the record, the match with its
commands, and the match with a script of what happened, for show_match.py and study_delays.py; until then it has a journal of each
mirror. `--gather` puts together what mirrors that ran alone kept, each in its folder; or, where a session's tool was killed, it plays
the session's journals again.

With `--endless` the session has no end but `--seconds` or Ctrl-C: the mirrors are of `tss live 2`, and the match's length is how many
ticks they remember. At its end the last copies are brought to one tick; whether they show one world there, and each follows from what
its mirror remembers, is said in a line, and `--out FOLDER` keeps what audit_base.py reads. A mirror that dies leaves the session.

The page needs python3-aiohttp, a broker python3-paho-mqtt; all else is of the standard library.
"""

import argparse
import asyncio
import os
import re
import secrets
import signal
import sys

from match_lines import PROGRAM, Wrong, end_with, number_in
from serving.endless import EndlessSession, PlayedWithoutEnd
from serving.gather import gathered as gathered_with_end, gathered_without_end, write_ended
from serving.journal import Journal, set_aside, try_folder
from serving.log import WARNING, Out, Told
from serving.played import Played, setup_of
from serving.session import Session
from serving.wire import Net

OUT = Out(1)
MIRROR_PROGRAM = os.path.normpath(os.path.join(os.path.dirname(os.path.abspath(__file__)), "..", "crates", "tss_mirror", "out", "tss_mirror"))


def place_of(word):
    """A name or number, or one of IPv6 in brackets, with its port."""
    found = re.fullmatch(r"(?:\[([0-9A-Fa-f:.]+)\]|([\w.-]+)):(\d{1,5})", word)
    if not found or not 0 <= int(found.group(3)) < 65536:
        raise argparse.ArgumentTypeError(f"'{word[:60]}' is no HOST:PORT, nor [IPV6]:PORT")
    return found.group(1) or found.group(2), int(found.group(3))


def peer_of(word):
    number, _, place = word.partition("=")
    if not re.fullmatch("[0-7]", number):
        raise argparse.ArgumentTypeError(f"'{word[:60]}' is no K=HOST:PORT")
    return int(number), place_of(place)


def part_of(word):
    try:
        value = float(word)
    except ValueError:
        value = -1.0
    if not 0 <= value <= 0.5:
        raise argparse.ArgumentTypeError(f"'{word[:20]}' is no part from 0 to 0.5")
    return value


def origin_of(word):
    if not re.fullmatch(r"https?://[\w.-]+(:\d{1,5})?", word):
        raise argparse.ArgumentTypeError(f"'{word[:60]}' is no http://HOST[:PORT] or https://HOST[:PORT]")
    return word.lower()


def parser_of():
    parser = argparse.ArgumentParser(description=__doc__, formatter_class=argparse.RawDescriptionHelpFormatter)
    parser.add_argument("match", metavar="MATCH")
    parser.add_argument("--rate", type=number_in(1, 1000), default=20, help="ticks a second (default: 20)")
    parser.add_argument("--bots", type=number_in(0, 32), default=0, help="drawn players, spread over the mirrors of this machine")
    parser.add_argument("--lag", type=number_in(0, 60000), default=0, help="of the links, in milliseconds")
    parser.add_argument("--jitter", type=number_in(0, 60000), default=0, help="by which the lag differs, in milliseconds")
    parser.add_argument("--loss", type=part_of, default=0.0, help="the part of lines that is lost and sent again, 0 to 0.5")
    parser.add_argument("--seconds", type=number_in(1, 86400), help="ends after so many seconds")
    parser.add_argument("--no-page", action="store_true", help="serves no page")
    parser.add_argument("--port", type=number_in(0, 65535), default=8020, help="of the page, on the loopback (default: 8020)")
    parser.add_argument("--origin", type=origin_of, metavar="URL", help="where a proxy shows the page to others, as https://play.example.org")
    parser.add_argument("--out", metavar="FOLDER", help="keeps what was played, and while it is played a journal of each mirror")
    parser.add_argument("--mirror", type=number_in(0, 7), help="runs this mirror alone")
    parser.add_argument("--listen", type=place_of, metavar="HOST:PORT", help="where the other mirrors reach it")
    parser.add_argument("--peer", type=peer_of, action="append", default=[], metavar="K=HOST:PORT", help="where mirror K is reached; for each other mirror")
    parser.add_argument("--wait", type=number_in(0, 86400), metavar="S", help="mirror 0 begins after so many seconds, whoever isn't there (default: it waits for all)")
    parser.add_argument("--broker", type=place_of, metavar="HOST:PORT", help="carries commands in place of links")
    parser.add_argument("--broker-ca", metavar="FILE", help="speaks TLS, with the certificate of who signed the broker's; TSS_BROKER_USER and TSS_BROKER_PASSWORD log in")
    parser.add_argument("--forget", metavar="SESSION", help="takes away what a session that was killed has left at the broker")
    parser.add_argument("--endless", action="store_true", help="the session has no end; the match's length is the mirrors' window")
    parser.add_argument("--gather", nargs="+", metavar="FOLDER", help="audits what mirrors that ran alone kept, one folder each, or a killed session's journals")
    parser.add_argument("--key", metavar="FILE", help="the shared key by which mirrors know each other")
    parser.add_argument("--program", default=PROGRAM, help="the built program `tss`")
    parser.add_argument("--mirror-program", default=MIRROR_PROGRAM, help="the built program `tss_mirror`")
    return parser


def key_of(given):
    if given.key is None:
        if given.mirror is not None:
            raise Wrong("--mirror wants --key FILE: whoever has the key may send commands")
        return secrets.token_bytes(32)
    try:
        with open(given.key, "rb") as file:
            key, mode = file.read(), os.fstat(file.fileno()).st_mode
    except OSError as fault:
        raise Wrong(f"{given.key}: {fault.strerror}")
    if all(byte in range(32, 127) or byte in b"\r\n\t" for byte in key):
        key = key.strip()  # a line of text; random bytes are taken as they are
    if len(key) < 16 or len(set(key)) < 6:
        raise Wrong(f"{given.key}: a key has at least 16 bytes, of at least 6 values; `openssl rand -hex 32` makes one")
    if mode & 0o077:
        OUT.line(f"{given.key}: others of this machine may read or change the key; `chmod 600 {given.key}`")
    return key


def link_by_broker(session, given):
    try:
        from serving.broker import BrokerLink
        from serving.broker_client import Access
    except ImportError:
        raise Wrong("a broker needs paho: `apt-get install python3-paho-mqtt`")
    access = Access(given.broker, os.environ.get("TSS_BROKER_USER"), os.environ.get("TSS_BROKER_PASSWORD"), given.broker_ca)
    for room in session.rooms.values():
        room.out["broker"] = BrokerLink(room, access, given.forget)


def look_at_lag(session, given):
    """A pretended lag may be over the last delay where all mirrors are here, to show what becomes of it."""
    delay = 1000 * session.match.numbers("delays")[-1] / given.rate
    if given.mirror is not None and given.lag + given.jitter > delay:
        raise Wrong(f"--lag and --jitter: {given.lag + given.jitter} ms are over the last delay, {delay:.0f} ms: commands would come late, and the mirrors end at different worlds")


async def link_all(session, given):
    look_at_lag(session, given)
    session.wait = given.wait
    if given.broker:
        link_by_broker(session, given)
        return
    if given.mirror is None:
        places = {number: await session.listen(number, "127.0.0.1", 0) for number in session.rooms}
        for number in session.rooms:
            for other in session.rooms:
                if other != number:
                    session.link(number, other, places[other])
        return
    others = set(range(session.match.numbers("mirrors")[0])) - {given.mirror}
    if given.listen is None or sorted(number for number, _ in given.peer) != sorted(others):
        raise Wrong(f"--mirror {given.mirror} wants --listen and a --peer for each of the mirrors {sorted(others)}")
    await session.listen(given.mirror, *given.listen)
    for number, place in given.peer:
        session.link(given.mirror, number, place)


def page_of(session, given, stop):
    if given.no_page:
        return None
    try:
        from serving.web import Page
    except ImportError:
        raise Wrong(f"the page needs aiohttp, which {sys.executable} hasn't: `apt-get install python3-aiohttp` and /usr/bin/python3, or give --no-page")
    return Page(session, stop, given.origin)


async def gathered(match, given):
    """Puts together what was kept, and has it audited."""
    if given.out:
        try_folder(given.out)
    gather = gathered_without_end if given.endless else gathered_with_end
    is_right, is_kept = await judged(await gather(match, given.mirror_program, given.gather), given)
    return 0 if is_right and is_kept else 1


def journals_of(session, given, told):
    """Has each mirror's journal kept in the folder; that of a session that didn't end there is set aside."""
    if given.out is None:
        return
    try_folder(given.out)
    aside = set_aside(given.out)
    if aside:
        told(None, f"what a session that didn't end kept is in {aside} now; --gather {aside} plays it again", WARNING)
    for number, room in session.rooms.items():
        room.process.journal = Journal(given.out, number, told)


def end_by_signals(session, given, stop):
    """The first ends the session as it is due, the second at once."""
    def interrupted():
        if not stop.is_set():
            session.told(None, "the session is ended: what is on its way is brought; a second interrupt ends it at once")
            stop.set()
            return
        for room in session.rooms.values():
            room.process.end()
        OUT.line("ended at once" + (f"; --gather {given.out} plays what was played again" if given.out else ""))
        OUT.drain(1)
        os._exit(130)
    for which in (signal.SIGINT, signal.SIGTERM, signal.SIGHUP):
        asyncio.get_running_loop().add_signal_handler(which, interrupted)


async def serve(given):
    match = setup_of(given.match, given.program)
    if given.gather:
        return await gathered(match, given)
    if given.endless and given.broker:
        raise Wrong("--endless wants links: a broker keeps each command until the end")
    mirrors = match.numbers("mirrors")[0]
    if given.mirror is not None and given.mirror >= mirrors:
        raise Wrong(f"--mirror {given.mirror}: the match has {mirrors} mirrors")
    numbers = range(mirrors) if given.mirror is None else [given.mirror]
    told, stop = Told(OUT), asyncio.Event()
    told.hear_asyncio()
    session = (EndlessSession if given.endless else Session)(match, given.mirror_program, numbers, key_of(given), Net(given.lag, given.jitter, given.loss), given.rate, told)
    page = page_of(session, given, stop)
    session.add_bots(given.bots)
    journals_of(session, given, told)
    end_by_signals(session, given, stop)
    try:
        await link_all(session, given)
        await session.begin()
        if page:
            OUT.line(f"play at {await page.begin(given.port)}")
        await session.run(given.seconds, stop)
        return await ended(session, given, page)
    finally:
        await session.close()


async def ended(session, given, page):
    told = await session.finish()
    OUT.line(session.work_line())
    if given.mirror is not None and not given.endless:
        return ended_alone(session, given, told.get(given.mirror))
    played = (PlayedWithoutEnd if given.endless else Played).of(session, told)
    is_right, is_kept = await judged(played, given, page)
    if is_kept and not played.missing():
        remove_journals(session)
    return 0 if is_right and is_kept else 1


async def judged(played, given, page=None):
    """Prints the verdict, then keeps what was played, then tells the page. Whether all is right, and is kept."""
    verdict, is_right = await asyncio.to_thread(played.verdict, given.program)
    OUT.line(verdict)
    is_kept = kept(given, lambda: played.write(given.out))
    if page:
        await page.tell_end(verdict)
    return is_right, is_kept


def kept(given, write):
    try:
        if given.out:
            write()
    except OSError as fault:
        OUT.line(f"{given.out}: {fault.strerror}; what is to be kept there isn't whole, and --gather may play its journals again")
        return False
    return True


def ended_alone(session, given, told):
    """What one mirror of several machines told at its end is kept for `--gather`."""
    if told is None:
        return 1
    OUT.line(next(line for line in told if line.startswith("mirror ")))
    commands = session.rooms[given.mirror].commands.values()
    is_kept = kept(given, lambda: write_ended(given.out, session.match, commands, told))
    if is_kept:
        remove_journals(session)
    return 0 if is_kept else 1


def remove_journals(session):
    for room in session.rooms.values():
        if room.process.journal:
            room.process.journal.remove()


def main():
    try:
        return asyncio.run(serve(parser_of().parse_args()))
    finally:
        OUT.drain(5)


if __name__ == "__main__":
    end_with(main)
