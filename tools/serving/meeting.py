"""How a session's mirrors find each other before tick 0, and how those of several machines part at the end of a match."""

import asyncio
import time

from match_lines import Wrong

from .clock import now
from .log import WARNING

HERE, ENDED_WITHIN, LEAD, SHARED_LEAD = 5.0, 30.0, 0.5, 1.0  # seconds


def links_of(session):
    return [link for room in session.rooms.values() for link in room.out.values()]


def is_shared(session):
    """Whether a mirror of the match isn't this machine's, or a broker is between them."""
    return any(link.is_shared or link.other not in session.rooms for link in links_of(session))


def names_of(found):
    names = sorted(set(found))
    return " and ".join([", ".join(names[:-1])] * (len(names) > 1) + names[-1:])


def look_for_refusal(session):
    for room in session.rooms.values():
        if room.peers.refusal:
            raise Wrong(f"mirror {room.number} gives up: {room.peers.refusal}")


async def wait_until(session, stop, seconds, missing, words):
    """Waits until nobody is missing, at most so many seconds or for ever; who is missing is said once it takes over a second, and
    where it changes. Who is missing still."""
    began = time.monotonic()
    while not stop.is_set() and (names := names_of(missing())):
        look_for_refusal(session)
        spent = time.monotonic() - began
        if seconds is not None and spent >= seconds:
            return names
        if spent > 1:
            session.told.state(None, words, names, f"{words} {names}")
        await asyncio.sleep(0.05)
    look_for_refusal(session)
    return ""


async def open_session(session, stop):
    """Where mirror 0 is here it waits for the others, or `session.wait` seconds, and sets tick 0 so late that all know it before."""
    seconds = session.wait if session.wait is not None or is_shared(session) else HERE
    names = await wait_until(session, stop, seconds, lambda: [name for link in links_of(session) for name in link.missing()], "waits for")
    if names:
        session.told(None, f"the session begins without {names}, after a wait of {seconds:.0f} s", WARNING)
    if stop.is_set():
        return
    at = now() + (SHARED_LEAD if is_shared(session) else LEAD) + max([link.lag_ms or 0.0 for link in links_of(session)], default=0.0) / 1000
    for room in session.rooms.values():
        room.set_start(at)


async def hear_start(session, stop):
    """Waits for mirror 0's tick 0. One that is over before this mirror came can't be joined: commands of the ticks since would come late."""
    unknown = lambda: ["mirror 0, which sets tick 0"] if any(room.start is None for room in session.rooms.values()) else []
    await wait_until(session, stop, None, unknown, "waits for")
    for room in session.rooms.values():
        behind = 0 if room.start is None else int((now() - room.start) * session.rate)
        if behind > session.most_behind(room):
            raise Wrong(f"the session is at tick {behind} already, past {session.LATE_FOR}: a mirror can't join it any more")


async def part(session):
    """Each mirror says that it has ended, once all it sent is brought, and waits until the others have ended too, or a time is over."""
    links = [link for link in links_of(session) if link.room.start is not None]
    for link in links:
        link.room.peers.is_over = True
        link.end(link.room.clock)
    words = f"waits up to {ENDED_WITHIN:.0f} s for the end of"
    names = await wait_until(session, asyncio.Event(), ENDED_WITHIN, lambda: [name for link in links for name in link.awaited()], words)
    waiting = sum(len(link.waiting) for link in links)
    if names or waiting:
        session.told(None, f"{names or 'the others'} didn't end within {ENDED_WITHIN:.0f} s: last commands may be missing here, and {waiting} of here weren't brought", WARNING)
