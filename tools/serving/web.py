"""The page on which people play, over WebSockets.

A message is a JSON object. From the page: `{"do": "look", "mirror": M}`, `{"do": "claim", "player": P}`, `{"do": "act", "act": ACT, "token":
TOKEN}`, `{"do": "leave", "token": TOKEN}`, `{"do": "net", "lag": MS, "jitter": MS, "loss": PART}`, `{"do": "plan", "plan": K}`. What is no such
object, of another shape or for another's player is answered by `{"error": ..}` and changes nothing.

The page is served on the loopback, under the names 127.0.0.1, localhost and [::1] alone, to pages of its own address; `origin`, where a
proxy shows it to others, is one more address. So no page of another name, even one that is led to the loopback, reaches it.
"""

import asyncio
import collections
import json
import os
import secrets
import time

from aiohttp import WSMsgType, web

from .door import Door, Names
from .mirror_process import Died

PAGE = os.path.join(os.path.dirname(os.path.abspath(__file__)), "page.html")
ACTS = ("go", "left", "right", "shoot", "dash")
MOST_MESSAGES_A_SECOND, LONGEST_MESSAGE, HEARD_OUT = 60, 400, 0.5
PING_SECONDS, SENT_SECONDS = 10, 15
HEADERS = {"Cache-Control": "no-store", "Content-Security-Policy": "default-src 'self' 'unsafe-inline'; connect-src 'self'; frame-ancestors 'none'"}


class Bad(Exception):
    """What is wrong with a message."""


class Viewer:
    """One page that is open. Of what waits for a page that is too slow the oldest tick, note or error is dropped, and nothing else."""

    MOST_WAITING, DROPPED, NEWEST = 40, {"tick", "note", "error"}, {"claims", "net"}

    def __init__(self, socket, transport=None):
        self.socket, self.transport, self.mirror, self.player, self.token = socket, transport, None, None, None
        self.since, self.messages, self.waiting, self.some = 0.0, 0, collections.deque(), asyncio.Event()

    def put(self, message):
        kind = next(iter(message))
        if kind in self.NEWEST or len(self.waiting) >= self.MOST_WAITING:
            kinds = {kind} if kind in self.NEWEST else self.DROPPED
            oldest = next((old for old in self.waiting if next(iter(old)) in kinds), None)
            if oldest is not None:
                self.waiting.remove(oldest)
        self.waiting.append(message)
        self.some.set()

    async def next(self):
        """The next message; None where there was none for so long."""
        try:
            async with asyncio.timeout(PING_SECONDS):
                await self.some.wait()
        except TimeoutError:
            return None
        message = self.waiting.popleft()
        if not self.waiting:
            self.some.clear()
        return message

    def counted(self):
        now = time.monotonic()
        if now - self.since > 1:
            self.since, self.messages = now, 0
        self.messages += 1
        return self.messages <= MOST_MESSAGES_A_SECOND


def number(message, key, least, most):
    value = message.get(key)
    if isinstance(value, bool) or not isinstance(value, (int, float)) or not least <= value <= most:
        raise Bad(f"'{key}' is no number from {least} to {most}")
    return value


def whole(message, key, most):
    value = number(message, key, 0, most)
    if value != int(value):
        raise Bad(f"'{key}' is no whole number")
    return int(value)


class Page:
    """The page's server: who looks at which mirror, whom they move, and what they are shown."""

    def __init__(self, session, stop, origin=None):
        self.session, self.stop, self.origin, self.viewers, self.runner, self.gone, self.idle = session, stop, origin, set(), None, set(), set()
        session.shown, session.shown_left, session.told.heard = self.show, self.left, self.tell
        self.does = {"look": self.look, "claim": self.claim, "act": self.act, "leave": self.leave, "net": self.net, "plan": self.plan}

    async def begin(self, port):
        app = web.Application()
        app.router.add_get("/", self.page)
        app.router.add_get("/live", self.live)
        self.runner = web.AppRunner(app, access_log=None)
        await self.runner.setup()
        self.server = await asyncio.get_running_loop().create_server(lambda: Door(self), "127.0.0.1", port)
        port = self.server.sockets[0].getsockname()[1]
        self.names = Names(port, self.origin)
        return f"http://127.0.0.1:{port}/"

    async def page(self, request):
        self.names.guard(request)
        return web.FileResponse(PAGE, headers=HEADERS)

    async def live(self, request):
        self.names.guard(request)
        socket = web.WebSocketResponse(max_msg_size=LONGEST_MESSAGE)
        await socket.prepare(request)
        viewer = Viewer(socket, request.transport)
        self.viewers.add(viewer)
        viewer.put(self.opening())
        sender = asyncio.get_running_loop().create_task(self.send_on(viewer))
        try:
            await self.hear(viewer)
        finally:
            sender.cancel()
            self.viewers.discard(viewer)
            self.drop(viewer)
            self.count_looks()
        return socket

    async def send_on(self, viewer):
        """Sends what waits, and pings where nothing does. A page that takes nothing for a while is closed."""
        try:
            while True:
                message = await viewer.next()
                async with asyncio.timeout(SENT_SECONDS):
                    await (viewer.socket.ping() if message is None else viewer.socket.send_str(json.dumps(message, separators=(",", ":"))))
        except ConnectionError:
            pass  # it is gone
        except TimeoutError:
            viewer.transport.abort()

    async def hear(self, viewer):
        async for given in viewer.socket:
            if given.type != WSMsgType.TEXT:
                break
            if not viewer.counted():
                await self.turn_out(viewer.socket)
                break
            try:
                await self.take(viewer, given.data)
            except Bad as bad:
                viewer.put({"error": str(bad)})

    async def turn_out(self, socket):
        """Closes a page that floods, with the reason. What it still sends is heard for a moment and dropped: bytes that nobody
        reads would reset the connection, and the reason wouldn't reach the page."""
        try:
            async with asyncio.timeout(HEARD_OUT):
                while (await socket.receive()).type == WSMsgType.TEXT:
                    pass
        except TimeoutError:
            pass
        await socket.close(code=1008, message=b"too many messages")

    async def take(self, viewer, data):
        try:
            message = json.loads(data)
        except ValueError:
            raise Bad("it is no JSON")
        if not isinstance(message, dict) or not isinstance(message.get("do"), str) or message["do"] not in self.does:
            raise Bad("it is no object with a known 'do'")
        done = self.does[message["do"]](viewer, message)
        if asyncio.iscoroutine(done):
            await done

    # ---- what a page may do

    def look(self, viewer, message):
        viewer.mirror = whole(message, "mirror", 7)
        if viewer.mirror not in self.session.rooms or viewer.mirror in self.gone:
            viewer.mirror = None
            raise Bad("that mirror isn't here")
        self.drop(viewer)
        self.count_looks()

    def claim(self, viewer, message):
        player = whole(message, "player", len(self.session.players) - 1)
        if viewer.mirror is None:
            raise Bad("choose a mirror first")
        self.drop(viewer)
        if not self.session.claim(viewer.mirror, player):
            raise Bad(f"{self.session.players[player]} is played already")
        viewer.player, viewer.token = player, secrets.token_urlsafe(12)
        viewer.put({"claimed": player, "token": viewer.token})
        self.tell_players()

    def own(self, viewer, message):
        if viewer.token is None or message.get("token") != viewer.token:
            raise Bad("it isn't this page's player")

    def act(self, viewer, message):
        self.own(viewer, message)
        if not isinstance(message.get("act"), str) or message["act"] not in ACTS:
            raise Bad("it is no act")
        room = self.session.rooms[viewer.mirror]
        if not room.act(viewer.player, message["act"]):
            raise Bad("the session is over" if room.is_closed or room.is_over() else "too many acts in a tick")

    def leave(self, viewer, message):
        self.own(viewer, message)
        self.drop(viewer)

    def net(self, viewer, message):
        net = self.session.net
        net.lag, net.jitter, net.loss = number(message, "lag", 0, 60000), number(message, "jitter", 0, 60000), number(message, "loss", 0, 0.5)
        self.tell_all({"net": [net.lag, net.jitter, net.loss]})

    async def plan(self, viewer, message):
        if viewer.mirror is None:
            raise Bad("choose a mirror first")
        try:
            refusal = await self.session.rooms[viewer.mirror].restagger(whole(message, "plan", 7))
        except Died as died:
            raise Bad(f"the mirror {died}; try again")
        if refusal:
            raise Bad(f"the mirror says '{refusal}'")

    def drop(self, viewer):
        if viewer.player is not None:
            self.session.release(viewer.player)
            viewer.player = viewer.token = None
            self.tell_players()

    # ---- what pages are told

    def opening(self):
        session, match = self.session, self.session.match
        return {"opening": {
            "grid": match.numbers("grid"), "walls": [[int(n) for n in words] for words in match.lines_of("wall")], "players": session.players,
            "mirrors": sorted(set(session.rooms) - self.gone), "length": session.length(), "rate": session.rate,
            "plans": [match.numbers("delays")] + [[int(n) for n in words] for words in match.lines_of("plan")],
            "claims": session.claims, "net": [session.net.lag, session.net.jitter, session.net.loss]}}

    def tell_all(self, message):
        for viewer in self.viewers:
            viewer.put(message)

    def tell_players(self):
        self.tell_all({"claims": self.session.claims})

    def tell(self, mirror, text):
        self.tell_all({"note": text if mirror is None else f"mirror {mirror}: {text}"})

    def left(self, mirror):
        """The mirror has left a session without an end: who looked at it looks at none."""
        self.gone.add(mirror)
        for viewer in self.viewers:
            if viewer.mirror == mirror:
                viewer.mirror = viewer.player = viewer.token = None
        self.count_looks()
        self.tell_all({"left": mirror, "claims": self.session.claims})

    def count_looks(self):
        self.session.looked_at = {viewer.mirror for viewer in self.viewers if viewer.mirror is not None}

    def show(self, room, blocks, notes):
        viewers = [viewer for viewer in self.viewers if viewer.mirror == room.number]
        if not viewers:
            return
        links = {other: [link.is_up, None if link.lag_ms is None else round(link.lag_ms), len(link.waiting)] for other, link in room.out.items()}
        message = {"tick": room.clock, "mirror": room.number, "plan": room.plan, "notes": notes, "links": links,
                   "copies": [[copy, int(lines[0].split(" ")[3]), lines[1:]] for copy, lines in sorted(blocks.items()) if lines]}
        for viewer in viewers:
            viewer.put(message)

    async def tell_end(self, verdict):
        self.tell_all({"end": verdict})
        await asyncio.sleep(0.5)
        for viewer in list(self.viewers):
            await viewer.socket.close()
        self.server.close()
        await self.runner.server.shutdown(1)
        await self.runner.cleanup()
