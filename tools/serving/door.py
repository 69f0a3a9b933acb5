"""What a connection to the page meets first: how many are open, under which name it asks, and of which page it is."""

import asyncio

from aiohttp import web

from .log import WARNING


class Door(asyncio.Protocol):
    """Beyond the limit a connection is closed, and where nothing comes for a while; with its first bytes the server of the page takes it."""

    MOST, IDLE_SECONDS = 200, 15

    def __init__(self, page):
        self.page, self.timer, self.transport = page, None, None

    def connection_made(self, transport):
        self.transport = transport
        if len(self.page.runner.server.connections) + len(self.page.idle) >= self.MOST:
            self.page.session.told(None, "a connection to the page was closed: too many are open", WARNING)
            transport.abort()
            return
        self.page.idle.add(self)
        self.timer = asyncio.get_running_loop().call_later(self.IDLE_SECONDS, transport.abort)

    def leave(self):
        self.page.idle.discard(self)
        if self.timer:
            self.timer.cancel()

    def data_received(self, data):
        self.leave()
        handler = self.page.runner.server()
        self.transport.set_protocol(handler)
        handler.connection_made(self.transport)
        handler.data_received(data)

    def connection_lost(self, fault):
        self.leave()


class Names:
    """The loopback's names with the page's port, and the address at which a proxy shows the page to others."""

    def __init__(self, port, origin):
        self.hosts = {name + ("" if port == 80 else f":{port}") for name in ("127.0.0.1", "localhost", "[::1]")}
        self.origin = origin

    def guard(self, request):
        """Turns away who asks for another name, as one that a stranger led to the loopback, and pages of other addresses."""
        host, origin = request.headers.get("Host", "").lower(), request.headers.get("Origin")
        if host not in self.hosts and not (self.origin and host == self.origin.split("//")[1]):
            raise web.HTTPForbidden(text="the page has another name; where a proxy shows it, --origin says so")
        if origin not in (None, self.origin) and not (host in self.hosts and origin == f"http://{host}"):
            raise web.HTTPForbidden(text="a page of another place")
