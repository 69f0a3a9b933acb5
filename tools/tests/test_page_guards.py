"""The page: under which name it is served, how many may open it, what it answers to odd messages, and what it shows."""

import asyncio
import collections
import json
import unittest

from live_sessions import Presser
from test_serving import BUILT, CHROMIUM, Browser, Sessions, aiohttp

from serving.mirror_process import Died
from serving.wire import Net


@unittest.skipUnless(BUILT and aiohttp, "tss and tss_mirror aren't built, or aiohttp isn't installed")
class Pages(Sessions):
    """A session of 20 ticks a second with its page."""

    NET, BOTS, RATE, ORIGIN = (0, 0, 0), 2, 20, ()

    async def asyncSetUp(self):
        from serving.web import Page
        self.served = await self.session(self.match(8000, last=100), Net(*self.NET, seed=6), rate=self.RATE, bots=self.BOTS)
        self.stop = asyncio.Event()
        self.page = Page(self.served, self.stop, *self.ORIGIN)
        self.url = await self.page.begin(0)
        self.port = int(self.url.split(":")[-1].strip("/"))
        self.running = asyncio.get_running_loop().create_task(self.served.run(None, self.stop))

    async def asyncTearDown(self):
        self.stop.set()
        await self.running
        await self.page.tell_end("over")
        await self.served.finish()

    async def hear(self, socket, key):
        async with asyncio.timeout(20):
            while True:
                message = json.loads((await socket.receive()).data)
                if key in message:
                    return message


class Names(Pages):
    async def status(self, client, path, **headers):
        async with client.get(self.url + path, headers=headers) as answer:
            return answer.status, answer.headers.get("Content-Security-Policy", "")

    async def opens(self, client, **headers):
        try:
            async with client.ws_connect(self.url + "live", headers=headers) as socket:
                return "opening" in await self.hear(socket, "opening")
        except aiohttp.WSServerHandshakeError as fault:
            return fault.status

    async def test_a_page_of_another_name_is_turned_away(self):
        async with aiohttp.ClientSession() as client:
            for host in (f"evil.example:{self.port}", "127.0.0.1", f"127.0.0.1:{self.port + 1}", f"127.0.0.1.evil.example:{self.port}", "evil.example"):
                self.assertEqual((await self.status(client, "", Host=host))[0], 403, host)
                self.assertEqual(await self.opens(client, Host=host, Origin=f"http://{host}"), 403, host)
            for name in ("127.0.0.1", "localhost", "LOCALHOST", "[::1]"):
                host = f"{name}:{self.port}"
                self.assertEqual((await self.status(client, "", Host=host))[0], 200, host)
                self.assertEqual(await self.opens(client, Host=host, Origin=f"http://{host.lower()}"), True, host)

    async def test_an_origin_is_compared_with_its_scheme(self):
        async with aiohttp.ClientSession() as client:
            for origin in (f"https://127.0.0.1:{self.port}", f"ftp://127.0.0.1:{self.port}", f"http://localhost:{self.port}", "null", f"//127.0.0.1:{self.port}"):
                self.assertEqual(await self.opens(client, Origin=origin), 403, origin)

    async def test_no_frame_shows_it(self):
        async with aiohttp.ClientSession() as client:
            self.assertIn("frame-ancestors 'none'", (await self.status(client, ""))[1])


class Proxied(Pages):
    """Behind a proxy that serves the page under a path of its own, with its own name."""

    async def asyncSetUp(self):
        from aiohttp import web
        self.runner = web.AppRunner(self.proxy(web))
        await self.runner.setup()
        site = web.TCPSite(self.runner, "127.0.0.1", 0)
        await site.start()
        self.outside = f"http://127.0.0.1:{site._server.sockets[0].getsockname()[1]}"
        self.ORIGIN = (self.outside,)
        await super().asyncSetUp()

    async def asyncTearDown(self):
        await super().asyncTearDown()
        await self.runner.cleanup()

    def proxy(self, web):
        async def page(request):
            async with aiohttp.ClientSession() as client, client.get(self.url) as answer:
                return web.Response(body=await answer.read(), content_type="text/html")

        async def live(request):
            outer = web.WebSocketResponse()
            await outer.prepare(request)
            async with aiohttp.ClientSession() as client, client.ws_connect(self.url + "live", headers={"Origin": request.headers["Origin"]}) as inner:
                async def carry(one, other):
                    async for message in one:
                        if other.closed:
                            return
                        await other.send_str(message.data)
                await asyncio.gather(carry(outer, inner), carry(inner, outer), return_exceptions=True)
            return outer
        app = web.Application()
        app.router.add_get("/game/", page)
        app.router.add_get("/game/live", live)
        return app

    @unittest.skipUnless(CHROMIUM, "Chromium isn't installed")
    async def test_a_browser_plays_behind_a_proxy(self):
        async with Browser(self.path("profile"), self.outside + "/game/#3-5") as browser:
            await browser.until("player === 5 && window.ticks > 5")


class Limits(Pages):
    async def test_connections_are_limited(self):
        held = [await asyncio.open_connection("127.0.0.1", self.port) for _ in range(300)]
        await asyncio.sleep(1)
        self.assertLessEqual(sum(not reader.at_eof() for reader, _ in held), 200)
        for _, writer in held:
            writer.close()
        await asyncio.sleep(0.5)
        async with aiohttp.ClientSession() as client, client.ws_connect(self.url + "live") as socket:
            await self.hear(socket, "opening")

    async def test_a_slow_page_hears_what_it_must(self):
        from serving.web import Viewer
        sent, viewer = [], Viewer(type("Socket", (), {"send_str": lambda _, text: self.sent(sent, text)})())
        viewer.put({"opening": {}})
        viewer.put({"claimed": 5, "token": "x"})
        viewer.put({"claims": {"5": 1}})
        for tick in range(200):
            viewer.put({"tick": tick})
        viewer.put({"left": 2})
        for tick in range(200):
            viewer.put({"error": "it is no act"})
        viewer.put({"end": "over"})
        for tick in range(200):
            viewer.put({"note": "mirror 1: the mirror died"})
        sending = asyncio.create_task(self.page.send_on(viewer))
        await asyncio.sleep(1)
        sending.cancel()
        kinds = collections.Counter(next(iter(message)) for message in sent)
        self.assertLessEqual(len(sent), 45)
        self.assertEqual({kind: kinds[kind] for kind in ("opening", "claimed", "claims", "left", "end")}, dict.fromkeys(("opening", "claimed", "claims", "left", "end"), 1))

    async def sent(self, sent, text):
        sent.append(json.loads(text))


class Messages(Pages):
    async def test_odd_messages_are_answered(self):
        async with aiohttp.ClientSession() as client, client.ws_connect(self.url + "live") as socket:
            for message in ('{"do": []}', '{"do": {}}', '{"do": null}', '{"do": 1}', '{}', '"do"', "null"):
                await socket.send_str(message)
                self.assertIn("no object with a known 'do'", (await self.hear(socket, "error"))["error"], message)
            await socket.send_json({"do": "look", "mirror": 2})
            await socket.send_json({"do": "claim", "player": 6})
            token = (await self.hear(socket, "token"))["token"]
            for act in ([], {}, None, 1, "fly"):
                await socket.send_json({"do": "act", "act": act, "token": token})
                self.assertIn("it is no act", (await self.hear(socket, "error"))["error"], act)

    async def test_a_plan_at_a_mirror_that_died_is_answered(self):
        async def died(plan):
            raise Died("died")
        self.served.rooms[2].restagger = died
        async with aiohttp.ClientSession() as client, client.ws_connect(self.url + "live") as socket:
            await socket.send_json({"do": "look", "mirror": 2})
            await socket.send_json({"do": "plan", "plan": 1})
            self.assertIn("the mirror died", (await self.hear(socket, "error"))["error"])
            await self.hear(socket, "tick")

    async def test_a_page_is_told_that_the_session_is_over(self):
        async with aiohttp.ClientSession() as client, client.ws_connect(self.url + "live") as socket:
            page = Presser(socket, 1, 6)
            tasks = [asyncio.create_task(page.hear()), asyncio.create_task(page.press(20))]
            await page.claimed.wait()
            await asyncio.sleep(0.5)
            self.stop.set()
            await self.running
            async with asyncio.timeout(20):
                while "the session is over" not in page.errors:
                    await asyncio.sleep(0.05)
            for task in tasks:
                task.cancel()


@unittest.skipUnless(CHROMIUM, "Chromium isn't installed")
class Shown(Pages):
    NET, BOTS, RATE = (100, 50, 0), 8, 50

    async def test_what_mirrors_say_isn_t_pushed_away_by_repairs(self):
        async with Browser(self.path("profile"), self.url + "#1-12") as browser:
            await browser.until("player === 12 && window.ticks > 5")
            self.served.rooms[1].process.end()
            await browser.until("document.body.textContent.includes('begun anew')")
            for tick in range(100):
                await browser.value(f"hear({{tick: {tick}, mirror: 1, plan: 0, notes: ['repair 1 2'], links: {{}}, copies: []}})")
            self.assertTrue(await browser.value("document.body.textContent.includes('begun anew')"))
            self.assertRegex(await browser.value("document.getElementById('repairs').textContent"), r"^\d\d+ repairs, the last at tick \d+: repair 1 \d$")

    async def test_a_mirror_that_hangs_is_shown_and_buttons_end(self):
        async with Browser(self.path("profile"), self.url + "#1-12") as browser:
            await browser.until("player === 12 && window.ticks > 5")
            async with self.served.rooms[1].process.turn:
                self.served.rooms[1].process.since = asyncio.get_running_loop().time() - 5
                await browser.until("document.body.textContent.includes(\"the mirror hasn't answered for 1 s\")")
            self.served.rooms[1].process.since = None
            self.page.tell_all({"end": "over"})
            await browser.until("document.getElementById('state').textContent === 'it is over: over'")
            self.assertEqual(await browser.value("document.querySelectorAll('button:not(:disabled)').length"), 0)
            self.assertEqual(await browser.value("document.querySelector('meta[name=viewport]') !== null"), True)


if __name__ == "__main__":
    unittest.main()
