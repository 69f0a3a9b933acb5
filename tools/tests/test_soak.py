"""Four mirrors and a page that presses ten keys a second, while mirrors are killed and at last the session is interrupted: one world,
legal, and no key lost.

    SOAK_SECONDS=60 SOAK_RUNS=10 python3 -m unittest test_soak

Without the variables one session of eight seconds is played. What each session ended with is printed where SOAK_RUNS is set.
"""

import asyncio
import os
import random
import re
import unittest

from common import Files, read
from live_sessions import Presser, Served
from test_serving import BUILT, aiohttp

SECONDS, RUNS = int(os.environ.get("SOAK_SECONDS", "8")), int(os.environ.get("SOAK_RUNS", "1"))
SEED = int(os.environ.get("SOAK_SEED", "1"))


@unittest.skipUnless(BUILT and aiohttp, "tss and tss_mirror aren't built, or aiohttp isn't installed")
class Soak(Files, unittest.IsolatedAsyncioTestCase):
    async def test_nothing_is_lost(self):
        for run in range(RUNS):
            out, keys = await self.session(run, random.Random(SEED + run))
            if "SOAK_RUNS" in os.environ:
                print(f"run {run + 1}, seed {SEED + run}: {out[-1]}; {keys}", flush=True)

    async def session(self, run, draw):
        folder = self.path(f"out{run}")
        with Served("--bots", "3", "--lag", "100", "--jitter", "50", "--port", "0", "--out", folder) as served:
            url = (await asyncio.to_thread(served.until, "^play at ")).split(" ")[-1]
            async with aiohttp.ClientSession() as client, client.ws_connect(url + "live") as socket:
                page = Presser(socket, 1, 6)
                hearing, pressing = asyncio.create_task(page.hear()), asyncio.create_task(page.press(10))
                await page.claimed.wait()
                killed = await self.kill(served, draw)
                before = page.sent
                await asyncio.sleep(0.3)
                served.interrupt()
                if draw.random() < 0.5:  # one dies at the end
                    await asyncio.sleep(draw.uniform(0, 0.5))
                    killed.append(served.kill(draw.randrange(4)))
                out, said, status = await asyncio.to_thread(served.ended)
                await asyncio.wait([hearing, pressing], timeout=10)
        story = "\n".join(out[-40:] + said[-20:])
        self.assertEqual((said, status), ([], 0), story)
        self.assertRegex(out[-1], r"^4 mirrors end at one world, as `tss order` has it; \d+ commands; the record is legal \d+$", story)
        own = len(re.findall(r"^cmd \d+ 1 \d+ 6 ", read(os.path.join(folder, "commands.match")), re.M))
        full = page.errors.count("too many acts in a tick")  # of a mirror that was away for seconds
        keys = f"{len(killed)} kills, {page.sent} keys, {before} of them before the interrupt, {own} commands, {len(page.errors)} refused" + f", {full} of them for their number" * (full > 0)
        # each key is a command or was refused with a reason, but for those that were sent to a page that had been closed
        self.assertIn(own + len(page.errors), range(before, page.sent + 1), keys)
        self.assertEqual(set(page.errors) - {"the session is over", "too many acts in a tick"}, set(), keys)
        self.assertNotIn("journal0", os.listdir(folder))
        return out, keys

    async def kill(self, served, draw):
        """Kills one, two or all mirrors at a time, at drawn times."""
        loop, killed = asyncio.get_running_loop(), []
        until = loop.time() + SECONDS
        while loop.time() < until:
            await asyncio.sleep(draw.uniform(0.5, 4))
            numbers = draw.choice(([0], [1], [2], [3], [1, 2], [0, 3], [0, 1, 2, 3]))
            served.kill(*numbers)
            killed.append(numbers)
            if draw.random() < 0.3:  # and once more, while they are begun anew
                await asyncio.sleep(draw.uniform(0, 0.2))
                served.kill(*numbers)
                killed.append(numbers)
        await asyncio.sleep(0.5)
        return killed


if __name__ == "__main__":
    unittest.main()
