"""Mirrors of one machine that is slow: none turns past a command that another one of them is giving, or that is on its way to it."""

import asyncio
import unittest

from common import PROGRAM
from test_serving import BUILT, Sessions
from serving.wire import Net


@unittest.skipUnless(BUILT, "tss and tss_mirror aren't built")
class Paces(Sessions):
    async def right(self, session):
        played = await self.played(session)
        verdict, is_right = played.verdict(PROGRAM)
        self.assertTrue(is_right, verdict)
        self.assertGreater(len(played.commands), 8)

    async def test_a_mirror_that_answers_late_parts_nobody(self):
        # the last delay is 20 ticks, 0.2 s, and mirror 1 gives its commands 0.6 s late, now and then
        session = await self.session(self.match(length=150), Net(5, 0, 0, seed=1))
        ask, asked = session.rooms[1].process.ask, 0

        async def late(*lines, **named):
            nonlocal asked
            answers = await ask(*lines, **named)
            asked += lines[0].startswith("own ")
            if lines[0].startswith("own ") and asked % 5 == 0:
                await asyncio.sleep(0.6)
            return answers
        session.rooms[1].process.ask = late
        await self.right(session)
        self.assertGreater(asked, 4)

    async def test_commands_that_are_brought_late_part_nobody(self):
        # the way takes longer than the last delay: each mirror waits for what is on its way to it
        await self.right(await self.session(self.match(length=150), Net(400, 0, 0, seed=1)))


if __name__ == "__main__":
    unittest.main()
