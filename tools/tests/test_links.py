"""Mirrors of several machines: what their links bring, whom they let in, and what a net between them can do.

They run the built programs `tss` and `tss_mirror`, or those that the variables TSS and TSS_MIRROR name.
"""

import asyncio
import re
import time
import unittest
from unittest import mock

from machines import Linked
from test_serving import BUILT

from match_lines import Wrong
from serving.wire import Net

COMMANDS = re.compile(rb"\bcmd (\d+) \d+ (\d)")


@unittest.skipUnless(BUILT, "tss and tss_mirror aren't built")
class Ends(Linked):
    async def test_machines_that_end_apart_lose_no_command(self):
        match = self.match(last=100)
        one, other = await self.machines(match, lambda number: Net(150, 50, 0, seed=number))
        await self.begun(one, other)
        told = await asyncio.gather(self.played(one, 1.5), self.played(other, 2.0))
        said, is_right = self.together(match, (one, other), told)
        self.assertTrue(is_right, said)
        self.assertEqual(one.rooms[0].commands, other.rooms[1].commands)

    async def test_who_is_stopped_stops_the_others(self):
        match = self.match(length=8000)
        one, other = await self.machines(match)
        await self.begun(one, other)
        stop = asyncio.Event()
        asyncio.get_running_loop().call_later(2, stop.set)
        async with asyncio.timeout(30):
            told = await asyncio.gather(self.played(one, stop=stop), self.played(other))
        said, is_right = self.together(match, (one, other), told)
        self.assertTrue(is_right, said)
        self.assertTold(other, "mirror 0 has ended at tick")

    async def test_an_end_of_which_another_hears_nothing_is_told(self):
        match = self.match()
        one, other = await self.machines(match)
        (run, _) = await self.running(match, one, other, seconds=2)
        await other.close()
        await run
        with mock.patch("serving.meeting.ENDED_WITHIN", 1.0):
            await one.finish()
        self.assertTold(one, "mirror 1 didn't end within 1 s: last commands may be missing here")


@unittest.skipUnless(BUILT, "tss and tss_mirror aren't built")
class Starts(Linked):
    async def test_mirror_0_waits_for_the_others(self):
        match = self.match(last=50)
        one, other = await self.machines(match)

        async def later():
            await asyncio.sleep(2)
            await other.begin()
            return await self.played(other, 2)
        await one.begin()
        told = await asyncio.gather(self.played(one, 2), later())
        self.assertTold(one, "waits for mirror 1")
        for lines in (lines for each in told for lines in each.values()):
            self.assertIn(" turned 0 ", next(line for line in lines if line.startswith("mirror ")))

    async def test_a_wait_that_is_over_is_told(self):
        one, _ = await self.machines(self.match())
        one.wait = 1.5
        await one.begin()
        async with asyncio.timeout(30):
            await one.run(0.2, asyncio.Event())
        self.assertTold(one, "the session begins without mirror 1")

    async def test_mirrors_of_different_matches_arent_linked(self):
        match = self.match()
        for theirs, rate in ((self.match(last=99), 50), (match, 60)):
            one, other = await self.machine(match, 0), await self.machine(theirs, 1, rate=rate)
            one.link(0, 1, other.place)
            other.link(1, 0, one.place)
            await self.begun(one, other)
            await asyncio.sleep(1.5)
            for session, number in ((one, 0), (other, 1)):
                self.assertFalse(session.rooms[number].out[1 - number].is_up)
                self.assertTold(session, "it plays another match")
                await session.close()

    async def test_a_tool_that_is_started_again_is_refused(self):
        for number in (0, 1):
            match = self.match(length=8000)
            sessions = await self.machines(match)
            runs = await self.running(match, *sessions)
            gone, there = sessions[number], sessions[1 - number]
            runs[number].cancel()
            await asyncio.gather(runs[number], return_exceptions=True)
            await gone.close()
            again = await self.machine(match, number, port=gone.place[1])
            again.link(number, 1 - number, there.place)
            await again.begin()
            with self.assertRaisesRegex(Wrong, f"mirror {number} was begun again beside a running session"):
                async with asyncio.timeout(20):
                    await again.run(None, asyncio.Event())
            self.assertEqual(again.rooms[number].clock, 0)
            self.assertTold(there, f"mirror {number} was begun again beside a running session")
            self.assertFalse(runs[1 - number].done(), "who was there goes on")
            await again.close()
            await there.close()

    async def test_a_second_process_of_a_mirror_is_refused(self):
        match = self.match()
        one, other = await self.machines(match)
        await self.begun(one, other)
        await self.until(lambda: one.rooms[0].out[1].is_up and other.rooms[1].out[0].is_up)
        second = await self.machine(match, 1)
        second.link(1, 0, one.place)
        await second.begin()
        with self.assertRaisesRegex(Wrong, "mirror 1 is linked already: this is a second process of it"):
            async with asyncio.timeout(20):
                await second.run(None, asyncio.Event())
        self.assertTold(one, "mirror 1 is linked already")

    async def test_a_session_that_goes_on_cant_be_joined_late(self):
        match = self.match(length=8000)
        one, other = await self.machines(match)
        one.wait = 0.1
        await one.begin()
        run = asyncio.ensure_future(one.run(None, asyncio.Event()))
        await self.until(lambda: one.rooms[0].clock > 150)
        await other.begin()
        with self.assertRaisesRegex(Wrong, "past its last delay: a mirror can't join it any more"):
            async with asyncio.timeout(20):
                await other.run(None, asyncio.Event())
        run.cancel()

    async def test_a_stop_before_the_start_ends_the_wait(self):
        one, _ = await self.machines(self.match())
        await one.begin()
        stop = asyncio.Event()
        asyncio.get_running_loop().call_later(0.5, stop.set)
        async with asyncio.timeout(20):
            told = await self.played(one, stop=stop)
        self.assertIn("mirror 0 accepted 0 turned 0 repairs 0", told[0])


@unittest.skipUnless(BUILT, "tss and tss_mirror aren't built")
class Clocks(Linked):
    async def test_a_wall_clock_that_jumps_moves_no_tick(self):
        for jump in (5, -5):
            one, other = await self.machines(self.match(length=8000))
            runs = await self.running(None, one, other)
            clock, wall = one.rooms[0].clock, time.time
            began = time.monotonic()
            with mock.patch("time.time", lambda: wall() + jump):
                await asyncio.sleep(1)
                due = (time.monotonic() - began) * 50
                self.assertLess(abs(one.rooms[0].clock - clock - due), 60)
            for session, run in zip((one, other), runs):
                run.cancel()
                await session.close()

    async def test_clocks_that_go_apart_are_told(self):
        one, other = await self.machines(self.match(last=20, length=8000))
        await self.running(None, one, other)
        other.rooms[1].start += 1
        await self.until(lambda: any("clocks go apart" in line for line in one.told.lines))
        self.assertTold(one, "tick 0 is +")

    async def test_a_pretended_lag_moves_no_clock(self):
        one, other = await self.machines(self.match(last=100), lambda number: Net(400))
        await self.running(None, one, other)
        self.assertLess(abs(one.rooms[0].start - other.rooms[1].start), 0.1)
        self.assertGreater(other.rooms[1].out[0].lag_ms, 750)


@unittest.skipUnless(BUILT, "tss and tss_mirror aren't built")
class Nets(Linked):
    async def test_over_one_connection_a_command_is_written_once(self):
        one, other, between = await self.between(self.match(length=8000))
        sent = []

        def change(line, is_back):
            found = COMMANDS.search(line)
            if found and not is_back:
                sent.append(found.group(1))
            return [line]
        await self.running(None, one, other)
        between.change, between.is_mute = change, True
        await asyncio.sleep(3)
        self.assertGreater(len(sent), 20)
        self.assertEqual(len(sent), len(set(sent)), "each stood once on the net")

    async def test_a_net_that_is_cut_is_told_and_heals(self):
        match = self.match(length=8000, last=1000)
        one, other, between = await self.between(match)
        await self.begun(one, other)
        stop = asyncio.Event()
        told = asyncio.gather(*[self.played(session, stop=stop) for session in (one, other)])
        link = one.rooms[0].out[1]
        await self.until(lambda: link.is_up and one.rooms[0].clock > 10)
        between.is_cut = True
        await self.until(lambda: not link.is_up, 20)
        self.assertTold(one, "the link to mirror 1 is lost: no pong came for 5 s")
        await asyncio.sleep(1)
        between.is_cut = False
        await self.until(lambda: link.is_up)
        self.assertEqual(sum("linked to mirror 1" in line for line in one.told.lines), 2)
        stop.set()
        said, is_right = self.together(match, (one, other), await told)
        self.assertTrue(is_right, said)

    async def test_what_waited_long_trips_no_limit(self):
        from serving import links
        for kind in (links.LinkIn, links.LinkOut):  # an eighth of what they are, so that a busy machine can write over them
            patched = mock.patch.object(kind, "MOST_BYTES_A_SECOND", kind.MOST_BYTES_A_SECOND // 8)
            patched.start()
            self.addCleanup(patched.stop)
        one, other = await self.machines(self.match(length=8000, last=1000), bots=0)
        link, number = one.rooms[0].out[1], 1500
        for at in range(number):
            link.put(f"{at % 4000} 0 {at} 0 go")
        await self.begun(one, other)
        await self.until(lambda: not link.waiting, 60)
        self.assertFalse([line for line in other.told.lines if "too many" in line])
        self.assertEqual(len(other.rooms[1].heard), number)

    async def test_what_the_pretended_net_loses_is_sent_again(self):
        match = self.match(length=200, last=100)
        one, other = await self.machines(match, lambda number: Net(10, 5, 0.3, seed=number))
        await self.begun(one, other)
        told = await asyncio.gather(self.played(one), self.played(other))
        said, is_right = self.together(match, (one, other), told)
        self.assertTrue(is_right, said)

    async def test_nobody_between_changes_a_line(self):
        first = []

        def dash(line):
            return [line.replace(b" shoot", b" dash")]

        def put_in(line):
            return [line, line.replace(b" go", b" left").replace(b"cmd ", b"cmd 9")] if b"cmd " in line else [line]

        def leave_out(line):
            return [] if b"cmd " in line else [line]

        def again(line):
            first[:] = first or [line] if b"cmd " in line else first
            return [line, *first] if b"ping " in line else [line]
        for change in (dash, put_in, leave_out, again):
            match = self.match(length=8000, last=1000)
            one, other, between = await self.between(match)
            await self.begun(one, other)
            stop = asyncio.Event()
            told = asyncio.gather(*[self.played(session, stop=stop) for session in (one, other)])
            await self.until(lambda: one.rooms[0].clock > 10)
            between.change = lambda line, is_back: [line] if is_back else change(line)
            await asyncio.sleep(2)
            self.assertTold(other, "a line was changed, left out or put in on its way")
            between.change = lambda line, is_back: [line]
            stop.set()
            said, is_right = self.together(match, (one, other), await told)
            self.assertTrue(is_right, f"{change.__name__}: {said}")
            self.assertEqual(one.rooms[0].commands, other.rooms[1].commands)


if __name__ == "__main__":
    unittest.main()
