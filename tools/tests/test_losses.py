"""Mirrors that die, hang or end while they are played on, and strangers: nothing is lost, and what is said is so."""

import asyncio
import gc
import os
import signal
import time
import types
import unittest

from common import PROGRAM, Files, read, tool
from live_sessions import RIGHT, Served
import test_endless
from test_serving import ARENA, BUILT, MIRROR_PROGRAM, Sessions

from serving import endless
from serving.log import Told
from serving.mirror_process import Answer
from serving.played import Played
from serving.wire import Net


class Deaths(Sessions):
    """A session of 50 ticks a second, whose last delay is two seconds."""

    async def begun(self, net=None, bots=8):
        return await self.session(self.match(8000, last=100), net or Net(60, 30, 0, seed=1), rate=50, bots=bots)

    async def press(self, room, player, every=0.02):
        """Presses keys for ever. How many were taken."""
        taken = 0
        try:
            while True:
                taken += bool(room.act(player, ("go", "left", "right")[taken % 3]))
                await asyncio.sleep(every)
        except asyncio.CancelledError:
            return taken

    async def tick_of(self, room, tick):
        async with asyncio.timeout(300):  # on a busy machine a session is far behind its clock
            while room.clock < tick:
                await asyncio.sleep(0.01)

    async def run_beside(self, session, *beside, ticks=150):
        """Runs a session until this is done beside it, and mirror 0 has made so many ticks and some more."""
        stop = asyncio.Event()

        async def until():
            await asyncio.gather(*beside)
            await self.tick_of(session.rooms[0], max(ticks, session.rooms[0].clock + 30))
            stop.set()
        await asyncio.gather(session.run(None, stop), until())

    async def judged(self, session, *beside, ticks=150):
        """The verdict on a session that something is done beside."""
        await self.run_beside(session, *beside, ticks=ticks)
        return await asyncio.to_thread(Played.of(session, await session.finish()).verdict, PROGRAM)

    def right(self, given):
        self.assertRegex(given[0], f"^{RIGHT}$")
        self.assertTrue(given[1])


@unittest.skipUnless(BUILT, "tss and tss_mirror aren't built")
class Ends(Deaths):
    async def test_what_is_pressed_while_a_session_ends_is_refused(self):
        session = await self.begun(Net(150, 50, 0, seed=1), bots=3)
        room = session.rooms[1]
        pressing = asyncio.create_task(self.press(room, 12))
        given = await self.judged(session, ticks=80)
        self.assertFalse(room.act(12, "go"))
        pressing.cancel()
        self.right(given)
        taken = await pressing
        own = [command for command in room.commands.values() if command.split(" ")[3] == "12"]
        self.assertEqual(len(own), taken)

    async def test_a_mirror_that_dies_at_the_end_is_begun_anew(self):
        session = await self.begun(Net(300, 50, 0, seed=2))
        await self.run_beside(session, ticks=80)
        ending = asyncio.create_task(session.finish())
        await asyncio.sleep(0.05)
        session.rooms[3].process.end()
        self.right(await asyncio.to_thread(Played.of(session, await ending).verdict, PROGRAM))
        self.assertEqual(session.rooms[3].restarts, 1)


@unittest.skipUnless(BUILT, "tss and tss_mirror aren't built")
class Begins(Deaths):
    async def test_what_is_pressed_while_a_mirror_is_begun_anew_has_its_time(self):
        session = await self.begun()
        room = session.rooms[2]
        pressing = asyncio.create_task(self.press(room, 14, 0.02))

        async def kill():
            await self.tick_of(room, 110)
            room.process.end()
        given = await self.judged(session, kill())
        pressing.cancel()
        self.right(given)
        times = [int(command.split(" ")[0]) for _, command in sorted(room.commands.items()) if command.split(" ")[3] == "14"]
        self.assertEqual(times, sorted(times))
        self.assertTrue(any(time > 110 for time in times))
        self.assertEqual(len(times), await pressing)

    async def test_what_is_done_behind_a_mirror_that_is_begun_anew_is_held(self):
        session, held = await self.begun(bots=0), []
        one, other = session.rooms[0], session.rooms[1]
        known = one.known

        async def known_beside():
            session.watch_stall(other, 0.0)
            held.append(other.is_held)
            return await known()

        one.known = known_beside
        await one.catch_up(120)
        await one.come_back("is ended here")
        await session.close()
        self.assertEqual((held, one.clock), ([True], 120))

    async def test_mirrors_that_die_at_once_come_back(self):
        for numbers in ((1, 2), (0, 1, 2, 3)):
            session = await self.begun()

            async def kill():
                for tick in (60, 120):
                    await self.tick_of(session.rooms[numbers[0]], tick)
                    for number in numbers:
                        session.rooms[number].process.end()
            self.right(await self.judged(session, kill()))
            self.assertEqual([session.rooms[number].restarts for number in numbers], [2] * len(numbers))

    async def test_a_mirror_that_dies_while_it_is_begun_anew_comes_back(self):
        session = await self.begun()
        room = session.rooms[2]
        room.PAUSE = 0.05

        async def kill():
            await self.tick_of(room, 60)
            for _ in range(3):
                before = room.process.process
                room.process.end()
                while room.process.process is before:
                    await asyncio.sleep(0.001)
        self.right(await self.judged(session, kill()))
        self.assertGreaterEqual(room.restarts, 2)
        self.assertEqual(room.tries, 0)

    async def test_a_mirror_that_can_not_come_back_leaves_the_others(self):
        session = await self.begun()
        room = session.rooms[2]
        room.PAUSE = 0.01

        async def kill():
            await self.tick_of(room, 50)
            room.process.program = "/no/program"
            room.process.end()
        await self.run_beside(session, kill())
        played = Played.of(session, await session.finish())
        verdict, is_right = await asyncio.to_thread(played.verdict, PROGRAM)
        self.assertRegex(verdict, r"^3 mirrors end at one world, as `tss order` has it; \d+ commands; mirror 2 is not there, so there is no record$")
        self.assertFalse(is_right)
        self.assertTrue(any("mirror 2: the mirror /no/program: No such file or directory" in line and "has left" in line for line in session.told.lines), session.told.lines)
        self.assertNotIn(2, session.claims.values())
        played.write(self.folder.name)
        self.assertTrue({"mirror0.told", "mirror1.told", "mirror3.told", "commands.match"} <= set(os.listdir(self.folder.name)))


@unittest.skipUnless(BUILT, "tss and tss_mirror aren't built")
class Hangs(Deaths):
    async def test_a_mirror_that_hangs_is_told_killed_and_begun_anew(self):
        session = await self.begun()
        room = session.rooms[1]
        room.process.PATIENCE = 2.0

        async def hang():
            await self.tick_of(room, 60)
            os.kill(room.process.process.pid, signal.SIGSTOP)
        async with asyncio.timeout(300):
            self.right(await self.judged(session, hang()))
        self.assertGreaterEqual(room.restarts, 1)
        for said in ("mirror 1: the mirror hasn't answered for 1 s", "mirror 1: the mirror hasn't answered for 2 s and was killed, and is begun anew"):
            self.assertIn(said, session.told.lines)

    def test_an_interrupt_ends_a_session_of_a_mirror_that_hangs(self):
        with Served("--no-page", "--bots", "8", match=self.patient()) as served:
            time.sleep(3)
            served.kill(1, how=signal.SIGSTOP)
            time.sleep(0.5)
            served.interrupt()
            out, said, status = served.ended(60)
        self.assertEqual((said, status), ([], 0), out)
        self.assertRegex(out[-1], RIGHT)

    def test_a_second_interrupt_ends_at_once(self):
        with Served("--no-page", "--bots", "8", "--out", self.path("out"), match=self.patient()) as served:
            time.sleep(3)
            mirrors = served.mirrors()
            served.kill(0, 1, 2, 3, how=signal.SIGSTOP)
            time.sleep(0.5)
            served.interrupt()
            time.sleep(0.5)
            served.interrupt()
            out, said, status = served.ended(4)
        self.assertEqual((len(mirrors), said, status), (4, [], 130))
        self.assertIn("ended at once", out[-1])
        out, said, status = tool("serve_mirrors.py", self.patient(), "--gather", self.path("out"), "--program", PROGRAM, "--mirror-program", MIRROR_PROGRAM)
        self.assertRegex(out, RIGHT)

    def patient(self):
        return self.file("patient.match", read(ARENA).replace("delays 0 4 20\n", "delays 0 4 200\n"))


@unittest.skipUnless(BUILT, "tss and tss_mirror aren't built")
class Verdicts(Deaths):
    async def test_a_verdict_says_which_commands_which_mirror_lacks(self):
        session = await self.begun()
        session.rooms[0].out[1].put = lambda command: None
        verdict, is_right = await self.judged(session, ticks=100)
        self.assertFalse(is_right)
        self.assertRegex(verdict, r"^4 mirrors end at different worlds: mirror 1 lacks \d+ commands?, the first 'cmd \d+ 0 \d+ \d+ \w+'; \d+ commands; the record is legal \d+$")

    async def test_a_verdict_says_which_commands_were_turned_away(self):
        session = await self.session(self.match(2000, last=5), Net(400, 0, 0, seed=3), rate=50, bots=4)
        session.may_turn = lambda room: True  # as mirrors of other machines, they don't wait for each other
        verdict, is_right = await self.judged(session, ticks=100)
        self.assertRegex(verdict, r"mirror 0 turned away \d+ commands, the first 'cmd \d+ [123] \d+ \d+ \w+'; mirror 1 turned away")
        self.assertTrue(any("a command came late and is turned away: cmd" in line for line in session.told.lines))
        self.assertLess(len(session.told.lines), 60)

    async def test_what_the_program_refuses_is_told(self):
        session = await self.begun()
        session.rooms[0].take_own(Answer(b"", b"refused line 39 cause 7 many"))
        session.rooms[0].take_heard("0 5 1 0 go", Answer(b"", b"refused line 40 cause 3 number"))
        self.assertEqual(list(session.told.lines)[-2:], ["mirror 0: what a player did is refused: refused line 39 cause 7 many",
                                                         "mirror 0: a command is refused: refused line 40 cause 3 number: cmd 0 5 1 0 go"])
        await session.close()


@unittest.skipUnless(BUILT, "tss and tss_mirror aren't built")
class VerdictsWithoutEnd(test_endless.Sessions):
    async def test_a_verdict_says_which_commands_which_mirror_lacks(self):
        session = await self.session(Net(20, 10, 0, seed=1))
        session.rooms[0].out[1].put = lambda command: None
        verdict, is_right = (await self.played(session, 4)).verdict()
        self.assertFalse(is_right)
        self.assertRegex(verdict, r"^mirrors 0, 1, 2, 3 show different worlds \((mirror 1 lacks \d+ commands?, the first 'cmd \d+ 0 .*|what parted them .* is forgotten)\) at tick ")

    def test_what_is_remembered_is_compared(self):
        given = (0, [(5, 0, 1, 2, "go"), (9, 1, 1, 3, "left")]), (1, [(9, 1, 1, 3, "left"), (2, 1, 0, 3, "go")])
        bases = [types.SimpleNamespace(mirror=mirror, commands=commands) for mirror, commands in given]
        self.assertEqual(endless.reasons(bases, 3, 12), "mirror 1 lacks 1 command, the first 'cmd 5 0 1 2 go'")
        self.assertEqual(endless.reasons(bases, 6, 12), "what parted them lies before tick 6, and is forgotten")


@unittest.skipUnless(BUILT, "tss and tss_mirror aren't built")
class Strangers(Deaths):
    async def test_what_strangers_leave_is_given_back(self):
        session = await self.begun()
        place, left = session.places[0], []
        transports = lambda: sum(type(one).__name__ == "_SelectorSocketTransport" for one in gc.get_objects())

        async def knock():
            await self.tick_of(session.rooms[0], 20)
            before = transports()
            for _ in range(600):
                _, writer = await asyncio.open_connection(*place)
                writer.close()
            await asyncio.sleep(0.5)
            left.append(transports() - before)
            self.assertFalse(session.rooms[0].is_over())
        self.right(await self.judged(session, knock()))
        self.assertLess(left[0], 600, "of 1,200, on both sides")

    async def test_connections_are_limited(self):
        session = await self.begun()
        place = session.places[0]
        open_ones = []

        async def knock():
            held = [await asyncio.open_connection(*place) for _ in range(100)]
            await asyncio.sleep(1)
            open_ones.append(sum(not reader.at_eof() for reader, _ in held))
            for _, writer in held:
                writer.close()
        self.right(await self.judged(session, knock()))
        self.assertLessEqual(open_ones[0], 16)
        self.assertTrue(any("too many are open" in line for line in session.told.lines))


class Windows(Files):
    def room(self):
        match = type("Match", (), {"numbers": lambda self, word: {"mirrors": [4], "length": [200], "delays": [0, 100]}[word], "lines_of": lambda self, word: [], "setup": []})()
        return endless.EndlessRoom("none", 0, match, Told(quiet=True))

    def test_commands_far_ahead_are_looked_at_once(self):
        room, looks, time_of = self.room(), [], endless.time_of
        try:
            endless.time_of = lambda command: looks.append(command) or time_of(command)
            for number in range(20_000):
                room.take_heard(f"{300 + number % 7 * 100} 1 {number} 0 go", Answer(f"far 0 1 {number} 99\n".encode(), b"ok"))
            for room.clock in range(0, 400, 10):
                room.hear_again()
        finally:
            endless.time_of = time_of
        self.assertLess(len(looks), 50_000)
        self.assertEqual(sorted({command.split(" ")[0] for command in room.heard}), ["300"])
        self.assertEqual(len(room.heard) + len(room.far), 20_000)

    def test_what_there_was_no_room_for_is_handed_in_again(self):
        room, full = self.room(), Answer(b"", b"refused line 40 cause 7 many")
        for number in range(600):
            room.take_heard(f"{600 - number} 1 {number} 0 go", full)
        room.hear_again()
        self.assertEqual(room.heard, [f"{time} 1 {600 - time} 0 go" for time in range(1, 257)], "the oldest first, as many as are handed in together")
        self.assertEqual((len(room.full), list(room.told.lines)), (344, []))
        room.heard, room.MOST_KEPT = [], 344
        room.take_heard("7 1 9000 0 go", full)
        self.assertEqual(list(room.told.lines), ["mirror 0: commands for which there is no room are turned away: there are too many"])
        room.take_heard("7 1 9000 0 go", Answer(b"", b"refused line 41 cause 3 number"))
        self.assertEqual(len(room.full), 344, "what has no form is kept by nobody")


if __name__ == "__main__":
    unittest.main()
