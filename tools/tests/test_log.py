"""What an operator reads: its form, its limits, and an output that nobody reads."""

import os
import time
import unittest

import common  # noqa: F401, for the tools' path

from serving.log import WARNING, Out, Told


class Lines(unittest.TestCase):
    def test_a_line_has_time_grade_mirror_and_peer(self):
        reading, writing = os.pipe()
        told = Told(Out(writing))
        told(2, "a connection was closed: it hasn't the key", WARNING, peer="10.0.0.2:51234")
        told(None, "the session is ended")
        told.out.line("the verdict")
        told.out.drain(10)
        lines = os.read(reading, 4096).decode().split("\n")
        self.assertRegex(lines[0], r"^\d{4}-\d\d-\d\d \d\d:\d\d:\d\d\.\d{3} WARNING mirror 2, 10\.0\.0\.2:51234: a connection was closed: it hasn't the key$")
        self.assertRegex(lines[1], r"^[\d :.-]+ INFO the session: the session is ended$")
        self.assertEqual(lines[2:], ["the verdict", ""])
        self.assertEqual(told.lines[0], "mirror 2: a connection was closed: it hasn't the key")

    def test_what_repeats_is_counted(self):
        told = Told(quiet=True)
        for at in range(300):
            told(1, f"connection {at} was closed")
            told(1, "a command came late", key="late")
            told(2, "a command came late", key="late")
        self.assertEqual([len([line for line in told.lines if words in line]) for words in ("connection", "1: a command", "2: a command")], [5, 5, 5])
        told.sum_up(time.monotonic() + Told.SECONDS + 1)
        self.assertIn("mirror 1: connection 299 was closed (and 294 more)", told.lines)
        self.assertEqual(len(told.lines), 18)
        told(1, "connection 7 was closed")
        self.assertEqual(told.lines[-1], "mirror 1: connection 7 was closed")

    def test_a_state_is_said_once(self):
        told = Told(quiet=True)
        for state in ("away", "away", "up", "up", "away"):
            told.state(0, "link 1", state, f"mirror 1 is {state}")
        self.assertEqual(list(told.lines), ["mirror 0: mirror 1 is away", "mirror 0: mirror 1 is up", "mirror 0: mirror 1 is away"])

    def test_an_output_that_nobody_reads_stops_nobody(self):
        reading, writing = os.pipe()
        told, began = Told(Out(writing)), time.monotonic()
        for at in range(20_000):
            told.out.line("x" * 100)
        told.out.drain(0.1)
        self.assertLess(time.monotonic() - began, 20)
        self.assertLessEqual(told.out.queue.qsize(), Out.MOST_LINES)
        self.assertGreater(told.out.lost, 0)
        os.close(reading)
        told(0, "a closed one neither")
        told.out.drain(20)
        self.assertEqual(told.out.queue.unfinished_tasks, 0)


if __name__ == "__main__":
    unittest.main()
