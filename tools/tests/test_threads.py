"""A race of which threads are refused, by a process of its own: python3 -m unittest discover tools/tests

No test of a crate can have a thread refused. Run is the built program: crates/tss/out/tss, or the one that the variable TSS names.
"""

import os
import random
import shutil
import subprocess
import unittest

from common import PROGRAM, TOP, Files

HERE = os.path.dirname(os.path.abspath(__file__))


@unittest.skipUnless(os.path.exists(PROGRAM) and shutil.which("gcc"), "the program isn't built, or gcc isn't installed")
class Refused(Files):
    def setUp(self):
        super().setUp()
        self.shim = self.path("refuse.so")
        subprocess.run(["gcc", "-O1", "-shared", "-fPIC", "-o", self.shim, os.path.join(HERE, "refuse_threads.c"), "-ldl"], check=True)
        with open(os.path.join(TOP, "examples", "race.match"), "rb") as file:
            self.match = file.read()

    def race(self, bits):
        """The status of a race of which these threads are refused, and of the audit of its record."""
        done = subprocess.run([PROGRAM, "race"], input=self.match, capture_output=True, timeout=60,
                              env=dict(os.environ, LD_PRELOAD=self.shim, REFUSED=str(bits)))
        return done.returncode, subprocess.run([PROGRAM, "audit"], input=done.stdout, capture_output=True).returncode

    def test_a_race_ends_legally_whichever_threads_are_refused(self):
        draw = random.Random(5)
        for bits in [0, 2 ** 64 - 1, *[1 << thread for thread in range(12)], *[draw.getrandbits(64) for _ in range(12)]]:
            self.assertEqual(self.race(bits), (0, 0), f"{bits:#x}")

    def test_threads_are_refused(self):
        """The caller does all jobs then, one after another: the record is always the same."""
        records = {subprocess.run([PROGRAM, "race"], input=self.match, capture_output=True, timeout=60,
                                  env=dict(os.environ, LD_PRELOAD=self.shim, REFUSED=str(2 ** 64 - 1))).stdout for _ in range(5)}
        self.assertEqual(len(records), 1)


if __name__ == "__main__":
    unittest.main()
