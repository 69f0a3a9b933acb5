"""How much memory a live mirror takes while it is talked to: python3 -m unittest discover tools/tests

Run is the built program: crates/tss_mirror/out/tss_mirror, or the one that the variable TSS_MIRROR names.
"""

import os
import resource
import subprocess
import unittest

from common import Files
from test_serving import MIRROR_PROGRAM

HEAD = "tss live 1\ntss match 1\nlength 8\ngrid 9 1\nmirrors 1\ndelays 0 2 4\npace 0\nplayer ann 0 0 e\nend\n"
COMMANDS = 4096
ASKED = 65536 // len("commands\n")  # as many requests as are heard at once
MOST = 100 << 20  # bytes


@unittest.skipUnless(os.path.exists(MIRROR_PROGRAM), "the program isn't built")
class Memory(Files):
    def test_requests_that_are_heard_at_once_are_not_all_held(self):
        """What is due of one piece of the input is more than the process may take."""
        def limited():
            resource.setrlimit(resource.RLIMIT_AS, (MOST, MOST))

        lines = "".join(f"cmd 0 0 {number} 0 go\n" for number in range(COMMANDS))
        due = len("ok\n") + len(lines) + len("ok\n") * COMMANDS + ASKED * len(lines + "ok\n")
        self.assertGreater(due, 4 * MOST)
        path = self.file("input", HEAD + "own 0 go\n" * COMMANDS + "commands\n" * ASKED)
        told = 0
        with open(path, "rb") as given, subprocess.Popen([MIRROR_PROGRAM, "0"], stdin=given, stdout=subprocess.PIPE, preexec_fn=limited) as process:
            while piece := process.stdout.read(1 << 20):
                told += len(piece)
        self.assertEqual((process.returncode, told), (0, due))


if __name__ == "__main__":
    unittest.main()
