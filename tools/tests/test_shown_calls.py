"""What the READMEs of engine crates show of a caller is the text of a proved function of `shown_calls`: python3 -m unittest discover tools/tests"""

import os
import re
import unittest

from common import TOP, read

SHOWN = {"mirror_core": "ending_match", "turn_lock": "taking_turns", "link_ring": "passing_message", "line_talk": "talking", "rolling_mirror": "going_session", "peer_session": "carried_command"}


def function(text):
    """The public function of a file, from its signature to its last brace."""
    return re.search(r"(?ms)^pub fn .*?^}$", text).group(0)


def shown(page):
    """The block of a README below `## A caller`."""
    block = re.search(r"(?m)^## A caller\n(?:.*\n)*?((?:(?:    .*)?\n)+)(?=## )", page)
    return "\n".join(line[4:] for line in block.group(1).strip("\n").split("\n"))


class Callers(unittest.TestCase):
    def test_each_readme_shows_a_proved_function(self):
        for crate, file in SHOWN.items():
            code = function(read(os.path.join(TOP, "crates", "shown_calls", "src", f"{file}.rt")))
            self.assertEqual(shown(read(os.path.join(TOP, "crates", crate, "README.md"))), code, crate)
            self.assertIn(f"{crate}::" if crate != "turn_lock" else "TurnLock", read(os.path.join(TOP, "crates", "shown_calls", "src", f"{file}.rt")))

    def test_each_file_is_shown(self):
        files = {name[:-3] for name in os.listdir(os.path.join(TOP, "crates", "shown_calls", "src"))} - {"lib", "counter"}
        self.assertEqual(files, set(SHOWN.values()))


if __name__ == "__main__":
    unittest.main()
