"""The rows of peers that `crates/peer_rows` makes are those of the JSON."""

import unittest

from common import tool

from peer_rows_text import Wrong, lines_of

CONFIG = {"session": 7, "slots": 2, "payload": 4, "plans": [[0, 2]], "window": 16, "keep": 4, "relay": 3, "room": 8}


def row(*steps, **changed):
    return {"name": "a row", "config": {**CONFIG, **changed}, "steps": list(steps)}


class Rows(unittest.TestCase):
    def test_the_file_is_what_the_rows_come_to(self):
        self.assertEqual(tool("peer_rows_text.py", "--check"), ("", "", 0))

    def test_a_line(self):
        step = {"at": "z", "call": "own", "ahead": 1, "payload": "aabb", "answer": ["TAKEN", 1, 0]}
        self.assertEqual(lines_of(row(step)), ["session 7 2 4 16 4 3 8", "a own 1 xaabb = 2 1 0"])

    def test_what_a_peer_is_not_asked_is_left_out(self):
        steps = [{"at": "a", "call": "new", "me": 2, "answer": ["NOT_LEGAL", 0, 0]}, {"at": "a", "call": "turn", "answer": ["NO_PEER", 0, 0]}]
        self.assertEqual(lines_of(row(*steps)), ["session 7 2 4 16 4 3 8"])

    def test_what_no_line_can_say_is_wrong(self):
        with self.assertRaises(Wrong):
            lines_of(row(plans=[[0, 3]]))
        with self.assertRaises(Wrong):
            lines_of(row({"at": "a", "call": "sing", "answer": ["VALUE", 0, 0]}))
        with self.assertRaises(Wrong):
            lines_of(row(*({"at": name, "call": "turn", "answer": ["MOVED", 0, 0]} for name in "abcd")))


if __name__ == "__main__":
    unittest.main()
