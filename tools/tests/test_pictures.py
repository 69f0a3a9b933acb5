"""The pictures of pages are what `draw_pages.py` draws, and each page that shows one says what is seen: python3 -m unittest discover tools/tests"""

import os
import re
import unittest

from common import TOOLS, TOP, read, tool

SHOWN = {"scheme": ("README.md", "docs/TOUR.md"), "layers": ("docs/ARCHITECTURE.md",), "race": ("docs/RACE.md",), "mirrors": ("docs/LIVE.md",)}


class Pictures(unittest.TestCase):
    def test_each_picture_is_drawn_from_what_is_there(self):
        for name in SHOWN:
            drawn, said, status = tool("draw_pages.py", name)
            self.assertEqual((said, status), ("", 0))
            self.assertEqual(read(os.path.join(TOP, "docs", "pictures", f"{name}.svg")), drawn, f"python3 tools/draw_pages.py {name} > docs/pictures/{name}.svg")

    def test_each_page_says_what_is_seen(self):
        for name, pages in SHOWN.items():
            for page in pages:
                found = re.search(rf"!\[([^]]+)\]\((?:docs/)?pictures/{name}\.svg\)", read(os.path.join(TOP, page)))
                self.assertTrue(found and len(found.group(1).split()) > 8, f"{page}: {name}")

    def test_the_scheme_is_the_tours(self):
        drawn = tool("draw_pages.py", "scheme")[0]
        self.assertEqual((drawn.count(">0.0</text>"), drawn.count(">1.0</text>")), (5, 7), "as the tour's run lines have them")
        self.assertEqual(drawn.count("<polygon"), 3, "one copy is rolled back where the command arrives, and two behind it")

    def test_each_crate_has_a_box_above_what_it_stands_on(self):
        drawn = tool("draw_pages.py", "layers")[0]
        at = {name: float(y) for y, name in re.findall(r'<text x="[\d.]+" y="([\d.]+)" fill="white"[^>]*>(\w+)</text>', drawn)}
        rows = [line.split("#")[0].partition(":") for line in read(os.path.join(TOP, "crates.txt")).splitlines()]
        below = {row[0].split()[0]: row[2].split() for row in rows if row[0].strip()}
        self.assertEqual(set(at), set(below))
        for crate, others in below.items():
            self.assertTrue(all(at[crate] < at[other] for other in others if other in at), crate)

    def test_live_mirrors_are_said_as_the_tools_files_say(self):
        drawn = " ".join(re.findall(r"<text [^>]*>([^<]*)</text>", tool("draw_pages.py", "mirrors")[0]))
        for name in ("session", "room", "web"):
            said = re.match(r'"""([^.:]*)', read(os.path.join(TOOLS, "serving", f"{name}.py"))).group(1)
            self.assertEqual(drawn.count(said), 2, name)

    def test_what_is_no_picture_is_told(self):
        out, said, status = tool("draw_pages.py", "nothing")
        self.assertEqual((out, status), ("", 2))
        self.assertIn("invalid choice", said)


if __name__ == "__main__":
    unittest.main()
