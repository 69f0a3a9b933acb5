"""What pages quote of the specs is what stands there, each file that the model's page names has what is told of it, and pages are short: python3 -m unittest discover tools/tests"""

import glob
import os
import re
import unittest

from common import TOP, read

QUOTED = {"IsRun": "tss_program/specs/Run", "Ends": "tss_program/specs/Run", "IsPlayed": "match_hall/specs/Headline"}
MODEL = ("game_trait", "sync_model")


def spec(place):
    return read(os.path.join(TOP, "crates", f"{place}.antt"))


def definition(text, name):
    """The lines of a record or a data type, without the words above them: from its head to the next empty line."""
    lines = text.split("\n")
    head = next(at for at, line in enumerate(lines) if re.match(rf"\s*pub (record|data) {name}\b", line))
    end = next(at for at in range(head, len(lines)) if not lines[at].strip())
    return [line for line in lines[head:end] if not line.strip().startswith("--")]


def defined(text):
    """The names that a file of specs defines, with a record's members."""
    return set(re.findall(r"(?m)^\s*(?:abbrev |unfoldable |opaque )?(?:pub )?(?:record |data )?(\w+)(?: :| [{(])", text))


def sections(page):
    return re.findall(r"(?ms)^## (.+?)\n(.*?)(?=^## |\Z)", page)


class Quotations(unittest.TestCase):
    def setUp(self):
        self.page = read(os.path.join(TOP, "docs", "PROMISES.md"))

    def test_each_quoted_definition_is_the_specs(self):
        quoted = "".join(line[4:] + "\n" if line.startswith("    ") else "\n" for line in self.page.split("\n"))
        for name, place in QUOTED.items():
            self.assertEqual(definition(quoted, name), definition(spec(place), name), f"{name} of {place}")
            self.assertIn(f"`{place}`", self.page)

    def test_each_member_is_told(self):
        for name, place in QUOTED.items():
            members = [word for line in definition(spec(place), name)[1:] for word in re.findall(r"^  (?:pub )?(\w+) :", line)]
            self.assertGreater(len(members), 1)
            for member in members:
                self.assertRegex(self.page, rf"(?m)^- `{member}`: ", f"{name}.{member}")


class Model(unittest.TestCase):
    """Behind each heading of MODEL stand the files that define what is told below it."""

    def setUp(self):
        paths = [path for crate in MODEL for path in glob.glob(os.path.join(TOP, "crates", crate, "specs", "*.antt"))]
        self.files = {f"{path.split(os.sep)[-3]}/specs/{os.path.basename(path)[:-5]}": defined(read(path)) for path in paths}

    def named(self, text):
        first = re.match(r"\s*\*In ((?:`[\w/]+`(?:,\s|\sand\s)?)+)\.\*\n", text)
        return re.findall(r"`([\w/]+)`", first.group(1)) if first else None

    def test_each_heading_has_its_files(self):
        for heading, text in sections(read(os.path.join(TOP, "docs", "MODEL.md"))):
            named = self.named(text)
            self.assertTrue(named, heading)
            for name in named:
                self.assertIn(name, self.files, heading)

    def test_each_word_stands_in_a_file_of_its_heading(self):
        everything = set().union(*self.files.values())
        for heading, text in sections(read(os.path.join(TOP, "docs", "MODEL.md"))):
            here = set().union(*[self.files[name] for name in self.named(text)])
            for word in set(re.findall(r"`(\w*_\w+|Is\w+|Are\w+|DelaysRise|Fits\w*|MirrorState)`", heading + text)) & everything:
                self.assertIn(word, here, f"{heading}: {word}")


class Lengths(unittest.TestCase):
    """Words outside of quoted blocks. FORMATS is a reference, TOOLS is made by a script."""

    def words(self, page):
        return len([word for line in read(page).split("\n") if not line.startswith("    ") for word in line.split()])

    def test_pages_are_short(self):
        self.assertLess(len(read(os.path.join(TOP, "README.md")).split()), 1000)
        pages = [path for path in glob.glob(os.path.join(TOP, "docs", "*.md")) if os.path.basename(path) not in ("FORMATS.md", "TOOLS.md")]
        self.assertLess(sum(self.words(page) for page in pages + [os.path.join(TOP, name) for name in ("README.md", "CONTRIBUTING.md")]), 18000)


if __name__ == "__main__":
    unittest.main()
