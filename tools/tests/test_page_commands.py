"""Each command of the pages that ends quickly is run, with the programs that TSS and TSS_MIRROR name; of each other one it is said why it isn't:
python3 -m unittest discover tools/tests"""

import glob
import os
import re
import subprocess
import sys
import unittest

from common import PROGRAM, TOP, Files, read

MIRROR = os.environ.get("TSS_MIRROR", os.path.join(TOP, "crates", "tss_mirror", "out", "tss_mirror"))
PAGES = ["README.md", "CONTRIBUTING.md"] + sorted(os.path.relpath(path, TOP) for path in glob.glob(os.path.join(TOP, "docs", "*.md")) if not path.endswith("TOOLS.md"))
IN_BLOCKS = r"(?:/usr/bin/)?python3 .+|(?:rt|cd|apt-get|openssl|ssh) .+|\.ci/run|(?:tools|crates|OUT)/\S+(?: .+)?"
IN_WORDS = r"\(?(?:(?:rt|cd|tss|tss_mirror|crates/\S+|python3) .*(?: [<|] |&&).*)"
NOT_RUN = {
    "it proves or builds, with the kit": r"^\(?(rt|cd|\.ci/run|tools/c/build\.sh|OUT/bench)\b|^\.ci/run$",
    "it installs, makes a key or goes to another machine": r"^(apt-get|openssl|ssh)\b",
    "it has a name or a place of the reader's own": r"\b(PREFIX|MATCH|FILE|HOST|FOLDER|PROGRAM|NAME|WORDS)\b",
    "it measures for minutes": r"tools/bench\.py",
}


def commands(page):
    """The commands of a page: lines of its blocks, and what stands in backquotes and reads, pipes or goes on."""
    found, text = [], read(os.path.join(TOP, page)).replace("\\\n", " ")
    for part in re.split(r"\n\n+", text):
        if part.startswith("    ") and page != "docs/FORMATS.md":
            found += [match.group(1) for match in re.finditer(rf"(?m)^ {{4,}}(?:\$ )?({IN_BLOCKS})$", part)]
        else:
            found += [words.replace("\n", " ") for words in part.split("`")[1::2] if re.fullmatch(IN_WORDS, words.replace("\n", " "))]
    return [re.sub(r"\s+", " ", re.sub(r"\s+#.*| {4,}.*$", "", command)) for command in found]


def why_not(command):
    return next((why for why, pattern in NOT_RUN.items() if re.search(pattern, command)), None)


@unittest.skipUnless(os.path.exists(PROGRAM) and os.path.exists(MIRROR), "tss and tss_mirror aren't built")
class Commands(Files):
    def setUp(self):
        super().setUp()
        for name in ("tools", "examples", "docs"):
            os.symlink(os.path.join(TOP, name), self.path(name))
        for place, program in (("crates/tss/out/tss", PROGRAM), ("crates/tss_mirror/out/tss_mirror", MIRROR), ("bin/tss", PROGRAM), ("bin/tss_mirror", MIRROR),
                               ("bin/python3", sys.executable)):
            os.makedirs(os.path.dirname(self.path(place)), exist_ok=True)
            os.symlink(os.path.abspath(program), self.path(place))

    def run_one(self, command):
        if "serve_mirrors.py" in command:
            command += f" --seconds 2 --no-page --mirror-program {MIRROR}"
        if re.search(r"tools/(serve_mirrors|show_match|study_delays|compare_schemes)\.py", command):
            command += f" --program {PROGRAM}"
        command = command.replace("/usr/bin/python3", "python3")
        environment = dict(os.environ, PATH=self.path("bin") + os.pathsep + os.environ["PATH"])
        return subprocess.run(["bash", "-c", "set -o pipefail; " + command], cwd=self.path("."), env=environment, capture_output=True, text=True, timeout=300)

    def ends_well(self, page, due):
        """Runs the commands of a page, in order."""
        run = [command for command in commands(page) if not why_not(command)]
        self.assertEqual(len(run), due, f"{page}: {run}")
        for command in run:
            done = self.run_one(command)
            self.assertEqual(done.returncode, 0, f"{page}: {command}\n{done.stdout[-500:]}{done.stderr[-500:]}")
            self.assertTrue(done.stdout or ">" in command or "--out" in command, command)

    def test_readme(self):
        self.ends_well("README.md", 2)

    def test_tour(self):
        self.ends_well("docs/TOUR.md", 2)

    def test_live(self):
        self.ends_well("docs/LIVE.md", 2)

    def test_study(self):
        self.ends_well("docs/STUDY.md", 5)

    def test_embed(self):
        self.ends_well("docs/EMBED.md", 1)

    def test_of_each_other_command_it_is_known_why_it_isn_t_run(self):
        tried = {"README.md", "docs/TOUR.md", "docs/LIVE.md", "docs/STUDY.md", "docs/EMBED.md"}
        for page in PAGES:
            for command in commands(page):
                self.assertTrue(page in tried or why_not(command), f"{page}: {command}")


class Links(unittest.TestCase):
    """What pages link to is there, with its heading."""

    def headings(self, path):
        found = re.findall(r"(?m)^#+ (.+)$", read(path))
        return {re.sub(r"[^\w\- ]", "", heading.lower()).replace(" ", "-") for heading in found}

    def test_each_link_leads_somewhere(self):
        pages = PAGES + ["docs/TOOLS.md"] + [os.path.relpath(path, TOP) for path in glob.glob(os.path.join(TOP, "crates", "*", "README.md"))]
        for page in pages:
            for link in re.findall(r"\]\(([^)\s]+)\)", read(os.path.join(TOP, page))):
                if re.match(r"https?:", link):
                    continue
                place, _, heading = link.partition("#")
                path = os.path.normpath(os.path.join(TOP, os.path.dirname(page), place)) if place else os.path.join(TOP, page)
                self.assertTrue(os.path.exists(path), f"{page}: {link}")
                if heading:
                    self.assertIn(heading, self.headings(path), f"{page}: {link}")


if __name__ == "__main__":
    unittest.main()
