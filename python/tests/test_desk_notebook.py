"""The worked notebook: its cells run and show what is committed, and its page is whole. Stands in the repository alone."""
import html.parser
import json
import pathlib
import subprocess
import sys
import tempfile
import unittest

import mixegorta

ROOT = pathlib.Path(__file__).resolve().parents[2]
SCRIPT = ROOT / "docs/notebooks/callable_note.py"
VOID = {"meta", "line", "rect", "circle", "path"}


def run(*arguments):
    environment = {"PATH": "/usr/bin:/bin", "MIXEGORTA_LIBRARY": mixegorta._library.PATH}
    return subprocess.run([sys.executable, "-B", str(ROOT / "tools/notebook.py"), str(SCRIPT), *arguments], stdout=subprocess.PIPE, stderr=subprocess.STDOUT, text=True,
                          env=environment)


class Reader(html.parser.HTMLParser):
    """The text of a page whose tags are closed in order."""

    def __init__(self):
        super().__init__()
        self.open, self.text, self.pictures = [], "", 0

    def handle_starttag(self, tag, attributes):
        self.pictures += tag == "svg"
        if tag not in VOID:
            self.open.append(tag)

    def handle_endtag(self, tag):
        if tag not in VOID:
            assert self.open.pop() == tag, tag

    def handle_data(self, data):
        self.text += data


@unittest.skipUnless(SCRIPT.exists(), "the notebook stands in the repository")
class Test(unittest.TestCase):
    def test_it_shows_what_is_committed(self):
        done = run("--check")
        self.assertEqual((done.returncode, done.stdout), (0, "callable_note.ipynb is as committed\n"))

    def test_its_page_is_whole(self):
        with tempfile.TemporaryDirectory() as folder:
            path = pathlib.Path(folder) / "page.html"
            done = run("--page", str(path))
            self.assertEqual((done.returncode, done.stdout), (0, ""))
            page = Reader()
            page.feed(path.read_text())
        self.assertEqual((page.open, page.pictures), ([], 2))
        for words in ("exact on this tree to", "what the steps cost, an estimate", "log-linear", "dv01", "basis points", "QuantLib"):
            self.assertIn(words, page.text)

    def test_both_ways_give_nearly_one_price(self):
        cells = json.loads(SCRIPT.with_suffix(".ipynb").read_text())["cells"]
        lines = "".join("".join(output["text"]) for output in cells[-2]["outputs"]).splitlines()
        pairs = {line[:24].strip(): line[24:].split() for line in lines[1:]}
        self.assertLess(*map(int, pairs["lines"]))
        for name in ("bond", "callable bond, 40 steps", "callable at 98", "callable at 101"):
            ours, theirs = map(float, pairs[name])
            self.assertLess(abs(ours - theirs), 0.01, name)


if __name__ == "__main__":
    unittest.main()
