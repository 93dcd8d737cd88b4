"""Tests of tools/book: both pages are made, and each link of the book leads to a place in it."""
import html
import os
import re
import subprocess
import tempfile
import unittest

ROOT = os.path.dirname(os.path.dirname(os.path.dirname(os.path.abspath(__file__))))


class Made(unittest.TestCase):
    @classmethod
    def setUpClass(cls):
        with tempfile.TemporaryDirectory() as holder:
            cls.told = subprocess.run(
                [f"{ROOT}/tools/book", f"{holder}/made"], capture_output=True, text=True, check=True
            ).stdout
            cls.texts = {}
            for name in sorted(os.listdir(f"{holder}/made")):
                with open(f"{holder}/made/{name}", encoding="utf-8") as file:
                    cls.texts[name] = file.read()

    def test_both_are_made(self):
        self.assertEqual([*self.texts], ["book.html", "definitions.md"])
        self.assertEqual(self.told.count(" definitions and types\n"), 2)

    def test_each_link_leads_somewhere(self):
        book = self.texts["book.html"]
        places = {html.unescape(it) for it in re.findall(r' id="([^"]*)"', book)}
        links = {html.unescape(it) for it in re.findall(r'href="#([^"]*)"', book)}
        self.assertEqual(links - places, set())
        self.assertGreater(len(links), 500)

    def test_each_line_of_a_table_is_whole(self):
        columns = None
        for line in self.texts["definitions.md"].split("\n"):
            if not line.startswith("|"):
                columns = None
                continue
            found = len(re.findall(r"(?<!\\)\|", line))
            self.assertEqual(found, columns or found, line)
            columns = found


if __name__ == "__main__":
    unittest.main()
