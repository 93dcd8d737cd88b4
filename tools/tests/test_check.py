"""Tests of docs/check: each planted difference between the pages and the tree is reported, in a copy of the
repository with the program that is built."""
import os
import re
import shutil
import subprocess
import sys
import tempfile
import unittest

ROOT = os.path.dirname(os.path.dirname(os.path.dirname(os.path.abspath(__file__))))
sys.path.insert(0, f"{ROOT}/tools")
import believed  # noqa: E402
import figures  # noqa: E402
import kit  # noqa: E402

PROGRAM = "crates/dm/out/dm"
# A file, a text in it, another one in its place, and words of the fault.
PLANTED = (
    (
        "docs/proved.md",
        (
            "| `libc::chdir` | sets the working directory: for a path of 4,096 bytes that ends in 0 it returns 0 or -1"
            " | - | - |\n"
        ),
        "",
        "38",
    ),
    ("docs/proved.md", "`axioms=39`", "`axioms=40`", "axioms=39"),
    (
        "docs/proved.md",
        "it changes the buffer alone | yes | - |",
        "it changes the buffer alone | - | - |",
        "calls `os::c::rattle_arg`",
    ),
    (
        "bench/README.md",
        " million steps a second of processor time",
        " million steps a minute of processor time",
        "README.md: not once",
    ),
    ("docs/architecture.md", "- **`dm_views`**", "- **`dm_spans`**", "no item for dm_views"),
    ("README.md", "## What it is not", f"## What it is not{' word' * 400}", "words, and not at most 700"),
    ("docs/install.md", "## From a package", f"## From a package\n\n{'more ' * 33}", "165 characters"),
    (
        "docs/testing.md",
        "edits in the `must-fail` directories",
        "edits of the gate",
        "docs/testing.md: not once, but 0 times",
    ),
    ("bench/README.md", "| `CRC.COM` | CRC-16", "| `CRC.COM` | CRC-32", "run bench/tables"),
    ("bench/figures.json", '"CRC.COM run": ', '"CRC.COM run": 9', "run bench/tables"),
    (
        "python/mezguld/__init__.py",
        "    3: OutOfMemory,",
        "    13: OutOfMemory,",
        "MEZGULD_OUT_OF_MEMORY",
    ),
    (
        "python/mezguld/picture.py",
        '0x49: "Free Allocated Memory"',
        '0x49: "Free Memory"',
        "function 49h of DOS is `Free Allocated Memory` in reports",
    ),
    ("include/mezguld.h", "MEZGULD_SHORT = 13", "MEZGULD_SHORT = 3", "MEZGULD_SHORT"),
    ("include/mezguld.h", '#define MEZGULD_VERSION "', '#define MEZGULD_VERSION "9', "the version is 9"),
    (
        "docs/names.md",
        "| `total` | how many there are in all: bytes of statements, pages |\n",
        "",
        "does not have `total`",
    ),
    (
        "docs/manual.md",
        "| `--ems` | pages of 16 KiB | 64 |",
        "| `--ems` | pages of 16 KiB | 65 |",
        "the default of --ems is 65, and 64",
    ),
    ("docs/proved.md", "`put_omitted`", "`put_told`, `put_pages`", "dm_reports has no public `put_pages`"),
    ("docs/manual.md", "| 51h, 62h | gets", "| 51h | gets", "the table of INT 21h lacks one of"),
    ("docs/manual.md", "| `tail too long` |", "| `tail is too long` |", "no table under Faults has `tail too long`"),
    ("docs/manual.md", "| `other_freed` |", "| `other_frees` |", "no table under A report in JSON has `other_freed`"),
    (
        "docs/recipes.md",
        "        parts.cpu.bx = 0;\n",
        "        parts.cpu.bx = 1;\n",
        "no file of a crate has the code",
    ),
)
# The same, of what stands in the kit's files.
OF_KIT = (
    ("docs/proved.md", "| `libc::chdir` | sets", "| `libc::chroot` | sets", "`libc::chroot`"),
    ("docs/proved.md", "`std` 2,366", "`std` 2,400", "`std` 2,366"),
    (
        "docs/proved.md",
        "is known to compile some correct code wrongly",
        "is known to compile all code correctly",
        "of the kit does not say, or is not quoted",
    ),
)
# The lists of sentences with figures: those of the tree and those of the kit.
OF_TREE, OF_KIT_ALONE = 0, 1


def with_others(text, found, at):
    """The text with another figure at a place of each of the sentences found in it, and these sentences as they are."""
    for it in sorted(found, key=lambda one: one.start(), reverse=True):
        other = "17" if it[at + 1] != "17" else "71"
        text = f"{text[: it.start(at + 1)]}{other}{text[it.end(at + 1) :]}"
    return text, [it[0] for it in found]


def checked(root, *words):
    return subprocess.run([f"{root}/docs/check", *words], capture_output=True, text=True, check=False).stdout


@unittest.skipUnless(os.path.exists(f"{ROOT}/{PROGRAM}"), "dm is not built")
class Planted(unittest.TestCase):
    @classmethod
    def setUpClass(cls):
        cls.holder = tempfile.TemporaryDirectory()
        cls.copy = f"{cls.holder.name}/copy"
        listed = subprocess.run(
            ["git", "ls-files", "-z"], cwd=ROOT, capture_output=True, text=True, check=True
        ).stdout.split("\0")
        for path in [*listed, PROGRAM]:
            if path and os.path.isfile(f"{ROOT}/{path}"):
                os.makedirs(os.path.dirname(f"{cls.copy}/{path}"), exist_ok=True)
                shutil.copy(f"{ROOT}/{path}", f"{cls.copy}/{path}")
        for words in (["init", "-q"], ["add", "-A"]):
            subprocess.run(["git", *words], cwd=cls.copy, check=True)

    @classmethod
    def tearDownClass(cls):
        cls.holder.cleanup()

    def test_the_copy_has_none(self):
        self.assertIn("docs/check: 0 faults", checked(self.copy))

    def test_each_is_reported(self):
        self.are_reported(PLANTED)

    @unittest.skipUnless(kit.name() == believed.KIT, "it is not the kit that the figures are of")
    def test_each_of_the_kit_is_reported(self):
        self.are_reported(OF_KIT)
        self.figures_are_compared(OF_KIT_ALONE)

    def are_reported(self, planted):
        for path, old, new, words in planted:
            with self.subTest(path=path, old=old, new=new):
                with open(f"{self.copy}/{path}", encoding="utf-8") as file:
                    text = file.read()
                self.assertIn(old, text)
                self.is_reported(path, text, text.replace(old, new, 1), words)

    def test_each_figure_is_compared(self):
        self.figures_are_compared(OF_TREE)

    def figures_are_compared(self, of):
        """In place of the first figure of each sentence of a page, then of each second one, and so on, docs/check
        prints a fault of each sentence."""
        for page, lists in figures.SENTENCES.items():
            with open(f"{self.copy}/{page}", encoding="utf-8") as file:
                text = file.read()
            found = [self.sentence(text, sentence) for sentence in lists[of]]
            for at in range(max((len(it.groups()) for it in found), default=0)):
                changed = [it for it in found if at < len(it.groups())]
                with self.subTest(page=page, figure=at + 1):
                    self.are_each_reported(page, text, *with_others(text, changed, at))

    def test_figures_are_written_again(self):
        before = {}
        for page, (sentences, _) in figures.SENTENCES.items():
            with open(f"{self.copy}/{page}", encoding="utf-8") as file:
                text = before[page] = file.read()
            for sentence in sentences:
                for at in range(len(self.sentence(text, sentence).groups())):
                    text, _ = with_others(text, [self.sentence(text, sentence)], at)
            self.assertNotEqual(text, before[page])
            with open(f"{self.copy}/{page}", "w", encoding="utf-8") as file:
                file.write(text)
        subprocess.run([f"{self.copy}/tools/figures"], capture_output=True, check=False)
        for page, text in before.items():
            with open(f"{self.copy}/{page}", encoding="utf-8") as file:
                self.assertEqual(file.read(), text)

    def sentence(self, text, sentence):
        """Where a page has a sentence, with any figures."""
        found = figures.pattern_of(sentence)[0].search(text)
        self.assertIsNotNone(found, sentence)
        return found

    def are_each_reported(self, page, text, planted, sentences):
        """With `planted` in place of `text` on a page, docs/check says of each of the sentences that the page does
        not have it."""
        with open(f"{self.copy}/{page}", "w", encoding="utf-8") as file:
            file.write(planted)
        found = checked(self.copy, "--unbuilt")
        with open(f"{self.copy}/{page}", "w", encoding="utf-8") as file:
            file.write(text)
        for sentence in sentences:
            self.assertIn(f"{page} does not say: {' '.join(sentence.split())}: run tools/figures", found)

    def is_reported(self, path, text, planted, words):
        """With `planted` in place of `text` in the file `path`, docs/check prints a fault with `words`."""
        with open(f"{self.copy}/{path}", "w", encoding="utf-8") as file:
            file.write(planted)
        found = checked(self.copy, "--unbuilt")
        if words not in found:
            # (What needs the program is looked for by the whole of it.)
            found = checked(self.copy)
        with open(f"{self.copy}/{path}", "w", encoding="utf-8") as file:
            file.write(text)
        self.assertIn(words, found)
        self.assertNotIn("docs/check: 0 faults", found)


if __name__ == "__main__":
    unittest.main()
