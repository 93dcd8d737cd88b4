"""Tests of the modules behind the packages: each planted difference between versions, or between help and the
manual, is reported, a list of an installation that is none is refused, and each link of an installed page leads to
an installed one. From the top: `python3 -m unittest discover -s tools/tests`."""
import contextlib
import importlib.machinery
import importlib.util
import io
import os
import re
import sys
import tempfile
import unittest
from unittest import mock

ROOT = os.path.dirname(os.path.dirname(os.path.dirname(os.path.abspath(__file__))))
sys.path.insert(0, f"{ROOT}/tools")
import pages  # noqa: E402
import tree  # noqa: E402
import usage  # noqa: E402
import versions  # noqa: E402

CHANGELOG, HEADER, PYTHON = "CHANGELOG.md", "include/mezguld.h", "python/mezguld/__init__.py"
# A file, a text in it, another one in its place, and words of the fault.
VERSIONS = (
    (HEADER, '#define MEZGULD_VERSION "', '#define MEZGULD_VERSION "9', "include/mezguld.h: the version is 9"),
    (HEADER, "#define MEZGULD_VERSION_MINOR ", "#define MEZGULD_VERSION_MINOR 9", "MEZGULD_VERSION_MINOR is not"),
    (
        HEADER,
        "#define MEZGULD_VERSION_NUMBER ",
        "#define MEZGULD_VERSION_NUMBER 9",
        "include/mezguld.h: the version's number is not",
    ),
    (
        "crates/dm_c/src/exports.rt",
        "const VERSION: u32 = ",
        "const VERSION: u32 = 9",
        "exports.rt: the version's number is not",
    ),
    (PYTHON, '__version__ = "', '__version__ = "9', "__init__.py: the version is 9"),
    (PYTHON, '__version__ = "', "__version__ = '", "states 0 versions"),
    (CHANGELOG, "\n## ", "\n## 9", "CHANGELOG.md: the version is 9"),
    (CHANGELOG, "\n## ", "\n## Unreleased\n\n## ", "its top is no release with a date"),
)
HELP = """\
Does something

Usage: dm run [OPTIONS] <FILES>...

Arguments:
  <FILES>...  The program; at most 16 MiB

Options:
      --ems <PAGES>   Pages; at most 512 [default: 64]
      --steps <N>     Steps [default: 100000000]
      --xms <KIB>     KiB; at most 15360 [default: 1024]
      --upper         Upper memory
      --tail <TEXT>   The tail; at most 126 bytes [default: ""]
  -h, --help          Print help

Example: dm run X.COM"""
TOP = """\
Runs programs

Usage: dm <COMMAND>

Commands:
  run    Run a program
  debug  Debug a program
  check  Check a program

Options:
  -h, --help     Print help
  -V, --version  Print version

Example: dm run X.COM"""
SESSION = """
Lines of a session (s:o is an address):
  R                  Print the registers
  U s:o [count]      Print instructions
  D s:o [length]     Print bytes
  E s:o bytes        Write bytes
  G [n]              Run
  T [n]              Execute steps
  B s:o, BC s:o, BL  Breakpoints
  M                  Print the block list
  P                  Print expanded memory
  X                  Print extended memory
  O                  Print the output
  Q                  End the session

"""
# A text of the help of `dm run`, another one in its place, and words of the fault.
HELPS = (
    ("[default: 64]", "[default: 65]", "the default of --ems is 64, and 65"),
    ("at most 15360", "at most 15361", "the range of --xms"),
    ("at most 16 MiB", "at most 17 MiB", "no limit is 17 MiB"),
    ("      --upper         Upper memory\n", "", "the option --upper is not in the help"),
    ("      --upper ", "      --lower ", "the option --lower is not in the table"),
    ("--steps <N>", "--steps <M>", "the usage of dm run"),
    ("Example: dm run X.COM", "", "no example"),
    ("  -h, --help ", "  -h --help ", "has the line"),
)
# A text of the manual, another one in its place, and words of the fault.
MANUALS = (
    ("| 13 | `SHORT` |", "| 12 | `SHORT` |", "the status SHORT is 12, and 13"),
    ("| 1 | `NO_MACHINE` |", "| 1 | `NO_HOST` |", "the status NO_MACHINE is missing"),
    (
        "| 17 to 20 | `LINE_SYNTAX`, `LINE_UNKNOWN`",
        "| 17 to 20 | `LINE_UNKNOWN`, `LINE_SYNTAX`",
        "the status LINE_SYNTAX is 18",
    ),
    ("| 7 | `BREAKPOINT` |", "| 8 | `BREAKPOINT` |", "the stop BREAKPOINT is 8"),
    ("| `--ems` | pages of 16 KiB | 64 |", "| `--ems` | pages of 16 KiB | 63 |", "the default of --ems is 63"),
    ("    dm run [--steps N] ", "    dm run ", "the usage of dm run"),
    ("| `T [n]` |", "| `T [count]` |", "T [count]; B s:o, BC s:o, BL; M; P; X; O; Q, and R; "),
)


def module(script):
    """A script as a module."""
    loader = importlib.machinery.SourceFileLoader(f"script_{script}", f"{ROOT}/tools/{script}")
    made = importlib.util.module_from_spec(importlib.util.spec_from_loader(loader.name, loader))
    with mock.patch.object(sys, "argv", [script, "--help"]), contextlib.redirect_stdout(
        io.StringIO()
    ), contextlib.suppress(SystemExit):
        loader.exec_module(made)
    return made


def headings(text):
    """The names by which links reach the headings of a page."""
    found = [re.sub(r"[^\w -]", "", it.lower()).replace(" ", "-") for it in re.findall(r"^#+ (.*)$", text, re.M)]
    return {f"{name}-{found[:at].count(name)}" if name in found[:at] else name for at, name in enumerate(found)}


def dead_links(installed):
    """The links of installed pages, as path and target, that lead to no installed file, or to no heading of it."""
    for path, data in installed.items():
        for target, heading in (
            re.findall(r"\]\(([^)#\s]*)(?:#([^)\s]*))?\)", data.decode()) if path.endswith(".md") else ()
        ):
            there = os.path.normpath(f"{os.path.dirname(path)}/{target}") if target else path
            if "://" not in target and (
                there not in installed or heading and heading not in headings(installed[there].decode())
            ):
                yield f"{path}: {target}#{heading}"


def faults_of_help(text):
    """The faults where `dm run --help` prints a text, and `dm debug --help` and `dm check --help` the same with one
    option more, or two."""
    texts = {
        (): TOP,
        ("run",): text,
        ("debug",): text.replace("Options:\n", "Options:\n      --input <FILE>  The input\n").replace(
            "\nExample: ", f"{SESSION}Example: "
        ),
        ("check",): text.replace(
            "  -h, --help",
            "      --no-free       Leave out free memory\n      --json          Report in JSON\n  -h, --help",
        ),
    }
    with mock.patch.object(usage, "help_of", lambda _, *words: texts[words]):
        return " ".join(usage.faults("dm"))


class Versions(unittest.TestCase):
    def test_the_tree_has_one(self):
        self.assertEqual(list(versions.faults()), [])

    def test_each_difference_is_reported(self):
        real = versions.text_of
        for path, old, new, words in VERSIONS:
            with self.subTest(path=path, new=new):
                text = real(path).replace(old, new, 1)
                self.assertNotEqual(text, real(path))
                with mock.patch.object(
                    versions, "text_of", lambda name, path=path, text=text: text if name == path else real(name)
                ):
                    self.assertIn(words, " ".join(versions.faults()))

    def test_of_a_program(self):
        self.assertIn("dm --version prints", " ".join(versions.program_faults("/bin/true", "1.0.0")))
        self.assertIn("no-such-program", " ".join(versions.program_faults("/no-such-program", "1.0.0")))


class Help(unittest.TestCase):
    def test_it_is_as_the_manual(self):
        self.assertEqual(faults_of_help(HELP), "")

    def test_each_difference_is_reported(self):
        for old, new, words in HELPS:
            with self.subTest(old=old, new=new):
                self.assertEqual(HELP.count(old), 1)
                self.assertIn(words, faults_of_help(HELP.replace(old, new)))

    def test_each_difference_of_the_manual_is_reported(self):
        text = usage.text_of(usage.MANUAL)
        for old, new, words in MANUALS:
            with self.subTest(old=old, new=new):
                self.assertEqual(text.count(old), 1)
                with mock.patch.object(usage, "text_of", lambda _, new=text.replace(old, new): new):
                    self.assertIn(words, faults_of_help(HELP))

    def test_no_program(self):
        self.assertIn("does not run", " ".join(usage.faults("/no-such-program")))


class Pages(unittest.TestCase):
    def test_lines_are_short_and_no_requests(self):
        for line in pages.lines(pages.marked("'A dot. .so and `code with spaces` and more. " * 9)):
            self.assertLessEqual(len(line), pages.COLUMNS)
            self.assertFalse(line.startswith((".", "'")), line)

    def test_every_function_of_the_header_is_shown(self):
        text = pages.library_page()
        names = pages.names()
        self.assertGreater(len(names), 10)
        self.assertEqual([name for name in names if f".SS {name}\n" not in text], [])
        self.assertEqual(text.count("/*"), text.count("*/"))
        self.assertIn("} mezguld_cpu;", text)


class Documents(unittest.TestCase):
    def test_each_link_leads_to_what_is_installed(self):
        for layout in (tree.PREFIX, tree.DEBIAN):
            with self.subTest(prefix=layout.prefix):
                installed = {path: data for path, (data, _) in tree.documents(layout)}
                self.assertIn(f"{layout.prefix}share/doc/mezguld/docs/manual.md", installed)
                self.assertEqual([*dead_links(installed)], [])

    def test_dead_links_are_found(self):
        pages_there = {
            "a/b.md": (
                b"# One two\n\n[x](c.md#three), [x](c.md#four), [x](../d.md), [x](#one-two), [x](#two) [x](http://e)"
            ),
            "a/c.md": b"## Three",
        }
        self.assertEqual([*dead_links(pages_there)], ["a/b.md: c.md#four", "a/b.md: ../d.md#", "a/b.md: #two"])

    def test_a_link_to_what_is_not_installed_is_its_text(self):
        with mock.patch.object(
            tree, "bytes_of", lambda _: b"[a](testing.md#rows), [b](manual.md), [c\nd](../CHANGELOG.md), [e](no-file)"
        ):
            self.assertEqual(tree.page("docs/proved.md", ["docs/manual.md"]), b"a, [b](manual.md), c\nd, [e](no-file)")


class Lists(unittest.TestCase):
    def test_what_is_no_list_is_refused(self):
        install = module("install")
        for text in (
            "word ../x\n",
            "word  ../x\n",
            "word  /etc/passwd\n",
            "word  a/../../x\n",
            "word  a//b\n",
            "word\n",
            "\n",
        ):
            with self.subTest(text=text), tempfile.TemporaryDirectory() as prefix:
                os.makedirs(f"{prefix}/share/mezguld")
                with open(f"{prefix}/{install.LIST}", "w", encoding="utf-8") as file:
                    file.write(text)
                with self.assertRaises(install.Refused):
                    install.listed(prefix)

    def test_of_no_installation(self):
        install = module("install")
        with tempfile.TemporaryDirectory() as prefix:
            self.assertEqual(install.listed(prefix), ({}, []))
            self.assertEqual(install.listed(f"{prefix}/none"), ({}, []))


if __name__ == "__main__":
    unittest.main()
