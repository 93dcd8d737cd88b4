"""Tests of the package as it is installed: where it finds the library, and what it says of itself."""
import os
import re
import shutil
import subprocess
import sys
import tempfile
import unittest
from typing import Dict, Tuple

ROOT = os.path.dirname(os.path.dirname(os.path.dirname(os.path.abspath(__file__))))
sys.path.insert(0, os.path.join(ROOT, "python"))
import mezguld  # noqa: E402

PACKAGE = os.path.dirname(os.path.abspath(mezguld.__file__))
LIBRARY = os.path.abspath(mezguld._library._name)  # pylint: disable=protected-access
SONAME = f"libmezguld.so.{mezguld.__version__.split('.', maxsplit=1)[0]}"


class Found(unittest.TestCase):
    """A copy of the package without a library, in a folder of its own."""

    def setUp(self) -> None:
        holder = tempfile.TemporaryDirectory()
        self.addCleanup(holder.cleanup)
        self.folder = holder.name
        os.mkdir(f"{self.folder}/mezguld")
        shutil.copy(f"{PACKAGE}/__init__.py", f"{self.folder}/mezguld")

    def imported(self, **environment: str) -> Tuple[int, str]:
        """The status of a program that imports the package and assembles a line, and its last line."""
        code = "import mezguld; print(mezguld.assemble('NOP\\n'), mezguld._library._name)"
        given: Dict[str, str] = {
            name: value for name, value in os.environ.items() if name not in ("MEZGULD_LIBRARY", "LD_LIBRARY_PATH")
        }
        given.update(environment, PYTHONPATH=self.folder)
        ran = subprocess.run(
            [sys.executable, "-c", code],
            cwd=self.folder,
            env=given,
            capture_output=True,
            text=True,
            timeout=60,
            check=False,
        )
        return ran.returncode, (ran.stdout + ran.stderr).strip().split("\n")[-1]

    def test_beside_the_package(self) -> None:
        shutil.copy(LIBRARY, f"{self.folder}/mezguld/libmezguld.so")
        self.assertEqual(self.imported(), (0, f"b'\\x90' {self.folder}/mezguld/libmezguld.so"))

    def test_the_variable_comes_first(self) -> None:
        shutil.copy(LIBRARY, f"{self.folder}/mezguld/libmezguld.so")
        shutil.copy(LIBRARY, f"{self.folder}/another")
        self.assertEqual(
            self.imported(MEZGULD_LIBRARY=f"{self.folder}/another"), (0, f"b'\\x90' {self.folder}/another")
        )

    def test_by_the_loader(self) -> None:
        shutil.copy(LIBRARY, f"{self.folder}/{SONAME}")
        self.assertEqual(self.imported(LD_LIBRARY_PATH=self.folder), (0, f"b'\\x90' {SONAME}"))

    def test_no_library(self) -> None:
        for environment in ({"MEZGULD_LIBRARY": f"{self.folder}/none"}, {"MEZGULD_LIBRARY": self.folder}):
            status, told = self.imported(**environment)
            self.assertEqual(status, 1)
            self.assertRegex(told, "^ImportError: the library .* cannot be loaded .*MEZGULD_LIBRARY")

    def test_the_command_without_a_library(self) -> None:
        shutil.copy(f"{PACKAGE}/__main__.py", f"{self.folder}/mezguld")
        ran = subprocess.run(
            [sys.executable, "-m", "mezguld", "--help"],
            env={**os.environ, "MEZGULD_LIBRARY": f"{self.folder}/none", "PYTHONPATH": self.folder},
            cwd=self.folder,
            capture_output=True,
            text=True,
            timeout=60,
            check=False,
        )
        self.assertEqual((ran.returncode, ran.stdout, ran.stderr.count("\n")), (1, "", 1))
        self.assertRegex(ran.stderr, "^mezguld: the library .* cannot be loaded .*tools/build --library")

    def test_another_library(self) -> None:
        status, told = self.imported(MEZGULD_LIBRARY="libc.so.6")
        self.assertEqual(status, 1)
        self.assertRegex(
            told, "^ImportError: the library libc.so.6 is not that of Mezguld .*: it has no mezguld_version$"
        )


class Told(unittest.TestCase):
    def test_version(self) -> None:
        self.assertRegex(mezguld.__version__, r"^\d+\.\d+\.\d+$")
        self.assertIn("__version__", mezguld.__all__)

    def test_it_has_types(self) -> None:
        self.assertTrue(os.path.exists(f"{PACKAGE}/py.typed"))

    def test_all_names_exist_and_are_told(self) -> None:
        for name in mezguld.__all__:
            self.assertTrue(hasattr(mezguld, name), name)
            self.assertTrue(getattr(mezguld, name).__doc__, name)

    def test_the_docstring_is_an_example(self) -> None:
        example = re.search(r"\n\n((?:    .*\n|\n)+)", mezguld.__doc__ or "")
        self.assertIsNotNone(example)
        code = "\n".join(line[4:] for line in example[1].split("\n")) if example else ""
        environment = {**os.environ, "PYTHONPATH": os.path.dirname(PACKAGE)}
        ran = subprocess.run(
            [sys.executable, "-c", code], env=environment, capture_output=True, timeout=60, check=False
        )
        self.assertEqual((ran.returncode, ran.stdout), (0, b"b'!'\n"))


if __name__ == "__main__":
    unittest.main()
