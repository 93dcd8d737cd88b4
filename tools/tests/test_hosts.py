"""Tests of the header from C: it compiles as C and C++, and programs over the built library run under the sanitizers
for addresses and undefined behaviour. From the top: `python3 -m unittest discover -s tools/tests`."""
import os
import shutil
import subprocess
import sys
import tempfile
import unittest

ROOT = os.path.dirname(os.path.dirname(os.path.dirname(os.path.abspath(__file__))))
LIBRARY = f"{ROOT}/build/libmezguld.a"
WARNINGS = ["-Wall", "-Wextra", "-Wconversion", "-Wcast-qual", "-pedantic", "-Werror", f"-I{ROOT}/include"]
SANITIZERS = ["-g", "-fsanitize=address,undefined", "-fno-sanitize-recover=all"]
TALK = (
    b"Who? [it waits: yes]\n[the line comes: yes]\nHello, Ada\n[the line comes: yes]\nHello, Charles\n"
    b"[exit codes 3 and 7]\n"
)
# The free block goes from 0129h up to segment A000h, where conventional memory ends.
HOLDINGS = b"""block 0101: owner 0103, 1 paragraphs
block 0103: owner 0103, 32 paragraphs
block 0124: owner 0103, 5 paragraphs
block 012A: owner 0000, 40662 paragraphs
handle 1, page 0: 48 69
handle 1, page 1: 00 00
window 0: handle 1, page 0
error of process 0103: 2 pages of handle 1 are left
error of process 0103: window 0 is left mapped
"""


class Compiled(unittest.TestCase):
    def setUp(self):
        holder = tempfile.TemporaryDirectory()
        self.addCleanup(holder.cleanup)
        self.folder = holder.name

    def compile(self, words):
        ran = subprocess.run(words, cwd=self.folder, capture_output=True, text=True, timeout=120, check=False)
        self.assertEqual((ran.returncode, ran.stderr), (0, ""), " ".join(words))

    def test_the_header_by_itself(self):
        for compiler, ending, standards in (
            ("cc", "c", ("c99", "c11", "c17", "c2x")),
            ("c++", "cc", ("c++98", "c++11", "c++17", "c++20")),
        ):
            if shutil.which(compiler) is None:
                continue
            path = f"{self.folder}/header.{ending}"
            with open(path, "w", encoding="utf-8") as file:
                file.write(
                    '#include "mezguld.h"\nint main(void) { mezguld *machine = NULL; return machine != NULL; }\n'
                )
            for standard in standards:
                with self.subTest(standard):
                    self.compile([compiler, f"-std={standard}", *WARNINGS, "-c", "-o", "header.o", path])

    @unittest.skipUnless(os.path.exists(LIBRARY), "tools/library builds the library")
    def test_programs_under_sanitizers(self):
        for path, wanted in (
            (f"{ROOT}/tools/tests/statuses.c", b"as expected\n"),
            (f"{ROOT}/examples/hosts/talk.c", TALK),
            (f"{ROOT}/examples/hosts/holdings.c", HOLDINGS),
        ):
            with self.subTest(path):
                self.compile(["cc", *WARNINGS, *SANITIZERS, "-o", "program", path, LIBRARY])
                ran = subprocess.run([f"{self.folder}/program"], capture_output=True, timeout=120, check=False)
                self.assertEqual((ran.returncode, ran.stdout, ran.stderr), (0, wanted, b""))

    @unittest.skipUnless(os.path.exists(LIBRARY), "tools/library builds the library")
    def test_the_same_from_python(self):
        environment = {**os.environ, "PYTHONPATH": f"{ROOT}/python"}
        ran = subprocess.run(
            [sys.executable, f"{ROOT}/examples/hosts/holdings.py"],
            capture_output=True,
            env=environment,
            timeout=120,
            check=False,
        )
        self.assertEqual((ran.returncode, ran.stdout, ran.stderr), (0, HOLDINGS, b""))


if __name__ == "__main__":
    unittest.main()
