"""Tests of what bench/measure counts: each mnemonic has a sample, each program assembles, and a turn of its loop has
the steps that are reckoned."""
import os
import re
import subprocess
import sys
import tempfile
import unittest
from concurrent.futures import ThreadPoolExecutor

ROOT = os.path.dirname(os.path.dirname(os.path.dirname(os.path.abspath(__file__))))
sys.path.insert(0, f"{ROOT}/bench")
import instructions  # noqa: E402
import tables  # noqa: E402

DM = f"{ROOT}/crates/dm/out/dm"
WARM = 6_000


def fault_of(sample, with_body):
    """What is wrong with the program of a sample, or None."""
    with tempfile.TemporaryDirectory() as folder:
        with open(f"{folder}/a.asm", "w", encoding="ascii") as file:
            file.write(sample.text(with_body))
        ran = subprocess.run(
            [DM, "asm", f"{folder}/a.asm", f"{folder}/a.com"], capture_output=True, text=True, check=False
        )
        if ran.returncode:
            return f"{sample.name}: {ran.stderr}"
        commands = f"G {WARM:X}\nG {sample.turn(with_body):X}\n"
        said = subprocess.run(
            [DM, "debug", f"{folder}/a.com"], input=commands, capture_output=True, text=True, check=False
        ).stdout
    places = re.findall(r"CS=(\w{4}) IP=(\w{4})", said)
    if said.count("steps\n") != 2 or places[0] != places[1]:
        return f"{sample.name}, {'whole' if with_body else 'without its body'}: {places}, {said.splitlines()[:1]}"
    return None


class Samples(unittest.TestCase):
    def test_each_mnemonic_has_one(self):
        names = {sample.mnemonic for sample in instructions.samples()}
        self.assertEqual([name for name in tables.mnemonics() if name not in names], [*tables.UNMEASURED])
        self.assertGreater(len(tables.mnemonics()), 90)

    def test_names_are_not_used_twice(self):
        names = [(sample.mnemonic, sample.kind) for sample in instructions.samples()]
        self.assertEqual(sorted({name for name in names if names.count(name) > 1}), [])

    @unittest.skipUnless(os.path.exists(DM), "dm is not built")
    def test_turns_have_the_steps_that_are_reckoned(self):
        samples = [*instructions.samples(), *(sample for _, sample in instructions.elsewhere())]
        with ThreadPoolExecutor(os.cpu_count()) as pool:
            found = [
                *pool.map(
                    lambda it: fault_of(*it), [(sample, with_body) for sample in samples for with_body in (True, False)]
                )
            ]
        self.assertEqual([it for it in found if it], [])


if __name__ == "__main__":
    unittest.main()
