"""A test case of a guest program: what examples/blocks.asm prints, and what it leaves of the block list.

    python3 examples/hosts/test_guest.py
"""
import os
import sys
import unittest

ROOT = os.path.dirname(os.path.dirname(os.path.dirname(os.path.abspath(__file__))))
sys.path.insert(0, os.path.join(ROOT, "python"))
from mezguld import Machine, Stop, assemble  # noqa: E402


def text_of(path: str) -> bytes:
    with open(os.path.join(ROOT, "examples", path), "rb") as file:
        return file.read()


class Blocks(unittest.TestCase):
    def setUp(self) -> None:
        self.machine = Machine()
        self.addCleanup(self.machine.close)
        self.machine.add("BLOCKS.COM", assemble(text_of("blocks.asm")))
        self.machine.load("BLOCKS.COM")

    def test_it_ends_and_prints_its_text(self) -> None:
        self.assertEqual(self.machine.run(100_000), (Stop.EXITED, 0))
        self.assertEqual(self.machine.output(), text_of("blocks.txt"))

    def test_the_list_stays_whole(self) -> None:
        while self.machine.run(100).why is Stop.STEPS:
            blocks = self.machine.blocks()
            self.assertIsNone(blocks.destroyed)
            self.assertEqual([block.last for block in blocks], [False] * (len(blocks) - 1) + [True])

    def test_nothing_is_left_allocated(self) -> None:
        _, report = self.machine.check(100_000)
        self.assertIn("errors: 0", report)
        self.assertTrue(all(block.owner == 0 for block in self.machine.blocks()))


if __name__ == "__main__":
    unittest.main()
