"""Tests of tools/peers that need no other machine: the table of entries, and files of vectors. From the top:
`python3 -m unittest discover -s tools/tests`."""
import gzip
import json
import os
import random
import sys
import tempfile
import unittest

HERE = os.path.dirname(os.path.abspath(__file__))
sys.path.insert(0, os.path.dirname(HERE))
import opcodes  # noqa: E402
import peer_vectors  # noqa: E402


class Table(unittest.TestCase):
    def test_each_entry_is_there_once(self):
        # 256 first bytes, less 4 segment prefixes, LOCK, REPNE and REP, less 0Fh, 16 of 60h, 8 of C0h, C1h, C8h, C9h,
        # D6h, F1h, less POP CS (0Fh).
        self.assertEqual(len({entry.first for entry in opcodes.ENTRIES}), 256 - 4 - 3 - 1 - 16 - 6)
        self.assertEqual(len({(entry.first, entry.reg) for entry in opcodes.ENTRIES}), len(opcodes.ENTRIES))

    def test_instructions_have_their_lengths(self):
        numbers = random.Random(1)
        lengths = {
            "8B": {2, 3, 4},
            "81/0": {4, 5, 6},
            "83/0": {3, 4, 5},
            "EA": {5},
            "D4": {2},
            "F6/0": {3, 4, 5},
            "F7/0": {4, 5, 6},
            "F7/2": {2, 3, 4},
            "8D": {2, 3, 4},
        }
        for entry in opcodes.ENTRIES:
            name = entry.name.split()[0]
            if name in lengths:
                self.assertEqual({len(opcodes.instruction(entry, numbers)) for _ in range(500)}, lengths[name], name)


class Vectors(unittest.TestCase):
    def setUp(self):
        with open(f"{HERE}/vectors.json", encoding="utf-8") as file:
            self.tests = json.load(file)

    def write(self, data, name="tests.json"):
        folder = tempfile.mkdtemp()
        self.addCleanup(os.rmdir, folder)
        self.addCleanup(os.remove, f"{folder}/{name}")
        with open(f"{folder}/{name}", "wb") as file:
            file.write(data)
        return f"{folder}/{name}"

    def test_a_file_is_read(self):
        data = json.dumps(self.tests).encode()
        self.assertEqual(peer_vectors.tests_of(self.write(data)), self.tests)
        self.assertEqual(peer_vectors.tests_of(self.write(gzip.compress(data), "tests.json.gz")), self.tests)

    def test_bad_files_are_refused(self):
        data = json.dumps(self.tests).encode()
        for bad in (b"", b"{", b"7", b"[7]", b'["x"]', b'[{"bytes": []}]', b"\xff\xfe", data[:-5]):
            self.assertRaises(peer_vectors.Bad, peer_vectors.tests_of, self.write(bad))
        for name, bad in (("tests.json.gz", data), ("tests.json.gz", gzip.compress(data)[:-20])):
            self.assertRaises(peer_vectors.Bad, peer_vectors.tests_of, self.write(bad, name))
        for change in (
            lambda test: test.pop("final"),
            lambda test: test["initial"]["regs"].pop("flags"),
            lambda test: test["initial"]["regs"].update(ax=0x10000),
            lambda test: test["initial"]["regs"].update(ax="5"),
            lambda test: test.update(bytes=[256]),
            lambda test: test.update(bytes=[]),
            lambda test: test["initial"]["ram"].append([0x100000, 0]),
            lambda test: test["final"]["ram"].append([0, 256]),
            lambda test: test["final"]["ram"].append([0]),
        ):
            tests = json.loads(data)
            change(tests[0])
            self.assertRaises(peer_vectors.Bad, peer_vectors.tests_of, self.write(json.dumps(tests).encode()))

    def test_entries_of_instructions(self):
        for code, name, is_repeated in (
            ([0x00, 0xD8], "00 ADD", False),
            ([0x26, 0xF3, 0xA4], "A4 MOVSB", True),
            ([0xF6, 0xF3], "F6/6 DIV", False),
            ([0xF3, 0x90], "90 XCHG", False),
        ):
            entry, repeated = peer_vectors.entry_of(code)
            self.assertEqual((entry.name, repeated), (name, is_repeated))
        for code in ([0x0F], [0xF3], [0xD4, 0x0B], [0xFE, 0xD0], [0x26, 0x2E]):
            self.assertEqual(peer_vectors.entry_of(code)[0], None)


if __name__ == "__main__":
    unittest.main()
