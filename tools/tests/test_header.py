"""Tests of tools/header.py: each planted difference between the exports, the header and the Python module is
reported. From the top: `python3 -m unittest discover -s tools/tests`."""
import os
import sys
import unittest
from unittest import mock

sys.path.insert(0, os.path.dirname(os.path.dirname(os.path.abspath(__file__))))
import header  # noqa: E402

HEADER, EXPORTS, MODULE = "include/mezguld.h", "lib/exports.h", "python/mezguld/__init__.py"
# A file, a text that is in it once, another one in its place, and words of the fault.
PLANTED = (
    (HEADER, "MEZGULD_SHORT = 13", "MEZGULD_SHORT = 23", "MEZGULD_SHORT"),
    (HEADER, "MEZGULD_MEMORY = 6", "MEZGULD_MEMORY = 5", "MEZGULD_MEMORY"),
    (
        HEADER,
        "void mezguld_free(mezguld *machine)",
        "mezguld_status mezguld_free(mezguld *machine)",
        "mezguld_free returns",
    ),
    (HEADER, "void mezguld_free(mezguld *machine)", "void mezguld_drop(mezguld *machine)", "mezguld_free"),
    (HEADER, "mezguld_new(mezguld **machine,", "mezguld_new(mezguld *machine,", "mezguld_new"),
    (HEADER, "MEZGULD_NULL_POINTER = 24,", "MEZGULD_NULL_POINTER = 23,", "MEZGULD_NULL_POINTER"),
    (EXPORTS, "dm_c_free(mezguld *machine)", "dm_c_free(mezguld **machine)", "dm_c_free"),
    (
        EXPORTS,
        "mezguld_status dm_c_supply(mezguld *machine, const void *bytes",
        "mezguld_status dm_c_supply(mezguld *machine, void *bytes",
        "dm_c_supply",
    ),
    (EXPORTS, "    void *inside;\n    uint64_t tag;", "    uint64_t tag;\n    void *inside;", "struct mezguld"),
    (HEADER, "uint32_t mezguld_version(void)", "mezguld_status mezguld_version(void)", "mezguld_version returns"),
    (HEADER, "    case MEZGULD_SHORT: return", "    case MEZGULD_NO_SHORT: return", "MEZGULD_SHORT has no text"),
    (HEADER, "} mezguld_status;", "} mezguld_state;", "MEZGULD_SHORT"),
    (
        HEADER,
        "mezguld_set_registers(mezguld *machine, const mezguld_cpu *",
        "mezguld_set_registers(mezguld *machine, mezguld_cpu *",
        "mezguld_set_registers",
    ),
    (
        HEADER,
        "mezguld_steps(const mezguld *machine, uint64_t *steps)",
        "mezguld_steps(const mezguld *machine, uint32_t *steps)",
        "mezguld_steps",
    ),
    (HEADER, "uint16_t offset, void *buffer,", "uint16_t offset, const void *buffer,", "mezguld_read"),
    (
        HEADER,
        "uint16_t segment, uint16_t offset, void *buffer",
        "uint16_t offset, uint16_t segment, void *buffer",
        "mezguld_read",
    ),
    (HEADER, "ax, bx, cx, dx, sp, bp", "ax, cx, bx, dx, sp, bp", "mezguld_cpu"),
    (
        HEADER,
        "    uint16_t segment;\n    uint16_t offset;",
        "    uint16_t offset;\n    uint16_t segment;",
        "mezguld_point",
    ),
    (HEADER, "    mezguld_stop why;", "    uint16_t why;", "mezguld_stopped"),
    (HEADER, "MEZGULD_AT_CALL = 3", "MEZGULD_AT_CALL = 5", "kinds of events"),
    (HEADER, "MEZGULD_EVENT = 8", "MEZGULD_EVENT = 9", "MEZGULD_EVENT"),
    (HEADER, "    uint8_t number, ah;", "    uint8_t ah, number;", "mezguld_event"),
    (
        HEADER,
        "size_t events_count, mezguld_stopped *stopped, size_t *index",
        "size_t events_count, size_t *index, mezguld_stopped *stopped",
        "mezguld_run_to",
    ),
    (HEADER, "MEZGULD_PAST_END = 28", "MEZGULD_PAST_END = 30", "MEZGULD_PAST_END"),
    (HEADER, "MEZGULD_FOUND_NOT_ENOUGH_MEMORY = 8,", "MEZGULD_FOUND_NOT_ENOUGH_MEMORY = 9,", "kinds of findings"),
    (HEADER, "MEZGULD_FAR_CALL = 3", "MEZGULD_FAR_CALL = 4", "kinds of acts"),
    (HEADER, "    uint8_t name[8];", "    uint8_t name[9];", "mezguld_page_handle"),
    (HEADER, "    uint8_t signature, list;", "    uint8_t list, signature;", "mezguld_block"),
    (HEADER, "    mezguld_place at, origin_at;", "    mezguld_place origin_at, at;", "mezguld_finding"),
    (HEADER, "    mezguld_finding_kind kind;", "    uint32_t kind;", "mezguld_finding"),
    (HEADER, "uint32_t *a20, uint32_t *used", "uint32_t *used, uint32_t *a20", "mezguld_high_memory"),
    (
        HEADER,
        "mezguld_windows(const mezguld *machine, mezguld_window *",
        "mezguld_windows(mezguld *machine, mezguld_window *",
        "mezguld_windows",
    ),
    (
        MODULE,
        "H segment, H owner, H size, B signature, B list",
        "H segment, H size, H owner, B signature, B list",
        "mezguld_block",
    ),
    (MODULE, "I saved, 8B name", "I saved, 4B name", "mezguld_page_handle"),
    (MODULE, "    NOT_ENOUGH_MEMORY = 8", "    NOT_ENOUGH_MEMORY = 9", "kinds of findings"),
    (MODULE, "    26: NoHandle,\n", "", "MEZGULD_NO_HANDLE"),
    (MODULE, '"mezguld_read_block": "m H n pn"', '"mezguld_read_block": "m H I pn"', "mezguld_read_block"),
    (MODULE, "3: OutOfMemory", "13: OutOfMemory", "MEZGULD_OUT_OF_MEMORY"),
    (MODULE, "13: Short", "3: Short", "MEZGULD_SHORT"),
    (MODULE, "    14: NotLoaded,\n", "", "MEZGULD_NOT_LOADED"),
    (MODULE, "21: TooLong,", "21: TooLarge,", "MEZGULD_TOO_LONG"),
    (MODULE, "17: LineSyntax, 18: LineUnknown", "18: LineSyntax, 17: LineUnknown", "MEZGULD_LINE_SYNTAX"),
    (MODULE, "20: LineTwice", "22: LineTwice", "MEZGULD_LINE_TWICE"),
    (MODULE, "_OK, _TOO_SMALL = 0, 4", "_OK, _TOO_SMALL = 0, 5", "MEZGULD_TOO_SMALL"),
    (MODULE, "    1: NoMachine,\n", "    1: NoMachine,\n    2: NoMachine,\n", "two statuses"),
    (MODULE, "    MEMORY = 6", "    MEMORY = 7", "stops"),
    (MODULE, "    ax: int\n    bx: int", "    bx: int\n    ax: int", "registers"),
    (MODULE, '"m Q s w"', '"m I s w"', "mezguld_check"),
    (MODULE, '    "mezguld_free": "m",\n', "", "mezguld_free"),
)


def faults_with(path, old, new):
    """The faults where a file has another text."""
    real = header.text_of
    text = real(path)
    assert text.count(old) == 1, f"{text.count(old)} times in {path}: {old}"
    with mock.patch.object(header, "text_of", lambda name: text.replace(old, new) if name == path else real(name)):
        return list(header.faults())


class Planted(unittest.TestCase):
    def test_the_tree_has_none(self):
        self.assertEqual(list(header.faults()), [])

    def test_each_is_reported(self):
        for path, old, new, words in PLANTED:
            with self.subTest(path=path, old=old, new=new):
                self.assertIn(words, " ".join(faults_with(path, old, new)))

    def test_exchanged_statuses(self):
        real = header.text_of
        text = (
            real(MODULE)
            .replace("3: OutOfMemory", "00: OutOfMemory")
            .replace("13: Short", "3: Short")
            .replace("00: OutOfMemory", "13: OutOfMemory")
        )
        with mock.patch.object(header, "text_of", lambda name: text if name == MODULE else real(name)):
            found = " ".join(header.faults())
        self.assertIn("MEZGULD_OUT_OF_MEMORY is 3 in the header and 13 in the Python module", found)
        self.assertIn("MEZGULD_SHORT is 13 in the header and 3 in the Python module", found)


if __name__ == "__main__":
    unittest.main()
