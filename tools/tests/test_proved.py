"""Tests of `proved`: each name of docs/proved.md that its line's crate does not have is reported, and each such file
of docs/architecture.md. From the top: `python3 -m unittest discover -s tools/tests`."""
import os
import sys
import unittest
from unittest import mock

ROOT = os.path.dirname(os.path.dirname(os.path.dirname(os.path.abspath(__file__))))
sys.path.insert(0, f"{ROOT}/tools")
import proved  # noqa: E402
import specs  # noqa: E402

# Names in the line of a crate or a module, and words of the fault, or None where there is none.
LINES = (
    ("`dm_reports`", "`put_report`, `put_omitted`", None),
    # (It stands in another crate.)
    ("`dm_reports`", "`put_pages`", "dm_reports has no public `put_pages`"),
    ("`dm_views`", "`put_pages`, a law", None),
    # (It is private.)
    ("`dm_reports`", "`put_left_out`", "dm_reports has no public `put_left_out`"),
    ("`dm_machine`", "`Machine::run`, `load`", None),
    ("`dm_machine`", "`Session::run`", "dm_machine has no public `Session::run`"),
    ("`dm_cpu`", "`operands::value`, `Destination` and each type that has it", None),
    ("`dm_findings::processes`", "`end_innermost`", None),
    ("`dm_findings::processes`", "`Report::new`", "dm_findings::processes has no public `Report::new`"),
    ("`dm_laws::instructions`", "a law of the definitions `effect` and `dm_alu`", None),
    ("`dm_laws::instructions`", "a law of the definition `no_effect`", "no definition `no_effect`"),
    ("`dm_decode`, texts", "`text`", None),
    ("`dm_decode`, texts", "`put_pages`", "dm_decode has no public `put_pages`"),
    ("`dm`", "private `call` and `end`", None),
    ("`dm`", "private `call` and `finish`", "dm has no public `finish`"),
    ("`dm_c_new`, `dm_c_free`", "`Makes`", None),
    ("`dm_c_new`, `dm_c_lose`", "`Makes`", "dm_c has no public `dm_c_lose`"),
    ("`dm_c_new`", "`IsReport`", "dm_c has no definition `IsReport`"),
)


# The calls of a line of the first table, what it says, and words of the fault.
MAIN_LINES = (
    ("`Machine::run`, `decode`", "a run (`IsRun`)", None),
    ("`allocate`, `free` of `dm_arena`", "`Allocates`", None),
    ("`allocate`, `walk` of `dm_arena`", "`Allocates`", "`walk` is no public name of dm_arena"),
    ("`Machine::walk`", "a run (`IsRun`)", "`Machine::walk` is no public name of any crate"),
    ("`Machine::run`", "a run (`IsWalk`)", "no definition `IsWalk`"),
)
# An item of the page of crates, and words of the fault.
ITEMS = (
    ("- **`dm_blocks`** (`src/list.rt`, `specs/Chain.antt`): bytes", None),
    # (Another crate has this file.)
    ("- **`dm_blocks`** (`src/space.rt`): bytes", "dm_blocks has no file src/space.rt"),
)


def faults_in(path, text):
    """The faults where a page has this text."""
    real = specs.text_of
    with mock.patch.object(specs, "text_of", lambda one: text if one == path else real(one)):
        return [*proved.faults(specs.known())]


class Names(unittest.TestCase):
    def test_the_page_has_no_others(self):
        self.assertEqual([*proved.faults(specs.known())], [])

    def test_each_other_of_the_first_table_is_reported(self):
        for calls, says, words in MAIN_LINES:
            with self.subTest(calls=calls, says=says):
                found = faults_in(
                    proved.PAGE,
                    (
                        f"## Main contracts\n\n| What | The contract of | Says |\n|---|---|---|\n| runs | {calls} |"
                        f" {says} |\n\n## By crate\n"
                    ),
                )
                self.assertEqual(len(found), 0 if words is None else 1, found)
                self.assertIn(words or "", " ".join(found))

    def test_each_file_of_another_crate_is_reported(self):
        for item, words in ITEMS:
            with self.subTest(item=item):
                found = faults_in(proved.CRATES, f"## The crates\n\n{item}\n")
                self.assertEqual(len(found), 0 if words is None else 1, found)
                self.assertIn(words or "", " ".join(found))

    def test_each_other_is_reported(self):
        for call, names, words in LINES:
            is_export = call.startswith("`dm_c_")
            line = f"| {call} | {names} | says |\n" if is_export else f"| {call} | says `this` | {names} |\n"
            with self.subTest(line=line):
                found = faults_in(proved.PAGE, line)
                self.assertEqual(len(found), 0 if words is None else 1, found)
                self.assertIn(words or "", " ".join(found))


if __name__ == "__main__":
    unittest.main()
