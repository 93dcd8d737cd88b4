"""Tests of `python -m mezguld picture` without a browser. From the top: `python3 -m unittest discover -s
python/tests -t python`."""
from __future__ import annotations

import io
import json
import os
import random
import subprocess
import sys
import tempfile
import time
import unittest
from contextlib import redirect_stderr, redirect_stdout
from typing import Any
from unittest import mock

ROOT = os.path.dirname(os.path.dirname(os.path.dirname(os.path.abspath(__file__))))
sys.path.insert(0, os.path.join(ROOT, "python"))
import mezguld  # noqa: E402
from mezguld import __main__ as command  # noqa: E402
from mezguld import picture  # noqa: E402
from mezguld.picture import Options, Program  # noqa: E402

PROGRAMS = os.path.join(ROOT, "python", "tests", "programs")
RUNS = {
    "fragments": (["fragments"], Options()),
    "leak": (["leak"], Options()),
    "overrun": (["overrun"], Options()),
    "overlay": (["overlay"], Options()),
    "resident": (["resident", "tsr"], Options(upper=True)),
    "children": (["children", "child", "leaf"], Options()),
}
# Allocates and frees a block for ever.
TURNS = (
    "MOV SP,400h\nMOV AH,4Ah\nMOV BX,40h\nINT 21h\nnext: MOV AH,48h\nMOV BX,5\nINT 21h\nMOV ES,AX\n"
    "MOV AH,49h\nINT 21h\nJMP next\n"
)


def programs_of(names: list[str]) -> list[Program]:
    """Programs of the folder `programs`."""
    programs = []
    for name in names:
        with open(os.path.join(PROGRAMS, f"{name}.asm"), encoding="ascii") as file:
            programs.append(Program(f"{name.upper()}.COM".encode(), mezguld.assemble(file.read())))
    return programs


def one(text: str, name: bytes = b"MAIN.COM") -> list[Program]:
    """A program by its text."""
    return [Program(name, mezguld.assemble(text))]


def replayed(data: dict[str, Any]) -> list[tuple[int, dict[str, list[str]]]]:
    """The step and the lists of each moment."""
    lists: dict[str, list[str]] = {name: [] for name in "MPX"}
    found = []
    for row in data["moments"]:
        moment = dict(zip(data["columns"], [*row, *[0] * len(data["columns"])]))
        for name in "MPX":
            if moment[name]:
                at, count, lines = moment[name]
                lists[name][at : at + count] = lines
        found.append((moment["step"], {name: list(lists[name]) for name in "MPX"}))
    return found


class Records(unittest.TestCase):
    def assert_lists(self, data: dict[str, Any], programs: list[Program], options: Options) -> None:
        """The lists of each moment are those of the debugger after its step."""
        with picture.loaded(programs, options) as machine:
            for step, lists in replayed(data):
                machine.run(step - machine.steps)
                for name in "MPX":
                    self.assertEqual(
                        "\n".join(lists[name]) + "\n", machine.command(name).decode("ascii"), f"{name} at step {step}"
                    )

    def test_lists_are_those_of_the_debugger(self) -> None:
        for name, (names, options) in RUNS.items():
            with self.subTest(name):
                programs = programs_of(names)
                self.assert_lists(picture.record(programs, options), programs, options)

    def test_findings(self) -> None:
        # (docs/manual.md has the lines of `dm check --json` for the same program.)
        data = picture.record(programs_of(["overrun"]))
        place = {
            "step": 34,
            "at": "0103:0121",
            "cs": 259,
            "ip": 289,
            "before": False,
            "instruction": "REP STOSB",
            "header": 325,
        }
        old, new = {"signature": 77, "owner": 259, "size": 1}, {"signature": 42, "owner": 259, "size": 1}
        call = {"interrupt": 33, "function": 73, "code": 7, "text": "refused with code 07h, no valid block list"}
        once = {"more": 0, "last": 34}
        self.assertEqual(
            data["findings"],
            [
                {
                    "type": "error",
                    "kind": "overwritten",
                    **place,
                    "old": old,
                    "new": new,
                    "text": "header at 0145 overwritten: 4D 0103 0001 became 2A 0103 0001",
                    **once,
                },
                {"type": "error", "kind": "destroyed", **place, "text": "block list destroyed at 0145", **once},
                {
                    "type": "note",
                    "kind": "refused",
                    "step": 37,
                    "at": "0103:0125",
                    "cs": 259,
                    "ip": 293,
                    "before": False,
                    "call": "INT 21h function 49h (Free Allocated Memory)",
                    **call,
                    "more": 0,
                    "last": 37,
                },
            ],
        )
        self.assertEqual(data["summary"], {"errors": 2, "notes": 1, "omitted": 0})
        self.assertTrue({it["step"] for it in data["findings"]} <= {row[0] for row in data["moments"]})
        self.assertEqual(
            data["run"]["end"],
            {
                "type": "stopped",
                "reason": "destroyed",
                "at": "0103:012A",
                "cs": 259,
                "ip": 298,
                "before": False,
                "call": "INT 21h function 4Ch (End Program)",
                "interrupt": 33,
                "function": 76,
                "text": "stopped: destroyed",
            },
        )

    def test_more_findings_than_are_listed(self) -> None:
        # (Each turn frees what is no block, in 1,500 turns.)
        text = (
            "MOV SP,400h\nMOV AH,4Ah\nMOV BX,40h\nINT 21h\nMOV CX,1500\nMOV BX,100h\nnext: MOV AH,49h\n"
            "MOV ES,BX\nINT 21h\nINC BX\nINC WORD [at]\nLOOP next\n"
            "MOV AX,4C00h\nINT 21h\nat: DW 0\n"
        )
        data = picture.record(one(text))
        count = data["summary"]["errors"] + data["summary"]["notes"]
        self.assertEqual(sum(1 + it["more"] for it in data["findings"]) + data["summary"]["omitted"], count)

    def test_interrupt_whose_stack_is_a_header(self) -> None:
        # (The finding is at the step of the INT, which leads to a service at once.)
        programs = one("MOV AX,100h\nMOV SS,AX\nMOV SP,26h\nMOV AH,30h\nINT 21h\nHLT\n")
        data = picture.record(programs)
        self.assertEqual(data["findings"][0]["step"], 5)
        self.assertIn(5, [row[0] for row in data["moments"]])
        self.assert_lists(data, programs, Options())

    def test_repeated_findings(self) -> None:
        data = picture.record(
            one("MOV CX,5\nnext: MOV AH,49h\nMOV BX,1234h\nMOV ES,BX\nINT 21h\nLOOP next\nMOV AX,4C00h\nINT 21h\n")
        )
        (found,) = data["findings"]
        self.assertEqual((found["more"], found["step"], found["last"]), (4, 6, 30))
        self.assertTrue({6, 30} <= {row[0] for row in data["moments"]})

    def test_leak(self) -> None:
        (kept,) = picture.record(programs_of(["leak"]))["kept"]
        self.assertEqual(
            (kept["caller"], kept["blocks"], kept["paragraphs"], kept["first"], kept["is_leak"]),
            ("0103:011B", 40, 320, 15, True),
        )

    def test_processes(self) -> None:
        data = picture.record(programs_of(["children", "child", "leaf"]))
        self.assertEqual(
            [(it["name"], it["parent"], it["how"]) for it in data["processes"]],
            [
                ("CHILDREN.COM", None, "ended with code 0"),
                ("CHILD.COM", 0, "ended with code 3"),
                ("LEAF.COM", 1, "ended with code 5"),
                ("CHILD.COM", 0, "ended with code 3"),
                ("LEAF.COM", 3, "ended with code 5"),
            ],
        )
        starts = [
            (row[3], row[4])
            for row in data["moments"]
            if data["names"][row[1]].startswith(("INT 21h function 4B", "INT 21h function 4C"))
        ]
        self.assertEqual(
            starts[:5],
            [
                (0, "starts CHILD.COM"),
                (1, "starts LEAF.COM"),
                (2, "ended with code 5"),
                (1, "ended with code 3"),
                (0, "starts CHILD.COM"),
            ],
        )
        data = picture.record(programs_of(["resident", "tsr"]), Options(upper=True))
        self.assertEqual(data["processes"][1]["how"], "stays resident with 20h paragraphs, code 0")
        self.assertEqual([it["why"] for it in data["kept"]], ["kept by a resident program"])

    def test_many_processes(self) -> None:
        text = (
            "MOV SP,400h\nMOV AH,4Ah\nMOV BX,60h\nINT 21h\nMOV WORD [block+4],CS\nMOV CX,200\nnext: PUSH CX\n"
            "MOV AX,4B00h\nMOV DX,name\nPUSH CS\nPOP ES\nMOV BX,block\n"
            "INT 21h\nPOP CX\nLOOP next\nMOV AX,4C00h\nINT 21h\nname: DB 'CHILD.COM',0\nblock: DW 0,80h,0,5Ch,0,6Ch,0\n"
        )
        programs = [*one(text), Program(b"CHILD.COM", mezguld.assemble("MOV AX,4C00h\nINT 21h\n"))]
        whole = picture.record(programs)
        self.assertEqual(len(whole["processes"]), 201)
        self.assert_lists(whole, programs, Options())
        with mock.patch.multiple(picture, MOST_MOMENTS=40, MOST_PROCESSES=10):
            data = picture.record(programs)
        self.assertLess(len(data["processes"]), 40)
        self.assert_lists(data, programs, Options())
        ends = {(it["start"], it["end"], it["psp"], it["how"]) for it in whole["processes"]}
        for it in data["processes"]:
            self.assertIn((it["start"], it["end"], it["psp"], it["how"]), ends)
        self.assertTrue(all(it["parent"] == 0 for it in data["processes"][1:]))
        for row in data["moments"]:
            maker = data["processes"][row[3] if len(row) > 3 else 0]
            self.assertLessEqual(maker["start"], row[0])
            self.assertGreaterEqual(maker["end"], row[0])

    def test_division_error_ends_a_process(self) -> None:
        data = picture.record(one("XOR BX,BX\nDIV BX\n"))
        self.assertEqual(data["processes"][0]["how"], "ended by a division error")
        self.assertEqual(data["run"]["end"]["code"], 255)

    def test_refused_calls(self) -> None:
        data = picture.record(
            one(
                "MOV AH,48h\nMOV BX,1234h\nINT 21h\nMOV AH,45h\nMOV DX,9\nINT 67h\nMOV AX,4310h\nINT 2Fh\n"
                "MOV [at],BX\nMOV WORD [at+2],ES\n"
                "MOV AH,0Ah\nMOV DX,7\nCALL FAR [at]\nMOV AX,4C00h\nINT 21h\nat: DW 0,0\n"
            )
        )
        told = [(row[4], row[5]) for row in data["moments"] if len(row) > 5 and row[5]]
        self.assertEqual(
            told,
            [
                ("1234h paragraphs: refused with code 08h, largest 0h", 8),
                ("handle 9: refused with code 83h", 0x83),
                ("handle 7: refused with code A2h", 0xA2),
            ],
        )

    def test_stops(self) -> None:
        for text, options, why in (
            ("next: JMP next\n", Options(steps=1000), "steps"),
            ("HLT\n", Options(), "halted"),
            ("MOV AH,1\nINT 21h\n", Options(), "input ended"),
            ("DB 0Fh,0FFh\n", Options(), "unlisted"),
            ("NOP\n", Options(steps=0), "steps"),
        ):
            with self.subTest(why):
                data = picture.record(one(text), options)
                self.assertEqual(
                    (data["run"]["end"]["type"], data["run"]["end"]["reason"], data["run"]["end"]["text"]),
                    ("stopped", why, f"stopped: {why}"),
                )
                self.assert_lists(data, one(text), options)

    def test_limit_of_steps_within_calls(self) -> None:
        for steps in range(40):
            data = picture.record(one(TURNS), Options(steps=steps))
            self.assertEqual(data["run"]["steps"], steps)
            self.assert_lists(data, one(TURNS), Options(steps=steps))

    def test_stack_in_a_window(self) -> None:
        # (The call maps another page where its own return address was.)
        text = (
            "MOV AH,43h\nMOV BX,2\nINT 67h\nMOV AX,4400h\nMOV BX,0\nINT 67h\nMOV AX,0E000h\nMOV SS,AX\nMOV SP,100h\n"
            "MOV AX,4400h\nMOV BX,0\nINT 67h\nMOV AX,4C00h\nINT 21h\n"
        )
        data = picture.record(one(text))
        self.assertEqual(
            [
                data["callers"][row[2]]
                for row in data["moments"]
                if len(row) > 4 and row[4] == "window 0: page 0 of handle 1"
            ],
            ["0103:010D", "0103:011D"],
        )

    def test_thinned(self) -> None:
        options = Options(steps=20_000)
        with mock.patch.object(picture, "MOST_MOMENTS", 50):
            data = picture.record(one(TURNS), options)
        self.assertLessEqual(len(data["moments"]), 53)
        self.assertGreater(len(data["moments"]), 20)
        self.assertIn("is shown", data["calls"]["rule"])
        self.assert_lists(data, one(TURNS), options)
        programs = programs_of(["leak"])
        with mock.patch.object(picture, "MOST_SIZE", 4000):
            data = picture.record(programs)
        self.assert_lists(data, programs, Options())
        self.assertEqual((data["kept"][0]["blocks"], data["calls"]["seen"]), (40, 122))

    def test_thinned_keeps_findings(self) -> None:
        text = (
            "MOV CX,60\nnext: MOV AH,49h\nMOV BX,1234h\nMOV ES,BX\nINT 21h\nINC WORD [at]\nLOOP next\n"
            "MOV AH,45h\nMOV DX,9\nINT 67h\nMOV AX,4C00h\nINT 21h\nat: DW 0\n"
        )
        with mock.patch.object(picture, "MOST_MOMENTS", 8):
            data = picture.record(one(text))
        self.assertEqual(len(data["findings"]), 2)
        self.assertTrue(
            {step for it in data["findings"] for step in (it["step"], it["last"])}
            <= {row[0] for row in data["moments"]}
        )


class Reports(unittest.TestCase):
    def test_each_kind_as_in_the_rows_of_dm_check(self) -> None:
        with open(os.path.join(ROOT, "rows", "checker", "json_of_each_kind.row"), encoding="utf-8") as file:
            wanted = [json.loads(line) for line in file if line.startswith('    {"type"')]
        kinds = set()
        for it in wanted:
            if it["type"] in ("error", "note"):
                site = f"{'before ' if it['before'] else ''}{it['at']}"
                line = f"{it['type']}: step {it['step']}, {site} {it.get('call') or it['instruction']}: {it['text']}"
                # The report's text, from which the page takes its findings, does not name the process.
                del it["process"]
                report = picture.report_of([line, "errors: 0, notes: 0"], 0)
                self.assertEqual(report.findings, [{**it, "more": 0, "last": it["step"]}])
                kinds.add(it["kind"])
        self.assertEqual(len(kinds), 25, sorted(kinds))

    def test_again_and_what_is_omitted(self) -> None:
        lines = [
            (
                "note: step 6, 0103:0109 INT 21h function 49h (Free Allocated Memory): refused with code 09h, no such"
                " block"
            ),
            (
                "again: step 6, 0103:0109 INT 21h function 49h (Free Allocated Memory): refused with code 09h, no such"
                " block: 4 more, the last at step 30"
            ),
            "omitted: 7 findings",
            "errors: 0, notes: 12",
            "stopped: unlisted at 0103:0110: 0F FF",
        ]
        report = picture.report_of(lines, 0)
        self.assertEqual([(it["kind"], it["more"], it["last"]) for it in report.findings], [("refused", 4, 30)])
        self.assertEqual(report.summary, {"errors": 0, "notes": 12, "omitted": 7})
        self.assertEqual(
            report.end,
            {
                "type": "stopped",
                "reason": "unlisted",
                "at": "0103:0110",
                "cs": 0x103,
                "ip": 0x110,
                "before": False,
                "bytes": [15, 255],
                "text": "stopped: unlisted",
            },
        )

    def test_words_of_another_version(self) -> None:
        report = picture.report_of(["error: step 6, 0103:0109 NOP: what no version knows", "errors: 1, notes: 0"], 3)
        self.assertEqual(
            (report.findings[0]["kind"], report.end),
            ("unknown", {"type": "exited", "code": 3, "text": "ended with code 3"}),
        )


class Splices(unittest.TestCase):
    def test_any_two_lists(self) -> None:
        chance = random.Random(58)
        for _ in range(3000):
            old, new = (
                [f"{chance.randrange(4)}{'x' * chance.randrange(3)}" for _ in range(chance.randrange(7))]
                for _ in range(2)
            )
            before, after = ("".join(f"{line}\n" for line in lines).encode() for lines in (old, new))
            listing = picture.Listing()
            listing.change(before)
            splice = listing.change(after)
            self.assertEqual(splice == 0, old == new)
            if splice:
                at, count, lines = splice
                self.assertEqual(old[:at] + lines + old[at + count :], new)

    def test_merged(self) -> None:
        chance = random.Random(59)
        for _ in range(500):
            merged, listing, old, last = picture.Merged(), picture.Listing(), [], []
            for _ in range(12):
                new = [line for line in old if chance.random() < 0.8] + [
                    str(chance.randrange(99)) for _ in range(chance.randrange(3))
                ]
                merged.add(listing.change("".join(f"{line}\n" for line in new).encode()))
                old = new
                if chance.random() < 0.3:
                    splice = merged.taken()
                    if splice:
                        last[splice[0] : splice[0] + splice[1]] = splice[2]
                    self.assertEqual(last, new)


class Pages(unittest.TestCase):
    def test_data_of_a_page(self) -> None:
        data = picture.record(
            one("MOV AX,4C00h\nINT 21h\n", b"</script><!--<b>'\"&\xff\x80.COM"), Options(tail=b" <!--<script>\xfe\x00")
        )
        text = picture.page(data)
        self.assertEqual(text.count("</script>"), 2)
        self.assertNotIn("<!--<", text)
        begin = text.index('<script type="application/json" id="data">') + len(
            '<script type="application/json" id="data">'
        )
        self.assertEqual(json.loads(text[begin : text.index("</script>")]), json.loads(picture.text_of(data)))
        self.assertEqual(data["run"]["files"][0]["name"], "</script><!--<b>'\"&\\xff\\x80.COM")
        for mark in ("http:", "https:", "src=", "@import", "url(h", "fetch("):
            self.assertNotIn(mark, text)

    def test_same_run_gives_the_same_page(self) -> None:
        self.assertEqual(*(picture.page(picture.record(programs_of(["overlay"]))) for _ in range(2)))


class Commands(unittest.TestCase):
    def setUp(self) -> None:
        self.folder = tempfile.TemporaryDirectory()
        self.addCleanup(self.folder.cleanup)
        with open(os.path.join(self.folder.name, "leak.com"), "wb") as file:
            file.write(programs_of(["leak"])[0].content)

    def called(self, *words: str, given: bytes = b"") -> tuple[int, str, str]:
        """What a call in the folder leaves."""
        environment = {**os.environ, "PYTHONPATH": os.path.join(ROOT, "python")}
        how: dict[str, Any] = {
            "cwd": self.folder.name,
            "env": environment,
            "input": given,
            "capture_output": True,
            "check": False,
        }
        ran = subprocess.run([sys.executable, "-m", "mezguld", *words], **how)
        return ran.returncode, ran.stdout.decode(), ran.stderr.decode()

    def test_page_and_data(self) -> None:
        self.assertEqual(
            self.called("picture", "leak.com"),
            (0, "memory.html: 122 calls, errors: 0, notes: 0, ended with code 0\n", ""),
        )
        self.assertEqual(self.called("picture", "--json", "leak.com", "-o", "a.json")[0], 0)
        with open(os.path.join(self.folder.name, "a.json"), encoding="ascii") as file:
            data = json.load(file)
        self.assertEqual(data["run"]["command"], "python -m mezguld picture leak.com </dev/null")
        self.assertEqual(sorted(os.listdir(self.folder.name)), ["a.json", "leak.com", "memory.html"])
        self.assertEqual(json.loads(self.called("picture", "--json", "-o", "-", "leak.com")[1]), data)

    def test_input(self) -> None:
        with open(os.path.join(self.folder.name, "read.com"), "wb") as file:
            file.write(mezguld.assemble("MOV AH,1\nINT 21h\nMOV AH,4Ch\nINT 21h\n"))
        self.assertEqual(
            self.called("picture", "read.com", given=b"A")[1],
            "memory.html: 1 calls, errors: 0, notes: 0, ended with code 65\n",
        )
        with open(os.path.join(self.folder.name, "b"), "wb") as file:
            file.write(b"B")
        self.assertEqual(
            self.called("picture", "--input", "b", "read.com")[1],
            "memory.html: 1 calls, errors: 0, notes: 0, ended with code 66\n",
        )

    def assert_refused(self, status: int, word: str, *words: str) -> None:
        """A call ends with this status and one sentence, and writes nothing."""
        before = sorted(os.listdir(self.folder.name))
        got, out, told = self.called(*words)
        self.assertEqual((got, out, told.count("\n")), (status, "", 1), told)
        self.assertIn(word, told)
        self.assertEqual(sorted(os.listdir(self.folder.name)), before)

    def test_wrong_lines(self) -> None:
        for words in (
            [],
            ["draw"],
            ["picture"],
            ["picture", "--steps", "x", "leak.com"],
            ["picture", "--ems=-1", "leak.com"],
            ["picture", "--step", "5", "leak.com"],
            ["picture", "--steps", str(2**64), "leak.com"],
            ["picture", "--no-such", "leak.com"],
            ["picture", "leak.com", "-o"],
        ):
            self.assert_refused(2, "mezguld", *words)

    def test_faults(self) -> None:
        for name, content in (
            ("big.com", bytes(70_000)),
            ("huge.com", bytes((16 << 20) + 1)),
            ("MZ.EXE", b"MZ"),
            ("n" * 65, b"\x90"),
            ("LEAK.COM", b"\x90"),
        ):
            with open(os.path.join(self.folder.name, name), "wb") as file:
                file.write(content)
        for word, words in (
            ("cannot read no.com", ["no.com"]),
            ("cannot read .", ["."]),
            ("bad format", ["big.com"]),
            ("bad format", ["MZ.EXE"]),
            ("input too long", ["huge.com"]),
            ("name too long", ["n" * 65]),
            ("name twice", ["leak.com", "LEAK.COM"]),
            ("too large", ["--ems", "513", "leak.com"]),
            ("too large", ["--xms", "15361", "leak.com"]),
            ("tail too long", ["--tail", " " * 127, "leak.com"]),
            ("cannot write none/a.html", ["leak.com", "-o", "none/a.html"]),
            ("cannot write .", ["leak.com", "-o", "."]),
            ("cannot write /dev/full", ["leak.com", "-o", "/dev/full"]),
            ("cannot read none", ["--input", "none", "leak.com"]),
            ("cannot write ", ["leak.com", "-o", "x" * 300]),
            ("cannot write ''", ["leak.com", "-o", ""]),
            ("cannot read ''", [""]),
            ("cannot read ''", ["--input", "", "leak.com"]),
            ("the run reads it", ["leak.com", "-o", "leak.com"]),
            ("the run reads it", ["leak.com", "--input", "huge.com", "-o", "./huge.com"]),
            ("cannot write /", ["leak.com", "-o", "/"]),
        ):
            with self.subTest(word):
                self.assert_refused(126, word, "picture", *words)

    def test_where_it_cannot_be_written_is_known_before_the_run(self) -> None:
        with open(os.path.join(self.folder.name, "loop.com"), "wb") as file:
            file.write(mezguld.assemble("next: JMP next\n"))
        began = time.monotonic()
        self.assert_refused(
            126, "cannot write none/a.html", "picture", "loop.com", "--steps", str(2**63), "-o", "none/a.html"
        )
        self.assertLess(time.monotonic() - began, 20)

    def test_other_calls(self) -> None:
        # (A call that leaves memory's division as it is, with a finding at its step, and one at the limit.)
        text = "MOV CX,3\nnext: MOV AH,2\nMOV DL,41h\nINT 21h\nLOOP next\nMOV AH,99h\nINT 21h\nMOV AX,4C00h\nINT 21h\n"
        for steps in range(30):
            data = picture.record(one(text), Options(steps=steps))
            self.assertEqual(
                (data["run"]["steps"], data["calls"]["others"]),
                (min(steps, 22), sum(steps >= it for it in (5, 10, 15, 19))),
                steps,
            )
            self.assertTrue({it["step"] for it in data["findings"]} <= {row[0] for row in data["moments"]})

    def test_nobody_reads_standard_output(self) -> None:
        for words, status, told in (
            (["-o", "a.html"], 0, b""),
            (["-o", "-"], 126, b"mezguld: cannot write standard output (Broken pipe)\n"),
        ):
            reader, writer = os.pipe()
            os.close(reader)
            how: dict[str, Any] = {
                "cwd": self.folder.name,
                "stdin": subprocess.DEVNULL,
                "stdout": writer,
                "stderr": subprocess.PIPE,
                "check": False,
            }
            environment = {**os.environ, "PYTHONPATH": os.path.join(ROOT, "python")}
            ran = subprocess.run(
                [sys.executable, "-m", "mezguld", "picture", "leak.com", *words], env=environment, **how
            )
            os.close(writer)
            self.assertEqual((ran.returncode, ran.stderr), (status, told))
        self.assertIn("a.html", os.listdir(self.folder.name))

    def test_nothing_half_written(self) -> None:
        path = os.path.join(self.folder.name, "old.html")
        with open(path, "w", encoding="ascii") as file:
            file.write("old")
        with mock.patch.object(
            picture.os, "replace", side_effect=OSError(28, "No space left on device")
        ), self.assertRaises(OSError):
            picture.write("new", path)
        with open(path, encoding="ascii") as file:
            self.assertEqual(file.read(), "old")
        self.assertEqual(sorted(os.listdir(self.folder.name)), ["leak.com", "old.html"])
        picture.write("new", path)
        mask = os.umask(0)
        os.umask(mask)
        self.assertEqual(os.stat(path).st_mode & 0o777, 0o666 & ~mask)

    def test_progress_is_told_where_it_takes_long(self) -> None:
        with mock.patch.multiple(command, FIRST_PAUSE=0.1, LAST_PAUSE=0.1), redirect_stderr(io.StringIO()) as told:
            self.assertEqual(command.made(lambda: time.sleep(1.1) or 7, "first run"), 7)
        self.assertEqual(set(told.getvalue().splitlines()), {"mezguld: first run"})
        with redirect_stderr(io.StringIO()) as told:
            self.assertEqual(command.made(lambda: 7, "first run"), 7)
        self.assertEqual(told.getvalue(), "")
        progress = picture.Progress()
        self.assertEqual(str(progress), "first run, under the checker")
        picture.record(programs_of(["overrun"]), progress=progress)
        self.assertRegex(str(progress), r"second run: [\d,]+ of at most 100,000,000 steps, [\d,]+ calls about memory")

    def test_help(self) -> None:
        status, out, told = self.called("picture", "--help")
        self.assertEqual((status, told), (0, ""))
        self.assertIn("example: python -m mezguld picture", out)
        with mock.patch.object(sys, "argv", ["mezguld", "--version"]), redirect_stdout(
            io.StringIO()
        ) as said, self.assertRaises(SystemExit):
            command.main()
        self.assertEqual(said.getvalue(), f"mezguld {mezguld.__version__}\n")


if __name__ == "__main__":
    unittest.main()
