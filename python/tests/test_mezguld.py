"""Tests of the module `mezguld` over the built library. From the top: `python3 -m unittest discover -s python/tests
-t python`."""
import copy
import ctypes
import dataclasses
import gc
import os
import pickle
import signal
import subprocess
import sys
import threading
import time
import unittest
import weakref
from unittest import mock

ROOT = os.path.dirname(os.path.dirname(os.path.dirname(os.path.abspath(__file__))))
sys.path.insert(0, os.path.join(ROOT, "python"))
import mezguld  # noqa: E402
from mezguld import (  # noqa: E402
    Act,
    Block,
    Contents,
    Details,
    Ended,
    Event,
    Expanded,
    Extended,
    FindingKind,
    How,
    Machine,
    Origin,
    PageHandle,
    Place,
    Stop,
    Stopped,
    UpperBlock,
    Window,
)

# Prints what it reads until there is no input.
ECHO = "next: MOV AH,8\nINT 21h\nMOV DL,AL\nMOV AH,2\nINT 21h\nJMP next\n"
# Ends with code 7.
END = "MOV AX,4C07h\nINT 21h\n"
# Goes on for ever, with a repetition, a call of DOS and a line of output in each turn.
TURNS = "next: MOV CX,5\nMOV DI,2000h\nREP STOSB\nINC BX\nMOV AH,30h\nINT 21h\nMOV DL,BL\nMOV AH,2\nINT 21h\nJMP next\n"
# Goes on for ever, and writes nothing.
LOOP = "next: INC BX\nJMP next\n"
MOST = 2**64 - 1


def started(text: str, **options: object) -> Machine:
    """A machine with the program of a text loaded."""
    machine = Machine()
    machine.add("MAIN.COM", mezguld.assemble(text))
    machine.load("MAIN.COM", **options)
    return machine


class Runs(unittest.TestCase):
    def test_exit_code(self) -> None:
        with started(END) as machine:
            self.assertEqual(machine.run(0), Stopped(Stop.STEPS, 0))
            self.assertEqual(machine.run(100), Stopped(Stop.EXITED, 7))
            self.assertEqual(machine.steps, 3)
            self.assertEqual(machine.run(100), Stopped(Stop.EXITED, 7))
            self.assertEqual(machine.steps, 3)

    def test_input_and_output(self) -> None:
        with started(ECHO, input=b"two lines\r\n\x00\xff") as machine:
            self.assertEqual(machine.run(10_000).why, Stop.INPUT_ENDED)
            self.assertEqual(machine.output(), b"two lines\r\n\x00\xff")

    def test_output_longer_than_the_first_buffer(self) -> None:
        data = bytes(range(256)) * 40
        with started(ECHO, input=data) as machine:
            machine.run(1_000_000)
            self.assertEqual(machine.output(), data)

    def test_one_step_at_a_time(self) -> None:
        with started(END) as one, started(END) as other:
            one.run(2)
            other.run(1)
            other.run(1)
            self.assertEqual(one.registers, other.registers)
            self.assertEqual((one.registers.cs, one.registers.ip), (0xF000, 0x0084))

    def test_breakpoints(self) -> None:
        with started("MOV AX,1\nMOV BX,2\nMOV CX,3\nHLT\n") as machine:
            code = machine.registers.cs
            self.assertEqual(machine.run_until(100, [(code, 0x106)]), Stopped(Stop.BREAKPOINT, 0))
            self.assertEqual(machine.registers[:3], (1, 2, machine.registers.cx))
            self.assertEqual(machine.run_until(100, [(code, 0x106)]).why, Stop.HALTED)
            self.assertEqual(machine.registers.cx, 3)


class Events(unittest.TestCase):
    """Runs up to events."""

    def test_a_place(self) -> None:
        with started("MOV AX,1\nMOV BX,2\nMOV CX,3\nHLT\n") as machine:
            code = machine.registers.cs
            events = [Event.at(code - 1, 0x116), Event.at_address(code * 16 + 0x106), Event.at(code, 0x106)]
            self.assertEqual(machine.run_to(100, events), Ended(Stop.EVENT, 0, events[1]))
            self.assertEqual((machine.steps, machine.registers.ip), (2, 0x106))
            self.assertEqual(machine.run_to(100, events), Ended(Stop.HALTED, 0, None))
            self.assertEqual(machine.run_to(100, []), Ended(Stop.HALTED, 0, None))

    def test_a_call(self) -> None:
        with started("MOV AH,2\nMOV DL,41h\nINT 21h\nMOV AH,30h\nINT 21h\n" + END) as machine:
            self.assertEqual(
                machine.run_to(100, [Event.at_function(0x21, 0x30), Event.at_call(0x21)]).event, Event.at_call(0x21)
            )
            self.assertEqual((machine.steps, machine.output()), (2, b""))
            self.assertEqual(
                machine.run_to(100, [Event.at_function(0x21, 0x30), Event.at_call(0x21)]).event,
                Event.at_function(0x21, 0x30),
            )
            self.assertEqual(machine.output(), b"A")
            self.assertEqual(machine.run_to(100, [Event.at_call(0x20)]), Ended(Stop.EXITED, 7, None))
            self.assertEqual(machine.run_to(0, [Event.at_call(0x20)]), Ended(Stop.EXITED, 7, None))

    def test_a_change(self) -> None:
        text = "MOV AX,0B800h\nMOV DS,AX\nMOV AX,0720h\nMOV [10],AX\nMOV [12],AL\nMOV [12],AH\n" + END
        with started(text) as machine:
            machine.write(0xB800, 10, bytes.fromhex("200720"))
            event = Event.at_change(0xB8000, 4000)
            self.assertEqual(machine.run_to(100, [event]), Ended(Stop.EVENT, 0, event))
            self.assertEqual((machine.steps, machine.read(0xB800, 10, 3)), (6, b"\x20\x07\x07"))
            self.assertEqual(machine.run_to(100, [event]), Ended(Stop.EXITED, 7, None))

    def test_a_service_changes_memory(self) -> None:
        with started("MOV DX,200h\nMOV AH,0Ah\nINT 21h\n" + END, input=b"abc\r") as machine:
            place = machine.registers.ds * 16 + 0x200
            machine.write(machine.registers.ds, 0x200, b"\x10")
            self.assertEqual(machine.run_to(100, [Event.at_change(place + 2)]).why, Stop.EVENT)
            self.assertEqual((machine.steps, machine.read(machine.registers.ds, 0x201, 4)), (4, b"\x03abc"))

    def test_a_range_past_the_end(self) -> None:
        with started(END) as machine:
            for address, length in ((0x10FFF0, 1), (0xFFFFFFFF, 0xFFFFFFFF), (0, 0), (0x10FFEF, 0xFFFFFFFF)):
                self.assertEqual(machine.run_to(100, [Event.at_change(address, length)]), Ended(Stop.EXITED, 7, None))

    def test_long_runs_in_slices(self) -> None:
        with started("again: INC BX\nJNZ again\nINC CX\nCMP CX,100\nJNZ again\nMOV [300h],BL\n" + END) as machine:
            change = Event.at_change(machine.registers.ds * 16 + 0x300, 1)
            machine.write(machine.registers.ds, 0x300, b"\x01")
            machine.registers = machine.registers._replace(bx=0, cx=99)
            self.assertEqual(machine.run_to(MOST, [change]), Ended(Stop.EVENT, 0, change))
            self.assertEqual(machine.steps, 2 * 65_536 + 4)

    def test_a_conversation(self) -> None:
        path = os.path.join(ROOT, "examples", "hosts", "talk.py")
        ran = subprocess.run([sys.executable, path], capture_output=True, text=True, timeout=60, check=False)
        self.assertEqual((ran.returncode, ran.stderr), (0, ""))
        self.assertEqual(ran.stdout, "[Who? ]\nAda:\nHello, Ada\nCharles:\nHello, Charles\n[3, 7]\n")


class Input(unittest.TestCase):
    """Input that comes while a program runs."""

    def test_a_run_waits_for_a_byte(self) -> None:
        with started(ECHO, more=True) as machine:
            for data in (b"a", b"bc", b"\0\xff"):
                self.assertEqual(machine.run(10_000), Stopped(Stop.INPUT_ENDED, 0))
                before = machine.registers
                self.assertEqual(machine.run(10_000), Stopped(Stop.INPUT_ENDED, 0))
                self.assertEqual((machine.registers, machine.input_left), (before, 0))
                machine.supply(data)
                self.assertEqual(machine.input_left, len(data))
            machine.run(10_000)
            self.assertEqual(machine.output(), b"abc\0\xff")

    def test_in_any_pieces(self) -> None:
        data = b"some bytes in pieces"
        with started(ECHO, input=data) as whole:
            whole.run(10_000)
            for size in range(1, 7):
                with self.subTest(size), started(ECHO, more=True) as machine:
                    for at in range(0, len(data), size):
                        machine.supply(data[at : at + size])
                        machine.run(10_000)
                    self.assertEqual(
                        (machine.output(), machine.registers, machine.steps),
                        (whole.output(), whole.registers, whole.steps),
                    )

    def test_function_3fh_waits_while_the_input_is_open(self) -> None:
        # Reads up to eight bytes, and ends with their count.
        text = "MOV BX,0\nMOV CX,8\nMOV DX,200h\nMOV AH,3Fh\nINT 21h\nMOV AH,4Ch\nINT 21h\n"
        with started(text) as closed:
            self.assertEqual(closed.run(100), Stopped(Stop.EXITED, 0))
        with started(text, more=True) as machine:
            self.assertEqual(machine.run(100), Stopped(Stop.INPUT_ENDED, 0))
            other = copy.copy(machine)
            machine.supply(b"three")
            self.assertEqual(machine.run(100), Stopped(Stop.EXITED, 5))
            other.close_input()
            self.assertEqual(other.run(100), Stopped(Stop.EXITED, 0))
            other.close()

    def test_a_closed_input_takes_nothing(self) -> None:
        with started(ECHO, input=b"x") as machine:
            self.assertRaises(mezguld.InputClosed, machine.supply, b"y")
            self.assertRaises(mezguld.InputClosed, machine.supply, b"")
            machine.open_input()
            machine.supply(b"y")
            machine.close_input()
            self.assertRaises(mezguld.InputClosed, machine.supply, b"z")
            self.assertEqual(machine.input_left, 2)
            self.assertEqual(machine.run(1000), Stopped(Stop.INPUT_ENDED, 0))
            self.assertEqual(machine.output(), b"xy")

    def test_nothing_is_loaded(self) -> None:
        with Machine() as machine:
            for call in (
                machine.open_input,
                machine.close_input,
                lambda: machine.supply(b""),
                lambda: machine.input_left,
                lambda: machine.output_count,
            ):
                self.assertRaises(mezguld.NotLoaded, call)
            self.assertRaises(mezguld.NotLoaded, setattr, machine, "registers", (0,) * 14)

    def test_output_from_a_byte_on(self) -> None:
        data = bytes(range(256)) * 40
        with started(ECHO, input=data) as machine:
            machine.run(1_000_000)
            self.assertEqual(machine.output_count, len(data))
            for start in (0, 1, 5000, len(data) - 1, len(data), len(data) + 1, MOST):
                self.assertEqual(machine.output(start), data[start:])


class SetRegisters(unittest.TestCase):
    def test_each(self) -> None:
        with started(END) as machine:
            for at, name in enumerate(mezguld.Registers._fields[:-1]):
                before = machine.registers
                machine.registers = before._replace(**{name: 0x1234 + at})
                self.assertEqual(machine.registers, before._replace(**{name: 0x1234 + at}))

    def test_flags(self) -> None:
        with started(END) as machine:
            for word, shown in ((0x0000, 0xF002), (0xFFFF, 0xFFD7), (0x0001, 0xF003), (0xF7D5, 0xF7D7)):
                machine.registers = machine.registers._replace(flags=word)
                self.assertEqual(machine.registers.flags, shown)

    def test_the_run_goes_on_there(self) -> None:
        with started(END + "NOP\nMOV AX,4C09h\nINT 21h\n") as machine:
            machine.registers = machine.registers._replace(ip=machine.registers.ip + 6)
            self.assertEqual(machine.run(100), Stopped(Stop.EXITED, 9))

    def test_a_call_is_changed_before_it_acts(self) -> None:
        with started("MOV AH,2\nMOV DL,41h\nINT 21h\n" + END) as machine:
            self.assertEqual(machine.vector(0x21), (0xF000, 0x0084))
            self.assertEqual(machine.run_until(100, [machine.vector(0x21)]).why, Stop.BREAKPOINT)
            machine.registers = machine.registers._replace(dx=0x42)
            self.assertEqual(machine.run(100), Stopped(Stop.EXITED, 7))
            self.assertEqual(machine.output(), b"B")


class Memory(unittest.TestCase):
    def test_offsets_wrap(self) -> None:
        with started(END) as machine:
            machine.write(0x3000, 0xFFFE, b"\x01\x02\x03\x04")
            self.assertEqual(machine.read(0x3000, 0xFFFE, 4), b"\x01\x02\x03\x04")
            self.assertEqual(machine.read(0x3000, 0, 2), b"\x03\x04")
            self.assertEqual(machine.read(0x3000, 0, 0), b"")

    def test_linear_addresses(self) -> None:
        with started(END) as machine:
            data = bytes(number % 251 for number in range(200_000))
            machine.write_linear(0x40005, data)
            self.assertEqual(machine.read_linear(0x40005, len(data)), data)
            self.assertEqual(machine.read(0x4000, 4, 4), b"\0" + data[:3])
            self.assertEqual(machine.read(0x5000, 0, 2), data[0xFFFB:0xFFFD])
            self.assertEqual(machine.read_linear(0xF0000, 16), machine.read(0xF000, 0, 16))
            # A20 is off: the last 65,520 addresses are the first ones again.
            machine.write_linear(0x10FFEF, b"x")
            self.assertEqual((machine.read_linear(0xFFEF, 1), machine.read(0xFFFF, 0xFFFF, 1)), (b"x", b"x"))
            self.assertEqual(len(machine.read_linear(0, 0x10FFF0)), 0x10FFF0)
            self.assertEqual((machine.read_linear(0x10FFF0, 0), machine.read_linear(7, 0)), (b"", b""))
            for address, count in ((0x10FFF0, 1), (0, 0x10FFF1), (-1, 1), (0x10FFF1, 0), (0, -1), (2**64, 1)):
                self.assertRaises(ValueError, machine.read_linear, address, count)
            self.assertRaises(ValueError, machine.write_linear, 0x10FFEF, b"xy")

    def test_the_rom_stays(self) -> None:
        with started(END) as machine:
            before = machine.read(0xF000, 0, 16)
            machine.write(0xF000, 0, bytes(16))
            self.assertEqual(machine.read(0xF000, 0, 16), before)

    def test_blocks(self) -> None:
        with started(END) as machine:
            blocks = machine.blocks()
            self.assertEqual(blocks[0], Block(0x0100, False, blocks[1].owner, 1))
            self.assertTrue(blocks[-1].last)
            self.assertIsNone(blocks.destroyed)
            machine.write(0x0102, 0, b"?")
            self.assertEqual(machine.blocks(), blocks[:1])
            self.assertEqual(machine.blocks().destroyed, 0x0102)
            machine.write(0x0100, 0, b"?")
            self.assertEqual((machine.blocks(), machine.blocks().destroyed), ([], 0x0100))
            self.assertEqual(repr(machine.blocks()), "Blocks([], destroyed=0x0100)")

    def test_segments_print_in_hexadecimal(self) -> None:
        with started(END) as machine:
            self.assertEqual(
                repr(machine.blocks()[0]), "Block(segment=0x0100, last=False, owner=0x0103, size=1, list=0)"
            )
            self.assertEqual(str(machine.registers)[:31], "Registers(ax=0x0000, bx=0x0000,")
            self.assertIn("sp=0xFFFE", f"{machine.registers}")


def fields(record: object) -> tuple:
    """The values of the fields of a data class."""
    return tuple(getattr(record, it.name) for it in dataclasses.fields(record))


class Records(unittest.TestCase):
    """Data classes."""

    def test_none_changes(self) -> None:
        with started(DRIVERS) as machine:
            machine.run(1000)
            expanded, extended = machine.expanded(), machine.extended()
            told = [
                *machine.blocks(),
                *expanded.handles,
                expanded.windows[1],
                expanded,
                *extended.blocks,
                *extended.upper,
                extended,
                *machine.code(0x0103, 0x0100, 2),
            ]
            machine.check(1)
        for it in told:
            with self.subTest(type(it).__name__):
                self.assertTrue(dataclasses.is_dataclass(it))
                for field in dataclasses.fields(it):
                    self.assertRaises(dataclasses.FrozenInstanceError, setattr, it, field.name, 0)
                self.assertEqual(dataclasses.replace(it), it)
                self.assertNotEqual(it, fields(it))
                self.assertEqual((copy.deepcopy(it), pickle.loads(pickle.dumps(it))), (it, it))
        blocks = [it for it in told if isinstance(it, Block)]
        self.assertEqual(len(set(blocks)), len(blocks))

    def test_what_is_given_wrong_is_named(self) -> None:
        with started(END) as machine:
            for word, call in (
                ("breakpoints are a list", lambda: machine.run_until(5, (0x0103, 0x0100))),
                ("events are a list", lambda: machine.run_to(5, Event.at_call(0x21))),
                ("steps is '5'", lambda: machine.run("5")),
                ("bytes are wanted", lambda: machine.write(0, 0, "text")),
                ("all registers are wanted", lambda: setattr(machine, "registers", {"ax": 1})),
            ):
                self.assertRaisesRegex(TypeError, word, call)

    def test_names_of_the_package(self) -> None:
        for name in mezguld.__all__:
            self.assertIn(name, dir(mezguld))
            self.assertIsNotNone(getattr(mezguld, name))
        self.assertRaises(AttributeError, getattr, mezguld, "Nothing")
        self.assertIs(mezguld.Block, mezguld.records.Block)
        program = (
            "import sys, mezguld; before = 'mezguld.records' in sys.modules; mezguld.Block; print(before,"
            " 'mezguld.records' in sys.modules)"
        )
        environment = {**os.environ, "PYTHONPATH": os.path.join(ROOT, "python")}
        said = subprocess.run(
            [sys.executable, "-c", program], env=environment, stdout=subprocess.PIPE, check=True
        ).stdout
        self.assertEqual(said.split(), [b"False", b"True"])


class Reports(unittest.TestCase):
    """What the checker has found."""

    def test_of_a_run(self) -> None:
        # Writes over the header at 0102h, calls 48h three times at one place, and ends.
        text = (
            "MOV AX,102h\nMOV ES,AX\nES MOV BYTE [0],0\nMOV CX,3\nnext: MOV AH,48h\nMOV BX,1\nINT 21h\nLOOP next\nHLT\n"
        )
        with started(text) as machine:
            self.assertEqual((machine.findings(), machine.findings().errors), ([], 0))
            stopped, report = machine.check(1000)
            found = machine.findings()
            machine.command("R")
            with copy.copy(machine) as other:
                self.assertEqual((other.findings(), machine.findings()), (found, found))
            self.assertEqual(machine.check(1)[0].why, Stop.HALTED)
            self.assertEqual((machine.findings(), machine.findings().notes), ([], 0))
        self.assertEqual(stopped.why, Stop.HALTED)
        self.assertEqual((found.errors, found.notes, found.omitted, len(found)), (2, 3, 0, 3))
        place, act = Place(0x0103, 0x0105), Act(How.INSTRUCTION, next=0x010B)
        old, new = Contents(0x5A, 0x0103, 0x9EFD), Contents(0, 0x0103, 0x9EFD)
        self.assertEqual(
            fields(found[0])[:10],
            (FindingKind.OVERWRITTEN, True, 3, 0x0103, place, act, Details(old, new, header=0x0102), None, 0, 3),
        )
        self.assertEqual(
            fields(found[1])[:10],
            (FindingKind.DESTROYED, True, 3, 0x0103, place, act, Details(header=0x0102), None, 0, 3),
        )
        act = Act(How.FUNCTION, interrupt=0x21, function=0x48)
        self.assertEqual(
            fields(found[2])[:10],
            (FindingKind.REFUSED, False, 8, 0x0103, Place(0x0103, 0x0113), act, Details(code=7), None, 2, 18),
        )
        self.assertEqual([it.line for it in found], report.splitlines()[:3])
        place = "step 3, 0103:0105 ES MOV BYTE [00000h],000h"
        self.assertEqual(found[1].line, f"error: {place}: block list destroyed at 0102")
        self.assertEqual(f"{found[0].details}", f"Details(old_contents={old}, new_contents={new}, header=258)")
        self.assertEqual(repr(found[0].at), "Place(cs=0x0103, ip=0x0105, before=False)")

    def test_who_freed_and_who_allocated(self) -> None:
        # Keeps 512 bytes with its stack, allocates a paragraph and frees it, reads it, and ends with a page of expanded
        # memory.
        text = (
            "MOV SP,200h\nMOV BX,20h\nMOV AH,4Ah\nINT 21h\nMOV BX,1\nMOV AH,48h\nINT 21h\n"
            "MOV ES,AX\nMOV AH,49h\nINT 21h\nES MOV AL,[0]\n"
            "MOV BX,1\nMOV AH,43h\nINT 67h\nMOV AX,4C00h\nINT 21h\n"
        )
        with started(text) as machine:
            machine.check(1000)
            read, kept = machine.findings()
        self.assertEqual((read.kind, read.step, read.at), (FindingKind.FREE_READ, 14, Place(0x0103, 0x0117)))
        self.assertEqual(
            (read.details, read.origin),
            (Details(block=0x0124, segment=0x0124, offset=0), Origin(13, Place(0x0103, 0x0115))),
        )
        # (The call of 43h is step 18: MOV, MOV and INT are before it.)
        self.assertEqual(
            (kept.kind, kept.is_error, kept.origin), (FindingKind.HANDLE_KEPT, True, Origin(18, Place(0x0103, 0x0120)))
        )
        self.assertEqual(kept.details, Details(handle=1, pages=1, saved=False))

    def test_of_many(self) -> None:
        # 120 calls of a function that is not served, each at its own place: 100 are listed.
        with started("MOV AH,0EEh\nINT 21h\n" * 120 + END) as machine:
            machine.check(1000)
            found = machine.findings()
        self.assertEqual((len(found), found.errors, found.notes, found.omitted), (100, 0, 120, 20))
        self.assertEqual([(it.step, it.at.ip) for it in found], [(3 + 3 * at, 0x0102 + 4 * at) for at in range(100)])
        self.assertEqual(
            {(it.kind, it.act, it.details) for it in found},
            {(FindingKind.REFUSED, Act(How.FUNCTION, None, 0x21, 0xEE), Details(code=1))},
        )


# Allocates two pages, names their handle and maps the second one into window 1; allocates 16 KiB and 8 paragraphs by
# the driver of extended memory.
DRIVERS = """MOV BX,2
MOV AH,43h
INT 67h
MOV SI,name
MOV AX,5301h
INT 67h
MOV BX,1
MOV AX,4401h
INT 67h
MOV AX,4310h
INT 2Fh
MOV [driver],BX
MOV WORD [driver+2],ES
MOV AH,9
MOV DX,16
CALL FAR [driver]
MOV AH,10h
MOV DX,8
CALL FAR [driver]
HLT
name: DB 'EIGHT<<<'
driver: DW 0,0
"""


# Allocates two pages, writes to the second one through window 0, saves the windows, and maps the first one there;
# allocates 2 KiB by the driver of extended memory, and moves six bytes to byte 8 of them.
MOVES = """MOV BX,2
MOV AH,43h
INT 67h
MOV BX,1
MOV AX,4400h
INT 67h
MOV AX,0E000h
MOV ES,AX
ES MOV WORD [6],4241h
MOV AH,47h
INT 67h
MOV BX,0
MOV AX,4400h
INT 67h
MOV AX,4310h
INT 2Fh
MOV [driver],BX
MOV WORD [driver+2],ES
MOV AH,9
MOV DX,2
CALL FAR [driver]
MOV WORD [move+6],text
MOV WORD [move+8],DS
MOV AH,0Bh
MOV SI,move
CALL FAR [driver]
HLT
text: DB 'string'
driver: DW 0,0
move: DW 6,0,0,0,0,1,8,0
"""


class Drivers(unittest.TestCase):
    def test_expanded_memory(self) -> None:
        with started(DRIVERS) as machine:
            nobody = PageHandle(0, 0, bytes(8))
            self.assertEqual(machine.expanded(), Expanded([nobody], [None] * 4))
            self.assertEqual(machine.run(1000).why, Stop.HALTED)
            self.assertEqual(
                machine.expanded(),
                Expanded([nobody, PageHandle(1, 2, b"EIGHT<<<", False)], [None, Window(1, 1), None, None]),
            )

    def test_extended_memory(self) -> None:
        with started(DRIVERS) as machine:
            self.assertEqual(machine.extended(), Extended([], [], False, False))
            machine.run(1000)
            found = machine.extended()
            self.assertEqual([(it.handle, it.kib, it.locks) for it in found.blocks], [(1, 16, 0)])
            self.assertGreaterEqual(found.blocks[0].address, 0x110000)
            self.assertEqual((found.upper, found.a20, found.high_memory_area), ([UpperBlock(0xD000, 8)], False, False))
            self.assertEqual(repr(found.upper[0]), "UpperBlock(segment=0xD000, size=8)")

    def test_bytes_by_handle(self) -> None:
        with started(MOVES) as machine:
            self.assertRaises(mezguld.NoPage, machine.read_page, 0, 0)
            self.assertRaises(mezguld.NoHandle, machine.read_page, 1, 0)
            self.assertRaises(mezguld.NoHandle, machine.read_block, 1)
            self.assertEqual(machine.run(1000).why, Stop.HALTED)
            # Page 1 was written to through window 0, which shows page 0 since, and whose windows are saved.
            handles = [PageHandle(0, 0, bytes(8)), PageHandle(1, 2, bytes(8), True)]
            self.assertEqual(machine.expanded(), Expanded(handles, [Window(1, 0), None, None, None]))
            self.assertEqual((machine.read_page(1, 1, 5, 4), machine.read_page(1, 0)), (b"\0AB\0", bytes(0x4000)))
            page = bytearray(0x4000)
            page[6:8] = b"AB"
            self.assertEqual(
                (machine.read_page(1, 1), machine.read_page(1, 1, 0x3FFF), machine.read_page(1, 1, 0x4000)),
                (page, b"\0", b""),
            )
            # What is written by linear addresses is seen.
            machine.write(0xE000, 0x3FFF, b"x")
            self.assertEqual((machine.read_page(1, 0, 0x3FFE), machine.read_page(1, 0, 0, 0)), (b"\0x", b""))
            self.assertEqual(
                (machine.read_block(1, 6, 10), len(machine.read_block(1)), machine.read_block(1, 2048)),
                (b"\0\0string\0\0", 2048, b""),
            )
            self.assertEqual(machine.read_block(1), bytes(8) + b"string" + bytes(2034))
            for call, arguments in (
                (machine.read_page, (1, 1, 0x4001)),
                (machine.read_page, (1, 1, 1, 0x4000)),
                (machine.read_page, (1, 0, 2**64 - 1, 1)),
                (machine.read_block, (1, 2049)),
                (machine.read_block, (1, 2047, 2)),
                (machine.read_block, (1, 2**64 - 1, 1)),
            ):
                self.assertRaises(mezguld.PastEnd, call, *arguments)
            self.assertRaises(mezguld.NoPage, machine.read_page, 1, 2)
            for handle in (2, 64, 0xFFFF):
                self.assertRaises(mezguld.NoHandle, machine.read_page, handle, 0)
                self.assertRaises(mezguld.NoHandle, machine.read_block, handle)
            self.assertRaises(mezguld.NoHandle, machine.read_block, 0)

    def test_upper_list(self) -> None:
        # The first list ends below 9FFFh, whose block goes up to D000h, where the second list ends.
        with Machine(upper=True) as machine:
            machine.add("MAIN.COM", mezguld.assemble(END))
            machine.load("MAIN.COM")
            blocks = machine.blocks()
            self.assertEqual([it.segment for it in blocks if it.list == 1], [0x9FFF, 0xD000])
            self.assertEqual(
                [fields(it)[1:4] for it in blocks if it.list == 1], [(False, 8, 0x3000), (True, 0, 0x0FFF)]
            )
            self.assertEqual([it.list for it in blocks if it.last], [0, 1])
            machine.write(0xD000, 0, b"?")
            self.assertEqual((machine.blocks(), machine.blocks().destroyed), (blocks[:-1], 0xD000))
            machine.write(0x0102, 0, b"?")
            self.assertEqual((machine.blocks(), machine.blocks().destroyed), (blocks[:1], 0x0102))

    def test_many_blocks(self) -> None:
        # More headers than a call gives at once: each but the last is followed by the next one after a block of no
        # paragraph.
        with started(END) as machine:
            for at in range(1000):
                machine.write(0x2000 + at, 0, b"M\0\0\0\0")
            machine.write(0x23E8, 0, b"Z\0\0\0\0")
            first = machine.blocks()[1]
            machine.write(first.segment, 3, (0x2000 - first.segment - 1).to_bytes(2, "little"))
            machine.write(first.segment, 0, b"M")
            blocks = machine.blocks()
            self.assertEqual((len(blocks), blocks.destroyed, blocks[-1]), (1003, None, Block(0x23E8, True, 0, 0)))

    def test_code(self) -> None:
        with started("MOV AX,4C07h\nINT 21h\nDB 0Fh\n") as machine:
            found = machine.code(0x0103, 0x0100, 3)
            self.assertEqual(
                [(it.offset, it.data) for it in found],
                [(0x0100, b"\xb8\x07\x4c"), (0x0103, b"\xcd\x21"), (0x0105, b"\x0f")],
            )
            self.assertEqual([it.text for it in found], ["MOV AX,04C07h", "INT 021h", "DB"])
            self.assertEqual(
                repr(found[1]), "Instruction(segment=0x0103, offset=0x0103, data=b'\\xcd!', text='INT 021h')"
            )
            self.assertEqual((machine.code(0, 0, 0), len(machine.code(0x0103, 0xFFFE))), ([], 8))
            self.assertRaises(ValueError, machine.code, 0, 0, 0x1001)
            self.assertRaises(ValueError, machine.code, 0x10000, 0)


class Commands(unittest.TestCase):
    def test_answers(self) -> None:
        with started(END) as machine:
            self.assertEqual(machine.command("B 0103:0103"), b"ok\n")
            self.assertEqual(machine.command("G 64").splitlines()[0], b"break")
            self.assertEqual((machine.registers.cs, machine.registers.ip), (0x0103, 0x0103))

    def test_refused_lines(self) -> None:
        with started(END) as machine:
            before = machine.registers
            self.assertRaises(mezguld.CommandSyntax, machine.command, "no command")
            self.assertRaises(mezguld.CommandSyntax, machine.command, "C 0103:0103")
            for offset in range(16):
                machine.command(f"B 0103:{offset:04X}")
            self.assertRaises(mezguld.BreakpointsFull, machine.command, "B 0103:0010")
            self.assertEqual(machine.registers, before)

    def test_checked_run(self) -> None:
        with started(END) as machine, started(END) as plain:
            stopped, report = machine.check(100)
            self.assertEqual(stopped, plain.run(100))
            self.assertEqual(report.splitlines()[-1][:10], "errors: 0,")
            self.assertEqual(machine.registers, plain.registers)


class Refusals(unittest.TestCase):
    def test_new(self) -> None:
        self.assertRaises(mezguld.TooLarge, Machine, ems_pages=513)
        self.assertRaises(mezguld.TooLarge, Machine, xms_kib=15_361)
        self.assertRaises(mezguld.VariablesTooLong, Machine, variables=["X" * 32_767])
        Machine(ems_pages=512, xms_kib=15_360, variables=["X" * 32_766]).close()

    def test_add_and_load(self) -> None:
        machine = Machine()
        self.assertRaises(mezguld.NotLoaded, machine.run, 1)
        self.assertRaises(mezguld.NotLoaded, machine.output)
        self.assertRaises(mezguld.NotLoaded, machine.command, "R")
        self.assertRaises(mezguld.BadName, machine.add, "", b"\x90")
        self.assertRaises(mezguld.BadName, machine.add, "A" * 65, b"\x90")
        machine.add("A.COM", b"\xf4")
        self.assertRaises(mezguld.NameTwice, machine.add, "a.com", b"\x90")
        machine.add("BAD.COM", b"")
        machine.add("LONG.COM", bytes(65_279))
        self.assertRaises(mezguld.NotFound, machine.load, "B.COM")
        self.assertRaises(mezguld.BadFormat, machine.load, "LONG.COM")
        self.assertRaises(mezguld.TailTooLong, machine.load, "A.COM", "x" * 127)
        machine.load("A.COM", "x" * 126)
        self.assertRaises(mezguld.Started, machine.load, "A.COM")
        self.assertRaises(mezguld.Started, machine.add, "C.COM", b"\x90")
        self.assertEqual(machine.run(1), Stopped(Stop.HALTED, 0))

    def test_closed(self) -> None:
        machine = started(END)
        machine.close()
        machine.close()
        for name, call in CALLS.items():
            with self.subTest(name):
                self.assertRaises(mezguld.NoMachine, call, machine)
                self.assertRaisesRegex(mezguld.Error, "^the machine was closed$", call, machine)

    def test_texts(self) -> None:
        with self.assertRaises(mezguld.LineSyntax) as caught:
            mezguld.assemble("NOP\nNOPE\n")
        self.assertEqual(caught.exception.line, 2)
        self.assertRaises(mezguld.LineUnknown, mezguld.assemble, "JMP away\n")
        self.assertRaises(mezguld.LineTwice, mezguld.assemble, "a: NOP\na: NOP\n")
        self.assertRaises(mezguld.TooLong, mezguld.disassemble, bytes(65_279))
        self.assertRaises(ValueError, started(END).read, 65_536, 0, 1)


def refused(kind: type, call: object, *arguments: object) -> bool:
    """Whether a call raises this, and nothing else."""
    try:
        call(*arguments)
    except kind:
        return True
    return False


# A call of each method and property of a machine but `close`. Each can be made over a loaded machine.
CALLS = {
    "run": lambda machine: machine.run(3),
    "run_until": lambda machine: machine.run_until(3, [(1, 2)]),
    "run_to": lambda machine: machine.run_to(3, [Event.at(1, 2), Event.at_call(0x67)]),
    "check": lambda machine: machine.check(3),
    "steps": lambda machine: machine.steps,
    "registers": lambda machine: machine.registers,
    "read": lambda machine: machine.read(0x0100, 0, 16),
    "read_linear": lambda machine: machine.read_linear(0x1030, 16),
    "write_linear": lambda machine: machine.write_linear(0x30000, b"12345"),
    "write": lambda machine: machine.write(0x3000, 0, b"12345"),
    "output": lambda machine: machine.output(),
    "output from a byte on": lambda machine: machine.output(1),
    "output_count": lambda machine: machine.output_count,
    "open_input": lambda machine: machine.open_input(),
    "supply": lambda machine: [machine.open_input(), machine.supply(b"x")],
    "input_left": lambda machine: machine.input_left,
    "close_input": lambda machine: machine.close_input(),
    "registers that are set": lambda machine: setattr(machine, "registers", machine.registers),
    "command": lambda machine: machine.command("R"),
    "command G": lambda machine: machine.command("G 3"),
    "blocks": lambda machine: machine.blocks(),
    "vector": lambda machine: machine.vector(0x67),
    "expanded": lambda machine: machine.expanded(),
    "extended": lambda machine: machine.extended(),
    "read_page": lambda machine: refused(mezguld.NoPage, machine.read_page, 0, 0),
    "read_block": lambda machine: refused(mezguld.NoHandle, machine.read_block, 1),
    "findings": lambda machine: machine.findings(),
    "code": lambda machine: machine.code(0x0103, 0x0100, 3),
    "add": lambda machine: machine.add("LATE.COM", b"x"),
    "load": lambda machine: machine.load("MAIN.COM"),
}


class Errors(unittest.TestCase):
    KINDS = {**mezguld._REFUSALS, **mezguld._LINES}

    def test_each_has_its_status_and_a_text(self) -> None:
        for status, kind in self.KINDS.items():
            error = kind(5) if status in mezguld._LINES else kind()
            with self.subTest(kind.__name__):
                self.assertIsInstance(error, mezguld.Error)
                self.assertEqual(error.status, status)
                self.assertGreater(len(str(error)), 8)
                self.assertIn(kind.__name__, mezguld.__all__)
                again = pickle.loads(pickle.dumps(error))
                self.assertEqual((type(again), str(again), again.status), (kind, str(error), status))

    def test_all_names_are_there(self) -> None:
        public = {name for name, it in vars(mezguld).items() if isinstance(it, type) and issubclass(it, Exception)}
        self.assertEqual(public - set(mezguld.__all__), set())
        self.assertEqual([name for name in mezguld.__all__ if not hasattr(mezguld, name)], [])

    def test_an_unknown_status_is_an_error(self) -> None:
        with self.assertRaises(mezguld.Error) as caught:
            mezguld._check(99)
        self.assertEqual((type(caught.exception), caught.exception.status), (mezguld.Error, 99))
        self.assertIn("99", str(caught.exception))

    def test_a_caught_one_has_them(self) -> None:
        with self.assertRaises(mezguld.Error) as caught:
            Machine().run(1)
        self.assertEqual((caught.exception.status, str(caught.exception)), (14, "no program is loaded"))
        with self.assertRaises(mezguld.LineRefused) as caught:
            mezguld.assemble("NOP\nJMP away\n")
        self.assertEqual(
            (caught.exception.status, str(caught.exception)), (18, "line 2: it names a label that no line has")
        )


class NoCalls:
    """A library that nothing may call."""

    def __getattr__(self, name: str) -> object:
        def call(*_: object) -> int:
            raise AssertionError(f"{name} was called")

        return call


class WrongArguments(unittest.TestCase):
    """What is no argument is refused before any call of C."""

    # Neither a count nor a word; of wrong type; neither bytes nor a text; not even a text.
    NUMBERS = (-1, 2**64, -(2**63), 2**200)
    NO_NUMBERS = (1.0, "1", b"1", None, [1], float("nan"))
    NO_BYTES = (144, 0, -1, True, 1.5, None, [1, 2], (1,), {1}, object())

    def refuses(self, kinds: object, call: object, *arguments: object) -> None:
        with self.subTest(repr(arguments)), mock.patch.object(mezguld, "_library", NoCalls()):
            self.assertRaises(kinds, call, *arguments)

    def test_sizes(self) -> None:
        for name in ("ems_pages", "xms_kib"):
            for number in self.NUMBERS:
                self.refuses(ValueError, lambda number: Machine(**{name: number}), number)
            for other in self.NO_NUMBERS:
                self.refuses(TypeError, lambda other: Machine(**{name: other}), other)
        for number in (2, -1, 2**32, 2**64):
            self.refuses(ValueError, lambda number: Machine(upper=number), number)
        for other in self.NO_NUMBERS:
            self.refuses(TypeError, lambda other: Machine(upper=other), other)
        for number in (513, 2**32 - 1, 2**32, 2**80):
            self.assertRaises(mezguld.TooLarge, Machine, ems_pages=number)

    def test_variables(self) -> None:
        for other in ("PATH=C:", "", b"PATH=C:", b"", bytearray(b"A=B"), 5, None, [5], [None], ["A=B", 1], [["A=B"]]):
            self.refuses(TypeError, lambda other: Machine(variables=other), other)
        for other in ([""], ["A=B", b""], ["A=B\0C=D"], ["\u1234"]):
            self.refuses(ValueError, lambda other: Machine(variables=other), other)
        Machine(variables=(it for it in ("A=B", b"C=D", bytearray(b"E=F")))).close()

    def test_steps(self) -> None:
        with started(END) as machine:
            for call in (
                machine.run,
                machine.check,
                lambda steps: machine.run_until(steps, []),
                lambda steps: machine.run_to(steps, []),
            ):
                for number in self.NUMBERS:
                    self.refuses(ValueError, call, number)
                for other in self.NO_NUMBERS:
                    self.refuses(TypeError, call, other)
            self.assertEqual(machine.steps, 0)
            self.assertEqual(machine.run(MOST), Stopped(Stop.EXITED, 7))

    def test_addresses(self) -> None:
        with started(END) as machine:
            for number in (-1, 0x10000, 2**16 + 5, 2**64, -(2**64)):
                self.refuses(ValueError, machine.read, number, 0, 1)
                self.refuses(ValueError, machine.read, 0, number, 1)
                self.refuses(ValueError, machine.write, number, 0, b"x")
                self.refuses(ValueError, machine.write, 0, number, b"x")
                self.refuses(ValueError, machine.run_until, 5, [(0, 0), (number, 0)])
                self.refuses(ValueError, machine.run_until, 5, [(0, number)])
            for other in self.NO_NUMBERS:
                self.refuses(TypeError, machine.read_linear, other, 1)
                self.refuses(TypeError, machine.read_linear, 0, other)
                self.refuses(TypeError, machine.write_linear, other, b"x")
                self.refuses(TypeError, machine.read, other, 0, 1)
                self.refuses(TypeError, machine.read, 0, other, 1)
                self.refuses(TypeError, machine.write, other, 0, b"x")
                self.refuses(TypeError, machine.write, 0, other, b"x")
                self.refuses(TypeError, machine.run_until, 5, [(other, 0)])
                self.refuses(TypeError, machine.run_until, 5, [(0, other)])
            for other in (5, None, [5], [None], 1.5):
                self.refuses(TypeError, machine.run_until, 5, other)
            for other in ([(1,)], [(1, 2, 3)], [()], ["123"]):
                self.refuses(ValueError, machine.run_until, 5, other)
            self.refuses(TypeError, machine.run_until, 5, ["12"])

    def test_events(self) -> None:
        with started(END) as machine:
            for number in (-1, 2**32, 2**64, -(2**64)):
                for event in (
                    Event.at(number, 0),
                    Event.at(0, number),
                    Event.at_address(number),
                    Event.at_change(number),
                    Event.at_change(0, number),
                    Event.at_call(number),
                    Event.at_function(number, 0),
                    Event.at_function(0, number),
                ):
                    self.refuses(ValueError, machine.run_to, 5, [Event.at(0, 0), event])
            self.refuses(ValueError, machine.run_to, 5, [Event.at_call(256)])
            self.refuses(ValueError, machine.run_to, 5, [Event.at_function(0x21, 256)])
            self.refuses(ValueError, machine.run_to, 5, [Event.at(0x10000, 0)])
            for other in self.NO_NUMBERS:
                self.refuses(TypeError, machine.run_to, 5, [Event.at(0, other)])
                self.refuses(TypeError, machine.run_to, 5, [Event.at_change(other)])
            for other in (5, None, [5], [None], 1.5, [(0, 0)], ["at"], [Event], [Event(0)], [tuple(Event.at(0, 0))]):
                self.refuses(TypeError, machine.run_to, 5, other)
            self.assertEqual(machine.steps, 0)

    def test_counts(self) -> None:
        with started(END) as machine:
            for number in (-1, -(2**64), 65_537, 2**31, 2**62, 2**64 - 1, 2**64, 2**200):
                self.refuses(ValueError, machine.read, 0, 0, number)
            for other in self.NO_NUMBERS:
                self.refuses(TypeError, machine.read, 0, 0, other)
            self.assertEqual(len(machine.read(0x0100, 5, 65_536)), 65_536)

    def test_registers(self) -> None:
        with started(END) as machine:
            before = machine.registers
            for at in range(14):
                for number in (-1, 0x10000, *self.NUMBERS):
                    self.refuses(ValueError, setattr, machine, "registers", (*before[:at], number, *before[at + 1 :]))
                for other in self.NO_NUMBERS:
                    self.refuses(TypeError, setattr, machine, "registers", (*before[:at], other, *before[at + 1 :]))
            for other in (5, None, (), before[:13], (*before, 0)):
                self.refuses(TypeError, setattr, machine, "registers", other)
            self.assertEqual(machine.registers, before)

    def test_starts_of_output_and_interrupts(self) -> None:
        with started(END) as machine:
            for number in (*self.NUMBERS, 256):
                self.refuses(ValueError, machine.vector, number)
            for other in self.NO_NUMBERS:
                self.refuses(TypeError, machine.vector, other)
            for number in self.NUMBERS:
                self.refuses(ValueError, machine.output, number)
            for other in self.NO_NUMBERS:
                self.refuses(TypeError, machine.output, other)

    def test_handles(self) -> None:
        with started(END) as machine:
            for number in (*self.NUMBERS, 0x10000):
                self.refuses(ValueError, machine.read_page, number, 0)
                self.refuses(ValueError, machine.read_page, 0, number)
                self.refuses(ValueError, machine.read_page, 0, 0, 0, number)
                self.refuses(ValueError, machine.read_block, number)
            for number in self.NUMBERS:
                self.refuses(ValueError, machine.read_page, 0, 0, number)
                self.refuses(ValueError, machine.read_block, 1, number)
                self.refuses(ValueError, machine.read_block, 1, 0, number)
            for number in (0x4001, 2**31, 2**62):
                self.refuses(ValueError, machine.read_page, 0, 0, 0, number)
            for number in (0xFFFF * 1024 + 1, 2**32, 2**62):
                self.refuses(ValueError, machine.read_block, 1, 0, number)
            for other in self.NO_NUMBERS:
                self.refuses(TypeError, machine.read_page, other, 0)
                self.refuses(TypeError, machine.read_page, 0, other)
                self.refuses(TypeError, machine.read_page, 0, 0, other)
                self.refuses(TypeError, machine.read_block, other)
                self.refuses(TypeError, machine.read_block, 1, other)
                if other is not None:
                    self.refuses(TypeError, machine.read_page, 0, 0, 0, other)
                    self.refuses(TypeError, machine.read_block, 1, 0, other)

    def test_more_is_a_truth_value(self) -> None:
        machine = Machine()
        machine.add("MAIN.COM", b"\xf4")
        for number in (2, -1, 2**64):
            self.refuses(ValueError, lambda number: machine.load("MAIN.COM", more=number), number)
        for other in self.NO_NUMBERS:
            self.refuses(TypeError, lambda other: machine.load("MAIN.COM", more=other), other)
        machine.load("MAIN.COM", more=True)

    def test_bytes(self) -> None:
        machine = Machine()
        machine.add("MAIN.COM", b"\xf4")
        for other in (*self.NO_BYTES, "text", ""):
            self.refuses(TypeError, machine.add, "A", other)
            self.refuses(TypeError, machine.load, "MAIN.COM", "", other)
            self.refuses(TypeError, machine.write, 0x100, 0, other)
            self.refuses(TypeError, machine.supply, other)
            self.refuses(TypeError, mezguld.disassemble, other)
        for other in self.NO_BYTES:
            self.refuses(TypeError, machine.add, other, b"")
            self.refuses(TypeError, machine.load, other)
            self.refuses(TypeError, machine.load, "MAIN.COM", other)
            self.refuses(TypeError, machine.command, other)
            self.refuses(TypeError, mezguld.assemble, other)
        for call in (
            lambda text: machine.add(text, b""),
            machine.load,
            lambda text: machine.load("MAIN.COM", text),
            machine.command,
        ):
            self.refuses(ValueError, call, "\u1234")
        machine.load("MAIN.COM")

    def test_what_has_a_buffer_is_bytes(self) -> None:
        with started(END) as machine:
            for data in (
                b"\x90\x91",
                bytearray(b"\x90\x91"),
                memoryview(b"\x90?\x91?")[::2],
                (ctypes.c_ubyte * 2)(0x90, 0x91),
            ):
                machine.write(0x3000, 0, bytes(2))
                machine.write(0x3000, 0, data)
                self.assertEqual(machine.read(0x3000, 0, 3), b"\x90\x91\x00")

    def test_a_machine_is_not_pickled(self) -> None:
        with started(END) as machine:
            self.assertRaises(TypeError, pickle.dumps, machine)
            self.assertEqual(machine.run(100).why, Stop.EXITED)


class Copies(unittest.TestCase):
    def test_a_copy_goes_on_as_its_original(self) -> None:
        with started(ECHO, input=b"abcdef") as machine:
            for steps in (0, 1, 7, 20, 1000):
                machine.run(steps)
                for call in (copy.copy, copy.deepcopy):
                    with call(machine) as other:
                        self.assertEqual(
                            (other.registers, other.steps, other.output()),
                            (machine.registers, machine.steps, machine.output()),
                        )
                        self.assertEqual(other.run(10_000).why, Stop.INPUT_ENDED)
                        self.assertEqual(other.output(), b"abcdef")
            self.assertEqual(machine.run(10_000).why, Stop.INPUT_ENDED)

    def test_neither_sees_what_the_other_does(self) -> None:
        with started(ECHO, input=b"abc") as machine, copy.copy(machine) as other:
            machine.write(0x3000, 5, b"one")
            other.write(0x3000, 5, b"two")
            other.run(10_000)
            self.assertEqual((machine.read(0x3000, 5, 3), other.read(0x3000, 5, 3)), (b"one", b"two"))
            self.assertEqual((machine.steps, machine.output(), other.output()), (0, b"", b"abc"))

    def test_a_copy_outlives_its_original(self) -> None:
        machine = started(END)
        other = copy.copy(machine)
        machine.close()
        self.assertRaises(mezguld.NoMachine, copy.copy, machine)
        self.assertEqual(other.run(100), Stopped(Stop.EXITED, 7))
        other.close()
        self.assertRaises(mezguld.NoMachine, other.run, 1)

    def test_what_a_machine_has_before_it_runs(self) -> None:
        with Machine(ems_pages=3, xms_kib=7, variables=["A=B"]) as machine:
            machine.add("MAIN.COM", mezguld.assemble(END))
            with copy.copy(machine) as other:
                other.add("OTHER.COM", mezguld.assemble(END))
                other.load("MAIN.COM")
                self.assertEqual(other.run(100), Stopped(Stop.EXITED, 7))
            self.assertRaises(mezguld.NotLoaded, machine.run, 1)
            self.assertRaises(mezguld.NotFound, machine.load, "OTHER.COM")
            machine.load("MAIN.COM")

    def test_breakpoints_and_attributes_are_copied(self) -> None:
        class Named(Machine):
            name = "of the class"

        machine = Named()
        machine.name = "its own"
        machine.add("MAIN.COM", mezguld.assemble(END))
        machine.load("MAIN.COM")
        machine.command("B 0103:0103")
        other = copy.copy(machine)
        self.assertEqual((type(other), other.name), (Named, "its own"))
        machine.command("BC 0103:0103")
        self.assertEqual(other.command("BL"), b"0103:0103\n")
        self.assertEqual(machine.command("BL"), b"")

    def test_a_loop_of_snapshots(self) -> None:
        # (Each round begins where the snapshot was taken.)
        with started(ECHO, input=b"ab") as machine:
            machine.run(5)
            for _ in range(50):
                with copy.copy(machine) as other:
                    other.run(1000)
                    self.assertEqual(other.output(), b"ab")
            self.assertEqual(machine.steps, 5)


def in_threads(*calls: object) -> list:
    """What the calls return, each made on a thread of its own: results and exceptions."""
    results = [None] * len(calls)

    def one(at: int) -> None:
        try:
            results[at] = calls[at]()
        except BaseException as error:  # pylint: disable=broad-except
            results[at] = error

    threads = [threading.Thread(target=one, args=(at,)) for at in range(len(calls))]
    for thread in threads:
        thread.start()
    for thread in threads:
        thread.join()
    return results


class Threads(unittest.TestCase):
    STEPS = 20_000_000

    def test_each_call_waits_for_a_run(self) -> None:
        for name, call in CALLS.items():
            with self.subTest(name), started(LOOP) as machine, started(LOOP) as plain:
                plain.run(self.STEPS)
                wanted = in_threads(lambda: call(plain))[0]
                begun = threading.Event()

                def later() -> object:
                    begun.wait()
                    time.sleep(0.01)
                    return call(machine)

                def run() -> Stopped:
                    begun.set()
                    return machine.run(self.STEPS)

                stopped, *found = in_threads(run, later)
                self.assertEqual(stopped, Stopped(Stop.STEPS, 0))
                self.assertEqual([repr(it) for it in found], [repr(wanted)])

    def test_four_threads_at_each_call(self) -> None:
        for name, call in CALLS.items():
            with self.subTest(name), started(LOOP) as machine:

                def often() -> list:
                    return [
                        in_threads(lambda: call(machine))[0] if turn == 0 else self.tried(call, machine)
                        for turn in range(100)
                    ]

                for results in in_threads(often, often, often, often):
                    self.assertIsInstance(results, list)
                    for result in results:
                        self.assertNotIsInstance(result, mezguld.NoMachine)
                        self.assertTrue(
                            not isinstance(result, BaseException) or isinstance(result, mezguld.Started), repr(result)
                        )
                if name in ("run", "run_until", "check", "command G"):
                    self.assertEqual(machine.steps, 4 * 100 * 3)

    def tried(self, call: object, machine: Machine) -> object:
        try:
            return call(machine)
        except mezguld.Error as error:
            return error

    def test_calls_of_all_kinds_together(self) -> None:
        with started(LOOP) as machine:

            def mixed(first: int) -> None:
                calls = [*CALLS.values()]
                for turn in range(200):
                    self.tried(calls[(first + turn) % len(calls)], machine)

            self.assertEqual(in_threads(*(lambda first=first: mixed(3 * first) for first in range(4))), [None] * 4)
            self.assertEqual(machine.command("R").count(b"="), 14)

    def test_a_command_keeps_its_answer(self) -> None:
        with started(LOOP) as machine:
            answers = {line: machine.command(line) for line in ("M", "D 0103:0100", "U 0103:0100", "X")}

            def asked(line: str) -> set:
                return {machine.command(line) for _ in range(300)}

            self.assertEqual(
                in_threads(*(lambda line=line: asked(line) for line in answers)),
                [{answer} for answer in answers.values()],
            )

    def test_close_waits(self) -> None:
        for name in ("run", "run_until", "check", "command G"):
            machine = started(LOOP)
            calls = {
                "run": lambda: machine.run(self.STEPS).why,
                "run_until": lambda: machine.run_until(self.STEPS, []).why,
                "check": lambda: machine.check(1_000_000)[0].why,
                "command G": lambda: machine.command("G 1000000")[:5],
            }
            begun = threading.Event()

            def close() -> None:
                begun.wait()
                time.sleep(0.01)
                machine.close()

            def run() -> object:
                begun.set()
                return calls[name]()

            with self.subTest(name):
                self.assertIn(in_threads(run, close)[0], (Stop.STEPS, b"steps"))
                self.assertRaises(mezguld.NoMachine, machine.run, 1)

    def test_close_by_four_threads(self) -> None:
        for _ in range(20):
            machine = started(END)
            self.assertEqual(in_threads(*[machine.close] * 4), [None] * 4)

    def test_garbage_is_collected_on_another_thread(self) -> None:
        class Owner:
            """Something in a circle, which only the collector frees."""

        def make() -> None:
            owner = Owner()
            owner.owner, owner.machine = owner, started(END)

        gc.collect()
        with started(LOOP) as machine:
            for _ in range(10):
                in_threads(make)
            self.assertEqual(in_threads(lambda: machine.run(self.STEPS).why, gc.collect, gc.collect)[0], Stop.STEPS)
            self.assertEqual(machine.steps, self.STEPS)

    def test_a_refused_run_keeps_no_machine(self) -> None:
        gc.collect()
        gc.disable()
        try:
            for call in (
                lambda machine: machine.run(1_000_000),
                lambda machine: machine.command("G 1000000"),
                lambda machine: machine.check(1_000_000),
            ):
                machine = Machine()
                self.assertRaises(mezguld.NotLoaded, call, machine)
                lost = weakref.ref(machine)
                del machine
                self.assertIsNone(lost())
        finally:
            gc.enable()

    @unittest.skipUnless(hasattr(os, "fork"), "no fork")
    def test_a_forked_child_does_not_wait_for_a_lost_thread(self) -> None:
        machine = started(LOOP)
        running = threading.Thread(target=lambda: machine.run(4 * self.STEPS))
        running.start()
        time.sleep(0.01)
        child = os.fork()
        if child == 0:
            signal.alarm(20)
            machine.__del__()
            os._exit(0)
        self.assertEqual(os.waitpid(child, 0)[1], 0)
        running.join()
        self.assertEqual(machine.steps, 4 * self.STEPS)


class Slices(unittest.TestCase):
    """A run in slices of whatever size is the run."""

    SIZES = (1, 2, 3, 7, 16, 64)

    def sliced(self, size: int) -> object:
        return mock.patch.multiple(mezguld, _FIRST_SLICE=size, _LONGEST_SLICE=size)

    def seen(self, machine: Machine) -> tuple:
        return machine.steps, machine.registers, machine.output(), machine.read(0x0103, 0, 0x10000)

    def test_runs(self) -> None:
        for text, most in ((TURNS, 60), (END, 6), ("HLT\n", 2), (ECHO, 30), ("DB 0Fh\n", 2)):
            for steps in range(most):
                with started(text, input=b"ab") as whole:
                    wanted = whole.run(steps), self.seen(whole)
                for size in self.SIZES:
                    with self.subTest(text=text, steps=steps, size=size), self.sliced(size), started(
                        text, input=b"ab"
                    ) as machine:
                        self.assertEqual((machine.run(steps), self.seen(machine)), wanted)

    def test_runs_to_breakpoints(self) -> None:
        offsets = [*range(0x100, 0x11C)]
        sets = [[(0x0103, offset)] for offset in offsets] + [
            [(0xF000, 0x84)],
            [(0x0103, offset) for offset in offsets],
            [(0x0104, 0xF0)],
            [],
        ]
        for points in sets:
            for turns in (1, 3):
                for steps in (0, 1, 2, 5, 23, 40):
                    with started(TURNS) as whole:
                        wanted = [whole.run_until(steps, points) for _ in range(turns)], self.seen(whole)
                    for size in (1, 2, 5):
                        with self.subTest(points=points, steps=steps, size=size), self.sliced(size), started(
                            TURNS
                        ) as machine:
                            self.assertEqual(
                                ([machine.run_until(steps, points) for _ in range(turns)], self.seen(machine)), wanted
                            )

    def test_the_command_g(self) -> None:
        odd = ["G 00000001", "G FFFFFFFFF", "G 5 5", "G x", " G 2"]
        for lines in (
            ["G"],
            ["g 5", "G 0"],
            ["B 0103:010A", "G", "G 3", "G"],
            ["B 0103:0100", "G 1", "G 64", "G"],
            odd,
        ):
            for text in (TURNS, END):
                answers = []
                for size in (1 << 30, 1, 2, 5, 1000):
                    with self.sliced(size), mock.patch.object(mezguld, "_GO_STEPS", "200"), started(text) as machine:
                        # (The first goes to the library whole.)
                        call = machine._answered if size == 1 << 30 else machine.command
                        shown = (
                            [line.replace("G", "G 200") if line == "G" else line for line in lines]
                            if size == 1 << 30
                            else lines
                        )
                        answers.append(([self.answered(call, line) for line in shown], self.seen(machine)))
                self.assertEqual(answers[1:], answers[:1] * 4)

    def answered(self, call: object, line: str) -> object:
        try:
            return call(line.encode())
        except mezguld.Error as error:
            return repr(error)

    def test_slices_grow_and_shrink(self) -> None:
        counts = []

        def run(count: int) -> tuple:
            counts.append(count)
            time.sleep(0.2 if len(counts) in (5, 6) else 0)
            return None, True

        mezguld._sliced(40_000_000, run, lambda: False)
        self.assertEqual(sum(counts), 40_000_000)
        self.assertEqual(counts[:5], [mezguld._FIRST_SLICE << at for at in range(5)])
        self.assertLess(counts[6], counts[5] / 3)


class Interrupts(unittest.TestCase):
    """Ctrl-C is served within a quarter of a second."""

    # These steps take some seconds.
    CHECKED = 1_000_000_000

    def interrupted(self, call: object) -> None:
        sent = []

        def send() -> None:
            time.sleep(0.3)
            sent.append(time.monotonic())
            os.kill(os.getpid(), signal.SIGINT)

        sender, ends = threading.Thread(target=send), []
        sender.start()
        with self.assertRaises(KeyboardInterrupt):
            call()
            ends.append(time.monotonic())
            sender.join()
        self.assertLess(time.monotonic() - sent[0], 0.25)
        self.assertEqual(ends, [], "the call ended before Ctrl-C came")
        sender.join()

    def test_runs(self) -> None:
        with started(LOOP) as machine:
            self.interrupted(lambda: machine.run(MOST))
            # It stands after some of its steps, and goes on.
            steps = machine.steps
            self.assertGreater(steps, 0)
            time.sleep(0.1)
            self.assertEqual(machine.steps, steps)
            self.interrupted(lambda: machine.run_until(MOST, [(0, 0)]))
            self.interrupted(lambda: machine.command("G FFFFFFFF"))
            self.assertEqual(machine.run(5), Stopped(Stop.STEPS, 0))
            with started(LOOP) as other:
                other.run(machine.steps)
                self.assertEqual(other.registers, machine.registers)

    def test_a_checked_run(self) -> None:
        with started(LOOP) as machine:
            self.interrupted(lambda: machine.check(self.CHECKED))
            # It is made to its end, and the next call waits for that.
            self.assertEqual(machine.steps, self.CHECKED)
            self.assertEqual(machine.check(5)[0], Stopped(Stop.STEPS, 0))

    def test_the_end_of_a_with_block(self) -> None:
        for call in (
            lambda machine: machine.run(MOST),
            lambda machine: machine.check(self.CHECKED),
            lambda machine: machine.command("G FFFFFFFF"),
        ):
            machines = []

            def whole() -> None:
                with started(LOOP) as machine:
                    machines.append(machine)
                    call(machine)

            self.interrupted(whole)
            begin = time.monotonic()
            self.assertRaises(mezguld.NoMachine, machines[0].run, 5)
            self.assertLess(time.monotonic() - begin, 0.25)
            for ended in machines[0]._left:
                ended.wait()
            self.assertIsNone(machines[0]._handle.value)

    def test_slow_steps(self) -> None:
        """Some fast steps, and then calls that each go through a list of thousands of blocks."""
        text = (
            "MOV SP,400h\nMOV BX,50h\nMOV AH,4Ah\nINT 21h\nMOV CX,0FFFFh\nnext: LOOP next\n"
            "more: MOV AH,48h\nMOV BX,1\nINT 21h\nJNC more\nagain: MOV AH,48h\nINT 21h\nJMP again\n"
        )
        with started(text) as machine:
            self.interrupted(lambda: machine.run(MOST))

    def test_a_call_that_waits(self) -> None:
        with started(LOOP) as machine:
            over = threading.Event()

            def run() -> None:
                while not over.is_set():
                    machine.run(mezguld._FEW)

            with machine._lock:
                holder = threading.Thread(target=run)
                holder.start()
                self.interrupted(lambda: in_time(machine))
            over.set()
            holder.join()

    def test_other_exceptions_of_signals(self) -> None:
        class Late(Exception):
            """Time is over."""

        def handler(*_: object) -> None:
            raise Late

        old = signal.signal(signal.SIGALRM, handler)
        try:
            with started(LOOP) as machine:
                signal.setitimer(signal.ITIMER_REAL, 0.1)
                self.assertRaises(Late, machine.run, MOST)
        finally:
            signal.signal(signal.SIGALRM, old)


def in_time(machine: Machine) -> None:
    """A run on the main thread, whose thread waits for the machine."""
    machine.run(MOST)


class Texts(unittest.TestCase):
    def test_any_text(self) -> None:
        self.assertEqual(mezguld.assemble("NOP ; \u1234 \U0001F600 \udc80 \x00\n"), b"\x90")
        self.assertEqual(mezguld.assemble("DB '\u00e9'\n"), "\u00e9".encode())
        self.assertEqual(mezguld.assemble(bytearray(b"NOP\n")), b"\x90")

    def test_a_listing_assembles(self) -> None:
        program = bytes(range(256)) * 16
        self.assertEqual(mezguld.assemble(mezguld.disassemble(program)), program)


if __name__ == "__main__":
    unittest.main()
