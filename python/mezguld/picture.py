"""What a program did with memory, as data and as a page: `python -m mezguld picture`.

`record` runs a program twice with the same files, options and input. The first run is under the memory checker and
gives the findings. The second one stops at the entries of the services and keeps the lists `M`, `P` and `X` of the
debugger as they are after each call that may change them, and at the steps of the findings. `data` gives all that as
the JSON that docs/picture.md describes, and `page` puts it into one HTML file that needs no network.
"""
from __future__ import annotations

import contextlib
import ctypes
import functools
import json
import os
import shlex
import stat
import struct
from typing import Any, Callable, Iterator, NamedTuple, Optional, Sequence, Tuple

from . import Machine, Stop, __version__, _library, _Point, _Registers, _Stopped, _check
from . import reports

__all__ = ["Options", "Program", "data", "page", "record", "write"]

FORMAT = 2
# The entries of the services: a program that calls one is there before the service acts.
DIVIDE, TERMINATE, DOS, EXPANDED, EXTENDED = (
    (0xF000, 0x0000),
    (0xF000, 0x0080),
    (0xF000, 0x0084),
    (0xF100, 0x0020),
    (0xF000, 0x0400),
)
ENTRIES = (DIVIDE, TERMINATE, DOS, EXPANDED, EXTENDED)
NAMES = {
    DOS: {
        0x00: "Terminate Program",
        0x31: "Keep Program",
        0x48: "Allocate Memory",
        0x49: "Free Allocated Memory",
        0x4A: "Set Memory Block Size",
        0x4B: "Load Program",
        0x4C: "End Program",
        0x58: "Allocation Strategy, Upper-Memory Link",
    },
    EXPANDED: {
        0x43: "Allocate Pages",
        0x44: "Map/Unmap Handle Page",
        0x45: "Deallocate Pages",
        0x47: "Save Page Map",
        0x48: "Restore Page Map",
        0x4E: "Get/Set Page Map",
        0x50: "Map/Unmap Multiple Handle Pages",
        0x51: "Reallocate Pages",
        0x53: "Get/Set Handle Name",
    },
    EXTENDED: {
        0x01: "Request High Memory Area",
        0x02: "Release High Memory Area",
        0x03: "Global Enable A20",
        0x04: "Global Disable A20",
        0x05: "Local Enable A20",
        0x06: "Local Disable A20",
        0x09: "Allocate Extended Memory Block",
        0x0A: "Free Extended Memory Block",
        0x0C: "Lock Extended Memory Block",
        0x0D: "Unlock Extended Memory Block",
        0x0F: "Reallocate Extended Memory Block",
        0x10: "Request Upper Memory Block",
        0x11: "Release Upper Memory Block",
        0x12: "Reallocate Upper Memory Block",
    },
}
TITLES = {DOS: "INT 21h", EXPANDED: "INT 67h", EXTENDED: "XMS"}
# The lists that each service may change.
LISTS = {DIVIDE: "M", TERMINATE: "M", DOS: "M", EXPANDED: "P", EXTENDED: "X"}
CARRY = 1
# How many calls wait at most.
MOST_WAITING = 256
# How many changes of a list are kept, of texts of at most so many bytes.
MOST_KNOWN, MOST_KNOWN_BYTES = 4096, 2048
# How many lines are tried by themselves.
FEW_LINES, LINE_FEED = 4, 10
# The lists, and their places in a moment.
LISTED, FIRST_LIST = "MPX", 6
PLACES = {"M": 6, "P": 7, "X": 8}
NEVER = 2**64
VALUES, PAIR = struct.Struct("<IIQ14H").unpack_from, struct.Struct("<HH").unpack_from
# A record of more moments than this, or of more bytes as JSON (reckoned), is thinned: so a page has less than 4 MB.
MOST_MOMENTS, MOST_SIZE = 24_000, 3_700_000
# Of so many starts and ends of processes each is shown, however many calls there are.
MOST_PROCESSES = MOST_MOMENTS // 4
# About how many bytes a process has as JSON.
PROCESS_SIZE = 110
# Why a run that goes on has stopped, and how a step stops that was made.
GOES_ON, ACTED = (Stop.STEPS.value, Stop.BREAKPOINT.value), (Stop.STEPS.value, Stop.EXITED.value)
AT_ONCE = ctypes.PyDLL(_library._name, handle=_library._handle)  # pylint: disable=protected-access
COLUMNS = ("step", "name", "caller", "process", "text", "refused", "M", "P", "X")


class Program(NamedTuple):
    """A file that the run gets: its name, as function 4Bh finds it, and its bytes."""

    name: bytes
    content: bytes


class Options(NamedTuple):
    """The options of a run, as those of `dm check`: the limit of steps, pages of expanded memory, KiB of extended
    memory, whether DOS has upper memory, the command tail and the console's input."""

    steps: int = 100_000_000
    ems: int = 64
    xms: int = 1024
    upper: bool = False
    tail: bytes = b""
    input: bytes = b""


@functools.lru_cache(256)
def shown(name: bytes) -> str:
    """Bytes as a text that can be read: control characters and bytes that are no text as escapes."""
    text = name.decode("utf-8", "backslashreplace")
    return "".join(it if it.isprintable() else it.encode("unicode_escape").decode("ascii") for it in text)


def loaded(programs: list[Program], options: Options) -> Machine:
    """A machine with the first program loaded. The errors are those of `Machine`, `Machine.add` and `Machine.load`."""
    machine = Machine(ems_pages=options.ems, xms_kib=options.xms, upper=options.upper)
    for name, content in programs:
        machine.add(name, content)
    machine.load(programs[0].name, options.tail, options.input)
    return machine


# ---- the checker's report


class Report(NamedTuple):
    """What the checker found: its findings in their order, how many there are in all, and how the run ended. The
    members are those of `dm check --json`; each finding has besides how often it came again (`more`), and the step
    of the last time (`last`)."""

    lines: list[str]
    findings: list[dict[str, Any]]
    summary: dict[str, int]
    end: dict[str, Any]


def report_of(lines: list[str], code: int) -> Report:
    """The report of a checked run by its lines, and the exit code of a program that has ended."""
    found: dict[str, dict[str, Any]] = {}
    summary, end = {"errors": 0, "notes": 0, "omitted": 0}, {}
    for it in reports.objects(lines, code):
        kind = it["type"]
        if kind in ("error", "note"):
            found[key_of(it)] = {**it, "more": 0, "last": it["step"]}
        elif kind == "again":
            found[key_of(it)].update(more=it["more"], last=it["last"])
        elif kind == "omitted":
            summary["omitted"] = it["findings"]
        elif kind == "summary":
            summary.update(errors=it["errors"], notes=it["notes"])
        else:
            end = it
    text = f"ended with code {code}" if end["type"] == "exited" else f"stopped: {end['reason']}"
    return Report(lines, list(found.values()), summary, {**end, "text": text})


def key_of(finding: dict[str, Any]) -> str:
    """What a finding and the line about its further occurrences have alike."""
    return json.dumps([value for name, value in finding.items() if name not in ("type", "more", "last")])


def site_of(finding: dict[str, Any]) -> str:
    """Where in its code the program performed the step of a finding, as the callers of calls are told."""
    return f"{'before ' if finding['before'] else ''}{finding['at']}"


# ---- a machine that is looked at often


def untyped(name: str, *arguments: Any) -> Callable[[], int]:
    """A call of the library with arguments which ctypes has made, whose types it does not look at: that takes half
    the time. Other threads run only in a call that may be long."""
    function = (_library if name == "run_until" else AT_ONCE)[f"mezguld_{name}"]
    function.restype = ctypes.c_uint32
    return functools.partial(function, *arguments)


# Where a call came from: segment and offset after it, and whether an interrupt's instruction is before that.
Back = Tuple[int, int, bool]
NOWHERE: Back = (0, 0, False)


def caller_of(back: Back) -> str:
    """The caller as a text: the instruction of the interrupt, if it was one. (That has two bytes; a far call has
    others.)"""
    segment, offset, is_interrupt = back
    return f"{segment:04X}:{(offset - 2) & 0xFFFF:04X}" if is_interrupt else f"before {segment:04X}:{offset:04X}"


class _Seen(ctypes.Structure):
    """What calls of the library write: a stop, the steps so far, and the registers."""

    _fields_ = [("stopped", _Stopped), ("steps", ctypes.c_uint64), ("registers", _Registers)]


# The values of what is seen, in their order: why the run stopped, the exit code, the steps, and the registers.
Values = Tuple[int, ...]
WHY, STEPS, AX, BX, CX, DX, SP, BP, SI, DI, CS, DS, ES, SS, IP, FLAGS = 0, 2, *range(3, 17)


class QuickMachine:
    """A machine, by calls of the library that take little time: what they are given is made once, and calls that
    follow one another are made together. Only one thread uses it."""

    def __init__(self, machine: Machine) -> None:
        self.machine, self._handle = machine, machine._handle  # pylint: disable=protected-access
        self._seen, self._limit, self._wanted = _Seen(), ctypes.c_uint64(), ctypes.c_size_t()
        self._points, self._lines = (_Point * len(ENTRIES))(*ENTRIES), [
            ctypes.create_string_buffer(it.encode("ascii")) for it in LISTED
        ]
        # (What is made here points to the objects above.)
        seen, count = self._seen, ctypes.c_size_t.from_param
        self._run = untyped("run", self._handle, ctypes.c_uint64.from_param(1), ctypes.byref(seen))
        self._run_until = untyped(
            "run_until", self._handle, self._limit, ctypes.byref(self._points), count(len(ENTRIES)), ctypes.byref(seen)
        )
        self._ask_steps = untyped("steps", self._handle, ctypes.byref(seen, _Seen.steps.offset))
        self._ask_registers = untyped("registers", self._handle, ctypes.byref(seen, _Seen.registers.offset))
        lines = zip(LISTED, self._lines)
        self._commands = {
            it: untyped("command", self._handle, ctypes.byref(line), count(1), ctypes.byref(self._wanted))
            for it, line in lines
        }
        self._few = ctypes.create_string_buffer(64)
        self._read, self._to_few, self._sizes = (
            untyped("read", self._handle),
            ctypes.byref(self._few),
            {it: count(it) for it in (1, 4, 64)},
        )
        self._make_room(1 << 16)

    def _make_room(self, size: int) -> None:
        """Room for an answer."""
        self._room, self._size = ctypes.create_string_buffer(size), size
        self._answer = untyped(
            "answer",
            self._handle,
            ctypes.byref(self._room),
            ctypes.c_size_t.from_param(size),
            ctypes.byref(self._wanted),
        )

    def now(self) -> Values:
        """The steps so far, and the registers."""
        _check(self._ask_steps() or self._ask_registers())
        return VALUES(self._seen)

    def run_until(self, steps: int) -> Values:
        """At most so many steps, up to the entry of a service; why the run stopped, and the steps so far and the
        registers then."""
        self._limit.value = steps
        status = self._run_until() or self._ask_steps() or self._ask_registers()
        if status:
            _check(status)
        return VALUES(self._seen)

    def back(self, before: Values, is_interrupt: bool) -> Back:
        """Where the call came from, at whose service's entry a run has stopped: the stack has it."""
        read, few, sizes = self._read, self._to_few, self._sizes
        status = read(before[SS], before[SP], few, sizes[4])
        ip, cs = PAIR(self._few)
        if is_interrupt:
            status = status or read(cs, (ip - 2) & 0xFFFF, few, sizes[1])
            is_interrupt = self._few[0] == b"\xcd"
        if status:
            _check(status)
        return cs, ip, is_interrupt

    def performed(self, name: str | None) -> tuple[Values, bytes | None]:
        """A step: why the run stopped, and the registers then (its steps are those before); and the text of a list
        then, if one is wanted."""
        status = self._run() or self._ask_registers()
        if status:
            _check(status)
        return VALUES(self._seen), None if name is None else self.listed(name)

    def program(self, before: Values) -> tuple[str, int | None]:
        """The name of the program that function 4Bh is to load, and the segment for an overlay."""
        status = self._read(before[DS], before[DX], self._to_few, self._sizes[64])
        # (The value of the buffer is what stands before its first zero.)
        name, segment = shown(self._few.value), None
        if before[AX] & 0xFF == 3:
            status = status or self._read(before[ES], before[BX], self._to_few, self._sizes[4])
            segment = PAIR(self._few)[0]
        if status:
            _check(status)
        return name, segment

    def listed(self, name: str) -> bytes:
        """The text of the list `M`, `P` or `X`."""
        status, size = self._commands[name](), self._wanted.value
        if size > self._size:
            self._make_room(2 * size)
        status = status or self._answer()
        if status:
            _check(status)
        return self._room[:size]


# ---- what changed in a list


class Listing:
    """A list of the debugger as it was when it was last looked at."""

    def __init__(self) -> None:
        self.text = b""
        # The last text that was compared, and its number.
        self.numbered, self.number = b"", 0
        # The changes of short lists, by the two texts: a program that calls in a loop makes the same ones again and
        # again.
        self.known: dict[tuple[bytes, bytes], list[Any]] = {}

    def change(self, new: bytes) -> list[Any] | int:
        """What makes the new list of the old one: the place of a line, how many lines go there, and those that come.
        0 if nothing changed. Each line ends with a line feed."""
        old, self.text = self.text, new
        if old == new:
            return 0
        key = old, new
        splice = self.known.get(key)
        if splice is None:
            splice = self._splice(old, new)
            if len(new) <= MOST_KNOWN_BYTES:
                if len(self.known) == MOST_KNOWN:
                    self.known.clear()
                self.known[key] = splice
        return splice

    def _splice(self, old: bytes, new: bytes) -> list[Any]:
        """What makes the new list of the old one, which differ."""
        # (As numbers they are compared in one step: the lowest bit that differs is in the first byte that does.)
        before = self.number if self.numbered is old else int.from_bytes(old, "little")
        self.numbered, self.number = new, int.from_bytes(new, "little")
        differs = self.number ^ before
        front = old.rfind(b"\n", 0, ((differs & -differs).bit_length() - 1) >> 3) + 1
        begin, count = same_end(old, new, front)
        end = begin + len(new) - len(old)
        return [old.count(b"\n", 0, front), count, new[front:end].decode("ascii").splitlines()]


def is_line(text: bytes, at: int, front: int) -> bool:
    """Whether a line begins here, as one does at the front."""
    return at == front or text[at - 1] == LINE_FEED


def same_end(old: bytes, new: bytes, front: int) -> tuple[int, int]:
    """Where the old text, behind the front that both have, begins to go on as the new one ends; and how many lines
    are between."""
    longer, begin = len(new) - len(old), front
    # (Mostly one or two lines of the old text are not in the new one.)
    for count in range(FEW_LINES):
        at = begin + longer
        if (at == front or at > front and new[at - 1] == LINE_FEED) and old[begin:] == new[at:]:
            return begin, count
        begin = old.find(b"\n", begin) + 1 or len(old)
    # (The highest bit that differs is in the last byte that does, where both end alike.)
    most = min(len(old), len(new)) - front
    differs = int.from_bytes(old[len(old) - most :], "little") ^ int.from_bytes(new[len(new) - most :], "little")
    begin = len(old) - most + (differs.bit_length() + 7) // 8
    if not (is_line(old, begin, front) and is_line(new, begin + longer, front)):
        begin = old.find(b"\n", begin) + 1 or len(old)
    return begin, old.count(b"\n", front, begin)


class Merged:
    """A list of lines over several splices, and one splice for all of them since the last one that was taken."""

    def __init__(self) -> None:
        self.lines: list[str] = []
        self._begin()

    def _begin(self) -> None:
        self.size, self.front, self.after = len(self.lines), len(self.lines), len(self.lines)
        self.is_changed = False

    def add(self, splice: list[Any] | int) -> None:
        """Does a splice."""
        if not splice:
            return
        at, count, lines = splice
        end = len(self.lines) - at - count
        # (Lines that came by a splice before are no lines of the list then.)
        self.front, self.after = min(self.front, at), min(self.after, end)
        self.lines[at : at + count] = lines
        self.is_changed = True

    def taken(self) -> list[Any] | int:
        """The splice for all since the last call, or 0."""
        splice: list[Any] | int = 0
        if self.is_changed:
            front = min(self.front, self.size, len(self.lines))
            after = min(self.after, self.size - front, len(self.lines) - front)
            splice = [front, self.size - front - after, self.lines[front : len(self.lines) - after]]
        self._begin()
        return splice


# ---- the record


def place_in(table: dict[str, int], text: str) -> int:
    """The place of a text in a table, which gets it if it has it not."""
    return table.setdefault(text, len(table))


def size_of(moment: list[Any]) -> int:
    """About how many bytes a moment has as JSON, by the usual length of a line of each list."""
    _, _, _, _, text, _, blocks, pages, extended = moment
    size = 40 + len(text)
    if blocks:
        size += 10 + 20 * len(blocks[2])
    if pages:
        size += 10 + 30 * len(pages[2])
    if extended:
        size += 10 + 26 * len(extended[2])
    return size


class Call(NamedTuple):
    """What else is known of a call that may start or end a process: why the run stopped at its step, the program
    that it names, the segment of an overlay, whether it has started the program, and whether it starts or ends a
    process."""

    why: Stop
    program: str
    overlay: int | None
    is_start: bool
    is_process: bool


# A call that waits: the service, the steps after it, the registers before and after it, where it came from, the lists,
# whether the checker has found something, and more of a call that may start or end a process.
Waiting = Tuple["Service", int, Values, Values, Back, Sequence[Tuple[int, bytes]], bool, Optional[Call]]


class Recorder:
    """The moments of a run, the processes, and what programs did not free. `now` is how many steps were made."""

    def __init__(self, machine: QuickMachine, findings: list[dict[str, Any]], options: Options, first: bytes) -> None:
        self.machine, self.options = machine, options
        # (Behind them is a step that no run reaches.)
        self.left = [
            NEVER,
            *sorted({step for it in findings for step in (it["step"], it["last"]) if step}, reverse=True),
        ]
        self.acts = {it[key]: it for it in reversed(findings) for key in ("last", "step")}
        self.names: dict[str, int] = {}
        self.callers: dict[str, int] = {}
        # The places of callers in their table.
        self.backs: dict[Back, int] = {}
        self.lists = [Listing() for _ in LISTED]
        # The calls whose moments are not there yet: what is known of each, and the list that it may have changed.
        self.waiting: list[tuple[Service, int, Values, Values, str, bytes | None]] = []
        self.moments: list[list[Any]] = []
        # The places of the moments that are never left out.
        self.must: set[int] = set()
        self.seen, self.others, self.every, self.size = 0, 0, 1, 0
        # The lists that calls which were left out may have changed.
        self.stale: set[str] = set()
        self.processes: list[dict[str, Any]] = []
        self.alive: list[int] = []
        # What function 48h gave and the program did not free: by segment, where it was called, the step, the
        # paragraphs, and the process.
        self.held: dict[int, tuple[Back, int, int, int]] = {}
        self.kept: dict[tuple[str, str, str], list[int]] = {}
        self.now = 0
        self._start(shown(first), machine.now()[DS], 0)
        self.look("", "the program is loaded", "", must=True)

    # -- names and moments

    def look(self, caller: str, name: str, text: str, must: bool = False) -> None:
        """Adds a moment of which no call is told: the lists as they are now."""
        self._settle()
        if must:
            self.must.add(len(self.moments))
        changes = [listing.change(self.machine.listed(it)) for listing, it in zip(self.lists, LISTED)]
        moment = [
            self.now,
            place_in(self.names, name),
            place_in(self.callers, caller),
            self.running(),
            text,
            0,
            *changes,
        ]
        self.moments.append(moment)
        self.size += size_of(moment)
        self._thin_enough()

    def _settle(self) -> None:
        """The moments of the calls that wait. Many after one another take half the time that each takes between two
        steps of a program."""
        waiting, self.waiting, running = self.waiting, [], self.running()
        names, backs, moments, lists = self.names, self.backs, self.moments, self.lists
        for service, now, before, after, back, listed, must, call in waiting:
            process = running
            if call is None:
                refused = service.refused(after)
                if service.hold is not None and not refused:
                    service.hold(self, now, before, after, back)
                if not listed:
                    continue
                text = service.text(before, after, refused)
                if refused:
                    text += f"{': ' if text else ''}{refusal(service, after, refused)}"
            else:
                refused, text = self._process(service, now, before, after, call)
                running, must = self.running(), must or call.is_process and len(self.must) < MOST_PROCESSES
            if not listed:
                continue
            if must:
                self.must.add(len(moments))
            if back not in backs:
                backs[back] = place_in(self.callers, caller_of(back))
            moment = [now, names.setdefault(service.name, len(names)), backs[back], process, text, refused, 0, 0, 0]
            for place, new in listed:
                moment[place] = lists[place - FIRST_LIST].change(new)
            moments.append(moment)
            self.size += size_of(moment)
        self._thin_enough()

    def _thin_enough(self) -> None:
        while (len(self.moments) > MOST_MOMENTS or self.size > MOST_SIZE) and self.thin():
            pass

    def running(self) -> int:
        """The place of the process that runs; after its end, of the first one."""
        return self.alive[-1] if self.alive else 0

    def thin(self) -> bool:
        """Leaves out every second moment but those that must stay. False if that leaves out little."""
        before = len(self.moments)
        self.every *= 2
        merged, kept, must = [Merged() for _ in range(3)], [], set()
        for place, moment in enumerate(self.moments):
            for it, splice in zip(merged, moment[6:9]):
                it.add(splice)
            if place in self.must or place % 2 == 0 or place == len(self.moments) - 1:
                if place in self.must:
                    must.add(len(kept))
                kept.append([*moment[:6], *(it.taken() for it in merged)])
        self.moments, self.must = kept, must
        self.size = sum(map(size_of, kept)) + PROCESS_SIZE * len({it[3] for it in kept})
        return len(kept) < before * 3 // 4

    # -- processes

    def _process(self, service: Service, now: int, before: Values, after: Values, call: Call) -> tuple[int, str]:
        """Notes what a call did that may start or end a process. The code with which it was refused, and what it was
        asked and gave."""
        if call.is_start:
            self._start(call.program, after[DS], now)
        elif service.is_ending:
            how = how_ended(service, before)
            if call.why is not Stop.STEPS and call.why is not Stop.EXITED:
                return 0, f"{how}: {call.why.name.lower()}"
            self._end(how, service.is_resident, now)
            return 0, how
        refused = 0 if call.is_start else service.refused(after)
        text = f"starts {call.program}" if call.overlay is None else f"overlay {call.program} at {call.overlay:04X}"
        return refused, f"{text}: {refusal(service, after, refused)}" if refused else text

    def _start(self, name: str, psp: int, now: int) -> None:
        parent = self.alive[-1] if self.alive else None
        self.alive.append(len(self.processes))
        self.size += PROCESS_SIZE
        self.processes.append(
            {"name": name, "psp": psp, "start": now, "end": None, "how": "runs at the end", "parent": parent}
        )

    def _end(self, how: str, is_resident: bool, now: int) -> None:
        if not self.alive:
            return
        number = self.alive.pop()
        self.processes[number].update(end=now, how=how)
        self._keep(
            [it for it, held in self.held.items() if held[3] == number], "resident" if is_resident else "process ended"
        )

    def _keep(self, segments: list[int], why: str) -> None:
        """Counts blocks that their program did not free."""
        for it in segments:
            back, step, size, process = self.held.pop(it)
            # (The same place of the same program, in whichever process.)
            group = self.kept.setdefault(
                (caller_of(back), self.processes[process]["name"], why), [0, 0, step, step, process]
            )
            group[0] += 1
            group[1] += size
            group[2], group[3] = min(group[2], step), max(group[3], step)

    def drop_processes(self) -> None:
        """Leaves out the processes that made no call of which there is a moment, and that neither run nor kept
        anything."""
        wanted = {0, *self.alive, *(it[3] for it in self.moments), *(it[4] for it in self.kept.values())}
        # (A parent stands before its children.)
        for number in range(len(self.processes) - 1, 0, -1):
            if number in wanted:
                wanted.add(self.processes[number]["parent"] or 0)
        places = {number: place for place, number in enumerate(sorted(wanted))}
        self.processes = [{**self.processes[it], "parent": places.get(self.processes[it]["parent"])} for it in places]
        for it in self.moments:
            it[3] = places[it[3]]
        for it in self.kept.values():
            it[4] = places[it[4]]

    # -- the run

    def run(self) -> None:
        """Runs the program to its end, to another stop or to the limit of steps."""
        machine, left, most, why = self.machine, self.left, self.options.steps, Stop.STEPS.value
        registers = machine.now()
        while why in GOES_ON and self.now < most:
            services = SERVICES.get((registers[CS], registers[IP]))
            if services is not None:
                service = services.get(registers[AX] >> 8)
                if service is not None and (registers[AX] & 1 or not service.is_odd):
                    registers = self._service(service, registers)
                    why = registers[WHY]
                    continue
                # (This call leaves memory's division as it is. A run does not stop at a breakpoint where it begins.)
                self.others += 1
            while left[-1] <= self.now:
                left.pop()
            registers = machine.run_until(min(left[-1], most) - self.now)
            why, self.now = registers[WHY], registers[STEPS]
            if left[-1] == self.now:
                self._found()
        self._ended(Stop(why))

    def _found(self) -> None:
        """A moment for a finding that no call of memory has."""
        found = self.acts[self.now]
        self.look(site_of(found), found.get("call") or found["instruction"], found["text"], must=True)

    def _service(self, service: Service, before: Values) -> Values:
        """The step of a service that may change memory's division; and the registers then. Its moment waits."""
        self.seen += 1
        is_kept = not self.seen % self.every
        is_usual = not self.stale and self.left[-1] > self.now + 1
        # (Of a start or an end there is a moment until there are many.)
        is_wanted = is_kept or service.is_process and len(self.must) < MOST_PROCESSES
        back = (
            self.machine.back(before, service.is_interrupt)
            if is_wanted or service.is_followed or not is_usual
            else NOWHERE
        )
        program, overlay = self.machine.program(before) if service.is_load else ("", None)
        after, text = self.machine.performed(service.list if is_usual and is_wanted else None)
        # (A service that could not act is no step.)
        self.now += after[WHY] in ACTED
        call = None
        if service.is_process:
            # (A program that is started has not returned.)
            is_start = service.is_load and not before[AX] & 0xFF and (after[CS], after[IP]) != back[:2]
            call = Call(Stop(after[WHY]), program, overlay, is_start, is_start or service.is_ending)
            is_kept = is_kept or is_wanted and call.is_process
        is_found = not is_usual and self._is_found()
        listed = ((service.place, text),) if is_usual and is_kept else self._listed(service, is_kept, is_found)
        self.waiting.append((service, self.now, before, after, back, listed, is_found, call))
        if len(self.waiting) == MOST_WAITING or len(self.moments) + len(self.waiting) > MOST_MOMENTS:
            self._settle()
        return after

    def _is_found(self) -> bool:
        """Whether the checker has found something in the last step."""
        while self.left[-1] < self.now:
            self.left.pop()
        return self.left[-1] == self.now

    def _listed(self, service: Service, is_kept: bool, is_found: bool) -> Sequence[tuple[int, bytes]]:
        """The texts of the lists that may have changed, with their places in a moment; none where no moment is kept."""
        if is_found or is_kept and self.stale:
            wanted = [it for it in LISTED if is_found or it in self.stale or it == service.list]
            self.stale.clear()
            return [(PLACES[it], self.machine.listed(it)) for it in wanted]
        if is_kept:
            return ((service.place, self.machine.listed(service.list)),)
        self.stale.add(service.list)
        return ()

    # -- what function 48h gave

    def allocated(self, now: int, before: Values, after: Values, back: Back) -> None:
        """Notes a block."""
        self.held[after[AX]] = (back, now, before[BX], self.running())

    def freed(self, _: int, before: Values, *__: object) -> None:
        """Forgets a block."""
        self.held.pop(before[ES], None)

    def resized(self, _: int, before: Values, *__: object) -> None:
        """Notes a block's new size."""
        if before[ES] in self.held:
            back, step, _size, process = self.held[before[ES]]
            self.held[before[ES]] = (back, step, before[BX], process)

    def _ended(self, why: Stop) -> None:
        self._settle()
        self._keep(list(self.held), "run stopped")
        if why is not Stop.EXITED:
            self.look("", f"the run stops: {why.name.lower().replace('_', ' ')}", "", must=True)


# ---- what calls are asked, and what they give


def dos_refused(after: Values) -> int:
    """The code with which a call of DOS was refused, or 0."""
    return after[AX] if after[FLAGS] & CARRY else 0


def expanded_refused(after: Values) -> int:
    """The status of a call of the EMS driver."""
    return after[AX] >> 8


def extended_refused(after: Values) -> int:
    """The code with which a call of the XMS driver was refused, or 0."""
    return 0 if after[AX] else (after[BX] & 0xFF) or 0x80


REFUSED = {DOS: dos_refused, EXPANDED: expanded_refused, EXTENDED: extended_refused}
# What a call was asked and gave, by the registers before it and after it, and whether it was refused.
TEXTS: dict[tuple[int, int], dict[int, Callable[[Values, Values, int], str]]] = {
    DOS: {
        0x48: lambda before, after, code: f"{before[BX]:X}h paragraphs"
        + ("" if code else f": block at {after[AX]:04X}"),
        0x49: lambda before, after, code: f"block at {before[ES]:04X}",
        0x4A: lambda before, after, code: f"block at {before[ES]:04X} to {before[BX]:X}h paragraphs",
        0x58: lambda before, after, code: (
            f"{'link of upper memory' if before[AX] & 2 else 'strategy'} {before[BX]:02X}h"
        ),
    },
    EXPANDED: {
        0x43: lambda before, after, code: f"{before[BX]} pages" + ("" if code else f": handle {after[DX]}"),
        0x44: lambda before, after, code: f"window {before[AX] & 0xFF}: "
        + ("no page" if before[BX] == 0xFFFF else f"page {before[BX]} of handle {before[DX]}"),
        0x4E: lambda before, after, code: "page map",
        0x50: lambda before, after, code: f"{before[CX]} windows: handle {before[DX]}",
        0x51: lambda before, after, code: f"handle {before[DX]} to {before[BX]} pages",
    },
    EXTENDED: {
        **dict.fromkeys(range(0x01, 0x07), lambda before, after, code: ""),
        0x09: lambda before, after, code: f"{before[DX]} KiB" + ("" if code else f": handle {after[DX]}"),
        0x0F: lambda before, after, code: f"handle {before[DX]} to {before[BX]} KiB",
        0x10: lambda before, after, code: f"{before[DX]:X}h paragraphs"
        + ("" if code else f": block at {after[BX]:04X}"),
        0x11: lambda before, after, code: f"block at {before[DX]:04X}",
        0x12: lambda before, after, code: f"block at {before[DX]:04X} to {before[BX]:X}h paragraphs",
    },
}


class Service:
    """A function of a service: what is known of each call of it."""

    def __init__(self, entry: tuple[int, int], function: int) -> None:
        self.entry, self.function, self.list, self.is_interrupt = entry, function, LISTS[entry], entry is not EXTENDED
        self.place = PLACES[self.list]
        if entry in NAMES:
            self.name = f"{TITLES[entry]} function {function:02X}h ({NAMES[entry][function]})"
        else:
            self.name = "INT 20h" if entry is TERMINATE else "interrupt 0"
        number = function if entry is DOS else None
        self.is_resident, self.is_load, self.is_ending = (
            number == 0x31,
            number == 0x4B,
            entry not in NAMES or number in (0x00, 0x31, 0x4C),
        )
        self.is_process = self.is_load or self.is_ending
        # Whether only calls with an odd AL may change memory's division; whether the caller is wanted where nobody is
        # told of the call.
        self.is_odd, self.is_followed = number == 0x58, number == 0x48 or self.is_load
        self.hold = {0x48: Recorder.allocated, 0x49: Recorder.freed, 0x4A: Recorder.resized}.get(number)
        self.refused = REFUSED.get(entry)
        self.text = TEXTS.get(entry, {}).get(function, lambda before, after, code: f"handle {before[DX]}")


# The services by their entries, and by the number in AH.
SERVICES = {entry: {number: Service(entry, number) for number in NAMES.get(entry, range(0x100))} for entry in ENTRIES}


def refusal(service: Service, after: Values, code: int) -> str:
    """That a call was refused."""
    largest = (
        f", largest {after[BX]:X}h" if code == 8 and service.entry is DOS and service.function in (0x48, 0x4A) else ""
    )
    return f"refused with code {code:02X}h{largest}"


def how_ended(service: Service, before: Values) -> str:
    """How a call ends its process."""
    if service.entry is DIVIDE:
        return "ended by a division error"
    if service.is_resident:
        return f"stays resident with {before[DX]:X}h paragraphs, code {before[AX] & 0xFF}"
    return f"ended with code {before[AX] & 0xFF if service.entry is DOS and service.function == 0x4C else 0}"


# ---- data and page


def command_of(options: Options, files: list[str], input_file: str | None) -> str:
    """The command line that makes the page again."""
    words = ["python", "-m", "mezguld", "picture"]
    usual = Options()
    for name in ("steps", "ems", "xms"):
        if getattr(options, name) != getattr(usual, name):
            words += [f"--{name}", str(getattr(options, name))]
    words += ["--upper"] * options.upper + ([f"--tail={shown(options.tail)}"] if options.tail else [])
    words += ["--input", input_file] if input_file is not None else []
    files = [shown(os.fsencode(it)) for it in files]
    line = " ".join(map(shlex.quote, [*words, *(["--"] if any(it.startswith("-") for it in files) else []), *files]))
    return line if input_file is not None or options.input else f"{line} </dev/null"


def _checked(programs: list[Program], options: Options) -> Report:
    """The report of a checked run."""
    with loaded(programs, options) as machine:
        stopped, text = machine.check(options.steps)
        return report_of(text.splitlines(), stopped.code)


class Progress:
    """How far a record is, for another thread."""

    def __init__(self) -> None:
        self.recorder: Recorder | None = None

    def __str__(self) -> str:
        recorder = self.recorder
        if recorder is None:
            return "first run, under the checker"
        return (
            f"second run: {recorder.now:,} of at most {recorder.options.steps:,} steps, {recorder.seen:,} calls about"
            " memory"
        )


def record(
    programs: list[Program],
    options: Options = Options(),
    *,
    files: list[str] | None = None,
    input_file: str | None = None,
    progress: Progress | None = None,
) -> dict[str, Any]:
    """Runs the first program, which can start the others, and returns all that docs/picture.md describes. `progress`
    says meanwhile how far it is.

    The errors are those of `Machine`, `Machine.add` and `Machine.load`.
    """
    progress = Progress() if progress is None else progress
    # (The steps of what the checker finds are looked at too, so they are known before.)
    report = _checked(programs, options)
    with loaded(programs, options) as machine:
        recorder = progress.recorder = Recorder(QuickMachine(machine), report.findings, options, programs[0].name)
        recorder.run()
    return data(
        recorder,
        programs,
        options,
        report,
        command_of(options, files or [shown(it.name) for it in programs], input_file),
    )


# Why blocks are in the list of what was not freed.
WHYS = {
    "process ended": "freed by the end of the process",
    "resident": "kept by a resident program",
    "run stopped": "allocated when the run stopped",
}


def rule_of(recorder: Recorder) -> str | None:
    """Which calls a thinned record leaves out; None if it has all."""
    if recorder.every == 1:
        return None
    first = f" (of these the first {MOST_PROCESSES:,})" if len(recorder.must) >= MOST_PROCESSES else ""
    return (
        f"Of {recorder.seen:,} calls about memory, one in {recorder.every:,} is shown, and besides these each at which"
        f" the checker found something or a program starts or ends{first}. What lived only between two of the shown"
        " ones is left out, and so are processes that made none of them. The list of what was not freed counts all"
        " calls."
    )


def not_freed(recorder: Recorder) -> list[dict[str, Any]]:
    """The blocks that programs left or hold, by what allocated them; those of the most paragraphs are the first."""
    return [
        {
            "caller": caller,
            "process": process,
            "why": WHYS[word],
            "is_leak": word == "process ended",
            "blocks": count,
            "paragraphs": size,
            "first": first,
            "last": last,
        }
        for (caller, _, word), (count, size, first, last, process) in sorted(
            recorder.kept.items(), key=lambda it: -it[1][1]
        )
    ]


def data(recorder: Recorder, programs: list[Program], options: Options, report: Report, command: str) -> dict[str, Any]:
    """The data of a page, which docs/picture.md describes."""
    rule = rule_of(recorder)
    if rule:
        recorder.drop_processes()
    return {
        "format": FORMAT,
        "version": __version__,
        "run": {
            "command": command,
            "files": [{"name": shown(it.name), "bytes": len(it.content)} for it in programs],
            "options": {
                "steps": options.steps,
                "ems": options.ems,
                "xms": options.xms,
                "upper": bool(options.upper),
                "tail": shown(options.tail),
            },
            "input": len(options.input),
            "steps": recorder.now,
            "end": report.end,
        },
        "report": report.lines,
        "findings": report.findings,
        "summary": report.summary,
        "calls": {
            "seen": recorder.seen,
            "others": recorder.others,
            "shown": len(recorder.moments),
            "every": recorder.every,
            "rule": rule,
        },
        "processes": recorder.processes,
        "kept": not_freed(recorder),
        "names": list(recorder.names),
        "callers": list(recorder.callers),
        "columns": COLUMNS,
        "moments": [short(it) for it in recorder.moments],
    }


def short(moment: list[Any]) -> list[Any]:
    """A moment without the values at its end that say nothing."""
    size = len(moment)
    while size > 1 and not moment[size - 1]:
        size -= 1
    return moment[:size]


def text_of(recorded: dict[str, Any]) -> str:
    """The data as JSON, in ASCII."""
    return json.dumps(recorded, check_circular=False, separators=(",", ":"))


def page(recorded: dict[str, Any]) -> str:
    """The page over the data that `record` returned: one HTML text in ASCII characters."""
    with open(os.path.join(os.path.dirname(os.path.abspath(__file__)), "picture.html"), encoding="utf-8") as file:
        template = file.read()
    # (So no text of the program ends the element, or begins a comment.)
    text = text_of(recorded)
    for mark in "<>&":
        text = text.replace(mark, f"\\u{ord(mark):04x}")
    front, after = template.split("@DATA@")
    return front + text + after


@contextlib.contextmanager
def _beside(path: str) -> Iterator[Any]:
    """A file that takes the place of the one at this path when it is whole, and goes away where it is not."""
    folder = os.path.dirname(os.path.abspath(path))
    beside = os.path.join(folder, f".mezguld-{os.urandom(8).hex()}")
    number = os.open(beside, os.O_WRONLY | os.O_CREAT | os.O_EXCL, 0o600)
    try:
        with open(number, "w", encoding="utf-8") as file:
            yield file
            mask = os.umask(0)
            os.umask(mask)
            os.fchmod(file.fileno(), 0o666 & ~mask)
        os.replace(beside, path)
    except BaseException:
        with contextlib.suppress(OSError):
            os.remove(beside)
        raise


def write(text: str, path: str) -> None:
    """Writes a text to a file: whole, or not at all. A device or a pipe is written as it is. `OSError`."""
    path = os.path.realpath(path)
    if os.path.exists(path) and not stat.S_ISREG(os.stat(path).st_mode):
        with open(path, "w", encoding="utf-8") as file:
            file.write(text)
        return
    with _beside(path) as file:
        file.write(text)
