r"""The proved MS-DOS machine of Mezguld, from Python.

    from mezguld import Machine, assemble

    with Machine() as machine:
        machine.add("HI.COM", assemble("MOV AH,2\nMOV DL,21h\nINT 21h\nMOV AX,4C00h\nINT 21h\n"))
        machine.load("HI.COM")
        stopped = machine.run(1000)
        print(machine.output())

The package stands over the C library libmezguld.so (mezguld.h), which its wheel holds. It loads the file that the
environment variable MEZGULD_LIBRARY names, else the one in its own folder, else that in build/ of its repository,
else what the system's loader finds. It needs nothing but the standard library. `__version__` is the version of
Mezguld, as `dm --version` prints it.

Bytes are given as `bytes` or any other object with a buffer (`bytearray`, `memoryview`). A number or a list is a
`TypeError`; a number out of its range is a `ValueError`. Names, tails, lines of the debugger and variables may be a
`str`, whose characters are bytes (Latin-1). What the library refuses is an `Error`.
"""
from __future__ import annotations

import ctypes
import enum
import operator
import os
import re
import sys
import threading
import time
from typing import TYPE_CHECKING, Any, Callable, Iterable, NamedTuple, NoReturn

if TYPE_CHECKING:
    from .records import (
        Act,
        Block,
        Blocks,
        Contents,
        Details,
        Expanded,
        Extended,
        ExtendedBlock,
        Finding,
        Findings,
        Instruction,
        Origin,
        PageHandle,
        Place,
        UpperBlock,
        Window,
    )

__all__ = [
    "Act",
    "Block",
    "Blocks",
    "Contents",
    "Details",
    "Ended",
    "Error",
    "Event",
    "Expanded",
    "Extended",
    "ExtendedBlock",
    "Finding",
    "FindingKind",
    "Findings",
    "How",
    "Instruction",
    "Kind",
    "Machine",
    "Origin",
    "PageHandle",
    "Place",
    "Registers",
    "Stop",
    "Stopped",
    "UpperBlock",
    "Window",
    "assemble",
    "disassemble",
    "BadFormat",
    "BadName",
    "BreakpointsFull",
    "CommandSyntax",
    "InputClosed",
    "LineRange",
    "LineRefused",
    "LineSyntax",
    "LineTwice",
    "LineUnknown",
    "NameTwice",
    "NoHandle",
    "NoMachine",
    "NoPage",
    "NotFound",
    "NotLoaded",
    "OutOfMemory",
    "PastEnd",
    "Short",
    "Started",
    "TailTooLong",
    "TooLarge",
    "TooLong",
    "VariablesTooLong",
    "__version__",
]

__version__ = "2.0.0"

# What the module `records` has: data classes, which take longer to make than all else here, and are loaded with the
# first call that wants one.
_OF_RECORDS = frozenset(
    (
        "Act",
        "Block",
        "Blocks",
        "Contents",
        "Details",
        "Expanded",
        "Extended",
        "ExtendedBlock",
        "Finding",
        "Findings",
        "Instruction",
        "Origin",
        "PageHandle",
        "Place",
        "UpperBlock",
        "Window",
    )
)


def __getattr__(name: str) -> Any:
    if name not in _OF_RECORDS:
        raise AttributeError(f"module {__name__!r} has no attribute {name!r}")
    from . import records  # pylint: disable=import-outside-toplevel

    globals().update((it, getattr(records, it)) for it in _OF_RECORDS)
    return globals()[name]


def __dir__() -> list[str]:
    return sorted({*globals(), *__all__})


# ---- refusals


class Error(Exception):
    """Why a call was refused. The machine is as before, unless the exception says otherwise.

    `status` is the number that include/mezguld.h gives to the refusal.
    """

    status = 0
    text = "the library refused the call"

    def __str__(self) -> str:
        return super().__str__() or self.text


class NoMachine(Error):
    """The machine was closed."""

    text = "the machine was closed"


class OutOfMemory(Error, MemoryError):
    """The host's memory was refused. A command may be done, whole or in part; a load has used the machine up; else
    nothing has changed."""

    text = "an allocation failed"


class TooLarge(Error, ValueError):
    """Over 512 pages of expanded memory, or over 15,360 KiB of extended memory."""

    text = "over 512 pages of expanded memory, or over 15,360 KiB of extended memory"


class VariablesTooLong(Error, ValueError):
    """The variables have over 32,767 bytes with their zeros."""

    text = "the variables have over 32,767 bytes with their zeros"


class BadName(Error, ValueError):
    """A program's name is empty, has over 64 bytes, or has a zero byte."""

    text = "the name is empty, has over 64 bytes, or has a zero byte"


class NameTwice(Error, ValueError):
    """A program has this name already; case is ignored."""

    text = "a program has this name already"


class Started(Error):
    """A program was loaded, or its loading failed for good."""

    text = "a program was loaded already, or its loading failed for good"


class TailTooLong(Error, ValueError):
    """A tail has over 126 bytes."""

    text = "the tail has over 126 bytes"


class NotFound(Error, LookupError):
    """No program has this name."""

    text = "no program has this name"


class BadFormat(Error, ValueError):
    """The program is neither a COM file of at most 65,278 bytes nor a correct MZ file."""

    text = "the program is neither a COM file of at most 65,278 bytes nor a correct MZ file"


class Short(Error):
    """Conventional memory has no room for the program. The machine is used up."""

    text = "conventional memory has no room for the program"


class NotLoaded(Error):
    """No program is loaded."""

    text = "no program is loaded"


class CommandSyntax(Error, ValueError):
    """The line is no command of the debugger, or clears a breakpoint that is not set."""

    text = "the line is no command, or clears a breakpoint that is not set"


class BreakpointsFull(Error):
    """The line sets a seventeenth breakpoint."""

    text = "sixteen breakpoints are set already"


class InputClosed(Error):
    """No more input may come: `open_input` opens it."""

    text = "the console's input is closed; open_input opens it"


class NoHandle(Error, LookupError):
    """The handle is not in use."""

    text = "the handle is not in use"


class NoPage(Error, LookupError):
    """The handle has no page of this number."""

    text = "the handle has no page of this number"


class PastEnd(Error, ValueError):
    """Not all of the bytes are in the page or block."""

    text = "not all of the bytes are in the page or block"


class LineRefused(Error, ValueError):
    """A line of an assembly text is wrong; `line` counts from 1."""

    text = "the line is wrong"

    def __init__(self, line: int) -> None:
        super().__init__(line)
        self.line = line

    def __str__(self) -> str:
        return f"line {self.line}: {self.text}"


class LineSyntax(LineRefused):
    """The line is no statement."""

    text = "no statement"


class LineUnknown(LineRefused):
    """The line names a label that no line has."""

    text = "it names a label that no line has"


class LineRange(LineRefused):
    """A number, a label or a target on the line is out of range."""

    text = "a number, a label or a target is out of range"


class LineTwice(LineRefused):
    """The line has the label of a line before it."""

    text = "a line before it has the same label"


class TooLong(Error, ValueError):
    """A COM program has over 65,278 bytes."""

    text = "a COM program has over 65,278 bytes"


_OK, _TOO_SMALL = 0, 4
_REFUSALS = {
    1: NoMachine,
    3: OutOfMemory,
    5: TooLarge,
    6: VariablesTooLong,
    7: BadName,
    8: NameTwice,
    9: Started,
    10: TailTooLong,
    11: NotFound,
    12: BadFormat,
    13: Short,
    14: NotLoaded,
    15: CommandSyntax,
    16: BreakpointsFull,
    21: TooLong,
    22: InputClosed,
    26: NoHandle,
    27: NoPage,
    28: PastEnd,
}
_LINES = {17: LineSyntax, 18: LineUnknown, 19: LineRange, 20: LineTwice}
for _status, _kind in (*_REFUSALS.items(), *_LINES.items()):
    _kind.status = _status
del _status, _kind


def _check(status: int) -> None:
    if status == _OK:
        return
    if status in _REFUSALS:
        raise _REFUSALS[status]()
    error = Error(f"the library returned {status}, which this module does not know")
    error.status = status
    raise error


# ---- what calls return


class Stop(enum.Enum):
    """Why a run stopped."""

    STEPS = 0
    EXITED = 1
    HALTED = 2
    UNLISTED = 3
    INPUT_ENDED = 4
    DESTROYED = 5
    MEMORY = 6
    BREAKPOINT = 7
    EVENT = 8


class Stopped(NamedTuple):
    """How a run ended: why, and the program's exit code where it has ended (else 0)."""

    why: Stop
    code: int


class Kind(enum.Enum):
    """The kinds of events."""

    AT_PAIR = 0
    AT_ADDRESS = 1
    AT_CHANGE = 2
    AT_CALL = 3
    AT_FUNCTION = 4


class Event(NamedTuple):
    """What ends a run of `Machine.run_to` after a step. `at`, `at_address`, `at_change`, `at_call` and `at_function`
    make one; the fields that its kind does not use are 0."""

    kind: Kind
    address: int = 0
    length: int = 0
    segment: int = 0
    offset: int = 0
    number: int = 0
    ah: int = 0

    @staticmethod
    def at(segment: int, offset: int) -> Event:
        """CS:IP is exactly this pair."""
        return Event(Kind.AT_PAIR, segment=segment, offset=offset)

    @staticmethod
    def at_address(address: int) -> Event:
        """CS:IP has this linear address, whatever the pair; bit 20 of it is off while the A20 line is."""
        return Event(Kind.AT_ADDRESS, address=address)

    @staticmethod
    def at_change(address: int, length: int = 1) -> Event:
        """One of so many bytes from a linear address up reads otherwise than before the run, whoever wrote it: the
        program, a service, another page in a window. No byte is past 10FFEFh."""
        return Event(Kind.AT_CHANGE, address=address, length=length)

    @staticmethod
    def at_call(number: int) -> Event:
        """The call of this interrupt is next: the bytes at CS:IP are CDh and its number."""
        return Event(Kind.AT_CALL, number=number)

    @staticmethod
    def at_function(number: int, ah: int) -> Event:
        """The call of this interrupt is next, with this number in AH."""
        return Event(Kind.AT_FUNCTION, number=number, ah=ah)


class Ended(NamedTuple):
    """How a run up to events ended: why, the program's exit code where it has ended (else 0), and the event that
    came, the first in the list (else None)."""

    why: Stop
    code: int
    event: Event | None


class Registers(NamedTuple):
    """The registers; `flags` is the word that PUSHF stores. They print in hexadecimal."""

    ax: int
    bx: int
    cx: int
    dx: int
    sp: int
    bp: int
    si: int
    di: int
    cs: int
    ds: int
    es: int
    ss: int
    ip: int
    flags: int

    def __repr__(self) -> str:
        return f"Registers({', '.join(f'{name}=0x{word:04X}' for name, word in zip(self._fields, self))})"


class FindingKind(enum.Enum):
    """The kinds of findings; `dm check --json` has the same words."""

    OVERWRITTEN = 0
    MAPPED_AWAY = 1
    DESTROYED = 2
    VALID = 3
    FREED_TWICE = 4
    REFUSED = 5
    NOT_ALLOCATED = 6
    DIVISION_ERROR = 7
    NOT_ENOUGH_MEMORY = 8
    NOT_SERVED = 9
    FREE_READ = 10
    FREE_WRITTEN = 11
    STACK_FREED = 12
    WINDOW_LOST = 13
    ROM_WRITTEN = 14
    NO_MEMORY_WRITTEN = 15
    HEADER_BYTE_WRITTEN = 16
    OTHER_FREED = 17
    NOT_RESIZED = 18
    HANDLE_KEPT = 19
    WINDOW_KEPT = 20
    BLOCK_KEPT = 21
    UPPER_KEPT = 22
    AREA_KEPT = 23
    LINE_KEPT = 24


class How(enum.Enum):
    """How a step was performed: as an instruction, as a call by an interrupt, by an interrupt with the number of a
    function in AH, or by a far call of the XMS driver with that of a function."""

    INSTRUCTION = 0
    INTERRUPT = 1
    FUNCTION = 2
    FAR_CALL = 3


# ---- the library


class _Stopped(ctypes.Structure):
    _fields_ = [("why", ctypes.c_uint32), ("code", ctypes.c_uint32)]


class _Registers(ctypes.Structure):
    _fields_ = [(name, ctypes.c_uint16) for name in Registers._fields]


class _Point(ctypes.Structure):
    _fields_ = [("segment", ctypes.c_uint16), ("offset", ctypes.c_uint16)]


class _Event(ctypes.Structure):
    _fields_ = [
        ("kind", ctypes.c_uint32),
        ("address", ctypes.c_uint32),
        ("length", ctypes.c_uint32),
        ("segment", ctypes.c_uint16),
        ("offset", ctypes.c_uint16),
        ("number", ctypes.c_uint8),
        ("ah", ctypes.c_uint8),
    ]


# The records of the library: a number has the letter of its size, behind how many there are.
_RECORDS = {
    "mezguld_block": "H segment, H owner, H size, B signature, B list",
    "mezguld_list_end": "H destroyed, H at",
    "mezguld_page_handle": "H number, H pages, I saved, 8B name",
    "mezguld_window": "H shows, H handle, H page",
    "mezguld_extended_block": "Q address, I locks, H handle, H kib",
    "mezguld_upper_block": "H segment, H size",
    "mezguld_act": "I how, H next, B interrupt, B function",
    "mezguld_place": "H cs, H ip, H before",
    "mezguld_contents": "H signature, H owner, H size",
    "mezguld_details": (
        "mezguld_contents old_contents, mezguld_contents new_contents, H header, H byte, H block, H owner, H segment,"
        " H offset, H window, H handle, H pages, H saved, H kib, H locked, H code, H wanted, H available"
    ),
    "mezguld_finding": (
        "Q step, Q more, Q last, Q origin_step, I kind, I is_error, mezguld_place at, mezguld_place origin_at,"
        " mezguld_act act, H process, mezguld_details details"
    ),
}
_SIZES: dict[str, Any] = {
    "B": ctypes.c_uint8,
    "H": ctypes.c_uint16,
    "I": ctypes.c_uint32,
    "Q": ctypes.c_uint64,
    "8B": ctypes.c_uint8 * 8,
}
_STRUCTURES: dict[str, Any] = {}
for _struct, _members in _RECORDS.items():
    _pairs = [_member.split(" ") for _member in _members.split(", ")]
    _STRUCTURES[_struct] = type(
        _struct,
        (ctypes.Structure,),
        {"_fields_": [(_word, {**_SIZES, **_STRUCTURES}[_size]) for _size, _word in _pairs]},
    )
del _struct, _members, _pairs


_NAME = "libmezguld.so"


def _path() -> str:
    """The library's file, or a name that the system's loader looks for: libraries with another first number of the
    version have other functions."""
    named = os.environ.get("MEZGULD_LIBRARY")
    if named:
        return named
    here = os.path.dirname(os.path.abspath(__file__))
    places = [here]
    # (The package in its repository.)
    if os.path.exists(os.path.join(os.path.dirname(here), "pyproject.toml")):
        places.append(os.path.join(os.path.dirname(os.path.dirname(here)), "build"))
    files = (os.path.join(folder, _NAME) for folder in places)
    return next(filter(os.path.exists, files), f"{_NAME}.{__version__.split('.', maxsplit=1)[0]}")


_PARAMETERS = {
    "mezguld_version": "",
    "mezguld_new": "h II pn B",
    "mezguld_copy": "m h",
    "mezguld_add": "m pn pn",
    "mezguld_load": "m pn pn pn",
    "mezguld_run": "m Q s",
    "mezguld_run_until": "m Q pn s",
    "mezguld_run_to": "m Q pn s w",
    "mezguld_steps": "m q",
    "mezguld_registers": "m r",
    "mezguld_set_registers": "m c",
    "mezguld_read": "m HH pn",
    "mezguld_write": "m HH pn",
    "mezguld_read_linear": "m I pn",
    "mezguld_write_linear": "m I pn",
    "mezguld_output": "m n pn w",
    "mezguld_output_count": "m w",
    "mezguld_open_input": "m",
    "mezguld_close_input": "m",
    "mezguld_supply": "m pn",
    "mezguld_input_left": "m w",
    "mezguld_command": "m pn w",
    "mezguld_check": "m Q s w",
    "mezguld_answer": "m pn w",
    "mezguld_blocks": "m pn w e",
    "mezguld_page_handles": "m pn w",
    "mezguld_windows": "m pn w",
    "mezguld_extended_blocks": "m pn w",
    "mezguld_upper_blocks": "m pn w",
    "mezguld_high_memory": "m d d",
    "mezguld_read_page": "m HH n pn",
    "mezguld_read_block": "m H n pn",
    "mezguld_findings": "m pn w",
    "mezguld_finding_counts": "m q q q",
    "mezguld_finding_line": "m n pn w",
    "mezguld_free": "m",
    "mezguld_assemble": "pn pn w w",
    "mezguld_disassemble": "pn pn w",
}
_TYPES = {
    "m": ctypes.c_void_p,
    "h": ctypes.POINTER(ctypes.c_void_p),
    "s": ctypes.POINTER(_Stopped),
    "r": ctypes.POINTER(_Registers),
    "c": ctypes.POINTER(_Registers),
    "p": ctypes.c_void_p,
    "n": ctypes.c_size_t,
    "w": ctypes.POINTER(ctypes.c_size_t),
    "q": ctypes.POINTER(ctypes.c_uint64),
    "I": ctypes.c_uint32,
    "Q": ctypes.c_uint64,
    "H": ctypes.c_uint16,
    "B": ctypes.c_uint32,
    "e": ctypes.POINTER(_STRUCTURES["mezguld_list_end"]),
    "d": ctypes.POINTER(ctypes.c_uint32),
}


def _opened() -> ctypes.CDLL:
    path = _path()
    try:
        library = ctypes.CDLL(path)
    except OSError as error:
        hint = (
            "set MEZGULD_LIBRARY to its path, install Mezguld, or make it in the repository by tools/build --library"
            " and tools/library"
        )
        raise ImportError(f"the library {path} cannot be loaded ({error}): {hint}") from error
    for name, parameters in _PARAMETERS.items():
        function = getattr(library, name, None)
        if function is None:
            raise ImportError(f"the library {path} is not that of Mezguld {__version__}: it has no {name}")
        function.restype = None if name == "mezguld_free" else ctypes.c_uint32
        function.argtypes = [_TYPES[letter] for letter in parameters if letter != " "]
    if library.mezguld_version() // 10000 != int(__version__.split(".", maxsplit=1)[0]):
        raise ImportError(
            f"the library {path} is not that of Mezguld {__version__}: its version is {library.mezguld_version()}"
        )
    return library


try:
    _library = _opened()
except ImportError as _error:
    # (The interpreter looks for the module of `python -m mezguld`: a person reads this.)
    if sys.argv[:1] == ["-m"]:
        sys.exit(f"mezguld: {_error}")
    raise


# ---- what calls are given. (ctypes cuts a number that is too large for its type, so each is tested before.)

_MOST_STEPS = 2**64 - 1
# A segment has this many bytes, a page of expanded memory this many, and a block of extended memory at most so many.
_MOST_BYTES, _PAGE, _MOST_BLOCK = 0x10000, 0x4000, 0xFFFF * 1024


def _number(number: int, most: int, what: str) -> int:
    """A number from 0 to `most`."""
    try:
        number = operator.index(number)
    except TypeError:
        raise TypeError(f"{what} is {number!r}, and no whole number") from None
    if not 0 <= number <= most:
        raise ValueError(f"{what} is {number}, and not from 0 to {most}")
    return number


def _bytes(data: bytes | bytearray | memoryview) -> bytes:
    try:
        return memoryview(data).tobytes()
    except TypeError:
        raise TypeError(f'bytes are wanted, as b"..", and not {type(data).__name__}') from None


def _name(name: str | bytes) -> bytes:
    return name.encode("latin-1") if isinstance(name, str) else _bytes(name)


def _given(data: bytes) -> tuple[ctypes.Array, int]:
    """Bytes as a pointer, and their count."""
    return ctypes.create_string_buffer(data, len(data) + 1), len(data)


def _variable(variable: str | bytes) -> bytes:
    """A variable with the zero after it."""
    text = _name(variable)
    if not text or 0 in text:
        raise ValueError(f"{variable!r} is not a variable: it is empty, or has a zero byte")
    return text + b"\0"


def _environment(variables: Iterable[str | bytes]) -> bytes:
    if isinstance(variables, (str, bytes, bytearray, memoryview)):
        raise TypeError('variables are a list, as ["PATH=C:"]')
    return b"".join(_variable(variable) for variable in variables)


def _points(breakpoints: Iterable[tuple[int, int]]) -> tuple[ctypes.Array, int]:
    """Breakpoints as an array with room for at least one, and their count."""
    try:
        listed = [(segment, offset) for segment, offset in breakpoints]
    except (TypeError, ValueError) as error:
        raise type(error)(
            f"breakpoints are a list of segments and offsets, as [(0x0103, 0x0100)], and not {breakpoints!r}"
        ) from None
    pairs = [
        _Point(_number(segment, 0xFFFF, "a segment"), _number(offset, 0xFFFF, "an offset"))
        for segment, offset in listed
    ]
    return (_Point * (len(pairs) + 1))(*pairs), len(pairs)


# How many bytes linear addresses reach.
_MOST_MEMORY = 0x10FFF0
# The greatest number of each field of an event behind its kind.
_MOST_OF_EVENTS = {
    "address": 0xFFFFFFFF,
    "length": 0xFFFFFFFF,
    "segment": 0xFFFF,
    "offset": 0xFFFF,
    "number": 0xFF,
    "ah": 0xFF,
}


def _event(event: Event) -> _Event:
    if not isinstance(event, Event) or not isinstance(event.kind, Kind):
        raise TypeError(f"an event is made by Event.at or one of its like, and not {event!r}")
    return _Event(
        event.kind.value,
        *(_number(getattr(event, name), most, f"the {name} of an event") for name, most in _MOST_OF_EVENTS.items()),
    )


def _address(address: int, count: int) -> int:
    """A linear address with so many bytes from it up."""
    address = _number(address, _MOST_MEMORY, "the address")
    _number(count, _MOST_MEMORY - address, "the count")
    return address


def _taken(call: Callable[..., int], count: int = 4096) -> bytes:
    """The bytes that a call writes to a buffer: `call(buffer, size, wanted)` returns its status."""
    while True:
        buffer, wanted = ctypes.create_string_buffer(count + 1), ctypes.c_size_t()
        status = call(buffer, count, ctypes.byref(wanted))
        if status != _TOO_SMALL:
            _check(status)
            return buffer.raw[: wanted.value]
        count = wanted.value


# ---- long calls

# A call of at most so many steps is made at once: even the slowest steps take some two milliseconds each.
_FEW = 100
# The steps of a slice at first and at most, and the seconds that one should take.
_FIRST_SLICE, _LONGEST_SLICE, _SLICE_SECONDS = 1 << 14, 1 << 22, 0.04
# The debugger's line `G` with its steps, and the steps without any.
_GO, _GO_STEPS = re.compile(rb"[Gg](?: ([0-9A-Fa-f]{1,8}))?"), "FFFFFF"


def _first_slice(events: list[Event]) -> int:
    """The steps of the first slice of a run up to events: few where each compares many bytes."""
    slow = sum(
        min(it.length, 0x10FFF0) for it in events if it.kind is Kind.AT_CHANGE and it.address + it.length > 0xC0000
    )
    return max(_FIRST_SLICE // (slow // 512 + 1), 1)


def _sliced(
    steps: int, run: Callable[[int], tuple[Any, bool]], is_over: Callable[[], bool], first: int = _FIRST_SLICE
) -> Any:
    """Makes a run in slices, until `is_over`: `run(count)` returns its result, and whether nothing has stopped it. A
    run of a steps and then one of b steps are the run of a + b steps; so are runs up to breakpoints, where the first
    has reached none."""
    size = first
    while True:
        count, begin = min(size, steps), time.monotonic()
        result, goes_on = run(count)
        steps -= count
        if not goes_on or steps == 0 or is_over():
            return result
        took = time.monotonic() - begin
        if took < _SLICE_SECONDS / 2:
            size = min(2 * size, _LONGEST_SLICE)
        elif took > _SLICE_SECONDS:
            size = max(int(size * _SLICE_SECONDS / took), 1)


def _served(work: Callable[[Callable[[], bool]], Any], steps: int, left: list[threading.Event] | None = None) -> Any:
    """What `work` returns, which may take long. Signals, as that of Ctrl-C, reach the main thread, and Python serves
    them between calls of C. So there the work is done on another thread. Where a signal's handler raises an
    exception, the work is told that it is over, and ends after its slice; work without slices goes on, and `left`
    gets the event of its end."""
    if steps <= _FEW or threading.current_thread() is not threading.main_thread():
        return work(lambda: False)
    over, ended, results = threading.Event(), threading.Event(), []

    def done() -> None:
        try:
            results.append((work(over.is_set), None))
        except BaseException as error:  # pylint: disable=broad-except
            results.append((None, error))
        finally:
            ended.set()

    try:
        try:
            threading.Thread(target=done, name="mezguld", daemon=True).start()
        except RuntimeError:
            # (No thread begins while the interpreter ends.)
            return work(lambda: False)
        ended.wait()
    except BaseException:
        over.set()
        if left is not None:
            left.append(ended)
        raise
    result, error = results.pop()
    if error is None:
        return result
    try:
        raise error
    finally:
        # (Its traceback has this frame, which else would have it, and so keep the machine.)
        del error


# ---- machines


class Machine:
    """A machine: programs are added, one of them is loaded and run, and what the machine holds is read and changed.

    After `add` and `load` it runs by `run`, or up to breakpoints by `run_until`, as often as you like. Between two
    runs `registers`, `read`, `output`, `blocks` and others report its state; `registers` can be set, `write` changes
    memory, and `supply` adds input where `load(.., more=True)` has left it open. `copy.copy(machine)` is a snapshot.
    `check` runs under the memory checker, and `command` does what a line of the debugger says.

    Threads may share it: a call waits until the one before it has ended. `close` frees it, and waits too; so does
    the end of a `with` block. After Ctrl-C in a run the machine is as after some of its steps, and can go on.
    `copy.copy` makes a second machine in the same state, as a snapshot.
    """

    def __init__(
        self, *, ems_pages: int = 64, xms_kib: int = 1024, variables: Iterable[str | bytes] = (), upper: bool = False
    ) -> None:
        """A machine with so many pages of expanded memory (of 16 KiB, at most 512) and so many KiB of extended
        memory (at most 15,360).

        `variables` is the environment of the first program, as `["PATH=C:"]`. With `upper` there is a second block
        list, in upper memory. `TooLarge`, `VariablesTooLong` and `OutOfMemory` are raised where no machine is made.
        """
        ems_pages, xms_kib = operator.index(ems_pages), operator.index(xms_kib)
        for what, size in (("ems_pages", ems_pages), ("xms_kib", xms_kib)):
            if size < 0:
                raise ValueError(f"{what} is {size}, and less than 0")
            if size >= 2**32:
                raise TooLarge()
        upper = _number(upper, 1, "upper")
        given, count = _given(_environment(variables))
        # (A call within a call, as of a signal's handler between two calls of C, does not wait.)
        self._lock = threading.RLock()
        # The ends of checked runs that nobody waits for, and whether the machine was closed in one.
        self._left, self._is_closed = [], False
        self._handle = ctypes.c_void_p()
        _check(_library.mezguld_new(self._handle, ems_pages, xms_kib, given, count, upper))

    def close(self) -> None:
        """Frees the machine. Every later call raises `NoMachine`. To close it again does nothing."""
        self._is_closed = any(not ended.is_set() for ended in self._left)
        if self._lock.acquire(blocking=not self._is_closed):
            try:
                self._free()
            finally:
                self._lock.release()

    def _free(self, free: Callable[..., None] = _library.mezguld_free) -> None:
        """Frees the machine. Its pointer is NULL then, which is no machine."""
        machine, self._handle.value = self._handle.value, None
        free(machine)

    def __enter__(self) -> Machine:
        return self

    def __exit__(self, *_: object) -> None:
        self.close()

    def __del__(self) -> None:
        # Nobody else has the machine any more, so its lock is free: but in a forked child, whose parent was in a call.
        # It is not freed there.
        lock = self.__dict__.get("_lock")
        if "_handle" in self.__dict__ and lock.acquire(blocking=False):
            try:
                self._free()
            finally:
                lock.release()

    def __copy__(self) -> Machine:
        """A second machine in the same state: `copy.copy(machine)`. It has the same programs and breakpoints, and
        the two share nothing: what one does, the other does not see. `OutOfMemory`."""
        machine = object.__new__(type(self))
        machine.__dict__.update({name: value for name, value in self.__dict__.items() if name != "_handle"})
        machine._lock, machine._left, machine._is_closed = threading.RLock(), [], False
        handle = ctypes.c_void_p()
        self._call(_library.mezguld_copy, handle)
        machine._handle = handle
        return machine

    def __deepcopy__(self, _: object) -> Machine:
        return self.__copy__()

    def __reduce__(self) -> NoReturn:
        raise TypeError("a machine cannot be pickled; copy.copy copies it")

    def _held(self) -> threading.RLock:
        if self._is_closed:
            raise NoMachine()
        return self._lock

    def _call(self, function: Callable[..., int], *arguments: object) -> None:
        with self._held():
            _check(function(self._handle, *arguments))

    def _count(self, function: Callable[..., int]) -> int:
        count = ctypes.c_size_t()
        self._call(function, count)
        return count.value

    def _run(
        self,
        function: Callable[..., int],
        steps: int,
        *arguments: object,
        last: tuple[object, ...] = (),
        first: int = _FIRST_SLICE,
    ) -> Stopped:
        """A run by slices, which no other call comes between. `last` are the arguments behind that for the stop."""

        def run(count: int) -> tuple[Stopped, bool]:
            stopped = _Stopped()
            _check(function(self._handle, count, *arguments, stopped, *last))
            why = Stop(stopped.why)
            return Stopped(why, stopped.code), why is Stop.STEPS

        def work(is_over: Callable[[], bool]) -> Stopped:
            with self._held():
                return _sliced(steps, run, is_over, first)

        return _served(work, steps)

    def _kept(self, size: int) -> bytes:
        """The answer that the machine keeps, of this size."""
        return _taken(lambda buffer, room, length: _library.mezguld_answer(self._handle, buffer, room, length), size)

    def _answered(self, line: bytes) -> bytes:
        given, count = _given(line)
        with self._held():
            wanted = ctypes.c_size_t()
            _check(_library.mezguld_command(self._handle, given, count, wanted))
            return self._kept(wanted.value)

    def add(self, name: str | bytes, program: bytes) -> None:
        """Adds a program, a COM or MZ file's bytes, under a name of 1 to 64 bytes. `BadName`, `NameTwice`,
        `Started`, `OutOfMemory`."""
        self._call(_library.mezguld_add, *_given(_name(name)), *_given(_bytes(program)))

    def load(
        self,
        name: str | bytes,
        tail: str | bytes = b"",
        input: bytes = b"",
        more: bool = False,  # pylint: disable=redefined-builtin
    ) -> None:
        """Loads the program of this name, with a command tail of at most 126 bytes (it begins with a space, as in `"
        /q"`) and the console's input. With `more`, its input is open: more may come by `supply`.

        `Started`, `BadName`, `TailTooLong`, `NotFound`, `BadFormat`, `OutOfMemory`, `Short`, in this order. The last
        two use the machine up.
        """
        more = _number(more, 1, "more")
        given = (*_given(_name(name)), *_given(_name(tail)), *_given(_bytes(input)))
        with self._held():
            self._call(_library.mezguld_load, *given)
            if more:
                self._call(_library.mezguld_open_input)

    def open_input(self) -> None:
        """Opens the console's input: more may come by `supply`. From then on a run stops with `Stop.INPUT_ENDED`
        before each call of DOS that wants input which is not there (functions 01h, 07h, 08h and 3Fh: a byte; 0Ah: a
        line, up to 0Dh); after more was supplied, the next run makes the call. Polls (06h, 0Bh) report what is there,
        and never stop. `NotLoaded`."""
        self._call(_library.mezguld_open_input)

    def close_input(self) -> None:
        """Closes the console's input: no more comes after what is left. From then on function 3Fh with none left
        returns a count of 0, the end of a file; for the other calls `Stop.INPUT_ENDED` is the end. `NotLoaded`."""
        self._call(_library.mezguld_close_input)

    def supply(self, data: bytes) -> None:
        """Adds bytes to the end of the console's input, which is open by `load(.., more=True)` or `open_input`. The
        key Enter is `b"\\r"`. `NotLoaded`, `InputClosed`, `OutOfMemory`."""
        self._call(_library.mezguld_supply, *_given(_bytes(data)))

    @property
    def input_left(self) -> int:
        """How many bytes of the console's input the program has not read yet. `NotLoaded`."""
        return self._count(_library.mezguld_input_left)

    def run(self, steps: int) -> Stopped:
        """Makes at most so many steps, from 0 to 2**64 - 1. A step is an instruction, a repetition of a string
        instruction, or a service. `NotLoaded`.

        Ctrl-C ends the run after some of its steps: `KeyboardInterrupt` comes at once, and the machine can go on.
        """
        return self._run(_library.mezguld_run, _number(steps, _MOST_STEPS, "steps"))

    def run_until(self, steps: int, breakpoints: Iterable[tuple[int, int]]) -> Stopped:
        """Makes at most so many steps, and stops with `Stop.BREAKPOINT` after the first that leads to one of the
        breakpoints, exact pairs of CS and IP. One where the run begins does not stop it. `NotLoaded`;
        `OutOfMemory`, after which some of the steps may be made. Ctrl-C is as in `run`.

        To stop at each call of an interrupt, before it acts, give where its vector leads: `machine.run_until(steps,
        [machine.vector(0x21)])`."""
        return self._run(_library.mezguld_run_until, _number(steps, _MOST_STEPS, "steps"), *_points(breakpoints))

    def run_to(self, steps: int, events: Iterable[Event]) -> Ended:
        """Makes at most so many steps, and stops with `Stop.EVENT` after the first that leads to one of the events,
        as in `machine.run_to(steps, [Event.at_call(0x21), Event.at_change(0xB8000, 4000)])`. One where the run begins
        does not stop it, so that the next run goes on; bytes are compared with those at its beginning. Steps are as
        fast as with breakpoints, but for those that touch the paragraphs of a range or of a vector that is called;
        with a range beyond BFFFFh each step is looked at. `NotLoaded`; `OutOfMemory`, after which some of the steps
        may be made. Ctrl-C is as in `run`."""
        if isinstance(events, Event):
            raise TypeError("events are a list, as [Event.at_call(0x21)]")
        listed, place = list(events), ctypes.c_size_t()
        given = (_Event * (len(listed) + 1))(*(_event(event) for event in listed))
        stopped = self._run(
            _library.mezguld_run_to,
            _number(steps, _MOST_STEPS, "steps"),
            given,
            len(listed),
            last=(place,),
            first=_first_slice(listed),
        )
        return Ended(*stopped, listed[place.value] if stopped.why is Stop.EVENT else None)

    @property
    def steps(self) -> int:
        """How many steps were made. `NotLoaded`."""
        steps = ctypes.c_uint64()
        self._call(_library.mezguld_steps, steps)
        return steps.value

    @property
    def registers(self) -> Registers:
        """The registers. All are set at once, as by `machine.registers = machine.registers._replace(ax=0x4C00)`: the
        next run goes on at the new CS:IP, and of `flags` only the bits of the nine flags count. `NotLoaded`."""
        registers = _Registers()
        self._call(_library.mezguld_registers, registers)
        return Registers(*(getattr(registers, name) for name in Registers._fields))

    @registers.setter
    def registers(self, registers: Iterable[int]) -> None:
        try:
            words = Registers(*registers)
        except TypeError:
            raise TypeError("all registers are wanted, as machine.registers._replace(ax=1)") from None
        self._call(
            _library.mezguld_set_registers,
            _Registers(*(_number(word, 0xFFFF, name) for name, word in zip(words._fields, words))),
        )

    def read(self, segment: int, offset: int, count: int) -> bytes:
        """So many bytes of memory, at most 65,536, from segment:offset on; offsets wrap in their segment. FFh where
        there is no memory. `NotLoaded`."""
        segment, offset = _number(segment, 0xFFFF, "the segment"), _number(offset, 0xFFFF, "the offset")
        count = _number(count, _MOST_BYTES, "the count")
        buffer = ctypes.create_string_buffer(count + 1)
        self._call(_library.mezguld_read, segment, offset, buffer, count)
        return buffer.raw[:count]

    def read_linear(self, address: int, count: int) -> bytes:
        """So many bytes of memory from a linear address up, as a program reads them; the last address is 10FFEFh.
        While the A20 line is off, those from 100000h on are the first ones again. `NotLoaded`."""
        count = operator.index(count)
        address = _address(address, count)
        buffer = ctypes.create_string_buffer(count + 1)
        self._call(_library.mezguld_read_linear, address, buffer, count)
        return buffer.raw[:count]

    def write_linear(self, address: int, data: bytes) -> None:
        """Writes bytes from a linear address up, as `write`; the last address is 10FFEFh, and those from 100000h on
        are as in `read_linear`. `NotLoaded`."""
        given = _bytes(data)
        self._call(_library.mezguld_write_linear, _address(address, len(given)), *_given(given))

    def vector(self, interrupt: int) -> tuple[int, int]:
        """Where the vector of an interrupt leads: its segment and offset, as a breakpoint. `NotLoaded`."""
        words = self.read(0, 4 * _number(interrupt, 0xFF, "the interrupt"), 4)
        return int.from_bytes(words[2:], "little"), int.from_bytes(words[:2], "little")

    def write(self, segment: int, offset: int, data: bytes) -> None:
        """Writes bytes from segment:offset on; offsets wrap in their segment. Bytes of the ROM, and where there is
        no memory, stay. `NotLoaded`."""
        segment, offset = _number(segment, 0xFFFF, "the segment"), _number(offset, 0xFFFF, "the offset")
        self._call(_library.mezguld_write, segment, offset, *_given(_bytes(data)))

    def output(self, start: int = 0) -> bytes:
        """What the program wrote to the console, from byte `start` of it on (past the end: nothing). `NotLoaded`."""
        start = _number(start, _MOST_STEPS, "the start")
        with self._held():
            return _taken(
                lambda buffer, size, wanted: _library.mezguld_output(self._handle, start, buffer, size, wanted)
            )

    @property
    def output_count(self) -> int:
        """How many bytes the program has written to the console. `NotLoaded`."""
        return self._count(_library.mezguld_output_count)

    def command(self, line: str | bytes) -> bytes:
        """The answer of the debugger to a line, as `R` or `D 0103:0100`. `NotLoaded`, `CommandSyntax`,
        `BreakpointsFull`, `OutOfMemory`. Ctrl-C in a command `G` is as in `run`."""
        text = _name(line)
        found = _GO.fullmatch(text)
        if found is None:
            return self._answered(text)
        steps = int(found[1] or _GO_STEPS, 16)

        def run(count: int) -> tuple[bytes, bool]:
            answer = self._answered(b"G %X" % count)
            return answer, answer.startswith(b"steps\n")

        def work(is_over: Callable[[], bool]) -> bytes:
            with self._held():
                return _sliced(steps, run, is_over)

        return _served(work, steps)

    def check(self, steps: int) -> tuple[Stopped, str]:
        """Makes at most so many steps, as `run`, under the memory checker, and returns the text of its report, with
        the line about the stop, beside the stop. `findings` gives what it has found as data classes.

        `NotLoaded`; `OutOfMemory`, after which any part of the run was made. Ctrl-C comes at once, but the run is
        made to its end, since a report is of a whole run. Later calls wait for that; `close` does not, and the
        machine is freed then.
        """
        steps = _number(steps, _MOST_STEPS, "steps")

        def work(_: Callable[[], bool]) -> tuple[Stopped, str]:
            with self._held():
                try:
                    stopped, wanted = _Stopped(), ctypes.c_size_t()
                    _check(_library.mezguld_check(self._handle, steps, stopped, wanted))
                    return Stopped(Stop(stopped.why), stopped.code), self._kept(wanted.value).decode("latin-1")
                finally:
                    if self._is_closed:
                        self._free()

        return _served(work, steps, self._left)

    def findings(self) -> Findings:
        """The findings of the last `check`, with the numbers of its errors and notes; none before the first. No
        other call changes them. `OutOfMemory`."""
        counts = [ctypes.c_uint64() for _ in range(3)]
        with self._held():
            self._call(_library.mezguld_finding_counts, *counts)
            records = self._records(_library.mezguld_findings, "mezguld_finding")
            lines = [self._finding_line(number) for number in range(len(records))]
        from . import records as of  # pylint: disable=import-outside-toplevel

        return of.Findings(map(of.finding_of, records, lines), *(count.value for count in counts))

    def _finding_line(self, number: int) -> str:
        """The line of a finding in the report."""
        line = _taken(
            lambda buffer, room, wanted: _library.mezguld_finding_line(self._handle, number, buffer, room, wanted), 160
        )
        return line.decode("latin-1").rstrip("\n")

    def _records(self, function: Callable[..., int], name: str, *last: object) -> list[Any]:
        """The records that a call copies to an array: `last` are its arguments behind the count that it wants."""
        room, wanted = 64, ctypes.c_size_t()
        with self._held():
            while True:
                array = (_STRUCTURES[name] * (room + 1))()
                status = function(self._handle, array, room, wanted, *last)
                if status != _TOO_SMALL:
                    _check(status)
                    return list(array[: wanted.value])
                room = wanted.value

    def blocks(self) -> Blocks:
        """The headers of the block lists, in their order: those of the first list, then those of the list in upper
        memory, if there is one that is not linked. Of a destroyed list they are those before the bad header,
        and `destroyed` is its segment. `NotLoaded`."""
        from .records import Block, Blocks  # pylint: disable=import-outside-toplevel

        end = _STRUCTURES["mezguld_list_end"]()
        records = self._records(_library.mezguld_blocks, "mezguld_block", end)
        return Blocks(
            (Block(it.segment, it.signature == ord("Z"), it.owner, it.size, it.list) for it in records),
            end.at if end.destroyed else None,
        )

    def expanded(self) -> Expanded:
        """Expanded memory: its handles, and what its windows show. `NotLoaded`."""
        from .records import Expanded, PageHandle, Window  # pylint: disable=import-outside-toplevel

        with self._held():
            handles = self._records(_library.mezguld_page_handles, "mezguld_page_handle")
            windows = self._records(_library.mezguld_windows, "mezguld_window")
        return Expanded(
            [PageHandle(it.number, it.pages, bytes(it.name), bool(it.saved)) for it in handles],
            [Window(it.handle, it.page) if it.shows else None for it in windows],
        )

    def extended(self) -> Extended:
        """Extended memory: its blocks, upper memory blocks, the A20 line and the high memory area. `NotLoaded`."""
        from .records import Extended, ExtendedBlock, UpperBlock  # pylint: disable=import-outside-toplevel

        a20, used = ctypes.c_uint32(), ctypes.c_uint32()
        with self._held():
            blocks = self._records(_library.mezguld_extended_blocks, "mezguld_extended_block")
            upper = self._records(_library.mezguld_upper_blocks, "mezguld_upper_block")
            self._call(_library.mezguld_high_memory, a20, used)
        return Extended(
            [ExtendedBlock(it.handle, it.address, it.kib, it.locks) for it in blocks],
            [UpperBlock(it.segment, it.size) for it in upper],
            bool(a20.value),
            bool(used.value),
        )

    def read_page(self, handle: int, page: int, offset: int = 0, count: int | None = None) -> bytes:
        """Bytes of a logical page of a handle of expanded memory, whether a window shows it or not: so many from
        byte `offset` of it on, or all up to the end of its 16,384. `NotLoaded`, `NoHandle`, `NoPage`, `PastEnd`."""
        handle, page = _number(handle, 0xFFFF, "the handle"), _number(page, 0xFFFF, "the page")
        offset = _number(offset, _MOST_STEPS, "the offset")
        count = max(_PAGE - offset, 0) if count is None else _number(count, _PAGE, "the count")
        buffer = ctypes.create_string_buffer(count + 1)
        self._call(_library.mezguld_read_page, handle, page, offset, buffer, count)
        return buffer.raw[:count]

    def read_block(self, handle: int, offset: int = 0, count: int | None = None) -> bytes:
        """Bytes of the block of a handle of extended memory: so many from byte `offset` of it on, or all up to its
        end. `NotLoaded`, `NoHandle`, `PastEnd`."""
        handle, offset = _number(handle, 0xFFFF, "the handle"), _number(offset, _MOST_STEPS, "the offset")
        count = None if count is None else _number(count, _MOST_BLOCK, "the count")
        with self._held():
            if count is None:
                sizes = [it.kib * 1024 for it in self.extended().blocks if it.handle == handle]
                count = max(sum(sizes) - offset, 0)
            buffer = ctypes.create_string_buffer(count + 1)
            self._call(_library.mezguld_read_block, handle, offset, buffer, count)
            return buffer.raw[:count]

    def code(self, segment: int, offset: int, count: int = 8) -> list[Instruction]:
        """So many instructions, at most 4,096, from segment:offset on; offsets wrap in their segment. `NotLoaded`."""
        segment, offset = _number(segment, 0xFFFF, "the segment"), _number(offset, 0xFFFF, "the offset")
        count = _number(count, 0x1000, "the count")
        from .records import Instruction  # pylint: disable=import-outside-toplevel

        found = []
        for line in self.command(f"U {segment:04X}:{offset:04X} {count:X}").decode("latin-1").splitlines():
            place, data, text = line.split(" ", 2)
            found.append(Instruction(int(place[:4], 16), int(place[5:], 16), bytes.fromhex(data), text))
        return found


# ---- the assembler


def assemble(text: str | bytes) -> bytes:
    """The bytes of the COM program that a text is. A `str` is encoded in UTF-8. `LineSyntax`, `LineTwice`,
    `TooLong`, `LineUnknown`, `LineRange`, `OutOfMemory`."""
    given, count = _given(text.encode("utf-8", "surrogatepass") if isinstance(text, str) else _bytes(text))
    line = ctypes.c_size_t()

    def call(buffer: ctypes.Array, size: int, wanted: object) -> int:
        status = _library.mezguld_assemble(given, count, buffer, size, wanted, line)
        if status in _LINES:
            raise _LINES[status](line.value)
        return status

    return _taken(call)


def disassemble(program: bytes) -> bytes:
    """The lines of a COM program of at most 65,278 bytes, which `assemble` makes the same bytes of. `TooLong`,
    `OutOfMemory`."""
    given, count = _given(_bytes(program))
    return _taken(lambda buffer, size, wanted: _library.mezguld_disassemble(given, count, buffer, size, wanted))
