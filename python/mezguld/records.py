"""What calls return of memory and of a checked run: data classes, none of which changes. `mezguld` has all of them by
their names.

This module is loaded with the first call that wants one of them, since data classes take longer to make than all
else of the package.
"""
from __future__ import annotations

from dataclasses import dataclass
from typing import Any, Iterable

from . import FindingKind, How

__all__ = [
    "Act",
    "Block",
    "Blocks",
    "Contents",
    "Details",
    "Expanded",
    "Extended",
    "ExtendedBlock",
    "Finding",
    "Findings",
    "Instruction",
    "Origin",
    "PageHandle",
    "Place",
    "UpperBlock",
    "Window",
    "finding_of",
]


# ---- memory


@dataclass(frozen=True)
class Block:
    """A header of a block list of DOS: its own segment (findings have that of its block, one above); whether it is
    signed `Z` as the last of its list; the owner of the block (0: free; 8: DOS; else the segment of a program's PSP);
    the size of the block in paragraphs of 16 bytes; and its list: 0 for the first one, 1 for that of upper memory
    where the first does not lead to it. Its segments print in hexadecimal."""

    segment: int
    last: bool
    owner: int
    size: int
    list: int = 0

    def __repr__(self) -> str:
        return (
            f"Block(segment=0x{self.segment:04X}, last={self.last}, owner=0x{self.owner:04X}, size={self.size},"
            f" list={self.list})"
        )


class Blocks(list):
    """The block lists, as a list of headers. `destroyed` is None, or the segment of the first bad header of a
    destroyed list: the headers are those before it."""

    def __init__(self, blocks: Iterable[Block] = (), destroyed: int | None = None) -> None:
        super().__init__(blocks)
        self.destroyed = destroyed

    def __repr__(self) -> str:
        return f"Blocks({super().__repr__()}{'' if self.destroyed is None else f', destroyed=0x{self.destroyed:04X}'})"


@dataclass(frozen=True)
class PageHandle:
    """A handle of expanded memory: its number, how many pages of 16 KiB it has (they are counted from 0), its name
    of eight bytes, and whether the windows are saved under it."""

    number: int
    pages: int
    name: bytes
    saved: bool = False


@dataclass(frozen=True)
class Window:
    """What a window of the page frame shows: a handle's page, both counted from 0."""

    handle: int
    page: int


@dataclass(frozen=True)
class Expanded:
    """Expanded memory: the handles, and what each of the four windows shows (`None`: nothing)."""

    handles: list[PageHandle]
    windows: list[Window | None]


@dataclass(frozen=True)
class ExtendedBlock:
    """A block of extended memory: its handle, its linear address, its size in KiB, and how often it is locked. Its
    address prints in hexadecimal."""

    handle: int
    address: int
    kib: int
    locks: int

    def __repr__(self) -> str:
        return f"ExtendedBlock(handle={self.handle}, address=0x{self.address:06X}, kib={self.kib}, locks={self.locks})"


@dataclass(frozen=True)
class UpperBlock:
    """An upper memory block of the XMS driver: the segment of its first paragraph, as function 10h returned it, and
    its size in paragraphs. Its segment prints in hexadecimal."""

    segment: int
    size: int

    def __repr__(self) -> str:
        return f"UpperBlock(segment=0x{self.segment:04X}, size={self.size})"


@dataclass(frozen=True)
class Extended:
    """Extended memory: its blocks, the upper memory blocks, whether the A20 line is on, and whether the high memory
    area is in use."""

    blocks: list[ExtendedBlock]
    upper: list[UpperBlock]
    a20: bool
    high_memory_area: bool


@dataclass(frozen=True)
class Instruction:
    """An instruction in memory: where it stands, its bytes and its text; `DB` for a byte with which no instruction
    begins. It prints its address in hexadecimal."""

    segment: int
    offset: int
    data: bytes
    text: str

    def __repr__(self) -> str:
        return (
            f"Instruction(segment=0x{self.segment:04X}, offset=0x{self.offset:04X}, data={self.data!r},"
            f" text={self.text!r})"
        )


# ---- findings


@dataclass(frozen=True)
class Act:
    """What was performed in a step: how, the offset after it (of an instruction), and the numbers of the interrupt
    and of the function that it has. What it does not have is `None`."""

    how: How
    next: int | None = None
    interrupt: int | None = None
    function: int | None = None


@dataclass(frozen=True)
class Place:
    """A place in the code of a program: CS:IP of an instruction, or the address after it (`before`), where only that
    is known. It prints in hexadecimal."""

    cs: int
    ip: int
    before: bool = False

    def __repr__(self) -> str:
        return f"Place(cs=0x{self.cs:04X}, ip=0x{self.ip:04X}, before={self.before})"


@dataclass(frozen=True)
class Origin:
    """The step that freed the memory that a finding is about, or allocated what a program leaves allocated, and
    its place."""

    step: int
    at: Place


@dataclass(frozen=True)
class Contents:
    """Bytes 0 to 4 of a header of a block list: signature, owner, and the size of its block in paragraphs."""

    signature: int
    owner: int
    size: int


@dataclass(frozen=True)
class Details:
    """What a finding is about, by the names of `dm check --json` (`old` and `new` there are `old_contents` and
    `new_contents` here). What its kind does not have is `None`, and is not printed.

    - `header`: the segment of a header; `old_contents` and `new_contents`: what it held before the step and after it;
      `byte`: which byte of it was written, 5 to 15.
    - `block`: the segment of a block's first paragraph, as the call that allocated it returned it, one above that of
      its header, if it has one; `owner`: the PSP of the process that owns it.
    - `segment`, `offset`: the address of the first byte that an instruction touches there.
    - `window`: a window of the page frame, 0 to 3.
    - `handle`: a handle; `pages`: how many pages of 16 KiB it has; `saved`: whether the windows are saved under it;
      `kib`: the size of its block in KiB; `locked`: whether that is locked.
    - `code`: the error code of a call; `wanted`, `available`: the paragraphs that it wants, and those that there are.
    """

    old_contents: Contents | None = None
    new_contents: Contents | None = None
    header: int | None = None
    byte: int | None = None
    block: int | None = None
    owner: int | None = None
    segment: int | None = None
    offset: int | None = None
    window: int | None = None
    handle: int | None = None
    pages: int | None = None
    saved: bool | None = None
    kib: int | None = None
    locked: bool | None = None
    code: int | None = None
    wanted: int | None = None
    available: int | None = None

    def __repr__(self) -> str:
        return f"Details({', '.join(f'{name}={it!r}' for name, it in vars(self).items() if it is not None)})"


@dataclass(frozen=True)
class Finding:
    """A finding of a checked run: its kind, whether it is an error (else a note), the step, the process (the segment
    of its PSP), the place of the step, what was performed, what the finding is about, the step that freed or
    allocated that (`None` where it is not known), how often it occurred again (`more`), the step of the last
    occurrence, and its line in the report."""

    kind: FindingKind
    is_error: bool
    step: int
    process: int
    at: Place
    act: Act
    details: Details
    origin: Origin | None
    more: int
    last: int
    line: str


class Findings(list):
    """The findings that a report lists, in the order in which they happened; `errors` and `notes` count all, and
    `omitted` those beyond the first 100 errors and the first 100 notes, which it does not list."""

    def __init__(self, found: Iterable[Finding] = (), errors: int = 0, notes: int = 0, omitted: int = 0) -> None:
        super().__init__(found)
        self.errors, self.notes, self.omitted = errors, notes, omitted

    def __repr__(self) -> str:
        return f"Findings({super().__repr__()}, errors={self.errors}, notes={self.notes}, omitted={self.omitted})"


# ---- from the records of the library

# The details that a finding of each kind has.
_DETAILS = {
    FindingKind.OVERWRITTEN: "header old_contents new_contents",
    FindingKind.MAPPED_AWAY: "header",
    FindingKind.DESTROYED: "header",
    FindingKind.FREED_TWICE: "block",
    FindingKind.REFUSED: "code",
    FindingKind.NOT_ALLOCATED: "code",
    FindingKind.NOT_ENOUGH_MEMORY: "code wanted available",
    FindingKind.FREE_READ: "block segment offset",
    FindingKind.FREE_WRITTEN: "block segment offset",
    FindingKind.STACK_FREED: "block",
    FindingKind.WINDOW_LOST: "window segment offset",
    FindingKind.ROM_WRITTEN: "segment offset",
    FindingKind.NO_MEMORY_WRITTEN: "segment offset",
    FindingKind.HEADER_BYTE_WRITTEN: "header byte",
    FindingKind.OTHER_FREED: "block owner",
    FindingKind.NOT_RESIZED: "wanted",
    FindingKind.HANDLE_KEPT: "handle pages saved",
    FindingKind.WINDOW_KEPT: "window",
    FindingKind.BLOCK_KEPT: "handle kib locked",
    FindingKind.UPPER_KEPT: "block",
}
# What an act has that was performed in each of these ways.
_ACTS = {
    How.INSTRUCTION: "next",
    How.INTERRUPT: "interrupt",
    How.FUNCTION: "interrupt function",
    How.FAR_CALL: "function",
}


def _detail(record: Any, name: str) -> Any:
    it = getattr(record, name)
    if name in ("old_contents", "new_contents"):
        return Contents(it.signature, it.owner, it.size)
    return bool(it) if name in ("saved", "locked") else it


def _place(record: Any) -> Place:
    return Place(record.cs, record.ip, bool(record.before))


def finding_of(record: Any, line: str) -> Finding:
    kind, how = FindingKind(record.kind), How(record.act.how)
    return Finding(
        kind,
        bool(record.is_error),
        record.step,
        record.process,
        _place(record.at),
        Act(how, **{name: getattr(record.act, name) for name in _ACTS[how].split()}),
        Details(**{name: _detail(record.details, name) for name in _DETAILS.get(kind, "").split()}),
        Origin(record.origin_step, _place(record.origin_at)) if record.origin_step else None,
        record.more,
        record.last,
        line,
    )
