"""The lines of `dm check --json`, worked out from those of `dm check`.

It knows the two forms of a report as docs/manual.md describes them, and nothing of the machine: rows/check, which
loads it without the package, compares what it makes with what `dm check --json` writes.
"""
from __future__ import annotations

import json
import re
from typing import Any, Dict

Members = Dict[str, Any]

# What stands before the words of what a resident program leaves allocated.
RESIDENT = "kept resident: "
WORD = r"([0-9A-F]{4})"
ADDRESS = f"{WORD}:{WORD}"
CONTENTS = f"([0-9A-F]{{2}}) {WORD} {WORD}"
FOUND = re.compile(f"step ([0-9]+), (before )?{ADDRESS} (.+?): (.+)", re.DOTALL)
ORIGIN = re.compile(f"(.+), (allocated|turned on|freed) by step ([0-9]+), (before )?{ADDRESS}", re.DOTALL)
AGAIN = re.compile(r"(.+): ([0-9]+) more, the last at step ([0-9]+)", re.DOTALL)
STOPPED = re.compile(f"stopped: ([a-z ]+?) (at|before) {ADDRESS}(?:: (.+))?")
PROCESS = re.compile(
    f"process {WORD} (.*): parent {WORD}, (?:steps ([0-9]+) to ([0-9]+)|from step ([0-9]+))", re.DOTALL
)
FUNCTION = re.compile(r"(?:INT ([0-9A-F]{2})h|(XMS)) function ([0-9A-F]{2})h(?: \(.*\))?")
COUNTS = re.compile(r"([0-9]+), notes: ([0-9]+)")
INTERRUPT = re.compile(r"INT ([0-9A-F]{2})h")


def hexadecimal(text: str) -> int:
    return int(text, 16)


def flag(text: str | None) -> bool:
    return bool(text)


# For each kind of finding its text, and the names of the parts in it with how they are read.
KINDS: list[tuple[str, str, list[Any]]] = [
    ("mapped_away", f"header at {WORD} mapped away", [("header", hexadecimal)]),
    ("destroyed", f"block list destroyed at {WORD}", [("header", hexadecimal)]),
    ("valid", "block list valid again", []),
    ("freed_twice", f"block at {WORD} freed twice", [("block", hexadecimal)]),
    ("division_error", "division error ended the process", []),
    ("not_served", "not served", []),
    (
        "not_enough_memory",
        "refused with code ([0-9A-F]{2})h, not enough memory: ([0-9]+) paragraphs? wanted, ([0-9]+) available",
        [("code", hexadecimal), ("wanted", int), ("available", int)],
    ),
    ("refused", "refused with code ([0-9A-F]{2})h(?:, .+)?", [("code", hexadecimal)]),
    (
        "handle_kept",
        "EMS handle ([0-9]+): ([0-9]+) pages? not freed(, map not restored)?",
        [("handle", int), ("pages", int), ("saved", flag)],
    ),
    ("window_kept", "window ([0-9]+) still mapped", [("window", int)]),
    (
        "block_kept",
        "XMS handle ([0-9]+): ([0-9]+) KiB not freed(, locked)?",
        [("handle", int), ("kib", int), ("locked", flag)],
    ),
    ("upper_kept", f"upper memory block at {WORD} not freed", [("block", hexadecimal)]),
    ("area_kept", "HMA not released", []),
    ("line_kept", "A20 left on", []),
    ("free_read", f"reads {ADDRESS} in the free block at {WORD}", ["address", ("block", hexadecimal)]),
    ("free_written", f"writes {ADDRESS} in the free block at {WORD}", ["address", ("block", hexadecimal)]),
    ("stack_freed", f"the stack is in the free block at {WORD}", [("block", hexadecimal)]),
    ("window_lost", f"writes {ADDRESS} in window ([0-9]+), which shows no page", ["address", ("window", int)]),
    ("rom_written", f"writes {ADDRESS} in the ROM", ["address"]),
    ("no_memory_written", f"writes {ADDRESS}, where there is no memory", ["address"]),
    ("header_byte_written", f"byte ([0-9]+) of the header at {WORD} written", [("byte", int), ("header", hexadecimal)]),
    ("other_freed", f"block at {WORD} of process {WORD} freed", [("block", hexadecimal), ("owner", hexadecimal)]),
    ("not_resized", "block not resized to ([0-9]+) paragraphs?", [("wanted", int)]),
]

# The order in which parts stand in an object.
ORDER = [
    "header",
    "block",
    "handle",
    "window",
    "code",
    "old",
    "new",
    "byte",
    "owner",
    "wanted",
    "available",
    "pages",
    "saved",
    "kib",
    "locked",
    "address",
    "segment",
    "offset",
]


def address(names: tuple[str, str, str], segment: str, offset: str) -> Members:
    """An address: its text, and its numbers."""
    return dict(zip(names, (f"{segment}:{offset}", int(segment, 16), int(offset, 16))))


def contents(signature: str, owner: str, size: str) -> Members:
    return {"signature": int(signature, 16), "owner": int(owner, 16), "size": int(size, 16)}


def site(segment: str, offset: str, before: bool) -> Members:
    return {**address(("at", "cs", "ip"), segment, offset), "before": before}


def act(text: str) -> Members:
    """A call with its numbers, or an instruction."""
    found = FUNCTION.fullmatch(text)
    if found:
        interrupt = {} if found[2] else {"interrupt": int(found[1], 16)}
        return {"call": text, **interrupt, "function": int(found[3], 16)}
    if text == "interrupt 0":
        return {"call": text, "interrupt": 0}
    found = INTERRUPT.fullmatch(text)
    if found:
        return {"call": text, "interrupt": int(found[1], 16)}
    return {"instruction": text}


def about(text: str, is_error: bool) -> tuple[str, Members]:
    """The kind of a finding, and what it is about; `unknown` for words of another version."""
    found = re.fullmatch(f"header at {WORD} overwritten: {CONTENTS} became {CONTENTS}", text)
    if found:
        return "overwritten", {
            "header": int(found[1], 16),
            "old": contents(*found.groups()[1:4]),
            "new": contents(*found.groups()[4:]),
        }
    rest = text[len(RESIDENT) :] if text.startswith(RESIDENT) else text
    for kind, pattern, parts in KINDS:
        found = re.fullmatch(pattern, rest)
        if not found:
            continue
        values, members = list(found.groups()), {}
        for part in parts:
            if part == "address":
                members.update(address(("address", "segment", "offset"), values.pop(0), values.pop(0)))
            else:
                members[part[0]] = part[1](values.pop(0))
        if kind == "refused" and is_error:
            kind = "not_allocated"
        return kind, {name: members[name] for name in ORDER if name in members}
    return "unknown", {}


def groups(pattern: re.Pattern[str], text: str) -> tuple[Any, ...]:
    """The parts of a text that has this form."""
    found = pattern.fullmatch(text)
    if found is None:
        raise ValueError(f"no line of a report: {text!r}")
    return found.groups()


def origin(text: str) -> tuple[str, Members]:
    """The words of a finding without the step that allocated, turned on or freed what it is about, and that step, if
    it is named."""
    found = ORIGIN.fullmatch(text)
    if not found:
        return text, {}
    words, verb, step, before, segment, offset = found.groups()
    return words, {f"{verb.replace(' ', '_')}_by": {"step": int(step), **site(segment, offset, bool(before))}}


def finding(text: str, is_error: bool) -> Members:
    """The members of a finding."""
    step, before, segment, offset, performed, what = groups(FOUND, text)
    words, by = origin(what)
    kind, members = about(words, is_error)
    return {
        "kind": kind,
        "step": int(step),
        **site(segment, offset, bool(before)),
        **act(performed),
        **members,
        **by,
        "text": what,
    }


def stopped(line: str) -> Members:
    """The object about a run that stopped before the program ended."""
    reason, place, segment, offset, what = groups(STOPPED, line)
    code: Members = {}
    if reason == "unlisted":
        code = {"bytes": [int(byte, 16) for byte in what.split()]}
    elif what:
        code = act(what)
    return {"type": "stopped", "reason": reason, **site(segment, offset, place == "before"), **code}


def process(line: str) -> Members:
    """The object about a process."""
    prefix, name, parent, first, last, only = groups(PROCESS, line)
    ended: Members = {"last": int(last)} if last else {}
    return {
        "type": "process",
        "process": int(prefix, 16),
        "name": name,
        "parent": int(parent, 16),
        "first": int(first or only),
        **ended,
    }


def objects(lines: list[str], status: int | None) -> list[Any]:
    """The objects for the lines of a report, the last of which has the exit code if the program ended; None for the
    code if the status hides it. A line of another kind, as that of a fault, stays as it is."""
    errors: set[str] = set()
    made: list[Any] = []
    for line in lines:
        word, _, rest = line.partition(": ")
        if word in ("error", "note"):
            if word == "error":
                errors.add(rest)
            made.append({"type": word, **finding(rest, word == "error")})
        elif word == "again":
            text, more, last = groups(AGAIN, rest)
            made.append({"type": "again", **finding(text, text in errors), "more": int(more), "last": int(last)})
        elif word == "omitted":
            made.append({"type": "omitted", "findings": int(rest.split()[0])})
        elif word == "errors":
            first, second = groups(COUNTS, rest)
            made.append({"type": "summary", "errors": int(first), "notes": int(second)})
            made.append({"type": "exited", "code": status})
        elif word.startswith("process "):
            made.insert(-1, process(line))
        elif word == "stopped":
            made[-1] = stopped(line)
        else:
            made.append(line)
    return made


def text_of(made: Any) -> str:
    """The line of an object, or a line that is none."""
    return made if isinstance(made, str) else json.dumps(made, ensure_ascii=False, separators=(",", ":"))
