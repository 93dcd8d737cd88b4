"""Single steps that were captured from a real 8088, in the public JSON format: `tools/peers vectors FILE..` calls this.

A file has a list of tests. Each has `bytes`, the instruction; `initial` and `final`, each with `regs` (of `final`
those that changed are enough) and `ram`, pairs of a linear address and a byte; and `name`. What else is there
(cycles, the queue) is not read. A file may be compressed by gzip.
"""
import collections
import gzip
import json

import opcodes
import peer_unicorn
import stage
from stage import FLAGS, WORDS

# The segments that may have the code which sets the registers: of each test the first that shares no byte with it.
SEGMENTS = (0x0103, 0x1103, 0x2103, 0x5103, 0x8103)


class Bad(Exception):
    """What is wrong with a file."""


def tests_of(path):
    """The tests of a file."""
    try:
        with (gzip.open if path.endswith(".gz") else open)(path, "rt", encoding="utf-8") as file:
            tests = json.load(file)
        for test in tests:
            if not {"bytes", "initial", "final"} <= test.keys():
                raise Bad(f"{path}: a test without bytes, initial or final")
            before = test["initial"]["regs"]
            if not set(WORDS) <= before.keys() or any(not 0 <= before[name] <= 0xFFFF for name in WORDS):
                raise Bad(f"{path}: a test without all registers, or with one that is no word")
            if any(not 0 <= byte <= 0xFF for byte in test["bytes"]) or not test["bytes"]:
                raise Bad(f"{path}: the bytes of a test are no bytes")
            for state in (test["initial"], test["final"]):
                if any(not 0 <= at <= 0xFFFFF or not 0 <= byte <= 0xFF for at, byte in state["ram"]):
                    raise Bad(f"{path}: memory of a test is not below 100000h, or no byte")
    except (OSError, ValueError, TypeError, KeyError, AttributeError, EOFError) as error:
        raise Bad(f"{path}: not a file of tests ({type(error).__name__})") from error
    return tests


def entry_of(code):
    """The entry of the table of an instruction, None where it has none; and whether it is repeated."""
    code = list(code)
    prefixes = {*opcodes.SEGMENTS, opcodes.LOCK, opcodes.REP, opcodes.REPNE}
    at = 0
    while at < len(code) and code[at] in prefixes:
        at += 1
    if at == len(code):
        return None, False
    reg = code[at + 1] >> 3 & 7 if at + 1 < len(code) else None
    for entry in opcodes.ENTRIES:
        if (
            entry.first == code[at]
            and entry.reg in (None, reg)
            and (entry.second is None or code[at + 1 : at + 2] == [entry.second])
        ):
            return entry, entry.first in opcodes.STRINGS and bool({opcodes.REP, opcodes.REPNE} & set(code[:at]))
    return None, False


def undefined(entry, before):
    """The flags that are not compared."""
    flags, count = peer_unicorn.UNDEFINED.get(entry.mnemonic, 0), before["cx"] & 0xFF
    if entry.first in peer_unicorn.SHIFTS:
        flags = 0 if count == 0 else flags if count == 1 else flags | stage.OVERFLOW
    return flags


def is_ram(linear):
    """Whether a byte that is written there is kept."""
    return linear < 0xC0000 or 0xD0000 <= linear < 0xE0000


class Player:
    """A machine of ours that plays tests."""

    def __init__(self):
        self.ours, self.counts, self.faults = stage.Ours(), collections.Counter(), []

    def play(self, path, number, test):
        """Plays a test."""
        before, after = test["initial"], test["final"]
        entry, is_repeated = entry_of(test["bytes"])
        places = {at for at, _ in (*before["ram"], *after["ram"])}
        segment = next(
            (
                it
                for it in SEGMENTS
                if not any(16 * it + stage.ORIGIN - 16 <= at <= 16 * it + stage.STACK for at in places)
            ),
            None,
        )
        if entry is None:
            self.counts["no instruction of the table"] += 1
            return
        if segment is None or any(not is_ram(at) for at in places):
            self.counts["memory that is none here"] += 1
            return
        self.ours.begin()
        for at, byte in before["ram"]:
            self.ours.write(at, bytes([byte]))
        self.ours.set(before["regs"], segment)
        self.ours.step()
        now = self.ours.state()
        for _ in range(before["regs"]["cx"] if is_repeated else 0):
            if (now["cs"], now["ip"]) != (before["regs"]["cs"], before["regs"]["ip"]):
                break
            self.ours.step()
            now = self.ours.state()
        self.counts["played"] += 1
        wanted, ram = {**before["regs"], **after["regs"]}, after["ram"]
        if entry.mnemonic in ("DIV", "IDIV") and now["sp"] == (before["regs"]["sp"] - 6) & 0xFFFF:
            # (The interrupt has pushed flags that the division leaves undefined.)
            pushed = {16 * now["ss"] + (now["sp"] + at & 0xFFFF) for at in (4, 5)}
            ram = [(at, byte) for at, byte in ram if at not in pushed]
        self.compare(
            f"{path}: test {number} ({test.get('name', '')})", now, wanted, ram, undefined(entry, before["regs"])
        )

    def compare(self, name, now, wanted, ram, mask):
        """Compares what a test left."""
        for register in WORDS:
            bits = FLAGS & ~mask if register == "flags" else 0xFFFF
            if (now[register] ^ wanted[register]) & bits:
                self.faults.append(f"{name}: {register} is {now[register]:04X}, and should be {wanted[register]:04X}")
        for at, byte in ram:
            found = self.ours.read(at, 1)[0]
            if found != byte:
                self.faults.append(f"{name}: the byte at {at:05X} is {found:02X}, and should be {byte:02X}")


def compare(paths):
    """Plays files, and returns the exit status."""
    player = Player()
    for path in paths:
        try:
            tests = tests_of(path)
        except Bad as why:
            print(f"tools/peers: {why}")
            return 2
        for number, test in enumerate(tests):
            player.play(path, number, test)
    for fault in player.faults[:50]:
        print(fault)
    print(", ".join(f"{count} {what}" for what, count in player.counts.items()) + f"; {len(player.faults)} differences")
    return 1 if player.faults else 0
