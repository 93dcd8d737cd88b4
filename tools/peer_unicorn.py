"""Each entry of the instruction table in random states against Unicorn. `tools/peers unicorn` calls this with
Debian's Python: CASES SEED JOBS ENTRY.."""
import collections
import multiprocessing
import random
import sys

import opcodes
import stage
from stage import AUXILIARY, CARRY, FLAGS, INTERRUPT, MEMORY, OVERFLOW, PARITY, SIGN, TRAP, WORDS, ZERO

# So many cases stand between two comparisons of all memory.
BATCH = 100
ARITHMETIC = CARRY | PARITY | AUXILIARY | ZERO | SIGN | OVERFLOW
# The flags that an instruction leaves undefined (Intel 8086 Family User's Manual, table 2-21, "Instruction set
# reference data").
UNDEFINED = {
    "AAA": OVERFLOW | SIGN | ZERO | PARITY,
    "AAS": OVERFLOW | SIGN | ZERO | PARITY,
    "AAD": OVERFLOW | AUXILIARY | CARRY,
    "AAM": OVERFLOW | AUXILIARY | CARRY,
    "DAA": OVERFLOW,
    "DAS": OVERFLOW,
    "AND": AUXILIARY,
    "OR": AUXILIARY,
    "XOR": AUXILIARY,
    "TEST": AUXILIARY,
    "MUL": SIGN | ZERO | AUXILIARY | PARITY,
    "IMUL": SIGN | ZERO | AUXILIARY | PARITY,
    "DIV": ARITHMETIC,
    "IDIV": ARITHMETIC,
    "SHL": AUXILIARY,
    "SHR": AUXILIARY,
    "SAR": AUXILIARY,
}
SHIFTS = (0xD2, 0xD3)
# The segments of a case: with any offset the address stays in conventional memory, above the code that sets the
# registers.
LOWEST, HIGHEST = 0x1000, 0x8FFF
BASE = 16 * LOWEST
# Each interrupt leads to a place of its own below the cases.
VECTORS = b"".join((4 * number + 0x100).to_bytes(2, "little") + (0x0800).to_bytes(2, "little") for number in range(256))
RELATIVE = {*opcodes.CONDITIONS, "JMP", "CALL", "LOOP", "LOOPE", "LOOPNE", "JCXZ"}
# What may raise an interrupt. Else an instruction leads to where our machine is after it.
RAISING = {"DIV", "IDIV", "INT", "INT3", "INTO"}
# The interrupt of an instruction that a processor does not know.
INVALID = 6
# What no other machine is needed for: HLT stops, and WAIT and ESC do nothing.
ALONE = {"ESC", "WAIT", "HLT"}


class Stopped(Exception):
    """The case at which Unicorn stops."""


class Case:
    """An instruction, and the state before it."""

    def __init__(self, entry, numbers):
        self.entry = entry
        self.state = {name: numbers.randrange(0x10000) for name in WORDS}
        for name in ("cs", "ds", "es", "ss"):
            self.state[name] = numbers.randrange(LOWEST, HIGHEST + 1)
        # Numbers at the borders are frequent, and so are those that make a division possible.
        for name in ("ax", "bx", "cx", "dx", "si", "di", "bp"):
            if numbers.randrange(4) == 0:
                self.state[name] = numbers.choice(
                    (0, 1, 2, 7, 8, 0xFF, 0x80, 0x7F, 0x7FFF, 0x8000, 0xFFFF, 0x0009, 0x0909)
                )
        if entry.mnemonic in ("DIV", "IDIV") and numbers.randrange(2):
            self.state["dx"] = numbers.randrange(16) if numbers.randrange(2) else 0xFFFF - numbers.randrange(16)
        self.state["ip"] = numbers.randrange(0x100, 0xFF00)
        self.state["flags"] = numbers.randrange(0x1000) & FLAGS & ~TRAP | stage.ALWAYS
        self.is_repeated = entry.first in opcodes.STRINGS and numbers.randrange(2) == 0
        prefixes = []
        if self.is_repeated:
            self.state["cx"] = numbers.randrange(40)
            prefixes.append(numbers.choice((opcodes.REP, opcodes.REPNE)))
        if (entry.is_modrm or entry.first in opcodes.WITHOUT_MODRM) and numbers.randrange(4) == 0:
            prefixes.append(numbers.choice(opcodes.SEGMENTS))
        numbers.shuffle(prefixes)
        body = opcodes.instruction(entry, numbers)
        if entry.mnemonic in RELATIVE and int.from_bytes(body[1:], "little", signed=True) == -len(body):
            # (Unicorn does not say where a jump to itself leads.)
            body = body[:1] + bytes(len(body) - 1)
        # The byte of the mod and r/m fields, if there is one.
        self.modrm = body[1] if entry.is_modrm else None
        self.code = bytes(prefixes) + body
        # (A shift of CX or CL takes no count above 31: it would be changed by the parts of the shift.)
        if entry.first in SHIFTS and (numbers.randrange(2) or self.modrm >= 0xC0 and self.modrm & 7 == 1):
            self.state["cx"] = self.state["cx"] & 0xFF00 | numbers.randrange(32)

    @property
    def place(self):
        """The linear address of the instruction."""
        return 16 * self.state["cs"] + self.state["ip"]

    @property
    def count(self):
        """The count in CL."""
        return self.state["cx"] & 0xFF

    @property
    def after(self):
        """The offset after the instruction."""
        return (self.state["ip"] + len(self.code)) & 0xFFFF

    @property
    def undefined(self):
        """The flags that the instruction leaves undefined."""
        flags = UNDEFINED.get(self.entry.mnemonic, 0)
        if self.entry.first in SHIFTS:
            flags = 0 if self.count == 0 else flags if self.count == 1 else flags | OVERFLOW
        return flags

    def __str__(self):
        return f"{self.entry.name}: {self.code.hex(' ')} with " + " ".join(
            f"{name}={value:04X}" for name, value in self.state.items()
        )


def word(number):
    """A word as memory has it."""
    return (number & 0xFFFF).to_bytes(2, "little")


def interrupted(case, number, read):
    """The state after an interrupt, and the three words that it pushed, the last one first."""
    state = dict(case.state)
    state["sp"] = (state["sp"] - 6) & 0xFFFF
    state["flags"] &= ~(INTERRUPT | TRAP)
    state["ip"], state["cs"] = (int.from_bytes(read(4 * number + at, 2), "little") for at in (0, 2))
    return state, (case.after, case.state["cs"], case.state["flags"])


class Comparison:
    """Both machines, and what differed so far."""

    def __init__(self, numbers):
        self.ours, self.theirs = stage.Ours(), stage.Unicorn()
        self.known, self.faults, self.cases = collections.Counter(), [], 0
        self.memory = numbers.randbytes(MEMORY - BASE)
        self.begin()

    def begin(self):
        """Both machines with the memory that is kept."""
        self.ours.begin()
        self.ours.write(0, VECTORS)
        self.ours.write(BASE, self.memory)
        self.theirs.write(0, VECTORS)
        self.theirs.write(BASE, self.memory)
        self.theirs.machine.ctl_remove_cache(0, MEMORY)

    def restart(self):
        """A new machine of ours, where the old one is out of reach: its memory stays."""
        memory = self.ours.read(BASE, MEMORY - BASE)
        self.ours.begin()
        self.ours.write(0, VECTORS)
        self.ours.write(BASE, memory)

    def write(self, linear, data):
        """Writes bytes to both memories."""
        self.ours.write(linear, data)
        self.theirs.write(linear, data)

    def run(self, case):
        """Makes the case in both machines, and compares the registers. Returns those of ours."""
        self.cases += 1
        self.write(case.place, case.code)
        self.ours.set(case.state)
        why = self.ours.step()
        for _ in range(case.state["cx"] if case.is_repeated else 0):
            now = self.ours.state()
            if (now["cs"], now["ip"]) != (case.state["cs"], case.state["ip"]):
                break
            self.ours.step()
        found = self.ours.state()
        known, wanted, mask = self.wanted(case, found)
        if why != ("HALTED" if case.entry.mnemonic == "HLT" else "STEPS"):
            self.fault(case, f"stopped: {why}")
        for name in WORDS:
            bits = FLAGS & ~mask if name == "flags" else 0xFFFF
            if (found[name] ^ wanted[name]) & bits:
                reason = self.reason(case, found)
                if reason:
                    self.known[reason] += 1
                    self.level()
                else:
                    self.fault(case, f"{name} is {found[name]:04X}, and {wanted[name]:04X} there")
                break
        if known:
            self.known[known] += 1
        if not self.leave(found):
            self.restart()
        return found

    def leave(self, found):
        """Makes our machine go back to the code that sets the registers. False where it cannot."""
        linear = 16 * found["cs"] + found["ip"]
        if linear + 5 > MEMORY or found["ip"] > 0xFFFB or linear < 0x400:
            return False
        jump = b"\xEA" + word(stage.ORIGIN) + word(stage.SEGMENT)
        self.ours.write(linear, jump)
        if linear + 5 > BASE:
            self.theirs.write(linear, jump)
        self.ours.step()
        return True

    def wanted(self, case, found):
        """The state that ours should have: by Unicorn, or by the manual's rule where Unicorn is a newer processor.
        The name of such a difference comes first, and last the flags that are not compared."""
        mnemonic = case.entry.mnemonic
        if mnemonic == "INT" and case.code[-1] == INVALID:
            # (Unicorn takes the call of this interrupt for an instruction that it does not know.)
            return self.by_interrupt(case, INVALID, "")
        if mnemonic in ALONE:
            return "", {**case.state, "ip": case.state["ip"] if mnemonic == "HLT" else case.after}, 0
        theirs, interrupt = self.their(case, self.until(case, found))
        if interrupt is not None and (interrupt != 1 or mnemonic == "INT"):
            return self.by_interrupt(case, interrupt, "")
        if mnemonic == "IDIV" and found["sp"] != case.state["sp"]:
            if theirs["ax"] & (0xFF if case.entry.first == 0xF6 else 0xFFFF) in (0x80, 0x8000):
                return self.by_interrupt(case, 0, "IDIV: the quotient -128 or -32,768 is a division error")
        if mnemonic in ("AAA", "AAS") and theirs["ax"] != found["ax"]:
            low, step = case.state["ax"] & 0xFF, 0x100 if mnemonic == "AAA" else -0x100
            if (low > 0xF9 if step > 0 else low < 6) and (found["ax"] + step) & 0xFFFF == theirs["ax"]:
                return f"{mnemonic}: no carry out of AL", {**theirs, "ax": found["ax"]}, case.undefined
        if (
            mnemonic == "DAS"
            and theirs["flags"] & CARRY
            and not found["flags"] & CARRY
            and case.state["ax"] & 0xFF < 6
            and not case.state["flags"] & CARRY
        ):
            return (
                "DAS: no carry for a borrow out of the low digit",
                {**theirs, "flags": theirs["flags"] & ~CARRY},
                case.undefined,
            )
        return self.pushed(case), theirs, case.undefined

    def by_interrupt(self, case, number, known):
        """The state after an interrupt by the manual's rule; what is pushed is compared, and written to Unicorn's
        memory."""
        state, words = interrupted(case, number, self.ours.read)
        for at, value in enumerate(words):
            self.push(case, (state["sp"] + 2 * at) & 0xFFFF, value)
        return known, state, 0

    def push(self, case, offset, value):
        """Compares a word of our stack, and writes it to Unicorn's memory."""
        for at, byte in ((offset, value & 0xFF), ((offset + 1) & 0xFFFF, value >> 8)):
            linear = 16 * case.state["ss"] + at
            found = self.ours.read(linear, 1)
            if found[0] != byte:
                self.fault(case, f"the byte at {linear:05X} of the stack is {found[0]:02X}, and should be {byte:02X}")
            self.theirs.write(linear, found)

    def pushed(self, case):
        """What PUSH SP and PUSHF store, where that is known to differ: its name, if so."""
        entry, top = case.entry, (case.state["sp"] - 2) & 0xFFFF
        if entry.first == 0x54 or entry.first == 0xFF and entry.reg == 6 and case.modrm & 0xC7 == 0xC4:
            self.push(case, top, top)
            return "PUSH SP: the new value is stored"
        if entry.mnemonic == "PUSHF":
            self.push(case, top, case.state["flags"])
            return "PUSHF: bits 12 to 15 are ones"
        return ""

    @staticmethod
    def until(case, found):
        """Where the case should lead."""
        if case.entry.mnemonic in RAISING:
            return 16 * case.state["cs"] + case.after
        return 16 * found["cs"] + found["ip"]

    def their(self, case, until):
        """The registers after the instruction in Unicorn, and the interrupt that it raised."""
        size, state = len(case.code), dict(case.state)
        self.theirs.machine.ctl_remove_cache(case.place, case.place + size)
        left = case.count if case.entry.first in SHIFTS else 0
        # (Newer processors take the lowest five bits of the count: so the shift is made in parts of at most 31.)
        while left > 31:
            self.theirs.set({**state, "cx": state["cx"] & 0xFF00 | 31})
            self.theirs.step(case.state, until)
            state = {**self.theirs.state(), "ip": case.state["ip"]}
            left -= 31
        if case.entry.first in SHIFTS:
            state["cx"] = state["cx"] & 0xFF00 | left
        self.theirs.set(state)
        try:
            interrupt = self.theirs.step(case.state, until, 0 if case.is_repeated else 1)
        except self.theirs.unicorn.UcError as why:
            raise Stopped(f"{case}: Unicorn stops: {why}") from why
        after = self.theirs.state()
        if case.entry.first in SHIFTS and case.count > 31:
            after["cx"] = after["cx"] & 0xFF00 | case.count
        return after, interrupt

    def reason(self, case, found):
        """Why Unicorn may differ: it does not bear that an instruction changes its own bytes, and its operands may
        cross the end of a segment."""
        if self.ours.read(case.place, len(case.code)) != case.code:
            return "an instruction that changes its own bytes"
        return "an operand across the end of its segment" if self.crosses(case, found) else ""

    def crosses(self, case, found):
        """Whether Unicorn reads or writes behind the end of a segment, where the 8086 goes on at its begin."""
        # (A machine that was watched makes instructions twice later on: so another one is.)
        watched = stage.Unicorn()
        watched.write(0, VECTORS)
        watched.write(BASE, self.theirs.read(BASE, MEMORY - BASE))
        watched.watch()
        watched.set(case.state)
        watched.step(case.state, self.until(case, found), 0 if case.is_repeated else 1)
        bases = [16 * case.state[name] for name in ("ds", "es", "ss", "cs")]
        return any(
            0xFFFF <= address + size - 1 - base <= 0x10003 and address + size - base > 0x10000
            for address, size in watched.accesses
            for base in bases
        )

    def level(self):
        """Makes Unicorn's memory that of ours."""
        self.theirs.write(BASE, self.ours.read(BASE, MEMORY - BASE))
        self.theirs.machine.ctl_remove_cache(0, MEMORY)

    def fault(self, case, text):
        """Keeps what is wrong with a case."""
        self.faults.append(f"{case}: {text}")

    def is_alike(self):
        """Whether both memories are alike."""
        return self.ours.read(BASE, MEMORY - BASE) == self.theirs.read(BASE, MEMORY - BASE)

    def batch(self, cases):
        """Makes cases, and compares memory after them; where it differs, after each of them once more."""
        for case in cases:
            self.run(case)
        if not self.is_alike():
            self.one_by_one(cases)
        self.memory = self.ours.read(BASE, MEMORY - BASE)

    def one_by_one(self, cases):
        """Makes the cases again from the memory before them, and compares it after each."""
        known, faults, made = self.known.copy(), list(self.faults), self.cases
        self.begin()
        for case in cases:
            # (Unicorn may make an instruction twice that writes to a page where code was translated.)
            self.theirs.machine.ctl_remove_cache(0, MEMORY)
            found = self.run(case)
            if not self.is_alike():
                # (To find out whether it crosses, Unicorn makes the case once more.)
                ours, theirs = self.ours.read(BASE, MEMORY - BASE), self.theirs.read(BASE, MEMORY - BASE)
                reason = self.reason(case, found)
                if reason:
                    known[reason] += 1
                else:
                    at = next(at for at, (one, other) in enumerate(zip(ours, theirs)) if one != other)
                    faults.append(f"{case}: the byte at {BASE + at:05X} is {ours[at]:02X}, and {theirs[at]:02X} there")
                self.level()
        self.known, self.faults, self.cases = known, faults, made


def compare(given):
    """The cases of one entry: what is known to differ, and the faults. An instruction at which Unicorn stops is a
    fault, and the last case."""
    place, cases, seed = given
    entry = opcodes.ENTRIES[place]
    numbers = random.Random(f"{seed} {entry.name}")
    comparison = Comparison(numbers)
    try:
        for begin in range(0, cases, BATCH):
            comparison.batch([Case(entry, numbers) for _ in range(min(BATCH, cases - begin))])
    except Stopped as why:
        comparison.faults.append(str(why))
    return entry.name, comparison.cases, comparison.known, comparison.faults


def is_named(entry, names):
    """Whether these names have the entry: its first byte, this with its reg field, or a range of first bytes."""
    for name in names:
        first, _, last = name.upper().partition("-")
        if (
            last
            and int(first, 16) <= entry.first <= int(last, 16)
            or name.upper() in (f"{entry.first:02X}", entry.name.split()[0])
        ):
            return True
    return not names


def main():
    cases, seed, jobs = (int(text) for text in sys.argv[1:4])
    places = [place for place, entry in enumerate(opcodes.ENTRIES) if is_named(entry, sys.argv[4:])]
    if not places:
        sys.exit("tools/peers: no entry of the table has this first byte")
    # (A process of the pool that cannot load the library would be replaced for ever.)
    stage.library()
    made, known, wrong = 0, collections.Counter(), 0
    # (Unicorn keeps memory that it has had: so each entry has a process of its own.)
    with multiprocessing.Pool(jobs, maxtasksperchild=1) as pool:
        for name, count, others, faults in pool.imap(compare, [(place, cases, seed) for place in places], chunksize=1):
            made += count
            known += others
            wrong += len(faults)
            for fault in faults[:5]:
                print(fault)
            if len(faults) > 5:
                print(f"{name}: {len(faults) - 5} more")
            print(
                f"{name}: {count} cases, {sum(others.values())} with a known difference, {len(faults)} others",
                flush=True,
            )
    for name, count in sorted(known.items()):
        print(f"known: {name}: {count}")
    print(f"{len(places)} entries, {made} cases, {sum(known.values())} with a known difference, {wrong} others")
    return 1 if wrong else 0


if __name__ == "__main__":
    sys.exit(main())
