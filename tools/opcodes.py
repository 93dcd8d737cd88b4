"""The instruction table of the 8086 (Intel 8086 Family User's Manual, section 4, tables 4-13 and 4-14), and random
instructions of each of its entries.

An entry is a first byte, and in a group the reg field. `ENTRIES` is written by hand from the manual, apart from
crates/dm_ins, so that both can be compared.
"""
from typing import NamedTuple

ARITHMETIC = ("ADD", "OR", "ADC", "SBB", "AND", "SUB", "XOR", "CMP")
CONDITIONS = ("JO", "JNO", "JB", "JAE", "JZ", "JNZ", "JBE", "JA", "JS", "JNS", "JP", "JNP", "JL", "JGE", "JLE", "JG")
SHIFTS = {0: "ROL", 1: "ROR", 2: "RCL", 3: "RCR", 4: "SHL", 5: "SHR", 7: "SAR"}
UNARY = {0: "TEST", 2: "NOT", 3: "NEG", 4: "MUL", 5: "IMUL", 6: "DIV", 7: "IDIV"}
STRINGS = {
    0xA4: "MOVSB",
    0xA5: "MOVSW",
    0xA6: "CMPSB",
    0xA7: "CMPSW",
    0xAA: "STOSB",
    0xAB: "STOSW",
    0xAC: "LODSB",
    0xAD: "LODSW",
    0xAE: "SCASB",
    0xAF: "SCASW",
}
# The prefixes that say where memory operands are, in the order of the segment registers' numbers.
SEGMENTS = (0x26, 0x2E, 0x36, 0x3E)
LOCK, REPNE, REP = 0xF0, 0xF2, 0xF3


class Entry(NamedTuple):
    """An entry of the table: the first byte, the reg field (None where the entry is for all or has no such field),
    the mnemonic, whether a byte with the mod and r/m fields follows, whether it must name memory, how many bytes of
    immediates or displacements follow, and the second byte that AAM and AAD have."""

    first: int
    reg: int | None
    mnemonic: str
    is_modrm: bool = False
    is_memory: bool = False
    after: int = 0
    second: int | None = None

    @property
    def name(self) -> str:
        """The entry as reports name it."""
        return f"{self.first:02X}" + ("" if self.reg is None else f"/{self.reg}") + f" {self.mnemonic}"


def _made() -> list[Entry]:
    entries: list[Entry] = []

    def entry(first: int, mnemonic: str, **more: object) -> None:
        entries.append(Entry(first, more.pop("reg", None), mnemonic, **more))

    for number, mnemonic in enumerate(ARITHMETIC):
        for form in range(4):
            entry(8 * number + form, mnemonic, is_modrm=True)
        entry(8 * number + 4, mnemonic, after=1)
        entry(8 * number + 5, mnemonic, after=2)
        for first, size in ((0x80, 1), (0x81, 2), (0x82, 1), (0x83, 1)):
            entry(first, mnemonic, reg=number, is_modrm=True, after=size)
    for number in range(4):
        entry(8 * number + 6, "PUSH")
        if number != 1:
            entry(8 * number + 7, "POP")
    for first, mnemonic in (
        (0x27, "DAA"),
        (0x2F, "DAS"),
        (0x37, "AAA"),
        (0x3F, "AAS"),
        (0x98, "CBW"),
        (0x99, "CWD"),
        (0x9B, "WAIT"),
        (0x9C, "PUSHF"),
        (0x9D, "POPF"),
        (0x9E, "SAHF"),
        (0x9F, "LAHF"),
        (0xC3, "RET"),
        (0xCB, "RETF"),
        (0xCC, "INT3"),
        (0xCE, "INTO"),
        (0xCF, "IRET"),
        (0xD7, "XLAT"),
        (0xF4, "HLT"),
        (0xF5, "CMC"),
        (0xF8, "CLC"),
        (0xF9, "STC"),
        (0xFA, "CLI"),
        (0xFB, "STI"),
        (0xFC, "CLD"),
        (0xFD, "STD"),
        (0xEC, "IN"),
        (0xED, "IN"),
        (0xEE, "OUT"),
        (0xEF, "OUT"),
        *STRINGS.items(),
    ):
        entry(first, mnemonic)
    for number in range(8):
        entry(0x40 + number, "INC")
        entry(0x48 + number, "DEC")
        entry(0x50 + number, "PUSH")
        entry(0x58 + number, "POP")
        entry(0x90 + number, "XCHG")
        entry(0xB0 + number, "MOV", after=1)
        entry(0xB8 + number, "MOV", after=2)
        entry(0xD8 + number, "ESC", is_modrm=True)
    for number, mnemonic in enumerate(CONDITIONS):
        entry(0x70 + number, mnemonic, after=1)
    for first, mnemonic in (
        (0x84, "TEST"),
        (0x85, "TEST"),
        (0x86, "XCHG"),
        (0x87, "XCHG"),
        (0x88, "MOV"),
        (0x89, "MOV"),
        (0x8A, "MOV"),
        (0x8B, "MOV"),
    ):
        entry(first, mnemonic, is_modrm=True)
    for first, mnemonic in ((0x8D, "LEA"), (0xC4, "LES"), (0xC5, "LDS")):
        entry(first, mnemonic, is_modrm=True, is_memory=True)
    for reg in range(4):
        entry(0x8C, "MOV", reg=reg, is_modrm=True)
        if reg != 1:
            entry(0x8E, "MOV", reg=reg, is_modrm=True)
    for first, mnemonic, size in ((0x8F, "POP", 0), (0xC6, "MOV", 1), (0xC7, "MOV", 2)):
        entry(first, mnemonic, reg=0, is_modrm=True, after=size)
    for first, mnemonic, size in (
        (0x9A, "CALLF", 4),
        (0xEA, "JMPF", 4),
        (0xE8, "CALL", 2),
        (0xE9, "JMP", 2),
        (0xEB, "JMP", 1),
        (0xC2, "RET", 2),
        (0xCA, "RETF", 2),
        (0xCD, "INT", 1),
        (0xE0, "LOOPNE", 1),
        (0xE1, "LOOPE", 1),
        (0xE2, "LOOP", 1),
        (0xE3, "JCXZ", 1),
        (0xE4, "IN", 1),
        (0xE5, "IN", 1),
        (0xE6, "OUT", 1),
        (0xE7, "OUT", 1),
        (0xA8, "TEST", 1),
        (0xA9, "TEST", 2),
        (0xA0, "MOV", 2),
        (0xA1, "MOV", 2),
        (0xA2, "MOV", 2),
        (0xA3, "MOV", 2),
    ):
        entry(first, mnemonic, after=size)
    for first in range(0xD0, 0xD4):
        for reg, mnemonic in SHIFTS.items():
            entry(first, mnemonic, reg=reg, is_modrm=True)
    entry(0xD4, "AAM", second=0x0A)
    entry(0xD5, "AAD", second=0x0A)
    for first in (0xF6, 0xF7):
        for reg, mnemonic in UNARY.items():
            entry(first, mnemonic, reg=reg, is_modrm=True, after=(first - 0xF5) * (mnemonic == "TEST"))
    for first in (0xFE, 0xFF):
        entry(first, "INC", reg=0, is_modrm=True)
        entry(first, "DEC", reg=1, is_modrm=True)
    for reg, mnemonic, is_memory in (
        (2, "CALL", False),
        (3, "CALLF", True),
        (4, "JMP", False),
        (5, "JMPF", True),
        (6, "PUSH", False),
    ):
        entry(0xFF, mnemonic, reg=reg, is_modrm=True, is_memory=is_memory)
    return sorted(entries, key=lambda it: (it.first, it.reg or 0))


ENTRIES = _made()
# What is addressed: A0h to A3h have an offset, the strings and XLAT their registers.
WITHOUT_MODRM = {0xA0, 0xA1, 0xA2, 0xA3, 0xD7, *STRINGS}


def displacement_size(modrm: int) -> int:
    """How many bytes of displacement follow a byte of mod and r/m fields."""
    mod, rm = modrm >> 6, modrm & 7
    return (2 if rm == 6 else 0, 1, 2, 0)[mod]


def is_memory(modrm: int) -> bool:
    """Whether the fields name memory."""
    return modrm >> 6 != 3


def instruction(entry: Entry, random, mod: int | None = None, rm: int | None = None) -> bytes:
    """A random instruction of an entry, without prefixes; `mod` and `rm` are those fields, if given."""
    code = bytearray([entry.first])
    if entry.second is not None:
        code.append(entry.second)
    if entry.is_modrm:
        mod = random.randrange(3 if entry.is_memory else 4) if mod is None else mod
        rm = random.randrange(8) if rm is None else rm
        reg = random.randrange(8) if entry.reg is None else entry.reg
        modrm = mod << 6 | reg << 3 | rm
        code.append(modrm)
        code += random.randbytes(displacement_size(modrm))
    return bytes(code + random.randbytes(entry.after))
