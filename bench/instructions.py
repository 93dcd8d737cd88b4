"""The programs of bench/measure: what is repeated in them, by mnemonic and by the kind of the operands.

A sample has a body, which is measured, and what stands before it in each repetition but is not: the cost of a loop of
the latter alone is subtracted. In each text `{i}` is the number of the repetition. The registers are as START leaves
them, the flags are those of the sample's `setup`.
"""
COPIES, STRING_COPIES, REPEATS = 32, 4, 64
# BX, BP, SI and DI point to zeros, AX, CX and DX hold small numbers, the stack is FFF0h, and a far address of the
# sample's own code stands above it.
START = (
    "MOV SP,0FFF0h",
    "MOV BX,2000h",
    "MOV BP,2100h",
    "MOV SI,3000h",
    "MOV DI,5000h",
    "MOV AX,5",
    "MOV DX,2",
    "MOV CX,3",
    "MOV WORD [0FFF2h],CS",
    "MOV WORD [0FFF4h],0F202h",
    "MOV WORD [2402h],CS",
    "CLD",
)
STACK = "MOV SP,0FFF0h"
# Flags: zero and even; sign, carry and odd; sign and overflow.
ZERO, CARRY, OVERFLOW = ("XOR AL,AL",), ("MOV AL,1", "SUB AL,3"), ("MOV AL,7Fh", "ADD AL,1")
TAKEN = {
    "JO": OVERFLOW,
    "JNO": ZERO,
    "JB": CARRY,
    "JAE": ZERO,
    "JZ": ZERO,
    "JNZ": CARRY,
    "JBE": ZERO,
    "JA": OVERFLOW,
    "JS": CARRY,
    "JNS": ZERO,
    "JP": ZERO,
    "JNP": CARRY,
    "JL": CARRY,
    "JGE": ZERO,
    "JLE": ZERO,
    "JG": OVERFLOW,
}
NOT_TAKEN = {
    "JO": ZERO,
    "JNO": OVERFLOW,
    "JB": ZERO,
    "JAE": CARRY,
    "JZ": CARRY,
    "JNZ": ZERO,
    "JBE": OVERFLOW,
    "JA": ZERO,
    "JS": ZERO,
    "JNS": CARRY,
    "JP": CARRY,
    "JNP": ZERO,
    "JL": ZERO,
    "JGE": CARRY,
    "JLE": OVERFLOW,
    "JG": ZERO,
}


class Sample:
    """A few lines that are measured."""

    def __init__(
        self, mnemonic, kind, body, before=(), setup=(), copies=COPIES, steps=1, start=START, tail=(), parts=1
    ):
        self.mnemonic, self.kind, self.copies, self.steps, self.start, self.tail = (
            mnemonic,
            kind,
            copies,
            steps,
            start,
            tuple(tail),
        )
        # The figure is that of the body, divided by its parts.
        self.parts = parts
        self.body, self.before, self.setup = tuple(lines_of(body)), tuple(lines_of(before)), tuple(lines_of(setup))

    @property
    def name(self):
        return f"{self.mnemonic} {self.kind}".strip()

    def text(self, with_body):
        """The program: with the body, or without it, to be subtracted."""
        lines = [*self.start, *self.setup, "again:"]
        for i in range(self.copies):
            lines += [
                it.replace("{i}", str(i))
                for it in (*self.before, *(self.body if with_body else (it for it in self.body if it.endswith(":"))))
            ]
        return "".join(f"{it}\n" for it in (*lines, "JMP again", *self.tail))

    def turn(self, with_body):
        """The steps of a turn."""
        return self.copies * (sum(steps_of(it) for it in self.before) + (self.steps if with_body else 0)) + 1


def lines_of(text):
    return (text,) if isinstance(text, str) else text


def steps_of(line):
    """The steps of a line that stands before a body: a call of a service has two, and a far transfer to a number is
    written as its bytes, DB and DW."""
    return 2 if line.startswith("INT ") else 0 if line.startswith("DW") else 1


def two_operands():
    for name in ("ADD", "OR", "ADC", "SBB", "AND", "SUB", "XOR", "CMP", "TEST", "MOV"):
        for kind in (
            "AL,DL",
            "AX,DX",
            "[BX],DL",
            "[BX],DX",
            "AL,[BX]",
            "AX,[BX]",
            "AL,5",
            "AX,1234h",
            "CL,5",
            "DX,1234h",
            "DX,5",
            "BYTE [BX],5",
            "WORD [BX],1234h",
        ):
            yield Sample(name, kind, f"{name} {kind}")
    for name in ("ADD", "MOV"):
        for kind in (
            "AX,[BX+SI+7]",
            "AX,[BP]",
            "AX,[2001h]",
            "AX,[BX+1234h]",
            "[2001h],AX",
            "[BP+DI],AL",
            "AL,[2001h]",
            "[2001h],AL",
        ):
            yield Sample(name, kind, f"{name} {kind}")
        yield Sample(name, "AX,[DI] at FFFFh", f"{name} AX,[DI]", setup="MOV DI,0FFFFh")
        yield Sample(name, "AX,ES:[BX]", f"ES {name} AX,[BX]")
        yield Sample(name, "ES:[BX],AX", f"ES {name} [BX],AX")
    for kind in ("AX,ES", "DX,DS", "[BX],CS", "[BX],SS"):
        yield Sample("MOV", kind, f"MOV {'WORD ' if '[' in kind else ''}{kind}")
    for to in ("ES", "DS", "SS"):
        yield Sample("MOV", f"{to},AX", f"MOV {to},AX", setup="MOV AX,DS")
        yield Sample(
            "MOV", f"{to},[BX]", f"MOV {to},{'WORD ' if WORD_BEFORE_SEGMENT else ''}[BX]", setup="MOV WORD [BX],DS"
        )
    for kind in ("AX,DX", "SI,DI", "AL,DL", "[BX],AX", "[BX],AL"):
        yield Sample("XCHG", kind, f"XCHG {kind}")
    for kind in ("AX,[BX+SI]", "DX,[2000h]", "SI,[BP+5]"):
        yield Sample("LEA", kind, f"LEA {kind}")
    yield Sample("LES", "DX,[BX]", "LES DX,[BX]")
    yield Sample("LDS", "DX,[BX]", "LDS DX,[BX]", setup=("MOV WORD [2002h],DS",))


# Whether the assembler wants the size of memory beside a segment register.
WORD_BEFORE_SEGMENT = True


def one_operand():
    for name in ("INC", "DEC", "NEG", "NOT"):
        for kind in ("AL", "AX", "BYTE [BX]", "WORD [BX]"):
            yield Sample(name, kind, f"{name} {kind}")
    for name in ("ROL", "ROR", "RCL", "RCR", "SHL", "SHR", "SAR"):
        for kind in ("AL", "AX", "BYTE [BX]", "WORD [BX]"):
            yield Sample(name, f"{kind},1", f"{name} {kind},1")
            yield Sample(name, f"{kind},CL", f"{name} {kind},CL")
        yield Sample(name, "AX,CL with CL = 255", f"{name} AX,CL", setup="MOV CL,255")
    for name in ("MUL", "IMUL"):
        for kind in ("DL", "DX", "BYTE [BX]", "WORD [BX]"):
            yield Sample(name, kind, f"{name} {kind}")
    for name in ("DIV", "IDIV"):
        for kind in ("CL", "CX", "BYTE [BX]", "WORD [BX]"):
            yield Sample(name, kind, f"{name} {kind}", before=("MOV AX,300", "MOV DX,0"), setup="MOV WORD [BX],303h")
    for kind in ("AX", "WORD [BX]", "CS", "DS", "ES", "SS"):
        yield Sample("PUSH", kind, f"PUSH {kind}", before=STACK)
    for kind in ("AX", "WORD [BX]", "DS", "ES", "SS"):
        yield Sample("POP", kind, f"POP {kind}", before=STACK, setup="MOV WORD [0FFF0h],DS")
    yield Sample("PUSHF", "", "PUSHF", before=STACK)
    yield Sample("POPF", "", "POPF", before=STACK, setup="MOV WORD [0FFF0h],0F202h")


def no_operand():
    for name in (
        "AAA",
        "AAD",
        "AAM",
        "AAS",
        "CBW",
        "CLC",
        "CLD",
        "CLI",
        "CMC",
        "CWD",
        "DAA",
        "DAS",
        "LAHF",
        "SAHF",
        "STC",
        "STD",
        "STI",
        "WAIT",
        "XLAT",
    ):
        yield Sample(name, "", name)
    yield Sample("ESC", "5,[BX]", "ESC 5,WORD [BX]")
    yield Sample("ESC", "5,AX", "ESC 5,AX")
    for kind in ("AL,60h", "AX,60h", "AL,DX", "AX,DX"):
        yield Sample("IN", kind, f"IN {kind}")
    for kind in ("60h,AL", "60h,AX", "DX,AL", "DX,AX"):
        yield Sample("OUT", kind, f"OUT {kind}")
    yield Sample("LOCK", "INC AX", "LOCK INC AX")


def jumps():
    for name, flags in TAKEN.items():
        yield Sample(name, "taken", (f"{name} n{{i}}", "n{i}:"), setup=flags)
    for name, flags in NOT_TAKEN.items():
        yield Sample(name, "not taken", (f"{name} n{{i}}", "n{i}:"), setup=flags)
    for name, flags in (("LOOP", ()), ("LOOPE", ZERO), ("LOOPNE", CARRY)):
        yield Sample(name, "", (f"{name} n{{i}}", "n{i}:"), setup=(*flags, "MOV CX,0F000h"))
    yield Sample("JCXZ", "taken", ("JCXZ n{i}", "n{i}:"), setup="MOV CX,0")
    yield Sample("JCXZ", "not taken", ("JCXZ n{i}", "n{i}:"))
    # (A target is written into a register or memory, or pushed, before each.)
    into, stacked = "MOV AX,n{i}", "MOV WORD [0FFF0h],n{i}"
    pointer = "MOV WORD [2400h],n{i}"
    yield Sample("JMP", "NEAR", ("JMP n{i}", "n{i}:"))
    yield Sample("JMP SHORT", "", ("JMP SHORT n{i}", "n{i}:"))
    yield Sample("JMP", "AX", ("JMP AX", "n{i}:"), before=into)
    yield Sample("JMP", "NEAR [2400h]", ("JMP NEAR [2400h]", "n{i}:"), before=pointer)
    yield Sample("JMP FAR", "0103h:n", ("DB 0EAh", "DW n{i},0103h", "n{i}:"))
    yield Sample("JMP FAR", "[2400h]", ("JMP FAR [2400h]", "n{i}:"), before=pointer)
    yield Sample("CALL", "NEAR", ("CALL n{i}", "n{i}:"), before=STACK)
    yield Sample("CALL", "AX", ("CALL AX", "n{i}:"), before=(STACK, into))
    yield Sample("CALL", "NEAR [2400h]", ("CALL NEAR [2400h]", "n{i}:"), before=(STACK, pointer))
    yield Sample("CALL FAR", "0103h:n", ("DB 9Ah", "DW n{i},0103h", "n{i}:"), before=STACK)
    yield Sample("CALL FAR", "[2400h]", ("CALL FAR [2400h]", "n{i}:"), before=(STACK, pointer))
    for name in ("RET", "RET 4", "RETF", "RETF 4", "IRET"):
        mnemonic, _, kind = name.partition(" ")
        yield Sample(mnemonic, kind, (name, "n{i}:"), before=(STACK, stacked))
    for name, kind, number, flags in (
        ("INT", "60h", 0x60, ()),
        ("INT3", "", 3, ()),
        ("INTO", "with overflow", 4, OVERFLOW),
    ):
        setup = ("XOR AX,AX", "MOV ES,AX", f"ES MOV WORD [{4 * number + 2:05X}h],CS", *flags)
        yield Sample(
            name,
            kind,
            (f"{name} {kind if number == 0x60 else ''}".strip(), "n{i}:"),
            before=(STACK, f"ES MOV WORD [{4 * number:05X}h],n{{i}}"),
            setup=setup,
        )
    yield Sample("INTO", "without overflow", "INTO", setup=ZERO)


def strings():
    for name in ("MOVS", "CMPS", "STOS", "LODS", "SCAS"):
        for width in "BW":
            for direction, way in (("CLD", "upwards"), ("STD", "downwards")):
                whole = f"{name}{width}"
                yield Sample(whole, way, whole, setup=direction)
                prefix, equal = {"CMPS": ("REPE", ()), "SCAS": ("REPE", ("MOV AX,0",))}.get(name, ("REP", ()))
                yield repeated(whole, way, prefix, (direction, *equal))
                if name == "SCAS":
                    yield repeated(whole, way, "REPNE", (direction, "MOV AX,101h"))


def repeated(whole, way, prefix, setup, before=("MOV SI,3000h", "MOV DI,5000h"), kind=None, repeats=REPEATS, **more):
    """A repetition of a string instruction."""
    kind = kind or f"{way}, {prefix}"
    return Sample(
        whole,
        kind,
        f"{prefix} {whole}",
        before=(*before, f"MOV CX,{repeats}"),
        setup=setup,
        copies=STRING_COPIES,
        steps=repeats,
        parts=repeats,
        **more,
    )


def samples():
    return [*two_operands(), *one_operand(), *no_operand(), *jumps(), *strings()]


# ---- elsewhere than in plain conventional memory


def moved(kind, segment, setup=(), before=(), body="ADD AX,DX", **more):
    """A sample whose loop is copied to another segment, and runs there."""
    copied = ("MOV SI,again", "MOV DI,again", "MOV CX,ende", "SUB CX,SI", "REP MOVSB", "DB 0EAh", f"DW again,{segment}")
    return Sample(
        "code",
        kind,
        body,
        before=before,
        setup=(*setup, f"MOV AX,{segment}", "MOV ES,AX", *copied),
        tail=("ende:",),
        **more,
    )


# A call is two steps: INT, and the service, which goes back. A page in each of two windows:
PAGE = (
    "MOV AH,43h",
    "MOV BX,4",
    "INT 67h",
    "MOV AX,4400h",
    "MOV BX,0",
    "INT 67h",
    "MOV AX,4401h",
    "MOV BX,1",
    "INT 67h",
)
A20 = ("MOV AH,3", "DB 9Ah", "DW 0400h,0F000h")
XMS = ("DB 9Ah", "DW 0400h,0F000h")
REGISTERS = ("MOV BX,2000h", "MOV SI,3000h", "MOV DI,5000h")


def elsewhere():
    """What is measured of windows, upper memory, the high memory area, and services, by name."""
    yield "a step of code at D000h", moved("D000h", "0D000h")
    yield "a step of code in a window", moved("a window", "0E000h", PAGE)
    remaps = ("MOV AX,4401h", "MOV BX,0", "INT 67h")
    yield "a step of code in a window, after another one is remapped", moved(
        "a window, remapped", "0E000h", PAGE, remaps
    )
    yield "a step of code at B800h", moved("B800h", "0B800h")
    yield "a step of code in the high memory area", moved("FFFFh", "0FFFFh", A20)
    yield "a repetition of MOVSB by code at D000h", moved(
        "D000h, repeated",
        "0D000h",
        before=("MOV SI,1000h", "MOV DI,2000h", f"MOV CX,{REPEATS}"),
        body="REP MOVSB",
        copies=STRING_COPIES,
        steps=REPEATS,
        parts=REPEATS,
    )
    for where, segment, setup in (
        ("a window", "0E000h", PAGE),
        ("D000h", "0D000h", ()),
        ("B800h", "0B800h", ()),
        ("the high memory area", "0FFFFh", A20),
    ):
        full = (*setup, f"MOV AX,{segment}", "MOV DS,AX", "MOV ES,AX", *REGISTERS)
        yield f"a step that reads a word in {where}", Sample("MOV", where, "MOV AX,[BX]", setup=full)
        yield f"a step that writes a word in {where}", Sample("MOV", where, "MOV [BX],AX", setup=full)
        yield f"a step that reads a word at an odd offset in {where}", Sample(
            "MOV", where, "MOV AX,[BX]", setup=(*full, "MOV BX,2FFFh")
        )
        for whole in ("MOVSB", "MOVSW", "STOSB", "STOSW"):
            yield f"a repetition of {whole} upwards in {where}", repeated(
                whole, where, "REP", full, before=("MOV SI,1000h", "MOV DI,2000h")
            )
    yield from in_a_window()
    high = (*A20, "MOV AX,0FFFFh", "MOV DS,AX", *REGISTERS)
    yield "a step that adds to a word in the high memory area", Sample("ADD", "high", "ADD [BX],AX", setup=high)
    upper = ("MOV AX,0C801h", "MOV DS,AX", *REGISTERS, "MOV BX,9000h")
    yield "a step that reads a word in upper memory, by segment C801h", Sample("MOV", "C801h", "MOV AX,[BX]", setup=upper)
    for whole in ("MOVSB", "MOVSW", "STOSB", "STOSW"):
        yield f"a repetition of {whole} upwards, 1,000 of them", repeated(
            whole, "", "REP", (), kind="1,000", repeats=1000
        )
    for whole, prefix in (("MOVSB", "REP"), ("STOSW", "REP"), ("CMPSB", "REPE"), ("SCASB", "REPNE")):
        for count in (2, 5):
            more = ("MOV AX,101h",) if whole == "SCASB" else ()
            yield f"a repetition of {prefix} {whole}, {count} of them", repeated(
                whole, "", prefix, more, kind=str(count), repeats=count
            )
    yield "a repetition of MOVSB, overlapping by one byte", repeated(
        "MOVSB", "", "REP", (), before=("MOV SI,5000h", "MOV DI,5001h"), kind="overlapping"
    )
    yield "a repetition of MOVSW downwards", repeated("MOVSW", "", "REP", ("STD",), kind="downwards")
    yield "a repetition of MOVSB over the end of a segment", repeated(
        "MOVSB", "", "REP", (), before=("MOV SI,3000h", "MOV DI,0FFE0h"), kind="over the end", start=LOW_START
    )
    yield "a repetition of REPNE SCASB", repeated("SCASB", "", "REPNE", ("MOV AX,101h",), kind="REPNE")
    yield "a repetition of REPE CMPSB", repeated("CMPSB", "", "REPE", (), kind="REPE")
    handler = ("XOR AX,AX", "MOV ES,AX", "ES MOV WORD [00182h],CS", "ES MOV WORD [00180h],handler")
    yield "INT 60h and IRET, each", Sample(
        "INT", "and IRET", "INT 60h", setup=handler, steps=2, parts=2, tail=("handler: IRET",)
    )
    there = ("MOV AX,1200h", "MOV ES,AX", "ES MOV BYTE [0],0CFh", "ES MOV BYTE [2],0CBh")
    vector = ("XOR AX,AX", "MOV ES,AX", "ES MOV WORD [00180h],0", "ES MOV WORD [00182h],1200h")
    yield "INT 60h and IRET, each, with the handler in another segment", Sample(
        "INT", "far", "INT 60h", setup=(*there, *vector), steps=2, parts=2
    )
    yield "far CALL and RETF, each, with the function in another segment", Sample(
        "CALL FAR", "far", ("DB 9Ah", "DW 2,1200h"), setup=there, steps=2, parts=2
    )
    above = ("MOV AX,0D123h", "MOV ES,AX", "ES MOV BYTE [8000h],0CFh", "ES MOV BYTE [8002h],0CBh")
    high_vector = ("XOR AX,AX", "MOV ES,AX", "ES MOV WORD [00180h],8000h", "ES MOV WORD [00182h],0D123h")
    yield "INT 60h and IRET, each, with the handler in upper memory", Sample(
        "INT", "upper", "INT 60h", setup=(*above, *high_vector), steps=2, parts=2
    )
    yield "far CALL and RETF, each, with the function in upper memory", Sample(
        "CALL FAR", "upper", ("DB 9Ah", "DW 8002h,0D123h"), setup=above, steps=2, parts=2
    )
    pointer = ("MOV WORD [2400h],2", "MOV WORD [2402h],1200h")
    yield "far CALL of memory and RETF, each, with the function in another segment", Sample(
        "CALL FAR", "far, of memory", "CALL FAR [2400h]", setup=(*there, *pointer), steps=2, parts=2
    )
    yield "INT 10h (not served) and its IRET, each", Sample("INT", "10h", "INT 10h", steps=2, parts=2)
    for function, what in (("30h", "version"), ("0Bh", "input status"), ("2Ah", "no function")):
        yield f"INT 21h function {function} ({what}), with its INT", Sample(
            "INT", function, "INT 21h", before=f"MOV AX,{function.rjust(3, '0')[:-1]}00h", steps=2
        )
    yield "INT 21h function 02h (a byte written), with its INT", Sample(
        "INT", "02h", "INT 21h", before="MOV AH,2", steps=2
    )
    shrink = ("MOV SP,4000h", "MOV BX,800h", "MOV AH,4Ah", "INT 21h", *("MOV AH,48h", "MOV BX,1", "INT 21h") * 6)
    calls = ("MOV AH,48h", "MOV BX,1", "INT 21h", "MOV ES,AX", "MOV AH,49h", "INT 21h")
    yield "INT 21h functions 48h and 49h with ten headers, both with their INTs", Pair("48h", calls, 8, 4, setup=shrink)
    pages = ("MOV AH,43h", "MOV BX,4", "INT 67h")
    yield "INT 67h function 44h (map a page), with its INT", Sample(
        "INT", "44h", "INT 67h", before=("MOV AX,4400h", "MOV BX,1"), steps=2, setup=pages
    )
    yield "XMS function 08h (free memory), with its CALL", Sample("XMS", "08h", XMS, before="MOV AH,8", steps=2)
    block = (
        "MOV AH,9",
        "MOV DX,16",
        *XMS,
        "MOV [2504h],DX",
        "MOV WORD [2500h],16",
        "MOV WORD [2506h],0",
        "MOV [250Ah],DX",
        "MOV WORD [250Ch],64",
        "MOV SI,2500h",
    )
    yield "XMS function 0Bh (16 bytes within a block), with its CALL", Sample(
        "XMS", "0Bh", XMS, before="MOV AH,0Bh", steps=2, setup=block
    )


def in_a_window():
    """What else is measured of a window: bytes, the stack, single string instructions, and repetitions of the other
    kinds."""
    full, at = (*PAGE, "MOV AX,0E000h", "MOV DS,AX", "MOV ES,AX", *REGISTERS), ("MOV SI,1000h", "MOV DI,2000h")
    for what, body in (
        ("reads a byte", "MOV AL,[BX]"),
        ("writes a byte", "MOV [BX],AL"),
        ("adds a word to one", "ADD AX,[BX]"),
        ("adds to a word", "ADD [BX],AX"),
    ):
        yield f"a step that {what} in a window", Sample(body[:3], "a window", body, setup=full)
    for body in ("PUSH AX", "POP AX"):
        yield f"a step that makes {body[:-3]} in a window", Sample(
            body[:-3], "a window", body, before="MOV SP,2000h", setup=(*PAGE, "MOV AX,0E000h", "MOV SS,AX")
        )
    for body in ("LES DX,[BX]", "MOV ES,WORD [BX]"):
        yield f"a step that makes {body[:6].strip()} in a window", Sample(body[:3], "a window", body, setup=full)
    for body in ("SHL WORD [BX],CL", "INC WORD [BX]", "SHL BYTE [BX],1"):
        yield f"a step that makes {body} in a window", Sample(body[:3], "a window", body, setup=full)
    end = (*full, "MOV BX,3FFFh")
    for what, body in (
        ("reads a word", "MOV AX,[BX]"),
        ("writes a word", "MOV [BX],AX"),
        ("adds a word to one", "ADD AX,[BX]"),
        ("adds to a word", "ADD [BX],AX"),
    ):
        yield f"a step that {what} over the end of a page", Sample(body[:3], "over the end", body, setup=end)
    stack = (*PAGE, "MOV AX,0E000h", "MOV SS,AX", "MOV SP,2000h")
    far = ("DB 9Ah", "DW function,103h")
    yield "far CALL and RETF, each, with the stack in a window", Sample(
        "CALL FAR", "window", far, setup=stack, steps=2, parts=2, tail=("function: RETF",)
    )
    handler = ("XOR AX,AX", "MOV ES,AX", "ES MOV WORD [00182h],CS", "ES MOV WORD [00180h],handler")
    yield "INT 60h and IRET, each, with the stack in a window", Sample(
        "INT", "window", "INT 60h", setup=(*stack, *handler), steps=2, parts=2, tail=("handler: IRET",)
    )
    zero = ("XOR AX,AX", "MOV ES,AX", "ES MOV WORD [2],CS", "ES MOV WORD [0],handler")
    yield "DIV by zero and its IRET, each", Sample(
        "DIV", "zero", "DIV CL", setup=(*zero, "XOR CX,CX"), steps=2, parts=2, tail=("handler: IRET",)
    )
    yield "a step that makes POP DS in a window", Sample(
        "POP", "a window", "POP DS", before="MOV SP,2000h", setup=(*PAGE, "MOV AX,0E000h", "MOV SS,AX")
    )
    for whole in ("MOVSB", "CMPSB", "STOSB", "LODSB", "SCASB"):
        yield f"a step that makes {whole} in a window", Sample(whole, "a window", whole, before=at, setup=full)
    for whole, prefix, more in (("LODSB", "REP", ()), ("CMPSB", "REPE", ()), ("SCASB", "REPNE", ("MOV AX,101h",))):
        yield f"a repetition of {whole} in a window", repeated(whole, "a window", prefix, (*full, *more), before=at)
    for whole in ("MOVSB", "STOSB"):
        yield f"a repetition of {whole} downwards in a window", repeated(
            whole, "a window", "REP", (*full, "STD"), before=at
        )


# A program that keeps its own memory below 4000h.
LOW_START = tuple(it.replace("0FFF0h", "1FF0h").replace("0FFF2h", "1FF2h").replace("0FFF4h", "1FF4h") for it in START)


class Pair(Sample):
    """Several calls that are measured together, less what stands between them."""

    def __init__(self, kind, lines, steps, others, **more):
        super().__init__("INT", kind, lines, start=LOW_START, steps=steps, copies=8, **more)
        self.others = others

    def text(self, with_body):
        lines = [*self.start, *self.setup, "again:"]
        for _ in range(self.copies):
            lines += [it for it in self.body if with_body or not it.startswith("INT")]
        return "".join(f"{it}\n" for it in (*lines, "JMP again", *self.tail))

    def turn(self, with_body):
        return self.copies * (self.steps if with_body else self.others) + 1
