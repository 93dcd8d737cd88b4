"""Byte instructions and calls of the arena against DOSBox: `tools/peers dosbox` calls this.

Both run the same COM programs. A program of the first kind makes one byte instruction with every pair of bytes
(shifts with counts below 32, divisions where there is a quotient), with carry and adjust flag set and clear, and
prints for each first byte two sums over the registers and defined flags that result. One of the second kind makes a
random script of functions 48h, 49h, 4Ah and 5801h, and prints what each call returns; both arenas are made alike
before.
"""
import os
import random
import subprocess
import sys
import tempfile

import stage

# The flags.
CARRY, PARITY, ADJUST, ZERO, SIGN, OVERFLOW = 0x001, 0x004, 0x010, 0x040, 0x080, 0x800
ALL = CARRY | PARITY | ADJUST | ZERO | SIGN | OVERFLOW
SHOWN = PARITY | ZERO | SIGN
# Each instruction with the flags that the manual leaves defined, and what stands before it. AL has the first byte, AH
# and BL the second, CL the second modulo 32. `DIVIDE` leaves out what has no quotient: for IDIV also -128 by 1, which
# only newer processors have.
DIVIDE = ("TEST BL,BL\nJZ next\n", "CBW\nTEST BL,BL\nJZ next\nCMP AL,80h\nJZ next\n")
NOTHING = ""
INSTRUCTIONS = {
    **{f"{name} AL,BL": (ALL, NOTHING) for name in ("ADD", "ADC", "SUB", "SBB", "CMP")},
    **{f"{name} AL,BL": (ALL & ~ADJUST, NOTHING) for name in ("AND", "OR", "XOR", "TEST")},
    "INC AL": (ALL, NOTHING),
    "DEC AL": (ALL, NOTHING),
    "NEG AL": (ALL, NOTHING),
    "NOT AL": (ALL, NOTHING),
    "MUL BL": (CARRY | OVERFLOW, NOTHING),
    "IMUL BL": (CARRY | OVERFLOW, NOTHING),
    "DIV BL": (0, DIVIDE[0] + "MOV AH,0\n"),
    "IDIV BL": (0, DIVIDE[1]),
    **{f"{name} AL,1": (CARRY | OVERFLOW, NOTHING) for name in ("ROL", "ROR", "RCL", "RCR")},
    **{f"{name} AL,1": (ALL & ~ADJUST, NOTHING) for name in ("SHL", "SHR", "SAR")},
    **{f"{name} AL,CL": (CARRY, NOTHING) for name in ("ROL", "ROR", "RCL", "RCR")},
    **{f"{name} AL,CL": (CARRY | SHOWN, "AND CL,7\n") for name in ("SHL", "SHR", "SAR")},
    "AAA": (CARRY | ADJUST, NOTHING),
    "AAS": (CARRY | ADJUST, NOTHING),
    "DAA": (ALL & ~OVERFLOW, NOTHING),
    "DAS": (ALL & ~OVERFLOW, NOTHING),
    "AAM": (SHOWN, NOTHING),
    "AAD": (SHOWN, NOTHING),
    "CBW": (ALL, NOTHING),
    "LAHF": (0, "AND AL,0\n"),
    "SAHF": (ALL & ~OVERFLOW, NOTHING),
    "XCHG AL,AH": (ALL, NOTHING),
}
# What differs, and the first bytes with which it does: docs/DECISIONS.md has each.
KNOWN = {
    "AAA": ("no carry from AL into AH", range(0xFA, 0x100)),
    "AAS": ("no borrow of AL from AH", range(6)),
    "DAS": ("no carry for a borrow of AL", range(6)),
}
EACH = """
        MOV BP,0
outer:  MOV DI,0
        MOV WORD [sum],0
        MOV WORD [other],0
inner:  MOV BYTE [round],0
each:   MOV AL,[round]
        MOV AH,AL
        AND AX,0201h
        SHL AH,1
        SHL AH,1
        SHL AH,1
        OR AL,AH
        MOV AH,2
        PUSH AX
        MOV AX,DI
        MOV BL,AL
        MOV CL,AL
        AND CL,1Fh
        MOV AH,AL
        MOV DX,BP
        MOV AL,DL
        {before}POPF
        JMP SHORT make
next:   POP AX
        JMP NEAR [after]
make:   {instruction}
        PUSHF
        POP DX
        AND DX,{mask:05X}h
        MOV SI,[sum]
        ADD SI,AX
        ADD [other],SI
        ROL SI,1
        ADD SI,DX
        ADD [other],SI
        MOV [sum],SI
done:   INC BYTE [round]
        CMP BYTE [round],4
        JNZ each
        INC DI
        CMP DI,100h
        JNZ inner
        MOV AX,BP
        CALL hexa
        MOV AX,[sum]
        CALL hexa
        MOV AX,[other]
        CALL hexa
        CALL line
        INC BP
        CMP BP,100h
        JZ ended
        JMP outer
ended:  MOV AX,4C00h
        INT 21h
round:  DB 0
sum:    DW 0
other:  DW 0
after:  DW done
"""
# Prints a word in hexadecimal, with a space, and an end of line; keeps all registers.
PRINT = """
hexa:   PUSH AX
        PUSH BX
        PUSH CX
        PUSH DX
        MOV BX,AX
        MOV CX,4
digit:  PUSH CX
        MOV CL,4
        ROL BX,CL
        MOV DL,BL
        AND DL,0Fh
        ADD DL,30h
        CMP DL,3Ah
        JB small
        ADD DL,7
small:  MOV AH,2
        INT 21h
        POP CX
        LOOP digit
        MOV DL,20h
        MOV AH,2
        INT 21h
        POP DX
        POP CX
        POP BX
        POP AX
        RET
line:   PUSH AX
        PUSH DX
        MOV DL,0Ah
        MOV AH,2
        INT 21h
        POP DX
        POP AX
        RET
"""
# A script first makes both arenas alike: the program has 1000h paragraphs, all holes below it are filled, and of what
# is free behind it 8000h paragraphs are left. Then each call prints AX and BX: AX is the error, or 0, or the block's
# distance from the program's segment; BX is the size of the largest block, with error 8. A slot with no block has FFF0h
# in it, and is neither freed nor resized. A block that could not be resized is freed: DOSBox, as DOS itself, has made
# it as large as it could be, and here it stays.
SCRIPT = """
        MOV SP,0FFFEh
        MOV BX,1000h
        MOV AH,4Ah
        INT 21h
        MOV BX,1
        MOV AX,5801h
        INT 21h
        MOV SI,4
fill:   MOV BX,SI
        MOV AH,48h
        INT 21h
        MOV CX,CS
        CMP AX,CX
        JB fill
        MOV ES,AX
        MOV AH,49h
        INT 21h
        SUB SI,1
        JAE fill
        MOV BX,2
        MOV AX,5801h
        INT 21h
        MOV BX,0FFFFh
        MOV AH,48h
        INT 21h
        SUB BX,8001h
        MOV AH,48h
        INT 21h
        MOV BX,0
        MOV AX,5801h
        INT 21h
{calls}
        MOV AX,4C00h
        INT 21h
allocate: MOV AH,48h
        INT 21h
        JC refused
        MOV [DI],AX
        MOV CX,CS
        SUB AX,CX
        MOV BX,0
        JMP SHORT told
refused: MOV WORD [DI],0FFF0h
failed: CMP AX,8
        JZ told
        MOV BX,0
told:   CALL hexa
        MOV AX,BX
        CALL hexa
        CALL line
        RET
free:   CMP WORD [DI],0FFF0h
        JZ none
        MOV ES,WORD [DI]
        MOV WORD [DI],0FFF0h
        MOV AH,49h
        INT 21h
        JC failed
good:   MOV AX,0
        MOV BX,0
        JMP SHORT told
resize: CMP WORD [DI],0FFF0h
        JZ none
        MOV ES,WORD [DI]
        MOV AH,4Ah
        INT 21h
        JNC good
        PUSH AX
        MOV AH,49h
        INT 21h
        MOV WORD [DI],0FFF0h
        POP AX
        JMP SHORT failed
fit:    MOV AX,5801h
        INT 21h
        JMP SHORT good
none:   RET
"""
SLOTS, CALLS, SCRIPTS = 12, 160, 100
SECONDS = 600
CONF = (
    "[sdl]\noutput=surface\n[mixer]\nnosound=true\n[dos]\nxms=false\nems=false\numb=false\n[cpu]\n"
    "core=normal\ncycles=max\n[autoexec]\nmount c {folder}\nc:\n{calls}exit\n"
)


def instruction_program(text):
    """The program of an instruction."""
    mask, before = INSTRUCTIONS[text]
    return EACH.format(before=before, instruction=text, mask=mask) + PRINT


def script_program(numbers):
    """A random script of calls."""
    calls = []
    for _ in range(CALLS):
        slot = f"MOV DI,slots+{2 * numbers.randrange(SLOTS)}"
        size = numbers.choice((0, 1, 2, 3, 10, 100, 1000, 5000, 0x7FFF, 0xFFFF, numbers.randrange(64)))
        kind = numbers.choice(("allocate",) * 4 + ("free",) * 3 + ("resize",) * 2 + ("fit",))
        if kind == "allocate":
            calls.append(f"MOV BX,{size}\n{slot}\nCALL allocate")
        elif kind == "resize":
            calls.append(f"MOV BX,{size}\n{slot}\nCALL resize")
        elif kind == "free":
            calls.append(f"{slot}\nCALL free")
        else:
            calls.append(f"MOV BX,{numbers.randrange(3)}\nCALL fit")
    slots = "slots: DW " + ",".join(["0FFF0h"] * SLOTS)
    return SCRIPT.format(calls="\n".join(calls)) + PRINT + slots + "\n"


def ours(mezguld, programs):
    """What each program prints in a machine."""
    for name, data in programs.items():
        with mezguld.Machine(ems_pages=0, xms_kib=0) as machine:
            machine.add(name, data)
            machine.load(name)
            stopped = machine.run(2**40)
            if stopped.why is not mezguld.Stop.EXITED:
                sys.exit(f"tools/peers: {name} stopped: {stopped}")
            yield name, machine.output()


def theirs(folder, programs):
    """What each program prints in DOSBox."""
    for name, data in programs.items():
        with open(f"{folder}/{name}", "wb") as file:
            file.write(data)
    calls = "".join(f"{name} > {name[:-4]}.TXT\n" for name in programs)
    with open(f"{folder}/dosbox.conf", "w", encoding="ascii") as file:
        file.write(CONF.format(folder=folder, calls=calls))
    environment = {**os.environ, "SDL_VIDEODRIVER": "dummy", "SDL_AUDIODRIVER": "dummy", "HOME": folder}
    words = ["timeout", str(SECONDS), "dosbox", "-conf", f"{folder}/dosbox.conf"]
    ran = subprocess.run(words, env=environment, stdin=subprocess.DEVNULL, capture_output=True, text=True, check=False)
    for name in programs:
        path = f"{folder}/{name[:-4]}.TXT"
        if not os.path.exists(path):
            sys.exit(
                f"tools/peers: DOSBox ended with status {ran.returncode} and printed nothing of {name}:"
                f" {ran.stderr.strip()[-300:]}"
            )
        with open(path, "rb") as file:
            yield name, file.read()


def differing(one, other):
    """The lines that differ, as their number and both texts."""
    first, second = one.replace(b"\r", b"").split(b"\n"), other.replace(b"\r", b"").split(b"\n")
    if len(first) != len(second):
        yield min(len(first), len(second)), b"%d lines" % len(first), b"%d lines" % len(second)
    for number, (here, there) in enumerate(zip(first, second)):
        if here != there:
            yield number, here, there


def compare(seed):
    """Runs all programs in both machines, and prints what differs."""
    mezguld = stage.library()
    numbers = random.Random(seed)
    texts = {f"I{number:02}.COM": instruction_program(text) for number, text in enumerate(INSTRUCTIONS)}
    texts.update({f"S{number:03}.COM": script_program(numbers) for number in range(SCRIPTS)})
    named = dict(zip(texts, INSTRUCTIONS))
    programs = {name: mezguld.assemble(text) for name, text in texts.items()}
    with tempfile.TemporaryDirectory() as folder:
        printed = dict(theirs(folder, programs))
    known, faults = {}, 0
    for name, text in ours(mezguld, programs):
        lines = list(differing(text, printed[name]))
        what = named.get(name, f"script {name[1:4]} of seed {seed}")
        bytes_known = KNOWN.get(what, ("", ()))[1]
        known[what] = sum(number in bytes_known for number, _, _ in lines)
        lines = [it for it in lines if it[0] not in bytes_known]
        if lines:
            faults += 1
            number, here, there = lines[0]
            print(
                f"{what}: {len(lines)} lines differ, the first is {number}: {here.decode()!r} here,"
                f" {there.decode()!r} in DOSBox"
            )
    for what, (why, bytes_known) in KNOWN.items():
        print(f"known: {what}: {known.get(what, 0)} of {len(bytes_known)} first bytes, {why}")
    print(
        f"{len(INSTRUCTIONS)} byte instructions, {len(INSTRUCTIONS) * 2**18:,} cases, and {SCRIPTS} scripts of"
        f" {CALLS} calls: {faults} differ"
    )
    return 1 if faults else 0
