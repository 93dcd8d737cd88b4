"""Commands of GDB for `dm gdb`:

    gdb -x mezguld.py -ex 'symbol-file PROGRAM.elf' -ex 'dm connect PROGRAM.COM'

An address SEGMENT:OFFSET has hexadecimal numbers or 16-bit registers on both sides: 0103:0119, ds:si. `help dm`
lists the commands.
"""
import os
import re
import shlex
import struct
import subprocess
import sys

try:
    import gdb
except ImportError:
    sys.exit("mezguld.py: GDB reads this file: gdb -x mezguld.py")

# The other files stand beside this one. Their folder leaves the path again, since a package of Python has this file's
# name; and there is no need to keep them compiled.
HERE = os.path.dirname(os.path.abspath(__file__))
sys.path.insert(0, HERE)
sys.dont_write_bytecode = True
import mezguld_frames  # noqa: E402
from mezguld_frames import flush, is_there, linear_of, memory, monitor, quietly, stack, steps  # noqa: E402

sys.path.remove(HERE)

# The machine is an 8086. GDB would choose otherwise for an ELF file with the program's symbols. It goes on where `dm
# gdb` tells, by the signal SIGALRM, that a `continue` made its most steps.
SETTINGS = ("set osabi none", "set architecture i8086", "set remotetimeout 30", "handle SIGALRM nostop noprint pass")
REGISTERS = {
    "ax": "ax",
    "bx": "bx",
    "cx": "cx",
    "dx": "dx",
    "sp": "sp",
    "bp": "bp",
    "si": "si",
    "di": "di",
    "ds": "ds",
    "es": "es",
    "ss": "ss",
    "cs": "cs",
    "ip": "ip",
}
# The instructions behind which `dm over` goes on, and those that return from what they call.
GOES_OVER, RETURNS = ("call", "lcall", "int", "into", "rep", "repz", "repnz", "loop", "loope", "loopne"), (
    "ret",
    "lret",
    "iret",
    "retw",
    "lretw",
    "iretw",
)
# The most steps of `dm out`.
MOST = 100_000
NOT_CONNECTED = "not connected: type dm connect FILE"


def register(name):
    """The 16 bits of a register."""
    return int(gdb.parse_and_eval(f"${REGISTERS[name]}")) & 0xFFFF


def word(text):
    """A segment or an offset: a register or a hexadecimal number."""
    if text.lower() in REGISTERS:
        return register(text.lower())
    try:
        number = int(text, 16)
    except ValueError as error:
        raise gdb.GdbError(f"{text} is neither a 16-bit register nor a hexadecimal number") from error
    if not 0 <= number <= 0xFFFF:
        raise gdb.GdbError(f"{text} has more than 16 bits")
    return number


def byte(text):
    """The number of an interrupt or of a function."""
    try:
        number = int(text, 16)
    except ValueError as error:
        raise gdb.GdbError(f"{text} is not a hexadecimal number") from error
    if not 0 <= number <= 0xFF:
        raise gdb.GdbError("NN and AH are at most FF")
    return number


def place(text):
    """Segment and offset of an address SEGMENT:OFFSET."""
    parts = text.split(":")
    if len(parts) != 2:
        raise gdb.GdbError(f"{text} is no address SEGMENT:OFFSET")
    return word(parts[0]), word(parts[1])


def linear(text):
    """The linear address of an address SEGMENT:OFFSET."""
    segment, offset = place(text)
    return segment * 16 + offset


def instruction():
    """The mnemonic of the instruction at CS:IP, and the linear address behind it."""
    frame = gdb.selected_frame()
    found = frame.architecture().disassemble(frame.pc())[0]
    return found["asm"].split()[0], frame.pc() + found["length"]


def go_past(address):
    """Continues to a linear address, with the stack no deeper than now."""
    point = gdb.Breakpoint(f"*{address}", internal=True, temporary=True)
    point.silent, point.condition = True, f"$esp >= {stack()}"
    quietly("continue")
    if point.is_valid():
        point.delete()


def show():
    """Prints the registers and the next instruction, as the debugger does."""
    print(monitor("R") if is_there() else "the program has ended\n", end="")


class Linear(gdb.Function):
    """$linear(SEGMENT, OFFSET): the linear address, as in: x/8xb $linear($ds, $si)"""

    def __init__(self):
        super().__init__("linear")

    def invoke(self, *given):
        try:
            segment, offset = (int(it) & 0xFFFF for it in given)
        except (ValueError, TypeError, gdb.error) as error:
            raise gdb.GdbError(self.__doc__) from error
        return linear_of(segment, offset)


class Group(gdb.Command):
    """Commands for programs under dm gdb."""

    def __init__(self):
        super().__init__("dm", gdb.COMMAND_USER, prefix=True)


class Given(gdb.Command):
    """A command `dm NAME`, which calls a function with the words behind it; the function's comment is its help."""

    def __init__(self, name, call, least, most):
        self.__doc__, self.call, self.least, self.most = call.__doc__, call, least, most
        super().__init__(f"dm {name}", gdb.COMMAND_USER)

    def invoke(self, text, _):
        words = shlex.split(text)
        if not self.least <= len(words) <= self.most:
            raise gdb.GdbError(self.__doc__.splitlines()[0])
        try:
            self.call(*words)
        except gdb.error as error:
            raise gdb.GdbError(str(error) if is_connected() else NOT_CONNECTED) from error


def is_connected():
    """Whether GDB is connected to something; also where this GDB does not tell."""
    return getattr(gdb.selected_inferior(), "connection_num", 0) is not None


def connect(*words):
    """dm connect [OPTIONS] FILES: starts dm gdb with these words and connects to it.
    The environment variable DM names the program that is started in place of dm."""
    try:
        gdb.execute(
            f"target extended-remote | {program()} gdb {' '.join(shlex.quote(it) for it in words)}", to_string=True
        )
    except gdb.error as error:
        raise gdb.GdbError(refusal(words) or str(error)) from error
    show()


def program():
    """The program dm."""
    return os.environ.get("DM", "dm")


def refusal(words):
    """What dm gdb says of words with which it does not start; GDB does not show it."""
    try:
        return subprocess.run(
            [program(), "gdb", *words], stdin=subprocess.DEVNULL, capture_output=True, text=True, check=False
        ).stderr.strip()
    except OSError as error:
        return f"{program()}: {error.strerror}"


def check():
    """dm check: goes to the next step in which the checker finds something, and prints that."""
    mezguld_frames.require_program()
    print(monitor("check"), end="")
    flush()
    show()


def over():
    """dm over: steps over the instruction at CS:IP, with all that it calls or repeats."""
    name, behind = instruction()
    if name in GOES_OVER:
        go_past(behind)
    else:
        quietly("stepi")
    show()


def out():
    """dm out: goes on until the procedure or interrupt handler has returned."""
    entered = stack()
    for _ in range(MOST):
        before = steps()
        name, behind = instruction()
        if name in GOES_OVER:
            go_past(behind)
        else:
            quietly("stepi")
        # (The program cannot go on, as without input, if no step was made.)
        if not is_there() or steps() == before or (name in RETURNS and entered < stack()):
            break
    else:
        print(f"not returned after {MOST:,} instructions: dm out goes on, and finish is faster")
    show()


def go(number):
    """dm go N: goes to the state after N steps from the start, forwards or back; N in hexadecimal.
    It does not stop at breakpoints."""
    if not re.fullmatch("[0-9A-Fa-f]{1,16}", number):
        raise gdb.GdbError(f"{number} is not a hexadecimal number of at most 16 digits")
    told = monitor(f"step {number}")
    print(told.replace("the program has stopped before", "the program stops before that step"), end="")
    flush()
    show()


def stop_at(address, *condition):
    """dm break SEGMENT:OFFSET [if CONDITION]: sets a breakpoint."""
    gdb.execute(f"break *{linear(address):#x} {' '.join(condition)}")


def watch(address, count="1", *condition):
    """dm watch SEGMENT:OFFSET [COUNT] [if CONDITION]: stops after a write to one of COUNT bytes, in hexadecimal.
    Without COUNT it is one byte."""
    if count == "if":
        count, condition = "1", (count, *condition)
    if word(count) == 0:
        raise gdb.GdbError("COUNT is at least 1")
    kind = {1: "unsigned char *", 2: "unsigned short *"}.get(word(count), f"unsigned char (*)[{word(count)}]")
    gdb.execute(f"watch *({kind}){linear(address):#x} {' '.join(condition)}")


def stop_at_interrupt(number, function=""):
    """dm int NN [AH]: sets a breakpoint where interrupt NN leads now, for function AH alone if it is given.
    Both numbers are hexadecimal, at most FF."""
    entry = 4 * byte(number)
    condition = f" if ($ax >> 8 & 0xff) == {byte(function):#x}" if function else ""
    offset, segment = struct.unpack("<HH", memory(entry, 4))
    gdb.execute(f"break *{segment * 16 + offset:#x}{condition}")


def text_at(address="ds:dx"):
    """dm text [SEGMENT:OFFSET]: prints the text there up to its $, at DS:DX unless an address is given."""
    print(memory(linear(address), 256).split(b"$")[0].decode("cp437"))


def dump(address, count="80"):
    """dm dump SEGMENT:OFFSET [COUNT]: prints bytes of memory, COUNT in hexadecimal."""
    print(monitor("D {:04X}:{:04X} {:X}".format(*place(address), word(count))), end="")


def disassemble(address="cs:ip", count="8"):
    """dm list [SEGMENT:OFFSET [COUNT]]: prints instructions, at CS:IP unless an address is given.
    COUNT is in hexadecimal."""
    print(monitor("U {:04X}:{:04X} {:X}".format(*place(address), word(count))), end="")


def symbols(file, segment="cs"):
    """dm symbols FILE [SEGMENT]: reads symbols of a program that was loaded at SEGMENT, CS unless it is given."""
    gdb.execute(f"add-symbol-file {shlex.quote(file)} -o {16 * word(segment):#x}")


def printed(letter, about):
    """A command that prints what the debugger's command of this letter prints."""

    def call():
        print(monitor(letter), end="")

    call.__doc__ = about
    return call


for line in SETTINGS:
    gdb.execute(line, to_string=True)
mezguld_frames.install()
Linear()
Group()
for title, called, fewest, highest in (
    ("connect", connect, 1, 70),
    ("over", over, 0, 0),
    ("out", out, 0, 0),
    ("go", go, 1, 1),
    ("check", check, 0, 0),
    ("break", stop_at, 1, 70),
    ("int", stop_at_interrupt, 1, 2),
    ("watch", watch, 1, 70),
    ("text", text_at, 0, 1),
    ("dump", dump, 1, 2),
    ("list", disassemble, 0, 2),
    ("symbols", symbols, 1, 2),
    ("registers", printed("R", "dm registers: prints the registers and the next instruction."), 0, 0),
    ("blocks", printed("M", "dm blocks: lists the blocks of memory of DOS."), 0, 0),
    ("pages", printed("P", "dm pages: lists the handles and windows of expanded memory."), 0, 0),
    ("extended", printed("X", "dm extended: lists the blocks of extended memory."), 0, 0),
    ("output", printed("O", "dm output: prints what the program has written to the console."), 0, 0),
):
    Given(title, called, fewest, highest)
