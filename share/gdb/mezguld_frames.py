"""Frames of 16-bit code for GDB, whose own are of 32 bits: an unwinder over what `mezguld_calls` finds, and the
commands that go back past calls.

`bt`, `up`, `finish`, `next`, `until`, `advance` and others of GDB's commands use the unwinder. `reverse-next`,
`reverse-nexti` and `reverse-finish` are made anew: GDB's own go back to where a function's symbol is, but a program
in assembly has symbols inside of procedures, and procedures without one.
"""
import sys

try:
    import gdb
except ImportError:
    sys.exit("mezguld_frames.py: mezguld.py reads this file, in GDB: gdb -x mezguld.py")
import mezguld_calls
from gdb.FrameDecorator import FrameDecorator
from gdb.unwinder import Unwinder, register_unwinder

# The registers by which frames are found, in the order of `mezguld_calls`; the linear addresses among GDB's registers;
# and the others.
SEEN = ("eax", "ecx", "edx", "ebx", "sp", "ebp", "esi", "edi", "es", "cs", "ss", "ds", "ip")
CALCULATED, OTHERS = ("eip", "esp"), ("eflags", "fs", "gs", "steps")
# The parts of registers that have names of their own.
PARTS = {
    **{it: (f"e{it}", 0, 2) for it in ("ax", "cx", "dx", "bx", "bp", "si", "di")},
    **{f"{it}{half}": (f"e{it}x", at, 1) for it in "acdb" for at, half in enumerate("lh")},
}
# What the outermost frame has as the place of its return address, past all memory; and how many frames there are at
# most.
OUTERMOST, FRAMES = 0x110000, 64


def monitor(line):
    """What a command of the debugger prints."""
    return gdb.execute(f"monitor {line}", to_string=True)


def memory(address, count):
    """Bytes of memory."""
    return bytes(gdb.selected_inferior().read_memory(address, count))


def stack():
    """The linear address of SS:SP."""
    return int(gdb.parse_and_eval("$esp")) & 0xFFFFFFFF


def steps():
    """How many steps the machine has made."""
    return int(gdb.parse_and_eval("$steps"))


def quietly(command):
    """Executes a command of GDB without what it prints."""
    gdb.execute("set suppress-cli-notifications on")
    try:
        gdb.execute(command, to_string=True)
    finally:
        gdb.execute("set suppress-cli-notifications off")


def is_there():
    """Whether there is still a program that runs."""
    return bool(gdb.selected_inferior().threads())


def require_program():
    """Raises an error unless a program runs under dm gdb."""
    if not is_there():
        raise gdb.GdbError("The program is not being run.")
    try:
        gdb.newest_frame().read_register("steps")
    except ValueError as error:
        raise gdb.GdbError("This program is not under dm gdb.") from error


def flush():
    """GDB forgets what it has read."""
    for cache in ("register-cache", "dcache"):
        gdb.execute(f"maintenance flush {cache}", to_string=True)


class FrameId:
    """What GDB knows a frame by: the linear address of its return address, and where its code begins if the call
    spells that."""

    def __init__(self, stack, code=0):
        self.sp, self.pc = gdb.Value(stack), gdb.Value(code)


class Frames(Unwinder):
    """Frames of 16-bit code: those that `mezguld_calls` finds. GDB's own are of 32 bits."""

    def __init__(self):
        super().__init__("mezguld")

    def __call__(self, pending):
        # An exception here, whatever it is, would end GDB's command, and each later one.
        try:
            return self.frame(pending)
        except Exception:  # pylint: disable=broad-exception-caught
            return None

    def frame(self, pending):
        """The frame with its registers before the call, as `create_unwind_info` makes it."""
        now = {name: pending.read_register(name) for name in (*SEEN, *CALCULATED, *OTHERS)}
        found = caller_of([int(now[it]) & 0xFFFF for it in SEEN], pending.level())
        # The outermost frame seems to be called by itself, at which GDB ends the list of frames.
        info, saved = pending.create_unwind_info(FrameId(OUTERMOST)), {}
        if found:
            call, after, flags = found
            code = linear_of(*call.target) if call.target and call.size < 6 else 0
            info = pending.create_unwind_info(FrameId(linear_of(int(now["ss"]) & 0xFFFF, call.slot), code))
            saved = dict(
                zip(SEEN, after),
                eip=linear_of(after[SEEN.index("cs")], after[SEEN.index("ip")]),
                esp=linear_of(after[SEEN.index("ss")], after[SEEN.index("sp")]),
            )
            saved.update({} if flags is None else {"eflags": flags})
        for name, value in now.items():
            info.add_saved_register(
                name,
                gdb.Value(saved[name].to_bytes(value.type.sizeof, "little"), value.type) if name in saved else value,
            )
        for name, (whole, at, size) in PARTS.items():
            part = saved.get(whole, int(now[whole])).to_bytes(4, "little")[at : at + size]
            info.add_saved_register(name, gdb.Value(part, pending.read_register(name).type))
        return info


def linear_of(segment, offset):
    """The linear address of a segment and an offset."""
    return segment * 16 + offset


def caller_of(registers, level=0):
    """The call that led here, the registers behind it in the order of SEEN, and its flags if it pushed them; `None`
    for the outermost frame."""
    if level >= FRAMES - 1:
        return None
    finder = mezguld_calls.Finder(mezguld_calls.Memory(reads))
    found = finder.caller(registers, level == 0)
    if found is None:
        return None
    call, after = found
    return call, after, finder.memory.word(registers[SEEN.index("ss")], call.slot + 4) if call.size == 6 else None


class Named(FrameDecorator):
    """A frame as `bt` shows it, by the name of the function in which its call stands."""

    def function(self):
        return self.inferior_frame().name() or "??"


class Whole:
    """A filter that leaves all frames. GDB's own `bt` would add why there are no more."""

    def __init__(self):
        self.name, self.enabled, self.priority = "mezguld", True, 100
        gdb.frame_filters[self.name] = self

    def filter(self, frames):
        return map(Named, frames)


def reads(address, count):
    """Bytes of memory, fewer where it ends."""
    try:
        return memory(address, count)
    except gdb.MemoryError:
        return b""


class Stops:
    """The breakpoints of the user that are hit while this is entered."""

    def __enter__(self):
        self.hit = []
        gdb.events.stop.connect(self.see)
        return self

    def __exit__(self, *_):
        gdb.events.stop.disconnect(self.see)

    def see(self, event):
        self.hit += [it for it in getattr(event, "breakpoints", ()) if it.number > 0]


def current():
    """The registers of the newest frame, as `caller_of` takes them."""
    frame = gdb.newest_frame()
    return [int(frame.read_register(it)) & 0xFFFF for it in SEEN]


def back_to(call, stack_segment):
    """Goes back to the instruction that made a call, or to what stops before. Returns whether it is that
    instruction."""
    address, slot = linear_of(*call.at), linear_of(stack_segment, call.slot)
    # Nothing but the call writes its return address, as a rule: not the same procedure further down the stack, either.
    point = gdb.Breakpoint(f"*(unsigned short *){slot}", gdb.BP_WATCHPOINT, gdb.WP_ACCESS, internal=True)
    point.silent = True
    try:
        while True:
            with Stops() as stops:
                gdb.execute("reverse-continue", to_string=True)
            is_call = gdb.newest_frame().pc() == address and stack() == slot + call.pushed
            if stops.hit or is_call or steps() == 0:
                return is_call and not stops.hit
    finally:
        point.delete()


def step_back():
    """Goes back a step, past all that a call did. Returns whether the program may go on: nothing has stopped it, as
    a breakpoint or the start."""
    before = steps()
    if before == 0:
        gdb.execute("reverse-stepi", to_string=True)
        return False
    with Stops() as stops:
        quietly("reverse-stepi")
    if stops.hit:
        # Once more, so that GDB tells what has stopped it.
        quietly("stepi")
        gdb.execute("reverse-stepi", to_string=True)
        return False
    registers = current()
    if memory(gdb.newest_frame().pc(), 1)[0] not in mezguld_calls.SIZES:
        return True
    found = caller_of(registers)
    if found is None:
        return True
    return back_to(found[0], registers[SEEN.index("ss")])


def lines_of(frame):
    """The first and the last address of the line of a frame, or `None`."""
    found = gdb.find_pc_line(frame.pc())
    return (found.pc, found.last) if found.symtab and found.last is not None else None


def back_over_line():
    """Goes back to the start of a line: of this one, or from there of the one before. Returns as `step_back`."""
    span = lines_of(gdb.newest_frame())
    if span is None or gdb.newest_frame().pc() == span[0]:
        if not step_back():
            return False
        span = lines_of(gdb.newest_frame())
    while span and gdb.newest_frame().pc() != span[0]:
        at = steps()
        if not step_back():
            return False
        if not span[0] <= gdb.newest_frame().pc() <= span[1]:
            # The line was entered here, by a jump into it.
            print(end=monitor(f"step {at:X}"))
            flush()
            return True
    return True


def tell_place(was):
    """Prints where the program is, as GDB does: with the function if it is another than before."""
    frame = gdb.newest_frame()
    frame.select()
    text = gdb.execute("frame", to_string=True)
    text = text[text.index("#0") + 2 :].lstrip()
    span = lines_of(frame)
    if was == frame.name() and span:
        text = ("" if frame.pc() == span[0] else f"{frame.pc():#010x}\t") + text[text.index("\n") + 1 :]
    print(text, end="")


class Back(gdb.Command):
    """A command of GDB that goes back past calls, for frames of 16-bit code."""

    def __init__(self, name, call, about):
        self.__doc__, self.call = about, call
        super().__init__(name, gdb.COMMAND_RUNNING)

    def invoke(self, text, _):
        require_program()
        try:
            count = int(gdb.parse_and_eval(text)) if text else 1
        except gdb.error as error:
            raise gdb.GdbError(str(error)) from error
        was = gdb.newest_frame().name()
        for _ in range(count):
            if not self.call():
                return
        if count > 0:
            tell_place(was)


class BackOut(gdb.Command):
    """reverse-finish: goes back to the call of the selected frame."""

    def __init__(self):
        super().__init__("reverse-finish", gdb.COMMAND_RUNNING)

    def invoke(self, text, _):
        require_program()
        frame = gdb.selected_frame()
        registers = [int(frame.read_register(it)) & 0xFFFF for it in SEEN]
        found = caller_of(registers, frame.level())
        if found is None:
            raise gdb.GdbError('"finish" not meaningful in the outermost frame.')
        print("Run back to call of " + gdb.execute("frame", to_string=True).split("\n")[0])
        was = gdb.newest_frame().name()
        if back_to(found[0], registers[SEEN.index("ss")]):
            tell_place(None)


def install():
    """Makes frames and commands known to GDB."""
    register_unwinder(None, Frames(), True)
    Whole()
    BackOut()
    Back(
        "reverse-next",
        back_over_line,
        "Step program backward, proceeding through subroutine calls.\nUsage: reverse-next [N]",
    )
    Back(
        "reverse-nexti",
        step_back,
        "Step backward one instruction, but proceed through called subroutines.\nUsage: reverse-nexti [N]",
    )
