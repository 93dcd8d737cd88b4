"""Machines whose registers, flags and memory are set, and which then make single steps: this project's, and Unicorn's.

Both have the low 640 KiB of memory alike. A state is a dictionary of the fourteen registers, `flags` being the word
that PUSHF stores.
"""
import struct
import sys

import command_line

sys.path.insert(0, f"{command_line.ROOT}/python")

WORDS = ("ax", "bx", "cx", "dx", "sp", "bp", "si", "di", "cs", "ds", "es", "ss", "ip", "flags")
# Conventional memory, in which all cases stay.
MEMORY = 0xA0000
# The flags that the 8086 has, and what PUSHF stores besides.
CARRY, PARITY, AUXILIARY, ZERO, SIGN, TRAP, INTERRUPT, DIRECTION, OVERFLOW = (
    0x001,
    0x004,
    0x010,
    0x040,
    0x080,
    0x100,
    0x200,
    0x400,
    0x800,
)
FLAGS, ALWAYS = 0xFD5, 0xF002
# Where the code is that sets the registers, and the stack that it uses: both in the first program's block.
SEGMENT, ORIGIN, STACK = 0x0103, 0x0100, 0x0400


def library():
    """The module `mezguld`, which needs the built library."""
    try:
        import mezguld  # pylint: disable=import-outside-toplevel
    except ImportError as error:
        sys.exit(f"tools/peers: {error}")
    return mezguld


class Ours:
    """A machine of Mezguld. Its registers are set by instructions: the library sets none."""

    def __init__(self):
        self.mezguld = library()
        self.machine = None
        self.begin()

    def begin(self):
        """A new machine, of which nothing but memory will be kept."""
        if self.machine is not None:
            self.machine.close()
        self.machine = self.mezguld.Machine(ems_pages=0, xms_kib=0)
        self.machine.add("STAGE.COM", b"\xEB\xFE")
        self.machine.load("STAGE.COM")

    def read(self, linear, count):
        """Bytes of conventional memory."""
        found = b""
        while count:
            size = min(count, 0x10000 - linear % 16)
            found += self.machine.read(linear // 16, linear % 16, size)
            linear, count = linear + size, count - size
        return found

    def write(self, linear, data):
        """Sets bytes of conventional memory."""
        while data:
            size = 0x10000 - linear % 16
            self.machine.write(linear // 16, linear % 16, data[:size])
            linear, data = linear + size, data[size:]

    def set(self, state, segment=SEGMENT):
        """Sets the registers, by code in this segment, which has room for it from ORIGIN to STACK."""
        code = b"".join(
            (
                b"\xB8",
                struct.pack("<H", segment),
                b"\x8E\xD0\xBC",
                struct.pack("<H", STACK),
                b"\xB8",
                struct.pack("<H", state["flags"]),
                b"\x50\x9D",
                *(
                    b"\xB8" + struct.pack("<H", state[name]) + move
                    for name, move in (("ss", b"\x8E\xD0"), ("es", b"\x8E\xC0"), ("ds", b"\x8E\xD8"))
                ),
                *(
                    first + struct.pack("<H", state[name])
                    for first, name in (
                        (b"\xBC", "sp"),
                        (b"\xBD", "bp"),
                        (b"\xB9", "cx"),
                        (b"\xBA", "dx"),
                        (b"\xBB", "bx"),
                        (b"\xBE", "si"),
                        (b"\xBF", "di"),
                        (b"\xB8", "ax"),
                    )
                ),
                b"\xEA",
                struct.pack("<HH", state["ip"], state["cs"]),
            )
        )
        self.machine.write(segment, ORIGIN, code)
        self.machine.run(21)

    def step(self, count=1):
        """Makes steps, and returns why the run stopped."""
        return self.machine.run(count).why.name

    def state(self):
        """The registers."""
        return self.machine.registers._asdict()


class Unicorn:
    """A machine of Unicorn, in real mode."""

    def __init__(self):
        import unicorn  # pylint: disable=import-outside-toplevel
        from unicorn import x86_const  # pylint: disable=import-outside-toplevel

        self.unicorn = unicorn
        self.machine = unicorn.Uc(unicorn.UC_ARCH_X86, unicorn.UC_MODE_16)
        self.machine.mem_map(0, 0x200000)
        self.names = [
            getattr(x86_const, f"UC_X86_REG_{'EFLAGS' if name == 'flags' else name.upper()}") for name in WORDS
        ]
        # The interrupt that the last instruction raised, if any, and the accesses of memory.
        self.interrupt, self.accesses = None, None
        # (Else an interrupt would be taken for one within that before it.)
        self.fresh = self.machine.context_save()
        self.machine.hook_add(unicorn.UC_HOOK_INTR, self._interrupted)
        for number, hook in (
            (x86_const.UC_X86_INS_IN, lambda uc, port, size, data: (1 << 8 * size) - 1),
            (x86_const.UC_X86_INS_OUT, lambda *_: None),
        ):
            self.machine.hook_add(unicorn.UC_HOOK_INSN, hook, None, 1, 0, number)

    def _interrupted(self, machine, number, _):
        self.interrupt = number
        machine.emu_stop()

    def watch(self):
        """Keeps the accesses of memory from here on."""
        self.accesses = []
        kinds = self.unicorn.UC_HOOK_MEM_READ | self.unicorn.UC_HOOK_MEM_WRITE
        return self.machine.hook_add(
            kinds, lambda uc, kind, address, size, value, data: self.accesses.append((address, size))
        )

    def read(self, linear, count):
        """Bytes of memory."""
        return bytes(self.machine.mem_read(linear, count))

    def write(self, linear, data):
        """Sets bytes of memory."""
        self.machine.mem_write(linear, data)

    def set(self, state):
        """Sets the registers."""
        for number, name in zip(self.names, WORDS):
            self.machine.reg_write(number, state[name] & FLAGS | 2 if name == "flags" else state[name])

    def step(self, state, until, count=1):
        """Makes an instruction, whose registers were set, with its repetitions where `count` is 0. It should lead to
        the linear address `until`, from which on nothing is translated: Unicorn does not bear all bytes. Returns the
        interrupt that it raised."""
        if self.interrupt is not None:
            self.machine.context_restore(self.fresh)
            self.set(state)
        self.interrupt = None
        begin = 16 * state["cs"] + state["ip"]
        self.machine.emu_start(begin, 0xFFFFFFFF if until == begin else until, 0, count)
        return self.interrupt

    def state(self):
        """The registers."""
        return {name: self.machine.reg_read(number) & 0xFFFF for number, name in zip(self.names, WORDS)}
