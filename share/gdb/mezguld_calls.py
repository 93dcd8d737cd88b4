"""Finds who called the code at CS:IP, from the bytes of memory alone. Nothing here needs GDB.

A machine keeps no list of calls, and code for the 8086 keeps its stack as it likes. So the code is followed, without
its data, from CS:IP to each return that it can come to, with all that it pushes, pops and takes from the stack on
the way. A word of the stack is a return address if such a return takes it, if a call stands before the address that
it holds, and if the code that this call leads to comes to CS:IP with the stack as it is. Code that never returns has
no such return: then the words of the stack are tried one after the other, for calls whose code comes to CS:IP.

Instructions are those of the 8086 (Intel, iAPX 86/88 User's Manual, "Machine instruction decoding guide").
"""
from collections import deque, namedtuple

AX, CX, DX, BX, SP, BP, SI, DI, ES, CS, SS, DS = range(12)
# How many instructions a walk follows, and all walks for one frame together; at how many offsets of the stack a return
# address is looked for.
WALK, WALKS, PLACES = 3000, 20_000, 2048
# How many instructions a walk follows where none of these may hold one.
SHORT = 500
# How far below its first place the stack may come on the way.
BELOW = 0x1000
LONGEST = 8
PREFIXES = frozenset((0x26, 0x2E, 0x36, 0x3E, 0xF0, 0xF2, 0xF3))
UNLISTED = frozenset((0x0F, *range(0x60, 0x70), 0xC0, 0xC1, 0xC8, 0xC9, 0xD6, 0xF1))
WITH_MODES = frozenset(
    [it for it in range(0x40) if it & 7 < 4]
    + [*range(0x80, 0x90), *range(0xC4, 0xC8), *range(0xD0, 0xD4), *range(0xD8, 0xE0), 0xF6, 0xF7, 0xFE, 0xFF]
)
IMMEDIATE = {
    **{it: 1 for it in range(0x40) if it & 7 == 4},
    **{it: 2 for it in range(0x40) if it & 7 == 5},
    **{it: 1 for it in (0x80, 0x82, 0x83, 0xA8, 0xC6, 0xCD, 0xD4, 0xD5, 0xEB)},
    **{it: 1 for it in (*range(0x70, 0x80), *range(0xB0, 0xB8), *range(0xE0, 0xE8))},
    **{it: 2 for it in (0x81, *range(0xA0, 0xA4), 0xA9, *range(0xB8, 0xC0), 0xC2, 0xC7, 0xCA, 0xE8, 0xE9)},
    0x9A: 4,
    0xEA: 4,
}
SIZES = {0xC2: 2, 0xC3: 2, 0xCA: 4, 0xCB: 4, 0xCF: 6}
# Bytes of which one stands in each call but INT, and in each division.
MAY_CALL, MAY_DIVIDE = frozenset((0xE8, 0x9A, 0xFF)), frozenset((0xF6, 0xF7, 0xD4))
# Functions of INT 21h that end the program.
ENDS = frozenset((0x00, 0x31, 0x4C))

# An instruction: its first byte without prefixes, its mode byte and the parts of it, its displacement, its operand, its
# length.
Instruction = namedtuple("Instruction", "code mode reg rm displacement operand length")
# What pushed a return address: the offset of its lowest word in SS, how many bytes a return takes, how many of them the
# CALL, INT or division pushed, its place, the place that it leads to (None if the bytes do not spell it), and the
# return address.
Call = namedtuple("Call", "slot size pushed at target back")


def signed(number, bits):
    """A number of these bits with its sign."""
    return number - (1 << bits) if number >> bits - 1 & 1 else number


def decode(code):
    """The instruction at the front of some bytes, or `None`."""
    at = 0
    while at < len(code) and code[at] in PREFIXES:
        at += 1
    if len(code) < at + 1 or code[at] in UNLISTED:
        return None
    first, mode, reg, rm, displacement = code[at], 3, 0, 0, 0
    at, size = at + 1, IMMEDIATE.get(code[at], 0)
    if first in WITH_MODES:
        if len(code) <= at:
            return None
        mode, reg, rm = code[at] >> 6, code[at] >> 3 & 7, code[at] & 7
        width = {0: 2 if rm == 6 else 0, 1: 1, 2: 2, 3: 0}[mode]
        displacement = int.from_bytes(code[at + 1 : at + 1 + width], "little")
        displacement = signed(displacement, 8) if width == 1 else displacement
        at += 1 + width
        size += (first - 0xF5) if first in (0xF6, 0xF7) and reg < 2 else 0
    operand = int.from_bytes(code[at : at + size], "little")
    return Instruction(first, mode, reg, rm, displacement, operand, at + size) if at + size <= len(code) else None


def word_changed(it):
    """The 16-bit registers that an instruction may change, but the stack and the operand of POP."""
    code, family = it.code, it.code & 7
    rm = (it.rm,) if it.mode == 3 else ()
    if code < 0x40:
        return (
            ()
            if code >= 0x38 and family < 6
            else (halves(rm), rm, halves((it.reg,)), (it.reg,), (AX,), (AX,), (), (AX,))[family]
        )
    if code < 0x50:
        return (code & 7,)
    if code in (0x98, 0x9F, 0xA0, 0xA1, 0xD4, 0xD5, 0xD7, 0xE4, 0xE5, 0xEC, 0xED):
        return (AX,)
    if code == 0x99:
        return (DX,)
    if 0x90 <= code < 0x98:
        return () if code == 0x90 else (AX, code & 7)
    if 0xA4 <= code < 0xB0:
        return () if code in (0xA8, 0xA9) else (AX, CX, SI, DI)
    if 0xE0 <= code <= 0xE2:
        return (CX,)
    if code in (0x80, 0x81, 0x82, 0x83):
        return () if it.reg == 7 else (rm if code & 1 else halves(rm))
    if 0xD0 <= code < 0xD4:
        return rm if code & 1 else halves(rm)
    if code in (0xF6, 0xF7):
        return () if it.reg < 2 else ((rm if code & 1 else halves(rm)) if it.reg < 4 else (AX, DX))
    if code in (0xFE, 0xFF):
        return (rm if code & 1 else halves(rm)) if it.reg < 2 else ()
    return {
        0x86: halves((*rm, it.reg)),
        0x87: (*rm, it.reg),
        0x88: halves(rm),
        0x89: rm,
        0x8A: halves((it.reg,)),
        0x8B: (it.reg,),
        0x8C: rm,
        0x8D: (it.reg,),
        0x8E: (8 + it.reg % 4,),
        0xC4: (it.reg, ES),
        0xC5: (it.reg, DS),
    }.get(code, ())


def halves(registers):
    """The 16-bit registers of some 8-bit ones."""
    return tuple(it & 3 for it in registers)


class State:
    """A state on the way: where it is, what is known of the registers (`None` where nothing is), of AH, and of what
    was pushed."""

    __slots__ = ("cs", "ip", "registers", "function", "pushed")

    def __init__(self, cs, ip, registers, function=None, pushed=None):
        self.cs, self.ip, self.registers, self.function, self.pushed = (
            cs,
            ip,
            list(registers),
            function,
            dict(pushed or {}),
        )

    def at(self, cs, ip):
        """The same at another place."""
        return State(cs, ip & 0xFFFF, self.registers, self.function, self.pushed)

    def forget(self, *changed):
        """Nothing is known of these registers from now on."""
        for it in changed:
            self.registers[it] = None
        if AX in changed:
            self.function = None


class Memory:
    """Memory by segment and offset, over a function that reads some bytes at a linear address. What is read is kept."""

    PAGE = 64

    def __init__(self, read):
        self.read, self.pages = read, {}

    def page(self, number):
        """A page of a few bytes, since reading takes time by the byte; what is no memory is FFh."""
        if number not in self.pages:
            self.pages[number] = self.read(number * self.PAGE, self.PAGE).ljust(self.PAGE, b"\xff")
        return self.pages[number]

    def byte(self, segment, offset):
        number, at = divmod(segment * 16 + (offset & 0xFFFF), self.PAGE)
        return self.page(number)[at]

    def bytes(self, segment, offset, count):
        """Bytes from an offset on, around the end of the segment."""
        found = b""
        while len(found) < count:
            here = offset + len(found) & 0xFFFF
            number, at = divmod(segment * 16 + here, self.PAGE)
            found += self.page(number)[at : at + min(count - len(found), 0x10000 - here)]
        return found

    def word(self, segment, offset):
        return self.byte(segment, offset) | self.byte(segment, offset + 1) << 8

    def vector(self, number):
        """Where an interrupt leads."""
        return self.word(0, 4 * number + 2), self.word(0, 4 * number)


class Finder:
    """Finds callers in a memory."""

    def __init__(self, memory):
        self.memory, self.instructions, self.cleaned, self.ends, self.left = memory, {}, {}, {}, 0

    def instruction(self, cs, ip):
        """The instruction at a place, or `None`."""
        if (cs, ip) not in self.instructions:
            self.instructions[cs, ip] = decode(self.memory.bytes(cs, ip, LONGEST))
        return self.instructions[cs, ip]

    def caller(self, registers, is_first=True):
        """The call that led to CS:IP of the 12 registers and IP, and the registers behind it, or `None` for code
        that nothing called."""
        known, ip = list(registers[:12]), registers[12]
        # (At 0, SP is at the end of a stack of 64 KiB, which is empty.)
        above = max(0, 0xFFFF - known[SP]) if known[SP] else 0
        may_be = next(self.candidates(known, above), None) is not None
        if not may_be and above <= PLACES:
            return None
        self.left = WALKS if may_be else SHORT
        goal = (known[CS], ip, known[SP])
        start = State(known[CS], ip, known, known[AX] >> 8)
        if not is_first:
            start.forget(AX, CX, DX, BX)
        found = self.by_returns(start, goal) or self.by_words(self.candidates(known, above), known, goal)
        if not found:
            return None
        call, behind, removed = found
        after = [now if it is None else it for it, now in zip(behind, known)]
        after[CS], after[SS], after[SP] = call.back[0], known[SS], call.slot + call.size + removed & 0xFFFF
        return call, (*after, call.back[1])

    def candidates(self, registers, above):
        """The offsets of words of the stack that a call can have pushed, if there are so many above SP; compilers
        put single bytes there, too."""
        cs, ss, stack, known = registers[CS], registers[SS], registers[SP], {}
        for slot in range(stack, stack + min(above, PLACES)):
            two = self.memory.bytes(ss, slot, 4)
            if two not in known:
                known[two] = any(self.calls(cs, ss, slot, size) for size in (2, 4, 6))
            if known[two]:
                yield slot

    def by_returns(self, start, goal):
        """The call whose return address the code at CS:IP takes when it returns."""
        walk, ss = Walk(self, start), start.registers[SS]
        for state, size, removed in walk.returns():
            # RETF 2 is IRET that keeps the flags.
            size, removed = (
                (6, 0)
                if (size, removed) == (4, 2) and self.calls(state.cs, ss, state.registers[SP], 6)
                else (size, removed)
            )
            for call in self.calls(state.cs, ss, state.registers[SP], size) if state.registers[SP] >= goal[2] else ():
                # (A vector may lead elsewhere by now.)
                if size == 6 or self.comes(call, goal) is not False:
                    return call, state.registers, removed
        return None

    def by_words(self, candidates, known, goal):
        """The call of the lowest word of the stack whose code comes to CS:IP; else of the nearest code before it
        that may."""
        cs, ip, _ = goal
        possible = []
        for slot in candidates:
            for call in (it for size in (2, 4, 6) for it in self.calls(cs, known[SS], slot, size) if it.target):
                comes = self.comes(call, goal)
                if comes:
                    return call, [None] * 12, 0
                if comes is None and call.target[0] == cs and call.target[1] <= ip:
                    possible.append((ip - call.target[1], slot, call))
        return (min(possible)[2], [None] * 12, 0) if possible else None

    def comes(self, call, goal):
        """Whether the code that a call leads to comes to the goal with its stack; `None` if that cannot be seen."""
        if call.target is None:
            return None
        registers = [None] * 12
        registers[SP] = call.slot
        walk = Walk(self, State(*call.target, registers))
        return (
            True
            if any((it.cs, it.ip, it.registers[SP]) == goal for it in walk.states())
            else (None if walk.is_cut else False)
        )

    def removes(self, cs, ip, depth):
        """How many bytes the code at a place takes from the stack when it returns; `None` if that cannot be seen."""
        if (cs, ip) not in self.cleaned:
            self.cleaned[cs, ip] = None
            registers = [None] * 12
            registers[SP] = 0x8000
            if depth:
                self.cleaned[cs, ip] = next(
                    (
                        size + removed
                        for state, size, removed in Walk(self, State(cs, ip, registers), depth - 1).returns()
                        if state.registers[SP] == 0x8000
                    ),
                    None,
                )
        return self.cleaned[cs, ip]

    def calls(self, cs, ss, slot, size):
        """What can have pushed a return address of this size at SS:slot."""
        ip = self.memory.word(ss, slot)
        if size == 2:
            return [Call(slot, 2, 2, (cs, at), target, (cs, ip)) for at, target in self.behind(cs, ip, False)]
        cs = self.memory.word(ss, slot + 2)
        found = [(4, at, target) for at, target in self.behind(cs, ip, True)]
        if size == 4:
            # PUSH CS before a near call makes a far one of it.
            found += [
                (2, at, target)
                for at, target in self.behind(cs, ip, False)
                if target and self.memory.byte(cs, at - 1) == 0x0E
            ]
        else:
            # PUSHF before a far call makes an interrupt of it.
            found = [it for it in found if self.memory.byte(cs, it[1] - 1) == 0x9C]
            found += [(6, at, target) for at, target in self.interrupts(cs, ip)]
        return [Call(slot, size, pushed, (cs, at), target, (cs, ip)) for pushed, at, target in found]

    def behind(self, cs, ip, is_far):
        """The near or far calls that end at CS:IP, and where they lead."""
        key = cs, ip, is_far
        if key not in self.ends:
            self.ends[key] = (
                list(self.calls_before(cs, ip, is_far))
                if MAY_CALL.intersection(self.memory.bytes(cs, ip - 5, 5))
                else []
            )
        return self.ends[key]

    def calls_before(self, cs, ip, is_far):
        length, code = (5, 0x9A) if is_far else (3, 0xE8)
        if self.memory.byte(cs, ip - length) == code:
            spelled = self.memory.word(cs, ip - length + 1)
            yield ip - length & 0xFFFF, (self.memory.word(cs, ip - 2), spelled) if is_far else (
                cs,
                ip + spelled & 0xFFFF,
            )
        for at, it in self.ending(cs, ip):
            if it.code == 0xFF and it.reg == (3 if is_far else 2):
                yield at, None

    def ending(self, cs, ip):
        """Instructions of 2 to 5 bytes that end at CS:IP, with their offsets."""
        for at in (ip - length & 0xFFFF for length in (2, 3, 4, 5)):
            it = self.instruction(cs, at)
            if it and it.length == (ip - at & 0xFFFF):
                yield at, it

    def interrupts(self, cs, ip):
        """The interrupts that push CS:IP, and where they lead."""
        found, before = [], self.memory.bytes(cs, ip - 5, 5)
        if before[3] == 0xCD:
            found.append((ip - 2 & 0xFFFF, self.memory.vector(before[4])))
        if before[4] in (0xCC, 0xCE):
            found.append((ip - 1 & 0xFFFF, self.memory.vector(3 if before[4] == 0xCC else 4)))
        if MAY_DIVIDE.intersection(before):
            divisions = (
                at
                for at, it in self.ending(cs, ip)
                if (it.code in (0xF6, 0xF7) and it.reg > 5) or (it.code == 0xD4 and not it.operand)
            )
            found += [(at, self.memory.vector(0)) for at in divisions]
        return found


class Walk:
    """All ways that code can go from a state, the shortest first."""

    def __init__(self, finder, start, depth=4):
        self.finder, self.depth, self.first, self.is_cut = finder, depth, start.registers[SP], False
        self.waiting, self.seen, self.ended = deque([start]), set(), []

    def states(self):
        """The states on the way; `ended` gets each that returns, with the size of the return address and the bytes
        removed behind it."""
        for _ in range(WALK):
            if not self.waiting:
                return
            self.finder.left -= 1
            if self.finder.left < 0:
                break
            state = self.waiting.popleft()
            stack = state.registers[SP]
            if stack is None or stack < self.first - BELOW:
                self.is_cut = True
                continue
            if (state.cs, state.ip, stack) in self.seen:
                continue
            self.seen.add((state.cs, state.ip, stack))
            yield state
            found = self.finder.instruction(state.cs, state.ip)
            if found is None:
                self.is_cut = True
            else:
                self.follow(state, found)
        self.is_cut = True

    def returns(self):
        """The states that return."""
        for _ in self.states():
            yield from self.take()
        yield from self.take()

    def take(self):
        """The states that have returned since the last call."""
        taken, self.ended = self.ended, []
        return taken

    def follow(self, state, it):
        """Goes on behind an instruction."""
        code, behind = it.code, state.ip + it.length & 0xFFFF
        if code in SIZES:
            # A return to what the code has pushed itself is a jump.
            if state.registers[SP] in state.pushed:
                self.is_cut = True
            else:
                self.ended.append((state, SIZES[code], it.operand))
        elif code in (0xE2, 0xE3) and state.registers[CX] is not None:
            self.count(state, code, behind, behind + signed(it.operand, 8) & 0xFFFF)
        elif 0x70 <= code < 0x80 or 0xE0 <= code <= 0xE3:
            state.forget(*word_changed(it))
            self.waiting.append(state.at(state.cs, behind + signed(it.operand, 8)))
            self.go(state, behind)
        elif code in (0xE9, 0xEB):
            self.go(state, behind + signed(it.operand, 8 if code == 0xEB else 16))
        elif code == 0xEA:
            self.waiting.append(state.at(it.operand >> 16, it.operand))
        elif code == 0xFF and it.reg in (4, 5):
            # What is in memory now may not be what the jump finds.
            target, self.is_cut = self.target(state, it), True
            if target:
                self.waiting.append(state.at(*target))
        elif code in (0xE8, 0x9A) or (code == 0xFF and it.reg in (2, 3)):
            self.over_call(state, it, behind)
        elif code in (0xCC, 0xCD, 0xCE):
            self.over_interrupt(state, it, behind)
        else:
            self.change(state, it)
            self.go(state, behind)

    def go(self, state, ip):
        state.ip = ip & 0xFFFF
        self.waiting.append(state)

    def count(self, state, code, behind, target):
        """Behind LOOP or JCXZ with a known count. Repetitions that leave the stack as it was are not followed."""
        if code == 0xE3:
            self.go(state, behind if state.registers[CX] else target)
        else:
            state.registers[CX] = state.registers[CX] - 1 & 0xFFFF
            is_over = not state.registers[CX] or (state.cs, target, state.registers[SP]) in self.seen
            state.registers[CX] = 0 if is_over else state.registers[CX]
            self.go(state, behind if is_over else target)

    def target(self, state, it):
        """Where a call or jump by a register or a fixed place in memory leads, or `None`."""
        place, is_far = state.registers[DS], it.reg in (3, 5)
        if it.mode == 3:
            return None if is_far or state.registers[it.rm] is None else (state.cs, state.registers[it.rm])
        if (it.mode, it.rm) != (0, 6) or place is None:
            return None
        memory = self.finder.memory
        return memory.word(place, it.displacement + 2) if is_far else state.cs, memory.word(place, it.displacement)

    def over_call(self, state, it, behind):
        """Behind a call: what it leads to may take more from the stack than was pushed, as arguments, or CS that was
        pushed before."""
        spelled = {0xE8: (state.cs, behind + it.operand & 0xFFFF), 0x9A: (it.operand >> 16, it.operand & 0xFFFF)}
        target = spelled[it.code] if it.code in spelled else self.target(state, it)
        pushed = 4 if it.code == 0x9A or (it.code == 0xFF and it.reg == 3) else 2
        taken = target and self.finder.removes(*target, self.depth)
        if taken is None:
            self.is_cut = True
            is_more = self.finder.memory.byte(state.cs, state.ip - 1) == (0x9C if pushed == 4 else 0x0E)
            taken = pushed + 2 if is_more else pushed
        state.registers[SP] = state.registers[SP] + taken - pushed & 0xFFFF
        state.forget(AX, CX, DX, BX)
        self.go(state, behind)

    def over_interrupt(self, state, it, behind):
        """Behind an interrupt, unless it ends the program."""
        if it.code == 0xCD and (it.operand in (0x20, 0x27) or (it.operand == 0x21 and state.function in ENDS)):
            return
        state.forget(AX, CX, DX, BX)
        self.go(state, behind)

    def change(self, state, it):
        """What an instruction does to the stack and to what is known."""
        code, registers = it.code, state.registers
        if 0x50 <= code < 0x58 or (code < 0x20 and code & 7 == 6):
            self.push(state, registers[code & 7 if code >= 0x50 else 8 + (code >> 3)])
        elif code == 0x9C or (code == 0xFF and it.reg == 6):
            self.push(state, None)
        elif 0x58 <= code < 0x60 or (code < 0x20 and code & 7 == 7):
            self.pop(state, code & 7 if code >= 0x58 else 8 + (code >> 3))
        elif code in (0x8F, 0x9D):
            self.pop(state, it.rm if code == 0x8F and it.mode == 3 else None)
        elif code in (0x89, 0x8B) and it.mode == 3:
            to, by = (it.rm, it.reg) if code == 0x89 else (it.reg, it.rm)
            value = registers[by]
            state.forget(to)
            registers[to] = value
        elif code in (0x81, 0x83) and it.mode == 3 and it.rm == SP and it.reg in (0, 5):
            much = signed(it.operand, 8) if code == 0x83 else it.operand
            registers[SP] = registers[SP] + (much if it.reg == 0 else -much) & 0xFFFF
        elif code in (0x44, 0x4C):
            registers[SP] = registers[SP] + (1 if code == 0x44 else -1) & 0xFFFF
        elif code == 0x8D and it.rm == 6 and it.mode in (1, 2):
            registers[it.reg] = None if registers[BP] is None else registers[BP] + it.displacement & 0xFFFF
        elif 0xB0 <= code < 0xB8:
            function = {0xB0: state.function, 0xB4: it.operand}.get(code)
            state.forget(code & 3)
            state.function = function if code in (0xB0, 0xB4) else state.function
        elif 0xB8 <= code < 0xC0:
            registers[code & 7] = it.operand
            state.function = it.operand >> 8 if code == 0xB8 else state.function
        else:
            state.forget(*word_changed(it))
        if code == 0x17 or (code == 0x8E and it.reg % 4 == SS - ES):
            registers[SP] = None

    def push(self, state, value):
        state.registers[SP] = state.registers[SP] - 2 & 0xFFFF
        state.pushed[state.registers[SP]] = value

    def pop(self, state, register):
        """POP into a register, or elsewhere."""
        stack, ss = state.registers[SP], state.registers[SS]
        value = (
            state.pushed[stack] if stack in state.pushed else None if ss is None else self.finder.memory.word(ss, stack)
        )
        state.registers[SP] = stack + 2 & 0xFFFF
        if register is not None:
            state.forget(register)
            state.registers[register] = value
