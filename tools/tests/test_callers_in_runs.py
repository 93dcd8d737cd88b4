"""Finds callers at many steps of random programs, and compares them with the calls that were made: procedures near
and far and handlers of interrupts, which push registers, single bytes, counted words and what looks like a return
address, and call each other in each way. It needs build/libmezguld.so."""
import os
import random
import sys
import unittest

ROOT = os.path.dirname(os.path.dirname(os.path.dirname(os.path.abspath(__file__))))
# (share/gdb is in the path for this alone: it has a file with the name of the package.)
sys.path.insert(0, f"{ROOT}/share/gdb")
import mezguld_calls  # noqa: E402

sys.path.remove(f"{ROOT}/share/gdb")
sys.path.insert(0, f"{ROOT}/python")

LIBRARY = os.environ.get("MEZGULD_LIBRARY", f"{ROOT}/build/libmezguld.so")
PROGRAMS, STEPS, EACH = 24, 1500, 5
NAMES = ("ax", "cx", "dx", "bx", "sp", "bp", "si", "di", "es", "cs", "ss", "ds", "ip")
SP, CS, SS, IP, END = 4, 9, 10, 12, 0x10FFF0
PLAIN = ("INC AX", "ADD AX,BX", "MOV DX,AX", "NOP", "MOV [0F000h],AX", "XCHG AX,DX")
RETURNS = {"near": ("RET",), "takes": ("RET 2",), "far": ("RETF",), "handler": ("IRET", "IRET", "RETF 2")}


class Text:
    """A random program: some procedures, each of which calls only later ones."""

    def __init__(self, seed):
        self.random = random.Random(seed)
        self.kinds = [self.random.choice(("near", "near", *RETURNS)) for _ in range(self.random.randrange(3, 9))]
        self.labels, self.behind = 0, []

    def label(self):
        self.labels += 1
        return f"l{self.labels}"

    def call(self, number):
        """A call of a procedure, in one of the ways that fit it."""
        near, far = [f"CALL p{number}"], [f"CALL FAR [t{number}]"]
        by_register = [f"MOV BX,p{number}", "CALL BX"]
        ways = {
            "near": (near, near, by_register, [f"CALL NEAR [t{number}]"]),
            "takes": (["PUSH AX", *near], ["PUSH AX", *by_register]),
            "far": (["PUSH CS", *near], far),
            "handler": ([f"INT {0x60 + number:x}h"], ["PUSHF", *far]),
        }
        self.behind.append(self.label())
        return [*self.random.choice(ways[self.kinds[number]]), f"{self.behind[-1]}:"]

    def counted(self):
        """Words pushed in a loop, and popped in another."""
        count, first, second = self.random.randrange(1, 5), self.label(), self.label()
        return [
            f"MOV CX,{count}",
            f"{first}:",
            "PUSH CX",
            "NOP",
            f"LOOP {first}",
            f"MOV CX,{count}",
            f"{second}:",
            "POP DX",
            "NOP",
            f"LOOP {second}",
        ]

    def around(self, number, depth):
        """Something that the stack holds for a while."""
        size, register = self.random.randrange(2, 30), self.random.choice(("AX", "BX", "SI", "DI", "DX", "DS", "ES"))
        looks_like = [f"MOV AX,{self.random.choice(self.behind)}", "PUSH AX"] if self.behind else ["PUSH AX"]
        before, after = self.random.choice(
            (
                (["DEC SP"], "INC SP"),
                ([f"SUB SP,{size}"], f"ADD SP,{size}"),
                ([f"PUSH {register}"], f"POP {register}"),
                (looks_like, "POP AX"),
            )
        )
        return [*before, *self.body(number, depth + 1), after]

    def body(self, number, depth=0):
        told = []
        for _ in range(self.random.randrange(1, 5)):
            kind, later = self.random.randrange(10), range(number + 1, len(self.kinds))
            if kind < 3 and depth < 3:
                told += self.around(number, depth)
            elif kind == 3:
                told += self.counted()
            elif kind == 4 and later:
                past = self.label()
                told += ["TEST AX,1", f"JZ {past}", *self.call(self.random.choice(later)), f"{past}:"]
            elif kind < 7 and later:
                told += self.call(self.random.choice(later))
            else:
                told.append(self.random.choice(PLAIN))
        return told

    def lines(self):
        numbers = range(len(self.kinds))
        told = ["XOR AX,AX", "MOV ES,AX"]
        for it in numbers:
            vector = 4 * (0x60 + it)
            told += [
                f"MOV WORD [t{it}+2],CS",
                f"MOV AX,p{it}",
                f"ES MOV [0{vector:x}h],AX",
                f"ES MOV WORD [0{vector + 2:x}h],CS",
            ]
        for it in numbers:
            told += self.call(it)
        told += ["MOV AX,4C00h", "INT 21h"]
        for it in numbers:
            body = self.body(it)
            if self.random.randrange(2):
                body = ["PUSH BP", "MOV BP,SP", f"SUB SP,{self.random.randrange(1, 40)}", *body, "MOV SP,BP", "POP BP"]
            told += [f"p{it}:", *body, self.random.choice(RETURNS[self.kinds[it]])]
        return [*told, *(f"t{it}: DW p{it},0" for it in numbers)]


class Run:
    """A run with the return addresses on its stack, the innermost last."""

    def __init__(self, machine):
        self.machine, self.open = machine, []

    def registers(self):
        now = self.machine.registers
        return tuple(getattr(now, it) for it in NAMES)

    def step(self):
        before = self.registers()
        made = mezguld_calls.decode(self.machine.read(before[CS], before[IP], mezguld_calls.LONGEST))
        stopped = self.machine.run(1)
        now = self.registers()
        if made.code in (0xE8, 0x9A, 0xCD) or (made.code == 0xFF and made.reg in (2, 3)):
            self.open.append(now[SP])
        self.open = [it for it in self.open if it >= now[SP]]
        return stopped.why.name == "STEPS"

    def found(self):
        """The places of the return addresses that are found, the innermost last."""
        finder = mezguld_calls.Finder(
            mezguld_calls.Memory(lambda address, count: self.machine.read_linear(address, min(count, END - address)))
        )
        places, now = [], self.registers()
        while found := finder.caller(now, not places):
            places.insert(0, found[0].slot)
            now = found[1]
        return places


@unittest.skipUnless(os.path.exists(LIBRARY), "tools/library makes build/libmezguld.so")
class Runs(unittest.TestCase):
    def test_random_programs(self):
        from mezguld import Machine, assemble  # pylint: disable=import-outside-toplevel

        compared = deepest = 0
        for seed in range(PROGRAMS):
            with Machine() as machine:
                machine.add("IT.COM", assemble("\n".join(Text(seed).lines()) + "\n"))
                machine.load("IT.COM")
                run, step = Run(machine), 0
                while step < STEPS and run.step():
                    step += 1
                    if step % EACH == 0:
                        self.assertEqual(run.found(), run.open, f"program {seed}, step {step}")
                        compared, deepest = compared + 1, max(deepest, len(run.open))
        self.assertGreater(compared, 1000)
        self.assertGreater(deepest, 4)


if __name__ == "__main__":
    unittest.main()
