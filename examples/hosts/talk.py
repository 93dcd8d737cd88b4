"""A conversation with a guest program, from Python: it is run up to its question, looked at, changed, answered, and
run again from a snapshot.

The guest prints "Your name? ", reads a line by function 0Ah, and says "Hello, " with the name; its exit code is the
length of the name.

    python3 examples/hosts/talk.py
"""
import copy
import os
import sys

ROOT = os.path.dirname(os.path.dirname(os.path.dirname(os.path.abspath(__file__))))
sys.path.insert(0, os.path.join(ROOT, "python"))
from mezguld import Event, Machine, Stop, assemble  # noqa: E402

GUEST = b"""MOV DX,question
MOV AH,9
INT 21h
MOV DX,buffer
MOV AH,0Ah
INT 21h
MOV DX,hello
MOV AH,9
INT 21h
MOV BX,1
MOV CL,[buffer+1]
MOV CH,0
MOV DX,buffer+2
MOV AH,40h
INT 21h
MOV AL,[buffer+1]
MOV AH,4Ch
INT 21h
question: DB 'Your name? $'
other: DB 'Who? $'
hello: DB 10,'Hello, $'
buffer: DB 32
"""


def answer(snapshot: Machine, name: bytes) -> int:
    """Answers the question in a copy of the machine, stops it when the line is in memory, and returns the exit code
    of the program there."""
    with copy.copy(snapshot) as machine:
        shown = len(machine.output())
        machine.supply(name + b"\r")
        # It waits in function 0Ah, and DX is the offset of its buffer, whose byte 1 is the count of the line.
        registers = machine.registers
        line = Event.at_change(registers.ds * 16 + registers.dx + 1)
        assert machine.run_to(1000, [line]).event == line
        print(machine.read(registers.ds, registers.dx + 2, len(name)).decode(), end=":")
        stopped = machine.run(1000)
        assert stopped.why is Stop.EXITED, stopped
        print(machine.output()[shown:].decode())
        return stopped.code


def main() -> None:
    with Machine(ems_pages=0, xms_kib=0) as machine:
        machine.add("GUEST.COM", assemble(GUEST))
        machine.load("GUEST.COM", more=True)
        ended = machine.run_to(1000, [Event.at_function(0x21, 9)])
        assert ended.why is Stop.EVENT, ended
        # It is about to print its question. It prints the other text instead.
        registers = machine.registers
        machine.registers = registers._replace(dx=registers.dx + len("Your name? $"))
        assert machine.run(1000).why is Stop.INPUT_ENDED
        print(f"[{machine.output().decode()}]")
        print([answer(machine, name) for name in (b"Ada", b"Charles")])


main()
