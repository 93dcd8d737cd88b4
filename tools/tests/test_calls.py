"""Tests of how share/gdb finds callers, over memories of a few bytes: the talks of tools/talks have those that a
program can show."""
import os
import random
import sys
import time
import unittest

# (share/gdb is in the path for this alone: it has a file with the name of the package of Python.)
SCRIPTS = os.path.join(os.path.dirname(os.path.dirname(os.path.dirname(os.path.abspath(__file__)))), "share", "gdb")
sys.path.insert(0, SCRIPTS)
import mezguld_calls  # noqa: E402
from mezguld_calls import BP, CS, SP, SS  # noqa: E402

sys.path.remove(SCRIPTS)

CODE, STACK = 0x1000, 0x2000
SECONDS = 2


def found(code, words, ip, stack=0xFF00, vectors=(), **others):
    """The caller by code at 1000:0 and words at SS:SP: the Call and the registers behind it, or `None`."""
    memory = bytearray(0x10FFF0)
    memory[CODE * 16 : CODE * 16 + len(code)] = code
    for at, word in enumerate(words):
        memory[STACK * 16 + stack + 2 * at : STACK * 16 + stack + 2 * at + 2] = word.to_bytes(2, "little")
    for number, offset in vectors:
        memory[4 * number : 4 * number + 4] = offset.to_bytes(2, "little") + CODE.to_bytes(2, "little")
    registers = [0] * 12
    registers[CS], registers[SS], registers[SP] = CODE, STACK, stack
    registers[BP] = others.get("bp", 0)
    finder = mezguld_calls.Finder(mezguld_calls.Memory(lambda address, count: bytes(memory[address : address + count])))
    return finder.caller((*registers, ip))


class Callers(unittest.TestCase):
    def test_nothing_on_the_stack(self):
        self.assertIsNone(found(bytes.fromhex("90 C3"), [], 0))

    def test_near(self):
        """call 4; hlt; 4: nop; ret"""
        call, behind = found(bytes.fromhex("E80100 F4 90 C3"), [3], 4)
        self.assertEqual(
            (call.at, call.target, call.size, behind[SP], behind[12]), ((CODE, 0), (CODE, 4), 2, 0xFF02, 3)
        )

    def test_what_looks_like_a_return_address_below_the_true_one(self):
        """call 8; nop; call 8; hlt; 8: push ax; nop; pop ax; ret: the word pushed is 3, behind the first call."""
        call, _ = found(bytes.fromhex("E80500 90 E80100 F4 50 90 58 C3"), [3, 7], 9)
        self.assertEqual((call.at, call.slot), ((CODE, 4), 0xFF02))

    def test_code_that_is_not_where_the_call_leads(self):
        """call 5; jmp 0; 5: nop; ret; 7: nop; ret. The code at 7 is not reached from the call at 0, which nothing
        proves."""
        self.assertIsNone(found(bytes.fromhex("E80200 EBFB 90 C3 90 C3"), [3], 7))

    def test_base_pointer_and_locals(self):
        """call 4; hlt; 4: push bp; mov bp,sp; sub sp,4; nop; mov sp,bp; pop bp; ret"""
        call, behind = found(bytes.fromhex("E80100 F4 55 89E5 83EC04 90 89EC 5D C3"), [3, 3, 0x1234, 3], 10, bp=0xFF04)
        self.assertEqual((call.slot, behind[BP], behind[SP]), (0xFF06, 0x1234, 0xFF08))

    def test_large_locals(self):
        """call 4; hlt; 4: push bp; mov bp,sp; sub sp,10000; nop; mov sp,bp; pop bp; ret"""
        call, behind = found(
            bytes.fromhex("E80100 F4 55 89E5 81EC1027 90 89EC 5D C3"),
            [0] * 5000 + [0x1234, 3],
            11,
            stack=0x8000,
            bp=0xA710,
        )
        self.assertEqual((call.slot, behind[BP]), (0xA712, 0x1234))

    def test_code_that_never_returns(self):
        """call 4; hlt; 4: push ax; 5: jmp 5"""
        call, _ = found(bytes.fromhex("E80100 F4 50 EBFE"), [3, 3], 5)
        self.assertEqual(call.slot, 0xFF02)

    def test_interrupt(self):
        """int 60h; hlt; 3: nop; iret"""
        call, behind = found(bytes.fromhex("CD60 F4 90 CF"), [2, CODE, 0xF202], 3, vectors=[(0x60, 3)])
        self.assertEqual((call.at, call.size, behind[SP]), ((CODE, 0), 6, 0xFF06))

    def test_handler_that_returns_with_its_flags(self):
        """int 60h; hlt; 3: nop; retf 2"""
        call, behind = found(bytes.fromhex("CD60 F4 90 CA0200"), [2, CODE, 0xF202], 3, vectors=[(0x60, 3)])
        self.assertEqual((call.at, behind[SP]), ((CODE, 0), 0xFF06))

    def test_division(self):
        """div bl; hlt; 3: iret"""
        call, _ = found(bytes.fromhex("F6F3 F4 CF"), [2, CODE, 0xF202], 3, vectors=[(0, 3)])
        self.assertEqual(call.at, (CODE, 0))

    def test_arguments_that_the_procedure_removes(self):
        """push ax; call 5; hlt; 5: ret 2"""
        _, behind = found(bytes.fromhex("50 E80100 F4 C20200"), [4, 7], 5)
        self.assertEqual(behind[SP], 0xFF04)

    def test_arguments_that_an_inner_procedure_removes(self):
        """call 4; hlt; 4: push ax; call 9; ret; 9: ret 2"""
        call, _ = found(bytes.fromhex("E80100 F4 50 E80100 C3 C20200"), [3], 4)
        self.assertEqual(call.slot, 0xFF00)

    def test_end_of_the_segment(self):
        """The return address is the last word of the stack's segment; one byte is none."""
        self.assertEqual(found(bytes.fromhex("E80100 F4 90 C3"), [3], 4, stack=0xFFFE)[0].slot, 0xFFFE)
        self.assertIsNone(found(bytes.fromhex("E80100 F4 90 C3"), [], 4, stack=0xFFFF))

    def test_random_memory(self):
        """Whatever memory holds, there is an answer, and soon."""
        source = random.Random(56)
        for _ in range(16):
            memory = source.choice(
                (
                    source.randbytes(0x110000),
                    source.randbytes(0x1100) * 256,
                    bytes(source.choices(bytes.fromhex("E8FFC3CB50585D55CD9A74EB00"), k=0x110000)),
                )
            )
            finder = mezguld_calls.Finder(
                mezguld_calls.Memory(lambda address, count: memory[address : min(address + count, 0x10FFF0)])
            )
            began = time.process_time()
            finder.caller(
                tuple(source.choice((0, 0xFFFF, source.randrange(0x10000))) for _ in range(13)), source.random() < 0.5
            )
            self.assertLess(time.process_time() - began, SECONDS)

    def test_bytes_that_are_cut(self):
        for first in range(256):
            for code in (bytes([first]), bytes([0x2E, first]), bytes([0xF2] * 8), b""):
                mezguld_calls.decode(code)


if __name__ == "__main__":
    unittest.main()
