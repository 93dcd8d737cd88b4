"""Each encoding against nasm and ndisasm: `tools/peers nasm` calls this.

For each entry of the table, each mod and r/m, and each prefix that it can have, the bytes are shown by the
debugger's command `U`. The text is assembled by nasm; so is what ndisasm prints for the bytes. A case is right where
both give one sequence of bytes, and these bytes are shown by `U` as the same text again. What nasm does not take,
and what differs, is listed by its entry.
"""
import collections
import random
import re
import subprocess
import tempfile

import opcodes
import stage

ORIGIN, SLOT, MOST = 0x100, 16, 3000
# Where the cases stand: a segment without anything else.
SEGMENT = 0x2000


def cases(numbers):
    """Each encoding as its entry and its bytes: each mod and r/m, without a prefix and with those that count for it."""
    for entry in opcodes.ENTRIES:
        if entry.is_modrm:
            shapes = [(mod, rm) for mod in range(3 if entry.is_memory else 4) for rm in range(8)]
        else:
            shapes = [(None, None)] * 4
        for mod, rm in shapes:
            prefixes = [b""]
            if mod not in (None, 3) or entry.first in opcodes.WITHOUT_MODRM:
                prefixes.append(bytes([numbers.choice(opcodes.SEGMENTS)]))
            if entry.first in opcodes.STRINGS:
                prefixes += [bytes([opcodes.REP]), bytes([opcodes.REPNE])]
            for prefix in prefixes:
                yield entry, prefix + opcodes.instruction(entry, numbers, mod, rm)


def for_nasm(text):
    """A line of ours as nasm writes it."""
    text = re.sub(r"\b(JMP|CALL) FAR ([0-9A-F]+h:)", r"\1 \2", text)
    text = re.sub(r"\bJMP ([0-9])", r"JMP NEAR \1", text)
    # (Else nasm makes two jumps of a conditional one, whose distance it does not know.)
    text = re.sub(
        r"^(J[A-Z]+) ([0-9][0-9A-F]*h)$",
        lambda it: it[0] if it[1] in ("JMP", "JCXZ") else f"{it[1]} SHORT {it[2]}",
        text,
    )
    return re.sub(r"\bJMP NEAR ([0-9A-F]+h:)", r"JMP \1", text)


def for_nasm_again(text):
    """A line of ndisasm as nasm reads it as the same instruction."""
    text = re.sub(r"^jmp (0x[0-9a-f]+)$", r"jmp near \1", text)
    return re.sub(r"^(j[a-z]+) (0x[0-9a-f]+)$", lambda it: it[0] if it[1] == "jcxz" else f"{it[1]} short {it[2]}", text)


def exchanged(text):
    """A text with its two operands in the other order."""
    mnemonic, _, operands = text.rpartition(" ")
    return f"{mnemonic} {','.join(reversed(operands.split(',')))}"


def assembled(lines):
    """What nasm makes of lines, each at its slot: the bytes of each, None where it takes none."""
    left, found = dict(enumerate(lines)), [None] * len(lines)
    with tempfile.TemporaryDirectory() as folder:
        source, made = f"{folder}/lines.asm", f"{folder}/lines.bin"
        while True:
            places = list(left)
            text = ["bits 16", "cpu 8086", f"org {ORIGIN}"]
            for place in places:
                text.append(f"times {SLOT * place}-($-$$) nop")
                text += [f"begin{place}: {left[place]}", f"end{place}:"]
            text.append(f"times {SLOT * len(lines)}-($-$$) nop")
            text += [f"dw end{place}-begin{place}" for place in places]
            with open(source, "w", encoding="ascii") as file:
                file.write("\n".join(text) + "\n")
            ran = subprocess.run(
                ["nasm", "-f", "bin", "-w-all", "-o", made, source], capture_output=True, text=True, check=False
            )
            if ran.returncode == 0:
                break
            bad = {(int(number) - 5) // 3 for number in re.findall(r":(\d+): (?:error|fatal)", ran.stderr)}
            if not bad:
                raise RuntimeError(ran.stderr)
            for at in bad:
                if 0 <= at < len(places):
                    left.pop(places[at])
        with open(made, "rb") as file:
            code = file.read()
    for at, place in enumerate(places):
        size = int.from_bytes(code[SLOT * len(lines) + 2 * at :][:2], "little")
        found[place] = code[SLOT * place :][:size]
    return found


def listed(codes):
    """What ndisasm prints for each of some sequences of bytes, each at its slot; None where it prints no one
    instruction."""
    lines = [None] * len(codes)
    image = b"".join(code.ljust(SLOT, b"\x90") for code in codes)
    with tempfile.NamedTemporaryFile() as file:
        file.write(image)
        file.flush()
        skips = [word for place, code in enumerate(codes) for word in ("-s", hex(ORIGIN + SLOT * place))]
        printed = subprocess.run(
            ["ndisasm", "-b", "16", "-o", hex(ORIGIN), *skips, file.name], capture_output=True, text=True, check=True
        ).stdout
    for line in printed.splitlines():
        words = line.split(None, 2)
        if len(words) == 3 and re.fullmatch("[0-9A-F]{8}", words[0]):
            place, rest = divmod(int(words[0], 16) - ORIGIN, SLOT)
            if rest == 0 and bytes.fromhex(words[1]) == codes[place]:
                lines[place] = words[2]
    return lines


class Texts:
    """What the debugger shows for bytes."""

    def __init__(self):
        self.machine = stage.library().Machine()
        self.machine.add("P.COM", b"\x90")
        self.machine.load("P.COM")

    def text(self, code, place):
        """The text of one instruction, and whether it has just these bytes."""
        offset = ORIGIN + SLOT * place
        self.machine.write(SEGMENT, offset, code.ljust(SLOT, b"\x90"))
        words = self.machine.command(f"U {SEGMENT:04X}:{offset:04X} 1").decode("ascii").split(None, 2)
        return words[2].strip() if len(words) == 3 and bytes.fromhex(words[1]) == code else None


def compare(seed):
    """Compares all encodings, and returns the exit status."""
    numbers, texts = random.Random(seed), Texts()
    given = list(cases(numbers))
    counts, faults, kinds = collections.Counter(), [], collections.Counter()
    for begin in range(0, len(given), MOST):
        part = given[begin : begin + MOST]
        codes = [code for _, code in part]
        ours = [texts.text(code, place) for place, code in enumerate(codes)]
        made = assembled([for_nasm(text) if text else "nop" for text in ours])
        shown = listed(codes)
        again = assembled([for_nasm_again(text) if text else "nop" for text in shown])
        for place, (entry, code) in enumerate(part):
            counts["encodings"] += 1
            if ours[place] is None:
                faults.append(f"{entry.name}: {code.hex(' ')} is no instruction for U")
            elif made[place] is None:
                kinds[
                    f"{entry.mnemonic}: nasm does not take the text (as {ours[place]})"[:90]
                    if entry.mnemonic != "ESC"
                    else "ESC: nasm has instructions of the 8087"
                ] += 1
            elif (
                entry.mnemonic == "XCHG"
                and made[place] != code
                and exchanged(texts.text(made[place], place)) == ours[place]
            ):
                kinds["XCHG of two registers: nasm takes them in the other order"] += 1
            elif texts.text(made[place], place) != ours[place]:
                faults.append(
                    f"{entry.name}: {code.hex(' ')} is {ours[place]}, and nasm makes {made[place].hex(' ')} of it"
                )
            else:
                counts["assembled by nasm to the same instruction"] += 1
                counts["to the same bytes"] += made[place] == code
                if shown[place] is None or again[place] is None:
                    kinds[f"{entry.first:02X}: ndisasm shows not one instruction"] += 1
                elif again[place] != made[place] and texts.text(again[place], place) != ours[place]:
                    faults.append(f"{entry.name}: {code.hex(' ')} is {ours[place]}, and ndisasm shows {shown[place]}")
                else:
                    counts["shown alike by ndisasm"] += 1
    for fault in faults[:50]:
        print(fault)
    for kind, count in sorted(kinds.items()):
        print(f"listed: {kind}: {count}")
    print(", ".join(f"{count} {what}" for what, count in counts.items()) + f"; {len(faults)} others")
    return 1 if faults else 0
