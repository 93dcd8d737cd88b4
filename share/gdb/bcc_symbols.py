#!/usr/bin/env python3
"""Compiles a program in C with Debian's bcc, and makes its symbols and source lines for GDB, which bcc itself does not.

    python3 bcc_symbols.py PROGRAM.c

leaves PROGRAM.com and PROGRAM.elf in the present folder. The second has no code: `symbol-file PROGRAM.elf` gives GDB
the functions of all modules, and the lines. It needs Debian's packages bcc, elks-libc, nasm and binutils.
"""
import os
import re
import subprocess
import sys
import tempfile

# A line of the source in bcc's output; a line of as86's listing with an address in the code; a symbol with its segment
# and address in ld86's map.
SOURCE, LISTED, MAPPED = (
    re.compile(r"! (\d+) (?!# \d)"),
    re.compile(r"\d+ ([0-9A-F]{4}) {11}[0-9A-F]{2}"),
    re.compile(r" *(\S+) +(\S+) +([0-3]) +([0-9a-f]{8}) "),
)
LABEL = re.compile(r"\d+ +([0-9A-F]{8})> +(_\w+):")
PROLOGUE = re.compile(r"push\s+(bp|di|si)|mov\s+bp,sp|dec\s+sp|(add|sub)\s+sp,")
INCLUDED = re.compile(r'! \d+ # \d+ "(.*)"')
CODE, FIRST = "0", 0x100


def run(words, folder=None):
    """What a program prints; an exit where it fails."""
    try:
        ran = subprocess.run(words, cwd=folder, capture_output=True, text=True, check=False)
    except OSError as error:
        sys.exit(f"bcc_symbols.py: {words[0]} cannot be run: {error.strerror}")
    if ran.returncode:
        sys.exit(f"bcc_symbols.py: {' '.join(words)}: {(ran.stderr or ran.stdout).strip()}")
    return ran.stdout + ran.stderr


def lines_of(source, listing):
    """The offset in the code and the number of each source line with code, the offset of each function, and the size
    of the code, from as86's listing."""
    lines, functions, number, opened, size, is_ours = [], {}, 0, None, 0, True
    for line in listing.splitlines():
        text = line[43:].strip()
        if included := INCLUDED.match(text):
            is_ours = included[1] == source
        elif at := SOURCE.match(text):
            number = int(at[1])
        if label := LABEL.match(line):
            functions[label[2]], opened = int(label[1], 16), number
        if code := LISTED.match(line):
            # What a function does first belongs to its head, so that GDB has its breakpoint at the first line of the
            # body.
            opened = opened if PROLOGUE.match(text) else None
            now, size = opened or number, int(code[1], 16) + 1
            lines += [(size - 1, now)] if is_ours and (not lines or now != lines[-1][1]) else []
    return lines, functions, size


def assembly(first, last, names, lines=()):
    """A text for NASM of the bytes from one address up to another, with names at theirs and the source's lines, and
    no code."""
    marks = [(address, f"global {it}:function\n{it}:") for it, address in names if first <= address < last] + list(
        lines
    )
    told = ["bits 16", "section .text align=1"]
    for address, text in sorted(marks):
        told += [f"times {address - first} db 0"] if address > first else []
        told += [text]
        first = address
    return "\n".join([*told, f"times {last - first} db 0", ""])


def linked(source, listing, names, name, folder):
    """Makes the file with the symbols from three parts: what comes before the program's own code, that code, and
    what follows it."""
    lines, functions, size = lines_of(source, listing)
    base = next((address - functions[it] for it, address in names if it in functions), None)
    if base is None:
        sys.exit(f"bcc_symbols.py: {source} has no function")
    # (A name of the library among the program's own is that of a number.)
    names = [(it, address) for it, address in names if it in functions or not base <= address < base + size]
    spans = (FIRST, base, base + size, max(base + size, *(it for _, it in names)) + 1)
    numbered = [(base + offset, f"%line {number}+0 {source}") for offset, number in lines]
    for part, (first, last) in enumerate(zip(spans, spans[1:])):
        with open(f"{folder}/{part}.asm", "w", encoding="utf-8") as file:
            file.write(assembly(first, last, names, numbered if part == 1 else ()))
        run(
            [
                "nasm",
                "-f",
                "elf32",
                *(["-g", "-F", "dwarf"] if part == 1 else []),
                "-o",
                f"{folder}/{part}.o",
                f"{folder}/{part}.asm",
            ]
        )
    run(
        [
            "ld",
            "-m",
            "elf_i386",
            "-e",
            hex(FIRST),
            f"-Ttext={FIRST:#x}",
            "-o",
            f"{name}.elf",
            *(f"{folder}/{it}.o" for it in range(3)),
        ]
    )


def main():
    if len(sys.argv) != 2 or sys.argv[1] in ("-h", "--help") or not sys.argv[1].endswith(".c"):
        sys.exit(__doc__)
    source = sys.argv[1]
    name = os.path.splitext(os.path.basename(source))[0]
    mapped = [MAPPED.match(it) for it in run(["bcc", "-Md", "-M", "-o", f"{name}.com", source]).splitlines()]
    with tempfile.TemporaryDirectory() as folder:
        run(["bcc", "-Md", "-S", "-o", f"{folder}/it.s", source])
        run(["as86", "-u", "-0", "-O", "-l", f"{folder}/it.lst", "-o", f"{folder}/it.o86", f"{folder}/it.s"])
        with open(f"{folder}/it.lst", encoding="latin-1") as file:
            listing = file.read()
        names = [
            (it[2], int(it[4], 16))
            for it in mapped
            if it and it[3] == CODE and it[2].startswith("_") and int(it[4], 16) >= FIRST
        ]
        linked(source, listing, names, name, folder)


if __name__ == "__main__":
    main()
