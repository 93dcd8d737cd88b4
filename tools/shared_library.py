"""The libraries build/libmezguld.so and build/libmezguld.a: the proved static library, lib/mezguld.c, and the kit's
calls of malloc, realloc and free.

The kit's own compiler and linker make them. The shared library exports the functions that include/mezguld.h
declares, and nothing else. Its soname has the first number of the version, since a library with another one has
other functions. The same archive gives the same bytes on every machine, since no tool of the machine takes part.
"""
import os
import subprocess

import kit
import pages
import versions

ARCHIVE, LIBRARY, STATIC = "crates/dm_c/out/libdm_c.a", "build/libmezguld.so", "build/libmezguld.a"
CODE, OBJECT, SYMBOLS = "lib/mezguld.c", "build/mezguld.o", "build/mezguld.symbols"
# What mezguld.h wants of the C library's headers, which the kit's compiler comes without.
HEADERS = {
    "stddef.h": "typedef __SIZE_TYPE__ size_t;\n#define NULL ((void *)0)\n",
    "stdint.h": "".join(f"typedef __UINT{bits}_TYPE__ uint{bits}_t;\n" for bits in (8, 16, 32, 64)),
}
COMPILED = (
    "--target=x86_64-unknown-linux-gnu",
    "--no-default-config",
    "-std=c11",
    "-O2",
    "-fPIC",
    "-fno-builtin",
    "-Wall",
    "-Wextra",
    "-Werror",
    "-nostdinc",
    "-Ibuild/headers",
)
FLAGS = (
    "-shared",
    "-m",
    "elf_x86_64",
    "--eh-frame-hdr",
    "--gc-sections",
    "--build-id=sha1",
    "--no-dependent-libraries",
    "--strip-all",
    "--threads=1",
    "-z",
    "now",
    "-z",
    "relro",
    "-z",
    "noexecstack",
    "-z",
    "defs",
)
BEFORE, AFTER = ("crti.o", "crtbeginS.o"), ("libc.so.6", "libc_nonshared.a", "crtendS.o", "crtn.o")


class NotLinked(Exception):
    """Why there is no library."""


def soname():
    """The library's name for programs that are linked with it."""
    return f"libmezguld.so.{versions.version().split('.', maxsplit=1)[0]}"


def write_symbols():
    """Writes the list of exported symbols for the linker."""
    exported = "".join(f"        {name};\n" for name in sorted(pages.names()))
    with open(SYMBOLS, "w", encoding="utf-8") as file:
        file.write(f"{{\n    global:\n{exported}    local:\n        *;\n}};\n")


def made(words, why, given=None):
    """Runs a tool of the kit."""
    ran = subprocess.run(words, input=given, capture_output=True, text=True, check=False)
    if ran.returncode:
        raise NotLinked(f"{why}: {' '.join(ran.stderr.split())[:400]}")


def compile_code(tools):
    """Compiles the part that is written in C."""
    os.makedirs("build/headers", exist_ok=True)
    for name, text in HEADERS.items():
        with open(f"build/headers/{name}", "w", encoding="utf-8") as file:
            file.write(text)
    made([f"{tools}/bin/clang", *COMPILED, "-c", CODE, "-o", OBJECT], f"the kit's compiler refuses {CODE}")


def join(tools, archives):
    """Makes one static library of the archives and the object."""
    new = f"{STATIC}.new"
    script = [f"create {new}", *[f"addlib {it}" for it in archives], f"addmod {OBJECT}", "save", "end"]
    made([f"{tools}/bin/llvm-ar", "-M"], f"the kit's archiver makes no {STATIC}", "\n".join(script) + "\n")
    os.replace(new, STATIC)


def link():
    """Makes both libraries from the proved one. The folder is the top of the tree."""
    tools = f"{kit.folder()}/toolchain"
    if not os.path.exists(ARCHIVE):
        raise NotLinked(f"{ARCHIVE} is not built: tools/build --library builds it")
    for tool in ("clang", "llvm-ar", "ld.lld"):
        if not os.path.exists(f"{tools}/bin/{tool}"):
            raise NotLinked(f"the kit has no {tools}/bin/{tool}")
    os.makedirs("build", exist_ok=True)
    compile_code(tools)
    of_kit = f"{kit.folder()}/c/liblibc_c.a"
    join(tools, [ARCHIVE, of_kit])
    write_symbols()
    words = [
        f"{tools}/bin/ld.lld",
        *FLAGS,
        "-soname",
        soname(),
        "--version-script",
        SYMBOLS,
        "-o",
        f"{LIBRARY}.new",
        *[f"{tools}/lib/{it}" for it in BEFORE],
    ]
    words += [OBJECT, "--whole-archive", ARCHIVE, "--no-whole-archive", of_kit, *[f"{tools}/lib/{it}" for it in AFTER]]
    made(words, f"the linker refuses {ARCHIVE}")
    os.replace(f"{LIBRARY}.new", LIBRARY)
    # Programs that are linked with the library look for it by its soname.
    name = f"build/{soname()}"
    if os.path.lexists(name):
        os.remove(name)
    os.symlink(os.path.basename(LIBRARY), name)
