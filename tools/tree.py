"""The files that an installation of Mezguld has, as `tools/install` writes them and `tools/package` packs them: made
from what the gate has built."""
import gzip
import os
import re
import shutil
import subprocess
import tempfile

import kit
import pages
import shared_library
import usage
import versions

PROGRAM = "crates/dm/out/dm"
# The pages for users, besides those of the examples; what they show and run; and a link: its text, its file and the
# heading.
PAGES = ("README.md", "docs/manual.md", "docs/install.md", "docs/picture.md", "docs/proved.md", "bench/README.md")
SHOWN = ("docs/pictures", "examples", "python/tests/programs/fragments.asm", "python/tests/programs/leak.asm")
PAGE_LINK = re.compile(r"(?<!!)\[([^\[\]]+)\]\(([^)#\s]+)(?:#[^)\s]*)?\)")
PKG_CONFIG = """\
prefix=${{pcfiledir}}/{up}
includedir=${{prefix}}/include
libdir=${{prefix}}/{lib}

Name: mezguld
Description: the library of a proved MS-DOS machine
Version: {version}
Cflags: -I${{includedir}}
Libs: -L${{libdir}} -lmezguld
"""


class NotBuilt(Exception):
    """What is missing, or older than its sources."""


class Layout:
    """Where files go below a root: the folders of a prefix, or those of a Debian package."""

    def __init__(self, prefix="", library="lib", zsh="share/zsh/site-functions", is_compressed=False):
        self.prefix, self.library, self.zsh, self.is_compressed = prefix, library, zsh, is_compressed


PREFIX = Layout()
DEBIAN = Layout("usr/", "lib/x86_64-linux-gnu", "share/zsh/vendor-completions", is_compressed=True)


class Link(str):
    """The target of a symbolic link."""


def bytes_of(path):
    with open(f"{kit.ROOT}/{path}", "rb") as file:
        return file.read()


def tracked(*paths):
    """The repository's files below some paths, by their paths from its root."""
    listed = subprocess.run(
        ["git", "ls-files", "-z", *paths], cwd=kit.ROOT, capture_output=True, text=True, check=False
    )
    if listed.returncode:
        raise NotBuilt(f"git does not list the files of the tree: {' '.join(listed.stderr.split())}")
    return [path for path in listed.stdout.split("\0") if path and os.path.isfile(f"{kit.ROOT}/{path}")]


def is_executable(path):
    return os.access(f"{kit.ROOT}/{path}", os.X_OK)


def stripped(data):
    """A program without its symbols, by the kit's own tool."""
    tool = f"{kit.folder()}/toolchain/bin/clang"
    with tempfile.TemporaryDirectory() as folder:
        with open(f"{folder}/program", "wb") as file:
            file.write(data)
        # (The tool goes by the name that it is called by.)
        os.symlink(tool, f"{folder}/llvm-strip")
        ran = subprocess.run(
            [f"{folder}/llvm-strip", "--strip-all", f"{folder}/program"], capture_output=True, text=True, check=False
        )
        if ran.returncode:
            raise NotBuilt(f"{PROGRAM} cannot be stripped: {' '.join(ran.stderr.split())[:400]}")
        with open(f"{folder}/program", "rb") as file:
            return file.read()


def compressed(data):
    """Bytes as `gzip -9n` writes them: without a name and a time."""
    if not shutil.which("gzip"):
        raise NotBuilt("the command gzip is not in the path: install it")
    return subprocess.run(["gzip", "-9n"], input=data, capture_output=True, check=True).stdout


def crates_of(name):
    """A crate and the repository's crates below it."""
    with open(f"{kit.ROOT}/crates.txt", encoding="utf-8") as file:
        lines = re.findall(r"^(\w+)[^:#]*:(.*)$", file.read(), re.M)
    uses, found, left = dict(lines), set(), [name]
    while left:
        one = left.pop()
        if one in uses and one not in found:
            found.add(one)
            left += uses[one].split()
    return found


def time_of(path):
    return os.path.getmtime(f"{kit.ROOT}/{path}")


def newest_source(name):
    """The source that a crate is made of and that was written last."""
    folders = [f"crates/{it}/{part}" for it in sorted(crates_of(name)) for part in ("src", "specs", "proofs")]
    return max(tracked(*folders), key=time_of)


def check_built():
    """Raises `NotBuilt` where the program or the library's archive is missing or older than a source."""
    for name, path in (("dm", PROGRAM), ("dm_c", shared_library.ARCHIVE)):
        if not os.path.exists(f"{kit.ROOT}/{path}"):
            raise NotBuilt(f"{path} is not built: tools/build --library builds it, and so does the gate")
        newest = newest_source(name)
        if time_of(path) < time_of(newest):
            raise NotBuilt(f"{path} is older than {newest}: tools/build --library builds it again")


def manuals():
    """The man pages: the functions of the library have a page each, which shows that of the library."""
    yield "man1/dm.1", pages.dm_page(usage.Usage(f"{kit.ROOT}/{PROGRAM}")).encode()
    yield "man3/mezguld.3", pages.library_page().encode()
    for name in pages.names():
        yield f"man3/{name}.3", b".so man3/mezguld.3\n"


def library(layout):
    """The shared library, its links, the header and the file of pkg-config."""
    version, folder = versions.version(), f"{layout.prefix}{layout.library}"
    yield f"{folder}/libmezguld.so.{version}", (bytes_of(shared_library.LIBRARY), 0o644)
    yield f"{folder}/{shared_library.soname()}", (Link(f"libmezguld.so.{version}"), 0o777)
    yield f"{folder}/libmezguld.so", (Link(shared_library.soname()), 0o777)
    up = "/".join([".."] * (layout.library.count("/") + 2))
    yield f"{folder}/pkgconfig/mezguld.pc", (
        PKG_CONFIG.format(up=up, lib=layout.library, version=version).encode(),
        0o644,
    )
    yield f"{layout.prefix}include/mezguld.h", (bytes_of("include/mezguld.h"), 0o644)


def page(path, names):
    """A page's bytes with the links that lead to files of these names; a link to another file of the tree is its
    text alone."""

    def kept(link):
        target = os.path.normpath(f"{os.path.dirname(path)}/{link[2]}") if os.path.dirname(path) else link[2]
        return link[1] if target not in names and os.path.exists(f"{kit.ROOT}/{target}") else link[0]

    return PAGE_LINK.sub(kept, bytes_of(path).decode()).encode()


def documents(layout):
    """The pages for users, as they lie in the tree, with their pictures and the programs that they run, and the gdb
    scripts, where there are any. (In the Debian package they are not compressed: no link would lead to them.)"""
    paths = [*PAGES, *tracked(*SHOWN)]
    for path in paths:
        data = page(path, paths) if path.endswith(".md") else bytes_of(path)
        yield f"{layout.prefix}share/doc/mezguld/{path}", (data, 0o644)
    for path in tracked("share/gdb"):
        yield f"{layout.prefix}share/mezguld/{path[len('share/') :]}", (bytes_of(path), 0o644)


def files(layout):
    """The files below the root, each path with its bytes or `Link`, and its mode. The library is linked anew, which
    takes a second."""
    os.chdir(kit.ROOT)
    check_built()
    shared_library.link()
    program = usage.Usage(PROGRAM)
    share = f"{layout.prefix}share"
    found = {
        f"{layout.prefix}bin/dm": (stripped(bytes_of(PROGRAM)), 0o755),
        **dict(library(layout)),
        **dict(documents(layout)),
    }
    found[f"{share}/bash-completion/completions/dm"] = (pages.bash_completion(program).encode(), 0o644)
    found[f"{share}/{layout.zsh[len('share/') :]}/_dm"] = (pages.zsh_completion(program).encode(), 0o644)
    for path, data in manuals():
        found[f"{share}/man/{path}{'.gz' if layout.is_compressed else ''}"] = (
            compressed(data) if layout.is_compressed else data,
            0o644,
        )
    return dict(sorted(found.items()))


# Why there are no files, as a script tells it.
REASONS = (
    NotBuilt,
    shared_library.NotLinked,
    usage.Unreadable,
    versions.Unreadable,
    OSError,
    subprocess.CalledProcessError,
)
