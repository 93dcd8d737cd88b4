"""The names in the tables of docs/proved.md, and the files that docs/architecture.md has for each crate. A line of
docs/proved.md lists calls of one crate, or of one module of it, whose contracts prove what the line says; a line of
its first table lists calls of any crate, or of the one that it names."""
import os
import re

import specs

PAGE = "docs/proved.md"
LINE = re.compile(r"^\| `(dm(?:_\w+)?)(?:::(\w+))?`(?:, \w+)? \|.*\| ([^|]+) \|$", re.M)
NAME = re.compile(r"`([A-Za-z_][\w:]*)`")
# The crate of the library's exports, and a line of their table: the exports, and the definitions that their contracts
# name.
EXPORTS = "dm_c"
EXPORT = re.compile(r"^\| (`dm_c_[^|]*) \| ([^|]*) \|", re.M)
# The first table: the calls of a line, maybe with their crate, and the definitions that their contracts name.
MAIN = re.compile(r"^## Main contracts$(.*?)^(?:## |\Z)", re.M | re.S)
MAIN_LINE = re.compile(r"^\| [^|`]+ \| ([^|]*`[^|]*) \| ([^|]*) \|$", re.M)
# The page of the crates: an item with its crate, and a file in that crate's folder.
CRATES = "docs/architecture.md"
ITEM_OF_CRATE = re.compile(r"^- \*\*`(\w+)`\*\*(.*?)(?=^- |^#|\Z)", re.M | re.S)
FILE_OF_CRATE = re.compile(r"`((?:src|specs|proofs)/[\w/.+-]+)`")
# A type, a trait or a module that others see.
ITEM = re.compile(r"^ *pub (?:struct|enum|trait|mod) (\w+)", re.M)


def is_below(path, crate, module):
    """Whether a source file is part of a crate, or of a module of it."""
    top = f"crates/{crate}/src/"
    return path.startswith((f"{top}{module}/", f"{top}{module}.rt") if module else top)


def paths_of(it):
    """The paths by which a line may name a function: its name, and before it its type, its trait or the modules
    around it."""
    *owner, name = it.name.split("::")
    modules = it.path.split("/src/")[1][: -len(".rt")].split("/")
    return {name, *(f"{one}::{name}" for one in (*owner, *modules, it.trait) if one)}


def names_of(known, crate, module, is_private=False):
    """The names of functions, public ones or all, and of public types, traits and modules of a crate or a module."""
    there = [
        it
        for it in known.contracts
        if (it.is_public or is_private) and it.crate == crate and is_below(it.path, crate, module)
    ]
    found = set().union(*(paths_of(it) for it in there)) if there else set()
    for at, _, names in os.walk(f"{specs.ROOT}/crates/{crate}/src"):
        paths = (os.path.relpath(f"{at}/{name}", specs.ROOT) for name in names if name.endswith(".rt"))
        for path in (it for it in paths if is_below(it, crate, module)):
            found.update(ITEM.findall(specs.text_of(path)))
    return found


def faults_of_main(known, text, crates, defined):
    """The names of the first table that no crate has, or not the one that the line names."""
    table = MAIN.search(text)
    for calls, says in MAIN_LINE.findall(table[1] if table else ""):
        named = NAME.findall(calls)
        of = [name for name in named if name in crates]
        there = set().union(*(names_of(known, crate, "") for crate in of or crates))
        others = (name for name in named if name not in crates and name not in there)
        yield from (f"{PAGE}: `{name}` is no public name of {' or '.join(of) or 'any crate'}" for name in others)
        yield from (
            f"{PAGE}: there is no definition `{name}`"
            for name in NAME.findall(says)
            if name not in defined and name not in crates
        )


def faults_of_files():
    """The files of an item of the page of crates that its crate does not have. (The first item of a crate is the one
    that describes it.)"""
    for crate, said in ITEM_OF_CRATE.findall(specs.text_of(CRATES)):
        for path in FILE_OF_CRATE.findall(said):
            if not os.path.exists(f"{specs.ROOT}/crates/{crate}/{path}"):
                yield f"{CRATES}: {crate} has no file {path}"


def faults(known):
    """Each name of a line that its crate, or its module, does not have. Behind the word `definitions` definitions are
    named, behind `private` functions that are not public, and in the table of exports definitions of the crate of
    exports."""
    text, defined, crates = (
        specs.text_of(PAGE),
        {it.name for it in known.definitions.values()},
        dict(specs.crate_names()),
    )
    for crate, module, cell in (line for line in LINE.findall(text) if line[0] in crates):
        calls, _, definitions = cell.partition("definition")
        there, place = (
            names_of(known, crate, module, cell.startswith("private ")),
            f"{crate}::{module}" if module else crate,
        )
        yield from (f"{PAGE}: {place} has no public `{name}`" for name in NAME.findall(calls) if name not in there)
        yield from (
            f"{PAGE}: there is no definition `{name}`"
            for name in NAME.findall(definitions)
            if name not in defined and name not in crates
        )
    there = names_of(known, EXPORTS, "")
    of_exports = {it.name for it in known.definitions.values() if it.crate == EXPORTS}
    for calls, definitions in EXPORT.findall(text):
        yield from (f"{PAGE}: {EXPORTS} has no public `{name}`" for name in NAME.findall(calls) if name not in there)
        yield from (
            f"{PAGE}: {EXPORTS} has no definition `{name}`"
            for name in NAME.findall(definitions)
            if name not in of_exports
        )
    yield from faults_of_main(known, text, crates, defined)
    yield from faults_of_files()
