"""Public names that stand in several crates or modules: of functions, of methods, of types, and of definitions that
public contracts reach. A page lists them, each with the meaning that it has in all, but where a rule says that they
mean one thing."""
import functools
import glob
import os
import re

import specs

PAGE = "docs/names.md"
# The crates of the drivers: a function of a driver and the call below it have one name, and so have the parts that both
# drivers have.
OF_DRIVERS = ("dm_ems", "dm_ems_move", "dm_xms", "dm_drivers")
# Methods whose names Rust and its library give to every type.
OF_RUST = ("new", "of", "default", "as_slice", "from_number")
# Types that are two forms of one thing: the registers by name and by number, a report and what a host keeps of it.
FORMS = ({"Cpu", "Registers"}, {"Report", "KeptReport"})
LINE = re.compile(r"^\| `([^`]+)` \| (.*) \|$", re.M)


class Thing:
    """What a name stands for in a module; of a method, its type or trait; of a function or method that calls what
    has its own name, the words of its crate."""

    def __init__(self, crate, module, kind, key, refs, owner="", passed=()):
        self.crate, self.module, self.kind, self.key, self.refs, self.owner, self.passed = (
            crate,
            module,
            kind,
            key,
            refs,
            owner,
            passed,
        )

    def passes_on(self, other):
        """Whether a function or method calls another one of its name."""
        return (
            (other.owner or other.crate) in self.passed
            or not other.owner
            and other.crate == self.crate
            and bool(self.passed)
        )

    @property
    def place(self):
        return f"{self.crate} {self.module}{' ' if self.owner else ''}{self.owner}"


def things(known):
    """For each public name what it stands for. (A program has no public names.)"""
    found, reached = {}, known.reached(known.promised())
    for it in known.definitions.values():
        is_type = it.kind == "type"
        if it.key in reached or is_type and it.name in specs.exports(os.path.dirname(it.path)):
            found.setdefault(it.name, []).append(
                Thing(it.crate, it.module, "type" if is_type else "definition", it.key, ())
            )
    for it in known.contracts:
        if it.is_public and it.crate != "dm":
            module = it.path.split("/src/")[1][: -len(".rt")].replace("/", ".")
            owner, _, name = it.name.rpartition("::")
            if not owner:
                found.setdefault(name, []).append(
                    Thing(it.crate, module, "function", None, it.refs, "", passed(it, name))
                )
            elif name not in OF_RUST:
                found.setdefault(name, []).append(
                    Thing(it.crate, module, "method", None, it.refs, it.trait or owner, passed(it, name))
                )
    return found


def passed(it, name):
    """The words of a function's crate if its body calls what has its own name."""
    if not it.head:
        return frozenset()
    lines = specs.lines_of(it.path)
    indent = len(it.head[0]) - len(it.head[0].lstrip())
    end = next((at for at in range(it.line, len(lines)) if lines[at].startswith(" " * indent + "}")), len(lines))
    calls = re.search(rf"(?:\.|\b){name}\(", "\n".join(lines[it.line : end]))
    return words_of(it.crate) if calls else frozenset()


@functools.lru_cache(maxsize=None)
def words_of(crate):
    """The words of a crate's sources."""
    paths = glob.glob(f"{specs.ROOT}/crates/{crate}/src/**/*.rt", recursive=True)
    return frozenset(
        word for path in paths for word in re.findall(r"\w+", specs.text_of(os.path.relpath(path, specs.ROOT)))
    )


def is_one(known, first, second):
    """Whether a rule says that two things of one name are one: a function and the definition that its contract
    names, a type and what contracts see of it, methods of types with one name or of one trait, a method and the one
    that it passes on, parts of the drivers, or a listing as text and as records."""
    if first.owner and (first.owner == second.owner or {first.owner, second.owner} in FORMS):
        return True
    if first.passes_on(second) or second.passes_on(first):
        return True
    if first.crate != second.crate:
        return (
            first.crate in OF_DRIVERS
            and second.crate in OF_DRIVERS
            or first.key in second.refs
            or second.key in first.refs
        )
    if first.crate in OF_DRIVERS or first.key in second.refs or second.key in first.refs:
        return True
    if {first.kind, second.kind} == {"type", "definition"}:
        return first.key in known.values or second.key in known.values
    return first.crate == "dm_views" and first.module.replace("inventory.", "") == second.module.replace(
        "inventory.", ""
    )


def several(known):
    """The names that stand for several things as far as rules say, with a place of each thing."""
    found = {}
    for name, all_of_it in things(known).items():
        groups = []
        for it in all_of_it:
            same = [group for group in groups if any(is_one(known, it, other) for other in group)]
            groups = [group for group in groups if group not in same] + [
                [*(other for group in same for other in group), it]
            ]
        if len({group[0].place for group in groups}) > 1:
            found[name] = [group[0].place for group in groups]
    return found


def listed():
    """The names that the page lists."""
    return [name for name, _ in LINE.findall(specs.text_of(PAGE))]


def faults(known):
    found, there = several(known), listed()
    for name, places in sorted(found.items()):
        if name not in there:
            yield f"{PAGE} does not have `{name}`, which stands in {' and in '.join(places)}"
    yield from (f"{PAGE}: `{name}` needs no line" for name in there if name not in found)
    yield from (f"{PAGE}: `{name}` has two lines" for name in sorted(set(there)) if there.count(name) > 1)
