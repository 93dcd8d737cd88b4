"""Reads the definitions of the crates, the contracts of their public functions, and which of them reach which."""
import functools
import glob
import os
import re

ROOT = os.path.dirname(os.path.dirname(os.path.abspath(__file__)))
# What begins a definition: its words, and its name.
BEGINS = re.compile(r"^(\s*)(abbrev|unfoldable|pub record|pub data)(?: pub)? ([^\s{]+)")
USE = re.compile(r"^\s*(?:ghost |pub )?use Rattle\.([\w.]+?)(?:\.\{([^}]*)\})?(?: as (\w+))?;?$")
PATH = re.compile(r"Rattle\.([\w.]+)")
# A name, and the names after its dots: `rows.allocate`, `s.cpu.bx`.
WORD = re.compile(r"[A-Za-z_][\w'>=-]*(?:\.[A-Za-z_][\w'-]*)*|◌[^\s◌]+◌")
# A `use` over several lines.
LONG_USE = re.compile(r"^(?:ghost |pub )?use Rattle\.[\w.]+\.\{[^{};]*\n[^{};]*\};?", re.M)
CLAUSE = re.compile(r"^\s+(?:requires|ensures)\b")
FUNCTION = re.compile(r"^\s*(pub(?:\(crate\))? )?(?:extern \"C\" )?fn (\w+)")
TRIED = re.compile(r"^\s*(?:#|///) Definitions: (.*)$")
BLOCK = re.compile(r"^impl(?:<[^>]*>)? (?:(\w+)(?:<[^>]*>)? for )?(\w+)")
TRAIT = re.compile(r"^pub trait (\w+)")
TYPE = re.compile(r"^(?:pub(?:\(crate\))? )?(struct|enum) (\w+)")


# The crates of the kit whose definitions this repository's definitions name.
OF_KIT = ("clap",)


def text_of(path):
    with open(f"{ROOT}/{path}", encoding="utf-8") as file:
        return file.read()


# A file of definitions that only proofs and private contracts name.
INNER = re.compile(r"/specs/(?:\w+/)?inner/")


def crate_names():
    """The crates without the test crates, and their groups, in the order of crates.txt."""
    group, found = "", []
    for line in text_of("crates.txt").split("\n")[1:]:
        if line.startswith("#"):
            group = line[2:].split(":")[0]
        elif ":" in line and not group.startswith("Tests"):
            found.append((line.split(":")[0].split()[0], group))
    return found


class Definition:
    """A definition of specs/, or a type of src/ that definitions see."""

    def __init__(self, crate, module, name, kind, comment, path, line):
        self.crate, self.module, self.name, self.kind, self.comment = crate, module, name, kind, comment
        self.path, self.line, self.lines, self.refs = path, line, [], []

    @property
    def key(self):
        return f"{self.crate}.{self.module}.{self.name}"

    @property
    def is_inner(self):
        return bool(INNER.search(self.path))

    def size(self):
        """Its lines without comments: neither the one above it, nor those of its fields."""
        return sum(not line.strip().startswith("--") for line in self.lines)

    def meaning(self):
        """Its comment, or else those of its fields."""
        return self.comment or [f"{line.strip()[3:]};" for line in self.lines if line.startswith("  -- ")]


class Contract:
    """What the clauses of a function say."""

    def __init__(self, crate, path, name, is_public, line):
        self.crate, self.path, self.name, self.is_public, self.line = crate, path, name, is_public, line
        self.clauses, self.refs, self.docs, self.head, self.types, self.trait = [], [], [], [], [], None


class Specs:
    """The definitions by their keys, the contracts, and the head comment of each file. With the path of the kit's
    crates, also the definitions of those of them that definitions here name."""

    def __init__(self, kit=None):
        self.places = {crate: f"{kit}/{crate}" for crate in OF_KIT} if kit else {}
        # Names that a file of the kit passes on, and those that they stand for.
        self.passed_on = {}
        self.definitions, self.contracts, self.heads, self.imports, self.groups = {}, [], {}, {}, {}
        self.files, self.abouts, self.values = {}, {}, set()
        for crate, group in crate_names():
            self.groups[crate] = group
            self.read_specs(crate)
            self.read_sources(crate)
        for crate in self.places:
            self.read_specs(crate)
        self.resolve()

    def read_specs(self, crate):
        top = f"{self.places.get(crate, f'{ROOT}/crates/{crate}')}/specs"
        for at, folders, names in sorted(os.walk(top)):
            folders.sort()
            for name in sorted(names):
                path = os.path.relpath(f"{at}/{name}", ROOT)
                if name.endswith(".antt") and name != "Lib.antt":
                    module = os.path.relpath(f"{at}/{name}", top)[: -len(".antt")].replace("/", ".")
                    self.read_file(crate, module, path)

    def read_file(self, crate, module, path):
        lines = lines_of(path)
        end = next((at for at, line in enumerate(lines) if not line.startswith("--")), len(lines))
        self.heads[path] = [line[2:].strip() for line in lines[:end]]
        self.files[path] = found = []
        imports, comment, current, is_inside = {}, [], None, False
        for number, line in enumerate(lines[end:], end + 1):
            used, begun = USE.match(line), BEGINS.match(line)
            if used:
                imports.update(imported(used))
                if line.startswith("pub "):
                    self.passed_on.update(
                        {f"{crate}.{module}.{name}": type_path(it.split(".")) for name, it in imported(used).items()}
                    )
            elif re.match(r"  +-- ", line) and is_inside:
                # (The comment of a field, or of a line of a table.)
                current.lines.append(line)
            elif line.lstrip().startswith("-- "):
                comment.append(line.strip()[3:])
            elif begun:
                current = Definition(crate, module, begun[3], begun[2], comment, path, number)
                current.lines.append(line)
                found.append(current)
                self.definitions[current.key] = current
                comment = []
            elif not line.strip():
                comment = []
            elif current and not line.startswith("module "):
                current.lines.append(line)
            is_inside = bool(current and line.strip() and not line.startswith("module ") and not (used or comment))
        for it in found:
            while it.lines and not it.lines[-1].strip():
                it.lines.pop()
            self.imports[it.key] = imports

    def read_sources(self, crate):
        root = next(it for it in ("lib.rt", "main.rt") if os.path.exists(f"{ROOT}/crates/{crate}/src/{it}"))
        self.abouts[crate] = [
            it[3:].strip() for it in text_of(f"crates/{crate}/src/{root}").split("\n") if it.startswith("//!")
        ]
        for at, folders, names in sorted(os.walk(f"{ROOT}/crates/{crate}/src")):
            folders.sort()
            for name in sorted(names):
                if name.endswith(".rt") and name != "tests.rt":
                    self.read_source(crate, os.path.relpath(f"{at}/{name}", ROOT))

    def read_source(self, crate, path):
        # (A program has no public functions: all its contracts count.)
        is_program = os.path.exists(f"{ROOT}/crates/{crate}/src/main.rt")
        exported = exports(os.path.dirname(path))
        module = os.path.relpath(path, f"crates/{crate}/src")[: -len(".rt")].removesuffix("/mod").replace("/", ".")
        file = os.path.splitext(os.path.basename(path))[0]
        lines = lines_of(path)
        whole, inner, block, trait, function, docs, is_open = {}, {}, None, None, None, [], False
        for number, line in enumerate(lines, 1):
            used, begun, impl, kind = USE.match(line), FUNCTION.match(line), BLOCK.match(line), TYPE.match(line)
            if line.startswith("}"):
                block, trait, inner = None, None, {}
            if used:
                (inner if line.startswith(" ") else whole).update(imported(used))
            elif impl:
                block, inner = impl, {}
            elif TRAIT.match(line):
                trait = TRAIT.match(line)[1]
                function = Contract(crate, path, trait, trait in exported or file in exported, number)
                self.contracts.append(function)
                self.imports[id(function)] = (whole, inner)
            elif trait and re.match(r"^\s+ghost (?!use)\w+:", line):
                function.clauses.append(line.strip())
            elif kind:
                self.read_type(crate, module, path, number, kind[2], docs, lines, whole)
            elif begun:
                outer = f"{block[2]}::" if block else f"{trait}::" if trait else ""
                # (A method of a trait is as public as the trait.)
                is_shown = (block[2] if block else trait or begun[2]) in exported or file in exported
                is_public = is_program or is_shown and (begun[1] == "pub " or bool(trait or block and block[1]))
                function = Contract(crate, path, outer + begun[2], is_public, number)
                self.contracts.append(function)
                self.imports[id(function)] = (whole, inner)
                function.docs = [it[3:].strip() for it in docs if it.startswith("///")]
                function.head = head_of(lines[number - 1 :])
                function.types, function.trait = [block[2]] if block else [], block[1] if block else trait
            elif CLAUSE.match(line) and function:
                function.clauses.append(line.strip())
                is_open = line.count("{") > line.count("}")
            elif is_open and function:
                # (A clause of several lines.)
                function.clauses[-1] += " " + line.strip()
                is_open = function.clauses[-1].count("{") > function.clauses[-1].count("}")
            elif block and block[1] == "Model" and line.strip().startswith("ghost Value"):
                self.read_value(crate, path, block[2], line, whole, inner)
            docs = (
                docs + [line.strip()]
                if line.strip().startswith("///")
                else docs
                if line.strip().startswith("#[")
                else []
            )

    def read_type(self, crate, module, path, number, name, docs, lines, imports):
        made = Definition(crate, f"declared.{module}", name, "type", [it[3:].strip() for it in docs], path, number)
        for line in lines[number - 1 :]:
            made.lines.append(line)
            if line.startswith("}") or line.endswith(";"):
                break
        self.definitions[made.key] = made
        self.imports[made.key] = {**code_imports(crate, lines), **imports}

    def read_value(self, crate, path, name, line, whole, inner):
        """The view of a type in a contract: the value that its model names."""
        key = next(
            (it for it in self.definitions if self.definitions[it].path == path and self.definitions[it].name == name),
            None,
        )
        if key:
            self.definitions[key].lines = [line.strip()]
            self.values.add(key)
            self.imports[key] = {**whole, **inner}

    def resolve(self):
        types = {}
        for key, it in self.definitions.items():
            if it.kind == "type":
                types.setdefault(it.name, []).append(key)
        for names in (self.imports[key] for key in self.definitions):
            for word, path in names.items():
                if ".?." in path:
                    crate, name = path.split(".?.")
                    found = types.get(name, [])
                    own = [key for key in found if key.startswith(f"{crate}.")]
                    names[word] = (own or found or [path])[0]
        for it in self.definitions.values():
            text = "\n".join(self.shown(it))
            it.refs = [key for key in self.named(it.crate, it.module, self.imports[it.key], text) if key != it.key]
        for it in self.contracts:
            whole, inner = self.imports[id(it)]
            it.refs = self.named(it.crate, None, {**whole, **inner}, "\n".join(it.clauses))
            it.refs += [key for key in self.seen(it, types) if key not in it.refs]

    def seen(self, it, types):
        """The types in a function's head that contracts see as another value."""
        for name in [*it.types, *re.findall(r"[A-Z]\w+", "\n".join(it.head))]:
            for key in types.get(name, []):
                if key in self.values:
                    yield key

    def shown(self, it):
        """The lines of a definition without comments."""
        return [line.split(" -- ")[0] for line in it.lines if not line.strip().startswith(("//", "--"))]

    def named(self, crate, module, imports, text):
        """The keys of the definitions that a text names, in their order in the text."""
        found = []
        for word in WORD.findall(re.sub(r'"[^"]*"', "", text)):
            for path in self.paths(crate, module, imports, word):
                path = self.passed_on.get(path, path)
                if path in self.definitions:
                    found.append(path)
                    break
        # (The operators between operands: a step `x ← e` is `>>=`.)
        between = {f"◌{word}◌" for word in text.split()} | ({"◌>>=◌"} if "←" in text else set())
        for name in between:
            path = type_path(imports[name].split(".")) if name in imports else f"{crate}.{module}.{name}"
            if path in self.definitions:
                found.append(path)
        return list(dict.fromkeys(found))

    def paths(self, crate, module, imports, word):
        """The names that a word may stand for, the longest first."""
        parts = word.split(".")
        if parts[0] == "Rattle" and len(parts) > 3:
            yield type_path(parts[1:])
            yield type_path(parts[1:-1])
            return
        if len(parts) > 1 and imports.get(parts[0]):
            yield type_path([*imports[parts[0]].split("."), parts[1]])
        if imports.get(parts[0]):
            yield type_path(imports[parts[0]].split("."))
        elif module:
            yield f"{crate}.{module}.{parts[0]}"

    def reached(self, keys):
        """The definitions that these reach."""
        found, left = {}, list(keys)
        while left:
            key = left.pop()
            if key not in found:
                found[key] = self.definitions[key]
                left += self.definitions[key].refs
        return found

    def naming(self):
        """For the key of a definition, the public contracts that name it."""
        found = {}
        for it in self.public():
            for key in it.refs:
                found.setdefault(key, []).append(it)
        return found

    def users(self):
        """For the key of a definition, the reached definitions that name it."""
        found = {}
        for it in self.reached(self.promised()).values():
            for key in it.refs:
                found.setdefault(key, []).append(it)
        return found

    def promised(self, crate=None):
        """The definitions that public contracts name."""
        return [key for it in self.public(crate) for key in it.refs]

    def rows(self):
        """For the key of a definition, the rows and tests that name it: a line `Definitions: CRATE FILE NAME..; ..`
        at a row's head, or in the comment of a test."""
        found = {}
        for path in sorted(glob.glob(f"{ROOT}/rows/*/*.row") + glob.glob(f"{ROOT}/examples/*.row")):
            path = os.path.relpath(path, ROOT)
            for line in text_of(path).split("\n"):
                for key in tried(line):
                    found.setdefault(key, []).append(path)
        for path in sorted(glob.glob(f"{ROOT}/crates/*/src/**/*.rt", recursive=True)):
            path, keys = os.path.relpath(path, ROOT), []
            for line in text_of(path).split("\n"):
                keys += tried(line)
                function = FUNCTION.match(line)
                for key in keys if function else []:
                    found.setdefault(key, []).append(f"{path.split('/')[1]}::{function[2]}")
                if function or not line.strip():
                    keys = []
        return {key: list(dict.fromkeys(names)) for key, names in found.items()}

    def public(self, crate=None):
        return [it for it in self.contracts if it.is_public and it.clauses and (crate is None or it.crate == crate)]


@functools.lru_cache(maxsize=None)
def known(kit=None):
    """What `Specs` reads, once for all who ask."""
    return Specs(kit)


def tried(line):
    """The keys of the definitions that a line of a row's head, or of a test's comment, says are tried there."""
    found = TRIED.match(line)
    for part in found[1].split(";") if found else []:
        crate, module, *names = part.split()
        yield from (f"{crate}.{module}.{name}" for name in names)


def exports(folder):
    """The names that a library, or a module with a folder of its own, re-exports: of functions, types and modules."""
    found = set()
    path = next((it for it in (f"{folder}/lib.rt", f"{folder}/mod.rt") if os.path.exists(f"{ROOT}/{it}")), None)
    if path:
        text = text_of(path)
        found.update(re.findall(r"^pub mod (\w+);", text, re.M))
        for names in re.findall(r"^pub use (?:\w+::)+\{?([^;{}]+)\}?;", text, re.M):
            found.update(name.strip().split(" as ")[0] for name in names.split(",") if name.strip())
    return found


def head_of(lines):
    """The lines of a function's head, up to its clauses or its body."""
    found = []
    for line in lines:
        if CLAUSE.match(line) or line.strip() in ("{", "{}"):
            break
        found.append(line)
        if line.rstrip().endswith(("{", "{}", ";")):
            break
    return found


def lines_of(path):
    """The lines of a file. A `use` that goes over several lines is one line, and as many empty ones follow it."""
    return LONG_USE.sub(
        lambda it: " ".join(it[0].split()).replace(",}", "}").replace(", }", "}") + "\n" * it[0].count("\n"),
        text_of(path),
    ).split("\n")


def imported(used):
    """The words that a line `use` brings in, and what each names."""
    path, names, other = used[1], used[2], used[3]
    if names is None:
        return {other or path.split(".")[-1]: path}
    found = {}
    for name in re.split(r",\s*", names.strip()):
        one, _, renamed = name.strip().partition(" as ")
        found[renamed or one] = f"{path}.{one}"
    return found


def type_path(parts):
    """The key of a definition by its path; a variant is part of its type."""
    parts = [it for it in parts]
    if "TheVariants" in parts:
        parts = parts[: parts.index("TheVariants")]
    if len(parts) > 2 and parts[1] == "specs":
        parts = [parts[0], *parts[2:]]
    # (A declared type has a module of its own, with the same name.)
    if len(parts) > 3 and parts[1] == "declared" and parts[-1] == parts[-2]:
        parts = parts[:-1]
    return ".".join(parts)


def code_imports(crate, lines):
    """The types of crates that the lines `use` of some code bring in, as far as their modules' names show."""
    found = {}
    for line in lines:
        used = re.match(r"^use (crate|dm_\w+)::(?:\w+::)*\{?([\w, ]+)\}?;$", line)
        if used:
            for name in re.split(r",\s*", used[2]):
                found[name.strip()] = f"{crate if used[1] == 'crate' else used[1]}.?.{name.strip()}"
    return found


def some_of(names, most):
    """Some names as text, and the number of the others."""
    names = list(dict.fromkeys(names))
    more = f" and {len(names) - most} more" if len(names) > most else ""
    return ", ".join(names[:most]) + more
