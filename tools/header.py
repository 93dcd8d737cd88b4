"""Compares lib/exports.h with the exports of crates/dm_c, include/mezguld.h with both and with the records of the
crates below, and python/mezguld/__init__.py with that header.

(That lib/mezguld.c has the functions of include/mezguld.h, and calls the exports as lib/exports.h declares them, is
the C compiler's to see.)"""
import ast
import glob
import os
import re

ROOT = os.path.dirname(os.path.dirname(os.path.abspath(__file__)))
# The folders of the exports, and of the records and statuses which C gets.
FOLDERS = ("dm_c/src", "dm_c/src/calls", "dm_views/src/inventory")
# The C type of a number, and of each type of the exports.
NUMBERS = {"u8": "uint8_t", "u16": "uint16_t", "u32": "uint32_t", "u64": "uint64_t", "usize": "size_t"}
TYPES = {
    **NUMBERS,
    "MachineHandle": "mezguld",
    "Stopped": "mezguld_stopped",
    "Registers": "mezguld_cpu",
    "Point": "mezguld_point",
    "Awaited": "mezguld_event",
    "ArenaBlock": "mezguld_block",
    "ListEnd": "mezguld_list_end",
    "PageHandle": "mezguld_page_handle",
    "Window": "mezguld_window",
    "ExtendedBlock": "mezguld_extended_block",
    "UpperBlock": "mezguld_upper_block",
    "Act": "mezguld_act",
    "CodePlace": "mezguld_place",
    "Contents": "mezguld_contents",
    "Details": "mezguld_details",
    "FoundRecord": "mezguld_finding",
}
# The meaning of each letter of `_PARAMETERS` in the Python module; `p` is a pointer that is followed by a count.
LETTERS = {
    "m": "mezguld *",
    "h": "mezguld **",
    "s": "mezguld_stopped *",
    "r": "mezguld_cpu *",
    "c": "const mezguld_cpu *",
    "w": "size_t *",
    "q": "uint64_t *",
    "n": "size_t",
    "I": "uint32_t",
    "B": "uint32_t",
    "Q": "uint64_t",
    "H": "uint16_t",
    "e": "mezguld_list_end *",
    "d": "uint32_t *",
}
# What C calls a status and a reason to stop, which are numbers of the exports; an export that returns a number that is
# no status; and the type that C has for bytes, `void` for data and `char` for texts.
STATUS_TYPE, STOP_TYPE, KIND_TYPE, NO_STATUS, BYTES = (
    "mezguld_status",
    "mezguld_stop",
    "mezguld_kind",
    ("dm_c_version",),
    re.compile(r"\b(?:void|char) \*"),
)
# The fields that are numbers in the crates and enumerations in C: the enumeration of each, by the struct.
NAMED = {
    ("Stopped", "why"): STOP_TYPE,
    ("Awaited", "kind"): KIND_TYPE,
    ("FoundRecord", "kind"): "mezguld_finding_kind",
    ("Act", "how"): "mezguld_how",
}
# The exceptions of the Python module whose status has another name in the header, and the statuses that it raises
# nothing for: its own calls meet neither an event of no kind, NULL, bad variables, a finding that is not listed nor, at
# last, a buffer that is too small.
RENAMED, UNRAISED = {"COMMAND_SYNTAX": "SYNTAX", "BREAKPOINTS_FULL": "FULL"}, (
    "OK",
    "TOO_SMALL",
    "BAD_EVENT",
    "NULL_POINTER",
    "BAD_VARIABLES",
    "NO_FINDING",
)
# The status of the exports that C never sees, since lib/mezguld.c makes each handle; and those that lib/mezguld.c
# returns by itself.
INNER, OUTER = ("IN_USE",), ("NULL_POINTER", "BAD_VARIABLES")
# The structs that the Python module has as classes of its own, not as a table's records.
WRITTEN_OUT = ("mezguld", "mezguld_stopped", "mezguld_cpu", "mezguld_point", "mezguld_event")
# The functions that take a `const mezguld *`; and those of the header whose parameters are not those of the export but
# for `const`: they make or free a machine.
READERS = (
    "steps",
    "registers",
    "read",
    "read_linear",
    "output",
    "output_count",
    "input_left",
    "answer",
    "copy",
    "blocks",
    "page_handles",
    "windows",
    "extended_blocks",
    "upper_blocks",
    "high_memory",
    "read_page",
    "read_block",
    "findings",
    "finding_counts",
    "finding_line",
)
MAKERS = {
    "mezguld_new": {"machine": "mezguld **"},
    "mezguld_copy": {"copy": "mezguld **"},
    "mezguld_free": {},
}
EXPORT = re.compile(
    r'#\[unsafe\(no_mangle\)\]\s*pub extern "C" fn (\w+)\s*\(([^)]*)\)\s*(?:->\s*([\w&\[\] ]+?))?\s*'
    r"(?=\bensures\b|\brequires\b|\{)"
)
STRUCT = re.compile(r"#\[repr\(C\)\]\s*(?:#\[[^\]]*\]\s*)*pub struct (\w+) \{([^}]*)\}")
CONSTANT = re.compile(r"^pub(?:\(crate\))? const (\w+): u32 = (\d+);", re.M)
# (A status that is a named constant is on a line of its own.)
STATUS = re.compile(r"\b(?:Assembly)?Refusal::(\w+)(?:\(_\))? => (\d+)")
STOP = re.compile(r"(?:Some\(Stop::(\w+)(?:\(\w+\))?\)|None) => Stopped \{\s*why: (\d+)")
EVENT = re.compile(r"RunEnd::Came\(_\) => Stopped \{\s*why: (\d+)")
PROTOTYPE = re.compile(r"^([\w ]+?[ *]+)((?:mezguld|dm_c)_\w+)\(([^)]*)\);", re.M | re.S)
INLINE = re.compile(r"^static inline ([^;{]*)\n\{(.*?)^\}\n", re.M | re.S)
STRUCTS = re.compile(r"struct (\w+) \{([^}]*)\}(?: \w+)?;")
ENUMERATOR = re.compile(r"\bMEZGULD_(\w+) = (\d+)")


def text_of(path):
    with open(f"{ROOT}/{path}", encoding="utf-8") as file:
        return file.read()


def upper(name):
    """`NotFound` as `NOT_FOUND`."""
    return re.sub(r"(?<=[a-z])(?=[A-Z])", "_", name).upper()


def c_parameters(name, kind):
    """The types and names that a parameter of an export has in C; None as a name stands for any name, as for a
    count."""
    slice_of = re.fullmatch(r"&(mut )?\[(\w+)\]", kind)
    if slice_of:
        return [(f"{'' if slice_of[1] else 'const '}{TYPES.get(slice_of[2], slice_of[2])} *", name), ("size_t", None)]
    lent = re.fullmatch(r"&(mut )?(\w+)", kind)
    if lent:
        return [(f"{'' if lent[1] else 'const '}{TYPES.get(lent[2], lent[2])} *", name)]
    return [] if kind == "Global" else [(TYPES.get(kind, kind), name)]


def type_and_name(words):
    """`const uint8_t *name` as its type and its name."""
    found = re.fullmatch(r"(.*?)(\w+(?:\[\d+\])?)", " ".join(words.split()))
    return (found[1].strip().replace("* ", "*"), found[2]) if found else (words.strip(), "")


class Exports:
    """What the crates export, as C would declare it."""

    def __init__(self):
        paths = [path for folder in FOLDERS for path in sorted(glob.glob(f"{ROOT}/crates/{folder}/*.rt"))]
        code = {path: re.sub(r"//[^\n]*", "", text_of(os.path.relpath(path, ROOT))) for path in paths}
        whole = "\n".join(code.values())
        self.marked = len(re.findall(r"#\[unsafe\(no_mangle\)\]", whole))
        self.functions, self.structs = {}, {}
        for name, parameters, result in EXPORT.findall(whole):
            pairs = [pair.split(":") for pair in parameters.split(",") if pair.strip()]
            given = [it for word, kind in pairs for it in c_parameters(word.strip(), " ".join(kind.split()))]
            self.functions[name] = (
                STATUS_TYPE if result == "u32" and name not in NO_STATUS else TYPES.get(result, result or "void"),
                given,
            )
        for name, fields in STRUCT.findall(whole):
            found = [declared_field(name, line) for line in fields.split(",") if line.strip()]
            self.structs[name] = [it for it in found if it]
        self.statuses = {name: int(value) for name, value in CONSTANT.findall(whole)}
        for path, text in code.items():
            prefix = "LINE_" if os.path.basename(path) == "texts.rt" else ""
            self.statuses.update({prefix + upper(name): int(value) for name, value in STATUS.findall(text)})
        self.stops = {upper(name) if name else "BREAKPOINT": int(value) for name, value in STOP.findall(whole)}
        self.stops.update({"EVENT": int(value) for value in EVENT.findall(whole)})


def declared_field(struct, line):
    """A field of a struct of the crates, as C declares it, or None for a ghost one."""
    found = re.fullmatch(r"(?:pub(?:\(crate\))? )?(\w+): (?:(\*mut u8|\w+)|\[(\w+); (\d+)\])", " ".join(line.split()))
    if not found:
        return None
    name, kind, item, count = found.groups()
    if item:
        return (TYPES.get(item, item), f"{name}[{count}]")
    if (struct, name) in NAMED:
        return (NAMED[struct, name], name)
    return ("void *" if kind in ("*mut u8", "Inside") else TYPES.get(kind, kind), name)


class Header:
    """What a header declares."""

    def __init__(self, path):
        text = re.sub(r"/\*.*?\*/", " ", text_of(path), flags=re.S)
        text = re.sub(r"^MEZGULD_(?:CALL|MAKES\(\d\)) ", "", text, flags=re.M)
        # (The one function that C compiles itself: the text of each status.)
        self.told = {
            name: text
            for _, body in INLINE.findall(text)
            for name, text in re.findall(r'case MEZGULD_(\w+): return ("[^"]+");', body)
        }
        text = INLINE.sub("", text)
        self.declarations = len(re.findall(r"\b(?:mezguld|dm_c)_\w+\s*\(", text))
        self.functions = {}
        for result, name, parameters in PROTOTYPE.findall(text):
            given = [type_and_name(it) for it in parameters.split(",") if it.strip() != "void"]
            self.functions[name] = (result.strip(), [(BYTES.sub("uint8_t *", kind), word) for kind, word in given])
        self.structs = {}
        for name, fields in STRUCTS.findall(text):
            found = []
            for line in fields.split(";"):
                words = line.strip().split(",")
                if words[0]:
                    kind, first = type_and_name(words[0])
                    found += [(kind, first), *[(kind, word.strip()) for word in words[1:]]]
            self.structs[name] = found
        enums = {
            name: {word: int(value) for word, value in ENUMERATOR.findall(it)}
            for it, name in re.findall(r"typedef enum \w+ \{([^}]*)\} (\w+);", text)
        }
        self.statuses, self.stops, self.kinds = (
            enums.get(STATUS_TYPE, {}),
            enums.get(STOP_TYPE, {}),
            enums.get(KIND_TYPE, {}),
        )
        self.found_kinds = {
            name.removeprefix("FOUND_"): value for name, value in enums.get("mezguld_finding_kind", {}).items()
        }
        self.hows = enums.get("mezguld_how", {})


def shown(parameters):
    return ", ".join(f"{kind}{'' if kind.endswith('*') else ' '}{name or '..'}" for kind, name in parameters)


def fits(given, wanted):
    return len(given) == len(wanted) and all(
        one[0] == other[0] and other[1] in (one[1], None) for one, other in zip(given, wanted)
    )


def compare_numbers(what, given, wanted):
    """The faults of a table of named numbers of the header against that of the exports."""
    for name in sorted({*given, *wanted}):
        if given.get(name) != wanted.get(name):
            yield (
                f"the {what} MEZGULD_{name} is {given.get(name, 'missing')} in the header and"
                f" {wanted.get(name, 'missing')} in the exports"
            )


def export_faults(declared, exports):
    """The faults of lib/exports.h."""
    if exports.marked != len(exports.functions) or declared.declarations != len(declared.functions):
        yield "an export or a prototype cannot be read"
    for name in sorted({*declared.functions, *exports.functions}):
        if name not in declared.functions or name not in exports.functions:
            yield (
                f"{name} is {'exported and not declared' if name in exports.functions else 'declared and not exported'}"
            )
            continue
        (result, given), (of_export, wanted) = declared.functions[name], exports.functions[name]
        if result != of_export:
            yield f"{name} returns {result} in the header and {of_export} in the exports"
        if not fits(given, wanted):
            yield f"{name}({shown(given)}) in the header is ({shown(wanted)}) in the exports"
    if declared.structs.get("mezguld") != exports.structs.get("MachineHandle"):
        yield (
            f"the struct mezguld has {shown(declared.structs.get('mezguld', []))} in the header and"
            f" {shown(exports.structs.get('MachineHandle', []))} in the exports"
        )


def wanted_of(name, exported):
    """The result and parameters that the function of the header has for an export."""
    result, given = exported
    places = MAKERS.get(name, {})
    return "void" if name == "mezguld_free" else result, [(places.get(word, kind), word) for kind, word in given]


def is_alike(name, given, wanted):
    """Whether the parameters are those of the export, but that a machine is `const` where it stays."""
    machine = "const mezguld *" if name.removeprefix("mezguld_") in READERS else "mezguld *"
    return given == [(machine if kind == "mezguld *" else kind, word) for kind, word in wanted]


def header_faults(header, declared, exports):
    """The faults of include/mezguld.h."""
    if header.declarations != len(header.functions):
        yield "a prototype cannot be read"
    exported = {name.replace("dm_c_", "mezguld_", 1): it for name, it in declared.functions.items()}
    for name in sorted({*header.functions, *exported}):
        if name not in header.functions or name not in exported:
            yield f"{name} is {'exported and not declared' if name in exported else 'declared and not exported'}"
            continue
        (result, given), (wanted_result, wanted) = header.functions[name], wanted_of(name, exported[name])
        if result != wanted_result:
            yield f"{name} returns {result} and not {wanted_result}"
        if not is_alike(name, given, wanted):
            yield f"{name}({shown(given)}) is ({shown(wanted)}) for the export"
    for name, kind in TYPES.items():
        if name not in NUMBERS and name != "MachineHandle" and header.structs.get(kind) != exports.structs.get(name):
            yield (
                f"the struct {kind} has {shown(header.structs.get(kind, []))} in the header and"
                f" {shown(exports.structs.get(name, []))} in the exports"
            )
    for name in sorted({*header.statuses} ^ {*header.told}):
        yield (
            f"the status MEZGULD_{name} has {'a text and no number' if name in header.told else 'no text'} in the"
            " header"
        )
    inner = {name: number for name, number in exports.statuses.items() if name not in INNER}
    yield from compare_numbers(
        "status", {name: number for name, number in header.statuses.items() if name not in OUTER}, inner
    )
    for name in OUTER:
        if name not in header.statuses or header.statuses[name] in exports.statuses.values():
            yield (
                f"the status MEZGULD_{name} is {header.statuses.get(name, 'missing')} in the header, and lib/mezguld.c"
                " returns it"
            )
    yield from compare_numbers("stop", header.stops, exports.stops)


def status_faults(header, tables, numbers):
    """The faults of the Python module's tables of exceptions, and of the two statuses that it names."""
    given = {f"MEZGULD{name}": number for name, number in numbers.items()}
    for table in ("_REFUSALS", "_LINES"):
        for key, value in zip(tables[table].keys, tables[table].values):
            name = upper(value.id)
            name = f"MEZGULD_{RENAMED.get(name, name)}"
            if name in given:
                yield f"two statuses raise the exception of {name}"
            given[name] = key.value
    wanted = {f"MEZGULD_{name}": number for name, number in header.statuses.items()}
    for name in sorted({*given, *wanted}):
        if given.get(name) != wanted.get(name) and not (name not in given and name[len("MEZGULD_") :] in UNRAISED):
            yield (
                f"the status {name} is {wanted.get(name, 'missing')} in the header and {given.get(name, 'missing')} in"
                " the Python module"
            )


def record_fields(text):
    """The fields of a record of the Python module, as C declares them."""
    found = [re.fullmatch(r"(\d*)(\w+) (\w+)", it).groups() for it in text.split(", ")]
    return [
        (
            {"B": "uint8_t", "H": "uint16_t", "I": "uint32_t", "Q": "uint64_t"}.get(kind, kind),
            f"{word}[{count}]" if count else word,
        )
        for count, kind, word in found
    ]


def python_module():
    """What the Python module defines: its tables, the bodies of its classes, and the two statuses that it names."""
    tables, classes, numbers = {}, {}, {}
    for node in ast.parse(text_of("python/mezguld/__init__.py")).body:
        if isinstance(node, ast.Assign) and isinstance(node.targets[0], ast.Name) and isinstance(node.value, ast.Dict):
            tables[node.targets[0].id] = node.value
        elif (
            isinstance(node, ast.Assign)
            and isinstance(node.targets[0], ast.Tuple)
            and isinstance(node.value, ast.Tuple)
        ):
            numbers.update(
                {
                    name.id: it.value
                    for name, it in zip(node.targets[0].elts, node.value.elts)
                    if name.id in ("_OK", "_TOO_SMALL")
                }
            )
        elif isinstance(node, ast.ClassDef):
            classes[node.name] = node.body
    return tables, classes, numbers


def python_faults(header):
    """The faults of the Python module's tables of parameters and of exceptions, of its stops and of the fields of
    its registers."""
    tables, classes, numbers = python_module()
    yield from status_faults(header, tables, numbers)
    parameters = ast.literal_eval(tables["_PARAMETERS"])
    for name in sorted({*header.functions, *parameters}):
        letters = parameters.get(name, "").replace(" ", "")
        given = [
            "mezguld *" if kind == "const mezguld *" else kind for kind, _ in header.functions.get(name, ("", []))[1]
        ]
        wanted = [LETTERS.get(letter) for letter in letters]
        counted = [kind.endswith("*") and given[at + 1 : at + 2] == ["size_t"] for at, kind in enumerate(given)]
        pairs = zip(letters, given, wanted, counted)
        if len(letters) != len(given) or not all(
            is_counted if letter == "p" else kind == want for letter, kind, want, is_counted in pairs
        ):
            yield f"{name} has the parameters `{parameters.get(name, '')}` in the Python module"
    stops = {it.targets[0].id: it.value.value for it in classes["Stop"] if isinstance(it, ast.Assign)}
    if stops != header.stops:
        yield "the stops of the Python module are not those of the header"
    for name, wanted, what in (
        ("Kind", header.kinds, "events"),
        ("FindingKind", header.found_kinds, "findings"),
        ("How", header.hows, "acts"),
    ):
        if {it.targets[0].id: it.value.value for it in classes[name] if isinstance(it, ast.Assign)} != wanted:
            yield f"the kinds of {what} of the Python module are not those of the header"
    records = {name: record_fields(text) for name, text in ast.literal_eval(tables["_RECORDS"]).items()}
    for name in {*TYPES.values()} - {*NUMBERS.values(), *WRITTEN_OUT}:
        if records.get(name) != [
            ("uint32_t" if kind in NAMED.values() else kind, word) for kind, word in header.structs.get(name, [])
        ]:
            yield f"the record {name} of the Python module is not that of the header"
    registers = [it.target.id for it in classes["Registers"] if isinstance(it, ast.AnnAssign)]
    if registers != [name for _, name in header.structs.get("mezguld_cpu", [])]:
        yield "the registers of the Python module are not those of the header"


def faults():
    """Each difference, as a line."""
    header, declared, exports = Header("include/mezguld.h"), Header("lib/exports.h"), Exports()
    yield from (f"lib/exports.h: {fault}" for fault in export_faults(declared, exports))
    yield from (f"include/mezguld.h: {fault}" for fault in header_faults(header, declared, exports))
    yield from (f"python/mezguld/__init__.py: {fault}" for fault in python_faults(header))


def words():
    """The words of the header and of the Python module, the header's names also without their prefix; and those of C
    and Python in documents."""
    names = re.findall(
        r"[A-Za-z_]\w*", text_of("include/mezguld.h") + text_of("lib/exports.h") + text_of("python/mezguld/__init__.py")
    )
    return {
        *names,
        *[re.sub(r"^MEZGULD_", "", name) for name in names],
        "MEZGULD_",
        "malloc",
        "realloc",
        "free",
        "unittest",
    }
