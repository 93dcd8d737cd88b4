"""The figures that pages show: counted from the sources, and the sentences of the pages in which they stand."""
import ast
import itertools
import os
import re
import subprocess

import believed
import header
import served
import specs

# The sentences of each page, by the names of the figures in `counted`; a blank stands for any space. The figures of a
# page's second list are those of the kit's files, and hold for one kit.
SENTENCES = {
    "README.md": (
        ["{machine_definitions} definitions on {machine_lines} lines", "{axioms} contracts of C functions"],
        [],
    ),
    "CONTRIBUTING.md": (
        ["This proves {crates_of_dm} crates", "in all {mutants} mutants, of which the gate tries {must_fail}"],
        [],
    ),
    "docs/architecture.md": (
        [
            "{crates} crates, {crates_of_tests} of them of tests",
            "{mnemonics} mnemonics in {templates} templates",
            "{forms} forms",
            "{functions_of_dos} numbers are served",
            "{functions_of_ems} of INT 67h",
            "{functions_of_xms} of the extended memory driver",
        ],
        [],
    ),
    "docs/proved.md": (
        [
            (
                "`dm_machine`) they are {machine_definitions} definitions on {machine_lines} lines, for `dm_main`"
                " {main_definitions} on {main_lines}, for the library {library_definitions} on {library_lines}, for all"
                " public functions {all_definitions} on {all_lines};"
            ),
            "README counts {machine_definitions} definitions on {machine_lines} lines",
            "speak of are {all_types} lines more,",
            "have {clauses} clauses",
            "reaches: {main_definitions} of this repository on {main_lines} lines",
            "that they speak of | {types} |",
            "beside the contract of `dm_main` itself, {axioms}",
            (
                "**The contracts of {axioms} C functions**, {axioms_libc} in the kit's crate `libc` and {axioms_os} in"
                " `os`"
            ),
            "counts them as `axioms={axioms}`",
            "that of the library as `axioms={of_library}`",
            "takes these {axioms} contracts",
            "{called} of the functions are called by the compiled code of `dm`, {of_library} of them by the library.",
            "The other {uncalled} are never called.",
            "the {exports} exports of `dm_c`",
            "some {code} lines of code with its contracts, {definitions} of definitions and {proofs} of proofs",
        ],
        [
            "and {clap_definitions} of `clap` on {clap_lines} | {program_lines} |",
            "`core` {core}, `std` {std}, `std_alloc` {std_alloc}, `std_collections` {std_collections}",
            "reach into them | {specifications} |",
            "the host and its stack | {sum} |",
        ],
    ),
    "docs/testing.md": (
        [
            "There are {rows} rows in `rows/` and `examples/`",
            "tries the {must_fail} edits in the `must-fail` directories",
            "{mutants} in all, at up to",
            "`tools/terminal` holds {terminal_conversations} conversations",
            "plays the {gdb_conversations} conversations of `tools/talks`",
            "`python/tests` has {python_tests} tests",
            "each of the {templates} templates of the instruction table",
            "`tools/tests` plants {planted} differences",
            "makes the {real_programs} programs of `tools/real`",
            "makes the pictures of {browser_pages} programs",
        ],
        [],
    ),
    "docs/picture.md": (["tries the pictures of {browser_pages} programs"], []),
}


# The lists of differences that tests plant.
PLANTED = (("test_check.py", "PLANTED"), ("test_check.py", "OF_KIT"), ("test_header.py", "PLANTED"))
# The prefixes of the instruction table: four of segments, LOCK and two of repetition.
PREFIXES = 7


class Uncounted(Exception):
    """A source that is not laid out as it was, so that a figure cannot be counted."""


def tracked():
    """The repository's files, by their paths from its root: those that git has, and new ones that it does not
    ignore."""
    words = ["git", "ls-files", "-z", "--cached", "--others", "--exclude-standard"]
    listed = subprocess.run(words, cwd=specs.ROOT, capture_output=True, text=True, check=False)
    if listed.returncode:
        raise Uncounted(f"git does not list the files of the tree: {' '.join(listed.stderr.split())}")
    return [
        path for path in dict.fromkeys(listed.stdout.split("\0")) if path and os.path.exists(f"{specs.ROOT}/{path}")
    ]


def syntax_of(path):
    """A Python file of the tree as its syntax."""
    return ast.parse(specs.text_of(path))


def elements(path, name):
    """How many elements the list, tuple or dictionary of a name in a Python file has."""
    for it in syntax_of(path).body:
        if isinstance(it, ast.Assign) and any(isinstance(one, ast.Name) and one.id == name for one in it.targets):
            if isinstance(it.value, (ast.List, ast.Tuple)):
                return len(it.value.elts)
            if isinstance(it.value, ast.Dict):
                return len(it.value.keys)
    raise Uncounted(f"{path} has no list {name}")


def matches(path, pattern, at_least=1):
    """How often a pattern is in a file."""
    found = len(re.findall(pattern, specs.text_of(path), re.M))
    if found < at_least:
        raise Uncounted(f"{path} has {found} times {pattern}")
    return found


def captured(path, pattern):
    """The number that a pattern captures in a file, in which it is once."""
    found = re.findall(pattern, specs.text_of(path), re.M)
    if len(found) != 1:
        raise Uncounted(f"{path} has {len(found)} times {pattern}")
    return int(found[0])


def variants(path, name):
    """How many variants an enum of Rattle has."""
    found = re.search(rf"^pub enum {name} \{{\n(.*?)^\}}", specs.text_of(path), re.M | re.S)
    if not found:
        raise Uncounted(f"{path} has no enum {name}")
    return len(re.findall(r"^    \w+(?:\(|,| \{|$)", found[1], re.M))


def crates():
    """For each crate of crates.txt, those that it uses."""
    found = dict(re.findall(r"^(\w+)[^:#\n]*:(.*)$", specs.text_of("crates.txt"), re.M))
    return {name: [it for it in rest.split() if it in found] for name, rest in found.items()}


def below(name, uses):
    """A crate and those below it."""
    found, left = set(), [name]
    while left:
        one = left.pop()
        if one not in found:
            found.add(one)
            left += uses[one]
    return found


def tests_in(files, folder):
    """How many tests of Python a folder has."""
    return sum(matches(path, r"^    def test_", 0) for path in files if re.fullmatch(rf"{folder}/test_\w+\.py", path))


def figures_of_pages():
    """How many figures the sentences of the pages have: a test plants another one at each."""
    return sum(len(pattern_of(sentence)[1]) for lists in SENTENCES.values() for sentence in itertools.chain(*lists))


def of_tree():
    """The figures of the tree, by name, but those of what must be believed."""
    files, uses = tracked(), crates()

    def count(pattern):
        return sum(bool(re.fullmatch(pattern, path)) for path in files)

    def lines(pattern):
        """How many lines these files have, in thousands: a figure that few changes change."""
        found = (path for path in files if re.fullmatch(pattern, path))
        return round(sum(specs.text_of(path).count("\n") for path in found), -3)

    return {
        "code": lines(r"crates/\w+/src/.*\.rt"),
        "definitions": lines(r"crates/\w+/specs/.*\.antt"),
        "proofs": lines(r"crates/\w+/proofs/.*\.antt"),
        "rows": count(r"(?:rows/\w+|examples)/\w+\.row"),
        "must_fail": count(r"crates/\w+/must-fail/.*\.edit"),
        "mutants": count(r"crates/\w+/(?:must-fail|mutants)/.*\.edit"),
        "crates": len(uses),
        "crates_of_tests": sum(name.endswith("_tests") for name in uses),
        "crates_of_dm": len(below("dm", uses)),
        "exports": len(header.Exports().functions),
        "mnemonics": variants("crates/dm_ins/src/action.rt", "Mnemonic"),
        "forms": variants("crates/dm_forms/src/form.rt", "Form"),
        # (A test compares this number with the table's, and has the prefixes in it.)
        "templates": captured(
            "crates/dm_text_tests/src/assembly/table.rt",
            r'^    same\(&rt, "rows", text\.lines\(\)\.count\(\), (\d+)\);$',
        )
        - PREFIXES,
        "functions_of_dos": len(served.numbers(served.DOS)),
        "functions_of_ems": len(served.numbers(served.EXPANDED)),
        "functions_of_xms": len(served.numbers(served.EXTENDED)),
        "terminal_conversations": elements("tools/terminal", "TALKS"),
        "gdb_conversations": count(r"tools/talks/\w+\.talk"),
        "python_tests": tests_in(files, "python/tests"),
        "planted": sum(elements(f"tools/tests/{path}", name) for path, name in PLANTED) + figures_of_pages(),
        "real_programs": elements("tools/real_programs", "PROGRAMS"),
        # (One more, of a program that calls again and again, stands apart.)
        "browser_pages": elements("tools/browser", "PAGES") + 1,
    }


def counted(kit=None):
    """All figures, by name; those of the kit's files only with the kit's folder."""
    return {**of_tree(), **believed.figures(kit)}


def in_words(sentence, made):
    """A sentence with its figures."""
    return sentence.format(**{name: f"{figure:,}" for name, figure in made.items()})


def sentences(page, kit):
    own, of_kit = SENTENCES[page]
    return [*own, *(of_kit if kit else [])]


def pattern_of(sentence):
    """The pattern of a sentence with any figures, and the names of these."""
    pattern = re.escape(sentence).replace(r"\ ", r"\s+")
    return re.compile(re.sub(r"\\\{\w+\\\}", r"(\\d[\\d,]*)", pattern)), re.findall(r"\\\{(\w+)\\\}", pattern)


def faults(made, kit):
    """The sentences that a page does not have once, and those that have other figures there."""
    for page in SENTENCES:
        text = specs.text_of(page)
        for sentence in sentences(page, kit):
            pattern, names = pattern_of(sentence)
            found = list(pattern.finditer(text))
            if len(found) != 1:
                yield f"{page}: not once, but {len(found)} times: {in_words(sentence, made)}"
            elif list(found[0].groups()) != [f"{made[name]:,}" for name in names]:
                yield f"{page} does not say: {in_words(sentence, made)}: run tools/figures"


def rewritten(page, made, kit):
    """A page with the figures of its sentences anew. A sentence that it does not have once is left to `faults`."""
    text = specs.text_of(page)
    for sentence in sentences(page, kit):
        pattern, names = pattern_of(sentence)
        found = list(pattern.finditer(text))
        if len(found) == 1:
            for at, name in reversed([*enumerate(names, 1)]):
                text = text[: found[0].start(at)] + f"{made[name]:,}" + text[found[0].end(at) :]
    return text
