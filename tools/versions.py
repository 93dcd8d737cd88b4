"""The version of Mezguld, and each place that states it: docs/check compares them, and packages take theirs from here.

`dm --version` prints the constant `VERSION` of crates/dm_options. include/mezguld.h, python/mezguld and the top of
CHANGELOG.md, a release with its date, must have the same, as have the names of packages in README.md and a row;
include/mezguld.h and the export `mezguld_version` of crates/dm_c have it as one number, too. Pages of manuals,
packages and file names are made from it.
"""
import datetime
import os
import re
import subprocess

ROOT = os.path.dirname(os.path.dirname(os.path.realpath(__file__)))
# Where the version stands, each with the pattern of the line.
CONSTANT = ("crates/dm_options/src/arguments.rt", r'^const VERSION: &str = "([^"]*)";$')
PLACES = (
    CONSTANT,
    ("include/mezguld.h", r'^#define MEZGULD_VERSION "([^"]*)"$'),
    ("python/mezguld/__init__.py", r'^__version__ = "([^"]*)"$'),
)
PLACES += (("rows/texts/wrong_lines.row", r"^    dm (\d+\.\d+\.\d+)$"),)
NUMBERS = ("MAJOR", "MINOR", "PATCH")
# The version as one number, in the library and in its header.
LIBRARY = (
    ("crates/dm_c/src/exports.rt", r"^const VERSION: u32 = ([\d_]+);$"),
    ("include/mezguld.h", r"^#define MEZGULD_VERSION_NUMBER (\d+)$"),
)
# The name of a package, with its version.
PACKAGE = re.compile(r"\bmezguld[_-](\d+\.\d+\.\d+)")
HEADING = re.compile(r"^## (.*)$", re.M)
RELEASE = re.compile(r"(\d+\.\d+\.\d+), (\d{1,2} [A-Z][a-z]+ \d{4})")
# The files of dist/ whose names hold the version.
PACKAGES = ("mezguld_*.deb", "mezguld-*.whl", "mezguld-*.tar.gz")


class Unreadable(Exception):
    """A place that states no version."""


def text_of(path):
    with open(f"{ROOT}/{path}", encoding="utf-8") as file:
        return file.read()


def stated(path, pattern):
    """The version that a file states."""
    found = re.findall(pattern, text_of(path), re.M)
    if len(found) != 1:
        raise Unreadable(f"{path} states {len(found)} versions")
    return found[0]


def version():
    """The version, as `dm --version` prints it after the program's name."""
    return stated(*CONSTANT)


def release():
    """The version and the date of CHANGELOG's top."""
    heading = HEADING.search(text_of("CHANGELOG.md"))
    found = RELEASE.fullmatch(heading[1]) if heading else None
    if not found:
        raise Unreadable(
            "CHANGELOG.md: its top is no release with a date, as `## 1.0.0, 26 November 2026`, but"
            f" `{heading[0] if heading else ''}`"
        )
    try:
        return found[1], datetime.datetime.strptime(found[2], "%d %B %Y").date()
    except ValueError as error:
        raise Unreadable(f"CHANGELOG.md: {found[2]} is no date") from error


def program_faults(program, wanted):
    """The faults of the version that a built program prints."""
    try:
        printed = subprocess.run([program, "--version"], capture_output=True, text=True, timeout=60, check=False)
    except (OSError, subprocess.TimeoutExpired) as error:
        yield f"{program} --version: {error}"
        return
    if (printed.stdout + printed.stderr).split() != ["dm", wanted]:
        yield f"dm --version prints {(printed.stdout + printed.stderr)!r}, and not dm {wanted}"


def header_faults(wanted):
    """The faults of the header's three numbers."""
    for name, number in zip(NUMBERS, wanted.split(".")):
        if f"#define MEZGULD_VERSION_{name} {number}\n" not in text_of("include/mezguld.h"):
            yield f"include/mezguld.h: MEZGULD_VERSION_{name} is not {number}"


def readme_faults(wanted):
    """The faults of the names of packages in README.md."""
    for one in sorted(set(PACKAGE.findall(text_of("README.md"))) - {wanted}):
        yield f"README.md names packages of version {one}, and not {wanted}"


def number_faults(wanted):
    """The faults of the version as one number."""
    major, minor, patch = map(int, wanted.split("."))
    for path, pattern in LIBRARY:
        if int(stated(path, pattern)) != 10000 * major + 100 * minor + patch:
            yield f"{path}: the version's number is not {10000 * major + 100 * minor + patch}"


def faults(program=None):
    """Each difference, as a line; `program` is a built `dm`, whose version is compared too."""
    try:
        wanted, given = version(), [(path, stated(path, pattern)) for path, pattern in PLACES]
        given.append(("CHANGELOG.md", release()[0]))
        numbers = [*number_faults(wanted)]
    except Unreadable as why:
        yield str(why)
        return
    yield from (f"{path}: the version is {one}, and not {wanted}" for path, one in given if one != wanted)
    yield from header_faults(wanted)
    yield from readme_faults(wanted)
    yield from numbers
    if program:
        yield from program_faults(program, wanted)
