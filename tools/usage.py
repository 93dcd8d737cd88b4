"""The commands and options of `dm` as its own help gives them, and the tables of docs/manual.md: what man pages and
completions are made from.

`dm --help` and `dm COMMAND --help` are the one table of commands, arguments, options, defaults and limits; the
manual's tables have what help does not say: exit statuses, stops, faults, the debugger's commands. `faults` compares
the two where both say the same thing.
"""
import os
import re
import subprocess

import header

ROOT = os.path.dirname(os.path.dirname(os.path.realpath(__file__)))
MANUAL = "docs/manual.md"
SECONDS = 60
OPTION = re.compile(r"^  +(?:-(\w), )? *(--[\w-]+)(?: <(\w+)>)?  +(\S.*)$")
ARGUMENT = re.compile(r"^  <(\w+)>(\.\.\.)?  +(\S.*)$")
COMMAND = re.compile(r"^  (\w[\w-]*)  +(\S.*)$")
DEFAULT = re.compile(r" \[default: (.*)\]$")
# A command of the debugger at the end of the help of `dm debug`.
OF_SESSION = re.compile(r"^  ([A-Z].*?)  +\S.*$", re.M)
SESSION = "Lines of a session "
SECTIONS = ("Commands:", "Arguments:", "Options:")


class Unreadable(Exception):
    """A help text or a page that is not laid out as it was."""


class Option:
    """An option: its names, the name of its value, its default (None: none), and what help says of it."""

    def __init__(self, short, name, value, text):
        found = DEFAULT.search(text)
        self.short, self.name, self.value = f"-{short}" if short else None, name, value
        self.default = found[1].strip('"') if found else None
        self.text = DEFAULT.sub("", text)


class Argument:
    """An argument that is no option: its name, whether there may be several, and what help says of it."""

    def __init__(self, name, is_many, text):
        self.name, self.is_many, self.text = name, is_many, text


class Command:
    """A command, or `dm` itself: what it does, its arguments and options, an example, the commands below it with a
    line about each, and what a line of a session may be."""

    def __init__(self, name, text):
        self.name, self.commands, self.arguments, self.options = name, {}, [], []
        self.about, section, self.example = text.split("\n", 1)[0], None, None
        self.session = OF_SESSION.findall(text.partition(f"\n{SESSION}")[2])
        for line in text.split("\n"):
            if not line.startswith(" "):
                section = line if line in SECTIONS else None
                self.example = line[len("Example: ") :] if line.startswith("Example: ") else self.example
            elif section:
                self.add(section, line)
        if not self.example or not self.options or not (self.commands or self.arguments):
            raise Unreadable(f"`{name} --help` has no example, no options, or neither commands nor arguments")

    def add(self, section, line):
        """Takes a line of a section."""
        pattern = {"Commands:": COMMAND, "Arguments:": ARGUMENT, "Options:": OPTION}[section]
        found = pattern.fullmatch(line)
        if not found:
            raise Unreadable(f"`{self.name} --help` has the line {line!r}")
        if section == "Commands:":
            self.commands[found[1]] = found[2]
        elif section == "Arguments:":
            self.arguments.append(Argument(found[1], bool(found[2]), found[3]))
        else:
            self.options.append(Option(*found.groups()))

    def synopsis(self):
        """The words of the command's usage, each with whether it is written as it stands."""
        yield from ((word, True) for word in self.name.split())
        for option in (it for it in self.options if it.name not in ("--help", "--version")):
            yield f"[{option.name}{f' {option.value}' if option.value else ''}]", False
        yield from ((f"{it.name}{'...' if it.is_many else ''}", False) for it in self.arguments)


def help_of(program, *words):
    """The text that `dm WORDS.. --help` prints."""
    try:
        ran = subprocess.run(
            [program, *words, "--help"],
            capture_output=True,
            text=True,
            stdin=subprocess.DEVNULL,
            timeout=SECONDS,
            check=False,
        )
    except (OSError, subprocess.TimeoutExpired) as error:
        raise Unreadable(f"{program} does not run: {error}") from error
    return (ran.stdout + ran.stderr).rstrip("\n")


class Usage:
    """`dm` and its commands, as the built program's help gives them."""

    def __init__(self, program):
        self.top = Command("dm", help_of(program))
        self.commands = {
            name: Command(f"dm {name}", help_of(program, name)) for name in self.top.commands if name != "help"
        }

    def options(self):
        """Each option of the commands once, with that of each command that has it; that for help is the last."""
        found = {}
        for name, command in self.commands.items():
            for option in command.options:
                found.setdefault(option.name, (option, {}))[1][name] = option
        return sorted(found.values(), key=lambda it: it[0].name == "--help")


# ---- the manual


def text_of(path):
    with open(f"{ROOT}/{path}", encoding="utf-8") as file:
        return file.read()


def section(heading):
    """The text of a section of the manual, down to the next heading of its level or above."""
    found = re.search(rf"^(#+) {re.escape(heading)}\n(.*?)(?=^#|\Z)", text_of(MANUAL), re.M | re.S)
    if not found:
        raise Unreadable(f"{MANUAL} has no section {heading}")
    return found[2]


def tables(heading):
    """The tables of a section, each as its lines: lists of cells, the head first."""
    found, table = [], []
    for line in [*section(heading).split("\n"), ""]:
        if line.startswith("|"):
            if not re.fullmatch(r"\|[-|]+\|", line):
                table.append([cell.strip().replace("\\|", "|") for cell in re.split(r"(?<!\\)\|", line)[1:-1]])
        elif table:
            found.append(table)
            table = []
    if not found:
        raise Unreadable(f"{MANUAL} has no table in the section {heading}")
    return found


def plain(cell):
    """A cell's text without marks and links."""
    return re.sub(r"`([^`]*)`", r"\1", re.sub(r"\[([^\]]*)\]\([^)]*\)", r"\1", cell))


# ---- what both say


def option_faults(usage):
    """The faults of the manual's table of options against help: names, defaults, limits."""
    told = {plain(cells[0]): [plain(cell) for cell in cells[1:]] for cells in tables("Commands and options")[0][1:]}
    options = {option.name: option for option, _ in usage.options() if option.name != "--help"}
    for name in sorted({*told, *options}):
        if name not in told or name not in options:
            yield f"the option {name} is {'not in the help of dm' if name in told else 'not in the table of options'}"
            continue
        default, limit = told[name][1], re.search(r"at most (\d+)", options[name].text)
        wanted = options[name].default
        if wanted and default != wanted:
            yield f"the default of {name} is {default}, and {wanted} in the help of dm"
        if limit and not re.search(rf"to {limit[1]}\b", told[name][2]):
            yield f"the range of {name} is {told[name][2]}, and at most {limit[1]} in the help of dm"


def usage_faults(usage):
    """The faults of the manual's lines of usage against help. (The line of `dm debug` leaves out `--steps`, which
    has no effect there.)"""
    lines = re.findall(r"^    (dm .*)$", section("Commands and options"), re.M)
    for name, command in usage.commands.items():
        wanted = {word for word, _ in command.synopsis()}
        given = next((line for line in lines if line.startswith(f"dm {name} ")), "")
        found = {*re.findall(r"\[[^\]]*\]|[^\s\[\]]+", given)}
        if not found <= wanted or wanted - found - {"[--steps N]"} or (wanted - found and name != "debug"):
            yield (
                f"the usage of dm {name} is `{given}`, and `{' '.join(word for word, _ in command.synopsis())}` in its"
                " help"
            )


def limit_faults(usage):
    """The faults of the manual's table of limits against what help says of arguments."""
    table = " ".join(plain(cell) for cells in tables("Commands and options")[1] for cell in cells).replace(",", "")
    for command in usage.commands.values():
        for limit in (it for argument in command.arguments for it in re.findall(r"at most (\d+ \w+)", argument.text)):
            if not re.search(rf"\b{limit}\b", table):
                yield f"no limit is {limit}, as the help of {command.name} says"


def session_faults(usage):
    """The fault where the manual's table of the debugger's commands lists others than the help of `dm debug`."""
    told = [", ".join(re.findall("`([^`]*)`", cells[0])) for cells in tables("Commands")[0][1:]]
    wanted = usage.commands["debug"].session if "debug" in usage.commands else []
    if told != wanted:
        yield (
            f"the commands of the debugger are {'; '.join(told)}, and {'; '.join(wanted) or 'none'} in the help of dm"
            " debug"
        )


def status_faults(what, heading, given):
    """The faults of a table of the manual, of numbers and names, against those of the header."""
    found = {}
    for first, *cells in tables(heading)[-1][1:]:
        low, _, high = first.partition(" to ")
        found.update(zip(re.findall(r"`(\w+)`", cells[0]), range(int(low), int(high or low) + 1)))
    for name in sorted({*found, *given}):
        if found.get(name) != given.get(name):
            yield f"the {what} {name} is {found.get(name, 'missing')}, and {given.get(name, 'missing')} in the header"


def faults(program):
    """Each difference between help and the manual, or between the header and the manual, as a line."""
    try:
        usage = Usage(program)
        declared = header.Header("include/mezguld.h")
        found = [*option_faults(usage), *usage_faults(usage), *limit_faults(usage), *session_faults(usage)]
        found += [
            *status_faults("status", "Statuses and exceptions", declared.statuses),
            *status_faults("stop", "Calls", declared.stops),
        ]
    except Unreadable as why:
        found = [str(why)]
    yield from (fault if fault.startswith(MANUAL) else f"{MANUAL}: {fault}" for fault in found)
