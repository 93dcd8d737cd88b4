"""The man pages dm(1) and mezguld(3), and the completions of bash and zsh, made from the help of the built `dm`,
from docs/manual.md and from mezguld.h."""
import re
import textwrap

import usage
import versions

COLUMNS = 78
HEADER = "include/mezguld.h"
# The files that an argument or an option's value takes, by its name in help, as endings; no ending: any file. Others
# are numbers and texts.
FILES = {"FILES": ("com", "exe"), "IN": (), "OUT": (), "FILE": ()}
ENDINGS = {("asm", "IN"): ("asm",), ("disasm", "IN"): ("com",)}
# A function of the header, and its declaration's parts.
DECLARED = re.compile(
    r"/\*(?P<comment>(?:[^*]|\*(?!/))*)\*/\s*"
    r"(?P<code>(?:[^/#;{]|/(?!\*))*?\b(?P<name>mezguld_\w+)\((?P<parameters>[^)]*)\)[^;{]*;)"
)
# A function that C compiles from the header: its comment, its head and its name.
INLINE = re.compile(
    r"/\*(?P<comment>(?:[^*]|\*(?!/))*)\*/\s*static inline (?P<code>[^;{]*?\b(?P<name>mezguld_\w+)\([^)]*\))\n\{"
)
# What stands before a function for compilers alone.
ATTRIBUTE = re.compile(r"MEZGULD_(?:CALL|MAKES\(\d\)) ")
# A part of the header between empty lines: a comment, if there is one, and a declaration of a type or a constant.
PIECE = re.compile(
    r"(?:/\*(?P<comment>(?:[^*]|\*(?!/))*)\*/\s*)?(?P<code>(?:typedef|enum|struct|#define MEZGULD_(?!H\b)).*)", re.S
)


# ---- roff


def escaped(text):
    """A text as roff takes it, with hyphens and quotes that can be copied."""
    text = (
        text.replace("\\", "\\e")
        .replace("-", "\\-")
        .replace("'", "\\(aq")
        .replace("`", "\\(ga")
        .replace("^", "\\(ha")
        .replace("~", "\\(ti")
    )
    return f"\\&{text}" if text.startswith(".") else text


def marked(cell):
    """A cell of a table of the manual as roff: code in bold, links as their text, without those in parentheses,
    which only point elsewhere."""
    cell = re.sub(r" \(\[[^\]]*\]\([^)]*\)\)", "", cell)
    cell = re.sub(r"\[([^\]]*)\]\([^)]*\)", r"\1", cell)
    return "".join(
        f"\\fB{escaped(part.strip())}\\fR" if at % 2 else escaped(part) for at, part in enumerate(cell.split("`"))
    )


def lines(text):
    """Roff text, a sentence to a line where that fits, cut into short lines at spaces. (roff reads a line that
    begins with a dot as a request.)"""
    sentences = re.split(r"(?<=[a-z\d)R][.:?]) (?=[A-Z(\\])", " ".join(text.split()))
    cut = [
        line
        for sentence in sentences
        for line in textwrap.wrap(sentence, COLUMNS, break_long_words=False, break_on_hyphens=False)
    ]
    return [f"\\&{line}" if line.startswith((".", "'")) else line for line in cut]


def upper_first(text):
    return text[:1].upper() + text[1:]


class Page:
    """A man page in the macros of man(7)."""

    def __init__(self, name, section, about):
        version, when = versions.release()
        self.body = [f'.TH {name.upper()} {section} {when.isoformat()} "Mezguld {version}"', ".SH NAME", about]

    def head(self, text):
        self.body.append(f".SH {text.upper()}")

    def under(self, text):
        self.body.append(f".SS {text}")

    def text(self, roff):
        """A paragraph; its text is roff already."""
        if not self.body[-1].startswith((".SH", ".SS")):
            self.body.append(".PP")
        self.body += lines(roff)

    def item(self, roff, text):
        """An item of a list, with its text, both roff."""
        self.body += [".TP", roff, *lines(text)]

    def as_is(self, texts):
        """Lines that are shown as they are."""
        if not self.body[-1].startswith((".SH", ".SS")):
            self.body.append(".PP")
        self.body += [".nf", *(escaped(line) if line else "\\&" for line in texts), ".fi"]

    def list(self, items):
        """A table of the manual as a list: the first cell of each line, then the others."""
        for first, *others in items:
            self.item(
                f"\\fB{escaped(usage.plain(first))}\\fR",
                ". ".join(upper_first(marked(cell)).rstrip(".") for cell in others if cell != "-") + ".",
            )

    def __str__(self):
        return "\n".join(self.body) + "\n"


# ---- dm(1)


def synopsis(command):
    """A command's usage in roff: what is typed as it stands in bold, what stands for something else in italics."""
    words = []
    for word, is_literal in command.synopsis():
        if is_literal:
            words.append(f"\\fB{escaped(word)}\\fR")
            continue
        name, value = re.fullmatch(r"\[?(--[\w-]+)? ?([A-Z]\w*)?(?:\.\.\.)?\]?", word).groups()
        text = " ".join([*([f"\\fB{escaped(name)}\\fR"] if name else []), *([f"\\fI{value}\\fR"] if value else [])])
        words.append(f"[{text}]" if word.startswith("[") else text + (" ..." if word.endswith("...") else ""))
    return " ".join(words)


def text_of(option, those):
    """What help says of an option, with what it says in commands where that is something else."""
    others = "".join(f" In {name}: {it.text}." for name, it in those.items() if it.text != option.text)
    return f"{option.text}.{others}"


def default_of(option, those):
    """A sentence about an option's default, with those of commands that have another one; nothing if there is none."""
    others = "".join(f", in {name} {it.default}" for name, it in those.items() if it.default != option.default)
    return {None: "", "": " The default is the empty text."}.get(
        option.default, f" The default is {option.default}{others}."
    )


def add_options(page, program):
    page.head("options")
    for option, those in program.options():
        names = "" if len(those) == len(program.commands) else f" (Commands: {', '.join(those)}.)"
        keys = ", ".join(f"\\fB{escaped(it)}\\fR" for it in (option.short, option.name) if it)
        told = f"{text_of(option, those)}{default_of(option, those)}{names}"
        page.item(keys + (f" \\fI{option.value}\\fR" if option.value else ""), escaped(told))
    version = next(it for it in program.top.options if it.name == "--version")
    page.item(
        f"\\fB{escaped(version.short)}\\fR, \\fB{escaped(version.name)}\\fR",
        escaped(f"{version.text}. (Without a command.)"),
    )
    page.text(
        "Options may stand before or after the files. A value follows its option, or stands after an equals sign;"
        " \\fB\\-\\-\\fR ends the options. Numbers are decimal. Help and the version go to standard error, with"
        " status 2."
    )


def dm_page(program):
    """The text of dm(1)."""
    about = program.top.about[0].lower() + program.top.about[1:]
    page = Page("dm", 1, "\n".join(lines(f"dm \\- {escaped(about)}")))
    page.head("synopsis")
    for at, command in enumerate(program.commands.values()):
        page.body += [".br"] * (at > 0) + lines(synopsis(command))
    page.head("description")
    for name, command in program.commands.items():
        page.item(
            f"\\fBdm {name}\\fR",
            " ".join(
                escaped(f"{text}.") for text in [command.about, *(f"{it.name}: {it.text}" for it in command.arguments)]
            ),
        )
    add_options(page, program)
    page.head("exit status")
    page.list([[cells[0], f"{cells[1]}: {cells[2]}"] for cells in usage.tables("Exit status")[0][1:]])
    page.head("diagnostics")
    page.under("Why a run stopped: the line of standard error that begins with \\(dqstopped: \\(dq")
    page.list(usage.tables("Why a run stops")[0][1:])
    page.under("Faults: the line of standard error that begins with \\(dqdm: \\(dq")
    page.list(
        [[f"`{'`, `'.join(re.findall('`([^`]*)`', cells[0]))}`", cells[1]] for cells in usage.tables("Faults")[0][1:]]
    )
    page.head("limits")
    page.list(usage.tables("Commands and options")[1][1:])
    page.head("commands of dm debug")
    page.list(usage.tables("Commands")[0][1:])
    page.head("examples")
    for command in program.commands.values():
        page.text(escaped(f"{command.about}:"))
        page.as_is([command.example])
    page.head("see also")
    page.text(
        "\\fBmezguld\\fR(3). The manual, with examples and sessions, is docs/manual.md in the folder share/doc/mezguld"
        " of the installation."
    )
    return str(page)


# ---- mezguld(3)


def declarations(text):
    """The functions of the header: the name, the comment's text and the declaration of each."""
    for found in DECLARED.finditer(text):
        code = found["code"].strip()
        mark = ATTRIBUTE.match(code)
        if mark:
            # (Its further lines begin below its first parameter.)
            code = re.sub(f"^ {{{len(mark[0])}}}", "", code[len(mark[0]) :], flags=re.M)
        yield found["name"], paragraph(found["comment"]), code


def inline_functions(text):
    """The functions that C compiles from the header, as `declarations` gives the others."""
    for found in INLINE.finditer(text):
        yield found["name"], paragraph(found["comment"]), f"{found['code']};"


def paragraph(comment):
    """A comment's text, without its stars."""
    return re.sub(r"^ *\* ?", "", comment.strip(), flags=re.M)


def names():
    """The functions of the header, in its order."""
    return [name for name, _, _ in declarations(usage.text_of(HEADER))]


def types(text):
    """The comments and declarations of the header's macros, enums and structs."""
    for found in filter(None, map(PIECE.fullmatch, re.split(r"\n{2,}", text.strip()))):
        yield paragraph(found["comment"] or ""), found["code"]


def add_paragraphs(page, text):
    """Paragraphs, items and lines of code of a comment."""
    for part in re.split(r"\n\n+", text):
        if all(line.startswith("    ") for line in part.split("\n")):
            page.as_is([line[4:] for line in part.split("\n")])
            continue
        first, *items = re.split(r"^ *- ", part, flags=re.M)
        if first.strip():
            page.text(marked(first))
        for item in items:
            page.body += [".IP \\(bu 2", *lines(marked(item))]


def library_page():
    """The text of mezguld(3)."""
    text = usage.text_of(HEADER)
    functions = [*declarations(text), *inline_functions(text)]
    page = Page(
        "mezguld",
        3,
        "\n".join(
            lines(
                f"mezguld, {', '.join(name for name, _, _ in functions)} \\- the library of the MS\\-DOS machine of"
                " Mezguld"
            )
        ),
    )
    page.head("synopsis")
    page.as_is(["#include <mezguld.h>", "", "cc program.c $(pkg-config --cflags --libs mezguld)"])
    page.head("description")
    add_paragraphs(page, paragraph(re.match(r"/\*(.*?)\*/", text, re.S)[1]))
    page.head("types and constants")
    for comment, code in types(text):
        add_paragraphs(page, comment)
        page.as_is(code.expandtabs().split("\n"))
    page.head("functions")
    for name, comment, code in functions:
        page.under(name.replace("-", "\\-"))
        page.as_is(code.split("\n"))
        add_paragraphs(page, comment)
    page.head("examples")
    page.as_is(example())
    page.head("see also")
    page.text("\\fBdm\\fR(1)")
    return str(page)


def example():
    """The lines of the manual's C program."""
    found = re.search(r"`seven\.c`:\n\n((?:    .*\n|\n)+)", usage.text_of(usage.MANUAL))
    if not found:
        raise usage.Unreadable(f"{usage.MANUAL} has no program `seven.c`:")
    return textwrap.dedent(found[1]).strip("\n").split("\n")


# ---- completions


def endings(command, name):
    """The endings of the files that an argument or a value takes, or None where it takes no file."""
    return ENDINGS.get((command, name), FILES.get(name))


def globs(ends, separator="|"):
    """A pattern of file names with these endings, in either case."""
    return separator.join("*." + "".join(f"[{it}{it.upper()}]" for it in end) for end in ends)


BASH = """\
# Completion of dm for bash, made from its help (Mezguld {version}).
_dm_files() {{
    # The word as a file's name: without a quote that is open, and without backslashes.
    local word=${{current#[\\"\\']}}
    word=${{word//\\\\/}}
    compopt -o filenames 2>/dev/null
    if [ -n "$1" ]; then
        mapfile -t COMPREPLY < <(shopt -s extglob; compgen -f -X "!@($1)" -- "$word"; compgen -d -- "$word")
    else
        mapfile -t COMPREPLY < <(compgen -f -- "$word")
    fi
}}

_dm() {{
    local current=${{COMP_WORDS[COMP_CWORD]}} previous=${{COMP_WORDS[COMP_CWORD - 1]}}
    local command=${{COMP_WORDS[1]}} count=0 at
    COMPREPLY=()
    if [ "$COMP_CWORD" -eq 1 ]; then
        COMPREPLY=($(compgen -W "{commands} {top}" -- "$current"))
        return
    fi
    # (bash cuts a word at an equals sign.)
    [ "$current" = "=" ] && current=
    [ "$previous" = "=" ] && previous=${{COMP_WORDS[COMP_CWORD - 2]}}
    case "$command $previous" in
{values}
    esac
    if [[ $current == -* ]]; then
        case $command in
{options}
        esac
        return
    fi
    for ((at = 2; at < COMP_CWORD; at++)); do
        case ${{COMP_WORDS[at]}}:${{COMP_WORDS[at - 1]}} in
            -*:* | =:* | *:= | *:{valued}) ;;
            *) count=$((count + 1)) ;;
        esac
    done
    case $command:$count in
{files}
    esac
}}
complete -F _dm dm
"""


def bash_completion(program):
    """The text of the completion for bash."""
    values, options, files, valued = [], [], [], set()
    for name, command in program.commands.items():
        options.append(
            f"            {name}) COMPREPLY=($(compgen -W"
            f' "{" ".join(it.name for it in command.options)}" -- "$current")) ;;'
        )
        for option in (it for it in command.options if it.value):
            valued.add(option.name)
            ends = endings(name, option.value)
            values.append(
                f'        "{name} {option.name}")'
                f' {"return" if ends is None else f"_dm_files {globs(ends)!r}; return"} ;;'
            )
        for at, argument in enumerate(command.arguments):
            which = f"{name}:*" if argument.is_many else f"{name}:{at}"
            files.append(f"        {which}) _dm_files {globs(endings(name, argument.name) or ())!r} ;;")
    files.append('        help:0) COMPREPLY=($(compgen -W "' + " ".join(program.commands) + '" -- "$current")) ;;')
    return BASH.format(
        version=versions.version(),
        commands=" ".join(program.top.commands),
        top=" ".join(it.name for it in program.top.options),
        values="\n".join(values),
        options="\n".join(options),
        files="\n".join(files),
        valued=" | *:".join(sorted(valued)),
    )


def quoted(text):
    """A text between single quotes of a shell, for _arguments: colons and brackets mean something there."""
    return re.sub(r"([\[\]:\\])", r"\\\1", text).replace("'", "'\\''")


def zsh_files(ends):
    # (zsh takes a last pair of parentheses without a bar for something else.)
    pattern = f"({globs(ends)})" if len(ends) > 1 else globs(ends)
    return f'_files -g "{pattern}"' if pattern else "_files"


def zsh_argument(name, argument):
    """An argument's word for _arguments."""
    files = endings(name, argument.name)
    return (
        f"'{'*' if argument.is_many else ''}:{quoted(argument.text)}:{zsh_files(files) if files is not None else ''}'"
    )


def zsh_option(name, option):
    """An option's word for _arguments."""
    ends = endings(name, option.value)
    value = f":{option.value}:{zsh_files(ends) if ends is not None else ' '}" if option.value else ""
    keys = (
        f"'({option.short} {option.name})'{{{option.short},{option.name}}}'"
        if option.short
        else f"'{option.name}{'=' if option.value else ''}"
    )
    return f"{keys}[{quoted(option.text)}]{value}'"


def zsh_completion(program):
    """The text of the completion for zsh."""
    text = [
        f"#compdef dm\n# Completion of dm for zsh, made from its help (Mezguld {versions.version()}).\n",
        "local -a subcommands",
        "subcommands=(",
    ]
    text += [f"    '{name}:{quoted(about)}'" for name, about in program.top.commands.items()]
    text += [")", "if ((CURRENT == 2)); then", "    if [[ $words[2] == -* ]]; then"]
    text += [f"        _arguments {' '.join(zsh_option('', it) for it in program.top.options)}"]
    text += ["    else", "        _describe command subcommands", "    fi", "    return", "fi"]
    text += ["local subcommand=$words[2]", "shift words", "((CURRENT--))", "case $subcommand in"]
    for name, command in program.commands.items():
        words = [
            *(zsh_option(name, it) for it in command.options),
            *(zsh_argument(name, it) for it in command.arguments),
        ]
        text += [
            f"    {name})",
            "        _arguments \\",
            " \\\n".join(f"            {word}" for word in words),
            "        ;;",
        ]
    return "\n".join([*text, "    help) _describe command subcommands ;;", "esac"]) + "\n"
