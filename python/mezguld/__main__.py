"""The commands of the package: `python -m mezguld COMMAND`."""
from __future__ import annotations

import argparse
import contextlib
import errno
import gc
import os
import re
import signal
import sys
import threading
import time
from typing import Any, Callable, NoReturn

from . import (
    BadFormat,
    Error,
    Machine,
    NameTwice,
    OutOfMemory,
    Short,
    Stop,
    TailTooLong,
    TooLarge,
    __version__,
    picture,
)

# The most bytes of a file and of the input, and of a file's name.
MOST_BYTES, MOST_NAME = 16 << 20, 64
# The seconds before the first line about the progress, and at most between two of them.
FIRST_PAUSE, LAST_PAUSE = 5.0, 60.0
FAULTS = {
    NameTwice: "name twice",
    TooLarge: "too large",
    TailTooLong: "tail too long",
    BadFormat: "bad format",
    Short: "short",
    OutOfMemory: "out of memory",
}


class Fault(Exception):
    """Why there is no result, in one sentence."""


class Parser(argparse.ArgumentParser):
    """A parser that refuses a wrong command line with one sentence and status 2."""

    def error(self, message: str) -> NoReturn:
        self.exit(
            2,
            f"{self.prog}: {message}; {self.prog} --help tells more\n".encode("ascii", "backslashreplace").decode(
                "ascii"
            ),
        )


def number(text: str) -> int:
    """A number of the command line, decimal, below 2**64."""
    if not re.fullmatch(r"\+?[0-9]{1,20}", text) or int(text) >= 2**64:
        raise argparse.ArgumentTypeError(f"{text!r} is not a number from 0 to 2^64 - 1")
    return int(text)


def shown(path: str) -> str:
    """A path as it is told."""
    return picture.shown(os.fsencode(path)) or "''"


def bytes_of(path: str | None) -> bytes:
    """The bytes of a file, or of standard input without a path."""
    told = "standard input" if path is None else shown(path)
    try:
        if path is None:
            data = sys.stdin.buffer.read(MOST_BYTES + 1) if sys.stdin is not None else b""
        else:
            with open(path, "rb") as file:
                data = file.read(MOST_BYTES + 1)
    except (OSError, ValueError) as error:
        raise Fault(f"cannot read {told}") from error
    if len(data) > MOST_BYTES:
        raise Fault(f"input too long: {told} has more than 16 MiB")
    return data


def programs_of(paths: list[str]) -> list[picture.Program]:
    """The programs at these paths, by the last part of each."""
    programs: list[picture.Program] = []
    for path in paths:
        name = os.fsencode(path).rsplit(b"/", 1)[-1]
        if not name:
            raise Fault(f"cannot read {shown(path)}")
        content = bytes_of(path)
        if len(name) > MOST_NAME:
            raise Fault(f"name too long: {shown(path)}")
        if any(name.lower() == it.name.lower() for it in programs):
            raise Fault(f"name twice: {shown(path)}")
        programs.append(picture.Program(name, content))
    return programs


def say(text: str) -> None:
    """Writes a text to standard output. `OSError`, after which nothing more is written there."""
    if sys.stdout is None:
        raise OSError(errno.EBADF, os.strerror(errno.EBADF))
    try:
        sys.stdout.buffer.write(text.encode("utf-8"))
        sys.stdout.buffer.flush()
    except OSError:
        # (Else the interpreter tries it again at its end.)
        os.dup2(os.open(os.devnull, os.O_WRONLY), 1)
        raise


def tell(text: str) -> None:
    """Writes a line to standard error, if anybody takes it."""
    if sys.stderr is not None:
        with contextlib.suppress(OSError, ValueError):
            print(f"mezguld: {text}", file=sys.stderr, flush=True)


def made(work: Callable[[], Any], progress: object) -> Any:
    """What `work` returns, which is done on another thread, so that Ctrl-C ends the command at once. Where it takes
    long, its progress is told."""
    results: list[Any] = []

    def done() -> None:
        try:
            results.append((work(), None))
        except BaseException as error:  # pylint: disable=broad-except
            results.append((None, error))

    thread = threading.Thread(target=done, daemon=True)
    thread.start()
    # (After five seconds, and then after twice as long each time, up to a minute.)
    begin, pause = time.monotonic(), FIRST_PAUSE
    while thread.is_alive():
        thread.join(0.2)
        if thread.is_alive() and time.monotonic() - begin > pause:
            tell(str(progress))
            begin, pause = time.monotonic(), min(2 * pause, LAST_PAUSE)
    result, error = results.pop()
    if error is not None:
        raise error
    return result


def output_of(options: argparse.Namespace) -> str:
    """The file to write. What can be known before the run is a fault before it: no run takes its time in vain, and
    none writes over what it reads."""
    output = ("memory.json" if options.json else "memory.html") if options.output is None else options.output
    if output == "-":
        return output
    try:
        folder = os.path.dirname(os.path.realpath(output)) if output else ""
        if not os.path.isdir(folder):
            raise FileNotFoundError(errno.ENOENT, os.strerror(errno.ENOENT))
        if os.path.isdir(output):
            raise IsADirectoryError(errno.EISDIR, os.strerror(errno.EISDIR))
        read = [*options.files, *([] if options.input is None else [options.input])]
        if os.path.exists(output) and any(os.path.samefile(output, it) for it in read if os.path.isfile(it)):
            raise FileExistsError(errno.EEXIST, "the run reads it")
    except (OSError, ValueError) as error:
        raise Fault(f"cannot write {shown(output)} ({getattr(error, 'strerror', None) or error})") from error
    return output


def draw(options: argparse.Namespace) -> int:
    """The command `picture`."""
    output = output_of(options)
    programs = programs_of(options.files)
    console = bytes_of(options.input)
    # (A record has no cycles, and looking for them takes a tenth of the time.)
    gc.disable()
    run = picture.Options(options.steps, options.ems, options.xms, options.upper, os.fsencode(options.tail), console)
    try:
        progress = picture.Progress()
        found = made(
            lambda: picture.record(programs, run, files=options.files, input_file=options.input, progress=progress),
            progress,
        )
    except Error as error:
        raise Fault(FAULTS.get(type(error), str(error))) from error
    text = picture.text_of(found) + "\n" if options.json else picture.page(found)
    try:
        if output == "-":
            say(text)
            return 0
        picture.write(text, output)
    except (OSError, ValueError) as error:
        why = getattr(error, "strerror", None) or str(error)
        raise Fault(f"cannot write {'standard output' if output == '-' else shown(output)} ({why})") from error
    summary = found["summary"]
    # (The file is there, whether or not anybody reads this line.)
    with contextlib.suppress(OSError):
        say(
            f"{shown(output)}: {found['calls']['seen']} calls, errors: {summary['errors']}, notes: {summary['notes']},"
            f" {found['run']['end']['text']}\n"
        )
    return 0


def loaded(options: argparse.Namespace, is_file: bool) -> Machine:
    """The machine with the first file loaded. Its input is that of a file; else it may still come."""
    programs = programs_of(options.files)
    console = bytes_of(None) if is_file else b""
    machine = Machine(ems_pages=options.ems, xms_kib=options.xms, upper=options.upper)
    for it in programs:
        machine.add(it.name, it.content)
    machine.load(programs[0].name, os.fsencode(options.tail), console)
    return machine


def end(number: int) -> int:
    """Ends the process by a signal, as if it had not been noted; after Ctrl-C with status 130."""
    if number == signal.SIGINT:
        raise KeyboardInterrupt
    signal.signal(number, signal.SIG_DFL)
    os.kill(os.getpid(), number)
    return 128 + number


def play(options: argparse.Namespace) -> int:
    """The command `run`."""
    # (It is not loaded for other commands.)
    from . import terminal  # pylint: disable=import-outside-toplevel

    try:
        with loaded(options, terminal.is_file()) as machine:
            stopped = terminal.run(machine, options.steps)
    except Error as error:
        raise Fault(FAULTS.get(type(error), str(error))) from error
    except terminal.NotWritten as error:
        raise Fault("cannot write standard output") from error
    except terminal.Ended as ended:
        return end(ended.args[0])
    except OSError as error:
        raise Fault("cannot read standard input") from error
    if stopped.why is Stop.EXITED:
        return stopped.code
    print(f"stopped: {stopped.why.name.lower().replace('_', ' ')}", file=sys.stderr)
    return 125


def add_machine(command: argparse.ArgumentParser) -> None:
    """Adds the options of a machine, and the files."""
    command.add_argument(
        "--ems", type=number, default=64, metavar="PAGES", help="pages of expanded memory, of 16 KiB (64)"
    )
    command.add_argument("--xms", type=number, default=1024, metavar="KIB", help="KiB of extended memory (1024)")
    command.add_argument("--upper", action="store_true", help="DOS has upper memory, segments D000h to DFFFh")
    command.add_argument("--tail", default="", metavar="TEXT", help="the command tail; it begins with a space")
    command.add_argument("files", nargs="+", metavar="FILE", help="the program, and those that it can start")


def arguments() -> Parser:
    """The parser of the command line. A command is a function of the options that returns the exit status."""
    parser = Parser(
        prog="python -m mezguld",
        description="The proved MS-DOS machine of Mezguld, from the command line.",
        allow_abbrev=False,
    )
    parser.add_argument("--version", action="version", version=f"mezguld {__version__}")
    commands = parser.add_subparsers(metavar="COMMAND", required=True)
    about = "draws a page that shows what a program did with memory"
    command = commands.add_parser(
        "picture",
        help=about,
        allow_abbrev=False,
        description=f"Runs a program as `dm check` does, and {about}: one HTML file, for any browser.",
        epilog="example: python -m mezguld picture leaks.com -o memory.html </dev/null",
    )
    command.add_argument(
        "--steps",
        type=number,
        default=picture.Options().steps,
        metavar="N",
        help="stop after so many steps (100000000)",
    )
    add_machine(command)
    command.add_argument("--input", metavar="FILE", help="the file with the console's input (standard input)")
    command.add_argument("--json", action="store_true", help="write the page's data alone, as JSON")
    command.add_argument(
        "-o", "--output", metavar="FILE", help="the file to write (memory.html, or memory.json); - is standard output"
    )
    command.set_defaults(does=draw)
    about = "runs a program at the terminal"
    command = commands.add_parser(
        "run",
        help=about,
        allow_abbrev=False,
        description=(
            f"Runs a program as `dm run` does, and {about}: keys arrive as they are pressed, output appears at once,"
            " and Ctrl-C ends it."
        ),
        epilog="example: python -m mezguld run game.com",
    )
    command.add_argument("--steps", type=number, metavar="N", help="stop after so many steps (no limit)")
    add_machine(command)
    command.set_defaults(does=play)
    return parser


def main() -> int:
    """Does the command of the command line, and returns the exit status: 2 for a wrong line, 126 for a fault."""
    options = arguments().parse_args()
    try:
        return options.does(options)
    except Fault as fault:
        print(f"mezguld: {fault}", file=sys.stderr)
        return 126
    except KeyboardInterrupt:
        print("mezguld: interrupted", file=sys.stderr)
        # (A run that goes on would keep the process.)
        leave(130)
        return 130


def leave(status: int) -> None:
    """Ends the process at once. To free the objects of a long record one by one takes a good part of the time that
    it took to make them."""
    for stream in (sys.stdout, sys.stderr):
        with contextlib.suppress(OSError, ValueError, AttributeError):
            stream.flush()
    os._exit(status)


if __name__ == "__main__":
    leave(main())
