"""The command lines of the scripts that a person calls: `--help` says what a script does, its arguments and an
example; a wrong line is refused with one sentence and status 2. What the operating system refuses later, as output
into a pipe that nobody reads, is one sentence and status 1."""
import argparse
import atexit
import contextlib
import os
import re
import subprocess
import sys

ROOT = os.path.dirname(os.path.dirname(os.path.abspath(__file__)))


def name_of_script():
    """The script's path from the top."""
    return os.path.relpath(os.path.realpath(sys.argv[0]), ROOT)


def give_up(error):
    """Says in one sentence what the operating system has refused. Nothing is written to standard output from then
    on: what is left in its buffer is lost."""
    with contextlib.suppress(OSError, ValueError):
        os.dup2(os.open(os.devnull, os.O_WRONLY), 1)
    with contextlib.suppress(OSError, ValueError, AttributeError):
        print(f"{name_of_script()}: {error}", file=sys.stderr, flush=True)


def uncaught(kind, error, trace):
    """Takes the place of Python's report of an exception that nobody has caught."""
    if issubclass(kind, (OSError, subprocess.SubprocessError, KeyboardInterrupt)):
        give_up("interrupted" if kind is KeyboardInterrupt else error)
    else:
        sys.__excepthook__(kind, error, trace)


def flush_at_the_end():
    """Writes what is left in the buffer of standard output, before Python would."""
    try:
        if sys.stdout is not None:
            sys.stdout.flush()
    except (OSError, ValueError) as error:
        give_up(error)
        os._exit(1)


class Parser(argparse.ArgumentParser):
    """A parser of a script's command line, by the script's own comment and an example."""

    def __init__(self, about, example, **more):
        if sys.excepthook is not uncaught:
            sys.excepthook = uncaught
            atexit.register(flush_at_the_end)
        super().__init__(
            prog=more.pop("prog", name_of_script()),
            description=about.strip(),
            epilog=f"example: {example}",
            formatter_class=argparse.RawDescriptionHelpFormatter,
            allow_abbrev=False,
            **more,
        )

    def add_argument(self, *names, **more):
        """As argparse's; an argument that may be left out is not named among those that are missing."""
        if more.get("nargs") == "*":
            more.setdefault("default", [])
        return super().add_argument(*names, **more)

    def error(self, message):
        self.exit(2, f"{self.prog}: {message}; {self.prog} --help tells more\n")


# The seconds that a program has to tell its version.
SECONDS = 10


def named(path):
    """A path that is not empty, as an argument."""
    if not path:
        raise argparse.ArgumentTypeError("the path is empty")
    return path


def program(path):
    """The path of a program, as an argument. It is called once, with `--version`, since a file that may be executed
    need not be a program."""
    if not os.path.exists(named(path)):
        raise argparse.ArgumentTypeError(f"there is no file {path}")
    if os.path.isdir(path) or not os.access(path, os.X_OK):
        raise argparse.ArgumentTypeError(f"{path} is not a program")
    whole = os.path.abspath(path)
    try:
        with contextlib.suppress(subprocess.TimeoutExpired):
            subprocess.run(
                [whole, "--version"], stdin=subprocess.DEVNULL, capture_output=True, timeout=SECONDS, check=False
            )
    except OSError as error:
        raise argparse.ArgumentTypeError(f"{path} is not a program: {error.strerror}") from error
    return whole


def file(path):
    """The path of a file that exists, as an argument."""
    if not os.path.exists(named(path)):
        raise argparse.ArgumentTypeError(f"there is no file {path}")
    if os.path.isdir(path):
        raise argparse.ArgumentTypeError(f"{path} is a folder")
    if not os.access(path, os.R_OK):
        raise argparse.ArgumentTypeError(f"{path} cannot be read")
    return path


def new_file(path):
    """The path of a file that is to be written, as an argument."""
    folder = os.path.dirname(os.path.abspath(named(path)))
    if not os.path.isdir(folder):
        raise argparse.ArgumentTypeError(f"there is no folder {folder}")
    if os.path.isdir(path):
        raise argparse.ArgumentTypeError(f"{path} is a folder")
    if not os.access(path if os.path.exists(path) else folder, os.W_OK):
        raise argparse.ArgumentTypeError(f"{path} cannot be written")
    return path


def new_folder(path):
    """The path of a folder, or of one that is to be made, as an argument."""
    whole = os.path.abspath(named(path))
    if os.path.lexists(whole) and not os.path.isdir(whole):
        raise argparse.ArgumentTypeError(f"{path} is not a folder")
    above = whole if os.path.isdir(whole) else os.path.dirname(whole)
    if not os.path.isdir(above):
        raise argparse.ArgumentTypeError(f"there is no folder {above}")
    if not os.access(above, os.W_OK | os.X_OK):
        raise argparse.ArgumentTypeError(f"{above} cannot be written")
    return whole


def positive(text):
    """A number from 1 on, as an argument."""
    if not re.fullmatch(r"[1-9]\d{0,5}", text):
        raise argparse.ArgumentTypeError(f"{text} is not a number from 1 up")
    return int(text)


def natural(text):
    """A number from 0 on, as an argument."""
    if not re.fullmatch(r"\d{1,12}", text):
        raise argparse.ArgumentTypeError(f"{text} is not a number from 0 up")
    return int(text)


def minutes(text):
    """A time in minutes, as an argument."""
    if not re.fullmatch(r"\d{1,6}(?:\.\d{1,3})?", text):
        raise argparse.ArgumentTypeError(f"{text} is not a number of minutes")
    return float(text)
