"""A program at a terminal: the command `python -m mezguld run`.

Where standard input is a terminal, keys arrive as they are pressed: Enter is 0Dh, Backspace 08h, a key without a
character (arrows, F1 to F10) 00h and its scan code. A call that reads a character gets the next key; functions 0Ah
and 3Fh of INT 21h read a line, which is shown and edited as it is typed, as DOS does. Keys that are typed before
they are wanted wait. Output appears as it is written. Ctrl-C ends the run, and the terminal is put back whatever
happens.

Where standard input is no terminal, its bytes are the program's input, as for `dm run`: a file at once, a pipe as
its bytes come.
"""
from __future__ import annotations

import codecs
import collections
import contextlib
import errno
import locale
import os
import re
import select
import signal
import stat
import sys
import time
from typing import Any, Callable, Iterator

from . import Machine, Stop, Stopped

try:
    import fcntl
    import termios
except ImportError:
    # (A system without terminals of this kind.)
    fcntl = termios = None  # type: ignore[assignment]

# The most bytes that are read at once, that are written at once (a pipe that takes any takes so many), and of a line of
# function 3Fh without its end.
CHUNK, PIECE, MOST_LINE = 1 << 16, 1 << 10, 126
# The steps of the first slice and the most of one, and the seconds that one should take at most.
FIRST_SLICE, LONGEST_SLICE, SLICE_SECONDS = 1 << 12, 1 << 20, 0.02
# Where the functions of INT 21h act (the entry point of the machine's ROM), and which of them read characters and
# lines.
SERVICE = (0xF000, 0x84)
READ_KEY, READ_LINE, READ_HANDLE, POLL, STATUS, FLUSH = (0x01, 0x07, 0x08), 0x0A, 0x3F, 0x06, 0x0B, 0x0C
ENTER, BACKSPACE, ESCAPE, BELL, TAB = 0x0D, 0x08, 0x1B, b"\a", 0x09
# Signals that end the command, after the terminal is put back.
ENDING = tuple(getattr(signal, name) for name in ("SIGINT", "SIGTERM", "SIGHUP", "SIGQUIT") if hasattr(signal, name))
# What terminals send for keys without a character, and the scan codes that DOS has for them.
SEQUENCES = {
    "[A": 0x48,
    "OA": 0x48,
    "[B": 0x50,
    "OB": 0x50,
    "[C": 0x4D,
    "OC": 0x4D,
    "[D": 0x4B,
    "OD": 0x4B,
    "[H": 0x47,
    "OH": 0x47,
    "[1~": 0x47,
    "[7~": 0x47,
    "[F": 0x4F,
    "OF": 0x4F,
    "[4~": 0x4F,
    "[8~": 0x4F,
    "[2~": 0x52,
    "[3~": 0x53,
    "[5~": 0x49,
    "[6~": 0x51,
    "OP": 0x3B,
    "OQ": 0x3C,
    "OR": 0x3D,
    "OS": 0x3E,
    "[11~": 0x3B,
    "[12~": 0x3C,
    "[13~": 0x3D,
    "[14~": 0x3E,
    "[15~": 0x3F,
    "[17~": 0x40,
    "[18~": 0x41,
    "[19~": 0x42,
    "[20~": 0x43,
    "[21~": 0x44,
}
KEY = re.compile("\x1b(" + "|".join(re.escape(it) for it in sorted(SEQUENCES, key=len, reverse=True)) + ")|.", re.S)


class Ended(Exception):
    """A signal ends the command; the argument is its number."""


class NotWritten(Exception):
    """Standard output takes no more."""


# ---- signals


class Signals:
    """The signals that come while a program runs. Each is noted, and ends a wait for input."""

    def __init__(self) -> None:
        self.came: list[int] = []
        self._before: dict[int, Any] = {}

    def _note(self, number: int, _: object) -> None:
        self.came.append(number)

    def __enter__(self) -> Signals:
        self.reader, self._writer = os.pipe()
        for end in (self.reader, self._writer):
            os.set_blocking(end, False)
        self._wakeup = signal.set_wakeup_fd(self._writer, warn_on_full_buffer=False)
        for number in (*ENDING, signal.SIGTSTP, signal.SIGCONT):
            # (A signal that is ignored, as by nohup, stays so.)
            if signal.getsignal(number) is not signal.SIG_IGN:
                self._before[number] = signal.signal(number, self._note)
        return self

    def __exit__(self, *_: object) -> None:
        for number, handler in self._before.items():
            signal.signal(number, handler if handler is not None else signal.SIG_DFL)
        signal.set_wakeup_fd(self._wakeup)
        os.close(self.reader)
        os.close(self._writer)

    def stop(self) -> None:
        """Stops the process, as SIGTSTP does, until it is continued."""
        signal.signal(signal.SIGTSTP, signal.SIG_DFL)
        os.kill(os.getpid(), signal.SIGTSTP)
        signal.signal(signal.SIGTSTP, self._note)

    def heard(self) -> list[int]:
        """The signals that came since the last call."""
        with contextlib.suppress(BlockingIOError):
            os.read(self.reader, CHUNK)
        came, self.came = self.came, []
        return came


# ---- the terminal


class Terminal:
    """The terminal of standard input in raw mode, from `__enter__` to `__exit__`: no echo, no lines, keys as they
    are pressed; only Ctrl-C is a signal."""

    def __init__(self, file: int) -> None:
        self.file = file
        self._before = termios.tcgetattr(file)
        # How many of the bytes that come next were typed before: the terminal has made 0Ah of Enter.
        self.early = 0

    def __enter__(self) -> Terminal:
        self.make_raw()
        with contextlib.suppress(OSError):
            self.early = int.from_bytes(fcntl.ioctl(self.file, termios.FIONREAD, b"\0\0\0\0"), sys.byteorder)
        return self

    def __exit__(self, *_: object) -> None:
        self.put_back()

    def make_raw(self) -> None:
        mode = termios.tcgetattr(self.file)
        mode[0] &= ~(
            termios.BRKINT
            | termios.ICRNL
            | termios.INLCR
            | termios.IGNCR
            | termios.INPCK
            | termios.ISTRIP
            | termios.IXON
        )
        mode[1] &= ~termios.OPOST
        mode[3] &= ~(termios.ECHO | termios.ICANON | termios.IEXTEN)
        mode[3] |= termios.ISIG
        keys = list(mode[6])
        keys[termios.VMIN], keys[termios.VTIME] = 1, 0
        for name in ("VQUIT", "VSUSP"):
            keys[getattr(termios, name)] = b"\0"
        mode[6] = keys
        termios.tcsetattr(self.file, termios.TCSANOW, mode)

    def put_back(self) -> None:
        # (A terminal that has hung up needs no mode.)
        with contextlib.suppress(termios.error, OSError):
            termios.tcsetattr(self.file, termios.TCSANOW, self._before)


class Keyboard:
    """The keys of a terminal, each as the bytes that DOS has for it."""

    def __init__(self, terminal: Terminal, is_utf8: bool) -> None:
        self._terminal, self._decoder = terminal, codecs.getincrementaldecoder("utf-8" if is_utf8 else "latin-1")(
            "replace"
        )
        self._encoding = "cp437" if is_utf8 else "latin-1"

    def keys_of(self, data: bytes) -> Iterator[bytes]:
        """The keys that sent these bytes."""
        early, self._terminal.early = data[: self._terminal.early], max(self._terminal.early - len(data), 0)
        text = self._decoder.decode(early.replace(b"\n", b"\r") + data[len(early) :])
        for found in KEY.finditer(text):
            if found[1]:
                yield bytes((0, SEQUENCES[found[1]]))
            elif found[0] == "\x7f":
                yield bytes((BACKSPACE,))
            else:
                yield found[0].encode(self._encoding, "ignore")


# ---- standard input and output


class Console:
    """Standard input and output. `file` is standard input, or None where it is closed."""

    def __init__(self, signals: Signals) -> None:
        self._signals, self._terminal, self._keyboard = signals, None, None
        self.file = None if sys.stdin is None else sys.stdin.fileno()
        self.is_terminal = self.file is not None and termios is not None and os.isatty(self.file)
        # The keys that came and were not wanted yet; without a terminal, chunks of bytes.
        self.keys: collections.deque[bytes] = collections.deque()
        self.has_ended = self.file is None
        self._is_shown = sys.stdout is not None and os.isatty(1)
        self._is_utf8 = codecs.lookup(locale.getpreferredencoding(False) or "ascii").name == "utf-8"

    def attach(self, stack: contextlib.ExitStack) -> None:
        """Makes the terminal raw, if there is one, until the stack is closed."""
        if self.is_terminal:
            self._terminal = stack.enter_context(Terminal(self.file))
            self._keyboard = Keyboard(self._terminal, self._is_utf8)

    def look(self, seconds: float | None = 0) -> None:
        """Takes the input that is there, or waits for some, at most so long; `None` is for ever. A signal ends the
        wait."""
        self.heed()
        ready = select.select([self._signals.reader, *([] if self.has_ended else [self.file])], [], [], seconds)[0]
        if self.file in ready:
            self._read()
        self.heed()

    def _read(self) -> None:
        try:
            data = os.read(self.file, CHUNK)
        except BlockingIOError:
            return
        except OSError as error:
            # (The terminal has hung up.)
            if error.errno != errno.EIO:
                raise
            data = b""
        if not data:
            self.has_ended = True
        elif self._keyboard is None:
            self.keys.append(data)
        else:
            self.keys.extend(filter(None, self._keyboard.keys_of(data)))

    def heed(self) -> None:
        """Does what the signals want that came. `Ended`."""
        for number in self._signals.heard():
            if number in ENDING:
                raise Ended(number)
            if self._terminal is None:
                if number == signal.SIGTSTP:
                    self._signals.stop()
            elif number == signal.SIGTSTP:
                self._terminal.put_back()
                self._signals.stop()
                self._terminal.make_raw()
            elif number == signal.SIGCONT:
                self._terminal.make_raw()

    def show(self, data: bytes) -> None:
        """Writes what the program has written. `NotWritten`. A terminal for UTF-8 shows the characters of code page
        437."""
        if self._is_utf8 and self._is_shown:
            data = data.decode("cp437").encode("utf-8")
        if data and sys.stdout is None:
            raise NotWritten
        self._write(1, data)

    def echo(self, data: bytes) -> None:
        """Shows what is typed, where there is a terminal."""
        if self._is_shown:
            self.show(data)
        else:
            with contextlib.suppress(NotWritten):
                self._write(self.file, data)

    def _write(self, file: int, data: bytes) -> None:
        """Writes bytes. A signal that ends the command ends a wait for whoever reads them, too."""
        left = memoryview(data)
        while left:
            try:
                ready = select.select([self._signals.reader], [file], [])[1]
                self.heed()
                if ready:
                    left = left[os.write(file, left[:PIECE]) :]
            except BlockingIOError:
                pass
            except OSError as error:
                raise NotWritten from error


# ---- lines


class Line:
    """A line that is typed: its bytes, and how many columns each takes."""

    def __init__(self, most: int, echo: Callable[[bytes], None]) -> None:
        self._most, self._echo = most, echo
        self.bytes, self._widths = bytearray(), []

    def add(self, byte: int) -> None:
        """Adds a byte, and shows it, unless the line is full."""
        if len(self.bytes) >= self._most:
            self._echo(BELL)
            return
        shown = bytes((byte,))
        if byte == TAB:
            shown = b" " * (8 - sum(self._widths) % 8)
        elif byte < 0x20:
            shown = b"^" + bytes((byte + 0x40,))
        self.bytes.append(byte)
        self._widths.append(len(shown))
        self._echo(shown)

    def erase(self, count: int = 1) -> None:
        """Removes the last bytes."""
        for _ in range(min(count, len(self.bytes))):
            del self.bytes[-1]
            self._echo(b"\b \b" * self._widths.pop())


# ---- the run


class Run:
    """A run of a machine at a console."""

    def __init__(self, machine: Machine, console: Console, steps: int | None) -> None:
        self._machine, self._console, self._most = machine, console, steps
        self._shown, self._size, self._is_open = 0, FIRST_SLICE, not console.has_ended
        # The last key that was supplied alone, and whether the input that is left in the machine is of a line.
        self._fed, self._is_line = b"", False

    def whole(self) -> Stopped:
        """Runs the program to its end, or until it stops for good."""
        while True:
            self._console.look()
            if not self._console.is_terminal:
                self._pass_on()
            stopped = self._slice()
            self._show()
            if stopped.why is Stop.BREAKPOINT:
                self._serve()
            elif stopped.why is Stop.INPUT_ENDED:
                if not self._is_open:
                    return stopped
                self._wait()
            elif stopped.why is not Stop.STEPS or self._left() == 0:
                return stopped

    def _left(self) -> int:
        return LONGEST_SLICE if self._most is None else max(self._most - self._machine.steps, 0)

    def _slice(self) -> Stopped:
        """A part of the run. While keys wait, it stops at each function of INT 21h."""
        count, begin = min(self._size, self._left()), time.monotonic()
        if self._console.is_terminal and (self._console.keys or self._machine.input_left):
            return self._machine.run_until(count, [SERVICE])
        stopped = self._machine.run(count)
        if stopped.why is Stop.STEPS:
            took = time.monotonic() - begin
            if took < SLICE_SECONDS / 2:
                self._size = min(2 * self._size, LONGEST_SLICE)
            elif took > SLICE_SECONDS:
                self._size = max(self._size // 2, 1)
        return stopped

    def _show(self) -> None:
        data = self._machine.output(self._shown)
        self._shown += len(data)
        self._console.show(data)

    def _close(self) -> None:
        """No more input comes."""
        self._is_open = False
        self._machine.close_input()

    def _pass_on(self) -> None:
        """Supplies what came from a pipe; at its end the input is closed."""
        while self._console.keys:
            self._machine.supply(self._console.keys.popleft())
        if self._console.has_ended and self._is_open:
            self._close()

    def _wait(self) -> None:
        """Waits for what the program wants."""
        if not self._console.is_terminal:
            self._console.look(None)
            self._pass_on()
        elif self._function() in (READ_LINE, READ_HANDLE):
            self._read_line()
        elif self._next_key():
            self._feed()

    def _next_key(self) -> bool:
        """Waits until there is a key. Where no more can come, the input is closed, and there is none."""
        while not self._console.keys and not self._console.has_ended:
            self._console.look(None)
        if not self._console.keys:
            self._close()
        return bool(self._console.keys)

    def _function(self) -> int:
        """The function of INT 21h that is called; for 0Ch the one that it calls."""
        registers = self._machine.registers
        function = registers.ax >> 8
        return registers.ax & 0xFF if function == FLUSH else function

    def _serve(self) -> None:
        """Gives the function that is called next the keys that it would find."""
        function, left = self._function(), self._machine.input_left
        registers = self._machine.registers
        if function == READ_LINE or (function == READ_HANDLE and registers.bx <= 2 and registers.cx):
            if not (left and self._is_line):
                self._read_line()
        elif left == 0 and (
            function in READ_KEY or function == STATUS or (function == POLL and registers.dx & 0xFF == 0xFF)
        ):
            self._feed()

    def _feed(self) -> None:
        """Supplies one key."""
        if self._console.keys:
            self._fed, self._is_line = self._console.keys.popleft(), False
            self._machine.supply(self._fed)

    def _read_line(self) -> None:
        """Has a line typed, and supplies it. Function 0Ah shows 0Dh at its end, 3Fh 0Dh and 0Ah, which it reads,
        too."""
        registers, of_handle = self._machine.registers, self._function() == READ_HANDLE
        end = b"\r\n" if of_handle else b"\r"
        room = MOST_LINE if of_handle else self._machine.read(registers.ds, registers.dx, 1)[0] - 1
        if room < 0:
            return
        # (A key that was supplied to a poll begins the line; it is not erased.)
        left = self._machine.input_left
        first = self._fed[len(self._fed) - left :] if left and not self._is_line else b""
        line = Line(max(room - len(first), 0), self._console.echo)
        self._console.echo(first.rstrip(b"\r"))
        if ENTER not in first and not self._is_typed(line):
            return
        self._console.echo(end)
        if of_handle and not first and line.bytes[:1] == b"\x1a":
            self._end_of_file()
            return
        self._is_line = True
        self._machine.supply(end[1:] if ENTER in first else bytes(line.bytes) + end)

    def _is_typed(self, line: Line) -> bool:
        """Whether a line was typed to its end."""
        while self._next_key():
            key = self._console.keys.popleft()
            if key[0] == ENTER:
                return True
            if key[0] == BACKSPACE:
                line.erase()
            elif key[0] == ESCAPE:
                line.erase(len(line.bytes))
            elif len(key) == 1 and key != b"\n":
                line.add(key[0])
        return False

    def _end_of_file(self) -> None:
        """Ctrl-Z at the front of a line: function 3Fh reads nothing, this time."""
        self._machine.close_input()
        self._machine.run(1)
        self._machine.open_input()


def is_file() -> bool:
    """Whether standard input is a file (or closed), so that all its bytes are there already."""
    if sys.stdin is None or os.isatty(sys.stdin.fileno()):
        return sys.stdin is None
    mode = os.fstat(sys.stdin.fileno()).st_mode
    return not stat.S_ISFIFO(mode) and not stat.S_ISSOCK(mode)


def run(machine: Machine, steps: int | None) -> Stopped:
    """Runs a machine, whose program is loaded, at standard input and output, at most so many steps. The input of a
    file was given to `load`. `Ended`, `NotWritten`, `OSError`."""
    with Signals() as signals, contextlib.ExitStack() as stack:
        console = Console(signals)
        console.has_ended |= is_file()
        if not console.has_ended:
            machine.open_input()
        console.attach(stack)
        return Run(machine, console, steps).whole()
