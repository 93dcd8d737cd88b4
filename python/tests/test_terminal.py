"""Tests of `python -m mezguld run`: at a pseudo-terminal, over pipes and with files."""
import os
import pty
import select
import signal
import subprocess
import sys
import tempfile
import termios
import time
import unittest
from typing import Dict, List, Optional, Tuple

ROOT = os.path.dirname(os.path.dirname(os.path.dirname(os.path.abspath(__file__))))
sys.path.insert(0, os.path.join(ROOT, "python"))
import mezguld  # noqa: E402

PACKAGE = os.path.dirname(os.path.dirname(os.path.abspath(mezguld.__file__)))
SECONDS = 30
# Asks for a name by function 0Ah, greets, and ends with the length of the name.
ASK = """MOV DX,question
MOV AH,9
INT 21h
MOV DX,buffer
MOV AH,0Ah
INT 21h
MOV DX,hello
MOV AH,9
INT 21h
MOV BX,1
MOV CL,[buffer+1]
MOV CH,0
MOV DX,buffer+2
MOV AH,40h
INT 21h
MOV AL,[buffer+1]
MOV AH,4Ch
INT 21h
question: DB 'Name? $'
hello: DB 10,'Hello, $'
buffer: DB 8
"""
# Polls by 0Bh until there is a key, reads it by 07h, and writes it by 02h, up to q, its exit code.
POLL = """MOV DL,'>'
MOV AH,2
INT 21h
next: MOV AH,0Bh
INT 21h
CMP AL,0
JE next
MOV AH,7
INT 21h
MOV DL,AL
MOV AH,2
INT 21h
CMP DL,'q'
JNE next
MOV AH,4Ch
INT 21h
""".replace(
    "'>'", "62"
).replace(
    "'q'", "113"
)
# The same by function 06h, without a poll before.
DIRECT = (
    "next: MOV DL,0FFh\nMOV AH,6\nINT 21h\nJE next\nMOV DL,AL\nMOV AH,2\nINT 21h\nCMP DL,113\nJNE next\n"
    "MOV AH,4Ch\nINT 21h\n"
)
# Reads by 3Fh and writes what it got in brackets, up to the end of the file; its exit code is the number of reads.
READ = """next: MOV BX,0
MOV CX,64
MOV DX,buffer
MOV AH,3Fh
INT 21h
MOV CX,AX
JCXZ done
INC BYTE [count]
MOV DI,buffer
ADD DI,AX
MOV BYTE [DI],93
INC CX
INC CX
MOV DX,bracket
MOV BX,1
MOV AH,40h
INT 21h
JMP next
done: MOV AL,[count]
MOV AH,4Ch
INT 21h
count: DB 0
bracket: DB 91
buffer: DB 0
"""
# Waits for a key by 08h, and ends with its code.
KEY = "MOV AH,8\nINT 21h\nMOV AH,4Ch\nINT 21h\n"
# Goes on for ever.
LOOP = "MOV DL,46\nMOV AH,2\nINT 21h\nnext: JMP next\n"
# Starts a program in the foreground of its terminal, tells its number and when it is stopped, and ends with its status.
SHELL = """import os, signal, sys
teller, words = int(sys.argv[1]), sys.argv[2:]
signal.signal(signal.SIGTTOU, signal.SIG_IGN)
process = os.fork()
if process == 0:
    os.setpgid(0, 0)
    os.tcsetpgrp(0, os.getpgrp())
    signal.signal(signal.SIGTTOU, signal.SIG_DFL)
    os.execv(words[0], words)
os.write(teller, process.to_bytes(4, "little"))
while True:
    status = os.waitpid(process, os.WUNTRACED)[1]
    if not os.WIFSTOPPED(status):
        sys.exit(os.WEXITSTATUS(status))
    os.write(teller, b"S")
"""


def environment() -> Dict[str, str]:
    return {
        **os.environ,
        "PYTHONPATH": PACKAGE,
        "MEZGULD_LIBRARY": os.path.abspath(mezguld._library._name),
    }  # pylint: disable=protected-access


class Programs(unittest.TestCase):
    """Each test has a folder for its program."""

    def setUp(self) -> None:
        holder = tempfile.TemporaryDirectory()
        self.addCleanup(holder.cleanup)
        self.folder = holder.name

    def words(self, text: str, *options: str) -> List[str]:
        path = f"{self.folder}/MAIN.COM"
        with open(path, "wb") as file:
            file.write(mezguld.assemble(text))
        return [sys.executable, "-m", "mezguld", "run", *options, path]


class AtTerminal(Programs):
    """A program at a pseudo-terminal."""

    def start(self, text: str, *options: str, early: bytes = b"") -> None:
        words, given = self.words(text, *options), environment()
        self.pid, self.file = pty.fork()
        if self.pid == 0:
            try:
                os.execve(sys.executable, words, given)
            finally:
                os._exit(127)
        self.follow()
        self.type(early)

    def follow(self) -> None:
        """Begins with the process that was started."""
        self.status: Optional[int] = None
        self.got = b""
        self.addCleanup(os.close, self.file)
        self.addCleanup(self.kill)
        self.before = termios.tcgetattr(self.file)

    def kill(self) -> None:
        if self.status is None:
            os.kill(self.pid, signal.SIGKILL)
            self.status = os.waitpid(self.pid, 0)[1]

    def type(self, data: bytes) -> None:
        while data:
            data = data[os.write(self.file, data) :]

    def until(self, text: bytes) -> None:
        """Reads what is shown until it ends with a text."""
        end = time.monotonic() + SECONDS
        while not self.got.endswith(text):
            if time.monotonic() > end:
                self.fail(f"{self.got!r} does not end with {text!r}")
            if select.select([self.file], [], [], 0.1)[0]:
                try:
                    self.got += os.read(self.file, 4096)
                except OSError:
                    self.assertTrue(self.got.endswith(text), self.got)

    def wait(self) -> int:
        """The exit status; the number of the signal, negative, that ended the process."""
        end = time.monotonic() + SECONDS
        while self.status is None:
            if time.monotonic() > end:
                self.fail(f"it does not end; it has shown {self.got!r}")
            if select.select([self.file], [], [], 0.02)[0]:
                try:
                    self.got += os.read(self.file, 4096)
                except OSError:
                    time.sleep(0.02)
            pid, status = os.waitpid(self.pid, os.WNOHANG)
            if pid:
                self.status = -os.WTERMSIG(status) if os.WIFSIGNALED(status) else os.WEXITSTATUS(status)
        return self.status

    def is_raw(self) -> bool:
        return termios.tcgetattr(self.file)[3] & (termios.ICANON | termios.ECHO) == 0

    def wait_raw(self, wanted: bool) -> None:
        end = time.monotonic() + SECONDS
        while self.is_raw() is not wanted:
            self.assertLess(time.monotonic(), end)
            time.sleep(0.01)

    def is_put_back(self) -> bool:
        return termios.tcgetattr(self.file) == self.before

    def test_a_question(self) -> None:
        self.start(ASK)
        self.until(b"Name? ")
        self.assertTrue(self.is_raw())
        self.type(b"Adx\x7fa")
        self.until(b"Name? Adx\b \ba")
        self.type(b"\r")
        self.until(b"\r\nHello, Ada")
        self.assertEqual(self.wait(), 3)
        self.assertTrue(self.is_put_back())

    def test_a_line_has_room_for_what_the_buffer_holds(self) -> None:
        self.start(ASK)
        self.until(b"Name? ")
        self.type(b"12345678\r")
        self.until(b"Hello, 1234567")
        self.assertIn(b"Name? 1234567\a\r", self.got)
        self.assertEqual(self.wait(), 7)

    def test_a_line_is_taken_back(self) -> None:
        self.start(ASK)
        self.until(b"Name? ")
        self.type(b"abc\x1b")
        self.until(b"Name? abc" + b"\b \b" * 3)
        self.type(b"\x1b[Ad\r")
        self.until(b"Hello, d")
        self.assertEqual(self.wait(), 1)

    def test_what_is_typed_early(self) -> None:
        # The terminal makes 0Ah of Enter, until the mode is raw.
        self.start(ASK, early=b"Bob\r")
        self.until(b"\nHello, Bob")
        self.assertIn(b"Name? Bob\r\nHello", self.got)
        self.assertEqual(self.wait(), 3)

    def test_polls_see_keys(self) -> None:
        for text in (POLL, DIRECT):
            with self.subTest(text=text):
                self.start(text)
                self.wait_raw(True)
                for key in (b"a", b"\r", b"\n", b"\x1a", b"\x1c", b"\x11"):
                    self.type(key)
                    self.until(key)
                self.type(b"q")
                self.assertEqual(self.wait(), ord("q"))
                self.assertTrue(self.is_put_back())

    def test_keys_without_a_character(self) -> None:
        self.start(POLL)
        self.wait_raw(True)
        for sent, shown in (
            (b"\x1b[A", b"\0H"),
            (b"\x1bOP", b"\0;"),
            (b"\x1b[6~", b"\0Q"),
            (b"\x1b", b"\x1b"),
            (b"\x7f", b"\b"),
        ):
            self.type(sent)
            self.until(shown)
        self.type(b"q")
        self.assertEqual(self.wait(), ord("q"))

    def test_a_key_that_a_poll_has_seen_begins_a_line(self) -> None:
        self.start("next: MOV AH,0Bh\nINT 21h\nCMP AL,0\nJE next\n" + ASK)
        self.wait_raw(True)
        self.type(b"ab\r")
        self.until(b"\nHello, ab")
        self.assertIn(b"Name? ab\r", self.got)
        self.assertEqual(self.wait(), 2)

    def test_lines_of_handles(self) -> None:
        self.start(READ)
        self.wait_raw(True)
        self.type(b"one\r")
        self.until(b"one\r\n[one\r\n]")
        self.type(b"two\rthree\r")
        self.until(b"two\r\n[two\r\n]three\r\n[three\r\n]")
        self.type(b"\x1a\r")
        self.assertEqual(self.wait(), 3)

    def test_ctrl_c(self) -> None:
        for text in (LOOP, "MOV DL,46\nMOV AH,2\nINT 21h\n" + KEY):
            with self.subTest(text=text):
                self.start(text)
                self.until(b".")
                self.type(b"\x03")
                self.assertEqual(self.wait(), 130)
                self.assertTrue(self.is_put_back())

    def test_signals_that_end_it(self) -> None:
        for number in (signal.SIGTERM, signal.SIGHUP, signal.SIGQUIT):
            with self.subTest(number=number):
                self.start(LOOP)
                self.until(b".")
                os.kill(self.pid, number)
                self.assertEqual(self.wait(), -number)
                self.assertTrue(self.is_put_back())

    def test_a_stop_and_its_end(self) -> None:
        words, given = self.words("MOV DL,46\nMOV AH,2\nINT 21h\n" + KEY), environment()
        told, teller = os.pipe()
        self.pid, self.file = pty.fork()
        if self.pid == 0:
            # (A shell: a process that nobody could continue is not stopped.)
            try:
                os.set_inheritable(teller, True)
                os.execve(sys.executable, [sys.executable, "-c", SHELL, str(teller), *words], given)
            finally:
                os._exit(127)
        os.close(teller)
        self.addCleanup(os.close, told)
        self.follow()
        process = int.from_bytes(os.read(told, 4), "little")
        self.until(b".")
        self.assertTrue(self.is_raw())
        os.kill(process, signal.SIGTSTP)
        self.assertEqual(os.read(told, 1), b"S")
        self.assertTrue(self.is_put_back())
        os.kill(process, signal.SIGCONT)
        self.wait_raw(True)
        self.type(b"A")
        self.assertEqual(self.wait(), 0x41)
        self.assertTrue(self.is_put_back())

    def test_a_stop_of_the_run(self) -> None:
        self.start("MOV DL,46\nMOV AH,2\nINT 21h\nHLT\n")
        self.until(b".stopped: halted\r\n")
        self.assertEqual(self.wait(), 125)
        self.assertTrue(self.is_put_back())
        self.start(LOOP, "--steps", "1000")
        self.until(b".stopped: steps\r\n")
        self.assertEqual(self.wait(), 125)

    def test_characters_of_code_page_437(self) -> None:
        self.start("MOV DL,0C4h\nMOV AH,2\nINT 21h\n" + KEY)
        self.until("─".encode())
        self.type("ü".encode())
        self.assertEqual(self.wait(), 0x81)


class WithoutTerminal(Programs):
    """A program with pipes and files."""

    def ran(self, text: str, *options: str, **more: object) -> Tuple[int, bytes, bytes]:
        done = subprocess.run(
            self.words(text, *options),
            env=environment(),
            stdout=subprocess.PIPE,
            stderr=subprocess.PIPE,
            timeout=SECONDS,
            check=False,
            **more,
        )
        return done.returncode, done.stdout, done.stderr

    def test_a_pipe(self) -> None:
        self.assertEqual(self.ran(ASK, input=b"Ada\r"), (3, b"Name? \nHello, Ada", b""))
        self.assertEqual(self.ran(READ, input=b"one\ntwo\n"), (1, b"[one\ntwo\n]", b""))
        self.assertEqual(self.ran(READ, input=b""), (0, b"", b""))

    def test_a_file(self) -> None:
        path = f"{self.folder}/input"
        with open(path, "wb") as file:
            file.write(b"abq")
        with open(path, "rb") as file:
            self.assertEqual(self.ran(POLL, stdin=file), (ord("q"), b">abq", b""))

    def test_input_that_ends_within_a_line(self) -> None:
        wanted = 125, b"Name? ", b"stopped: input ended\n"
        self.assertEqual(self.ran(ASK, input=b"Ada"), wanted)
        self.assertEqual(self.ran(ASK, input=b""), wanted)
        self.assertEqual(self.ran(ASK, stdin=subprocess.DEVNULL), wanted)

    def test_standard_input_is_closed(self) -> None:
        words = ["sh", "-c", 'exec "$@" <&-', "sh", *self.words(ASK)]
        done = subprocess.run(
            words, env=environment(), stdout=subprocess.PIPE, stderr=subprocess.PIPE, timeout=SECONDS, check=False
        )
        self.assertEqual((done.returncode, done.stdout, done.stderr), (125, b"Name? ", b"stopped: input ended\n"))

    def test_standard_output_is_full_or_closed(self) -> None:
        with open("/dev/full", "wb") as full:
            done = subprocess.run(
                self.words(ASK),
                env=environment(),
                stdin=subprocess.DEVNULL,
                stdout=full,
                stderr=subprocess.PIPE,
                timeout=SECONDS,
                check=False,
            )
        self.assertEqual((done.returncode, done.stderr), (126, b"mezguld: cannot write standard output\n"))
        words = ["sh", "-c", 'exec "$@" >&-', "sh", *self.words(ASK)]
        done = subprocess.run(
            words, env=environment(), stdin=subprocess.DEVNULL, stderr=subprocess.PIPE, timeout=SECONDS, check=False
        )
        self.assertEqual((done.returncode, done.stderr), (126, b"mezguld: cannot write standard output\n"))

    def test_a_conversation_over_pipes(self) -> None:
        with subprocess.Popen(
            self.words(READ), env=environment(), stdin=subprocess.PIPE, stdout=subprocess.PIPE, bufsize=0
        ) as process:
            for line in (b"one\n", b"two\n"):
                process.stdin.write(line)
                got = b""
                while not got.endswith(b"]"):
                    got += process.stdout.read(1)
                self.assertEqual(got, b"[" + line + b"]")
            process.stdin.close()
            self.assertEqual(process.wait(SECONDS), 2)

    def test_signals(self) -> None:
        for number, status in ((signal.SIGINT, 130), (signal.SIGTERM, -signal.SIGTERM)):
            with self.subTest(number=number):
                with subprocess.Popen(
                    self.words(LOOP),
                    env=environment(),
                    stdin=subprocess.PIPE,
                    stdout=subprocess.PIPE,
                    stderr=subprocess.DEVNULL,
                ) as process:
                    self.assertEqual(process.stdout.read(1), b".")
                    process.send_signal(number)
                    self.assertEqual(process.wait(SECONDS), status)

    def test_a_signal_while_nobody_reads(self) -> None:
        text = "MOV DL,46\nMOV AH,2\nnext: INT 21h\nJMP next\n"
        with subprocess.Popen(
            self.words(text),
            env=environment(),
            stdin=subprocess.PIPE,
            stdout=subprocess.PIPE,
            stderr=subprocess.DEVNULL,
        ) as process:
            self.assertEqual(process.stdout.read(1), b".")
            time.sleep(1)
            process.send_signal(signal.SIGINT)
            self.assertEqual(process.wait(SECONDS), 130)

    def test_faults(self) -> None:
        self.assertEqual(self.ran("NOP\n", "--xms", "15361", input=b""), (126, b"", b"mezguld: too large\n"))
        self.assertEqual(self.ran("NOP\n", "--tail", "x" * 127, input=b""), (126, b"", b"mezguld: tail too long\n"))
        self.assertEqual(self.ran("NOP\n", "--steps", "x", input=b"")[0], 2)


if __name__ == "__main__":
    unittest.main()
