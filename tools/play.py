"""How the scripts of this folder run the program `dm`, and report differences."""
import concurrent.futures
import os
import re
import subprocess

ROOT = os.path.dirname(os.path.dirname(os.path.abspath(__file__)))
SECONDS = 60
# How much of a difference is printed.
FAULTS, COLUMNS = 20, 200
STOPS = ("steps", "halted", "unlisted", "input ended", "destroyed")
STOP = re.compile(rf"stopped: (?:{'|'.join(STOPS)})\n")


class Differs(Exception):
    """The result is not the expected one."""


class Played:
    """What a call of a program left: its status, what it printed on standard error, and what it wrote on standard
    output."""

    def __init__(self, words, folder, given=b"", environment=None, kept=()):
        try:
            ran = subprocess.run(
                words, cwd=folder, input=given, env=environment, pass_fds=kept, capture_output=True, timeout=SECONDS
            )
        except subprocess.TimeoutExpired as error:
            raise Differs(f"no answer after {SECONDS} seconds: {' '.join(words)}") from error
        self.status, self.told, self.wrote = ran.returncode, ran.stderr.decode("latin-1"), ran.stdout

    def __str__(self):
        return f"status {self.status}, told {self.told!r}, wrote {self.wrote!r}"


def stops_with_a_name(run):
    """Whether a call of `dm run` ended with the program's code and no message, or at a stop with a name. (The stop
    `memory` is not among these: there is enough memory.)"""
    if run.status == 125 and STOP.fullmatch(run.told):
        return True
    return 0 <= run.status <= 255 and run.told == ""


def write_file(folder, name, data):
    with open(f"{folder}/{name}", "wb") as file:
        file.write(data)


def play_all(call, cases, jobs=None):
    """Calls each case, as many at a time as there are processors. Yields each difference with its case. What has not
    begun when Ctrl-C comes is left out."""
    with concurrent.futures.ThreadPoolExecutor(jobs or os.cpu_count()) as pool:
        played = {pool.submit(call, case): case for case in cases}
        try:
            for one in concurrent.futures.as_completed(played):
                try:
                    one.result()
                except (Differs, OSError) as error:
                    yield f"{played[one]}: {error}"
        except BaseException:
            pool.shutdown(wait=False, cancel_futures=True)
            raise


def tell(title, count, differing):
    """Prints the differences and their number, and returns the script's exit status."""
    for fault in differing[:FAULTS]:
        print(fault if len(fault) <= 4 * COLUMNS else f"{fault[: 4 * COLUMNS]} ..")
    print(f"{title}: {count} played, {len(differing)} differ")
    return 1 if differing or not count else 0
