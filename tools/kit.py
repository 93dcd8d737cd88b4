"""What tools/build, tools/mutants and tools/static_library share: the kit's own modules, and proofs of crates in
parallel."""
import contextlib
import importlib.machinery
import importlib.util
import os
import shutil
import signal
import subprocess
import sys
import tempfile
from concurrent.futures import FIRST_COMPLETED, ThreadPoolExecutor, wait

ROOT = os.path.dirname(os.path.dirname(os.path.realpath(__file__)))
# The processors for the crate with the longest chain above it, even while others wait.
AHEAD = 2
# The names used from the kit's module of crates, and from its class of crates.
OF_KIT, OF_CRATE = ("RATTLE", "cores", "files_of", "guarded", "help_of", "lock", "text_of"), (
    "below",
    "build_static",
    "call",
    "is_built",
    "run",
    "words",
)


def require():
    """Ends the script where the kit is not in the path."""
    if shutil.which("rt") is None:
        script = os.path.relpath(os.path.realpath(sys.argv[0]), ROOT)
        sys.exit(
            f'{script}: the command `rt` of the Rattle kit is not in the path: CONTRIBUTING.md, under "Set up", says'
            " where it comes from"
        )


def name():
    """The kit's name, or nothing if there is none in the path."""
    try:
        said = subprocess.run(["rt", "version"], capture_output=True, text=True, timeout=60, check=False).stdout.split()
    except (OSError, subprocess.TimeoutExpired):
        return ""
    return said[0] if said else ""


def folder():
    """The kit's folder."""
    return os.path.dirname(os.path.dirname(os.path.realpath(shutil.which("rt"))))


def load(file):
    """A Python file of the kit as a module."""
    require()
    path = f"{os.path.dirname(os.path.realpath(shutil.which('rt')))}/{file}"
    name = file.removesuffix(".py")
    loader = importlib.machinery.SourceFileLoader(name, path)
    made = importlib.util.module_from_spec(importlib.util.spec_from_loader(name, loader))
    sys.dont_write_bytecode = True
    sys.modules[name] = made
    loader.exec_module(made)
    return made


def module():
    """The kit's module of crates: its class `Crate` proves, builds and links."""
    # (As the command `rt` uses it, which reads each file once for a stamp. A stamp is a checksum of the sources of a
    # crate and of those below it, which are reached in thousands of ways.)
    return getattr(load("rt"), "rtlib", None) or load("rtlib.py")


def is_known(made):
    """Whether the kit's module of crates has all the names that are used here."""
    return all(hasattr(made, it) for it in OF_KIT) and all(hasattr(made.Crate, it) for it in OF_CRATE)


def ready(made):
    """To be called once, in the main thread, before crates are proved."""
    # (Its first call sets a signal handler, which only the main thread may do.)
    made.guarded()
    # With Python's own handler, Ctrl-C would wait for the provers that run.
    signal.signal(signal.SIGINT, signal.SIG_DFL)


def stamp_file(library):
    """The file with the stamp of the library's sources: the kit rebuilds a library whose stamp has changed."""
    return f"{library.folder}/out/rlib/stamp"


def is_newer(library, sources):
    """Whether a source was written after the library was put in its place. (Its files may be older: the kit keeps
    what it proved.)"""
    return max(map(os.path.getmtime, sources)) > os.path.getmtime(library.rlib)


@contextlib.contextmanager
def proved_below(name):
    """Has the kit take the libraries below a crate as proved, for a while, if `rt ci` has proved them.

    A command of the kit proves a library again unless crates/NAME/out/rlib holds one with a stamp, a checksum of its
    sources. The libraries that `rt ci` leaves there have no stamp, because they hold only statements, which fit only
    the libraries that they were built on. Those of one run get their stamps here, and lose them afterwards. A
    library gets none if a source of it is newer, if it has one already, because another command built it, or if it
    uses such a library: the kit then proves it again if it must.
    """
    made, script = module(), os.path.relpath(os.path.realpath(sys.argv[0]), ROOT)
    libraries = made.Crate(f"{ROOT}/crates/{name}", ROOT, {}).below()
    missing = [library.name for library in libraries if not os.path.isdir(library.rlib)]
    if missing:
        sys.exit(f"{script}: {missing[0]} is not built: run `rt ci`, or `tools/build --library`")
    changed = {it.name for it in libraries if is_newer(it, [*made.files_of(it.folder), f"{ROOT}/crates.txt"])}
    if changed:
        print(f"{script}: changed since `rt ci`, and proved again: {' '.join(sorted(changed))}", file=sys.stderr)
    others = changed | {it.name for it in libraries if os.path.exists(stamp_file(it))}
    written = []
    try:
        for library in libraries:
            if others.isdisjoint(below.name for below in [library, *library.below()]):
                with open(stamp_file(library), "w", encoding="utf-8") as file:
                    file.write(library.stamp())
                written.append(stamp_file(library))
        yield
    finally:
        for path in written:
            with contextlib.suppress(FileNotFoundError):
                os.remove(path)


def lines(made, crate):
    return sum(made.text_of(path).count("\n") for path in made.files_of(crate.folder))


def chains(made, crates):
    """The lines of the longest chain from each crate up, its own among them."""
    longest = {}
    for crate in reversed(crates):
        above = (longest[it] for it in longest if crate in it.deps)
        longest[crate] = lines(made, crate) + max(above, default=0)
    return longest


def prove(made, crate, jobs):
    """Proves a crate and builds its library, if that is missing. Returns whether it is proved; if it is not, prints
    what the prover says."""
    if crate.is_built():
        return True
    before = crate.stamp()
    folder = os.path.dirname(crate.rlib)
    shutil.rmtree(folder, ignore_errors=True)
    os.makedirs(folder)
    # As in the gate, a library is built from its statements, without its proofs: all crates above it load it.
    words = [
        *crate.words(["--jobs", str(jobs)], keeps=False),
        *["--statements"] * ("--statements" in made.help_of("build")),
    ]
    with tempfile.TemporaryFile("w+", errors="replace") as crate.out:
        failed = crate.call(made.RATTLE, "build", *words, "-o", crate.rlib)
        crate.out.seek(0)
        said = crate.out.read() if failed else ""
    has_changed = crate.stamp() != before
    word = "not proved" if failed else "changed during its proof" if has_changed else "proved"
    print(f"{said}{crate.name}: {word}\n", end="", flush=True)
    if failed or has_changed:
        return False
    with open(stamp_file(crate), "w", encoding="utf-8") as file:
        file.write(before)
    return True


def prove_all(made, crates):
    """Proves the crates, each after those below it. Returns whether all are proved; nothing is tried above one that
    is not."""
    longest, lanes = chains(made, crates), made.cores()
    left = sorted(crates, key=longest.get, reverse=True)
    proved, failed, running = set(), set(), {}
    with ThreadPoolExecutor(lanes) as pool:
        while True:
            waiting = [it for it in left if proved.issuperset(it.deps)]
            ahead = max((longest[it] for it in [*left, *(it for it, _ in running.values())]), default=0)
            for at, crate in enumerate(waiting):
                idle = lanes - sum(jobs for _, jobs in running.values())
                if idle < 1:
                    break
                jobs = max(idle // (len(waiting) - at), min(AHEAD, idle) if longest[crate] == ahead else 1)
                left.remove(crate)
                running[pool.submit(prove, made, crate, jobs)] = crate, jobs
            if not running:
                return not failed and not left
            for it in wait(running, return_when=FIRST_COMPLETED).done:
                (proved if it.result() else failed).add(running.pop(it)[0])


def in_turn(commands):
    """Runs commands of the kit, each given as a crate and words, one after the other. Returns the highest status."""
    print(
        (
            f"{os.path.basename(sys.argv[0])}: the kit's module is not the known one, so crates are proved one after"
            " the other, by `rt`"
        ),
        flush=True,
    )
    runs = (
        subprocess.run(["rt", *words.split()], cwd=f"{ROOT}/crates/{name}", stdin=subprocess.DEVNULL, check=False)
        for name, words in commands
    )
    return max(ran.returncode for ran in runs)
