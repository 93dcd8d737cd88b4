"""Makes the wheel of the package `mezguld`: the build backend that pyproject.toml names, and what `tools/package`
calls.

The wheel holds the shared library build/libmezguld.so, which `tools/library` makes. Nothing is downloaded: `pip
install ./python` needs no network. The same files give the same bytes: entries are sorted and not compressed, and
have the time that the environment variable SOURCE_DATE_EPOCH gives.
"""
import base64
import hashlib
import os
import re
import time
import zipfile

HERE = os.path.dirname(os.path.dirname(os.path.abspath(__file__)))
PACKAGE, LIBRARY = os.path.join(HERE, "mezguld"), os.path.join(os.path.dirname(HERE), "build", "libmezguld.so")
# The least time that a zip file can have.
FIRST = 315532800


class NotBuilt(Exception):
    """There is no library to pack."""


def text_of(path):
    with open(path, encoding="utf-8") as file:
        return file.read()


def version():
    """The package's version."""
    return re.search(r'^__version__ = "([\d.]+)"$', text_of(os.path.join(PACKAGE, "__init__.py")), re.M)[1]


def project():
    """The texts of pyproject.toml by their names, and its classifiers."""
    text = text_of(os.path.join(HERE, "pyproject.toml"))
    return dict(re.findall(r'^([\w-]+) = "(.*)"$', text, re.M)), re.findall(r'^    "(.*)",$', text, re.M)


def metadata():
    """The text of the file METADATA."""
    said, classifiers = project()
    lines = [
        "Metadata-Version: 2.1",
        f"Name: {said['name']}",
        f"Version: {version()}",
        f"Summary: {said['description']}",
        "License: none was given",
        *[f"Classifier: {it}" for it in classifiers],
        f"Requires-Python: {said['requires-python']}",
        "Description-Content-Type: text/plain",
        "",
        re.match(r'r?"""(.*?)"""', text_of(os.path.join(PACKAGE, "__init__.py")), re.S)[1],
    ]
    return "\n".join(lines)


def tag(library):
    """The tag of a wheel with this library: the oldest C library (glibc) that has all that it calls, but none before
    2.17."""
    minor = max([17, *map(int, re.findall(rb"GLIBC_2\.(\d+)", library))])
    old = "manylinux2014_x86_64." if minor == 17 else ""
    return f"py3-none-{old}manylinux_2_{minor}_x86_64"


def entries(library):
    """The paths of the wheel with their bytes, sorted, but for RECORD."""
    folder = f"mezguld-{version()}.dist-info"
    tags = tag(library).split("-")
    wheel = [
        "Wheel-Version: 1.0",
        "Generator: mezguld_wheel",
        "Root-Is-Purelib: false",
        *[f"Tag: py3-none-{it}" for it in tags[2].split(".")],
    ]
    found = {
        f"mezguld/{name}": text_of(os.path.join(PACKAGE, name)).encode()
        for name in os.listdir(PACKAGE)
        if name.endswith((".py", ".typed", ".html"))
    }
    found["mezguld/libmezguld.so"] = library
    found[f"{folder}/METADATA"] = metadata().encode()
    found[f"{folder}/WHEEL"] = ("\n".join(wheel) + "\n").encode()
    return sorted(found.items()), f"{folder}/RECORD"


def record(files, itself):
    """The text of the file RECORD."""

    def sum_of(data):
        return base64.urlsafe_b64encode(hashlib.sha256(data).digest()).decode().rstrip("=")

    return "".join(f"{path},sha256={sum_of(data)},{len(data)}\n" for path, data in files) + f"{itself},,\n"


def build_wheel(wheel_directory, config_settings=None, metadata_directory=None):  # pylint: disable=unused-argument
    """Writes the wheel into a folder, and returns its name."""
    if not os.path.exists(LIBRARY):
        raise NotBuilt(f"there is no {LIBRARY}: tools/library makes it")
    with open(LIBRARY, "rb") as file:
        library = file.read()
    files, itself = entries(library)
    when = time.gmtime(max(int(os.environ.get("SOURCE_DATE_EPOCH") or 0), FIRST))[:6]
    name = f"mezguld-{version()}-{tag(library)}.whl"
    with zipfile.ZipFile(os.path.join(wheel_directory, name), "w", zipfile.ZIP_STORED) as made:
        for path, data in [*files, (itself, record(files, itself).encode())]:
            entry = zipfile.ZipInfo(path, when)
            entry.create_system, entry.external_attr = 3, (0o100755 if path.endswith(".so") else 0o100644) << 16
            made.writestr(entry, data)
    return name


def build_sdist(sdist_directory, config_settings=None):
    """A source distribution is not made: the library cannot be built without the prover, and so not from sources
    alone."""
    raise NotImplementedError("there is no source distribution: the library is built by the Rattle kit")
