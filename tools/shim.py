"""Runs a program whose memory or devices fail, one request, read or write after another, by the library of tools/shim.c.

A run forks at each place and tells of each child how it ended. `cc` and the C library of GNU are needed.
"""
import collections
import os
import subprocess
import tempfile

HERE = os.path.dirname(os.path.abspath(__file__))
HANG = 900

# What was tried (`request`, `read` or `write`), how it went wrong, its place; the status, a signal's number below zero; how much
# the program had written before; how many files its folder then had, what it had written, and OUT, which is None where there is none.
Ended = collections.namedtuple("Ended", "kind how place status before files out err file")


def built(folder):
    """The library, compiled."""
    library = f"{folder}/shim.so"
    subprocess.run(["cc", "-O1", "-Wall", "-shared", "-fPIC", "-o", library, f"{HERE}/shim.c"], check=True)
    return library


def settings_of(library, program, tries, **settings):
    """The environment in which the program is tried."""
    return dict(os.environ, LD_PRELOAD=library, SHIM_PROGRAM=os.path.realpath(program), SHIM_TRIES=tries,
                **{f"SHIM_{name.upper()}": str(value) for name, value in settings.items()})


def children_of(report):
    """What a report tells, child by child."""
    place = 0
    while place < len(report):
        end = report.index(b"\n", place)
        kind, how, *numbers = report[place:end].decode().split()
        number, status, before, files, *sizes = map(int, numbers)
        parts, place = [], end + 1
        for size in sizes:
            parts.append(report[place:place + size] if size >= 0 else None)
            place += max(size, 0)
        yield Ended(kind, how, number, status, before, files, *parts)


def run(program, words, folder, library, tries, **settings):
    """Runs the program in the folder: its status, what it wrote, and how each child ended. A child has a copy of the folder."""
    with tempfile.TemporaryDirectory() as own:
        paths = [f"{own}/{name}" for name in ("out", "err", "report")]
        settings |= {"report": paths[2], "own": f"{own}/folder"}
        with open(paths[0], "wb") as out, open(paths[1], "wb") as err:
            done = subprocess.run([program, *words], cwd=folder, env=settings_of(library, program, tries, **settings),
                                  stdin=subprocess.DEVNULL, stdout=out, stderr=err, timeout=HANG)
        out, err, report = map(read, paths)
        return done.returncode, out, err, [*children_of(report)]


def read(path):
    """The bytes of the file, none where there is no such file."""
    if not os.path.exists(path):
        return b""
    with open(path, "rb") as file:
        return file.read()


def write(path, contents):
    with open(path, "wb") as file:
        file.write(contents)
