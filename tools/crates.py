"""What several tools share: where the repository and the toolchain lie, and what crates.txt says."""
import functools
import os
import subprocess

TOP = os.path.dirname(os.path.dirname(os.path.abspath(__file__)))


def read(path):
    """The text of a file."""
    with open(path, encoding="utf-8") as file:
        return file.read()


@functools.lru_cache(maxsize=None)
def kit():
    """The toolchain's folder: that of the page whose path `rt doc` prints."""
    return os.path.dirname(subprocess.run(["rt", "doc"], stdout=subprocess.PIPE, text=True, check=True).stdout.strip())


def libraries(file=f"{TOP}/crates.txt"):
    """The libraries that each crate lists, the toolchain's among them, by crates.txt."""
    lines = [line.partition("#")[0].partition(":") for line in read(file).splitlines()]
    return {name.split()[0]: below.split() for name, _, below in lines if name.strip()}


def crates_of(uses):
    """Of the libraries that each crate lists those that are crates of the repository."""
    return {name: [it for it in below if it in uses] for name, below in uses.items()}


def below(crate, uses):
    """The crates below this one, each after those that it lists."""
    found = {}

    def visit(name):
        for it in uses[name]:
            if it in uses and it not in found:
                visit(it)
                found[it] = True

    visit(crate)
    return list(found)


def root_of(crate):
    """The crate's first file, as from its folder."""
    return "src/main.rt" if os.path.exists(f"{TOP}/crates/{crate}/src/main.rt") else "src/lib.rt"
