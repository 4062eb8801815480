"""What a gate (`rt ci`) proved and kept on this machine, found by the toolchain's own sums, and checks over it.

`rt ci` keeps each library that it proves beside the toolchain, under the sum of all that its proof read: the crate's files,
its line of crates.txt, HANDLES, the toolchain, and the libraries below as they were built. So what is found here is never
stale, whatever commit proved it. The program `rt` is read as a module, for its sums are its own.
"""
import contextlib
import fcntl
import functools
import hashlib
import importlib.machinery
import importlib.util
import json
import os
import shutil

from crates import TOP, below, kit, libraries, root_of


@functools.lru_cache(maxsize=None)
def rt():
    """The toolchain's program `rt` as a module, which asks once for the crates below a crate and not once for each path."""
    loader = importlib.machinery.SourceFileLoader("rt_of_the_kit", f"{kit()}/bin/rt")
    made = importlib.util.module_from_spec(importlib.util.spec_from_loader(loader.name, loader))
    loader.exec_module(made)
    walked, known = made.rtlib.Crate.below, {}

    def remembered(crate):
        if id(crate) not in known:
            known[id(crate)] = crate, walked(crate)
        return list(known[id(crate)][1])

    made.rtlib.Crate.below = remembered
    return made


class Proved:
    """What is kept of the crates of this checkout as their files stand."""

    def __init__(self):
        rt().Crate.allowed = rt().handles_of(TOP)
        self.crates = {it.name: it for it in rt().crates_of(TOP)}
        self.kept, self.keys, self.made = rt().Kept([]), {}, {}
        for crate in self.crates.values() if self.kept.at else ():
            if all(it.name in self.made for it in crate.below()):
                self.look_for(crate)

    def look_for(self, crate):
        """Notes the crate's sum, and, where the proof of a crate of that sum is kept, the files that it made."""
        key = self.keys[crate.name] = self.kept.key(crate)
        try:
            with open(f"{self.kept.place(crate, False, key)}/made.json", encoding="utf-8") as file:
                said = json.load(file)
            files = [(path, sum) for path, sum in said["files"]]
            is_whole = said["key"] == key and self.kept.is_whole(crate, False, [path for path, _ in files])
        except (OSError, ValueError, KeyError, TypeError):
            return
        if is_whole:
            self.made[crate.name] = files
            self.kept.rlibs[crate.name] = hashlib.sha256(repr([] if crate.is_program else files).encode()).hexdigest()

    def entries(self, crate):
        """The names of the crate's proof, tests and edits in the store, each with whether it is kept."""
        if crate.name not in self.keys:
            return {}
        key = self.keys[crate.name]
        names = [f"{kind}-{crate.name}-{key}" for kind in ("proof", *["tests"] * crate.has_tests())]
        sums = [key, rt().stamp_of(crate, {})]
        names += [f"edits/{self.kept.of_edit(edit, sum)}" for edit in rt().edits_of(crate)[0] for sum in sums]
        return {it: os.path.exists(f"{self.kept.at}/{it}") for it in names}

    def library(self, name):
        """The folder in which the crate's kept library lies, once it is linked into the crate's out/rlib, or None."""
        if name not in self.made:
            return None
        at, key = f"{TOP}/crates/{name}/out/rlib/kept", self.keys[name]
        if os.path.isfile(f"{at}/{key}"):
            return at
        new = f"{at}-{os.getpid()}"
        if self.is_linked(name, key, new):
            shutil.rmtree(at, ignore_errors=True)
            with contextlib.suppress(OSError):
                # (another check may have linked it meanwhile)
                os.rename(new, at)
        shutil.rmtree(new, ignore_errors=True)
        return at if os.path.isfile(f"{at}/{key}") else None

    def is_linked(self, name, key, folder):
        """Links what is kept of the crate into the folder, and gives whether each file is what its sum says."""
        entry = self.kept.place(self.crates[name], False, key)
        for number, (path, sum) in enumerate(self.made[name]):
            to = f"{folder}/{path.removeprefix('rlib/')}"
            if os.path.normpath(path) != path or not path.startswith(f"rlib/{name}.rlib/"):
                return False
            os.makedirs(os.path.dirname(to), exist_ok=True)
            rt().link_or_copy(f"{entry}/{number}", to)
            if rt().rtlib.sum_of(to) != sum:
                return False
        with open(f"{folder}/{key}", "w", encoding="utf-8"):
            return True

    def places(self, names):
        """Where each of these libraries lies that is proved here: those that a gate kept, or those that `rt check` left, if more."""
        kept = {name: at for name in names if (at := self.library(name))}
        left = {name: f"{TOP}/crates/{name}/out/rlib" for name in names if self.crates[name].is_built()}
        return kept if len(kept) >= len(left) else left


def words_of(crate, kept, flags=()):
    """How the crate is checked over what is proved below it, its work kept in `kept`, and which libraries are passed as sources."""
    uses = libraries()
    under = below(crate, uses)
    places, built, sources = Proved().places(under), [], []
    for name in under:
        is_over_built = all(it in built for it in uses[name] if it in uses)
        (built if name in places and is_over_built else sources).append(name)
    passed = [name for name in built if any(name in uses[it] for it in [crate, *sources])]
    of_kit = [it for name in [crate, *sources] for it in uses[name] if it not in uses]
    of_kit = dict.fromkeys(["std", *["core"] * bool(sources), *of_kit])
    words = [f"{kit()}/bin/rattle", "check", "--crate-name", crate, root_of(crate)]
    for name, at in [*[(it, f"{kit()}/rlibs") for it in of_kit], *[(it, places[it]) for it in passed]]:
        words += ["--extern", f"{name}={at}/{name}.rlib"]
    for name in sources:
        listed = dict.fromkeys(["core", "std", *uses[name]])
        words += ["--lib", f"{name}:{','.join(listed)}={TOP}/crates/{name}/src/lib.rt"]
    for at in [f"{kit()}/rlibs", *(places[it] for it in built)]:
        words += ["-L", f"dependency={at}"]
    words += ["--antt-project", f"{kit()}/rattle/logic/antt-project.json", "--logic-built", f"{kit()}/logic_built"]
    return [*words, "--incremental", kept, *flags], sources


def hold(crate):
    """Keeps other checks out of the crate's folder until this program ends, and `rt` from making anew what lies below it."""
    for name in sorted([*below(crate, libraries()), crate]):
        # (never closed; `rt` takes such locks, all for itself, in the same order)
        folder, kind = os.open(f"{TOP}/crates/{name}", os.O_RDONLY), fcntl.LOCK_EX if name == crate else fcntl.LOCK_SH
        try:
            fcntl.flock(folder, kind | fcntl.LOCK_NB)
        except BlockingIOError:
            print(f"waiting for another check to end in crates/{name}", flush=True)
            fcntl.flock(folder, kind)
