"""How the program is built from a copy of the sources, whose version tells what it was built from and whether it was proved."""
import os
import re
import shutil
import subprocess
import sys

from crates import TOP, below, kit, libraries, read

CRATE = "rlsdb"
PLACE = "crates/rls_command_line/src/command_line.rt"
VERSION = re.compile(r'const VERSION: &str = "([^"\n]*)";')
PROVED = re.compile(r"rt: \w+( is kept:.*| proved| NOT PROVED.*)$")
# As the toolchain compiles a proved program.
COMPILED = """--target=x86_64-unknown-linux-gnu -march=x86-64 -mllvm -no-trap-after-noreturn -ffunction-sections -fdata-sections
    -mllvm -trap-unreachable -mllvm -no-x86-call-frame-opt -mllvm -disable-machine-licm -mllvm -disable-postra-machine-licm
    -mllvm -sink-common-insts=false --no-default-config -no-canonical-prefixes -c -x ir -fPIE -O2""".split()
KEEPER = """#!/bin/bash
cp module.bc '{room}/module.bc' 2>/dev/null
exec -a clang '{kit}/toolchain/bin/clang' "$@"
"""


def said(words):
    """What a command writes in the repository, or an empty text where it fails."""
    try:
        ran = subprocess.run(words, cwd=TOP, stdin=subprocess.DEVNULL, stdout=subprocess.PIPE, stderr=subprocess.DEVNULL, text=True)
    except OSError:
        return ""
    return ran.stdout.strip() if ran.returncode == 0 else ""


def origin():
    """The commit that the sources stand at with its date, and whether they were changed since."""
    commit = said(["git", "log", "-1", "--format=%h %cs"])
    changed = said(["git", "status", "--porcelain", "--", "crates", "crates.txt", "HANDLES"])
    return f"{commit or 'no commit'}{' with changes' if changed else ''}"


def copy_sources(to, how):
    """Copies the crates that the program is built from, without wrong bodies, and writes into its version where they come from."""
    names = [*below(CRATE, libraries()), CRATE]
    for name in names:
        shutil.copytree(f"{TOP}/crates/{name}", f"{to}/crates/{name}", ignore=shutil.ignore_patterns("out", "must-fail", "mutants"))
    for name in ("HANDLES", ".gitignore"):
        shutil.copyfile(f"{TOP}/{name}", f"{to}/{name}")
    with open(f"{to}/crates.txt", "w", encoding="utf-8") as file:
        file.writelines(line for line in read(f"{TOP}/crates.txt").splitlines(True) if line.partition(":")[0].strip() in names)
    text = read(f"{to}/{PLACE}")
    if len(VERSION.findall(text)) != 1:
        sys.exit(f"{PLACE} has no constant VERSION")
    with open(f"{to}/{PLACE}", "w", encoding="utf-8") as file:
        file.write(VERSION.sub(lambda it: f'const VERSION: &str = "{it[1]} ({origin()}, {how})";', text))


# ---- without proof


def link_all(folder, to, without=()):
    """Makes in the folder `to` a link to each entry of the other one, but for some."""
    os.makedirs(to)
    for name in os.listdir(folder):
        if name not in without:
            os.symlink(os.path.realpath(f"{folder}/{name}"), f"{to}/{name}")


def copy_of_kit(room):
    """Makes a copy of the toolchain's folder, of links, whose `clang` leaves what it compiles in the room."""
    to = f"{room}/kit"
    link_all(kit(), to, ("bin", "toolchain"))
    link_all(f"{kit()}/toolchain", f"{to}/toolchain", ("bin",))
    link_all(f"{kit()}/toolchain/bin", f"{to}/toolchain/bin", ("clang",))
    own = [it for it in os.listdir(f"{kit()}/bin") if it == "rt" or it.endswith(".py")]
    link_all(f"{kit()}/bin", f"{to}/bin", own)
    for name in own:
        # (it takes the folder that its file lies in for the toolchain's)
        with open(f"{to}/bin/{name}", "w", encoding="utf-8") as file:
            file.write(read(f"{kit()}/bin/{name}"))
    for path, text in ((f"{to}/toolchain/bin/clang", KEEPER.format(room=room, kit=kit())), (f"{to}/bin/rt", None)):
        if text:
            with open(path, "w", encoding="utf-8") as file:
                file.write(text)
        os.chmod(path, 0o755)
    return to


def build_unproved(room):
    """Builds the program in the room without proof, optimized as a proved one, and gives its path, or ends with the reason."""
    copy_sources(f"{room}/sources", "not proved")
    tried = subprocess.run([f"{copy_of_kit(room)}/bin/rt", "try", "--", "--help"], cwd=f"{room}/sources/crates/{CRATE}", text=True,
                           stdin=subprocess.DEVNULL, stdout=subprocess.PIPE, stderr=subprocess.STDOUT, errors="replace")
    if not os.path.isfile(f"{room}/module.bc"):
        sys.exit(f"`rt try` compiled nothing:\n{tried.stdout[-2000:]}")
    toolchain = f"{kit()}/toolchain"
    subprocess.run([f"{toolchain}/bin/clang", f"--sysroot={toolchain}", *COMPILED, "module.bc", "-o", "module.o"], cwd=room, check=True)
    subprocess.run([f"{kit()}/bin/rattle-link", "--target", "x86_64-unknown-linux-gnu", "--toolchain", toolchain, "-o",
                    f"{room}/{CRATE}", "module.o", f"{kit()}/c/libos_c.a", f"{kit()}/c/liblibc_c.a"], cwd=room, check=True)
    return f"{room}/{CRATE}"


# ---- with proof


def build_proved(room, lanes):
    """Proves every crate in the room, builds the program there, and gives its path, or ends with what isn't proved."""
    by = " ".join(read(f"{kit()}/KIT-ID").split()[:1]) or "rattle"
    copy_sources(f"{room}/sources", f"proved by {by}")
    with subprocess.Popen(["rt", "ci"], cwd=f"{room}/sources", env=dict(os.environ, RT_JOBS=str(lanes)), stdin=subprocess.DEVNULL,
                          stdout=subprocess.PIPE, stderr=subprocess.STDOUT, text=True, errors="replace") as proving:
        told = []
        for line in proving.stdout:
            told.append(line)
            if PROVED.match(line):
                print(f"{line.partition(': an earlier')[0].strip()}", file=sys.stderr, flush=True)
    program = f"{room}/sources/crates/{CRATE}/out/{CRATE}"
    if proving.returncode or not os.path.isfile(program):
        sys.exit(f"{''.join(told[-40:])}not proved, so there is no program")
    return program
