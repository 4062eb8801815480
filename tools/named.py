"""What the pages of the house name, looked up in the sources: files, crates, calls, clauses, wrong bodies and tests.

Of each page: a path in backticks is there, and so is a file NAME.rt or NAME.antt, in backticks or in a picture, in the src/, specs/
or proofs/ of some crate. A word in capitals stands for a name, and such a path is left out. Two pages stay below a size.

Of docs/ARCHITECTURE.md's table '| Crate | .. | Over |': it has a row for each crate of crates.txt, and Over has the crates that
it lists but those below another of them.

Of docs/PROVED.md: a row of the table '| Crate | In plain words | .. |' names calls, laws, clauses and parts of definitions of that
crate; each crate with contracts has a row. In a row of '| Call | Clause | .. |' each clause is one of a function or a trait that
the row calls by its name, or a law; each definition is one of some crate; a wrong body in bold is in must-fail/, another one in
mutants/; a test in italics is a case of conformance/, another one a function of the crates of tests. The toolchain that the page names
is what `rt version` prints.
"""
import collections
import functools
import glob
import os
import re
import subprocess

from crates import TOP, below, crates_of, libraries, read

PAGES = ["CONTRIBUTING.md", "docs/ARCHITECTURE.md", "docs/DECISIONS.md", "docs/DEFINITIONS.md", "docs/PROVED.md"]
AT_MOST = {"docs/DECISIONS.md": 25_000, "docs/DEFINITIONS.md": 15_000}
TESTS = ["rls_tests", "rls_core_tests", "rls_session_tests"]
WITHOUT_CONTRACTS = {"scenario", "refusals", "audit_refusals", *TESTS}
TICKED = re.compile(r"`([^`]+)`")
PATH = re.compile(r"(?:\.ci|bench|conformance|crates|docs|examples|tools)/[\w./-]*$")
BOX = re.compile(r"^```.*?^```$", re.MULTILINE | re.DOTALL)
FILE = re.compile(r"\w+\.(?:rt|antt)$")
CRATES = "| Crate | In plain words |"
CALLS = "| Call | Clause |"
HOUSE = "| Crate | What it is for |"


def rows(text, head):
    """The rows of the table that begins so, each as its cells."""
    lines = iter(text.split("\n"))
    for line in lines:
        if line.startswith(head):
            next(lines)
            for row in lines:
                if not row.startswith("|"):
                    return
                yield row[1:-1].replace("\\|", "\0").split("|")


@functools.lru_cache(maxsize=None)
def code_of(crate):
    """The text of a crate's src/."""
    return "\n".join(read(it) for it in sorted(glob.glob(f"{TOP}/crates/{crate}/src/**/*.rt", recursive=True)))


@functools.lru_cache(maxsize=None)
def files():
    """The names of all files of code, definitions and proofs."""
    return {os.path.basename(it) for kind in ("src", "specs", "proofs") for it in glob.glob(f"{TOP}/crates/*/{kind}/**/*.*t", recursive=True)}


def missing_files(text):
    """The paths and files that a page names and that aren't there."""
    drawn = [it for box in BOX.findall(text) for it in re.findall(r"\b\w+\.(?:rt|antt)\b", box)]
    ticked = [word for line in BOX.sub("", text).split("\n") for some in TICKED.findall(line) for word in some.split()]
    for it in dict.fromkeys([*drawn, *ticked]):
        is_missing = PATH.match(it) and not os.path.exists(f"{TOP}/{it}") or FILE.match(it) and it not in files()
        if is_missing and not re.search(r"[A-Z]{4}", it):
            yield f"there is no {it}"


def house(text):
    """What the table of crates tells that crates.txt doesn't."""
    uses = crates_of(libraries())
    told = {TICKED.findall(row[0])[0]: set(TICKED.findall(row[-1])) for row in rows(text, HOUSE)}
    over = {name: {it for it in listed if not any(it in below(other, uses) for other in listed)} for name, listed in uses.items()}
    return [f"{name} is over {sorted(over.get(name, []))}, and not {sorted(told.get(name, []))}"
            for name in sorted({*told, *uses}) if told.get(name) != over.get(name)]


@functools.lru_cache(maxsize=None)
def specs_of(crate):
    """The text of a crate's definitions."""
    return "\n".join(read(it) for it in sorted(glob.glob(f"{TOP}/crates/{crate}/specs/**/*.antt", recursive=True)))


def is_in(code, name):
    """Whether code has a function, a type, a trait, a clause or an impl of that name."""
    return re.search(rf"\b(?:fn|struct|enum|trait|type|const|ensures|requires) {name}\b|\bimpl\b[^{{\n]*\b{name}\b", code) is not None


def is_defined(crate, name):
    """Whether the crate's definitions have one of that name, or a part of one."""
    return re.search(rf"^\s*(?:(?:abbrev|unfoldable) )?(?:pub )?(?:(?:record|data) )?{name} [:({{]", specs_of(crate), re.MULTILINE) is not None


def proved(text):
    """What the table of crates names that they don't have, and the crates that it leaves out."""
    named = set()
    for first, _, calls in rows(text, CRATES):
        crate = TICKED.findall(first)[0]
        named.add(crate)
        for call in TICKED.findall(calls):
            name = re.split(r"\W+", call)[-1]
            if name not in libraries() and not is_in(code_of(crate), name) and not is_defined(crate, name):
                yield f"{crate} has no {call}"
    yield from (f"there is no row of {it}" for it in sorted({*libraries()} - named - WITHOUT_CONTRACTS))


@functools.lru_cache(maxsize=None)
def clauses():
    """The clauses of all functions of a name, and those of the methods of a trait; a law has its own name too."""
    found, function, trait = collections.defaultdict(set), "", ""
    for line in "\n".join(code_of(it) for it in libraries()).split("\n"):
        trait = (re.match(r"pub trait (\w+)", line) or [0, "" if line == "}" else trait])[1]
        function = (re.match(r"\s*(?:pub(?:\(\w+\))? )?fn (\w+)", line) or [0, function])[1]
        if clause := re.match(r"\s*ensures (?:(\w+) )?\{", line):
            found[function] |= {clause[1], function}
            found[trait].add(clause[1])
    return found


def wrong_bodies(cell):
    """The wrong bodies that a cell names and that aren't in their folders."""
    for is_bold, name in re.findall(r"(\*\*)?`(\w+)`", cell):
        folder = "must-fail" if is_bold else "mutants"
        if name not in libraries() and not glob.glob(f"{TOP}/crates/*/{folder}/{name}.edit"):
            yield f"no {folder}/ has {name}"


def tests(cell):
    """The tests that a cell names and that aren't there."""
    for is_case, name in re.findall(r"(\*)?`(\w+)`", re.sub(r"the law .*", "", cell)):
        is_there = glob.glob(f"{TOP}/conformance/cases/{name}.*") if is_case else any(is_in(code_of(it), name) for it in TESTS)
        if not is_there:
            yield f"there is no {'case' if is_case else 'test'} {name}"


def called(text):
    """What the table of calls names that isn't there."""
    if not any(rows(text, CALLS)):
        yield f"there is no table {CALLS}"
    for call, clause, definition, wrong, test in rows(text, CALLS):
        names = [re.split(r"\W+", it)[-1] for it in TICKED.findall(call) if it not in libraries()]
        known = set().union(*(clauses()[it] for it in names))
        wanted = [it for it in TICKED.findall(clause) if it.islower() and it not in known]
        yield from (f"{call.strip()} has no clause {it}" for it in wanted if it not in clauses()[it])
        stated = [] if " of std" in definition else [re.split(r"\W+", it)[-1] for it in TICKED.findall(definition)]
        yield from (f"no crate defines {it}" for it in stated if not any(is_defined(crate, it) for crate in libraries()))
        yield from (f"{call.strip()}: {it}" for it in [*wrong_bodies(wrong), *tests(test)])


def toolchain(text):
    """Whether the page names another toolchain than the one that is here."""
    here = subprocess.run(["rt", "version"], stdout=subprocess.PIPE, text=True, check=True).stdout.strip()
    said = re.search(r"`rt version`: ([^)]*)\)", text)
    return [] if said and said[1] == here else [f"the toolchain here is {here}"]


def faults():
    """What the pages name that isn't there, by page."""
    found = {page: list(missing_files(read(f"{TOP}/{page}"))) for page in PAGES}
    found["docs/ARCHITECTURE.md"] += house(read(f"{TOP}/docs/ARCHITECTURE.md"))
    for page, bytes_at_most in AT_MOST.items():
        found[page] += [f"it has more than {bytes_at_most} bytes"] * (os.path.getsize(f"{TOP}/{page}") > bytes_at_most)
    page = read(f"{TOP}/docs/PROVED.md")
    found["docs/PROVED.md"] += [*proved(page), *called(page), *toolchain(page)]
    return found
