"""What a reader must believe: the definitions that public promises and theorems are stated by.

Usage: specs.py            prints the table of README.md: each such file, and how many lines it has
       specs.py check      says whether README.md has this table, and whether no promise rests on a file that follows the code

A file of definitions that follow the code step by step says so in its first line. No other file of definitions may name one of
these, nor take a definition from proofs/, nor may a clause of a public function name one. Each export of pualirqiq_c has the
parameters and the clauses of the function of pualirqiq that has its name.
"""
import pathlib
import re
import sys

ROOT = pathlib.Path(__file__).resolve().parent.parent
STEPS = "-- No public promise is stated by these definitions: they follow the code step by step."
USE = re.compile(r"use Rattle\.(\w+)\.specs\.(\w+)(?:\.\{([^}]*)\}| as ([^\s;]+))?")


def files():
    found = sorted(ROOT.glob("crates/*/specs/*.antt"))
    return [f for f in found if f.name != "Lib.antt"]


def crate(f):
    return f.relative_to(ROOT).parts[1]


def is_steps(f):
    return f.read_text().split("\n", 1)[0] == STEPS


def order():
    lines = (ROOT / "crates.txt").read_text().splitlines()
    return [line.split(":")[0].split()[0] for line in lines if ":" in line and not line.startswith("#")]


def table():
    rows = ["| File | Lines |", "|---|---|"]
    total = 0
    rank = order()
    for f in sorted(files(), key=lambda f: (rank.index(crate(f)), f.name)):
        if not is_steps(f):
            n = len(f.read_text().splitlines())
            total += n
            rows.append(f"| `{f.relative_to(ROOT)}` | {n} |")
    return rows + [f"| all | {total} |"]


# The names that a file takes from definitions that follow the code; every name of a file that is taken whole.
def taken(text, steps):
    names = set()
    for c, module, listed, alias in USE.findall(text):
        if (c, module) in steps:
            names |= set(re.split(r",\s*", listed)) if listed else {alias or module}
    return names


def public_clauses(text):
    for m in re.finditer(r"(?m)^ *pub (?:extern \"C\" )?fn (\w+)", text):
        body = text.index("\n{", m.end()) if "\n{" in text[m.end() :] else len(text)
        inner = text.find("\n    {", m.end())
        yield m.group(1), text[m.end() : min(body, inner if inner >= 0 else body)]


# The parameters and clauses of a crate's public functions, by name.
def promises(name):
    text = (ROOT / "crates" / name / "src/lib.rt").read_text()
    return {function: re.sub(r"\s", "", clauses).replace(",)", ")") for function, clauses in public_clauses(text)}


def faults():
    steps = {(crate(f), f.stem) for f in files() if is_steps(f)}
    for f in files():
        if not is_steps(f) and taken(f.read_text(), steps):
            yield f"{f.relative_to(ROOT)} names definitions that follow the code"
        if set(re.findall(r"use Rattle\.(\w+)\.proofs\b", f.read_text())) & set(order()):
            yield f"{f.relative_to(ROOT)} takes a definition from proofs/"
    for f in sorted(ROOT.glob("crates/*/src/*.rt")):
        names = taken(f.read_text(), steps)
        for function, clauses in public_clauses(f.read_text()):
            cited = names & set(re.findall(r"[^\s(){}.,]+", clauses))
            if cited:
                yield f"{f.relative_to(ROOT)}: the promise of {function} names {', '.join(sorted(cited))}"
    library, exports = promises("pualirqiq"), promises("pualirqiq_c")
    for function in sorted(library.keys() | exports.keys()):
        if library.get(function) != exports.get(function):
            yield f"pualirqiq_c: {function} is not promised as in pualirqiq"
    if "\n".join(table()) not in (ROOT / "README.md").read_text():
        yield "README.md has another table of definitions"


def main():
    if sys.argv[1:] != ["check"]:
        print("\n".join(table()))
        return 0
    found = list(faults())
    for fault in found:
        print(f"specs: {fault}")
    print(f"specs: {len(table()) - 3} files of definitions to believe, {len(found)} faults")
    return 1 if found else 0


sys.exit(main())
