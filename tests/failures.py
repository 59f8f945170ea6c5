#!/usr/bin/env python3
"""Holds docs/failures.md to the crates: each public call that may fail stands in a row, and each clause that a row names is
one of that call's contract.

A call may fail where its answer is a Result or a Status. It's public where its crate's lib.rt names it again, or the type or
trait that it belongs to, or has it in a public module. A row has the crate, the calls, what they end with, what stands then,
and the clauses: their names, or 'the one clause', or 'none'. `--list` prints the calls that may fail, with the names of their
clauses. The last line is 'N passed, M failed'."""

import glob
import os
import re
import sys

ROOT = os.path.dirname(os.path.dirname(os.path.abspath(__file__)))
PAGE = f"{ROOT}/docs/failures.md"
TESTS = {"spi_examples", "spi_run_examples"}  # crates of examples, which nothing calls
ONE, NONE = "the one clause", "none"


def read(path):
    with open(path, encoding="utf-8") as file:
        return file.read()


def named_again(text):
    """The names that a lib.rt says again, each with the module that it's from."""
    parts = re.findall(r"^pub use (\w+)::([^;]*);", text, re.M)
    return {(module, name) for module, names in parts for name in re.findall(r"\w+", names)}


def calls_in(text):
    """The calls of a file: the type or trait, the name, the signature up to its contract, and its clauses."""
    found = re.finditer(r"^(?:pub )?(?:impl|trait)\b[^{;]*\{|^\}|^ *(?:pub )?fn (\w+)", text, re.M)
    owner, is_trait = None, False
    for it in found:
        if it[1] is None:
            names = re.sub(r"<[^<>]*>", "", re.sub(r"<[^<>]*>", "", it[0]))
            inside = re.search(r"(\w+)\s*(?:: [\w +]+)?\{$", names)
            owner, is_trait = (inside[1] if inside else None), bool(re.match(r"(?:pub )?trait", it[0]))
            continue
        contract = re.match(r".*?(?=\n *\{\n|\n *\}\n|;\n\n|;\n *\}|\Z)", text[it.start():], re.S)[0]
        head = re.split(r"\n *(?:requires|ensures|//)|\{\n", contract)[0]
        clauses = re.findall(r"\n *ensures (\w*) *\{", contract)
        yield owner, is_trait, it[1], head, clauses, it[0].lstrip().startswith("pub")


def result_names():
    """The public names that libraries give to a Result."""
    texts = map(read, glob.glob(f"{ROOT}/crates/*/src/**/*.rt", recursive=True))
    return sorted({name for text in texts for name in re.findall(r"^pub type (\w+)(?:<[^=]*>)? = Result<", text, re.M)})


def public_calls(crate):
    """The public calls of a crate that may fail, with the names of their clauses; '' is one without a name."""
    lib = read(f"{ROOT}/crates/{crate}/src/lib.rt")
    again, open_modules = named_again(lib), {"lib", *re.findall(r"^pub mod (\w+);", lib, re.M)}
    types = {name for _, name in again}
    # (a public name for a Result, as an answer's type, is one)
    answers = "|".join(["Result<", r"Status\b", *[rf"{name}\b" for name in result_names()]])
    for path in sorted(glob.glob(f"{ROOT}/crates/{crate}/src/**/*.rt", recursive=True)):
        module = os.path.basename(path).removesuffix(".rt")
        for owner, is_trait, name, head, clauses, is_pub in calls_in(read(path)):
            is_open = module in open_modules or (owner in types if owner else (module, name) in again)
            if is_open and (is_pub or is_trait) and re.search(rf"-> .*\b({answers})", head, re.S):
                yield (f"{owner}::{name}" if owner else name), clauses


def crates():
    return sorted(os.path.basename(os.path.dirname(os.path.dirname(path)))
                  for path in glob.glob(f"{ROOT}/crates/*/src/lib.rt"))


def rows():
    """The rows of the page: the crate, the calls and the clauses."""
    for line in read(PAGE).splitlines():
        cells = [cell.strip() for cell in line.strip().strip("|").split("|")]
        if line.startswith("| spi_") and len(cells) == 5:
            yield cells[0], re.findall(r"`([\w:]+)`", cells[1]), cells[4]


def cases(calls):
    """What is tested: a text, and whether it holds."""
    told = set()
    for crate, names, clauses in rows():
        for name in names:
            told.add((crate, name))
            known = calls.get((crate, name))
            yield f"{crate}: {name} is no public call that may fail", known is not None
            if known is None or clauses == NONE:
                continue
            if clauses == ONE:
                yield f"{crate}: {name} hasn't one clause alone, but {known}", known == [""]
                continue
            for clause in re.findall(r"`(\w+)`", clauses):
                yield f"{crate}: {name} has no clause {clause}, but {known}", clause in known
            yield f"{crate}: the row of {name} names no clause", bool(re.findall(r"`(\w+)`", clauses))
    for crate, name in calls:
        yield f"{crate}: {name} may fail, and stands in no row", (crate, name) in told


def main():
    calls = {(crate, name): clauses for crate in crates() if crate not in TESTS for name, clauses in public_calls(crate)}
    if sys.argv[1:] == ["--list"]:
        for (crate, name), clauses in calls.items():
            print(f"{crate} {name}: {', '.join(it or '(no name)' for it in clauses)}")
        return 0
    results = list(cases(calls))
    for shows, holds in results:
        if not holds:
            print(shows)
    failed = sum(not holds for _, holds in results)
    print(f"{len(results) - failed} passed, {failed} failed")
    return 1 if failed else 0


sys.exit(main())
