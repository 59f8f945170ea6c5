#!/usr/bin/env python3
"""Where a construct of the calculus stands: the files of each crate that speak of `endmany`, as a table.

  tests/constructs.py           prints the table
  tests/constructs.py --write   writes it into docs/architecture.md, between its marks
  tests/constructs.py --check   fails where docs/architecture.md has another table
"""
import os
import re
import sys

ROOT = os.path.dirname(os.path.dirname(os.path.realpath(__file__)))
DOCUMENT = f"{ROOT}/docs/architecture.md"
FROM, TO = "<!-- constructs.py writes from here -->\n", "<!-- to here -->\n"
WORD = re.compile(r"end_?many", re.I)
WHAT = {
    "spi_lex": "the word, among the reserved words of its version",
    "spi_tree": "the form with its places: its node, the tokens it is written with, when it is formed",
    "spi_parse": "its row in the grammar table, the token it begins with, its reader",
    "spi_scope": "what it stands for, what it counts, where its faults are",
    "spi_term": "the form: its constructor, names, substitution, node",
    "spi_rules": "its typing rule, its use in derivations, when it blocks",
    "spi_run": "its step and its event, whether an opponent may have it, when its event is paid",
    "spi_opponent": "whether an opponent may have it, decided",
    "spi_sound": "its case of the balance argument",
    "spi_message": "what each form asks of the messages and types written in it",
    "spi_infer": "its least effect, what is asked of its parts, what is kept of it",
    "spi_fault": "its checks, in order",
    "spi_deriv": "its uses in the canonical derivation",
    "spi_audit": "what its use asks, and what that does to effects",
    "spi_trace": "which begin pays for it",
    "spi_replay": "what a place waits for that has it in front, and its step",
    "spi_play": "a case of a proof",
    "spi_show": "how it is written",
    "spi_spell": "that what is written is read back",
    "spi_report": "the line of its event",
    "spi_commands": "the events that a command prints, the words that `upgrade` respells",
    "spi_heading": "a case of a proof",
    "spi_narrate": "its row in the grammar of narrations, its reader",
    "spi_weave": "the tree that it becomes",
    "spi_origin": "that it adds an atom",
    "spi_honest": "its event in an honest run",
    "spi_bench": "a case of a proof",
    "spi_workbench": "its case of the part that stands behind the shared names",
    "spi_explain": "the premises of its rule",
    "spi_examples": "a test",
}


def crates():
    with open(f"{ROOT}/crates.txt", encoding="utf-8") as it:
        return re.findall(r"^(\w+):", it.read(), re.M)


def speaking(crate, part):
    """Returns the files of a crate's folder that speak of the construct, without their endings."""
    top, found = f"{ROOT}/crates/{crate}/{part}", []
    for at, _, names in os.walk(top):
        for name in names:
            if name.endswith((".rt", ".antt")):
                with open(f"{at}/{name}", encoding="utf-8") as it:
                    if WORD.search(it.read()):
                        found.append(os.path.splitext(os.path.relpath(f"{at}/{name}", top))[0])
    return sorted(found)


def table():
    rows = ["| Crate | What is written there | In `specs/` | In `src/` | Files of `proofs/` |", "|---|---|---|---|---|"]
    for crate in crates():
        parts = [speaking(crate, part) for part in ("specs", "src", "proofs")]
        if any(parts):
            lists = [", ".join(f"`{it}`" for it in part) or "-" for part in parts[:2]]
            rows.append(f"| {crate} | {WHAT.get(crate, '')} | {lists[0]} | {lists[1]} | {len(parts[2]) or '-'} |")
    return "\n".join(rows) + "\n"


def main(words):
    made = table()
    if not words:
        print(made, end="")
        return 0
    with open(DOCUMENT, encoding="utf-8") as it:
        text = it.read()
    before, rest = text.split(FROM)
    held, after = rest.split(TO)
    if words == ["--write"]:
        with open(DOCUMENT, "w", encoding="utf-8") as it:
            it.write(before + FROM + made + TO + after)
        return 0
    if words == ["--check"]:
        rows = made.splitlines()[2:]
        missing = [it for it in rows if it not in held.splitlines()] + [it for it in held.splitlines()[2:] if it not in rows]
        for row in missing:
            print(f"docs/architecture.md: not the same: {row}")
        print(f"{len([it for it in rows if it not in missing])} passed, {len(missing)} failed")
        return 1 if missing else 0
    print(__doc__, file=sys.stderr)
    return 2


if __name__ == "__main__":
    sys.exit(main(sys.argv[1:]))
