#!/usr/bin/env python3
"""wrap.py [--check] CRATE ..: breaks the lines of clauses and definitions that are longer than 110 columns.

A line is broken in front of an arrow, a product, a sum or another operator, as far out of the parentheses as may be; where
there is none, between two arguments. What is behind the break is indented by four columns more than the first line. Nothing
but blanks and line ends changes, which is tested. Imports, comments and code stay as they are: rt fmt lays out the code.

--check changes nothing, and ends with the status 1 where a line is too long."""

import argparse
import glob
import os
import re
import sys

ROOT = os.path.dirname(os.path.dirname(os.path.abspath(__file__)))
WIDTH = 110
# what a line may be broken in front of, the best first
OPERATORS = ("→", "×", "⊎", "↔", "∷", "++", "⨾", "≡", "≤", "<", "+")
OPENS, CLOSES = "([{", ")]}"
CLAUSE = re.compile(r"\s*(pub )?(ghost )?(ensures|requires|invariant|measure)\b")
KEEPS = re.compile(r"\s*(pub |ghost )*(use|mod)\b|\s*(//|--)")


def places(line, indent):
    """The places at which a line may be broken, each with how deep in parentheses it stands and how good it is."""
    found, depth, quoted, at = [], 0, False, indent
    while at < len(line):
        c = line[at]
        if c == '"':
            quoted = not quoted
        elif not quoted and c in OPENS:
            depth += 1
        elif not quoted and c in CLOSES:
            depth -= 1
        elif not quoted and c == " " and at > indent:
            found.append((at, depth, rank(line, at)))
        at += 1
    return found


def rank(line, at):
    """How good it is to break at this blank: 0 in front of an arrow and behind the equals sign of a definition, more elsewhere."""
    behind = line[at + 1 :]
    for number, operator in enumerate(OPERATORS):
        if behind.startswith(operator + " "):
            return number
    before = line[:at]
    if before.endswith(" ="):
        return 1
    if before.endswith((" :", "λ", ".", *(" " + it for it in OPERATORS))) or behind.startswith((": ", "= ", "}", ")")):
        return None
    if re.search(r"(ensures|requires|invariant|abbrev|pub|let|in|where|data|record|module)( \w+)?( \{)?$", before):
        return None
    return len(OPERATORS)


def broken(line):
    """The lines into which a line is broken."""
    indent = len(line) - len(line.lstrip())
    text = line.strip()
    goes_on = indent > 0 and text.startswith((*OPERATORS, "("))
    behind = indent if goes_on else indent + 4
    lines = []
    while len(line) > WIDTH:
        start = len(line) - len(line.lstrip())
        fits = [it for it in places(line, start) if it[2] is not None and start + 12 < it[0] <= WIDTH]
        if not fits:
            break
        least = min(it[1] for it in fits)
        fits = [it for it in fits if it[1] == least]
        best = min(it[2] for it in fits)
        at = max(it[0] for it in fits if it[2] == best)
        lines.append(line[:at].rstrip())
        line = " " * behind + line[at + 1 :].lstrip()
    return [*lines, line]


def in_clauses(lines):
    """Whether each line of a file of code stands in a clause."""
    told, depth = [], 0
    for line in lines:
        if depth == 0 and not CLAUSE.match(line):
            told.append(False)
            continue
        plain = re.sub(r'"[^"]*"', "", line)
        depth += plain.count("{") - plain.count("}")
        told.append(True)
    return told


def wrapped(path, text):
    lines = text.split("\n")
    is_code = path.endswith(".rt")
    clauses = in_clauses(lines) if is_code else [True] * len(lines)
    made = []
    for line, in_clause in zip(lines, clauses):
        made += broken(line) if in_clause and len(line) > WIDTH and not KEEPS.match(line) else [line]
    return "\n".join(made)


def bare(text):
    """A text without blanks."""
    return re.sub(r"\s+", "", text)


def main():
    words = argparse.ArgumentParser()
    words.add_argument("--check", action="store_true")
    words.add_argument("crates", nargs="+")
    asked = words.parse_args()
    count = left = 0
    for crate in asked.crates:
        for path in sorted(glob.glob(f"{ROOT}/crates/{crate}/src/**/*.rt", recursive=True) + glob.glob(f"{ROOT}/crates/{crate}/specs/*.antt")):
            with open(path, encoding="utf-8") as file:
                text = file.read()
            new = wrapped(path, text)
            if bare(new) != bare(text):
                sys.exit(f"{path}: more than blanks would change")
            for number, line in enumerate(new.split("\n"), 1):
                if len(line) > WIDTH and not KEEPS.match(line) and (path.endswith(".antt") or CLAUSE.match(line)):
                    left += 1
                    print(f"{os.path.relpath(path, ROOT)}:{number}: {len(line)} columns")
            count += new != text
            if not asked.check and new != text:
                with open(path, "w", encoding="utf-8") as file:
                    file.write(new)
    print(f"{count} files {'would change' if asked.check else 'changed'}, {left} lines are left")
    sys.exit(1 if asked.check and (count or left) else 0)


if __name__ == "__main__":
    main()
