#!/usr/bin/env python3
"""Counts the instructions of cryptyc on families of files that grow, and sets them beside those of a plain checker.

The plain checker was written for speed, with no proofs and no contracts; what it took stands in bench/families.tsv, a row a
file. Instructions are counted by `valgrind --tool=callgrind`, which counts the same whatever else a machine does. Usage:
bench/families.py [--program FILE] [--only WORD] [--most RATIO]. Without --program it takes the proved build,
crates/cryptyc/out/cryptyc. It prints a row of a Markdown table for each family: its largest file, the file's bytes, the
instructions of both, their ratio, the instructions a byte and a node, and how the instructions grow, as the exponent between
that file and one a quarter as large. The status is 1 where a ratio is above --most."""

import argparse
import csv
import math
import os
import re
import subprocess
import sys
import tempfile

from check import ROOT, balanced, stop_without
from nodes import nodes_of

COUNTS = f"{ROOT}/bench/families.tsv"
MB = 1 << 20

BODY = ("new (v3: Key((v3: Un, Nonce [end (a, b, v3)]))); (inp net (v4: Un); new (v5: Un); begin (a, b, v5); "
        "cast v4 is (v6: Nonce [end (a, b, v5)]); out net {(v5, v6)}v3 | new (v4: Un); out net v4; "
        "inp net (v5: Un); decrypt v5 is {v6: (v6: Un, Nonce [end (a, b, v6)])}v3; "
        "split v6 is (v7: Un, v8: Nonce [end (a, b, v7)]); check v4 is v8; end (a, b, v7); stop)")
RULES = ("ProcNew ProcPar ProcIn MsgName ProcNew ProcBegin ProcCast MsgName ProcOut MsgName MsgEnc MsgPair "
         "MsgName MsgName ProcNew ProcPar ProcOut MsgName MsgName ProcIn MsgName ProcDecrypt MsgName MsgName "
         "ProcSplit MsgName ProcCheck MsgName ProcEnd ProcStop").split()


def beside(parts):
    """The parts in parallel, in balanced groups, of which the outermost has no parentheses."""
    return parts[0] if len(parts) == 1 else balanced(parts)[1:-1]


def over(names, process):
    return f"free {', '.join(names)};\nprocess {process}\n"


def numbered(letter, digits, count):
    return [f"{letter}{i:0{digits}}" for i in range(count)]


def sessions(k):
    return over(["a", "b", "net"], beside([BODY] * k))


def rules(k):
    if k == 1:
        return RULES
    half = (k + 1) // 2
    return ["ProcPar", *rules(half), *rules(k - half)]


def verified(k):
    return sessions(k) + "\nderivation\n" + "\n".join(rules(k)) + "\n"


def ends(names):
    return [f"end {name}; stop" for name in names]


def wide_balanced(n):
    """Ends with labels of their own: the answer is 50 Unpaid."""
    names = numbered("n", 5, n)
    return over(names, beside(ends(names)))


def wide_comb(n):
    """The same in groups of 60, in a chain."""
    names = numbered("n", 5, n)
    parts = ends(names)
    return over(names, " | ".join(f"({' | '.join(parts[i:i + 60])})" for i in range(0, n, 60)))


def spine(n):
    """Ends and begins over a wide group: each node of the spine has a large effect."""
    names = numbered("n", 5, n)
    labels = [f"({names[i]}, {names[-i - 1]})" for i in range(230)]
    forms = "".join(f"end {it}; " for it in labels) + "".join(f"begin {it}; " for it in labels)
    return over(names, f"{forms}({beside(ends(names))})")


def deep(d):
    """80 chains of begins, and then of their ends in another order."""
    names = numbered("n", 3, 256)
    parts = []
    for c in range(80):
        labels = [names[(c + 7 * i) % 256] for i in range(d // 2)]
        parts.append("".join(f"begin {it}; " for it in labels) + "".join(f"end {it}; " for it in sorted(labels)) + "stop")
    return over(names, beside(parts))


def binders(d):
    """30 chains of new names that are cast to and checked."""
    count = d // 3
    forms = [f"begin (a, x{i}); cast a is (p{i}: Nonce [end (a, x{i})]); " if i % 2 else f"new (x{i}: Un); new (x{i + 1}: Un); "
             for i in range(count)]
    checks = [f"check x{i} is p{i}; " for i in range(1, count, 2)]
    return over(["a"], beside(["".join(forms + checks) + "stop"] * 30))


def match_types(n):
    """Types of 1,000 nodes into which a match puts a message of 199 nodes."""
    names = numbered("a", 2, 100)
    nonce = f"Nonce [{', '.join(f'end (x, {names[i % 100]})' for i in range(248))}]"
    parts = []
    for i in range(n):
        message = ", ".join(names[(i + j) % 100] for j in range(100))
        parts.append(f"match w is (x: Un = ({message}), y: {nonce}); new (n: Un); check n is y; stop")
    return over(["c", *names], f"new (k: Key((x: Un, {nonce}))); inp c (e: Un); decrypt e is {{w: (x: Un, {nonce})}}k; "
                               f"({' | '.join(parts)})")


def long_tuples(n):
    """Tuples of 91 parts at one dependent type, checked part by part."""
    names = numbered("a", 2, 100)
    places = ", ".join(f"x{i}" for i in range(90))
    ty = f"({', '.join(f'x{i}: Un' for i in range(90))}, Nonce [end ({places})])"
    label = ", ".join(names[:90])
    parts = [f"out c {{({label}, p)}}k"] * n
    return over(["c", *names], f"new (k: Key({ty})); inp c (q: Un); begin ({label}); "
                               f"cast q is (p: Nonce [end ({label})]); ({' | '.join(parts)})")


def check_large(n):
    """Checks of one large nonce over large effects of other labels."""
    names = numbered("a", 3, 500)
    chain = "check c is z; " * 220 + "".join(f"end {name}; " for name in names[250:490]) + "stop"
    atoms = ", ".join(f"end {name}" for name in names[:250])
    return over(["c", *names], f"inp c (e: Un); cast c is (z: Nonce [{atoms}]); ({beside([chain] * n)} | stop)")


def repeat_many(n):
    """Nested replicated inputs over a wide effect of `many` atoms."""
    names = numbered("n", 5, n)
    parts = [f"endmany {name}; stop" for name in names]
    return "version 2; " + over(names, "repeat inp n00000 (x: Un); " * 450 + f"({beside(parts)})")


def comment(mb):
    return "process stop//" + "x" * (mb * MB - 14)


def comment_utf8(mb):
    return "process stop//" + "\u00e9" * ((mb * MB - 14) // 2)


def comment_lines(mb):
    text = "".join(f"// {i % 10}\n" for i in range((mb * MB - 12) // 5))
    return text[:(mb * MB - 13) // 5 * 5] + "process stop"


def huge_tuple(mb):
    return "free a;\nprocess begin (" + "a," * ((mb * MB - 40) // 2) + "a); stop\n"


def long_names(mb):
    return "free " + ",".join(numbered("n", 157, (mb * MB - 40) // 159)) + ";process stop"


def huge_derivation(mb):
    """A full tree of ProcPar: it is read whole, and the audit stops at once."""
    leaves = 1
    while leaves * 2 * 17 < mb * MB:
        leaves *= 2

    def tree(n):
        return ["ProcStop"] if n == 1 else ["ProcPar", *tree(n // 2), *tree(n // 2)]

    return "process stop derivation " + "\n".join(tree(leaves)) + "\n"


def rounds(process, opponent, n):
    """Rounds of 9 steps and 3 places."""
    steps, at, place = [], 2, 3
    while len(steps) < n - 1:
        steps += [f"talk {at} 1;", f"act {place};", f"talk {place} 0;"] + [f"act {place + 2};"] * 6
        at, place = place + 1, place + 3
    lines = "\n".join(steps[:n - 1])
    return f"free a, b;\nprocess {process}\nopponent {opponent}\nschedule\nact 1;\n{lines}\n"


def schedule(n):
    return rounds("repeat inp a (x: Un); begin (a, x); begin (b, x); begin x; end x; end (a, x); end (b, x); stop",
                  "repeat inp b (y: Un); out a y; out b y | out b (a, (b, a))", n)


def schedule_big(n):
    """The same with messages of 1,000 nodes that are built again at each step."""
    big = f"({', '.join(['x'] * 100)})"
    return rounds("repeat inp a (x: Un); " + f"check {big} is {big}; " * 6 + "stop",
                  "repeat inp b (y: Un); out a y; out b y | out b (a, (b, (a, (b, a))))", n)


FAMILIES = {
    "tiny": ("check", lambda n: "process stop"),
    "sessions-check": ("check", sessions), "sessions-derive": ("derive", sessions), "sessions-verify": ("verify", verified),
    "sessions-print": ("print", sessions), "load": ("load", None), "wide-balanced": ("check", wide_balanced),
    "wide-comb": ("check", wide_comb), "spine": ("check", spine), "deep": ("check", deep), "binders": ("check", binders),
    "match-types": ("check", match_types), "long-tuples": ("check", long_tuples), "check-large": ("check", check_large),
    "repeat-many": ("check", repeat_many), "comment": ("check", comment), "comment-utf8": ("check", comment_utf8),
    "comment-lines": ("check", comment_lines), "huge-tuple": ("check", huge_tuple), "long-names": ("check", long_names),
    "huge-derivation": ("verify", huge_derivation), "schedule": ("replay", schedule),
    "schedule-big": ("replay", schedule_big),
}


def counted(program, family, size):
    """A family's file, and the instructions that the program takes for it."""
    command, make = FAMILIES[family]
    text = make(size) if make else ""
    words = [command] if make else [command, str(size)]
    with tempfile.TemporaryDirectory() as folder:
        run = subprocess.run(["valgrind", "--tool=callgrind", f"--callgrind-out-file={folder}/out", program, *words],
                             input=text.encode(), stdout=subprocess.DEVNULL, stderr=subprocess.PIPE)
    found = re.search(rb"Collected : (\d+)", run.stderr)
    if not found:
        sys.exit(f"{family} {size}: valgrind counted nothing: {run.stderr[-400:].decode(errors='replace')}")
    return text, int(found[1])


def plain_counts():
    """The plain checker's instructions, by family and size."""
    counts = {}
    with open(COUNTS, encoding="utf-8", newline="") as file:
        for row in csv.DictReader(file, delimiter="\t"):
            counts.setdefault(row["family"], {})[int(row["size"])] = int(row["instructions"])
    return counts


def main():
    words = argparse.ArgumentParser()
    words.add_argument("--program", default=f"{ROOT}/crates/cryptyc/out/cryptyc")
    words.add_argument("--only", default="")
    words.add_argument("--most", type=float, default=math.inf)
    asked = words.parse_args()
    stop_without(asked.program)
    start = counted(asked.program, "tiny", 1)[1]
    worst = 0.0
    columns = ("Family", "Size", "Bytes", "Plain", "Cryptyc", "Ratio", "A byte", "A node", "Growth")
    print(f"| {' | '.join(columns)} |\n|{'---|' * len(columns)}")
    for family, plain in plain_counts().items():
        if family == "tiny" or asked.only not in family:
            continue
        large = max(plain)
        small = max((size for size in plain if size * 4 <= large), default=large)
        text, count = counted(asked.program, family, large)
        size, nodes = len(text.encode()), nodes_of(text)
        ratio = count / plain[large]
        worst = max(worst, ratio)
        growth = "-"
        if small != large:
            less = counted(asked.program, family, small)[1]
            growth = f"{math.log((count - start) / (less - start)) / math.log(large / small):.2f}"
        a_byte = f"{count / size:.0f}" if size else "-"
        a_node = f"{count / nodes:.0f}" if nodes > 100 else "-"
        millions = f"{plain[large] / 1e6:.1f}", f"{count / 1e6:.1f}"
        cells = (family, large, f"{size:,}", *millions, f"{ratio:.1f}", a_byte, a_node, growth)
        print(f"| {' | '.join(map(str, cells))} |", flush=True)
    print(f"worst ratio: {worst:.1f}")
    return 1 if worst > asked.most else 0


if __name__ == "__main__":
    sys.exit(main())
