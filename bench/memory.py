#!/usr/bin/env python3
"""Tells how much memory `cryptyc` takes at most on files that ask for much of it.

Each file but the first has some 16 million bytes of one form over and over: what a stranger may send. Files are checked,
narrations told and benches judged, and one file is printed. Usage:
bench/memory.py [--program FILE] [--explain FILE] [--only WORD] [--most BYTES]. With --explain it is the program FILE that is
measured, `cryptyc_explain`, on the files and on some that break off at their end. Without --program it takes the proved
object crates/cryptyc/out/cryptyc.o and links it statically, as a package does; a program that is linked otherwise takes half
a megabyte more, for the loader and the whole C library. It prints a row of a Markdown table for each file: its bytes, the
most memory that the program took at a time, and that for each byte of the file. The status is 1 where a large file takes
more than --most bytes a byte. It needs gcc; the memory is that which Linux tells (`ru_maxrss`)."""

import argparse
import os
import subprocess
import sys
import tempfile

from check import ROOT
from families import sessions

SIZE = 16_000_000
FREE = "free a;\nprocess "
TYPE = "type a = Un;\nprocess "


def times(unit, size=SIZE):
    return unit * (size // len(unit))


def tuple_of(unit):
    return f"{FREE}out a ({times(unit)}a); stop\n"


def fields(unit):
    return f"{TYPE}new (x: ({times(unit)}a)); stop\n"


def doubled(leaf, join):
    """Leaves joined in pairs, level by level, as many as fit."""
    whole = leaf
    while 2 * len(whole) + 8 < SIZE:
        whole = join(whole, whole)
    return whole


def message(join):
    return f"{FREE}out a {doubled('a', join)}; stop\n"


def annotation(join):
    return f"{TYPE}new (x: {doubled('a', join)}); stop\n"


def groups(leaf):
    return doubled(leaf, lambda p, q: f"({p}|{q})")


FILES = {
    "500 handshakes": (lambda: sessions(500), 0),
    "blanks": (lambda: f"process {times(' ')}stop\n", 0),
    "parentheses": (lambda: f"process out {times('(')}", 2),
    "one tuple of names": (lambda: tuple_of("a,"), 2),
    "one tuple of `()`": (lambda: tuple_of("(),"), 2),
    "one tuple of pairs": (lambda: tuple_of("(a,a),"), 2),
    "one tuple of tuples of three": (lambda: tuple_of("(a,a,a),"), 2),
    "one tuple of tuples of four": (lambda: tuple_of("(a,a,a,a),"), 2),
    "one tuple of tuples of five": (lambda: tuple_of("(a,a,a,a,a),"), 2),
    "one tuple of ciphertexts": (lambda: tuple_of("{a}a,"), 2),
    "one tuple of `inl a`": (lambda: tuple_of("inl a,"), 2),
    "pairs in pairs": (lambda: message(lambda m, n: f"({m},{n})"), 2),
    "tuples of three in one another": (lambda: message(lambda m, n: f"({m},{n},a)"), 2),
    "tuples of four in one another": (lambda: message(lambda m, n: f"({m},{n},a,a)"), 2),
    "ciphertexts in ciphertexts": (lambda: message(lambda m, n: "{" + m + "}" + n), 2),
    "sums in sums": (lambda: annotation(lambda t, u: f"({t}+{u})"), 2),
    "pair types in pair types": (lambda: annotation(lambda t, u: f"(x:{t},{u})"), 2),
    "pair types with both names": (lambda: annotation(lambda t, u: f"(x:{t},y:{u})"), 2),
    "types of three in one another": (lambda: annotation(lambda t, u: f"(x:{t},y:{u},a)"), 2),
    "one tuple type of names": (lambda: fields("x:a,"), 2),
    "one tuple type of `Key(a)`": (lambda: fields("x:Key(a),"), 2),
    "one tuple type of `Nonce []`": (lambda: fields("x:Nonce[],"), 2),
    "one tuple type of `Nonce [end x]`": (lambda: fields("x:Nonce[end x],"), 2),
    "one effect": (lambda: f"{TYPE}new (x: Nonce [{times('end(),')}end ()]); stop\n", 2),
    "`stop` in groups": (lambda: f"process {groups('stop')}\n", 2),
    "`out a a` in groups": (lambda: f"{FREE}{groups('out a a')}\n", 2),
    "`out {a}a {a}a` in groups": (lambda: f"{FREE}{groups('out{a}a{a}a')}\n", 2),
    "`out () ()` in groups": (lambda: f"process {groups('out()()')}\n", 2),
    "`end a; stop` in groups": (lambda: f"{FREE}{groups('end a;stop')}\n", 2),
    "`new (x: Un); stop` in groups": (lambda: f"process {groups('new(x:Un);stop')}\n", 2),
    "`split` in groups": (lambda: f"{FREE}{groups('split a is(x:Un,y:Un);stop')}\n", 2),
    "`match` in groups": (lambda: f"{FREE}{groups('match a is(x:Un=a,y:Un);stop')}\n", 2),
    "`case` in groups": (lambda: f"{FREE}{groups('case a is inl(x:Un);stop is inr(y:Un);stop')}\n", 2),
    "one declaration of names": (lambda: f"free {times('a,')}a; process stop\n", 2),
    "declarations of one name": (lambda: f"{times('free a;')}process stop\n", 2),
    "declared types": (lambda: f"{times('type a=Un;')}process stop\n", 2),
    "steps": (lambda: f"process stop schedule {times('act 1;')}\n", 2),
    "uses of a rule with two premises": (lambda: "process stop derivation "
                                         + doubled("MsgUnit ", lambda d, e: "MsgPair " + d + e) + "\n", 0),
    "uses of a rule with one premise": (lambda: "process stop derivation " + doubled(
        "MsgInl MsgInr MsgUnit ", lambda d, e: "MsgPair " + d + e) + "\n", 0),
    "written effects": (lambda: "process stop derivation ProcSub["
                        + times("end#0,") + "end#0] ProcStop\n", 0),
}


def lines(line):
    return f"roles A;{times(line)}"


def told(front):
    return f"{front}roles A;A:begin ();"


def names():
    """Names, all different and most of them short, as many as fit."""
    letters = [chr(code) for code in (*range(65, 91), *range(97, 123))]
    whole = [a + b + c + d for a in letters for b in letters for c in letters for d in letters]
    return ",".join(whole[:SIZE // 5])


NARRATIONS = {
    "parentheses in a narration": (lambda: f"roles A;A:end {times('(')}", 2),
    "lines `A:end();`": (lambda: lines("A:end();"), 2),
    "lines `A:new(x:Un);`": (lambda: lines("A:new(x:Un);"), 2),
    "lines that pass a message": (lambda: lines("A to A on c:a as x;"), 2),
    "roles": (lambda: f"roles A{times(',A')};", 2),
    "one declaration of names in a narration": (lambda: told(f"free {times('a,')}a;"), 2),
    "declarations of one name in a narration": (lambda: told(times("free a;")), 2),
    "different names": (lambda: told(f"free {names()};"), 2),
    "one tuple of names in a line": (lambda: f"free a;roles A;A:end ({times('a,')}a);", 2),
    "pair types in a shared name": (lambda: told(f"type a=Un;shared x:{doubled('a', lambda t, u: f'(x:{t},{u})')};"), 2),
    "one tuple type in a shared name": (lambda: told(f"type a=Un;shared x:({times('x:a,')}a);"), 2),
}

BENCHES = {
    "parentheses in a bench": (lambda: f"put A{{out {times('(')}", 2),
    "parts": (lambda: times("put A{stop}"), 2),
    "parts that are dropped": (lambda: times("drop A;"), 2),
    "shared names": (lambda: times("shared k:();"), 2),
    "one declaration of names in a bench": (lambda: f"free {times('a,')}a;drop A;", 2),
    "pairs in pairs in a part": (lambda: f"free a;put A{{out a {doubled('a', lambda m, n: f'({m},{n})')}}}", 2),
    "`out () ()` in groups in a part": (lambda: f"put A{{{groups('out()()')}}}", 2),
    "one tuple type in a bench": (lambda: f"type a=Un;shared x:({times('x:a,')}a);", 2),
}

PRINTED = {"uses of a rule with one premise, printed": (lambda: FILES["uses of a rule with one premise"][0](), 0)}

BROKEN = {f"{name}, and a fault behind it": (lambda name=name: FILES[name][0]() + "(", 2)
          for name in ("one tuple of names", "pairs in pairs", "one declaration of names")}

ALL = [("check", FILES), ("narrate", NARRATIONS), ("bench", BENCHES), ("print", PRINTED)]
EXPLAINED = [("explain", FILES), ("explain", BROKEN)]


def linked(room):
    """The proved object, linked as in a package."""
    kit = os.path.dirname(os.path.dirname(os.path.realpath(subprocess.check_output(["which", "rt"], text=True).strip())))
    program = f"{room}/cryptyc"
    subprocess.run(["gcc", "-static", "-o", program, f"{ROOT}/crates/cryptyc/out/cryptyc.o",
                    f"{kit}/c/libos_c.a", f"{kit}/c/liblibc_c.a"], check=True)
    return program


def measured(room, program, command, name, text, wanted):
    """Prints the row of a file, and gives how much memory it takes for each of its bytes, or 0 of a small file."""
    with open(f"{room}/file", "w", encoding="ascii") as file:
        file.write(text)
    ran = subprocess.run([f"{room}/peak", f"{room}/file", program, command], capture_output=True, text=True)
    if ran.returncode:
        sys.exit(f"{program} can't be run")
    status, kilobytes = map(int, ran.stdout.split())
    if status != wanted:
        sys.exit(f"{name}: status {status}, wanted {wanted}")
    memory = kilobytes * 1024
    print(f"| {name} | `{command}` | {len(text):,} | {memory / 1e6:.1f} MB | {memory / len(text):.1f} |", flush=True)
    return memory / len(text) if len(text) > 1_000_000 else 0


def main():
    parser = argparse.ArgumentParser(description=__doc__, formatter_class=argparse.RawDescriptionHelpFormatter)
    parser.add_argument("--program")
    parser.add_argument("--explain")
    parser.add_argument("--only", default="")
    parser.add_argument("--most", type=float, default=20)
    given = parser.parse_args()
    over_most = False
    with tempfile.TemporaryDirectory() as room:
        named = given.explain or given.program
        program = os.path.abspath(named) if named else linked(room)
        subprocess.run(["gcc", "-O1", "-static", "-o", f"{room}/peak", f"{ROOT}/bench/peak.c"], check=True)
        print("| File | Command | Bytes | Memory | Bytes a byte of the file |\n|---|---|---|---|---|")
        for command, files in EXPLAINED if given.explain else ALL:
            for name, (made, wanted) in files.items():
                if given.only in name:
                    over_most |= measured(room, program, command, name, made(), wanted) > given.most
    return over_most


if __name__ == "__main__":
    sys.exit(main())
