#!/usr/bin/env python3
"""Times `cryptyc check` on files that a slow inference would be quadratic on, and on the same files doubled.

Usage: bench/check.py [--program FILE] [--runs N] [--only WORD]. Without --program it takes the proved build,
crates/cryptyc/out/cryptyc. It prints a line for each workload: bytes, the best time of the smaller and of the doubled
file, and how much longer the doubled one takes. The times hold reading, parsing and resolving too.
"""

import argparse
import os
import subprocess
import sys
import time

ROOT = os.path.dirname(os.path.dirname(os.path.abspath(__file__)))

HANDSHAKE = """new (k: Key(Msg)); (
  inp net (q: Un); new (m: Un); begin (a, b, m);
  cast q is (p: Nonce [end (a, b, m)]); out net {(m, p)}k
| new (n: Un); out net n; inp net (c: Un);
  decrypt c is {x: Msg}k; split x is (m: Un, p: Nonce [end (a, b, m)]);
  check n is p; end (a, b, m); stop)"""


def sessions(count):
    """So many handshakes beside one another, in balanced groups."""
    def beside(n):
        if n == 1:
            return HANDSHAKE
        first = (n + 1) // 2
        return f"{grouped(first)} | {grouped(n - first)}"

    def grouped(n):
        return HANDSHAKE if n == 1 else f"({beside(n)})"

    return f"free a, b, net;\ntype Msg = (m: Un, n: Nonce [end (a, b, m)]);\nprocess {beside(count)}\n"


def names(count):
    return ", ".join(f"n{i}" for i in range(count))


def balanced(parts):
    if len(parts) == 1:
        return parts[0]
    half = (len(parts) + 1) // 2
    return f"({balanced(parts[:half])} | {balanced(parts[half:])})"


def comb(parts, depth):
    """Groups nested to the right, each beside an equal share of the parts."""
    share = (len(parts) + depth - 1) // depth
    shares = [balanced(parts[i:i + share]) for i in range(0, len(parts), share)]
    whole = shares[-1]
    for part in reversed(shares[:-1]):
        whole = f"({part} | {whole})"
    return whole


def ends(count):
    return [f"end n{i}; stop" for i in range(count)]


def ends_balanced(count):
    """Ends with different labels, under a binder."""
    return f"free {names(count)};\nprocess new (x: Un); {balanced(ends(count))}\n"


def ends_comb(count):
    return f"free {names(count)};\nprocess new (x: Un); {comb(ends(count), 240)}\n"


def spine(count):
    """460 binders over many ends."""
    binders = "".join(f"inp n{i} (x{i}: Un); " for i in range(460))
    return f"free {names(count)};\nprocess {binders}{balanced(ends(count))}\n"


def chains(count):
    """Chains of 480 forms, begins and their ends."""
    chain = [f"begin n{i}; " for i in range(240)] + [f"end n{i}; " for i in range(240)]
    return f"free {names(240)};\nprocess {balanced([''.join(chain) + 'stop'] * count)}\n"


def checks(count):
    """A nonce type of 250 atoms, checked many times."""
    atoms = ", ".join(f"end n{i}" for i in range(250))
    return (f"free {names(250)};\ntype T = Nonce [{atoms}];\nprocess inp n0 (q: Un); new (m: Un); "
            f"cast q is (p: T); {balanced(['check m is p; stop'] * count)}\n")


def matches(count):
    """A message of 199 nodes put into a type of 975, many times."""
    message = "n0"
    for i in range(99):
        message = f"(n{i % 30}, {message})"
    atoms = ", ".join(f"end (x, n{i})" for i in range(240))
    parts = [f"match q is (x: Un = {message}, y: Nonce [{atoms}]); stop"] * count
    return (f"free {names(240)};\ntype T = (x: Un, Nonce [{atoms}]);\n"
            f"process new (k: Key(T)); inp n0 (c: Un); decrypt c is {{q: T}}k; {balanced(parts)}\n")


WORKLOADS = [
    ("sessions", sessions, 250),
    ("ends in balanced groups", ends_balanced, 9500),
    ("ends in a comb of groups", ends_comb, 9500),
    ("a spine over ends", spine, 5500),
    ("chains of begins and ends", chains, 40),
    ("a nonce type checked", checks, 8500),
    ("matches with large terms", matches, 40),
]


def timed(program, text, runs):
    best, said = None, None
    for _ in range(runs):
        before = time.perf_counter()
        run = subprocess.run([program, "check"], input=text.encode(), capture_output=True)
        spent = time.perf_counter() - before
        best = spent if best is None or spent < best else best
        said = run.stdout.decode(errors="replace").strip() or f"status {run.returncode}"
    return best, said


def options():
    """The options that each bench has."""
    words = argparse.ArgumentParser()
    words.add_argument("--program", default=f"{ROOT}/crates/cryptyc/out/cryptyc")
    words.add_argument("--runs", type=int, default=3)
    words.add_argument("--only", default="")
    return words


def stop_without(program):
    if not os.path.exists(program):
        sys.exit(f"{program} isn't there: 'cd crates/cryptyc && rt run' makes it")


def main():
    asked = options().parse_args()
    stop_without(asked.program)
    for name, make, size in WORKLOADS:
        if asked.only not in name:
            continue
        small, large = make(size), make(2 * size)
        once, said = timed(asked.program, small, asked.runs)
        twice, said_twice = timed(asked.program, large, asked.runs)
        print(f"{name}: {size} and {2 * size}, {len(large)} bytes: {once:.3f} s and {twice:.3f} s, "
              f"{twice / once:.1f} times; {said}; {said_twice}", flush=True)


if __name__ == "__main__":
    main()
