#!/usr/bin/env python3
"""Runs `check` on each prefix of the nonce handshake, a file of 350 bytes.

The first 349 bytes and all 350 are a whole file: the answer is yes. Each shorter prefix is refused by 20 Syntax, and by
nothing else. A prefix that ends within a reserved word, of which a plain word is left then, is refused at that word, where
no word may stand; `Un`, `Key` and `Nonce` stand where one may. Each other one is refused at its end, where the file could
go on. `--program FILE`, once or more often, is a program to run; without one it's the build without proofs that
tools/keep.py keeps. The last line is 'N passed, M failed'. The status is 70 where this script couldn't do its work."""

import argparse
import os
import re
import subprocess
from concurrent.futures import ThreadPoolExecutor

from given import HANDSHAKE, end_with, kept

SECONDS = 10
RESERVED = set("free type process new inp begin cast is end out decrypt split check stop".split())
WHOLE = len(HANDSHAKE) - 1  # without its last line feed


def wanted(length):
    """The answer to the prefix of so many bytes, and its status."""
    if length >= WHOLE:
        return b"yes\n", 0
    at = length
    for word in re.finditer(r"\w+", HANDSHAKE):
        if word.start() < length < word.end() and word[0] in RESERVED:
            at = word.start()
    line, column = HANDSHAKE.count("\n", 0, at) + 1, at - HANDSHAKE.rfind("\n", 0, at)
    return f"refused: 20 Syntax at {line}:{column}\n".encode(), 2


def answer(program, length):
    ran = subprocess.run([program, "check"], input=HANDSHAKE[:length].encode(), capture_output=True, timeout=SECONDS)
    return ran.stdout, ran.returncode


def main():
    words = argparse.ArgumentParser()
    words.add_argument("--program", action="append", default=[])
    passed = failed = 0
    lengths = range(len(HANDSHAKE) + 1)
    for program in words.parse_args().program or [kept()]:
        with ThreadPoolExecutor(os.cpu_count()) as pool:
            answers = list(pool.map(lambda length, program=program: answer(program, length), lengths))
        for length, found in zip(lengths, answers):
            if found == wanted(length):
                passed += 1
            else:
                failed += 1
                print(f"the first {length} bytes: {found}, wanted {wanted(length)}")
    print(f"{passed} passed, {failed} failed")
    return 1 if failed else 0


if __name__ == "__main__":
    end_with(main)
