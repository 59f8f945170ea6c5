#!/usr/bin/env python3
"""Runs the program on the cases of tests/cases/*.jsonl, and compares what it writes and its status.

A case is a JSON object on a line: `shows` (what it shows), `words` (the command line), its standard input as `input`
(text), `input_file` (a file of the repository), `input_base64`, or `input_parts` (pairs of a text and how often it
stands; a third member is a mark in the text, in whose place each copy has its number, from 0 on, in as many digits),
`output` (what is written, and without it the usage line) and `status`. What `knows` writes of a known name is free but
for its first line: such a case has `first` in place of `output`, and tests/knowledge.py checks the lines behind it. Each
file of examples/reasons is a case too: its first line is a comment with the line that `check` writes. Each case runs on
each `--program FILE`; without one it runs on the build without proofs that tools/keep.py keeps. A program that hasn't
ended after ten seconds has failed its case. The one that Rattle's own compiler makes (its name ends in .by-rattle) gets
16 MB of stack: processes nested 500 deep take up to 8 there.
The last line is 'N passed, M failed'."""

import argparse
import base64
import glob
import json
import os
import re
import subprocess
import sys
from concurrent.futures import ThreadPoolExecutor

from knowledge import is_certified

ROOT = os.path.dirname(os.path.dirname(os.path.abspath(__file__)))
LIMIT = 10  # seconds


def usage():
    """The line for words that are no command, from the program's source."""
    with open(f"{ROOT}/crates/spi_commands/src/words.rt", encoding="utf-8") as source:
        return re.search(r'b"(usage: [^"]*)\\n"', source.read())[1] + "\n"


def cases_of(pattern):
    line_of_usage = usage()
    for path in sorted(glob.glob(f"{ROOT}/tests/cases/{pattern}")):
        with open(path, encoding="utf-8") as lines:
            for line in lines:
                yield {"output": line_of_usage, **json.loads(line)}
    for path in sorted(glob.glob(f"{ROOT}/examples/reasons/*.spi")) if pattern == "*.jsonl" else []:
        with open(path, encoding="utf-8") as file:
            wanted = file.readline().removeprefix("// ")
        yield {"shows": f"the example {os.path.basename(path)}", "words": ["check"], "input_file": os.path.relpath(path, ROOT),
               "output": wanted, "status": 1}


def copies(text, times, mark=""):
    """A text so many times, each with its number in the place of the mark."""
    if not mark:
        return text.encode() * times
    return "".join(text.replace(mark, f"{number:0{len(mark)}}") for number in range(times)).encode()


def input_of(case):
    if "input_base64" in case:
        return base64.b64decode(case["input_base64"])
    if "input_parts" in case:
        return b"".join(copies(*part) for part in case["input_parts"])
    if "input_file" in case:
        with open(f"{ROOT}/{case['input_file']}", "rb") as file:
            return file.read()
    return case.get("input", "").encode()


def starting(program):
    """The words that start a program."""
    larger = ["sh", "-c", 'ulimit -S -s 16384 && exec "$0" "$@"'] if program.endswith(".by-rattle") else []
    return [*larger, program]


def is_wanted(program, case, output):
    """Whether the output is as wanted."""
    if "first" not in case:
        return output == case["output"].encode()
    canonical = subprocess.run([*starting(program), "print"], input=input_of(case), capture_output=True, timeout=LIMIT).stdout
    return output.startswith(case["first"].encode()) and is_certified(canonical.decode(), int(case["words"][1]), output.decode())


def run_case(program, case):
    """The status, and whether the output is as wanted."""
    try:
        run = subprocess.run([*starting(program), *case["words"]], input=input_of(case), capture_output=True, timeout=LIMIT)
    except subprocess.TimeoutExpired:
        return f"none after {LIMIT} s", False
    return run.returncode, is_wanted(program, case, run.stdout)


def kept():
    """The build without proofs, which is made where it isn't there."""
    made = subprocess.run([f"{ROOT}/tools/keep.py", "cryptyc"], stdout=subprocess.PIPE, text=True)
    if made.returncode:
        sys.exit("there is no program to run")
    return made.stdout.strip()


def main():
    words = argparse.ArgumentParser()
    words.add_argument("--program", action="append", default=[])
    words.add_argument("--cases", default="*.jsonl")
    asked = words.parse_args()
    cases = list(cases_of(asked.cases))
    passed = failed = 0
    for program in asked.program or [kept()]:
        with ThreadPoolExecutor(os.cpu_count()) as pool:
            results = list(pool.map(lambda case, program=program: run_case(program, case), cases))
        for case, (status, same) in zip(cases, results):
            if same and status == case["status"]:
                passed += 1
            else:
                failed += 1
                print(f"case: {case['shows']}: status {status}, wanted {case['status']}; output {'as wanted' if same else 'differs'}")
    print(f"{passed} passed, {failed} failed")
    return 1 if failed or not cases else 0


if __name__ == "__main__":
    sys.exit(main())
