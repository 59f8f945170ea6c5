#!/usr/bin/env python3
"""Refuses memory, reads and writes to the program, one call after another, and looks what it then answers.

Each command runs on a small file of its kind. tests/faults.c, which the kit's compiler builds and which is loaded before
the program, counts its calls, and refuses or shortens those that are asked for. So for each command, and for each number
N up to the number of calls that it makes:

- allocation N is refused, or N and all behind it: the run has its answer all the same, or no memory (status 5) with
  nothing written;
- read N fails, or N and all behind it, as a fault of the device or as a call that was interrupted: nothing is written,
  status 3;
- write N fails likewise: what is written is a prefix of the answer, status 4;
- read or write N takes a single byte, or N and all behind it: the answer;
- with single bytes all along, read N fails: nothing is written, status 3; write N fails: the first N - 1 bytes, status 4.

And it runs with streams of the system's own that fail: a folder, a full device, a pipe that nobody reads, closed ones.

It prints a table of how many runs had which end. `--write` puts the table into docs/promises.md. `--program FILE` is the
program to run; without one it's the build without proofs that tools/keep.py keeps. It takes a minute or two. The last line
is 'N passed, M failed'. The status is 1 where a test failed, and 70 where this script couldn't do its work."""

import argparse
import os
import shutil
import subprocess
import tempfile

from given import HANDSHAKE, ROOT, end_with, kept

PAGE = f"{ROOT}/docs/promises.md"
MARKS = ("<!-- memory.py writes from here -->", "<!-- to here -->")
SECONDS = 20
READ_FAULT, WRITE_FAULT, NO_MEMORY = 3, 4, 5
DEVICE, INTERRUPTED = "5", "4"

TOLD = """free a, b, net;
shared k: Key((m: Un, n: Nonce [end (a, b, m)]));
roles A, B;
B: new (n: Un);
B to A on net: n as q;
A: new (m: Un);
A: begin (a, b, m);
A: cast q is (p: Nonce [end (a, b, m)]);
A to B on net: {(m, p)}k as c;
B: decrypt c is {x: (m: Un, n: Nonce [end (a, b, m)])}k;
B: split x is (m: Un, p: Nonce [end (a, b, m)]);
B: check n is p;
B: end (a, b, m);
"""
HONEST = """opponent stop
schedule act 0; act 0; act 2; act 2; talk 2 0; act 0; act 0; act 0; talk 0 3; act 3; act 3; act 3; act 3;
"""
TWO_BEGINS = "free a; process begin a; begin a; stop opponent stop"
LEAK = "free a; process new (k: Key(Un)); out a k opponent inp a (x: Un); stop schedule act 0; talk 0 1;"
BENCH = """free a, net; shared k: Key(Un); put A { out net {a}k } put B { end a; stop } drop B; put B { out net k }
put B { inp net (x: Un); stop }"""
RESERVED = "free hash, many, endmany; process new (x: Un); out hash (many, endmany, x) | inp hash (y: Un); stop"

# What runs: its title, the words, and the text of the file, where one is read. A command that comes to the program (of
# narrations, of many edits) gets its line here.
RUNS = [
    ("`check`, the handshake", ["check"], HANDSHAKE),
    ("`check`, the handshake without its check", ["check"], HANDSHAKE.replace("check n is p; ", "")),
    ("`check`, the handshake cut off", ["check"], HANDSHAKE[:300]),
    ("`derive`, the handshake", ["derive"], HANDSHAKE),
    ("`verify`, the handshake with its derivation", ["verify"], None),
    ("`replay`, the handshake with its honest run", ["replay"], HANDSHAKE + HONEST),
    ("`knows 3`, the handshake with its honest run", ["knows", "3"], HANDSHAKE + HONEST),
    ("`knows 1`, a key that is sent", ["knows", "1"], LEAK),
    ("`bench`, five edits", ["bench"], BENCH),
    ("`play --steps 9`, two begins", ["play", "--steps", "9"], TWO_BEGINS),
    ("`play --steps 40`, the handshake", ["play", "--steps", "40"], HANDSHAKE + "opponent stop"),
    ("`print`, the handshake with its honest run", ["print"], HANDSHAKE + HONEST),
    ("`upgrade`, names that version 2 reserves", ["upgrade"], RESERVED),
    ("`load 3`", ["load", "3"], ""),
    ("`narrate`, the handshake", ["narrate"], TOLD),
    ("`narrate`, a line that isn't ready", ["narrate"], TOLD.replace("check n is", "check k is")),
    ("words that are no command", ["check", "now"], ""),
]


class Program:
    """The program with the library of faults in front of it."""

    def __init__(self, path, library, room):
        self.path, self.library, self.file = path, library, f"{room}/file"

    def give(self, text):
        """Sets the file that the next runs read."""
        with open(self.file, "w", encoding="utf-8") as file:
            file.write(text)

    def run(self, words, **faults):
        """What it writes, its status (None where it doesn't end), and what it says on standard error."""
        setting = {**os.environ, "LD_PRELOAD": self.library, **{name: str(value) for name, value in faults.items()}}
        with open(self.file, "rb") as given:
            try:
                ran = subprocess.run([self.path, *words], stdin=given, capture_output=True, env=setting, timeout=SECONDS,
                                     close_fds=False)
            except subprocess.TimeoutExpired:
                return b"", None, b""
        return ran.stdout, ran.returncode, ran.stderr

    def counts(self, words):
        """The answer, its status, and how many allocations, reads and writes it takes."""
        written, status, said = self.run(words, COUNT_TO=2)
        allocations, reads, writes = map(int, said.split()[-3:])
        return written, status, allocations, reads, writes


def later(every):
    return {"FAULT_LATER": 1} if every else {}


class Held:
    """The runs of one command: those that were as they should be are counted by their end, the others are told."""

    def __init__(self, program, title, words):
        self.program, self.title, self.words = program, title, words
        self.answer, self.status, self.allocations, self.reads, self.writes = program.counts(words)
        self.ends, self.failed = {}, 0

    def passed(self):
        return sum(self.ends.values())

    def ran(self, kind, shows, allowed, **faults):
        """Runs with these faults. `allowed` gives for what was written and the status the name of that end, or None."""
        written, status, said = self.program.run(self.words, **faults)
        end = allowed(written, status) if not said else None
        if end is None:
            self.failed += 1
            print(f"{self.title}: {shows}: status {status}, {len(written)} bytes written, said {said[-200:]!r}")
        else:
            self.ends[kind, end] = self.ends.get((kind, end), 0) + 1

    def is_answer(self, written, status):
        return "answer" if (written, status) == (self.answer, self.status) else None

    def of_memory(self, written, status):
        return "no memory" if (written, status) == (b"", NO_MEMORY) else self.is_answer(written, status)

    def of_read(self, written, status):
        return "failed" if (written, status) == (b"", READ_FAULT) else None

    def of_write(self, written, status):
        return "failed" if status == WRITE_FAULT and self.answer.startswith(written) and written != self.answer else None

    def refuse_memory(self):
        for every in (False, True):
            for at in range(1, self.allocations + 1):
                self.ran(("memory", every), f"allocation {at}{' and all behind it' * every} refused", self.of_memory,
                         FAULT_IN="allocation", FAULT_AT=at, **later(every))

    def fail(self, kind, calls, allowed):
        for every in (False, True):
            for error in (DEVICE, INTERRUPTED):
                for at in range(1, calls + 1):
                    self.ran(kind, f"{kind} {at}{' and all behind it' * every} failed, error {error}", allowed, FAULT_IN=kind,
                             FAULT_AT=at, FAULT_ERROR=error, **later(every))

    def shorten(self, kind, calls):
        for every in (False, True):
            for at in range(1, calls + 1):
                self.ran(f"short {kind}", f"{kind} {at}{' and all behind it' * every} of a single byte", self.is_answer,
                         SHORT_IN=kind, SHORT_AT=at, **({"SHORT_LATER": 1} if every else {}))

    def in_single_bytes(self, kind, calls, allowed):
        """Each call takes a byte, and one fails: of `calls` calls each once, and then none."""
        single = {"SHORT_IN": kind, "SHORT_AT": 1, "SHORT_LATER": 1}
        for at in range(1, calls + 1):
            self.ran(f"single {kind}", f"{kind} {at} failed, with single bytes", lambda written, status, at=at:
                     allowed(written, status) if kind == "read" or len(written) == at - 1 else None,
                     FAULT_IN=kind, FAULT_AT=at, **single)
        self.ran(f"single {kind}", f"no {kind} failed, with single bytes", self.is_answer, **single)

    def all(self, length):
        self.refuse_memory()
        self.fail("read", self.reads, self.of_read)
        self.fail("write", self.writes, self.of_write)
        self.shorten("read", self.reads)
        self.shorten("write", self.writes)
        if self.reads:
            self.in_single_bytes("read", length + 1, self.of_read)
        self.in_single_bytes("write", len(self.answer), self.of_write)

    def row(self):
        def number(kind, end):
            return self.ends.get((kind, end), 0)

        once, on = ("memory", False), ("memory", True)
        cells = [self.title, self.allocations, number(once, "no memory"), number(once, "answer"), number(on, "no memory"),
                 number(on, "answer"), number("read", "failed") + number("single read", "failed"),
                 number("write", "failed") + number("single write", "failed"),
                 sum(number(f"{how} {kind}", "answer") for how in ("short", "single") for kind in ("read", "write"))]
        return "| " + " | ".join(map(str, cells)) + " |"


HEAD = """| Command and file | Allocations | One refused: no memory | the answer | All from one on: no memory | the answer \
| Failed reads | Failed writes | Short ones |
|---|---|---|---|---|---|---|---|---|"""


def of_streams(program, words, reads):
    """Runs with streams of the system's own that fail: the name of each, whether it's as it should be, and the status."""
    folder, full = os.open("/", os.O_RDONLY), os.open("/dev/full", os.O_WRONLY)
    reading, broken = os.pipe()
    os.close(reading)
    ends = [
        ("a folder to read", READ_FAULT, {"stdin": folder}),
        ("a closed standard input", READ_FAULT, {"stdin": subprocess.DEVNULL, "preexec_fn": lambda: os.close(0)}),
        ("a full device to write", WRITE_FAULT, {"stdout": full}),
        ("a pipe that nobody reads", WRITE_FAULT, {"stdout": broken}),
        ("a closed standard output", WRITE_FAULT, {"stdout": subprocess.DEVNULL, "preexec_fn": lambda: os.close(1)}),
    ]
    for name, wanted, streams in ends if reads else ends[2:]:
        with open(program.file, "rb") as given:
            streams = {"stdin": given, "stdout": subprocess.PIPE, "stderr": subprocess.PIPE, **streams}
            ran = subprocess.run([program.path, *words], **streams, timeout=SECONDS)
        yield name, ran.returncode == wanted and not ran.stdout and not ran.stderr, ran.returncode
    for descriptor in (folder, full, broken):
        os.close(descriptor)


def library_of(room):
    """Builds tests/faults.c by the kit's compiler, and gives the path of the library."""
    rt = shutil.which("rt")
    if not rt:
        raise OSError("the toolchain isn't there: no 'rt' is on the PATH")
    tools = f"{os.path.dirname(os.path.dirname(os.path.realpath(rt)))}/toolchain/bin"
    subprocess.run([f"{tools}/clang", "-std=c11", "-Wall", "-Wextra", "-Werror", "-O1", "-fPIC", "-c", f"{ROOT}/tests/faults.c",
                    "-o", f"{room}/faults.o"], check=True)
    subprocess.run([f"{tools}/ld.lld", "-shared", "-o", f"{room}/faults.so", f"{room}/faults.o"], check=True)
    return f"{room}/faults.so"


def text_of(program, text):
    """A run's file; where none is given it's the handshake with the derivation that the program prints."""
    if text is not None:
        return text
    program.give(HANDSHAKE)
    return f"{HANDSHAKE}\n{program.run(['derive'])[0].decode()}"


def write_table(table):
    with open(PAGE, encoding="utf-8") as file:
        page = file.read()
    before, rest = page.split(MARKS[0])
    with open(PAGE, "w", encoding="utf-8") as file:
        file.write(f"{before}{MARKS[0]}\n{table}\n{MARKS[1]}{rest.split(MARKS[1])[1]}")


def run_all(program):
    """The runs of all commands, and their table."""
    all_held = []
    for title, words, text in RUNS:
        text = text_of(program, text)
        program.give(text)
        held = Held(program, title, words)
        held.all(len(text.encode()))
        for name, holds, status in of_streams(program, words, held.reads):
            if holds:
                held.ends["streams", name] = 1
            else:
                held.failed += 1
                print(f"{title}: {name}: status {status}")
        all_held.append(held)
    return all_held, "\n".join([HEAD, *(held.row() for held in all_held)])


def main():
    words = argparse.ArgumentParser()
    words.add_argument("--program")
    words.add_argument("--write", action="store_true")
    asked = words.parse_args()
    with tempfile.TemporaryDirectory(prefix="cryptyc-memory-") as room:
        all_held, table = run_all(Program(os.path.abspath(asked.program or kept()), library_of(room), room))
    print(table)
    if asked.write:
        write_table(table)
    failed = sum(held.failed for held in all_held)
    print(f"{sum(held.passed() for held in all_held)} passed, {failed} failed")
    return 1 if failed else 0


if __name__ == "__main__":
    end_with(main)
