#!/usr/bin/env python3
"""Runs cryptyc_explain on the wrong files of this repository, and holds its answers to those of check and to docs/explain.md.

The files are those of examples/reasons/ and examples/mistakes/, and the flawed.spi and protocol.spi of each protocol. On
each, the first line and the status are those of `check`, by default and with --lines; then each other line is
`FROM-TO KIND: TEXT` or `KIND: TEXT`, and its offsets stand in the file. A row of the table of docs/explain.md is
`| [NAME](FILE) | `answer` | `phrase` | .. |`, and the phrase stands in the explanation; more phrases stand below. A block of
that document or of docs/trace.md with the info string `explained WORDS` or `mermaid WORDS` has what the program writes with
these words, exactly. `--program
FILE` is a cryptyc to run check with, `--explain FILE` a cryptyc_explain; the default of both is the build without proofs
(tools/keep.py). With `--write` the blocks are written. A run has 10 seconds. The last line is 'N passed, M failed'."""

import argparse
import glob
import os
import re
import subprocess
import sys

ROOT = os.path.dirname(os.path.dirname(os.path.abspath(__file__)))
DOCUMENTS = [f"{ROOT}/docs/explain.md", f"{ROOT}/docs/trace.md"]
SECONDS = 10
LINE = re.compile(r"(?:(\d+)-(\d+) )?(wrong|also|note|help): .+")
ROW = re.compile(r"\| \[[^]]+\]\(\.\./([^)]+\.spi)\) \| `([^`]*)` \| (`+) ?(.+?) ?\3 \|")

PHRASES = {
    "examples/reasons/40_channel_not_un.spi": "`k` stands in the place of the channel",
    "examples/reasons/41_datum_not_un.spi": "a key is secret: send it under another key",
    "examples/reasons/42_bad_type.spi": "what comes in is of type `Un`",
    "examples/reasons/43_wrong_scrutinee.spi": "`a` is of type `Un`, and `(x: (), Un)` is wanted",
    "examples/reasons/44_wrong_key.spi": "`a` is of type `Un`, and `Key(())` is wanted",
    "examples/reasons/45_not_a_nonce.spi": "`k` is neither a nonce by its type nor of type `Un`",
    "examples/reasons/46_not_a_label.spi": "in `{k}k`: `k` takes `Un`; `k` is of type `Key(Un)`",
    "examples/reasons/47_not_generative.spi": "make a nonce by `new (n: Un)`",
    "examples/reasons/48_body_has_effect.spi": "put the `begin` behind the `repeat`",
    "examples/reasons/49_effect_escapes.spi": "it speaks of `x`, bound here",
    "examples/reasons/50_unpaid.spi": "nothing pays for `end a`",
    "examples/reasons/51_wrong_first.spi": "`k` isn't of the type that is written for the first part",
    "examples/reasons/52_bad_cast.spi": "a `cast` is to a Nonce type or to `Un`",
    "protocols/carlsen/flawed.spi": "a nonce is good for one `check`",
    "protocols/ksl/flawed.spi": "`nb` is of type `Un`, and `Nonce [end (b, (a, nb))]` is wanted",
    "protocols/andrew_ban/flawed.spi": "in `{(b, (a, kab))}book`: `book` takes",
    "protocols/andrew_secure_rpc/flawed.spi": "this `begin` in front is for another label: `(a, (b, nb))`",
    "protocols/broadcast/flawed.spi": "this `cast` needs it",
    "protocols/wide_mouthed_frog/flawed.spi": "it speaks of `a` and `kab`, bound here",
    "protocols/otway_rees_abadi_needham/flawed.spi": "this `check` in front pays for `[end (s, (a, kab))]`",
    "protocols/needham_schroeder_signature/flawed.spi": "this `endmany` needs it",
}


def files():
    paths = [
        *sorted(glob.glob(f"{ROOT}/examples/reasons/*.spi")),
        *sorted(glob.glob(f"{ROOT}/examples/mistakes/*.spi")),
        *sorted(glob.glob(f"{ROOT}/protocols/*/flawed.spi")),
        *sorted(glob.glob(f"{ROOT}/protocols/*/protocol.spi")),
    ]
    return [os.path.relpath(path, ROOT) for path in paths]


def kept(name):
    ran = subprocess.run([f"{ROOT}/tools/keep.py", name], capture_output=True, text=True)
    if ran.returncode:
        sys.exit(f"there is no {name}: {ran.stderr[-400:]}")
    return ran.stdout.strip()


def run(program, words, data=b""):
    """What the program writes in the repository's folder, and its status; None where it takes too long."""
    try:
        ended = subprocess.run([program, *words], input=data, capture_output=True, timeout=SECONDS, cwd=ROOT)
    except subprocess.TimeoutExpired:
        return b"", None
    return ended.stdout, ended.returncode


class Tests:
    def __init__(self):
        self.passed = self.failed = 0

    def hold(self, what, is_so):
        if is_so:
            self.passed += 1
        else:
            self.failed += 1
            print(f"FAILED {what}")


def lines_are_right(output, size):
    """Each line behind the first is a finding, and stands in the file."""
    for line in output.decode().splitlines()[1:]:
        found = LINE.fullmatch(line)
        if not found or (found[1] and not int(found[1]) <= int(found[2]) <= size + 1):
            return False
    return True


def test_file(tests, check, explain, path):
    with open(f"{ROOT}/{path}", "rb") as file:
        data = file.read()
    answer = run(check, ["check"], data)
    text, status = run(explain, [], data)
    named = run(explain, ["explain", path])
    lines, lines_status = run(explain, ["--lines"], data)
    tests.hold(f"{path}: the first line and the status", (text[: text.find(b"\n") + 1], status) == answer)
    tests.hold(f"{path}: the same by its name", named == (text, status))
    tests.hold(f"{path}: --lines", (lines[: lines.find(b"\n") + 1], lines_status) == answer and lines_are_right(lines, len(data)))
    tests.hold(f"{path}: there is an explanation", len(text.splitlines()) > 2)
    return text.decode()


def blocks(document):
    """The blocks `explained WORDS` and `mermaid WORDS`: where the text begins and ends, and the words."""
    block = r"^```(?:explained|mermaid) (.*)\n((?:(?!```).*\n)*)```$"
    return [(m.start(2), m.end(2), m[1].split()) for m in re.finditer(block, document, re.M)]


def test_document(tests, explain, path, write):
    """Holds the blocks of a document to the program, or writes them."""
    with open(path, encoding="utf-8") as file:
        document = file.read()
    for start, end, asked in reversed(blocks(document)):
        output = run(explain, asked)[0].decode()
        if write:
            document = document[:start] + output + document[end:]
        else:
            tests.hold(f"{os.path.relpath(path, ROOT)}: {' '.join(asked)}", document[start:end] == output)
    if write:
        with open(path, "w", encoding="utf-8") as file:
            file.write(document)


def main():
    words = argparse.ArgumentParser(description=__doc__)
    words.add_argument("--program")
    words.add_argument("--explain")
    words.add_argument("--write", action="store_true")
    given = words.parse_args()
    check = given.program or kept("cryptyc")
    explain = given.explain or kept("cryptyc_explain")
    tests = Tests()
    with open(DOCUMENTS[0], encoding="utf-8") as file:
        document = file.read()
    phrases = dict(PHRASES)
    rows = [(m[1], m[4]) for m in ROW.finditer(document)]
    tests.hold("docs/explain.md has a table", len(rows) >= 20)
    explained = {path: test_file(tests, check, explain, path) for path in files()}
    for path, phrase in [*phrases.items(), *rows]:
        tests.hold(f"{path}: {phrase}", phrase in explained.get(path, ""))
    for path in DOCUMENTS:
        test_document(tests, explain, path, given.write)
    for asked, status, phrase in [
        (["--help"], 0, b"--lines"),
        (["--version"], 0, b"cryptyc_explain"),
        (["--color", "often"], 6, b"usage: "),
        (["a.spi", "b.spi"], 6, b"usage: "),
        (["trace", "--help"], 0, b"--chart"),
        (["trace", "--version"], 0, b"cryptyc_explain"),
        (["trace", "--lines"], 6, b"usage: "),
        (["--chart"], 6, b"usage: "),
        (["trace", "a.spi", "b.spi"], 6, b"usage: "),
        (["--color", "always", "examples/reasons/50_unpaid.spi"], 1, b"\x1b["),
    ]:
        output, ended = run(explain, asked)
        tests.hold(" ".join(asked), ended == status and phrase in output)
    for asked, name in [(["no_such_file.spi"], "no_such_file.spi"), (["trace", "no_such_file.spi"], "no_such_file.spi"),
                        (["explain", "docs"], "docs"), (["trace", "--chart", "docs"], "docs")]:
        ended = subprocess.run([explain, *asked], capture_output=True, timeout=SECONDS, cwd=ROOT)
        said = f"cryptyc_explain: {name} can't be read\n".encode()
        tests.hold(" ".join(asked), (ended.returncode, ended.stdout, ended.stderr) == (74, b"", said))
    for name, data in [("a byte order mark", b"\xef\xbb\xbfprocess stop"), ("no UTF-8", b"process \xff"), ("nothing", b""),
                       ("tabs and wide letters", "free a;\tprocess new (密: Key(Un));\tout 密 a".encode())]:
        text, status = run(explain, [], data)
        tests.hold(name, (text[: text.find(b"\n") + 1], status) == run(check, ["check"], data))
    for size in (65_536, 65_537):
        text, status = run(explain, [], b"process stop )".ljust(size))
        tests.hold(f"what could stand in {size} bytes", status == 2 and (b"here could stand: " in text) == (size == 65_536))
    print(f"{tests.passed} passed, {tests.failed} failed")
    return tests.failed != 0


if __name__ == "__main__":
    sys.exit(main())
