#!/usr/bin/env python3
"""Runs what the documents show: the fenced blocks of README.md, docs/*.md and protocols/README.md.

A block with the info string `spi NAME` is a file of that name. A block with the info string `console` has commands,
each on a line that starts with '$ ', and behind each the lines that it writes, on standard output or standard error.
All other blocks are left alone. The blocks of a document are run in their order in one temporary folder, which has
copies of examples/ and protocols/ and where ./cryptyc is the program; `$ echo $?` shows the status of the command
before it. Each command is a test, and so is that some command of the document names the file of each `spi` block.
A row of a table that begins with a link to an .spi file has what `check` answers to that file in its second cell, and
that is a test too; and so is that all wrong files of such a folder have a row (NAME.mended.spi is no wrong file).
That each link to a file of the repository leads to one, and to a heading of it where it names one, is a test too.
`--program FILE`, once or more often, gives the programs. A command may take ten seconds.
That docs/reports.md quotes the usage line is a test too. The last line is 'N passed, M failed'."""

import argparse
import glob
import itertools
import os
import re
import shutil
import signal
import subprocess
import sys
import tempfile

from run import usage

ROOT = os.path.dirname(os.path.dirname(os.path.abspath(__file__)))
SECONDS = 10
FENCE = "```"
ROW = re.compile(r"\| \[[^]]+\]\(([^)]+\.spi)\) \| `([^`]*)` \|")


def documents():
    paths = [f"{ROOT}/README.md", *sorted(glob.glob(f"{ROOT}/docs/*.md")), f"{ROOT}/protocols/README.md"]
    return [path for path in paths if os.path.exists(path)]


def blocks_of(path):
    """The fenced blocks of a document: the words of the info string, the number of the first line, and the lines."""
    words, first, lines = None, 0, []
    with open(path, encoding="utf-8") as file:
        for number, line in enumerate(file.read().split("\n"), 1):
            if line.startswith(FENCE) and words is None:
                words, first, lines = line.removeprefix(FENCE).split(), number + 1, []
            elif line.startswith(FENCE):
                yield words, first, lines
                words = None
            elif words is not None:
                lines.append(line)
    if words is not None:
        yield ["unclosed"], first - 1, []


def commands_of(first, lines):
    """The commands of a console block, each with the number of its line and the text that it is to write."""
    commands = []
    for number, line in enumerate(lines, first):
        if line.startswith("$ "):
            commands.append((number, line.removeprefix("$ "), []))
        elif commands:
            commands[-1][2].append(line + "\n")
    return [(number, command, "".join(wanted)) for number, command, wanted in commands]


def run_command(folder, command, status):
    """What a command writes and its status, after a command with the given status; or None where it takes too long."""
    # in a session of its own, so that whatever the command has started ends with it
    running = subprocess.Popen(["bash", "-c", f"(exit {status})\n{command}"], cwd=folder, stdin=subprocess.DEVNULL,
                               stdout=subprocess.PIPE, stderr=subprocess.STDOUT, start_new_session=True)
    try:
        written, _ = running.communicate(timeout=SECONDS)
    except subprocess.TimeoutExpired:
        os.killpg(running.pid, signal.SIGKILL)
        running.communicate()
        return None
    return written.decode(errors="replace"), running.returncode


def rows_of(path):
    """The rows that begin with a link to an .spi file: the number of the line, the file, and the answer."""
    with open(path, encoding="utf-8") as file:
        for number, line in enumerate(file, 1):
            if row := ROW.match(line):
                yield number, os.path.normpath(f"{os.path.dirname(path)}/{row[1]}"), row[2]


def row_results(path, program):
    """For each test of the rows of a document None where it passes, and else the number of its line and what is wrong."""
    listed = {}
    for number, file, wanted in rows_of(path):
        listed[file] = number
        found = "no file"
        if os.path.exists(file):
            with open(file, "rb") as given:
                ran = subprocess.run([program, "check"], stdin=given, capture_output=True, timeout=SECONDS)
            found = ran.stdout.decode(errors="replace").rstrip("\n")
        yield None if found == wanted else (number, f"check answers '{found}' to {os.path.basename(file)}, not '{wanted}'")
    for folder in {os.path.dirname(file) for file in listed}:
        for file in sorted(glob.glob(f"{folder}/*.spi")):
            if not file.endswith(".mended.spi"):
                yield None if file in listed else (1, f"{os.path.basename(file)} has no row")


def prepare(folder, program):
    """Puts the program and the files of the repository into the folder."""
    with open(f"{folder}/cryptyc", "w", encoding="utf-8") as file:
        file.write(f"#!/usr/bin/env bash\nexec '{os.path.abspath(program)}' \"$@\"\n")
    os.chmod(f"{folder}/cryptyc", 0o755)
    for name in ["examples", "protocols"]:
        if os.path.isdir(f"{ROOT}/{name}"):
            shutil.copytree(f"{ROOT}/{name}", f"{folder}/{name}")


def results_of(path, program):
    """For each test of a document None where it passes, and else the number of its line and what is wrong."""
    named, commands = [], []
    with tempfile.TemporaryDirectory(prefix="cryptyc-documents-") as folder:
        prepare(folder, program)
        status = 0
        for words, first, lines in blocks_of(path):
            if words == ["unclosed"]:
                yield first, "the block isn't closed"
            elif words[:1] == ["spi"] and len(words) == 2:
                named.append((first, words[1]))
                with open(f"{folder}/{words[1]}", "w", encoding="utf-8") as file:
                    file.write("".join(line + "\n" for line in lines))
            elif words == ["console"]:
                if not lines[:1] or not lines[0].startswith("$ "):
                    yield first, "the block doesn't start with a command"
                for number, command, wanted in commands_of(first, lines):
                    commands.append(command)
                    found = run_command(folder, command, status)
                    if found is None:
                        status = 124
                        yield number, f"'{command}' takes more than {SECONDS} seconds"
                    else:
                        written, status = found
                        wrong = f"'{command}' writes {written!r}, wanted {wanted!r}"
                        yield None if written == wanted else (number, wrong)
    for first, name in named:
        yield None if any(name in command for command in commands) else (first, f"no command names {name}")


def text_of(path):
    """The lines of a document, empty in the place of fenced ones."""
    inside, lines = False, []
    with open(path, encoding="utf-8") as file:
        for line in file.read().split("\n"):
            fence = line.startswith(FENCE)
            lines.append("" if inside or fence else line)
            inside ^= fence
    return lines


def anchors_of(path):
    """What a link may name of a document: its headings in small letters, with hyphens and without other marks."""
    headings = [line.lstrip("# ").lower() for line in text_of(path) if line.startswith("#")]
    return {re.sub(r"[^\w -]", "", re.sub(r"\]\([^)]*\)", "", heading)).replace(" ", "-") for heading in headings}


def link_results(path):
    """For each link of a document None where it leads somewhere, and else the number of its line and what is wrong."""
    for number, line in enumerate(text_of(path), 1):
        for target in re.findall(r"\]\(([^)\s]+)\)", line):
            name, _, anchor = target.partition("#")
            file = os.path.normpath(f"{os.path.dirname(path)}/{name}") if name else path
            if re.match(r"\w+:", target):
                continue
            if not os.path.exists(file):
                yield number, f"the link leads to no file: {target}"
            elif anchor and file.endswith(".md") and anchor not in anchors_of(file):
                yield number, f"the link leads to no heading: {target}"
            else:
                yield None


def quotes_usage():
    """Whether the table of reports has the usage line, where a bar is written behind a backslash."""
    with open(f"{ROOT}/docs/reports.md", encoding="utf-8") as file:
        return "`" + usage().rstrip("\n").replace("|", "\\|") + "`" in file.read()


def main():
    words = argparse.ArgumentParser()
    words.add_argument("--program", action="append", required=True)
    asked = words.parse_args()
    passed, failed = (1, 0) if quotes_usage() else (0, 1)
    if failed:
        print("docs/reports.md doesn't quote the usage line")
    for path in documents():
        runs = [it(path, program) for program in asked.program for it in (results_of, row_results)]
        for wrong in itertools.chain(link_results(path), *runs):
            if wrong is None:
                passed += 1
            else:
                failed += 1
                print(f"{os.path.relpath(path, ROOT)}:{wrong[0]}: {wrong[1]}")
    print(f"{passed} passed, {failed} failed")
    return 1 if failed or not passed else 0


sys.exit(main())
