#!/usr/bin/env python3
"""Runs the program on the protocols of protocols/, and holds its answers to the table of protocols/README.md.

A protocol is a folder with `protocol.spi`, which `check` accepts, `flawed.spi`, which it refuses, and mostly
`attack.spi`, whose `replay` ends unpaid. The table has a row for each folder, and its last three columns are the
program's answers: `yes`, the line of the no, and `unpaid at K` or a dash. Beside the answers it's tested that what
`derive` prints for a protocol.spi is verified behind it, that attack.spi has the process of flawed.spi, and that each
file begins with a comment that has the messages and the source.

Where a new key is handed out, there are `run.spi`, an honest run of protocol.spi, and `lost.spi`, one in which a key
gets out. Lines `// replay: ..` and `// knows N: ..` in the comment at their head have what the program answers: for
run.spi that the key is unknown, for lost.spi that it's known. The key is one of which an event of the run speaks.
Without the lines that end with a comment `// lost: ..`, lost.spi has the process of protocol.spi, as run.spi has it.
The table of runs has a row for each such folder.

Where a narration can tell a run, there are `honest.nar`, and `honest.spi`, which is what `narrate` writes of it.
`check` accepts it, and its `replay` is paid. The table of narrations has how many events it has.

`--program FILE`, once or more often, is a program to run; with `--write` the first one's answers are written into the
tables. A run has 10 seconds. The last line is 'N passed, M failed'."""

import argparse
import glob
import itertools
import os
import re
import subprocess
import sys

ROOT = os.path.dirname(os.path.dirname(os.path.abspath(__file__)))
FOLDER = f"{ROOT}/protocols"
TABLE = f"{FOLDER}/README.md"
DASH = "-"
SECONDS = 10
COLUMNS = {"run.spi": 5, "honest.nar": 3}  # of the tables of runs and of narrations


def read(path):
    with open(path, encoding="utf-8") as file:
        return file.read()


def cells_of(line):
    """The cells of a row of the table, or None where the line is no row of a protocol."""
    cells = [cell.strip() for cell in line.strip().strip("|").split("|")]
    return cells if re.match(r"\| *\[[^]]+\]\([^)]+/\)", line) and len(cells) == 7 else None


def name_of(cells):
    return re.match(r"\[[^]]+\]\(([^)]+)/\)", cells[0])[1]


def rows_of(table):
    """The rows of the table, each as the name of its folder and its three answers."""
    rows = [cells for cells in map(cells_of, table.splitlines()) if cells]
    return [(name_of(cells), [cell.strip("`") for cell in cells[-3:]]) for cells in rows]


def row_to(file, line):
    """The folder and the cells of a row that begins with a link to this file of the folder, or None."""
    cells = [cell.strip() for cell in line.strip().strip("|").split("|")]
    found = re.match(rf"\| *\[[^]]+\]\((\w+)/{re.escape(file)}\)", line)
    return (found[1], cells) if found and len(cells) == COLUMNS[file] else None


def rows_to(file, table):
    return [row for row in (row_to(file, line) for line in table.splitlines()) if row]


def run(program, words, text):
    """What the program writes on a text, and its status; None as the status of one that doesn't end in time."""
    try:
        ended = subprocess.run([program, *words], input=text.encode(), capture_output=True, timeout=SECONDS)
    except subprocess.TimeoutExpired:
        return "", None
    return ended.stdout.decode(errors="replace"), ended.returncode


def last_line(output):
    return output.splitlines()[-1] if output else ""


def answers_of(program, name):
    """The last line and the status of each answer that the table has of a protocol."""
    answers = []
    for file, command in [("protocol.spi", "check"), ("flawed.spi", "check"), ("attack.spi", "replay")]:
        path = f"{FOLDER}/{name}/{file}"
        if file == "attack.spi" and not os.path.exists(path):
            answers.append((DASH, 1))
        else:
            output, status = run(program, [command], read(path))
            answers.append((last_line(output), status))
    return answers


def is_verified(program, name):
    text = read(f"{FOLDER}/{name}/protocol.spi")
    listing, status = run(program, ["derive"], text)
    return status == 0 and run(program, ["verify"], f"{text}\n{listing}") == ("yes\n", 0)


def process_in(program, text):
    """The canonical text of a file up to its opponent, or None where there is none."""
    output, status = run(program, ["print"], text)
    return output.split("\nopponent ")[0].rstrip("\n") if status == 0 else None


def process_of(program, path):
    return process_in(program, read(path))


def is_same_process(program, name):
    attack = f"{FOLDER}/{name}/attack.spi"
    if not os.path.exists(attack):
        return True
    process = process_of(program, attack)
    return process is not None and process == process_of(program, f"{FOLDER}/{name}/flawed.spi")


def asked_of(text):
    """The commands that the comment at a file's head answers, each with its words and the answer."""
    found = re.findall(r"^// (replay|knows \d+): (.*)$", head_of(text), re.M)
    return [(command.split(), answer) for command, answer in found]


def told(program, words, text):
    """What a program answers: the last line of a replay, the first one of all others."""
    lines = run(program, words, text)[0].splitlines() or [""]
    return lines[-1] if words == ["replay"] else lines[0]


def knowledge_of(program, text):
    """The answers of `knows` on a file, as the table of runs has them."""
    answers = [told(program, words, text) for words, _ in asked_of(text) if words[0] == "knows"]
    return ", ".join(f"`{answer}`" for answer in answers)


def is_of_an_event(program, words, text):
    """Whether the name that `knows` is asked for stands in an event of the run."""
    events = run(program, ["replay"], text)[0].splitlines()[:-1]
    return any(re.search(rf"#{words[1]}\b", event) for event in events)


def run_cases(program, name, cells):
    """What is tested of run.spi and lost.spi with a program: a text for each case, and whether it's as wanted."""
    mended = process_of(program, f"{FOLDER}/{name}/protocol.spi")
    for file, answer, cell in [("run.spi", "unknown: #", cells[2]), ("lost.spi", "known: #", cells[4])]:
        text = read(f"{FOLDER}/{name}/{file}")
        asked = asked_of(text)
        for words, says in asked:
            got = told(program, words, text)
            yield f"{file}: {' '.join(words)} is answered '{got}', its head has '{says}'", got == says
            if words[0] == "knows":
                yield f"{file}: '{says}' isn't '{answer}{words[1]}'", says == f"{answer}{words[1]}"
                yield f"{file}: no event has #{words[1]}", is_of_an_event(program, words, text)
        yield f"{file}: the head has no replay, or no knows", {words[0] for words, _ in asked} == {"replay", "knows"}
        got = knowledge_of(program, text)
        yield f"{file}: knows is answered {got}, the table has {cell}", got == cell
        kept = "".join(line for line in text.splitlines(keepends=True) if "  // lost: " not in line)
        yield f"{file}: the process isn't that of protocol.spi", \
            mended is not None and process_in(program, kept) == mended
    yield "run.spi isn't paid", told(program, ["replay"], read(f"{FOLDER}/{name}/run.spi")) == "paid"
    yield "run.spi has a line that lost.spi alone may have", "// lost: " not in read(f"{FOLDER}/{name}/run.spi")
    yield "lost.spi is accepted", told(program, ["check"], text).startswith("no: ")


def replayed(program, text):
    """What a replay says, as the table of narrations has it: how many events, and the last line."""
    lines = run(program, ["replay"], text)[0].splitlines() or [""]
    return f"{len(lines) - 1} events, `{lines[-1]}`"


def told_cases(program, name, cells):
    """What is tested of honest.nar and honest.spi with a program."""
    text = read(f"{FOLDER}/{name}/honest.spi")
    output, status = run(program, ["narrate"], read(f"{FOLDER}/{name}/honest.nar"))
    yield f"narrate writes other text than honest.spi has, status {status}", (output, status) == (text, 0)
    yield "check doesn't accept honest.spi", run(program, ["check"], text) == ("yes\n", 0)
    got = replayed(program, text)
    yield f"replay of honest.spi is {got}, the table has {cells[2]}", got == cells[2] and got.endswith(", `paid`")


def cases_of(program, name, wanted):
    """What is tested of a protocol with a program: a text for each case, and whether it's as wanted."""
    (mended, mended_status), (flawed, flawed_status), (attack, attack_status) = answers_of(program, name)
    yield f"protocol.spi is answered '{mended}', status {mended_status}, the table has '{wanted[0]}'", \
        (mended, mended_status, wanted[0]) == ("yes", 0, "yes")
    yield f"flawed.spi is answered '{flawed}', status {flawed_status}, the table has '{wanted[1]}'", \
        flawed.startswith("no: ") and flawed_status == 1 and flawed == wanted[1]
    yield f"attack.spi is answered '{attack}', status {attack_status}, the table has '{wanted[2]}'", \
        (attack == DASH or attack.startswith("unpaid at ")) and attack_status == 1 and attack == wanted[2]
    yield "what derive prints isn't verified behind protocol.spi", is_verified(program, name)
    yield "attack.spi doesn't have the process of flawed.spi", is_same_process(program, name)


def head_of(text):
    """The comment at a file's head."""
    return "".join(itertools.takewhile(lambda line: line.startswith("//"), text.splitlines(keepends=True)))


def is_headed(text):
    """Whether the comment at a file's head has a message in the usual notation and the source."""
    return " -> " in head_of(text) and "// Source: " in head_of(text)


def folders_with(*files):
    """The folders that have at least one of these files."""
    return {os.path.basename(os.path.dirname(path)) for file in files for path in glob.glob(f"{FOLDER}/*/{file}")}


def is_there(name):
    return has(name, "protocol.spi", "flawed.spi")


def has(name, *files):
    return all(os.path.exists(f"{FOLDER}/{name}/{file}") for file in files)


def has_run(name):
    return has(name, "protocol.spi", "run.spi", "lost.spi")


def file_cases(rows, run_rows, told_rows):
    """What is tested of the files without a program."""
    names = [name for name, _ in rows]
    runs = [name for name, _ in run_rows]
    for name in sorted({*runs, *folders_with("run.spi", "lost.spi")}):
        yield f"{name}: run.spi, lost.spi and one row of the table of runs belong together", \
            has_run(name) and runs.count(name) == 1
    told_names = [name for name, _ in told_rows]
    for name in sorted({*told_names, *folders_with("honest.nar", "honest.spi")}):
        yield f"{name}: honest.nar, honest.spi and one row of the table of narrations belong together", \
            has(name, "honest.nar", "honest.spi") and told_names.count(name) == 1
    for path in sorted(glob.glob(f"{FOLDER}/*/")):
        folder = os.path.basename(path.rstrip("/"))
        yield f"{folder}: the folder hasn't one row", names.count(folder) == 1
    for name in names:
        yield f"{name}: the row has no folder with protocol.spi and flawed.spi", is_there(name)
    written = glob.glob(f"{FOLDER}/*/honest.spi")
    for path in sorted({*glob.glob(f"{FOLDER}/*/*.spi"), *glob.glob(f"{FOLDER}/*/*.nar")} - set(written)):
        yield f"{os.path.relpath(path, FOLDER)}: the head comment lacks a message or the source", is_headed(read(path))


def write_table(program):
    """Writes the program's answers into the last three columns of the table, and into the two other tables."""
    lines = read(TABLE).splitlines()
    for number, line in enumerate(lines):
        cells = cells_of(line)
        if cells and is_there(name_of(cells)):
            answers = [answer for answer, _ in answers_of(program, name_of(cells))]
            written = [answer if answer == DASH else f"`{answer}`" for answer in answers]
            lines[number] = "| " + " | ".join(cells[:-3] + written) + " |"
        name, cells = row_to("run.spi", line) or (None, [])
        if cells and has_run(name):
            files = [f"{FOLDER}/{name}/{it}" for it in ["run.spi", "lost.spi"]]
            cells[2], cells[4] = (knowledge_of(program, read(path)) for path in files)
            lines[number] = "| " + " | ".join(cells) + " |"
        name, cells = row_to("honest.nar", line) or (None, [])
        if cells and has(name, "honest.spi"):
            cells[2] = replayed(program, read(f"{FOLDER}/{name}/honest.spi"))
            lines[number] = "| " + " | ".join(cells) + " |"
    with open(TABLE, "w", encoding="utf-8") as file:
        file.write("\n".join(lines) + "\n")


def main():
    words = argparse.ArgumentParser()
    words.add_argument("--program", action="append", required=True)
    words.add_argument("--write", action="store_true")
    asked = words.parse_args()
    if asked.write:
        write_table(asked.program[0])
    table = read(TABLE)
    rows, run_rows, told_rows = rows_of(table), rows_to("run.spi", table), rows_to("honest.nar", table)
    results = list(file_cases(rows, run_rows, told_rows))
    for program in asked.program:
        for name, wanted in rows:
            cases = cases_of(program, name, wanted) if is_there(name) else []
            results += [(f"{name}: {shows}", holds) for shows, holds in cases]
        for name, cells in run_rows:
            cases = run_cases(program, name, cells) if has_run(name) else []
            results += [(f"{name}: {shows}", holds) for shows, holds in cases]
        for name, cells in told_rows:
            cases = told_cases(program, name, cells) if has(name, "honest.nar", "honest.spi") else []
            results += [(f"{name}: {shows}", holds) for shows, holds in cases]
    for shows, holds in results:
        if not holds:
            print(shows)
    failed = sum(not holds for _, holds in results)
    print(f"{len(results) - failed} passed, {failed} failed")
    return 1 if failed or not rows else 0


sys.exit(main())
