#!/usr/bin/env python3
"""Holds the traces of cryptyc_explain to the replays of cryptyc.

The files are the attack.spi and honest.spi of each protocol. On each, the status of `trace` is that of `replay`; there is a
line for each step of the schedule, in order; the events are those of the replay, with the same labels, and each end is
paid by the step of the begin that the replay gives it. The same holds of each file with a step turned round or with a place
that isn't there: then the step that is refused is the replay's, with its cause and its place. A file that `replay` refuses
before any step, as each one without a schedule, gets the very line that `replay` writes. The chart has an arrow for each
talk and the events in order. `--program FILE` is a cryptyc to run replay with, `--explain FILE` a cryptyc_explain; the
default of both is the build without proofs (tools/keep.py). A run has 10 seconds. The last line is 'N passed, M failed'."""

import argparse
import glob
import os
import re
import sys

from explain import ROOT, kept, run as ran

COMMENT = re.compile(r"//[^\n]*")
STEP = re.compile(r"\b(act\s+\d+|talk\s+\d+\s+\d+)\s*;")
LINE = re.compile(r"(\d+)\. (act \d+|talk \d+ \d+) (.*)")
EVENT = re.compile(r"at \d+:\d+: (begin|end|endmany) (.*?)(?:, (?:unpaid|paid by step (\d+)))?")
REPLAYED = re.compile(r"(\d+) (begin|end|endmany) (.*?)(?: (?:unpaid|from (\d+)))?")
REFUSED = re.compile(r"in the schedule at (\d+:\d+) is refused: (\d+ \w+)")
WORD = re.compile(r"[\w']*#\d+|[\w']+|[^\s\w]")


def run(program, words, data=b""):
    """What the program writes, and its status; None where it takes too long."""
    written, status = ran(program, words, data)
    return written.decode(), status


def message(words):
    """A message from its words, where a pair's second part that is a pair is written in the same brackets."""
    word = words.pop(0)
    if word in ("inl", "inr"):
        return (word, message(words))
    if word == "hash":
        words.pop(0)
        body = message(words)
        words.pop(0)
        return (word, body)
    if word == "{":
        body = message(words)
        words.pop(0)
        return ("key", body, message(words))
    if word != "(":
        return re.sub(r"^[\w']*#", "#", word)
    parts = []
    while words[0] != ")":
        parts.append(message(words))
        if words[0] == ",":
            words.pop(0)
    words.pop(0)
    whole = parts.pop() if parts else "()"
    while parts:
        whole = ("pair", parts.pop(), whole)
    return whole


def label(text):
    return message(WORD.findall(text))


def replayed(text):
    """The events of a replay: the word, the label, and the number of the begin that pays for it."""
    found = [REPLAYED.fullmatch(line) for line in text.splitlines()]
    return [(m[2], label(m[3]), m[4] and int(m[4])) for m in found if m]


def traced(lines):
    """The same of a trace's lines, where the begin is found by its step."""
    events, numbers = [], {}
    for line in lines:
        found = EVENT.fullmatch(line[3])
        if found:
            numbers[int(line[1])] = len(events) + 1
            events.append((found[1], label(found[2]), found[3] and numbers.get(int(found[3]))))
    return events


class Tests:
    def __init__(self):
        self.passed = self.failed = 0

    def hold(self, what, is_so):
        if is_so:
            self.passed += 1
        else:
            self.failed += 1
            print(f"FAILED {what}")


def test_schedule(tests, replay, explain, what, text):
    data = text.encode()
    answer, status = run(replay, ["replay"], data)
    trace, ended = run(explain, ["trace"], data)
    steps = [" ".join(m.split()) for m in STEP.findall(COMMENT.sub("", text))]
    lines = [m for m in map(LINE.fullmatch, trace.splitlines()) if m]
    tests.hold(f"{what}: the status", ended == status and status in (0, 1, 2))
    tests.hold(f"{what}: the numbers", [int(m[1]) for m in lines] == list(range(1, len(lines) + 1)))
    tests.hold(f"{what}: the steps", [m[2] for m in lines] == steps[: len(lines)])
    tests.hold(f"{what}: the places at the end", "\nAt the end:\n" in trace)
    if status == 2:
        last = REFUSED.fullmatch(lines[-1][3]) if lines else None
        told = re.fullmatch(r"refused: (\d+ \w+) at (\d+:\d+): \d+\n", answer)
        tests.hold(f"{what}: the refusal", bool(last and told) and (last[2], last[1]) == (told[1], told[2]))
    else:
        tests.hold(f"{what}: all steps", len(lines) == len(steps))
        tests.hold(f"{what}: the events", traced(lines) == replayed(answer))
        chart, charted = run(explain, ["trace", "--chart"], data)
        talks = sum(step.startswith("talk") for step in steps)
        events = re.findall(r"    Note over [\w,]+: (begin|end|endmany) ", chart)
        tests.hold(f"{what}: the chart", charted == status and chart.count("->>") == talks and events == [e[0] for e in replayed(answer)])


def changed(text):
    """The file with its last talk turned round, and with a step at a place that isn't there."""
    talks = list(re.finditer(r"\btalk\s+(\d+)\s+(\d+)\s*;", text))
    if talks:
        m = talks[-1]
        yield "turned round", f"{text[: m.start()]}talk {m[2]} {m[1]};{text[m.end():]}"
        yield "without a place", f"{text[: m.start()]}act 4999;{text[m.start():]}"


def main():
    words = argparse.ArgumentParser(description=__doc__)
    words.add_argument("--program")
    words.add_argument("--explain")
    given = words.parse_args()
    replay = given.program or kept("cryptyc")
    explain = given.explain or kept("cryptyc_explain")
    tests = Tests()
    paths = sorted(glob.glob(f"{ROOT}/protocols/*/attack.spi") + glob.glob(f"{ROOT}/protocols/*/honest.spi"))
    tests.hold("there are schedules", len(paths) >= 30)
    for path in paths:
        name = os.path.relpath(path, ROOT)
        with open(path, encoding="utf-8") as file:
            text = file.read()
        test_schedule(tests, replay, explain, name, text)
        for how, other in changed(text):
            test_schedule(tests, replay, explain, f"{name} {how}", other)
        tests.hold(f"{name}: the same by its name", run(explain, ["trace", name]) == run(explain, ["trace"], text.encode()))
    plain = sorted(glob.glob(f"{ROOT}/protocols/*/protocol.spi") + glob.glob(f"{ROOT}/examples/reasons/*.spi"))
    for path in plain:
        with open(path, "rb") as file:
            data = file.read()
        answer = run(replay, ["replay"], data)
        if answer[1] == 2 and not re.match(r"refused: 6\d ", answer[0]):
            tests.hold(f"{os.path.relpath(path, ROOT)}: the line of replay", run(explain, ["trace"], data) == answer)
            tests.hold(f"{os.path.relpath(path, ROOT)}: and as a chart", run(explain, ["trace", "--chart"], data) == answer)
    for what, data in [("nothing", b""), ("no schedule", b"process stop opponent stop"), ("no UTF-8", b"process \xff"),
                       ("no opponent", b"free a; process stop opponent begin a; stop schedule act 0;"),
                       ("an opponent part alone that is none", b"free a; process stop opponent begin a; stop"),
                       ("too much", b" " * 16_777_217)]:
        tests.hold(what, run(explain, ["trace"], data) == run(replay, ["replay"], data))
    print(f"{tests.passed} passed, {tests.failed} failed")
    return tests.failed != 0


if __name__ == "__main__":
    sys.exit(main())
