#!/usr/bin/env python3
"""fuzz.py SECONDS SEED: makes files, damages them, and holds the program's answers to laws that need no second program.

A file is made along the rules of typing, so that it's a yes; or so with a slip, or changed in a form or two; or is of any shape
that the grammar has; or is one of protocols/ and examples/, changed; or is large or deep. Some are then damaged by tokens,
by bytes, or in a derivation that `derive` has printed. Each is put to the laws of tests/fuzzing/laws.py. Beside each yes
and each no, opponents and schedules are made that step as far as they can: after a yes none of them may be an attack. With
each file goes a narration of its own, which is told, or has a slip, or is damaged (tests/fuzzing/narrated.py).

What breaks a law is made smaller, shown, and kept as target/fuzz-SEED-N.spi. A file is made from the seed and its number
alone, so `--file SEED:NUMBER` makes that one again, and shows it. At the end, and where it's interrupted, the shares of
the answers are shown, and 'N passed, M failed', where each law counts once; a law that no file was put to has failed.
Without `--program FILE` it runs the build without proofs that tools/keep.py keeps. The status is 1 where a law was broken,
and 70 where this script failed."""

import argparse
import collections
import contextlib
import glob
import os
import random
import resource
import sys
import time

from fuzzing import attacks, damage, laws, narrated, shrinking, terms, typed, wild, writing
from given import ROOT, end_with, kept

DEEP = 50_000  # calls in calls: a process may be nested 500 deep, and each level takes a few
STACK_OF_RATTLE = 16 << 20
SHRINKING = 30  # seconds
SHOWN = 4000  # bytes
MADE_BY_THE_RULES = "what is made by the rules is a yes"
GOES_THROUGH = "a schedule that is made goes through"
TOLD_BY_THE_RULES = "what is told by the rules is told, and a yes"
NAMES = [MADE_BY_THE_RULES, GOES_THROUGH, TOLD_BY_THE_RULES, *(law.__name__ for law in [*laws.LAWS, narrated.a_narration_is_run])]
LONGER = 60  # seconds, where some law wasn't asked in the time that was given


class Fuzz:
    """One run: the program, what it has found, and what is counted."""

    def __init__(self, program, seed):
        self.ask, self.seed, self.number = laws.Ask(program), seed, 0
        self.put, self.broken = collections.Counter(), collections.Counter()
        self.answers, self.replays, self.told, self.steps = *(collections.Counter() for _ in range(3)), 0
        paths = glob.glob(f"{ROOT}/protocols/*/*.spi") + glob.glob(f"{ROOT}/examples/**/*.spi", recursive=True)
        self.protocols = [read(path) for path in sorted(paths)]

    # what is put to the laws

    def hold(self, law, data):
        """Puts a file to a law, and tells of it where it's broken."""
        said = law(self.ask, data)
        if said is laws.UNASKED:
            return
        self.put[law.__name__] += 1
        if said:
            def breaks(part):
                self.ask.forget()
                return law(self.ask, part) not in (None, laws.UNASKED)
            self.tell(law.__name__, said, data, breaks)

    def require(self, name, holds, said, data):
        """What is wanted of a file by how it was made; such a file isn't made smaller."""
        self.put[name] += 1
        if not holds:
            self.tell(name, said, data, None)

    def tell(self, name, said, data, breaks):
        self.broken[name] += 1
        if self.broken[name] > 3:
            return
        small = shrinking.shrunk(data, breaks, SHRINKING) if breaks else data
        os.makedirs(f"{ROOT}/target", exist_ok=True)
        path = f"{ROOT}/target/fuzz-{self.seed}-{sum(self.broken.values())}.spi"
        with open(path, "wb") as file:
            file.write(small)
        print(f"seed {self.seed}, file {self.number}: {name.replace('_', ' ')}: {said}")
        print(f"kept as {path}, {len(small)} bytes, of {len(data)}")
        if len(small) <= SHOWN:
            print(small.decode(errors="backslashreplace"))
        sys.stdout.flush()

    # files

    def canonical(self, data):
        """The file that some bytes spell, read from its canonical text, or None."""
        text, status = self.ask.print(data)
        try:
            return terms.read(text.decode()) if status == laws.YES else None
        except (KeyError, IndexError, ValueError):  # what is printed isn't canonical: the laws tell that
            return None

    def made(self, rng):
        """A file's bytes, and how it was made."""
        how = rng.random()
        if how < 0.5:
            file = typed.made(rng, 0 if how < 0.28 or how >= 0.42 else rng.choice([1, 1, 2]))
            if rng.random() < 0.3:
                file.opponent = wild.opponent(rng, file)
            if how < 0.42:
                return "typed" if how < 0.28 else "typed, with a slip", writing.written(file, rng).encode()
            file.process = damage.changed_process(rng, file.process)
            return "typed, then changed", self.in_scope(file, rng)
        if how < 0.62:
            text = rng.choice(self.protocols)
            file = self.canonical(text)
            if file is not None:
                file.process = damage.changed_process(rng, file.process)
            return "a protocol, changed", text if file is None else self.in_scope(file, rng)
        if how < 0.74:
            return "any shape", writing.written(wild.made(rng), rng).encode()
        if how < 0.76:
            return "large or deep", writing.written(wild.large(rng), rng).encode()
        made = writing.written(rng.choice([typed, wild]).made(rng), rng).encode()
        text = rng.choice(self.protocols) if rng.random() < 0.7 else made
        if how < 0.88:
            other = rng.choice(self.protocols).decode()
            return "damaged by tokens", damage.damaged_tokens(rng, text.decode(), other).encode()
        if how < 0.94:
            return "damaged by bytes", damage.damaged_bytes(rng, text)
        return "with a damaged derivation", self.derived(rng, writing.written(typed.made(rng), rng).encode())

    def in_scope(self, file, rng):
        """The file's text, where no name is out of its scope; else a typed file's."""
        try:
            return writing.written(file, rng).encode()
        except KeyError:
            return writing.written(typed.made(rng), rng).encode()

    def derived(self, rng, data):
        """A file with the derivation that is printed for it, damaged mostly."""
        text, status = self.ask.derive(data)
        if status != laws.YES:
            return data
        rules = text.decode().split()[1:]
        rules = damage.damaged_rules(rng, rules) if rng.random() < 0.8 else rules
        return data + b"\nderivation " + writing.laid_out(rules).encode()

    # attacks

    def attack(self, rng, data):
        """Opponents and schedules beside a file's process, or beside what is as safe as it."""
        canonical = self.ask.print(data)[0]
        texts = [canonical] * 2 + ([text for _, text in laws.beside(canonical)][1:] if rng.random() < 0.4 else [])
        for text in texts:
            file = self.canonical(text)
            if file is None:
                continue
            file.derivation, steps = None, rng.choice([20, 60, 150, 150])
            if file.opponent is not None and rng.random() < 0.3 and laws.number_of(self.ask.play(text)) != 39:
                file.schedule, ends = attacks.scheduled(rng, file, steps)
            elif rng.random() < 0.15:
                file.opponent = wild.opponent(rng, file)
                file.schedule, ends = attacks.scheduled(rng, file, steps)
            else:
                file.opponent, file.schedule, ends = attacks.attack(rng, file, steps)
            self.replayed(writing.plain(file).encode(), len(file.schedule), ends)

    def replayed(self, data, steps, ends):
        answer = self.ask.replay(data)
        self.steps += steps
        if laws.number_of(answer) not in (20, 21, 35, 36):  # a part may nest too deep for a file
            self.require(GOES_THROUGH, answer[1] != laws.REFUSED, f"replay writes {answer[0]!r}", data)
        judged = {laws.YES: "a yes", laws.NO: "a no"}.get(self.ask.check(data)[1], "refused")
        self.replays[judged, {laws.YES: "paid", laws.NO: "unpaid"}.get(answer[1], "refused")] += 1
        self.replays[judged, "with an end"] += ends > 0 and answer[1] != laws.REFUSED
        self.hold(laws.a_yes_has_no_attack, data)
        self.hold(laws.a_shorter_schedule_has_fewer_events, data)

    # narrations

    def narrate(self, rng):
        """A narration, put to its law."""
        data, is_told = narrated.made(rng)
        text, status = self.ask.words(["narrate"], data)
        self.told[{laws.YES: "told", laws.REFUSED: "refused"}.get(status, "neither")] += 1
        if is_told:
            checked = self.ask.check(text)
            holds = (status, checked) == (laws.YES, (b"yes\n", laws.YES))
            self.require(TOLD_BY_THE_RULES, holds, f"narrate writes {text[:200]!r}, and check {checked[0]!r}", data)
        self.hold(narrated.a_narration_is_run, data)

    # the run

    def one(self, number):
        """Makes the file with a number, puts it to the laws, and gives it."""
        self.number = number
        self.ask.forget()
        rng = random.Random(f"{self.seed}:{number}")
        how, data = self.made(rng)
        status = self.ask.check(data)[1]
        self.answers[how, status] += 1
        self.answers["all", status] += 1
        if how == "typed":
            self.require(MADE_BY_THE_RULES, status == laws.YES, f"check writes {self.ask.check(data)[0]!r}", data)
        for law in laws.LAWS:
            self.hold(law, data)
        if status in (laws.YES, laws.NO) and len(data) < 20_000:
            self.attack(rng, data)
        self.narrate(rng)
        return data

    def table(self):
        yield f"{'how the file was made':28}{'files':>8}{'yes':>8}{'no':>8}{'refused':>8}"
        for how in sorted({how for how, _ in self.answers}, key=lambda it: (it == "all", it)):
            counts = [self.answers[how, status] for status in (laws.YES, laws.NO, laws.REFUSED)]
            total = sum(times for (of, _), times in self.answers.items() if of == how)
            yield f"{how:28}{total:8}" + "".join(f"{100 * count / total:7.1f}%" for count in counts)
        for judged in ("a yes", "a no"):
            paid, unpaid, ends = (self.replays[judged, it] for it in ("paid", "unpaid", "with an end"))
            yield f"replays beside {judged}: {paid + unpaid}, {ends} of them with an end; unpaid: {unpaid}"
        yield f"narrations told: {self.told['told']}, refused: {self.told['refused']}"
        yield f"steps scheduled: {self.steps}; runs of the program: {self.ask.runs}"

    def end(self):
        """Shows what is counted, and gives how many laws were broken."""
        print("\n".join(self.table()))
        for name in self.unasked():
            print(f"no file was put to this: {name.replace('_', ' ')}")
        failed = len(set(self.broken) | set(self.unasked()))
        print(f"{len(NAMES) - failed} passed, {failed} failed")
        return failed

    def unasked(self):
        """The laws that no file was put to so far."""
        return [name for name in NAMES if not self.put[name]]


def read(path):
    with open(path, "rb") as file:
        return file.read()


def main():
    words = argparse.ArgumentParser()
    words.add_argument("seconds", type=float, nargs="?", default=0)
    words.add_argument("seed", type=int, nargs="?", default=0)
    words.add_argument("--file", metavar="SEED:NUMBER")
    words.add_argument("--program")
    asked = words.parse_args()
    program = os.path.abspath(asked.program or kept())
    if program.endswith(".by-rattle"):
        resource.setrlimit(resource.RLIMIT_STACK, (STACK_OF_RATTLE, resource.getrlimit(resource.RLIMIT_STACK)[1]))
    sys.setrecursionlimit(DEEP)
    seed, number = map(int, asked.file.split(":")) if asked.file else (asked.seed, 0)
    print(f"fuzz: seed {seed}, {asked.seconds:g} seconds", flush=True)
    fuzz = Fuzz(program, seed)
    until = time.monotonic() + asked.seconds
    if asked.file:
        print(fuzz.one(number).decode(errors="backslashreplace"))
        return 1 if fuzz.broken else 0
    with contextlib.suppress(KeyboardInterrupt):
        while time.monotonic() < until or fuzz.unasked() and time.monotonic() < until + LONGER:
            fuzz.one(number)
            number += 1
    return 1 if fuzz.end() else 0


if __name__ == "__main__":
    end_with(main)
