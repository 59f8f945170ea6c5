#!/usr/bin/env python3
"""Times `cryptyc verify`, `replay`, `knows`, `play`, `print`, `upgrade`, `narrate` and `load` on files, and on the same files
doubled; and `bench` with one small part that is put again and again beside a part of three sizes.

Usage: bench/runs.py [--program FILE] [--runs N] [--only WORD] [--part N] [--instructions]. Without --program it takes the
proved build, crates/cryptyc/out/cryptyc. With --part it takes an Nth of each size, for a slower build. It prints a line for
each workload: bytes of the doubled file, the least processor time of the smaller and of the doubled file, and how much longer
the doubled one takes. With --instructions it counts instructions instead, by valgrind, which other work doesn't disturb. Both
hold reading, parsing and resolving too. The derivations of `verify` are those that `derive` prints, or repeat ProcSub. For
`bench` the line has the time of all puts behind the first one, for each size.
"""

import os
import re
import shlex
import subprocess
import tempfile

from check import balanced, chains, matches, names, options, sessions, stop_without


def derived(program, text):
    """The file with its canonical derivation."""
    run = subprocess.run([*program, "derive"], input=text.encode(), capture_output=True)
    return text + "\n" + run.stdout.decode()


def weakened(count):
    """So many uses of ProcSub with an effect of 20 atoms, in groups of chains, above processes without effect."""
    atoms = ", ".join(f"end #{i}" for i in range(20))
    pays = "".join(f"begin n{i}; " for i in range(20))
    parts = [f"{pays}stop"] * (count // 100)
    uses = ["ProcBegin " * 20 + f"ProcSub [{atoms}] " * 100 + "ProcStop"] * (count // 100)

    def tree(uses):
        if len(uses) == 1:
            return uses[0]
        half = (len(uses) + 1) // 2
        return f"ProcPar {tree(uses[:half])}\n{tree(uses[half:])}"

    return f"free {names(20)};\nprocess {balanced(parts)}\nderivation {tree(uses)}\n"


def spread(parts):
    """The processes in rows of 400, whose rows are grouped, with the steps that put each at a place of its own, and the places."""
    rows = [parts[i:i + 400] for i in range(0, len(parts), 400)]
    text = " | ".join(f"({' | '.join(row)})" if len(row) > 1 else row[0] for row in rows)
    steps, places, next_place, at = [], [], 2, 0
    starts = []
    for number in range(len(rows)):
        starts.append(at)
        if number + 1 < len(rows):
            steps.append(at)
            at, next_place = next_place, next_place + 1
    for row, start in zip(rows, starts):
        at = start
        for number in range(len(row)):
            places.append(at)
            if number + 1 < len(row):
                steps.append(at)
                at, next_place = next_place, next_place + 1
    return text, "".join(f"act {i};\n" for i in steps), places


def acting(count):
    """Steps of one place each: chains of 440 begins and ends."""
    chain = "".join(f"begin n{i}; " for i in range(220)) + "".join(f"end n{i}; " for i in range(220)) + "stop"
    text, steps, places = spread([chain] * (count // 440))
    steps += "".join(f"act {place};\n" * 440 for place in places)
    return f"free {names(220)};\nprocess {text}\nopponent stop\nschedule\n{steps}"


def repeating(count):
    """A repeated input that puts out again what it takes in: each step adds a place."""
    steps = "act 0;\n" + "".join(f"talk {i + 2} 0;\n" for i in range(count))
    return f"free a;\nprocess repeat inp a (x: Un); out a x | out a a\nopponent stop\nschedule\n{steps}"


def talking(count, channels):
    """So many outputs and inputs, in turn over the channels, that meet in pairs."""
    parts = [f"out n{i % channels} n0" for i in range(count)]
    parts += [f"inp n{i % channels} (x: Un); stop" for i in range(count)]
    text, steps, places = spread(parts)
    steps += "".join(f"talk {places[i]} {places[count + i]};\n" for i in range(count))
    return f"free {names(channels)};\nprocess {text}\nopponent stop\nschedule\n{steps}"


def opened(count):
    """So many ciphertexts, each of the key of the next under its own, sent from the last to the first, 24 in a message, and
    then the first key: only with that do they open, one after the other, up to a name. A key is a name under a secret."""
    keys = [f"{{f{i}}}s" for i in range(count)]
    ciphertexts = [f"{{{body}}}{key}" for body, key in zip([*keys[1:], "t"], keys)][::-1]
    parts = [ciphertexts[i:i + 24] for i in range(0, count, 24)]
    sends = "".join(f"out a {f'({chr(44).join(part)})' if len(part) > 1 else part[0]};\n" for part in parts) + f"out a {keys[0]};\n"
    steps = "act 0;\n" * 2 + "".join(f"act {2 * i};\ntalk {2 * i} 1;\n" for i in range(len(parts) + 1))
    free = ", ".join(f"f{i}" for i in range(count))
    return (f"free a, {free};\nprocess new (s: Un); new (t: Un);\n{sends}stop\nopponent repeat inp a (x: Un); stop\n"
            f"schedule\n{steps}")


def played_chains():
    chain = "".join(f"begin n{i}; " for i in range(240)) + "".join(f"end n{i}; " for i in range(240)) + "stop"
    return f"free {names(240)};\nprocess {' | '.join([chain] * 8)}\nopponent stop\n"


def played_copies():
    """One copy is made in each turn, so the places grow with the steps."""
    return "free a;\nprocess repeat inp a (x: Un); out a x | out a a\nopponent stop\n"


def played_channels():
    """Outputs and inputs on channels of their own."""
    parts = "".join(f"| out n{i} n0 | inp n{i} (x: Un); stop " for i in range(230))
    return f"free {names(230)};\nprocess stop {parts}\nopponent stop\n"


def told(free, lines):
    return f"free {free};\nroles R0, R1, R2, R3, R4, R5, R6, R7;\n" + "".join(lines)


def labelled(n):
    """A narration of so many lines, at most 200, by 8 roles that pass a message on, with labels of 190 nodes."""
    label = "(" + ", ".join(["a"] * 95) + ")"
    return told("a, net", (f"R{i % 8} to R{(i + 1) % 8} on net: {label} as x{i};\n" if i % 2 else f"R{i % 8}: begin {label};\n"
                           for i in range(n)))


def growing(n):
    """A narration of so many lines, at most 200: each role passes on what it got, and one name more."""
    return told("x, net", (f"R{i % 8} to R{(i + 1) % 8} on net: (x, net) as x;\n" for i in range(n)))


def channelled(n):
    """A narration of so many lines, at most 200, each on a channel of its own: the last of 200 times as many free names."""
    last = 200 * n - 1
    return told(names(200 * n), (f"R{i % 8} to R{(i + 1) % 8} on n{last - i}: n{last - i} as x;\n" for i in range(n)))


def workloads(program):
    yield "verify: handshakes", 250, lambda n: (["verify"], derived(program, sessions(n)))
    yield "verify: chains of begins and ends", 40, lambda n: (["verify"], derived(program, chains(n)))
    yield "verify: matches with large terms", 40, lambda n: (["verify"], derived(program, matches(n)))
    yield "verify: effects that are written", 4000, lambda n: (["verify"], weakened(n))
    yield "replay: steps of one place", 4840, lambda n: (["replay"], acting(n))
    yield "replay: a repeated input", 2450, lambda n: (["replay"], repeating(n))
    yield "replay: talks over 500 channels", 1200, lambda n: (["replay"], talking(n, 500))
    yield "replay: talks over one channel", 1200, lambda n: (["replay"], talking(n, 1))
    yield "knows: ciphertexts that open one another", 1200, lambda n: (["knows", str(n + 2)], opened(n))
    for player in range(3):
        words = ["--player", str(player)]
        yield f"play: chains, player {player}", 500, lambda n: (["play", "--steps", str(n), *words], played_chains())
        yield f"play: copies, player {player}", 450, lambda n: (["play", "--steps", str(n), *words], played_copies())
        yield f"play: channels, player {player}", 450, lambda n: (["play", "--steps", str(n), *words], played_channels())
    for word in ("print", "upgrade"):
        yield f"{word}: handshakes", 245, lambda n: ([word], sessions(n))
    yield "print: free names", 45000, lambda n: (["print"], named([f"v{i}" for i in range(n)]))
    yield "upgrade: free names", 45000, lambda n: (["upgrade"], named(["hash", *(f"hash_{i}" for i in range(n - 1))]))
    yield "narrate: lines with labels", 100, lambda n: (["narrate"], labelled(n))
    yield "narrate: messages that grow", 100, lambda n: (["narrate"], growing(n))
    yield "narrate: channels among free names", 100, lambda n: (["narrate"], channelled(n))
    yield "load: sessions", 250, lambda n: (["load", str(n)], "")


def named(names):
    """A file with these free names, of which `print` and `upgrade` have to find the number or the spelling of a new one."""
    return f"free {', '.join(names)}; process new (x: Un); out {names[0]} x"


def beside(nodes, puts):
    """A bench with a part of so many nodes, and then so many puts of one part of 10 nodes."""
    large = "inp n0 (x: Un); begin n0; end n0; out n0 n0"
    rows = [f"({' | '.join([large] * 250)})"] * (nodes // 2750)
    rest = (nodes - 2750 * len(rows)) // 11
    rows += [f"({' | '.join([large] * rest)})"] if rest > 1 else []
    return (f"free n0;\nput A {{ {' | '.join(rows)} }}\n" + "put B { inp n0 (x: Un); begin n0; end n0; out n0 n0 }\n" * puts)


def time_bench(program, runs, part):
    """The time of 999 puts of a small part beside a large one, by the size of that one."""
    puts, spent = 999 // part, []
    for nodes in (1000, 10000, 90000):
        first, _ = timed(program, ["bench"], beside(nodes // part, 0), runs)
        every, said = timed(program, ["bench"], beside(nodes // part, puts), runs)
        spent.append(every - first)
        print(f"bench: {puts} puts of a part of 10 nodes beside one of {nodes // part}: {every - first:.3f} s, and {first:.3f} s "
              f"for the first; {said}", flush=True)
    print(f"bench: the longest of these takes {max(spent) / min(spent):.2f} times the shortest", flush=True)


def timed(program, words, text, runs):
    """The least processor time, and the end of the answer."""
    best, said = None, None
    with tempfile.TemporaryFile() as given, tempfile.TemporaryFile() as written:
        given.write(text.encode())
        for _ in range(runs):
            given.seek(0)
            written.seek(0)
            written.truncate()
            run = subprocess.Popen([*program, *words], stdin=given, stdout=written, stderr=subprocess.DEVNULL)
            _, status, used = os.wait4(run.pid, 0)
            spent = used.ru_utime + used.ru_stime
            best = spent if best is None or spent < best else best
            written.seek(0)
            lines = written.read().decode(errors="replace").split("\n")
            said = f"{len(lines) - 1} lines, {lines[-2] if len(lines) > 1 else os.waitstatus_to_exitcode(status)}"
    return best, said


def instructions(program, words, text):
    """How many instructions the program takes."""
    counting = ["valgrind", "--tool=callgrind", "--callgrind-out-file=/dev/null"]
    run = subprocess.run([*counting, *program, *words], input=text.encode(), capture_output=True)
    return int(re.search(rb"Collected : (\d+)", run.stderr)[1])


def main():
    words = options()
    words.add_argument("--part", type=int, default=1)
    words.add_argument("--instructions", action="store_true")
    asked = words.parse_args()
    program = shlex.split(asked.program)
    stop_without(program[0])
    for name, size, make in workloads(program):
        if asked.only not in name:
            continue
        size //= asked.part
        small, large = make(size), make(2 * size)
        if asked.instructions:
            once, twice = instructions(program, *small), instructions(program, *large)
            print(f"{name}: {size} and {2 * size}: {once:,} and {twice:,} instructions, {twice / once:.2f} times", flush=True)
            continue
        once, said = timed(program, *small, asked.runs)
        twice, said_twice = timed(program, *large, asked.runs)
        print(f"{name}: {size} and {2 * size}, {len(small[1])} and {len(large[1])} bytes: {once:.3f} s and {twice:.3f} s, "
              f"{twice / once:.1f} times; {said}; {said_twice}", flush=True)
    if asked.only in "bench: puts beside a large part" and not asked.instructions:
        time_bench(program, asked.runs, asked.part)


if __name__ == "__main__":
    main()
