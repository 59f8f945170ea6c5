"""Narrations: made so that each line can be done and the file that is told is a yes, or with a slip, or damaged by tokens; and
the law that they are put to."""

import re

from . import laws
from .damage import damaged_tokens
from .terms import tokens_of
from .writing import laid_out

FREE = ["a", "b", "c", "net", "hall"]
ROLES = ["A", "B", "C", "Server", "to", "on"]  # words that the grammar asks for by spelling are no reserved ones
REFUSALS = {2, 10, 11, 12, 13, 20, 21, *range(30, 37), 80, 100, 101, 102, 103, 104}
EVENT = re.compile(r"\w+\s*:\s*(begin|end|endmany)\b")
COMMENT = re.compile(r"//[^\n]*")


def handshake(rng, number, roles, version):
    """A nonce handshake, its key's type and its lines: of two roles one answers the other, with an end or a many."""
    answers, asks = rng.sample(roles, 2)
    label = f"({rng.choice(FREE[:3])}, {rng.choice(FREE[:3])}, m{number})"
    atom, end = ("many", "endmany") if version == 2 and rng.random() < 0.4 else ("end", "end")
    nonce = f"Nonce [{atom} {label}]"
    channel = rng.choice(FREE[3:])
    return f"Key((m{number}: Un, p{number}: {nonce}))", [
        f"{asks}: new (n{number}: Un);",
        f"{asks} to {answers} on {channel}: n{number} as q{number};",
        f"{answers}: new (m{number}: Un);",
        f"{answers}: begin {label};",
        f"{answers}: cast q{number} is (p{number}: {nonce});",
        f"{answers} to {asks} on {channel}: {{(m{number}, p{number})}}k{number} as c{number};",
        f"{asks}: decrypt c{number} is {{x{number}: (m{number}: Un, p{number}: {nonce})}}k{number};",
        f"{asks}: split x{number} is (m{number}: Un, p{number}: {nonce});",
        f"{asks}: check n{number} is p{number};",
        f"{asks}: {end} {label};"]


def chatter(rng, number, roles):
    """Lines that each role can do by itself, and messages that nobody looks at."""
    role, other = rng.choice(roles), rng.choice(roles)
    m, n = rng.choice(FREE), rng.choice(FREE)
    lines = [f"{role}: new (z{number}: Un);", f"{role}: split ({m}, z{number}) is (u{number}: Un, v{number}: Un);",
             f"{role}: match ({m}, ({n}, ())) is (u{number}: Un = {m}, v{number}: Un);",
             f"{role}: decrypt {{inl z{number}}}{n} is {{w{number}: Un}}{n};", f"{role}: check z{number} is z{number};",
             f"{role}: cast ({m}, {n}) is (u{number}: Un);", f"{role}: begin ({m}, z{number});", f"{role}: end ({m}, z{number});",
             f"{role} to {other} on net: (z{number}, inr {m}) as y{number};"]
    picked = sorted(rng.sample(range(1, len(lines)), rng.randrange(len(lines))))
    begin, end = (next(i for i, line in enumerate(lines) if f": {word} " in line) for word in ("begin", "end"))
    return [lines[0], *(lines[i] for i in picked if i != end or begin in picked)]


def told(rng):
    """The heading of a narration and its lines, each of which can be done."""
    version = rng.choice([1, 2])
    roles = rng.sample(ROLES, rng.randrange(2, len(ROLES) + 1))
    shared, strands = [], []
    for number in range(rng.randrange(1, 6)):
        if rng.random() < 0.7:
            key, lines = handshake(rng, number, roles, version)
            shared.append(f"shared k{number}: {key.replace(f'm{number}: Un', 'm: Un').replace(f'm{number})', 'm)')};")
            strands.append(lines)
        else:
            strands.append(chatter(rng, number, roles))
    lines = []
    while any(strands):
        lines.append(rng.choice([strand for strand in strands if strand]).pop(0))
    heading = (["version 2;"] if version == 2 else []) + [f"free {', '.join(FREE)};", *shared]
    return heading, roles, lines


def slipped(rng, heading, roles, lines):
    """A narration with a slip: in its lines, or one item too many."""
    at = rng.randrange(len(lines))
    slip = rng.randrange(10)
    if slip == 0:
        lines[at:at + 1] = []
    elif slip == 1:
        lines.insert(at, lines[at])
    elif slip == 2:
        other = rng.randrange(len(lines))
        lines[at], lines[other] = lines[other], lines[at]
    elif slip == 3:
        lines[at] = lines[at].replace(lines[at].split(":")[0].split()[0], rng.choice(["Nobody", roles[0]]), 1)
    elif slip == 4:
        lines[at] = lines[at].replace(" on net", " on " + rng.choice(["k0", "nowhere", "z1"]))
    elif slip == 5:
        lines += [f"{roles[0]}: check a is a;"] * (201 - len(lines))
    elif slip == 6:
        roles += rng.choice([roles[:1], [f"R{i}" for i in range(9 - len(roles))]])
    elif slip == 7:
        lines.insert(at, f"{roles[0]}: check {rng.choice(FREE)} is {rng.choice(FREE)};")
    elif slip == 8:  # a message that doubles
        lines[at:at] = [f"{roles[0]}: new (d0: Un);", *(f"{roles[0]} to {roles[0]} on hall: (d{i}, d{i}) as d{i + 1};" for i in range(10))]
    else:
        heading += [f"shared s{i}: Un;" for i in range(17)]


def made(rng):
    """A narration, and whether it's told without a slip."""
    heading, roles, lines = told(rng)
    how = rng.random()
    if how > 0.5:
        slipped(rng, heading, roles, lines)
    text = "\n".join([*heading, f"roles {', '.join(roles)};", *lines, ""])
    if how > 0.8:
        text = damaged_tokens(rng, text, text)
    elif rng.random() < 0.3:
        text = laid_out(tokens_of(text), rng)
    return text.encode(), how <= 0.5


def a_narration_is_run(ask, data):
    """What `narrate` writes is canonical, `replay` runs it to its end, and its events are of the kinds that the lines have, in
    their order. What it refuses has a number of narrations."""
    text, status = ask.words(["narrate"], data)
    if status == laws.REFUSED:
        isn_t = laws.LINE_OF_REFUSAL.fullmatch(text) is None or laws.number_of((text, status)) not in REFUSALS
        return f"narrate writes {text[:200]!r}" if isn_t else None
    if status != laws.YES:
        return f"narrate has status {status} and writes {text[:200]!r}"
    if ask.print(text) != (text, laws.YES):
        return f"what narrate writes isn't canonical: {ask.print(text)[0][:200]!r}"
    replayed = ask.replay(text)
    if replayed[1] not in (laws.YES, laws.NO):
        return f"replay of what narrate writes says {replayed[0][:200]!r}"
    kinds = [event.split()[1].decode() for event in laws.events(replayed)]
    wanted = EVENT.findall(COMMENT.sub("", data.decode()))
    if kinds != wanted:
        return f"the events are {kinds}, and the lines tell {wanted}"
    return laws.a_yes_has_no_attack(ask, text) if ask.check(text)[1] == laws.YES else None
