"""Damages files: forms of their processes, tokens, bytes, and the rules of a derivation."""

from .terms import RESERVED, RESERVED_IN_2, SHAPES, STOP, UN, UNIT, tokens_of
from .wild import RULES
from .writing import is_word, laid_out

TOKENS = [*RULES, *sorted(RESERVED | RESERVED_IN_2), *"()[]{},;:=|+#", "version", "act", "talk", "a", "b", "k", "x", "0", "1", "2",
          "4294967295", "4294967296"]
BYTES = [b"\x00", b"\x7f", b"\x80", b"\xff", b"\xc3", b"\xed\xa0\x80", b"\xf4\x90\x80\x80", b"\xef\xbb\xbf", b"//", b"\n", b"\r", b"$", b"'",
         b"(", b"}", b"9" * 12, b"a" * 256, "é".encode(), "\u0301".encode(), "\u2028".encode()]


# forms

def parts_of(process):
    """The places of a process's own processes."""
    return [at for at, kind in enumerate(SHAPES[process[0]], 1) if kind == "p"]


def changed(rng, process, change):
    """A process with one of its nodes changed: a walk goes down, and stops anywhere."""
    inside = parts_of(process)
    if not inside or rng.random() < 0.12:
        return change(process)
    at = rng.choice(inside)
    return (*process[:at], changed(rng, process[at], change), *process[at + 1:])


def names_of(process, found):
    """Gathers the names that stand in a process's messages."""
    for kind, part in zip(SHAPES[process[0]], process[1:]):
        if kind == "p":
            names_of(part, found)
        elif kind == "m":
            gather(part, found)
    return found


def gather(message, found):
    if isinstance(message, str):
        found.append(message)
    else:
        for part in message[1:]:
            gather(part, found)


def other_message(rng, message, names):
    """A message with something in it replaced, swapped or taken out."""
    if isinstance(message, str) or len(message) == 1 or rng.random() < 0.3:
        return rng.choice([*names, message, UNIT, ("inl", message), ("pair", message, message)]) if names else UNIT
    if message[0] == "pair" and rng.random() < 0.3:
        return ("pair", message[2], message[1])
    at = rng.randrange(1, len(message))
    if rng.random() < 0.2:
        return message[at]
    return (*message[:at], other_message(rng, message[at], names), *message[at + 1:])


def other_type(rng, type_, names):
    """A type with something in it changed."""
    if type_[0] == "nonce" and rng.random() < 0.7:
        atoms = list(type_[1])
        how = rng.random()
        if atoms and how < 0.3:
            atoms.pop(rng.randrange(len(atoms)))
        elif atoms and how < 0.6:
            atoms.append(rng.choice(atoms))
        elif atoms:
            at = rng.randrange(len(atoms))
            atoms[at] = (atoms[at][0], other_message(rng, atoms[at][1], names))
        rng.shuffle(atoms)
        return ("nonce", tuple(atoms))
    if type_[0] == "pair":
        at = rng.choice([2, 3])
        return (*type_[:at], other_type(rng, type_[at], names), *type_[at + 1:])
    if type_[0] in ("sum", "key") and rng.random() < 0.8:
        at = rng.randrange(1, len(type_))
        return (*type_[:at], other_type(rng, type_[at], names), *type_[at + 1:])
    return rng.choice([UN, UN, UNIT, ("key", type_), ("nonce", ()), ("sum", type_, UN)])


def other_form(rng, process, names):
    """A process whose first form is left out, doubled, or changed in a message or a type."""
    inside, how = parts_of(process), rng.random()
    if inside and how < 0.35:
        return process[rng.choice(inside)]
    if process[0] in ("check", "end", "begin", "endmany", "out") and how < 0.5:
        return (*process[:-1], process) if inside else ("par", process, process)
    if how < 0.55:
        return STOP
    if how < 0.6 and process[0] == "inp":
        return ("repeat", *process[1:])
    places = [at for at, kind in enumerate(SHAPES[process[0]], 1) if kind in "mt"]
    if not places:
        return ("par", process, process) if how < 0.8 else ("end", rng.choice(names) if names else UNIT, process)
    at = rng.choice(places)
    other = other_message if SHAPES[process[0]][at - 1] == "m" else other_type
    return (*process[:at], other(rng, process[at], names), *process[at + 1:])


def changed_process(rng, process):
    """A process with one or two forms changed. What it then uses may be out of scope."""
    for _ in range(rng.choice([1, 1, 1, 2])):
        names = names_of(process, [])
        process = changed(rng, process, lambda it, names=names: other_form(rng, it, names))
    return process


# tokens and bytes

def other_words(rng, tokens):
    """Tokens of which a few that are words have become others of them, so that they may still spell a file."""
    words = [at for at, token in enumerate(tokens) if is_word(token) and token not in RESERVED | RESERVED_IN_2]
    for _ in range(rng.choice([1, 1, 2, 3]) if words else 0):
        tokens[rng.choice(words)] = tokens[rng.choice(words)]
    return tokens


def damaged_tokens(rng, text, other):
    """A text with a few tokens left out, doubled, swapped, replaced, or put in, also from another text."""
    tokens, donor = tokens_of(text), tokens_of(other)
    if rng.random() < 0.4:
        return laid_out(other_words(rng, tokens))
    for _ in range(rng.choice([1, 1, 1, 2, 3, 6])):
        how, at = rng.random(), rng.randrange(len(tokens) + 1)
        if how < 0.25:
            tokens[at:at + rng.choice([1, 1, 2, 5])] = []
        elif how < 0.4:
            tokens[at:at] = tokens[at:at + rng.choice([1, 3])]
        elif how < 0.5 and len(tokens) > 1:
            to = rng.randrange(len(tokens))
            at = min(at, len(tokens) - 1)
            tokens[at], tokens[to] = tokens[to], tokens[at]
        elif how < 0.7:
            tokens[at:at + 1] = [rng.choice(tokens + TOKENS)]
        elif how < 0.85:
            tokens[at:at] = [rng.choice(TOKENS)]
        elif how < 0.93 and donor:
            begin = rng.randrange(len(donor))
            tokens[at:at] = donor[begin:begin + rng.randint(1, 12)]
        else:
            del tokens[at:]
    return laid_out(tokens)


def damaged_bytes(rng, data):
    """Bytes with a few of them changed, left out or put in, or cut off."""
    data = bytearray(data)
    for _ in range(rng.choice([1, 1, 1, 2, 4])):
        how, at = rng.random(), rng.randrange(len(data) + 1)
        if how < 0.3:
            data[at:at + 1] = bytes([rng.randrange(256)])
        elif how < 0.5:
            data[at:at + rng.choice([1, 1, 4])] = b""
        elif how < 0.7:
            data[at:at] = rng.choice(BYTES)
        elif how < 0.85 and at < len(data):
            data[at] ^= 1 << rng.randrange(8)
        else:
            del data[at:]
    return bytes(data)


def damaged_rules(rng, rules):
    """A derivation's tokens with a few rules replaced, left out, doubled or swapped, or with a use of ProcSub put in."""
    rules = list(rules)
    for _ in range(rng.choice([1, 1, 2])):
        how, at = rng.random(), rng.randrange(len(rules))
        if how < 0.4:
            other = rules[at][:-2] if rules[at].endswith("Un") else rules[at] + "Un"
            rules[at] = rng.choice(RULES) if rng.random() < 0.3 else other
        elif how < 0.5:
            del rules[at:at + 1]
        elif how < 0.6:
            rules[at:at] = [rules[at]]
        elif how < 0.7:
            to = rng.randrange(len(rules))
            rules[at], rules[to] = rules[to], rules[at]
        else:
            effect = rng.choice(["[ ]", "[ ]", "[ end # 0 ]", "[ check # 1 ]", "[ end # 0 , end ( # 0 , # 1 ) ]"]).split()
            rules[at:at] = ["ProcSub", *effect]
        if not rules:
            return ["ProcStop"]
    return rules
