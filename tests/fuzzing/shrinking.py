"""Makes a file smaller that breaks a law, as long as it still breaks it."""

import time

from .terms import SHAPES, tokens_of
from .writing import laid_out

PARTS = {"opponent", "schedule", "derivation"}
FORMS = set(SHAPES) - {"par"} | {"("}
OPEN, CLOSED = {"(": ")", "[": "]", "{": "}"}, set(")]}")
FEW = 150  # tokens of which each run is tried


def end_of(tokens, at, stops):
    """Where a run from a token on ends: before the first of these tokens that no bracket holds, or before a bracket's end."""
    depth = 0
    while at < len(tokens):
        token = tokens[at]
        if depth == 0 and (token in stops or token in CLOSED):
            return at
        depth += (token in OPEN) - (token in CLOSED)
        at += 1
    return at


def shorter(tokens):
    """What may stand for a run of tokens: where it begins and ends, and what it becomes; the longest runs first."""
    found = []
    for at, token in enumerate(tokens):
        if token in PARTS:
            found.append((at, end_of(tokens, at + 1, PARTS), []))
        if token in ("type", "free", "act", "talk"):
            found.append((at, end_of(tokens, at, {";"}) + 1, []))
        if token in FORMS:
            found.append((at, end_of(tokens, at, PARTS | {"|"}), ["stop"]))
            found.append((at, end_of(tokens, at, {";"}) + 1, []))
        if token == "|":
            found.append((at, end_of(tokens, at + 1, PARTS), []))
        if token in OPEN:
            inside = end_of(tokens, at + 1, ())
            found.append((at, inside + 1, ["(", ")"]))
            found.append((at, inside + 1, tokens[at + 1:end_of(tokens, at + 1, {",", "|", "+"})]))
            found.append((at, inside + 1, ["Un"]))
    found = [it for it in found if it[1] - it[0] > len(it[2])]
    return sorted(found, key=lambda it: it[0] - it[1])


def by_runs(tokens, is_broken, until):
    """Takes the first shorter text that is broken too, again and again."""
    at, tried = 0, shorter(tokens)
    while at < len(tried) and time.monotonic() < until:
        begin, end, instead = tried[at]
        rest = tokens[:begin] + instead + tokens[end:]
        at += 1
        if is_broken(rest):
            removed = end - begin
            tokens, tried = rest, shorter(rest)
            at = next((place for place, it in enumerate(tried) if it[1] - it[0] <= removed), len(tried))
    return tokens


def smaller(parts, is_broken, until):
    """Leaves out runs of parts, from half of them down to single ones, as long as the rest is broken."""
    length = max(1, len(parts) // 2)
    while length and time.monotonic() < until:
        at, before = 0, len(parts)
        while at < len(parts) and time.monotonic() < until:
            rest = parts[:at] + parts[at + length:]
            if is_broken(rest):
                parts = rest
            else:
                at += length
        if len(parts) == before:
            length //= 2
        length = min(length, max(1, len(parts) // 2)) if length else 0
    return parts


def shrunk(data, is_broken, seconds):
    """A part of the data that is broken too, as small as was found in that time."""
    until = time.monotonic() + seconds

    def breaks(tokens):
        return is_broken(laid_out(tokens).encode())

    try:
        tokens = tokens_of(data.decode())
    except UnicodeDecodeError:
        tokens = None
    if tokens is None or not breaks(tokens):
        return bytes(smaller(list(data), lambda it: is_broken(bytes(it)), until))
    before = None
    while tokens != before and time.monotonic() < until:
        before = tokens
        tokens = by_runs(tokens, breaks, until)
    if len(tokens) <= FEW:
        tokens = smaller(tokens, breaks, until)
    return laid_out(tokens).encode()
