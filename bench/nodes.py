"""Counts the nodes of a file: of its free names, messages, types and processes, as the limit of 100,000 nodes counts them."""

import re

TOKEN = re.compile(r"//[^\n]*|[^\W\d]\w*|\d+|[()\[\]{},;:=|+]")
FORMS = {"out", "inp", "split", "match", "case", "decrypt", "check", "begin", "end", "endmany", "cast", "new", "stop"}
TERMS = {"Un", "Key", "Nonce", "inl", "inr", "hash", "many"}
OTHERS = {"free", "process", "opponent", "repeat", "is", "version"}


def behind_message(tokens, at):
    """The place behind the message that begins there."""
    while tokens[at] in ("inl", "inr", "hash"):
        at += 1
    if tokens[at] not in "({":
        return at + 1
    is_sealed, depth = tokens[at] == "{", 1
    while depth:
        at += 1
        depth += (tokens[at] in "({") - (tokens[at] in ")}")
    return behind_message(tokens, at + 1) if is_sealed else at + 1


def goes_on(tokens, at):
    """Whether a process stands behind the output there: it is beside it, in a node of its own."""
    return tokens[behind_message(tokens, behind_message(tokens, at + 1))] == ";"


def nodes_of(text):
    """The nodes of a file with no type of its own and no case."""
    tokens = [it for it in TOKEN.findall(text) if not it.startswith("//")] + [";"]
    count, opened = 0, []
    for at, token in enumerate(tokens[:-1]):
        following = tokens[at + 1]
        if token in ("schedule", "derivation"):
            break
        if token in "([{":
            opened.append(token == "[" or tokens[at - 1] == "is")
            is_pattern = tokens[at + 2] == ":"
            count += following == ")" if token == "(" else token == "{" and not is_pattern
        elif token in ")]}":
            opened.pop()
        elif token == ",":
            count += bool(opened) and not opened[-1]
        elif token in "|+":
            count += 1
        elif token == "out":
            count += 1 + goes_on(tokens, at)
        elif token in FORMS or token in TERMS or token not in OTHERS and token[0] not in ";:=0123456789":
            count += following != ":"
    return count
