"""Checks what `knows` answers, by a reading of its own: what was sent in the run of a canonical file, and whether each line
of a certificate follows."""

import re

from fuzzing.attacks import Run, value
from fuzzing.terms import UNIT, read

WORD = re.compile(r"\s*(#?\w+|[(){},])")


def run_of(text):
    """The free names of a canonical file, what is sent in the run of its schedule (the numbers of the free names and then the
    datum of each talk), which names are made at a Key type, and how many names there are in the end."""
    file = read(text)
    run = Run(file.free, file.process, file.opponent)
    sent, keys = list(range(len(file.free))), []
    for step in file.schedule:
        word, *places = step.split()
        places = [int(place) for place in places]
        process, scope = run.places[places[0]]
        if word == "act":
            if process[0] == "new" and process[2][0] == "key":
                keys.append(run.names)
            run.act(*places)
        else:
            sent.append(value(process[2], scope))
            run.talk(*places)
    return file.free, sent, keys, run.names


class Reader:
    """Reads messages in the report form."""

    def __init__(self, text, free):
        self.words, self.free = [], free
        while text.strip():
            found = WORD.match(text)
            self.words.append(found[1])
            text = text[found.end():]

    def want(self, word):
        assert self.words.pop(0) == word, word

    def message(self):
        word = self.words.pop(0)
        if word == "(":
            if self.words[0] == ")":
                self.want(")")
                return UNIT
            first = self.message()
            self.want(",")
            second = self.message()
            self.want(")")
            return ("pair", first, second)
        if word == "{":
            body = self.message()
            self.want("}")
            return ("enc", body, self.message())
        if word == "hash" and self.words[:1] == ["("]:
            self.want("(")
            part = self.message()
            self.want(")")
            return ("hash", part)
        if word in ("inl", "inr"):
            return (word, self.message())
        return int(word[1:]) if word[0] == "#" else self.free.index(word)


def follows(message, word, at, sent, lines):
    """Whether a message follows by a clause, where `at` has indices into what was sent or numbers of lines before it."""
    if word == "Sent":
        return at[0] < len(sent) and sent[at[0]] == message
    if not all(0 < i <= len(lines) for i in at):
        return False
    of = [lines[i - 1] for i in at]
    if word == "MakeUnit":
        return message == UNIT and not of
    if word in ("MakePair", "MakeEnc"):
        return len(of) == 2 and message == ({"MakePair": "pair", "MakeEnc": "enc"}[word], *of)
    if word in ("MakeInl", "MakeInr", "MakeHash"):
        return len(of) == 1 and message == (word[4:].lower(), *of)
    if word in ("First", "Second", "TakeInl", "TakeInr"):
        form, part = {"First": ("pair", 1), "Second": ("pair", 2), "TakeInl": ("inl", 1), "TakeInr": ("inr", 1)}[word]
        return len(of) == 1 and isinstance(of[0], tuple) and of[0][0] == form and of[0][part] == message
    return word == "Open" and len(of) == 2 and of[0] == ("enc", message, of[1])


def is_certified(canonical, name, output):
    """Whether the output says that the name is known, and each of its lines follows, up to the name."""
    first, *rest = output.splitlines()
    free, sent, *_ = run_of(canonical)
    lines = []
    for number, line in enumerate(rest, 1):
        found = re.fullmatch(rf"{number} (.*) by (\w+)((?: \d+)*)", line)
        if not found:
            return False
        message = Reader(found[1], free).message()
        if not follows(message, found[2], [int(i) for i in found[3].split()], sent, lines):
            return False
        lines.append(message)
    return first == f"known: #{name}" and bool(lines) and lines[-1] == name and output.endswith("\n")
