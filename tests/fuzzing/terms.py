"""Messages, types and processes as the fuzzer has them, and how they are written and read.

A name is its text; each binder has a name of its own, so that nothing is ever captured. All else is a tuple with the name
of its form first:

  messages    ("unit",) ("pair", M, N) ("inl", M) ("inr", M) ("enc", M, K) ("hash", M)
  types       ("un",) ("unit",) ("pair", x, T, U) ("sum", T, U) ("key", T) ("nonce", (atom, ..))
  atoms       ("end", M) ("check", M) ("many", M)
  processes   ("stop",) ("out", M, N) ("par", P, Q) ("inp", M, x, T, P) ("repeat", M, x, T, P)
              ("split", M, x, T, y, U, P) ("match", M, x, T, N, y, U, P) ("case", M, x, T, P, y, U, Q)
              ("decrypt", M, x, T, K, P) ("check", M, N, P) ("begin", L, P) ("end", L, P) ("endmany", L, P)
              ("cast", M, x, T, P) ("new", x, T, P)

A file is a `File`: its version, free names, process, and what stands behind it."""

import re
from dataclasses import dataclass, field

UN, UNIT, STOP = ("un",), ("unit",), ("stop",)

# what stands in a form behind its name: m a message, t a type, x a binder, p a process
SHAPES = {
    "stop": "", "out": "mm", "par": "pp", "inp": "mxtp", "repeat": "mxtp", "split": "mxtxtp", "match": "mxtmxtp",
    "case": "mxtpxtp", "decrypt": "mxtmp", "check": "mmp", "begin": "mp", "end": "mp", "endmany": "mp", "cast": "mxtp", "new": "xtp",
}
RESERVED = set("free type process opponent schedule derivation out inp repeat split match case decrypt check begin end cast "
               "new stop is inl inr Un Key Nonce".split())
RESERVED_IN_2 = {"hash", "endmany", "many"}
TOKEN = re.compile(r"//[^\n]*\n?|[^\W\d]\w*|\d+|[()\[\]{},;:=|+#]|[ \t\r\n]+|.", re.S)


@dataclass
class File:
    """A file as it is meant. `schedule` has steps as texts, `derivation` rules."""
    version: int
    free: list
    process: tuple
    opponent: tuple = None
    schedule: list = None
    derivation: list = None
    types: list = field(default_factory=list)


def tokens_of(text):
    """The tokens of a text, without what separates them."""
    return [it for it in TOKEN.findall(text) if not it.startswith("//") and not it.isspace()]


# substitution and names

def put(message, values):
    """A message with messages for names."""
    if isinstance(message, str):
        return values.get(message, message)
    return (message[0], *(put(part, values) for part in message[1:]))


def put_in_type(type_, values):
    """A type with messages for names."""
    head = type_[0]
    if head == "pair":
        return ("pair", type_[1], put_in_type(type_[2], values), put_in_type(type_[3], values))
    if head in ("sum", "key"):
        return (head, *(put_in_type(part, values) for part in type_[1:]))
    if head == "nonce":
        return ("nonce", tuple((kind, put(message, values)) for kind, message in type_[1]))
    return type_


def put_in_process(process, values):
    """A process with messages for names."""
    puts = {"m": put, "t": put_in_type, "p": put_in_process, "x": lambda it, _: it}
    return (process[0], *(puts[kind](part, values) for kind, part in zip(SHAPES[process[0]], process[1:])))


def names_in(message):
    """The names of a message."""
    return {message} if isinstance(message, str) else set().union(*(names_in(part) for part in message[1:]))


def names_in_type(type_):
    """The names of a type that it doesn't bind."""
    head = type_[0]
    if head == "pair":
        return names_in_type(type_[2]) | names_in_type(type_[3]) - {type_[1]}
    if head == "nonce":
        return set().union(*(names_in(message) for _, message in type_[1]))
    return set().union(*(names_in_type(part) for part in type_[1:]))


def key_of(type_, bound=()):
    """A type's key: two types have one exactly where they are the same up to the counts in a nonce type."""
    head = type_[0]
    if head == "pair":
        return ("pair", key_of(type_[2], bound), key_of(type_[3], (*bound, type_[1])))
    if head == "nonce":
        places = {name: ("bound", len(bound) - at) for at, name in enumerate(bound)}
        atoms = [(kind, repr(put(message, places))) for kind, message in type_[1]]
        return ("nonce", tuple(sorted([it for it in atoms if it[0] != "many"] + list({it for it in atoms if it[0] == "many"}))))
    return (head, *(key_of(part, bound) for part in type_[1:]))


def size(message):
    """The nodes of a message."""
    return 1 if isinstance(message, str) or isinstance(message, int) else 1 + sum(size(part) for part in message[1:])


# reading the canonical text of a file

class Reader:
    """Reads tokens that are known to spell a file without abbreviations."""

    def __init__(self, tokens):
        self.tokens, self.at, self.made, self.version = [*tokens, ""], 0, 0, 1

    def next(self):
        self.at += 1
        return self.tokens[self.at - 1]

    def here(self):
        return self.tokens[self.at]

    def met(self, token):
        if self.here() == token:
            self.at += 1
            return True
        return False

    def want(self, token):
        if self.next() != token:
            raise ValueError(f"{token} was expected, and not {self.tokens[self.at - 1]}")

    def message(self, scope):
        token = self.next()
        if token == "(":
            if self.met(")"):
                return UNIT
            parts = [self.message(scope)]
            while self.met(","):
                parts.append(self.message(scope))
            self.want(")")
            while len(parts) > 1:
                parts[-2:] = [("pair", parts[-2], parts[-1])]
            return parts[0]
        if token in ("inl", "inr"):
            return (token, self.message(scope))
        if token == "{":
            body = self.message(scope)
            self.want("}")
            return ("enc", body, self.message(scope))
        if token == "hash" and self.version == 2:
            self.next()
            part = self.message(scope)
            self.want(")")
            return ("hash", part)
        return scope[token]

    def type_(self, scope):
        token = self.next()
        if token == "Un":
            return UN
        if token == "Key":
            self.want("(")
            part = self.type_(scope)
            self.want(")")
            return ("key", part)
        if token == "Nonce":
            return ("nonce", self.atoms(scope))
        if self.met(")"):
            return UNIT
        if self.tokens[self.at + 1] == ":":
            return self.rest_of_pair(scope)
        first = self.type_(scope)
        self.want("+")
        second = self.type_(scope)
        self.want(")")
        return ("sum", first, second)

    def rest_of_pair(self, scope):
        """What is left of a tuple type, from a component on to its parenthesis."""
        if self.tokens[self.at + 1] != ":":
            last = self.type_(scope)
            self.want(")")
            return last
        word = self.next()
        self.next()
        first = self.type_(scope)
        if self.met(")"):
            return first
        self.want(",")
        name = self.fresh(word)
        return ("pair", name, first, self.rest_of_pair({**scope, word: name}))

    def atoms(self, scope):
        found = []
        self.want("[")
        while not self.met("]"):
            kind = self.next()
            found.append((kind, self.message(scope)))
            self.met(",")
        return tuple(found)

    def fresh(self, word):
        self.made += 1
        return f"{word}__{self.made}"

    def binder(self, scope, inner):
        """A word, a colon and a type; the name comes into the scope `inner`."""
        word = self.next()
        self.want(":")
        type_ = self.type_(scope)
        inner[word] = self.fresh(word)
        return inner[word], type_

    def process(self, scope):
        first = self.sequel(scope)
        return ("par", first, self.process(scope)) if self.met("|") else first

    def sequel(self, scope):
        form = self.next()
        if form == "(":
            inside = self.process(scope)
            self.want(")")
            return inside
        if form == "stop":
            return STOP
        inner = dict(scope)
        if form == "new":
            self.want("(")
            bound = self.binder(scope, inner)
            self.want(")")
            return ("new", *bound, self.behind(inner))
        if form == "repeat":
            self.want("inp")
        message = self.message(scope)
        if form == "out":
            out = ("out", message, self.message(scope))
            return ("par", out, self.sequel(scope)) if self.met(";") else out
        if form in ("begin", "end", "endmany"):
            return (form, message, self.behind(scope))
        return getattr(self, f"behind_{form}")(message, scope, inner)

    def behind(self, scope):
        self.want(";")
        return self.sequel(scope)

    def one_binder(self, scope, inner):
        self.want("(")
        bound = self.binder(scope, inner)
        self.want(")")
        return bound

    def behind_inp(self, message, scope, inner, form="inp"):
        return (form, message, *self.one_binder(scope, inner), self.behind(inner))

    def behind_repeat(self, message, scope, inner):
        return self.behind_inp(message, scope, inner, "repeat")

    def behind_cast(self, message, scope, inner):
        self.want("is")
        return self.behind_inp(message, scope, inner, "cast")

    def behind_check(self, message, scope, _):
        self.want("is")
        return ("check", message, self.message(scope), self.behind(scope))

    def behind_decrypt(self, message, scope, inner):
        self.want("is")
        self.want("{")
        bound = self.binder(scope, inner)
        self.want("}")
        key = self.message(scope)
        return ("decrypt", message, *bound, key, self.behind(inner))

    def behind_split(self, message, scope, inner):
        self.want("is")
        self.want("(")
        first = self.binder(scope, inner)
        self.want(",")
        second = self.binder(dict(inner), inner)
        self.want(")")
        return ("split", message, *first, *second, self.behind(inner))

    def behind_match(self, message, scope, _):
        self.want("is")
        self.want("(")
        inner, behind = dict(scope), dict(scope)
        first = self.binder(scope, inner)
        self.want("=")
        given = self.message(scope)
        self.want(",")
        second = self.binder(inner, behind)
        self.want(")")
        return ("match", message, *first, given, *second, self.behind(behind))

    def behind_case(self, message, scope, _):
        parts = []
        for side in ("inl", "inr"):
            self.want("is")
            self.want(side)
            inner = dict(scope)
            bound = self.one_binder(scope, inner)
            parts += [*bound, self.behind(inner)]
        return ("case", message, *parts)


def read(text):
    """The file of a canonical text, up to its derivation."""
    reader = Reader(tokens_of(text))
    if reader.met("version"):
        reader.version = int(reader.next())
        reader.want(";")
    free = []
    if reader.met("free"):
        free.append(reader.next())
        while reader.met(","):
            free.append(reader.next())
        reader.want(";")
    reader.want("process")
    scope = {name: name for name in free}
    file = File(reader.version, free, reader.process(scope))
    if reader.met("opponent"):
        file.opponent = reader.process(scope)
    if reader.met("schedule"):
        file.schedule = []
        while reader.here() in ("act", "talk"):
            file.schedule.append(" ".join([reader.next() for _ in range(2 if reader.here() == "act" else 3)]))
            reader.want(";")
    return file
