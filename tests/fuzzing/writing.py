"""Writes files: with spellings, groups, tuples, abbreviations and a layout that a generator of random numbers picks.

`written(file, rng)` picks them all; `plain(file)` is the shortest way. `laid_out(tokens, rng)` writes tokens one after
another, with blanks, comments and ends of lines between them."""

from .terms import RESERVED, RESERVED_IN_2, SHAPES, names_in, names_in_type

SPELLINGS = ["a", "b", "c", "k", "m", "n", "p", "q", "x", "y", "net", "key1", "v0", "v3", "v12", "_", "é", "名", "λx", "act", "talk",
             "version", "hash", "many", "endmany", "MsgName", "ProcSub", "hash_0", "shared", "to"]
TYPE_SPELLINGS = ["T", "Msg", "U0", "act", "a", "版"]
BLANKS = [" "] * 12 + ["  ", "\t", "\n", "\r\n", "\n  ", "// é x\n", "//\n", " // ; | stop\n"]


def is_word(token):
    return token[:1].isalnum() or token[:1] == "_"


def laid_out(tokens, rng=None):
    """A text with these tokens."""
    text, before = [], ""
    for token in tokens:
        must = is_word(before) and is_word(token)
        if rng is None:
            text.append(" " if must else "")
        elif must or rng.random() < 0.6:
            text.append(rng.choice(BLANKS))
        text.append(token)
        before = token
    return "".join(text)


class Writer:
    """Gathers the tokens of a file. Without a generator nothing is picked: each name is spelled as it's called."""

    def __init__(self, file, rng):
        self.file, self.rng, self.tokens, self.free_of = file, rng, [], {}
        self.reserved = RESERVED | (RESERVED_IN_2 if file.version == 2 else set())
        self.spelled = {name: name for name in file.free}
        self.types = {}

    def picks(self, chance):
        return self.rng is not None and self.rng.random() < chance

    def add(self, *tokens):
        self.tokens.extend(tokens)

    # names

    def names_of(self, process):
        """The names of a process that it doesn't bind."""
        found = self.free_of.get(id(process))
        if found is None:
            found = set()
            for kind, part in zip(SHAPES[process[0]], process[1:]):
                found |= {"m": names_in, "t": names_in_type, "p": self.names_of, "x": lambda _: set()}[kind](part)
            found -= {part for kind, part in zip(SHAPES[process[0]], process[1:]) if kind == "x"}
            self.free_of[id(process)] = found
        return found

    def spell(self, name, taken):
        """Spells a binder's name, as no name is that `taken` has, which are those used in its scope."""
        if self.rng is None:
            self.spelled[name] = name
            return name
        avoided = self.reserved | {self.spelled.get(it) for it in taken if it != name}
        spelled = self.rng.choice(SPELLINGS)
        at = self.rng.randrange(3)
        while spelled in avoided:
            spelled, at = f"w{at}", at + 1
        self.spelled[name] = spelled
        return spelled

    # messages and types

    def message(self, message):
        if isinstance(message, str):
            self.add(self.spelled[message])
        elif message[0] == "unit":
            self.add("(", ")")
        elif message[0] == "pair":
            self.add("(")
            self.message(message[1])
            self.add(",")
            rest = message[2]
            while rest[0] == "pair" and not isinstance(rest, str) and not self.picks(0.3):
                self.message(rest[1])
                self.add(",")
                rest = rest[2]
            self.message(rest)
            self.add(")")
        elif message[0] == "enc":
            self.add("{")
            self.message(message[1])
            self.add("}")
            self.message(message[2])
        elif message[0] == "hash":
            self.add("hash", "(")
            self.message(message[1])
            self.add(")")
        else:
            self.add(message[0])
            self.message(message[1])

    def type_(self, type_):
        head = type_[0]
        if type_ in self.types and self.picks(0.7):
            self.add(self.types[type_])
        elif head == "un":
            self.add("Un")
        elif head == "unit":
            self.add("(", ")")
        elif head == "key":
            self.add("Key", "(")
            self.type_(type_[1])
            self.add(")")
        elif head == "sum":
            self.add("(")
            self.type_(type_[1])
            self.add("+")
            self.type_(type_[2])
            self.add(")")
        elif head == "nonce":
            self.add("Nonce")
            self.atoms(type_[1])
        else:
            self.pair_type(type_)

    def pair_type(self, type_):
        self.add("(")
        while True:
            _, name, first, second = type_
            before = self.tokens
            self.tokens = []
            self.type_(first)  # it's written in the scope before the name's own
            of_first, self.tokens = self.tokens, before
            self.add(self.spell(name, names_in_type(second)), ":", *of_first, ",")
            type_ = second
            if type_[0] != "pair" or type_ in self.types or self.picks(0.3):
                break
        if self.picks(0.2):
            self.add(self.rng.choice(["z", "last", self.file.free[0] if self.file.free else "z"]), ":")
        self.type_(type_)
        self.add(")")

    def atoms(self, atoms):
        self.add("[")
        for at, (kind, message) in enumerate(atoms):
            self.add(*[","] * (at > 0), kind)
            self.message(message)
        self.add("]")

    # processes

    def binder(self, name, type_, taken):
        before = self.tokens
        self.tokens = []
        self.type_(type_)
        of_type, self.tokens = self.tokens, before
        self.add(self.spell(name, taken), ":", *of_type)

    def process(self, process):
        """A process where bars may stand."""
        while process[0] == "par" and not (process[1][0] == "out" and self.picks(0.5)):
            self.sequel(process[1])
            self.add("|")
            process = process[2]
        self.sequel(process)

    def sequel(self, process):
        """A process where none may."""
        while process[0] not in ("stop", "out", "par", "case"):
            process = getattr(self, f"write_{process[0]}")(process)
        if process[0] == "stop":
            self.add("stop")
        elif process[0] == "out":
            self.out(process)
        elif process[0] == "case":
            self.case(process)
        elif process[1][0] == "out" and not self.picks(0.3):
            self.out(process[1])
            self.add(";")
            self.sequel(process[2])
        else:
            self.add("(")
            self.sequel(process[1])
            self.add("|")
            self.process(process[2])
            self.add(")")

    def out(self, out):
        self.add("out")
        self.message(out[1])
        self.message(out[2])

    def case(self, process):
        _, message, x, first, left, y, second, right = process
        self.add("case")
        self.message(message)
        for side, name, type_, behind in (("inl", x, first, left), ("inr", y, second, right)):
            self.add("is", side, "(")
            self.binder(name, type_, self.names_of(behind))
            self.add(")", ";")
            self.sequel(behind)

    def one_binder(self, process, name, type_):
        self.add("(")
        self.binder(name, type_, self.names_of(process[-1]))
        self.add(")", ";")
        return process[-1]

    def write_inp(self, process):
        self.add("inp")
        self.message(process[1])
        return self.one_binder(process, process[2], process[3])

    def write_repeat(self, process):
        self.add("repeat")
        return self.write_inp(process)

    def write_cast(self, process):
        self.add("cast")
        self.message(process[1])
        self.add("is")
        return self.one_binder(process, process[2], process[3])

    def write_new(self, process):
        self.add("new")
        return self.one_binder(process, process[1], process[2])

    def write_event(self, process):
        self.add(process[0])
        self.message(process[1])
        self.add(";")
        return process[-1]

    write_begin = write_end = write_endmany = write_event

    def write_check(self, process):
        self.add("check")
        self.message(process[1])
        self.add("is")
        self.message(process[2])
        self.add(";")
        return process[-1]

    def write_decrypt(self, process):
        _, message, x, type_, key, behind = process
        self.add("decrypt")
        self.message(message)
        self.add("is", "{")
        kept, self.tokens = self.tokens, []
        self.message(key)  # in the scope before x
        of_key, self.tokens = self.tokens, kept
        self.binder(x, type_, self.names_of(behind))
        self.add("}", *of_key, ";")
        return behind

    def write_split(self, process):
        _, message, x, first, y, second, behind = process
        self.add("split")
        self.message(message)
        self.add("is", "(")
        self.binder(x, first, names_in_type(second) | self.names_of(behind))
        self.add(",")
        # x must still be seen behind y, so y's spelling isn't x's where x is used there
        self.binder(y, second, self.names_of(behind))
        self.add(")", ";")
        return behind

    def write_match(self, process):
        _, message, x, first, given, y, second, behind = process
        self.add("match")
        self.message(message)
        self.add("is", "(")
        kept, self.tokens = self.tokens, []
        self.message(given)
        of_given, self.tokens = self.tokens, kept
        self.binder(x, first, names_in_type(second))
        self.add("=", *of_given, ",")
        self.binder(y, second, self.names_of(behind))
        self.add(")", ";")
        return behind

    # files

    def head(self):
        if self.file.version == 2:
            self.add("version", "2", ";")
        free = self.file.free
        if free and (self.rng is None or not self.picks(0.2)):
            self.add("free", *", ".join(free).replace(",", " ,").split(), ";")
        else:
            for name in free:
                self.add("free", name, ";")
        words = iter(self.rng.sample(TYPE_SPELLINGS, len(TYPE_SPELLINGS)) if self.rng else [])
        for type_, word in zip(self.file.types if self.rng else [], words):
            if word not in self.reserved and type_ not in self.types:
                self.add("type", word, "=")
                self.type_(type_)
                self.add(";")
                self.types[type_] = word

    def all(self):
        self.head()
        self.add("process")
        self.process(self.file.process)
        if self.file.opponent is not None:
            self.add("opponent")
            self.process(self.file.opponent)
        if self.file.schedule is not None:
            self.add("schedule")
            for step in self.file.schedule:
                self.add(*step.split(), ";")
        if self.file.derivation is not None:
            self.add("derivation", *self.file.derivation)
        return self.tokens


def written(file, rng):
    """A text of the file in which all that is free is picked."""
    tokens = Writer(file, rng).all()
    return laid_out(tokens, rng if rng.random() < 0.5 else None)


def plain(file):
    """The shortest text of the file, in which all names are as they're called."""
    return laid_out(Writer(file, None).all())
