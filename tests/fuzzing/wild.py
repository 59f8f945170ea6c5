"""Makes files of any shape that the grammar has, whatever their types say; large and deep ones; and opponents."""

from .terms import STOP, UN, UNIT, File

FREE = ["a", "b", "c", "net", "x", "k", "名", "v0", "v1", "talk", "version", "hash", "many", "endmany", "ProcNew"]
BINDERS = 60
RULES = ("ProcStop ProcOut ProcIn ProcRepeat ProcSplit ProcSplitUn ProcMatch ProcMatchUn ProcCase ProcCaseUn ProcDecrypt "
         "ProcDecryptUn ProcCheck ProcCheckUn ProcBegin ProcEnd ProcEndMany ProcCast ProcCastUn ProcNew ProcPar ProcSub MsgName "
         "MsgUnit MsgUnitUn MsgPair MsgPairUn MsgInl MsgInr MsgInlUn MsgInrUn MsgEnc MsgEncUn MsgHash").split()


class Wild:
    """Makes terms over the names in scope. Of an opponent (`calm`) all types are Un, and nothing begins or ends."""

    def __init__(self, rng, version, calm=False, nets=()):
        self.rng, self.version, self.calm, self.made, self.nets = rng, version, calm, 0, list(nets)
        self.mark = "o" if calm else "w"

    def fresh(self):
        self.made += 1
        return f"{self.mark}{self.made}_"

    def message(self, names, depth=3):
        form = self.rng.random()
        if depth == 0 or form < 0.5:
            return self.rng.choice(names) if names and not self.rng.random() < 0.1 else UNIT
        if form < 0.7:
            return ("pair", self.message(names, depth - 1), self.message(names, depth - 1))
        if form < 0.82:
            return (self.rng.choice(["inl", "inr"]), self.message(names, depth - 1))
        if form < 0.94 or self.version == 1:
            return ("enc", self.message(names, depth - 1), self.message(names, depth - 1))
        return ("hash", self.message(names, depth - 1))

    def type_(self, names, depth=3):
        form = self.rng.random()
        if self.calm or depth == 0 or form < 0.45:
            return UN
        if form < 0.5:
            return UNIT
        if form < 0.65:
            name = self.fresh()
            return ("pair", name, self.type_(names, depth - 1), self.type_([*names, name], depth - 1))
        if form < 0.75:
            return ("sum", self.type_(names, depth - 1), self.type_(names, depth - 1))
        if form < 0.87:
            return ("key", self.type_(names, depth - 1))
        kinds = ["end", "end", "check", "many"][: 3 + (self.version == 2)]
        return ("nonce", tuple((self.rng.choice(kinds), self.message(names, 2)) for _ in range(self.rng.choice([0, 1, 1, 2, 3]))))

    def channel(self, names):
        return self.rng.choice(self.nets) if self.nets and self.rng.random() < 0.8 else self.message(names, 1)

    def process(self, names, fuel):
        """A process of about so many forms."""
        if fuel <= 0:
            return STOP if self.rng.random() < 0.4 else ("out", self.channel(names), self.message(names))
        forms = "par par inp inp out out repeat split match case decrypt check cast new new".split()
        if not self.calm:
            forms += ["begin", "begin", "end", "end"] + ["endmany"] * (self.version == 2)
        form, x, y = self.rng.choice(forms), self.fresh(), self.fresh()
        if form == "par":
            left = self.rng.randint(0, fuel - 1)
            return ("par", self.process(names, left), self.process(names, fuel - 1 - left))
        if form == "out":
            return ("par", ("out", self.channel(names), self.message(names)), self.process(names, fuel - 1))
        if form in ("begin", "end", "endmany"):
            return (form, self.message(names, 2), self.process(names, fuel - 1))
        if form == "check":
            return (form, self.message(names, 1), self.message(names, 1), self.process(names, fuel - 1))
        if form == "new":
            return (form, x, self.type_(names), self.process([*names, x, x], fuel - 1))
        if form in ("inp", "repeat", "cast"):
            message = self.channel(names) if form != "cast" else self.message(names, 1)
            type_ = self.type_(names) if self.rng.random() < 0.2 else UN
            return (form, message, x, type_, self.process([*names, x, x], fuel - 1))
        return self.taking(form, names, fuel, x, y)

    def taking(self, form, names, fuel, x, y):
        """A form that takes a message apart."""
        message, first = self.message(names, 2), self.type_(names, 2)
        if form == "split":
            return (form, message, x, first, y, self.type_([*names, x], 2), self.process([*names, x, y], fuel - 1))
        if form == "match":
            return (form, message, x, first, self.message(names, 1), y, self.type_([*names, x], 2),
                    self.process([*names, y, y], fuel - 1))
        if form == "case":
            left = self.rng.randint(0, fuel - 1)
            return (form, message, x, first, self.process([*names, x], left), y, self.type_(names, 2),
                    self.process([*names, y], fuel - 1 - left))
        return (form, message, x, first, self.message(names, 1), self.process([*names, x, x], fuel - 1))


def opponent(rng, file, nets=()):
    """An opponent that knows the free names of a file."""
    return Wild(rng, file.version, calm=True, nets=nets or file.free[:2]).process(file.free, rng.randint(1, 10))


def made(rng):
    """A file of any shape, with any parts behind it."""
    version = rng.choice([1, 2])
    wild = Wild(rng, version)
    free = rng.sample([it for it in FREE if version == 1 or it not in ("hash", "many", "endmany")], rng.randint(0, 4))
    wild.nets = free[:1]
    file = File(version, free, wild.process(free, rng.randint(0, 12)))
    if rng.random() < 0.5:
        file.opponent = opponent(rng, file) if rng.random() < 0.8 else wild.process(free, 3)
    if rng.random() < 0.4:
        file.schedule = [rng.choice([f"act {rng.randrange(4)}", f"talk {rng.randrange(4)} {rng.randrange(4)}"])
                         for _ in range(rng.randint(0, 4))]
    if rng.random() < 0.2:
        file.derivation = ["ProcStop"] if rng.random() < 0.5 else [rng.choice(RULES) for _ in range(rng.randint(1, 6))]
    return file


# near and beyond the limits: of nesting 500 and 1,000, of a message's 200 nodes, of a type's 1,000, of a file's 100,000

def nested(rng, parts, times, inside):
    """What stands when each part is put round what stands so far, `times` times."""
    for at in range(times):
        inside = rng.choice(parts)(at, inside)
    return inside


def deep_message(rng, version):
    parts = [lambda _, it: ("inl", it), lambda _, it: ("inr", it), lambda _, it: ("pair", it, "a"), lambda _, it: ("pair", "a", it),
             lambda _, it: ("enc", it, "a"), lambda _, it: ("enc", "a", it)] + [lambda _, it: ("hash", it)] * (version == 2)
    return nested(rng, rng.sample(parts, rng.randint(1, 3)), rng.choice([90, 98, 99, 100, 190, 199, 200, 400, 999, 1000]), "a")


def deep_type(rng, _):
    parts = [lambda _, it: ("key", it), lambda _, it: ("sum", it, UN), lambda _, it: ("sum", UN, it),
             lambda at, it: ("pair", f"t{at}_", it, UN), lambda at, it: ("pair", f"t{at}_", UN, it)]
    return nested(rng, rng.sample(parts, rng.randint(1, 2)), rng.choice([200, 400, 499, 500, 998, 999, 1000]), UN)


def deep_process(rng, _):
    parts = [lambda _, it: ("begin", "a", it), lambda at, it: ("inp", "a", f"x{at}_", UN, it), lambda at, it: ("new", f"x{at}_", UN, it),
             lambda _, it: ("par", STOP, it), lambda _, it: ("par", it, STOP), lambda _, it: ("par", ("out", "a", "a"), it),
             lambda at, it: ("case", "a", f"x{at}_", UN, it, f"y{at}_", UN, STOP),
             lambda at, it: ("case", "a", f"x{at}_", UN, STOP, f"y{at}_", UN, it), lambda at, it: ("repeat", "a", f"x{at}_", UN, it),
             lambda at, it: ("cast", "a", f"x{at}_", UN, it), lambda _, it: ("check", "a", "a", it)]
    return nested(rng, rng.sample(parts, rng.randint(1, 4)), rng.choice([200, 400, 490, 498, 499, 500, 501]), STOP)


def wide_process(rng, depth):
    """Groups in groups, with begins that pay for their ends."""
    if depth == 0:
        label = nested(rng, [lambda _, it: ("inl", it), lambda _, it: ("inr", it)], rng.randint(0, 12), "a")
        return ("begin", label, ("end", label, STOP)) if rng.random() < 0.999 else ("end", label, STOP)
    return ("par", wide_process(rng, depth - 1), wide_process(rng, depth - 1))


def large(rng):
    """A file that is deep or large."""
    version, form = rng.choice([1, 2]), rng.random()
    file = File(version, ["a"], STOP)
    if form < 0.25:
        file.process = ("out", "a", deep_message(rng, version))
    elif form < 0.5:
        file.process = ("new", "k", ("key", deep_type(rng, version)), STOP)
    elif form < 0.75:
        file.process = deep_process(rng, version)
    elif form < 0.9:
        file.process = wide_process(rng, rng.randint(8, 12))
    else:
        file.process, file.opponent = ("repeat", "a", "x", UN, STOP), ("repeat", "a", "y", UN, ("out", "a", ("pair", "y", "y")))
        file.opponent = ("par", ("out", "a", UNIT), file.opponent) if rng.random() < 0.5 else file.opponent
        file.schedule = [rng.choice(["act 0", "act 1", "talk 1 0", "talk 2 1"])] * rng.choice([100, 9999, 10000, 10001])
    return file
