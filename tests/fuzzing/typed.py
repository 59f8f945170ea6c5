"""Makes files that are typed with the empty effect, by going along the rules of typing.

A process is made form by form, forward. `allowed` has what the process to come may still ask for, as counts of atoms: a
`begin` adds to it, an `end` takes from it, and so each rule that speaks of effects. What is asked for never gets out, so
the effect of the whole is empty. Roles stand beside one another under keys that they share: some send what only they can
have made, others ask with a nonce, open what comes, check the nonce, and end."""

from collections import Counter

from .terms import STOP, UN, UNIT, File, key_of, names_in_type, put_in_type

FREE = ["a", "b", "c", "net", "d", "é", "version", "hash", "many", "act", "v4", "MsgName"]
FORMS_AT_MOST = 60


def nonces_in(type_):
    """How many nonces a value of a type may bring."""
    if type_[0] == "nonce":
        return 1
    if type_[0] == "pair":
        return nonces_in(type_[2]) + nonces_in(type_[3])
    return max(map(nonces_in, type_[1:])) if type_[0] == "sum" else 0


class Branch:
    """Where the next form stands: the types of the names in scope, what may be asked for, and the forms before it."""

    def __init__(self, types, allowed, fuel):
        self.types, self.allowed, self.fuel, self.forms = dict(types), Counter(allowed), fuel, []

    def names(self, type_):
        key = key_of(type_)
        return [name for name, it in self.types.items() if key_of(it) == key]

    def heads(self, head):
        return [name for name, it in self.types.items() if it[0] == head]


class Maker:
    """Makes one file. It slips so many times: it then ends twice, leaves a check out, lets a name be checked once more, casts
    without a begin, or repeats what may end once; such a file is mostly a no, and a yes to whoever doesn't look there."""

    def __init__(self, rng, version, slips=0):
        self.rng, self.version, self.made, self.left, self.slips = rng, version, 0, FORMS_AT_MOST, slips
        self.free = rng.sample([it for it in FREE if version == 1 or it not in ("hash", "many")], rng.randint(1, 5))
        self.nets = self.free[: rng.randint(1, 2)]

    def fresh(self, word):
        self.made += 1
        return f"{word}{self.made}_"

    def picks(self, chance):
        return self.rng.random() < chance

    def slip(self, chance=0.8):
        """Whether it slips here."""
        if self.slips and self.picks(chance):
            self.slips -= 1
            return True
        return False

    # types

    def label(self, names, depth=2):
        """A label over these names."""
        form = self.rng.random()
        if depth == 0 or form < 0.55:
            return self.rng.choice(names) if names and not self.picks(0.05) else UNIT
        if form < 0.9:
            return ("pair", self.label(names, depth - 1), self.label(names, depth - 1))
        if form < 0.96 or self.version == 1:
            return (self.rng.choice(["inl", "inr"]), self.label(names, depth - 1))
        return ("hash", self.label(names, depth - 1))

    def nonce_type(self, names):
        kinds = ["end"] * 4 + ["many"] * 2 * (self.version == 2)
        times = self.rng.choice([0, 1, 1, 1, 1, 2, 2, 3])
        return ("nonce", tuple((self.rng.choice(kinds), self.label(names)) for _ in range(times)))

    def payload(self, names, depth=2):
        """A type for what keys carry: often a dependent tuple with a nonce in it, which pays for what it's beside."""
        form = self.rng.random()
        if depth and form < 0.12:
            return ("sum", self.payload(names, depth - 1), self.payload(names, depth - 1))
        if form < 0.2:
            return self.rng.choice([UN, UNIT, self.nonce_type(names), ("key", UN)])
        parts, seen = [], list(names)
        for _ in range(self.rng.randint(2, 4)):
            part = self.part(seen, depth)
            parts.append((self.fresh("t"), part))
            if part == UN:
                seen.append(parts[-1][0])
        type_ = parts[-1][1] if self.picks(0.5) else self.nonce_type(seen if parts[-1][0] not in seen else seen[:-1])
        for name, part in reversed(parts[:-1]):
            type_ = ("pair", name, part, type_)
        return type_

    def part(self, seen, depth):
        form = self.rng.random()
        if form < 0.6:
            return UN
        if form < 0.85:
            return self.nonce_type(seen)
        if form < 0.9 or not depth:
            return UNIT
        if form < 0.96:
            return ("key", UN if self.picks(0.5) else self.payload(seen, depth - 1))
        return self.payload(seen, depth - 1)

    # messages

    def untrusted(self, at, depth=2):
        """A message of type Un."""
        names, form = at.heads("un"), self.rng.random()
        if depth == 0 or form < 0.55:
            return self.rng.choice(names) if names and not self.picks(0.05) else UNIT
        if form < 0.75:
            return ("pair", self.untrusted(at, depth - 1), self.untrusted(at, depth - 1))
        if form < 0.85:
            return (self.rng.choice(["inl", "inr"]), self.untrusted(at, depth - 1))
        if form < 0.92:
            return ("enc", self.untrusted(at, depth - 1), self.untrusted(at, depth - 1))
        return ("hash", self.label(list(at.types), depth - 1)) if self.version == 2 else UNIT

    def of_type(self, at, type_):
        """A message of a type, after the forms that it takes to have one; or None."""
        found, head = at.names(type_), type_[0]
        if found and self.picks(0.75 if head != "un" else 0.5):
            return self.rng.choice(found)
        if head == "un":
            return self.untrusted(at)
        if head == "unit":
            return UNIT
        if head == "pair":
            first = self.of_type(at, type_[2])
            second = first is not None and self.of_type(at, put_in_type(type_[3], {type_[1]: first}))
            return ("pair", first, second) if second else None
        if head == "sum":
            side = self.rng.randrange(2)
            part = self.of_type(at, type_[1 + side])
            return part and (("inl", "inr")[side], part)
        if head == "key":
            name = self.fresh("k")
            self.add(at, ("new", name, type_), {name: type_})
            return name
        return self.cast(at, type_)

    def cast(self, at, type_):
        """A name of a nonce type, cast after what it stands for has begun; or None."""
        asked = Counter(type_[1])
        for (kind, label), times in asked.items():
            if kind == "check" and at.allowed[kind, label] < times:
                return None
        for (kind, label), times in asked.items():
            missing = times - at.allowed["end", label] if kind == "end" else int(not at.allowed["many", label])
            for _ in range(missing if kind != "check" and not self.slip(0.5) else 0):
                self.begin(at, label)
        heard = [name for name in at.heads("un") if name.startswith("q")]
        if not heard or self.picks(0.1):
            heard = [self.hear(at, "q")]
        name = self.fresh("p")
        for atom, times in asked.items():
            at.allowed[atom] -= min(times, at.allowed[atom]) if atom[0] != "many" else 0
        self.add(at, ("cast", self.rng.choice(heard[-2:]), name, type_), {name: type_})
        return name

    # forms

    def add(self, at, form, types=()):
        """Puts a form behind those before it; `types` are the names that it binds."""
        at.forms.append(form)
        at.types.update(types)
        self.left -= 1

    def net(self, at):
        return self.rng.choice(self.nets) if self.picks(0.85) else self.untrusted(at, 1)

    def hear(self, at, word="c"):
        name = self.fresh(word)
        self.add(at, ("inp", self.net(at), name, UN), {name: UN})
        return name

    def begin(self, at, label):
        at.allowed["end", label] += 1
        at.allowed["many", label] = 1
        self.add(at, ("begin", label))

    def challenge(self, at):
        """A new nonce, mostly sent."""
        name = self.fresh("n")
        at.allowed["check", name] += 1
        self.add(at, ("new", name, UN), {name: UN})
        if self.picks(0.9):
            self.add(at, ("out", self.net(at), name if self.picks(0.8) else ("pair", name, self.untrusted(at, 1))))

    def send(self, at, key=None):
        keys = [key] if key else at.heads("key")
        if keys and self.picks(0.85):
            key = self.rng.choice(keys)
            body = self.of_type(at, at.types[key][1])
            if body is not None:
                self.add(at, ("out", self.net(at), ("enc", body, key)))
                return
        self.add(at, ("out", self.net(at), self.untrusted(at)))

    def receive(self, at, key=None):
        name, keys = self.hear(at), [key] if key else at.heads("key")
        if keys and self.picks(0.9):
            key, body = self.rng.choice(keys), self.fresh("x")
            type_ = at.types[key][1]
            self.add(at, ("decrypt", name, body, type_, key), {body: type_})
            self.take(at, body)
        elif self.picks(0.5):
            self.take_untrusted(at, name)

    def take(self, at, name):
        """Takes a value of some type apart, as far as it goes."""
        type_ = at.types[name]
        if type_[0] == "pair":
            x, y = self.fresh("x"), self.fresh("y")
            _, bound, first, second = type_
            given = [it for it in at.names(first)] if self.picks(0.15) else []
            if given:
                given = self.rng.choice(given)
                self.add(at, ("match", name, bound + "m", first, given, y, put_in_type(second, {bound: bound + "m"})),
                         {y: put_in_type(second, {bound: given})})
            else:
                second = put_in_type(second, {bound: x})
                self.add(at, ("split", name, x, first, y, second), {x: first, y: second})
                self.take(at, x)
            self.take(at, y)
        elif type_[0] == "sum":
            self.branch(at, name, type_[1], type_[2])
        elif type_[0] == "nonce":
            self.check(at, name)

    def branch(self, at, message, first, second):
        """A case, of which one branch goes on here and the other is made at once."""
        x, y = self.fresh("x"), self.fresh("y")
        side = self.rng.randrange(2)
        other = Branch({**at.types, (x, y)[1 - side]: (first, second)[1 - side]}, at.allowed, self.rng.randint(0, 3))
        self.take(other, (x, y)[1 - side])
        aside = self.finished(other)
        if side == 0:
            self.add(at, ("case left", message, x, first, y, second, aside), {x: first})
        else:
            self.add(at, ("case right", message, x, first, aside, y, second), {y: second})
        self.take(at, (x, y)[side])

    def take_untrusted(self, at, name):
        form, x, y = self.rng.random(), self.fresh("x"), self.fresh("y")
        if form < 0.4:
            self.add(at, ("split", name, x, UN, y, UN), {x: UN, y: UN})
        elif form < 0.6:
            self.add(at, ("match", name, x, UN, self.untrusted(at, 1), y, UN), {y: UN})
        elif form < 0.75:
            self.branch(at, name, UN, UN)
        elif form < 0.85:
            self.add(at, ("decrypt", name, x, UN, self.untrusted(at, 1)), {x: UN})
        elif form < 0.95:
            self.add(at, ("check", name, self.untrusted(at, 1)))
        else:
            self.add(at, ("cast", name, x, UN), {x: UN})

    def check(self, at, nonce):
        """Checks a value of a nonce type against a name that may still be checked."""
        mine = [label for (kind, label), times in at.allowed.items() if kind == "check" and times > 0]
        if mine and self.picks(0.9):
            name = mine[0] if self.picks(0.8) else self.rng.choice(mine)
            at.allowed["check", name] -= not self.slip(0.5)
            for kind, label in at.types[nonce][1]:
                at.allowed[kind, label] = 1 if kind == "many" else at.allowed[kind, label] + 1
            if not self.slip(0.5):
                self.add(at, ("check", name, nonce))
            self.end(at)

    def end(self, at):
        """Some of the ends that are allowed."""
        for (kind, label), times in list(at.allowed.items()):
            if kind == "end" and times > 0 and self.picks(0.75):
                at.allowed[kind, label] -= 1
                for _ in range(1 + self.slip()):
                    self.add(at, ("end", label))
            elif kind == "many" and times > 0 and self.version == 2 and self.picks(0.4):
                self.add(at, ("endmany", label))

    def share(self, at):
        """A part beside what comes; what is allowed is split between the two."""
        kept = Counter()
        for atom, times in at.allowed.items():
            kept[atom] = times if atom[0] == "many" else self.rng.randint(0, times)
        beside = Branch(at.types, self.rest_of(at.allowed, kept), self.rng.randint(1, 4))
        at.allowed = kept
        self.add(at, ("beside", self.grown(beside)))

    @staticmethod
    def rest_of(allowed, kept):
        return Counter({atom: times if atom[0] == "many" else times - kept[atom] for atom, times in allowed.items()})

    def repeat(self, at):
        name = self.fresh("q")
        if not self.slip():
            at.allowed = Counter({atom: times for atom, times in at.allowed.items() if atom[0] == "many" and self.version == 2})
        self.add(at, ("repeat", self.net(at), name, UN), {name: UN})

    def step(self, at):
        """One more form, or a few that belong together."""
        form = self.rng.random()
        if form < 0.22:
            self.send(at)
        elif form < 0.5:
            if self.picks(0.6):
                self.challenge(at)
            self.receive(at)
        elif form < 0.6:
            self.challenge(at)
        elif form < 0.68:
            self.hear(at, "q")
        elif form < 0.76:
            self.begin(at, self.label(list(at.types)))
        elif form < 0.82:
            self.end(at)
        elif form < 0.88:
            self.share(at)
        elif form < 0.92:
            name = self.fresh("k")
            type_ = ("key", self.payload(self.free))
            self.add(at, ("new", name, type_), {name: type_})
        elif form < 0.95 and at.heads("nonce"):
            self.check(at, self.rng.choice(at.heads("nonce")))
        elif form < 0.98:
            self.take_untrusted(at, self.untrusted(at, 1))
        else:
            self.repeat(at)

    def grown(self, at):
        while at.fuel > 0 and self.left > 0:
            at.fuel -= 1
            self.step(at)
        return self.finished(at)

    def finished(self, at):
        """The process of a branch's forms."""
        process = STOP
        if self.picks(0.3):
            self.end(at)
        for form in reversed(at.forms):
            if form[0] == "beside":
                process = ("par", form[1], process) if self.picks(0.5) else ("par", process, form[1])
            elif form[0] == "out":
                process = form if process == STOP and self.picks(0.8) else ("par", form, process)
            elif form[0] == "case left":
                process = ("case", *form[1:4], process, *form[4:])
            elif form[0] == "case right":
                process = ("case", *form[1:], process)
            else:
                process = (*form, process)
        return process

    def role(self, types, kind, key=None):
        """A role: one that sends, one that asks with a nonce and opens, or any. `key` is what it's most about."""
        at = Branch(types, {}, self.rng.choice([0, 0, 1, 2, 3]))
        if self.picks(0.35):
            self.repeat(at)
        if kind == "sends":
            if self.picks(0.5):
                self.hear(at, "q")
            self.send(at, key)
        elif kind == "asks":
            for _ in range(nonces_in(at.types[key][1]) if key and self.picks(0.8) else self.rng.choice([0, 1, 1, 2])):
                self.challenge(at)
            self.receive(at, key)
        else:
            at.fuel += 3
        return self.grown(at)

    def roles(self, keys):
        """Which roles there are, and with which keys: mostly who sends and who asks under the same key."""
        for key in keys:
            if self.picks(0.75):
                yield from [("sends", key), ("asks", key)]
        for _ in range(self.rng.choice([0, 0, 1, 2]) or not keys):
            yield self.rng.choice(["sends", "asks", "any"]), None

    def file(self):
        types = {name: UN for name in self.free}
        keys = {self.fresh("k"): ("key", self.payload(self.free)) for _ in range(self.rng.choice([0, 1, 1, 1, 2, 2, 3]))}
        process = None
        for kind, key in self.rng.sample(found := list(self.roles(keys)), len(found)):
            role = self.role({**types, **keys}, kind, key)
            process = role if process is None else ("par", role, process)
        process = process or STOP
        for name, type_ in reversed(keys.items()):
            process = ("new", name, type_, process)
        abbreviated = [type_ for _, payload in keys.values() for type_ in [payload, ("key", payload)]] + [UN]
        closed = [type_ for type_ in abbreviated if names_in_type(type_) <= set(self.free)]
        return File(self.version, self.free, process, types=self.rng.sample(closed, self.rng.randint(0, len(closed))))


def made(rng, slips=0):
    """A file that is typed with the empty effect; or one with so many slips at most."""
    return Maker(rng, rng.choice([1, 2]), slips).file()
