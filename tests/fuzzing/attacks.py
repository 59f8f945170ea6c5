"""Makes opponents and schedules that step a process as far as it goes.

`Run` takes steps by the rules of docs/reduction.md; it's a guide for what to schedule, and no judge. `attack` makes an
opponent while it runs: it hears what is put out on channels that it knows, takes apart what it can, and says what it
likes where somebody listens: what it heard, names, and what it makes of them. What it did becomes the opponent's process,
so that the schedule steps through. `scheduled` lets an opponent that is given run beside the process."""

from .terms import STOP, UN, UNIT, names_in, size

LARGEST = 400  # nodes of a message: some way below what a run may have
PLACES = 300


def value(message, scope):
    """What a message is with values for its names."""
    if isinstance(message, str):
        return scope[message]
    return (message[0], *(value(part, scope) for part in message[1:]))


class Run:
    """Places, each with a process and the values of its names. A name's value is its number."""

    def __init__(self, free, *processes):
        self.scope = {name: at for at, name in enumerate(free)}
        self.names = len(free)
        self.places = [(process, self.scope) for process in processes]
        self.steps, self.ends = [], 0

    def acts(self, place):
        """Whether the process at a place can take a step alone."""
        process, scope = self.places[place]
        form = process[0]
        if form in ("stop", "out", "inp", "repeat"):
            return False
        if form in ("split", "match", "case", "decrypt", "check"):
            it = value(process[1], scope)
            head = it[0] if isinstance(it, tuple) else None
            if form == "split":
                return head == "pair"
            if form == "match":
                return head == "pair" and it[1] == value(process[4], scope)
            if form == "case":
                return head in ("inl", "inr")
            return head == "enc" and it[2] == value(process[4], scope) if form == "decrypt" else it == value(process[2], scope)
        return form not in ("begin", "end", "endmany", "cast") or self.is_small(value(process[1], scope))

    def act(self, place):
        process, scope = self.places[place]
        form, behind, more = process[0], process[-1], {}
        if form == "par":
            behind = process[1]
            self.places.append((process[2], scope))
        elif form == "new":
            more = {process[1]: self.names}
            self.names += 1
        elif form == "split":
            it = value(process[1], scope)
            more = {process[2]: it[1], process[4]: it[2]}
        elif form == "match":
            more = {process[5]: value(process[1], scope)[2]}
        elif form == "decrypt":
            more = {process[2]: value(process[1], scope)[1]}
        elif form == "cast":
            more = {process[2]: value(process[1], scope)}
        elif form == "case":
            side, it = value(process[1], scope)
            name, behind = (process[2], process[4]) if side == "inl" else (process[5], process[7])
            more = {name: it}
        self.ends += form in ("end", "endmany")
        self.places[place] = (behind, {**scope, **more} if more else scope)
        self.steps.append(f"act {place}")

    def channel(self, place, forms):
        """The channel on which a place waits, where its form is among these."""
        process, scope = self.places[place]
        return value(process[1], scope) if process[0] in forms else None

    def talk(self, out, to):
        (sent, of_sent), (process, scope) = self.places[out], self.places[to]
        scope = {**scope, process[2]: value(sent[2], of_sent)}
        self.places[out] = (STOP, of_sent)
        if process[0] == "repeat":
            self.places.append((process[4], scope))
        else:
            self.places[to] = (process[4], scope)
        self.steps.append(f"talk {out} {to}")

    def is_small(self, message):
        return size(message) <= LARGEST

    def goes_on(self, to, it):
        """Whether the process at a place goes on with a message up to where it sends or hears again, or ends: None where it
        gets stuck, "cast" where it casts the message, and else "free"."""
        (_, _, x, _, process), scope = self.places[to]
        trial, casts = Run((), process), False
        trial.places, trial.names, left = [(process, {**scope, x: it})], self.names, 20
        while left:
            left -= 1
            form = trial.places[-1][0][0]
            if form in ("stop", "out", "inp", "repeat"):
                break
            if not trial.acts(len(trial.places) - 1):
                return None
            casts = casts or form == "cast" and value(trial.places[-1][0][1], trial.places[-1][1]) == it
            trial.act(len(trial.places) - 1)
        return "cast" if casts else "free"

    def ready_acts(self, without=None):
        return [at for at in range(len(self.places)) if at != without and self.acts(at)]

    def ready_talks(self):
        """Pairs of places of which the first can send to the second."""
        ins, found = {}, []
        for at in range(len(self.places)):
            channel = self.channel(at, ("inp", "repeat"))
            if channel is not None:
                ins.setdefault(channel, []).append(at)
        for at, (process, scope) in enumerate(self.places):
            if process[0] == "out" and self.is_small(value(process[2], scope)):
                found += [(at, to) for to in ins.get(value(process[1], scope), ())]
        return found


class Opponent:
    """An opponent that is made as it runs: its forms so far, and the values of the messages that it has."""

    def __init__(self, rng, run):
        self.rng, self.run, self.place, self.forms, self.made = rng, run, 1, [], 0
        self.known = [(name, number) for name, number in run.scope.items()] + [(UNIT, UNIT)]
        self.heard = []

    def fresh(self):
        self.made += 1
        return f"o{self.made}_"

    def knows(self, it):
        """A message that it has with this value, or None."""
        for message, known in self.known + self.heard:
            if known == it:
                return message
        return None

    def acted(self, form, *learned):
        self.forms.append(form)
        self.heard += learned
        self.run.steps.append(f"act {self.place}")

    def hear(self, out):
        """It takes in what is put out at a place."""
        run, x = self.run, self.fresh()
        sent, scope = run.places[out]
        self.forms.append(("inp", self.knows(value(sent[1], scope)), x, UN))
        run.steps.append(f"talk {out} {self.place}")
        run.places[out] = (STOP, scope)
        self.heard.append((x, value(sent[2], scope)))
        if self.rng.random() < 0.8:
            self.open(*self.heard[-1])

    def open(self, message, it):
        """It takes a message apart, where it can."""
        head = it[0] if isinstance(it, tuple) else None
        if head == "pair":
            x, y = self.fresh(), self.fresh()
            self.acted(("split", message, x, UN, y, UN), (x, it[1]), (y, it[2]))
            self.open(x, it[1])
            self.open(y, it[2])
        elif head in ("inl", "inr"):
            x, y = self.fresh(), self.fresh()
            self.acted((f"case {head}", message, x, UN, y, UN), (x if head == "inl" else y, it[1]))
            self.open(*self.heard[-1])
        elif head == "enc" and self.knows(it[2]) is not None:
            x = self.fresh()
            self.acted(("decrypt", message, x, UN, self.knows(it[2])), (x, it[1]))
            self.open(x, it[1])

    def new(self):
        x = self.fresh()
        self.acted(("new", x, UN), (x, self.run.names))
        self.run.names += 1

    def message(self, depth=2):
        """Something to say, mostly what it heard: the message and its value."""
        how = self.rng.random()
        if depth == 0 or how < 0.75:
            latest = self.heard[-6:] if self.rng.random() < 0.5 else []
            return self.rng.choice(latest or self.heard + self.known[:3] * (how < 0.3) or self.known)
        if how < 0.9:
            (first, of_first), (second, of_second) = self.message(depth - 1), self.message(depth - 1)
            form = "pair" if how < 0.86 else "enc"
            return (form, first, second), (form, of_first, of_second)
        form = self.rng.choice(["inl", "inr"])
        part, of_part = self.message(depth - 1)
        return (form, part), (form, of_part)

    def open_places(self, forms):
        """The places that wait with one of these forms on a channel that it has."""
        channels = [(at, self.run.channel(at, forms)) for at in range(len(self.run.places))]
        return [at for at, channel in channels if channel is not None and self.knows(channel) is not None]

    def awaited(self):
        """The names that some process is going to check."""
        found = set()
        for process, scope in self.run.places:
            while process[0] not in ("stop", "out"):
                if process[0] == "check" and process[1] in scope:
                    found.add(scope[process[1]])
                process = process[2] if process[0] == "par" else process[-1]
        return found

    def shapes(self, to):
        """What the process at a place asks of the message that it takes in, by the names of its parts."""
        process, scope = self.run.places[to]
        shapes, behind = {}, process[4]

        def known(message):
            return value(message, scope) if names_in(message) <= set(scope) else None

        for _ in range(25):
            form, it = behind[0], behind[1] if len(behind) > 1 else None
            if form in ("stop", "out", "inp", "repeat"):
                break
            if form == "check" and isinstance(behind[2], str):
                shapes[behind[2]] = ("value", known(it))
            elif isinstance(it, str) and it not in scope:
                if form == "split":
                    shapes[it] = ("pair", behind[2], behind[4])
                elif form == "match":
                    given = known(behind[4])
                    shapes[it] = ("pair", behind[2], behind[5])
                    shapes[behind[2]] = ("value", given)
                elif form == "decrypt":
                    shapes[it] = ("enc", known(behind[4]))
            if form == "case":
                side = self.rng.choice(["inl", "inr"])
                name, behind = (behind[2], behind[4]) if side == "inl" else (behind[5], behind[7])
                if isinstance(it, str):
                    shapes[it] = (side, name)
            else:
                behind = behind[2] if form == "par" else behind[-1]
        return process[2], shapes

    def shaped(self, name, shapes):
        """A message of the shape that is asked for under a name, with its value; or None."""
        head, *rest = shapes.get(name, ("any",))
        if head == "pair":
            parts = [self.shaped(part, shapes) for part in rest]
            return (("pair", *(it[0] for it in parts)), ("pair", *(it[1] for it in parts))) if None not in parts else None
        if head in ("inl", "inr"):
            part = self.shaped(rest[0], shapes)
            return part and ((head, part[0]), (head, part[1]))
        if head == "value" and rest[0] is not None:
            message = self.knows(rest[0])
            return None if message is None else (message, rest[0])
        if head == "enc":
            fit = [it for it in self.heard if isinstance(it[1], tuple) and it[1][0] == "enc" and rest[0] in (None, it[1][2])]
            return self.rng.choice(fit) if fit else None
        names = [it for it in self.heard + self.known if isinstance(it[1], int)]
        return self.rng.choice(names or self.known) if self.rng.random() < 0.8 else self.message(1)

    def fitting(self, to):
        """What it has that lets the process at a place go on; of names that are cast there rather those that are awaited."""
        made = [self.message() for _ in range(4)] + [it for it in (self.shaped(*self.shapes(to)) for _ in range(8)) if it]
        fit = [(it, self.run.goes_on(to, it[1])) for it in self.heard + self.known + made]
        if any(found == "cast" for _, found in fit):
            awaited = self.awaited()
            return [it for it, found in fit if found == "cast" and it[1] in awaited]
        return [it for it, found in fit if found]

    def say(self, to, patience):
        """It puts a message out, and the place takes it in; where it has none that goes on there, it mostly waits."""
        run = self.run
        process, scope = run.places[to]
        message, it = self.message()
        if self.rng.random() < patience and not (run.goes_on(to, it) == "free" and self.rng.random() < 0.3):
            fitting = self.fitting(to)
            if not fitting:
                return
            message, it = self.rng.choice(fitting)
        if not run.is_small(it):
            return
        self.acted(("out", self.knows(value(process[1], scope)), message))
        place, self.place = self.place, len(run.places)
        run.places.append((STOP, {}))
        run.places[place] = (("out", process[1], "said"), {**scope, "said": it})
        run.talk(place, to)

    def process(self):
        """The process that did all this."""
        process = STOP
        for form in reversed(self.forms):
            if form[0] == "out":
                process = ("par", form, process)
            elif form[0] == "case inl":
                process = ("case", *form[1:4], process, *form[4:], STOP)
            elif form[0] == "case inr":
                process = ("case", *form[1:4], STOP, *form[4:], process)
            else:
                process = (*form, process)
        return process


def attack(rng, file, steps):
    """An opponent and a schedule, of about so many steps, in which it hears and says what it can; and the number of ends."""
    run = Run(file.free, file.process, STOP)
    opponent = Opponent(rng, run)
    eager, talkative, patience = rng.choice([0.5, 0.8, 0.95]), rng.choice([0.1, 0.4, 0.8]), rng.choice([0.6, 0.95, 1.0])
    waited, made, once = 0, 0, rng.choice([0.3, 0.8, 0.95])
    while len(run.steps) < steps and len(run.places) < PLACES and len(opponent.forms) < 200 and waited < 40:
        before = len(run.steps)
        acts = run.ready_acts(opponent.place)
        if acts and rng.random() < eager:
            run.act(rng.choice(acts))
            continue
        talks = run.ready_talks() if rng.random() < talkative else []
        if rng.random() < patience:
            talks = [(out, to) for out, to in talks if run.goes_on(to, value(run.places[out][0][2], run.places[out][1]))]
        outs = [at for at in opponent.open_places(("out",)) if run.is_small(value(run.places[at][0][2], run.places[at][1]))]
        ins = opponent.open_places(("inp",) if rng.random() < once else ("inp", "repeat"))
        if talks:
            run.talk(*rng.choice(talks))
        elif outs and (not ins or rng.random() < 0.5):
            opponent.hear(rng.choice(outs))
        elif ins and rng.random() < 0.98:
            opponent.say(rng.choice(ins), patience)
        elif made < 3 and rng.random() < 0.1:
            opponent.new()
            made, before = made + 1, len(run.steps)
        waited = waited + 1 if len(run.steps) == before else 0
    return opponent.process(), run.steps, run.ends


def scheduled(rng, file, steps):
    """A schedule for the process of a file beside its opponent; and how many ends there are."""
    run = Run(file.free, file.process, file.opponent)
    eager = rng.choice([0.3, 0.7, 0.95])
    while len(run.steps) < steps and len(run.places) < PLACES:
        acts = run.ready_acts()
        talks = run.ready_talks() if not acts or rng.random() > eager else []
        if talks:
            run.talk(*rng.choice(talks))
        elif acts:
            run.act(rng.choice(acts))
        else:
            break
    return run.steps, run.ends

