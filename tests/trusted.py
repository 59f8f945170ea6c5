#!/usr/bin/env python3
"""Finds the definitions that a reader of what is promised must believe, and holds docs/trusted.md to them.

It starts from the clauses of `run`, and from the law `derivable_is_safe`, and follows each name that a clause or a
definition uses, in the files of specs/. A definition is an item of such a file, with its clauses, its constructors or
its fields; its lines are those of its text, without comments and blank lines. Names are followed through `use` lines
with their renamings, through qualified names and operators, but not where a parameter, a pattern, a `λ`, a `let` or a
field has the same name. Names of other crates (`Rattle.std`, `mathlib`, ..) are counted apart, as the library's words,
and so are the types of the program's own text (`specs.declared`). Of such a type are followed: the types in its text,
its ghost members and those of its `impl Model`, and of a trait its ghost members and the contracts of its calls.

Not followed: what stands behind a projection (`file.names`), beyond the type that its record is reached by; ghost
members of impls of other traits (what `==` or an order of a type means); by what a library's word is defined; words
that are there without a `use` line (`⊥`, `×`, `¬`); and contracts of other calls, as that of `Status::code`, which
says the number with which the process ends.

Without an option it prints the numbers. `--list NAME` prints the definitions of a row: `theorem`, `yes` (what is said
of a yes of `check`: `IsSafe` and `IsManySafe`), `statuses` (the fields of `IsExact` but `written`, and `IsManySafe`),
`headline` (the clauses `headline` and `many_to_one`), the word of a command (its row of
`Promise`), another clause of `run`, or `run`, the whole. `--unreached`
prints the files of specs/ that no clause of `run` and no law reaches. `--check` holds the document, and the two sentences
of README.md that have its numbers, to what is found, and `--write` rewrites these numbers and which files it has; the
words and their order are the document's own. The last line of `--check` is 'N passed, M failed'."""

import argparse
import dataclasses
import functools
import glob
import os
import re
import sys

ROOT = os.path.dirname(os.path.dirname(os.path.abspath(__file__)))
OPENING, CLOSING = ("(", "{", "[", "⟦"), (")", "}", "]", "⟧")
TOKEN = re.compile(r'"(?:\\.|[^"\\])*"|\[\](?=[\s)},;]|$)|[()\[\]{}⟦⟧,;¬λ]|[^\s()\[\]{}⟦⟧,;"¬λ]+')
COMMENT = re.compile(r"\s*(--|//)( |$)")
HEAD = re.compile(r"((?:(?:pub|abbrev|unfoldable|pattern|data|record) )+)([^\s:]+)|()([^\s:]+)(?= : )")
MEMBER = re.compile(r"(?:pub )?([^\s:]+(?: [^\s:]+)*) :")
USE = re.compile(r"^\s*(?:pub |ghost )*use ([\w.]+?)(?:\.\{([^}]*)\}| as (\w+))?;?$", re.M)
RUST_USE = re.compile(r"^\s*(?:pub )?use (crate|spi_\w+)((?:::\w+)*)(?:::\{([^}]*)\})?;", re.M | re.S)
RUST_TYPE = r"(?m)^(?:pub(?:\(crate\))? )?(?:struct|enum|trait|type) %s\b"
LITERAL = re.compile(r'["\d_.]')
LIBRARY_CONSTRUCTORS = ("suc", "zero", "true", "false", "[]", "◌∷◌", "yes", "no", "refl")
BUILT_IN = (":", "→", "=", ";", ",", "|", "×", "⊥", "¬", "Type", "Unit", "tt", "where", "record", "elim", "in", "do",
            "as", "deriving", "∥", "∥₁")
HEADLINE = ("headline", "many_to_one")
QUOTED = (("yes", r"you read ([\d,]+) definitions, ([\d,]+) lines"), ("theorem", r"rests on ([\d,]+) of them, ([\d,]+) lines"))
ROW = re.compile(r"\| `([^`]+)` \| ?([^|]*?) ?\|")


@dataclasses.dataclass(eq=False)
class Definition:
    """An item of a specs file: its kind, its first and last line, how many lines it has, and its text by clauses,
    constructors or fields."""
    file: str
    name: str
    kind: str
    first: int
    last: int
    lines: int
    units: list


@dataclasses.dataclass(frozen=True)
class OwnType:
    """A type or trait of the program's text, by its crate, its file and its name."""
    crate: str
    file: str
    name: str


@dataclasses.dataclass(frozen=True)
class Word:
    """A name of a library."""
    module: str
    name: str


@dataclasses.dataclass(eq=False)
class Module:
    """The names that stand in a file: its own, those of its `use` lines, and the modules and types by their names."""
    own: dict = dataclasses.field(default_factory=dict)
    used: dict = dataclasses.field(default_factory=dict)
    modules: dict = dataclasses.field(default_factory=dict)
    types: dict = dataclasses.field(default_factory=dict)


def text_of(path):
    with open(f"{ROOT}/{path}", encoding="utf-8") as file:
        return file.read()


def tokens_of(text):
    return TOKEN.findall("\n".join(line for line in text.split("\n") if not COMMENT.match(line)))


def parts_of(name):
    """The words by which a name is written: those between the holes of an operator."""
    return [part for part in name.split("◌") if part]


def is_project(crate):
    return os.path.isdir(f"{ROOT}/crates/{crate}")


# What stands in a specs file.

def lines_of(path):
    """The numbered lines but for blank ones, comments and `mutual`; those of a mutual block without its indentation."""
    inside = False
    for number, line in enumerate(text_of(path).split("\n"), 1):
        if re.fullmatch(r"(abbrev )?mutual", line):
            inside = True
        elif line.strip() and not COMMENT.match(line):
            inside = inside and line.startswith("  ")
            yield number, line[2:] if inside else line


def items_of(path):
    """The items of a file: kind, name, and the numbered lines."""
    items, given = [], ""
    for number, line in lines_of(path):
        # what stands in a module with parameters has them in front of its type
        if opened := re.match(r"module _ (.*) where$", line):
            given = opened[1]
            continue
        given = given if line.startswith(" ") or not line.strip() else ""
        if given:
            line = line.removeprefix("  ")
            if re.match(r"abbrev (pub )?\S+ : ", line):
                line = line.replace(" : ", f" : {given} → ", 1)
        head = HEAD.match(line)
        if re.match(r"(pub )?(use|mod) |infix", line):
            continue
        if head and not line.startswith(" "):
            items.append(((head[1] or "").replace("pub ", "").strip(), head[2] or head[4], []))
        items[-1][2].append((number, line))
    return items


def units_of(kind, lines):
    """The text of an item by its parts: its head, and each clause, constructor or field."""
    texts, head, indent = [line for _, line in lines], 1, ""
    if kind in ("data", "record"):  # the head may be of several lines, and `where` one of them
        head = next((number for number, line in enumerate(texts, 1) if re.search(r"(^|\s)where$", line)), len(texts))
        indent = re.match(" *", texts[head])[0] if head < len(texts) else ""
    units = ["\n".join(texts[:head])]
    for line in texts[head:]:
        if line.startswith(indent) and line[len(indent)] not in (" ", *CLOSING):
            units.append(line)
        else:
            units[-1] += "\n" + line
    return units


def members_of(definition):
    """The names of constructors, and what is derived."""
    names = []
    for unit in definition.units[1:]:
        derived = re.search(r"deriving \w+ as (\S+)", unit)
        member = MEMBER.match(unit.strip())
        names += [derived[1]] if derived else member[1].split() if member else []
    return names


def read_uses(text, module):
    for path, names, renamed in USE.findall(text):
        if renamed or not names:
            module.modules[renamed or path.rsplit(".", 1)[-1]] = path
        for name in filter(None, (name.strip() for name in names.split(","))):
            old, _, new = name.partition(" as ")
            for part in parts_of(new or old):
                module.used[part] = (path, old)


@functools.cache
def module_of(path):
    module = Module()
    read_uses(text_of(path), module)
    for kind, name, lines in items_of(path):
        kind = re.sub(r"abbrev|unfoldable", "", kind).strip()
        definition = Definition(path, name, kind, lines[0][0], lines[-1][0], len(lines), units_of(kind, lines))
        for own in [name, *(members_of(definition) if kind == "data" else [])]:
            module.own.update(dict.fromkeys(parts_of(own), definition))
    return module


# What a name stands for.

def looked_up(path, name):
    """What a name of a module stands for, or None."""
    crate, _, rest = path.removeprefix("Rattle.").partition(".specs.")
    if not is_project(crate):
        return Word(path, name)
    if rest.startswith("declared."):
        names = [name for name in rest.split(".")[1:] if name not in ("TheVariants", "TheInside")]
        return OwnType(crate, names[-2] if len(names) > 1 else "lib", names[-1])
    module = module_of(f"crates/{crate}/specs/{rest.replace('.', '/')}.antt")
    part = parts_of(name)[0]
    if part in module.own:
        return module.own[part]
    return looked_up(*module.used[part]) if part in module.used else None


def found(module, word):
    """What a word stands for in a file, with the name by which it is there; or None."""
    head, _, rest = word.partition(".")
    if head in module.own:
        target, name = module.own[head], head
    elif head in module.used:
        target, name = looked_up(*module.used[head]), module.used[head][1]
    elif head in module.modules and rest:
        name = rest.split(".")[0]
        target = looked_up(module.modules[head], name)
    else:
        target, name = module.types.get(head), head
    return (target, name) if target else None


def is_constructor(target, name, path):
    if isinstance(target, Definition):
        return target.kind == "pattern" or target.kind == "data" and name != target.name
    if isinstance(target, OwnType):
        return path.endswith("TheVariants")
    return name in LIBRARY_CONSTRUCTORS or name[:1].isupper()


def is_pattern_word(module, word):
    """Whether a word of a pattern is a constructor; else it's a variable."""
    head = word.split(".")[0]
    where = found(module, word)
    path = module.used[head][0] if head in module.used else module.modules.get(head, "")
    return where is not None and is_constructor(*where, path)


# What a text uses.

def until(tokens, start, ends):
    """The place of the first of these tokens at the depth of the start, or None."""
    depth = 0
    for i in range(start, len(tokens)):
        if depth == 0 and tokens[i] in ends:
            return i
        depth += (tokens[i] in OPENING) - (tokens[i] in CLOSING)
        if depth < 0:
            return None
    return None


def bound_behind(tokens, start):
    """The names that stand between an opening bracket and a colon."""
    end = start
    while end < len(tokens) and tokens[end] not in (*OPENING, *CLOSING, ",", ";", ":"):
        end += 1
    return tokens[start:end] if end < len(tokens) and tokens[end] == ":" else []


class Reader:
    """Collects what a text uses."""

    def __init__(self, module, bound=()):
        self.module, self.targets, self.unknown = module, set(), set()
        self.scopes, self.groups = [set(bound)], []

    def word(self, word):
        if word in BUILT_IN or LITERAL.match(word) or word.split(".")[0] in self.scopes[-1]:
            return
        where = found(self.module, word)
        if where:
            self.targets.add(where[0])
        else:
            self.unknown.add(word)

    def pattern(self, tokens):
        for token, behind in zip(tokens, [*tokens[1:], ""]):
            if token in (*OPENING, *CLOSING, ",", ";", "=") or LITERAL.match(token) or behind == "=":
                continue
            if is_pattern_word(self.module, token):
                self.targets.add(found(self.module, token)[0])
            else:
                self.scopes[-1].add(token)

    def lambda_names(self, tokens, start):
        """Binds the names behind a `λ`, up to the one with a point, and says where they end."""
        end = start
        while not tokens[end].endswith("."):
            end += 1
        self.scopes[-1].update(token.rstrip(".") for token in tokens[start:end + 1])
        return end + 1

    def open(self, tokens, i):
        names = bound_behind(tokens, i + 1)
        self.scopes.append(set(self.scopes[-1]))
        self.groups.append(names)
        return i + 1 + (len(names) + 1 if names else 0)

    def close(self):
        self.scopes.pop()
        self.scopes[-1].update(self.groups.pop())

    def alternative(self, tokens, i):
        """Reads the pattern that stands here before a `↦`, if one does, and says where the next thing stands."""
        arrow = until(tokens, i, ("↦", "|"))
        if arrow is None or tokens[arrow] != "↦":
            return i
        self.pattern(tokens[i:arrow])
        return arrow + 1

    def step(self, tokens, i):
        """Reads what stands here, and says where the next thing stands."""
        token, behind = tokens[i], tokens[i + 1:i + 2]
        if token in OPENING:
            i = self.open(tokens, i)
            return self.alternative(tokens, i) if token == "[" else i
        if token == "|":
            return self.alternative(tokens, i + 1)
        if token == "λ":
            return self.lambda_names(tokens, i + 1)
        if token == "let" or behind == ["←"]:
            self.scopes[-1].add(behind[0] if token == "let" else token)
            return i + (3 if token == "let" else 2)
        if token in CLOSING:
            self.close()
        elif behind != ["="]:
            self.word(token)
        return i + 1

    def read(self, tokens):
        i = 0
        while i < len(tokens):
            i = self.step(tokens, i)
        return self


def read_unit(module, bound, unit):
    """What a clause or a constructor uses, with what is unknown in it."""
    tokens = tokens_of(unit)
    end = until(tokens, 0, ("=",))
    reader = Reader(module, bound)
    if end is not None:
        reader.pattern(tokens[:end])
        reader.read(tokens[end + 1:])
    else:
        colon = until(tokens, 0, (":",))
        reader.read(tokens[colon + 1 if colon is not None else 0:])
    return reader


def used_by(definition):
    """What a definition uses, and the words in it that stand for nothing here."""
    module = module_of(definition.file)
    head = Reader(module).read(tokens_of(definition.units[0][HEAD.match(definition.units[0]).end():]))
    targets, unknown, bound = head.targets, head.unknown, set()
    if definition.kind in ("data", "record"):
        bound = head.scopes[0]
    for unit in definition.units[1:]:
        reader = read_unit(module, bound, unit)
        targets |= reader.targets
        unknown |= reader.unknown
        if definition.kind == "record":
            bound = bound | set(MEMBER.match(unit.strip())[1].split())
    return targets - {definition}, unknown


# What the program's text says.

def paths_of(pattern):
    return sorted(os.path.relpath(path, ROOT) for path in glob.glob(f"{ROOT}/crates/{pattern}"))


@functools.cache
def bare_text(path):
    return "\n".join(line for line in text_of(path).split("\n") if not COMMENT.match(line))


def crate_of(path):
    return path.split("/")[1]


@functools.cache
def types_in(crate):
    """The types and traits that a crate's text declares."""
    declared = re.compile(RUST_TYPE % r"(\w+)")
    return {name: OwnType(crate, os.path.basename(path).removesuffix(".rt"), name)
            for path in paths_of(f"{crate}/src/*.rt") for name in declared.findall(bare_text(path))}


@functools.cache
def program_module(path):
    module, text, crate = Module(), bare_text(path), crate_of(path)
    read_uses(text, module)
    for owner, names, more in RUST_USE.findall(text):
        for name in [name.strip() for name in more.split(",")] if more else names.split("::")[-1:]:
            own = types_in(crate if owner == "crate" else owner).get(name)
            module.types.update({name: own} if own else {})
    stem = os.path.basename(path).removesuffix(".rt")
    module.types.update((name, own) for name, own in types_in(crate).items() if own.file == stem)
    return module


def block_behind(text, start):
    """What stands in the braces that open at this place, or behind it, and where they end."""
    start = end = text.index("{", start)
    depth = 0
    for match in re.compile(r'"(?:\\.|[^"\\])*"|[{}]').finditer(text, start):
        depth += (match[0] == "{") - (match[0] == "}")
        if depth == 0:
            end = match.start()
            break
    return text[start + 1:end], end


def clauses_behind(text, start):
    """The clauses of the function that starts here, with their names, and the text before the first."""
    clause, at, clauses, header = re.compile(r"\b(?:requires|ensures)(?: (\w+))?\s*\{|[{;]"), start, [], None
    while True:
        match = clause.search(text, at)
        header = header or text[start:match.start()]
        if match[0] in "{;":
            return header, clauses
        body, at = block_behind(text, match.start())
        clauses.append((match[1] or "", body))
        at += 1


def ghosts_in(text):
    """The members that only contracts see, with what stands in their braces."""
    members = re.finditer(r"\bghost (\w+)\s*[:=]\s*\{", text)
    return [(member[1], block_behind(text, member.end() - 1)[0]) for member in members]


def declaration_of(own):
    text = bare_text(f"crates/{own.crate}/src/{own.file}.rt")
    match = re.search(RUST_TYPE % own.name, text)
    end = re.compile(r"[{;]").search(text, match.end())
    return match[0] + block_behind(text, end.start())[0] if end[0] == "{" else text[match.start():end.start()]


def models_of(own):
    """The `impl Model` blocks of a type, with their files."""
    for path in paths_of(f"{own.crate}/src/*.rt"):
        for match in re.finditer(rf"impl(?:<[^>]*>)? Model for {own.name}\b", bare_text(path)):
            yield path, block_behind(bare_text(path), match.end())[0]


def used_by_type(own):
    """What a type of the program or a trait uses: the types in its text, and what its ghost members say."""
    path = f"crates/{own.crate}/src/{own.file}.rt"
    module, text = program_module(path), declaration_of(own)
    bound = {"self", "result", "Self", *re.findall(r"(\w+)\s*:", text)}
    targets = {module.types[name] for name in re.findall(r"\b[A-Z]\w*", text) if name in module.types}
    said = [(module, body) for _, body in ghosts_in(text)]
    calls = [match.end() for match in re.finditer(r"\bfn ", text)]
    said += [(module, body) for call in calls for _, body in clauses_behind(text, call)[1]]
    said += [(program_module(file), body) for file, block in models_of(own) for _, body in ghosts_in(block)]
    readers = [Reader(scope, bound).read(tokens_of(body)) for scope, body in said]
    unknown = set().union(*(reader.unknown for reader in readers))
    return targets.union(*(reader.targets for reader in readers)) - {own}, unknown


def ghost_names(own):
    return {name for name, _ in ghosts_in(declaration_of(own))}


def contract_of(path, function):
    """The clauses of a function by their names, each with what it uses and the words that stand for nothing."""
    module, text = program_module(path), bare_text(path)
    header, clauses = clauses_behind(text, re.search(rf"fn {function}\b", text).end())
    bounds = {name: module.types[trait] for name, trait in re.findall(r"\b([A-Z]): (\w+)", header)}
    owners = {module.types[name] for name in re.findall(r"\b[A-Z]\w*", header) if name in module.types}
    bound = {"result", *bounds, *re.findall(r"(\w+):", header)}
    contract = {}
    for name, body in clauses:
        reader = Reader(module, bound).read(tokens_of(body))
        targets = reader.targets | {trait for of, trait in bounds.items() if re.search(rf"\b{of}\.", body)}
        targets |= {own for own in owners if ghost_names(own) & reader.unknown}
        unknown = reader.unknown.difference(*(ghost_names(own) for own in owners))
        old = contract.get(name, (set(), set()))
        contract[name] = (old[0] | targets, old[1] | unknown)
    return contract


# What is reached.

@functools.cache
def used(target):
    if isinstance(target, Definition):
        return used_by(target)
    return used_by_type(target) if isinstance(target, OwnType) else (set(), set())


def reached_from(targets):
    reached, left = set(targets), list(targets)
    while left:
        more = used(left.pop())[0] - reached
        reached |= more
        left += more
    return reached


def laws():
    """The public functions that take nothing and give nothing: their contract is a law."""
    for path in paths_of("*/src/*.rt"):
        for name in re.findall(r"^pub fn (\w+)\(\)\s+ensures", bare_text(path), re.M):
            yield path, name


def status_roots():
    """What the field `safe` of `IsExact` and `many_to_one` say, and what all its fields say but `written`."""
    module = module_of("crates/spi_commands/specs/Checking.antt")
    fields = [unit for unit in module.own["IsExact"].units[1:] if "pub written :" not in unit]
    said = [read_unit(module, ("bytes", "old", "new", "status"), unit).targets for unit in fields]
    yes = {module_of("crates/spi_commands/specs/Spelled.antt").own[name] for name in ("IsSafe", "IsManySafe")}
    return yes, yes.union(*said)


def promised_roots():
    """What the rows of `Promise` say, by the commands' words, but for the row of `check`, which the headline has."""
    module = module_of("crates/spi_commands/specs/Commands.antt")
    bound = ("bytes", "before", "after", "old", "new", "status", "most", "only", "sessions")
    rows = {re.match(r"Promise \(?(\w+)", unit)[1].lower(): unit for unit in module.own["Promise"].units[1:]}
    return {word: read_unit(module, bound, unit).targets for word, unit in rows.items() if word != "check"}


@functools.cache
def promises():
    """What is reached from the theorem, from a yes, from the statuses, from the headline, from each row of the table of
    promises, from each further clause of `run`, and from all of these."""
    contract = contract_of("crates/spi_commands/src/running.rt", "run")
    clauses = {name: targets for name, (targets, _) in contract.items()}
    roots = {"theorem": contract_of("crates/spi_sound/src/lib.rt", "derivable_is_safe")[""][0]}
    roots["yes"], roots["statuses"] = status_roots()
    roots["headline"] = set().union(*(clauses.pop(name) for name in HEADLINE))
    roots.update(promised_roots())
    roots.update(clauses)
    roots["run"] = set().union(*roots.values())
    return {name: reached_from(targets) for name, targets in roots.items()}


def of_kind(kind, reached):
    return [target for target in reached if isinstance(target, kind)]


def definitions_in(reached):
    return sorted(of_kind(Definition, reached), key=lambda one: (one.file, one.first))


def lines_in(definitions):
    return sum(definition.lines for definition in definitions)


def unreached():
    """The files of specs/ with definitions, of which no clause of `run` and no law reaches one."""
    roots = set().union(*(targets for law in laws() for targets, _ in contract_of(*law).values()))
    reached = {definition.file for definition in definitions_in(reached_from(roots) | promises()["run"])}
    return [path for path in paths_of("*/specs/*.antt") if path not in reached and module_of(path).own]


# The document.

def numbers_of(reached):
    """Definitions, lines and files, definitions that the headline hasn't, words of libraries, types of the program."""
    definitions = definitions_in(reached)
    beyond = len(definitions_in(reached - promises()["headline"]))
    numbers = [len(definitions), lines_in(definitions), len({definition.file for definition in definitions}), beyond,
               len(of_kind(Word, reached)), len(of_kind(OwnType, reached))]
    return [f"{number:,}" for number in numbers]


def part_of(path, reached):
    """How many definitions of a file are reached, and their lines."""
    definitions = [definition for definition in definitions_in(reached) if definition.file == path]
    return f"{len(definitions)} ({lines_in(definitions)})" if definitions else ""


@functools.cache
def rows():
    """The cells behind the words in the rows of the document, by the rows' names."""
    found_rows = {name: numbers_of(reached) for name, reached in promises().items()}
    for path in sorted({definition.file for definition in definitions_in(promises()["run"])}):
        parts = [part_of(path, promises()[name]) for name in ("theorem", "yes", "headline", "run")]
        found_rows[path.removeprefix("crates/").replace("/specs/", "/")] = parts
    return found_rows


def row_of(name, words):
    return f"| `{name}` | {' | '.join([words, *rows()[name]])} |"


def rewritten(text):
    """The document with the numbers that are found, and behind it the rows that it lacks."""
    lines, there = [], set()
    for line in text.rstrip("\n").split("\n"):
        match = ROW.match(line)
        there.add(match and match[1])
        if not match:
            lines.append(line)
        elif match[1] in rows():
            lines.append(row_of(match[1], match[2]))
    return "\n".join(lines + [row_of(name, "") for name in rows() if name not in there]) + "\n"


def faults_of(text):
    """Of each test its fault, or None. For each row: it stands in the document once, with its numbers and with words.
    For each other row of the document: it shouldn't. For each promise: each word in it stands for something."""
    lines = text.split("\n")
    written = {match[1]: match for match in map(ROW.match, lines) if match}
    for name in [*rows(), *(name for name in written if name not in rows())]:
        if name not in rows():
            yield f"{name} isn't reached"
        elif name not in written or not written[name][2]:
            yield f"the document has no words on {name}"
        else:
            wanted = row_of(name, written[name][2])
            yield None if lines.count(wanted) == 1 else f"the document's row isn't this one: {wanted}"
    for name, reached in promises().items():
        unknown = set().union(*(used(target)[1] for target in reached))
        yield f"{name} uses what stands for nothing: {', '.join(sorted(unknown))}" if unknown else None


def quoted(text):
    """README.md with the numbers of the rows that it quotes, and for each row whether it has them."""
    found = []
    for name, pattern in QUOTED:
        match = re.search(pattern, text)
        found.append(None if match and list(match.groups()) == rows()[name][:2] else f"README.md hasn't the numbers of {name}")
        for group in (2, 1) if match else ():
            text = text[:match.start(group)] + rows()[name][group - 1] + text[match.end(group):]
    return text, found


def check():
    faults = [*faults_of(text_of("docs/trusted.md")), *quoted(text_of("README.md"))[1]]
    failed = [fault for fault in faults if fault]
    for fault in failed:
        print(fault)
    print(f"{len(faults) - len(failed)} passed, {len(failed)} failed")
    return 1 if failed else 0


def write():
    for path, text in (("docs/trusted.md", rewritten(text_of("docs/trusted.md"))), ("README.md", quoted(text_of("README.md"))[0])):
        with open(f"{ROOT}/{path}", "w", encoding="utf-8") as file:
            file.write(text)


def show(name):
    """The definitions with their lines, and then the types of the program and the words of libraries."""
    reached = promises()[name]
    for one in definitions_in(reached):
        print(f"{one.file}:{one.first}-{one.last}: {one.name}, {one.lines} lines")
    for own in sorted(f"{own.crate}: {own.name}" for own in of_kind(OwnType, reached)):
        print(f"a type of {own}")
    for word in sorted(f"{word.module}: {word.name}" for word in of_kind(Word, reached)):
        print(f"a word of {word}")


def summary():
    heads = ("", "definitions", "lines", "files", "beyond the headline", "library words", "own types")
    for cells in [heads, *((name, *numbers_of(reached)) for name, reached in promises().items())]:
        print(f"{cells[0]:13}" + "".join(f"{cell:>{len(head) + 2}}" for cell, head in zip(cells[1:], heads[1:])))


def main():
    words = argparse.ArgumentParser()
    words.add_argument("--list", choices=promises(), metavar="NAME")
    words.add_argument("--unreached", action="store_true")
    words.add_argument("--check", action="store_true")
    words.add_argument("--write", action="store_true")
    asked = words.parse_args()
    if asked.list:
        show(asked.list)
    elif asked.unreached:
        print("\n".join(unreached()))
    elif asked.write:
        write()
    elif asked.check:
        return check()
    else:
        summary()
    return 0


if __name__ == "__main__":
    sys.exit(main())
