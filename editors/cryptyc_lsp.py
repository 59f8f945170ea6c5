#!/usr/bin/env python3
"""cryptyc_lsp.py [--limit SECONDS] [PROGRAM]: a language server for Cryptyc, over standard input and output.

- Diagnostics: `check` runs at each change, and its no or refusal stands at its place. On a narration, a file that ends in
  .nar, it's `narrate` that runs. On a bench, which ends in .bench, it's `bench`, and each no stands at its edit. Where the
  program that explains is there, what `explain` says of a file is added as soon as it's known.
- Hover on that place: the section of docs/reasons.md for its number.
- Definition: the binder of a name, and the declaration of a type. This works in files that aren't finished.
- Formatting: the text of `print`, where the file has no comments. `print` drops comments, so a file with some stays as
  it is, and the server says why.

PROGRAM is the checker. Without it, it is $CRYPTYC, or else `cryptyc` on the PATH, or else ../cryptyc beside this file.
A program that hasn't answered after the limit (10 seconds) is ended, and that is reported at the top of the file."""

import argparse
import bisect
import contextlib
import json
import os
import queue
import re
import shutil
import signal
import subprocess
import sys
import threading

HERE = os.path.dirname(os.path.realpath(__file__))
REASONS = [f"{HERE}/../docs/reasons.md", f"{HERE}/../../doc/cryptyc/docs/reasons.md"]
BUILD_LIMIT = 600  # seconds; the script ../cryptyc builds the checker at its first call
COMMANDS = {".nar": "narrate", ".bench": "bench"}  # by the ending of a file; else check
ANSWER = re.compile(r"(no|refused): (\d+) (\w+)(?: at (\d+):(\d+))?(?:: (.*))?\Z", re.S)
FINDING = re.compile(r"(?:(\d+)-(\d+) )?(wrong|also|note|help): (.*)\Z", re.S)
EXPLAINERS = ["../lib/cryptyc/cryptyc_explain", "target/cryptyc_explain.kept", "crates/cryptyc_explain/out/cryptyc_explain"]
PIECE = re.compile(r"(?P<comment>//[^\n]*)|(?P<word>[^\x00-@\[-^`{-\x7f][^\x00-/:-@\[-^`{-\x7f]*)|(?P<number>[0-9]+)"
                   r"|(?P<mark>[][(){},;:=|+#])")
RESERVED = set("""free type process opponent schedule derivation out inp repeat split match case decrypt check begin end
    cast new stop is inl inr Un Key Nonce""".split())
RESERVED_2 = RESERVED | {"hash", "endmany", "many"}
FORMS = set("out inp repeat split match case decrypt check begin end endmany cast new stop".split())


class Text:
    """A file with its places: offsets count characters, and a line of the protocol ends at LF, CR LF or CR."""

    def __init__(self, text):
        self.text = text
        self.starts = [0, *(end.end() for end in re.finditer(r"\r\n|\n|\r", text))]

    def offset_of_report(self, line, column):
        """Of a line and a column of the checker: from 1, in characters, and LF alone ends a line."""
        start = 0
        for _ in range(line - 1):
            start = self.text.find("\n", start) + 1
        return min(start + column - 1, len(self.text))

    def offset_of_byte(self, number):
        return len(self.text.encode("utf-8", "surrogatepass")[:number].decode("utf-8", "ignore"))

    def position(self, offset):
        line = bisect.bisect_right(self.starts, offset) - 1
        before = self.text[self.starts[line]:offset].encode("utf-16-le", "surrogatepass")
        return {"line": line, "character": len(before) // 2}

    def offset(self, position):
        if position["line"] >= len(self.starts):
            return len(self.text)
        start, units = self.starts[position["line"]], position["character"]
        line = self.text[start:(self.starts + [len(self.text)])[position["line"] + 1]].rstrip("\r\n")
        for at, character in enumerate(line):
            if units <= 0:
                return start + at
            units -= 2 if ord(character) > 0xFFFF else 1
        return start + len(line)

    def range(self, start, end):
        return {"start": self.position(start), "end": self.position(end)}


def tokens_of(text):
    """The tokens as (kind, spelling, offset), without comments. What is no token is left out."""
    found = [(it.lastgroup, it[0], it.start()) for it in PIECE.finditer(text) if it.lastgroup != "comment"]
    reserved = RESERVED
    if [word.lstrip("0") for _, word, _ in found[:3]] == ["version", "2", ";"]:
        reserved, found = RESERVED_2, found[3:]
    return [("reserved" if word in reserved else kind, word, at) for kind, word, at in found]


class Walk:
    """Goes through the tokens as the grammar has them, and notes for each name where it is bound. What is missing is
    passed over, and what fits nowhere is skipped, so a file may be unfinished anywhere."""

    def __init__(self, text):
        self.tokens, self.at = tokens_of(text), 0
        self.types, self.binder = {}, {}  # binder: the offset of a name to the one where it is bound
        free, parts = {}, {}
        while self.kind():
            if self.takes("free"):
                while self.kind() == "word":
                    _, word, at = self.take()
                    self.binder[at] = free.setdefault(word, at)
                    self.takes(",")
            elif self.takes("type"):
                token = self.take() if self.kind() == "word" else None
                self.takes("=")
                self.type(free)
                if token:
                    self.types.setdefault(token[1], token[2])
                    self.binder[token[2]] = self.types[token[1]]
            elif self.word() in ("process", "opponent"):
                self.take()
                while self.kind() and self.word() not in ("opponent", "schedule", "derivation"):
                    self.processes(free)
                    self.takes(")") or self.takes("}")  # one too many
            elif self.word() in ("schedule", "derivation"):
                break
            elif self.takes("shared"):
                free = self.bound(free, self.annotation(free))
            elif self.takes("roles"):
                self.narration(free)
            elif self.next_kind() == "word" and self.takes("put"):
                self.part(free, parts)
            elif self.next_kind() == "word" and self.takes("drop"):
                self.use(parts)
            else:
                self.take()

    def part(self, scope, parts):
        """Behind the word `put`: the part's name, and its process in braces. A name leads to where it was put first."""
        _, word, at = self.take()
        self.binder[at] = parts.setdefault(word, at)
        if self.takes("{"):
            self.processes(scope)
            self.takes("}")

    def narration(self, scope):
        """Behind the word `roles`: the roles, and the lines, each in the scope of its role."""
        roles = {}
        while self.kind() == "word":
            _, word, at = self.take()
            self.binder[at] = roles.setdefault(word, at)
            self.takes(",")
        scopes = {role: scope for role in roles}
        while self.kind():
            if self.kind() != "word":
                self.take()
                continue
            role = self.word()
            self.use(roles)
            if self.takes("to"):
                self.passes(role, roles, scopes)
            elif self.takes(":") and self.word() in FORMS:
                scopes[role] = self.form(self.take()[1], scopes.get(role, scope), [])

    def passes(self, role, roles, scopes):
        """Behind the word `to`: who gets a message, on which channel, and what it's called there."""
        other = self.word()
        if self.kind() == "word":
            self.use(roles)
        if self.takes("on"):
            self.message(scopes.get(role, {}))
        self.takes(":")
        self.message(scopes.get(role, {}))
        if self.takes("as") and self.kind() == "word":
            scopes[other] = self.bound(scopes.get(other, {}), self.take())

    def kind(self):
        return self.tokens[self.at][0] if self.at < len(self.tokens) else None

    def word(self):
        return self.tokens[self.at][1] if self.at < len(self.tokens) else None

    def next_kind(self):
        return self.tokens[self.at + 1][0] if self.at + 1 < len(self.tokens) else None

    def next_word(self):
        return self.tokens[self.at + 1][1] if self.at + 1 < len(self.tokens) else None

    def take(self):
        self.at += 1
        return self.tokens[self.at - 1]

    def takes(self, *words):
        """Passes over these words, where all of them stand here."""
        here = tuple(token[1] for token in self.tokens[self.at:self.at + len(words)])
        self.at += len(words) if here == words else 0
        return here == words

    def bound(self, scope, *tokens):
        """The scope with these names too, where they are there."""
        for _, word, at in filter(None, tokens):
            self.binder[at] = at
            scope = {**scope, word: at}
        return scope

    def use(self, names):
        _, word, at = self.take()
        if word in names:
            self.binder[at] = names[word]

    def message(self, scope):
        while self.kind() == "reserved" and self.word() in ("inl", "inr", "hash"):
            self.take()
        if self.kind() == "word":
            self.use(scope)
        elif self.word() in ("(", "{"):
            close = ")" if self.take()[1] == "(" else "}"
            self.message(scope)
            while self.takes(","):
                self.message(scope)
            if self.takes(close) and close == "}":
                self.message(scope)

    def type(self, scope):
        if self.takes("Key") or self.word() == "(":
            if self.takes("(") and not self.takes(")"):
                self.type_parts(scope)
                self.takes(")")
        elif self.takes("Nonce"):
            if self.takes("["):
                while self.kind() == "reserved" and self.word() in ("end", "check", "many"):
                    self.take()
                    self.message(scope)
                    self.takes(",")
                self.takes("]")
        elif not self.takes("Un") and self.kind() == "word":
            self.use(self.types)

    def type_parts(self, scope):
        """The parts of a tuple or of a sum: a name is in scope in what comes after it."""
        while True:
            token = self.take() if self.kind() == "word" and self.next_word() == ":" else None
            self.takes(":")
            self.type(scope)
            scope = self.bound(scope, token)
            if not self.takes(",") and not self.takes("+"):
                return

    def annotation(self, scope):
        """A binder `x: T`: its token, where it is there. T is in the scope given."""
        token = self.take() if self.kind() == "word" else None
        if self.takes(":"):
            self.type(scope)
        return token

    def one_binder(self, scope, opens):
        token = self.annotation(scope) if self.takes(opens) else None
        self.takes(")")
        return self.bound(scope, token)

    def two_binders(self, scope, value):
        """Of `split` (x: T, y: U) and of `match` (x: T = N, y: U): the scope of what follows."""
        if not self.takes("("):
            return scope
        first = self.annotation(scope)
        if value and self.takes("="):
            self.message(scope)
        self.takes(",")
        inner = self.bound(scope, first)
        second = self.annotation(inner)
        self.takes(")")
        return self.bound(scope if value else inner, second)

    def processes(self, scope):
        """Processes beside one another, up to what ends them: each has the scope of all."""
        self.sequence(scope)
        while self.takes("|"):
            self.sequence(scope)

    def sequence(self, scope):
        branches = []  # of the cases that wait for their `is inr`: the scope that it has
        while self.kind():
            word = self.word()
            if word in ("|", ")", "}", "opponent", "schedule", "derivation"):
                return
            if word == "is" and branches:
                self.takes("is")
                self.takes("inr")
                scope = self.one_binder(branches.pop(), "(")
            elif self.takes("("):
                self.processes(scope)
                self.takes(")")
            elif word in FORMS and self.kind() == "reserved":
                scope = self.form(self.take()[1], scope, branches)
            elif self.kind() == "word":
                self.use(scope)
            else:
                self.take()

    def form(self, word, scope, branches):
        """What comes behind the first word of a form, up to its `;`. Returns the scope of what follows."""
        if word in ("repeat", "inp"):
            self.takes("inp")
        if word not in ("new", "stop"):
            self.message(scope)
        if word == "out":
            self.message(scope)
        elif word in ("inp", "repeat", "new"):
            scope = self.one_binder(scope, "(")
        elif word in ("split", "match", "cast", "check") and self.takes("is"):
            if word == "check":
                self.message(scope)
            elif word == "cast":
                scope = self.one_binder(scope, "(")
            else:
                scope = self.two_binders(scope, word == "match")
        elif word == "case" and self.takes("is", "inl"):
            branches.append(scope)
            scope = self.one_binder(scope, "(")
        elif word == "decrypt" and self.takes("is", "{"):
            token = self.annotation(scope)
            if self.takes("}"):
                self.message(scope)
            scope = self.bound(scope, token)
        self.takes(";")
        return scope


def binder_of(text, offset):
    """The start and the end of the binder of the name at an offset, or nothing."""
    for kind, word, at in tokens_of(text):
        if kind == "word" and at <= offset <= at + len(word):
            try:
                binder = Walk(text).binder.get(at)
            except RecursionError:  # a file that is nested deeper than any is accepted
                return None
            return None if binder is None else (binder, binder + len(word))
    return None


def edits_of(text):
    """The edits of a bench: the start and the end of each `put` and `drop` that begins one."""
    found, first, depth = [], True, 0
    begun = None
    for _, word, at in tokens_of(text):
        if first:
            begun = word
            if word in ("put", "drop"):
                found.append((at, at + len(word)))
        depth = max(0, depth + {"{": 1, "}": -1}.get(word, 0))
        first = depth == 0 and word == ("}" if begun == "put" else ";")
    return found


def section_of(number):
    """The section of docs/reasons.md for a number. Its links are written as plain words."""
    for path in REASONS:
        if os.path.isfile(path):
            with open(path, encoding="utf-8") as file:
                found = re.search(rf"^## {number} .*?(?=^## |\Z)", file.read(), re.M | re.S)
            plain = re.sub(r"\[([^]\n]*)\]\([^)\n]*\)", r"\1", found[0] if found else "")
            return re.sub(r"^```spi .*$", "```cryptyc", plain, flags=re.M).rstrip()
    return None


class Checker:
    def __init__(self, program, limit, tell):
        self.program, self.limit, self.tell = program, limit, tell
        self.running = set()
        folder = os.path.dirname(os.path.realpath(program))  # of an installation, or of a clone that has made the other one
        self.explains = any(os.path.exists(f"{folder}/{path}") for path in EXPLAINERS)

    def end_all(self):
        for running in list(self.running):
            with contextlib.suppress(ProcessLookupError):
                os.killpg(running.pid, signal.SIGKILL)

    def run(self, words, text):
        """What a command writes, and its status; with no status, why there is none."""
        try:
            running = subprocess.Popen([self.program, *words.split()], stdin=subprocess.PIPE, stdout=subprocess.PIPE,
                                       stderr=subprocess.PIPE, start_new_session=True)
        except OSError as error:
            return f"the checker {self.program} can't be started: {error.strerror}", None
        self.running.add(running)
        try:
            return self.outcome(running, text)
        finally:
            self.running.discard(running)

    def outcome(self, running, text):
        given, limit = text.encode("utf-8", "surrogatepass"), self.limit
        while True:
            try:
                said, complaint = running.communicate(given, timeout=limit)
                break
            except subprocess.TimeoutExpired as late:
                if limit < BUILD_LIMIT and b"building" in (late.stderr or b""):
                    self.tell("The checker is being built, once. That takes a minute or two.")
                    given, limit = None, BUILD_LIMIT
                    continue
                os.killpg(running.pid, signal.SIGKILL)
                running.communicate()
                return f"the checker had no answer after {limit:g} seconds, and was ended", None
        said, complaint = (part.decode("utf-8", "replace").rstrip("\n") for part in (said, complaint))
        if running.returncode not in (0, 1, 2):
            return f"the checker failed with status {running.returncode}: {complaint[-400:] or said}", None
        return said, running.returncode

    def verdicts(self, text, said):
        """Of a bench each no, at the word of its edit. The last one is the answer."""
        lines, edits = said.split("\n"), edits_of(text.text)
        wrong = [(number, line) for number, line in enumerate(lines) if line.endswith("no")]
        return [{"range": text.range(*edits[number]), "severity": 1 if number == len(lines) - 1 else 2, "source": "cryptyc",
                 "message": f"{line}: after this edit the parts aren't typed together"}
                for number, line in wrong if len(lines) == len(edits)]

    def diagnostics(self, text, address):
        command = COMMANDS.get(os.path.splitext(address)[1], "check")
        said, status = self.run(command, text.text)
        if command == "bench" and status in (0, 1):
            return self.verdicts(text, said)
        if status == 0:
            return []
        answer, start, end, code = ANSWER.match(said), 0, 0, {}
        if answer:
            kind, number, name, line, column, shown = answer.groups()
            said, code = f"{kind}: {number} {name}" + (f": {shown}" if shown else ""), {"code": int(number)}
            if line:
                start = text.offset_of_report(int(line), int(column))
                piece = PIECE.match(text.text, start)
                end = piece.end() if piece else min(start + 1, len(text.text))
        return [{"range": text.range(start, end), "severity": 1, "source": "cryptyc", "message": said, **code}]


    def explained(self, text, address, found):
        """The diagnostics of a file with what `explain` says of it; nothing where it says nothing or isn't there."""
        if not self.explains or len(found) != 1 or "code" not in found[0] or os.path.splitext(address)[1] in COMMANDS:
            return None
        said, status = self.run("explain --lines", text.text)
        first, *lines = said.split("\n")
        if status not in (1, 2) or not first.startswith(": ".join(found[0]["message"].split(": ")[:2])):
            return None
        words, notes, others = [found[0]["message"]], [], []
        for start, end, kind, told in (it.groups() for it in map(FINDING.match, lines) if it):
            place = start and text.range(text.offset_of_byte(int(start)), text.offset_of_byte(int(end)))
            if kind == "also" and place:
                others.append({"range": place, "severity": 1, "source": "cryptyc", "message": told})
            elif kind == "note" and place:
                notes.append({"location": {"uri": address, "range": place}, "message": told})
            else:
                words.append(f"{kind}: {told}")
        return [{**found[0], "message": "\n".join(words), "relatedInformation": notes}, *others]


class Server:
    def __init__(self, program, limit):
        self.sending, self.checker = threading.Lock(), Checker(program, limit, self.tell)
        self.files, self.found = {}, {}  # by address: the text and its version; the diagnostics last sent
        self.changed = queue.Queue()
        self.shut = False
        threading.Thread(target=self.keep_checking, daemon=True).start()

    def send(self, **message):
        body = json.dumps({"jsonrpc": "2.0", **message}).encode()
        with self.sending:
            sys.stdout.buffer.write(b"Content-Length: %d\r\n\r\n" % len(body) + body)
            sys.stdout.buffer.flush()

    def tell(self, text):
        self.send(method="window/showMessage", params={"type": 3, "message": text})

    def publish(self, address, found, version=None):
        self.found[address] = found
        told = {"uri": address, "diagnostics": found, **({} if version is None else {"version": version})}
        self.send(method="textDocument/publishDiagnostics", params=told)

    def keep_checking(self):
        """Checks what has changed, and tells nothing of a text that is no longer the newest."""
        while True:
            address, asked = self.changed.get()
            if self.files.get(address) is asked:
                found = self.checker.diagnostics(asked[0], address)
                if self.files.get(address) is asked:
                    self.publish(address, found, asked[1])
                    found = self.checker.explained(asked[0], address, found)
                if found and self.files.get(address) is asked:
                    self.publish(address, found, asked[1])

    def set(self, address, text, version):
        self.files[address] = (Text(text), version)
        self.changed.put((address, self.files[address]))

    def hover(self, address, position, text):
        at = text.offset(position)
        for found in self.found.get(address, []):
            start, end = (text.offset(found["range"][side]) for side in ("start", "end"))
            if start <= at <= end:
                section = section_of(found["code"]) if "code" in found else None
                return {"contents": {"kind": "markdown", "value": section or found["message"]}, "range": found["range"]}
        return None

    def definition(self, address, position, text):
        binder = binder_of(text.text, text.offset(position))
        return {"uri": address, "range": text.range(*binder)} if binder else None

    def formatting(self, text):
        if any(piece.lastgroup == "comment" for piece in PIECE.finditer(text.text)):
            self.tell("This file has comments, which `print` would drop. It stays as it is.")
            return None
        said, status = self.checker.run("print", text.text)
        if status != 0:
            self.tell(f"The file can't be printed: {said}")
            return None
        return [{"range": text.range(0, len(text.text)), "newText": said + "\n"}]

    def answer(self, method, asked):
        """The result of a request about a file."""
        address = asked["textDocument"]["uri"]
        if address not in self.files:
            return None
        text = self.files[address][0]
        if method == "textDocument/formatting":
            return self.formatting(text)
        what = self.hover if method == "textDocument/hover" else self.definition
        return what(address, asked["position"], text)

    def take(self, message):
        method, asked = message.get("method"), message.get("params") or {}
        file = asked.get("textDocument")
        if method == "initialize":
            can = {"positionEncoding": "utf-16", "textDocumentSync": 1, "hoverProvider": True,
                   "definitionProvider": True, "documentFormattingProvider": True}
            self.send(id=message["id"], result={"capabilities": can, "serverInfo": {"name": "cryptyc"}})
        elif method == "textDocument/didOpen":
            self.set(file["uri"], file["text"], file.get("version"))
        elif method == "textDocument/didChange":
            self.set(file["uri"], asked["contentChanges"][-1]["text"], file.get("version"))
        elif method == "textDocument/didClose":
            self.files.pop(file["uri"], None)
            self.publish(file["uri"], [])
        elif method in ("textDocument/hover", "textDocument/definition", "textDocument/formatting"):
            self.send(id=message["id"], result=self.answer(method, asked))
        elif method == "shutdown":
            self.shut = True
            self.send(id=message["id"], result=None)
        elif "id" in message and method:
            self.send(id=message["id"], error={"code": -32601, "message": f"there is no method {method}"})

    def serve(self):
        """Takes messages up to `exit` or the end of the input. Returns the status."""
        while True:
            length = 0
            while (line := sys.stdin.buffer.readline()) not in (b"\r\n", b"\n"):
                if not line:
                    return 0 if self.shut else 1
                name, _, value = line.partition(b":")
                if name.strip().lower() == b"content-length":
                    length = int(value) if value.strip().isdigit() else 0
            message = {}
            try:
                message = json.loads(sys.stdin.buffer.read(length))
                if message.get("method") == "exit":
                    return 0 if self.shut else 1
                self.take(message)
            except (ValueError, KeyError, IndexError, TypeError, AttributeError) as error:  # a message that is none
                at = message.get("id") if isinstance(message, dict) else None
                self.send(id=at, error={"code": -32600, "message": f"this is no message: {error!r}"})


def find_program(named):
    beside, installed = f"{HERE}/../cryptyc", f"{HERE}/../../../bin/cryptyc"
    program = named or os.environ.get("CRYPTYC") or shutil.which("cryptyc")
    program = program or (installed if os.path.isfile(installed) and not os.path.isfile(beside) else beside)
    return os.path.abspath(program) if "/" in program else shutil.which(program) or program


def main():
    words = argparse.ArgumentParser(description=__doc__, formatter_class=argparse.RawDescriptionHelpFormatter)
    words.add_argument("--limit", type=float, default=10)
    words.add_argument("--stdio", action="store_true", help="the only way there is; some editors add this word")
    words.add_argument("program", nargs="?")
    asked = words.parse_args()
    sys.setrecursionlimit(6_000)  # enough for the deepest file that is accepted
    server = Server(find_program(asked.program), asked.limit)
    try:
        return server.serve()
    finally:
        server.checker.end_all()


if __name__ == "__main__":
    sys.exit(main())
