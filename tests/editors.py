#!/usr/bin/env python3
"""Tests what stands around the program: the language server and the grammars of editors/, tools/sarif, the completions
and the man pages, ./install and tools/package.

The server is driven over its protocol. The grammars of TextMate and of Vim are held to the lexer (docs/language.md,
'Tokens'): each token of each .spi file of the repository has the class that it should have. For TextMate tests/textmate.py
reads the grammar; for Vim, Vim or Neovim is asked. `--program FILE`, once or more often, gives the
programs; without one, the build without proofs that tools/keep.py keeps. What needs a tool that isn't there is left
out, and a line says so. The last line is 'N passed, M failed'."""

import argparse
import glob
import json
import os
import re
import shutil
import subprocess
import sys
import tempfile
import threading
import time

from textmate import TextMate
from tokens import EXTRA, KEYWORDS_2, TYPES, files, read, tokens_of

ROOT = os.path.dirname(os.path.dirname(os.path.abspath(__file__)))
SERVER = f"{ROOT}/editors/cryptyc_lsp.py"
LIMIT = 20  # seconds for an answer
passed, failed = 0, 0


def expect(shows, holds, why=""):
    global passed, failed
    passed, failed = passed + bool(holds), failed + (not holds)
    if not holds:
        print(f"editors: {shows}{': ' if why else ''}{why}")


def left_out(what, tool):
    print(f"left out: {what} (there is no {tool})")


# The grammar of TextMate

TEXTMATE = {"comment.": "comment", "keyword.operator.cryptyc": "mark", "keyword.": "keyword", "punctuation.": "mark",
            "support.type.": "type", "constant.numeric.": "number", "variable.": "name",
            "entity.name.function.": "rule"}


def test_textmate():
    grammar = TextMate("editors/vscode/syntaxes/cryptyc.tmLanguage.json")
    for name, text in files().items():
        scopes, wrong = grammar.scopes(text), []
        for at, word, wanted in tokens_of(text):
            got = {scopes.get(at + place, "") for place in range(len(word))}
            kinds = {next((kind for start, kind in TEXTMATE.items() if it.startswith(start)), "none") for it in got}
            if kinds != {wanted}:
                wrong.append(f"{word!r} at {at} is {kinds}, not {wanted}")
        expect(f"TextMate: {name}", not wrong, "; ".join(wrong[:3]))


def test_extension():
    """What the files of the extension name is there."""
    package = json.loads(read("editors/vscode/package.json"))
    folder, contributes = f"{ROOT}/editors/vscode", package["contributes"]
    language, grammar = contributes["languages"][0], contributes["grammars"][0]
    named = [package["main"], language["configuration"], grammar["path"]]
    expect("the extension's files", all(os.path.isfile(f"{folder}/{name}") for name in named))
    expect("the extension's language", language["id"] == grammar["language"] and language["extensions"] == [".spi", ".nar", ".bench"])
    scope = json.loads(read("editors/vscode/syntaxes/cryptyc.tmLanguage.json"))["scopeName"]
    expect("the extension's scope", scope == grammar["scopeName"])
    configuration = json.loads(read("editors/vscode/language-configuration.json"))
    expect("the extension's comments", configuration["comments"] == {"lineComment": "//"})


# The syntax file of Vim

VIM = {"cryptycComment": "comment", "cryptycDeclaration": "keyword", "cryptycProcess": "keyword",
       "cryptycStep": "keyword", "cryptycAssertion": "keyword", "cryptycWord": "keyword", "cryptycType": "type",
       "cryptycNumber": "number", "cryptycName": "name", "cryptycRule": "rule", "cryptycPunctuation": "mark",
       "cryptycOperator": "mark"}
VIM_ASKS = """
set encoding=utf-8 nomodeline
let &runtimepath = '%(folder)s,' . &runtimepath
filetype plugin on
syntax on
for s:file in readfile('%(list)s')
  execute 'edit' fnameescape(s:file)
  let s:out = [&filetype . ' ' . &commentstring]
  for s:asked in readfile(s:file . '.asked')
    let [s:line, s:column] = split(s:asked)
    call add(s:out, synIDattr(synID(s:line, s:column, 0), 'name'))
  endfor
  call writefile(s:out, s:file . '.told')
endfor
qall!
"""


def test_vim(room):
    program = shutil.which("vim") or shutil.which("nvim")
    if not program:
        left_out("Vim's syntax file", "vim and no nvim")
        return
    asked = {}
    for number, (name, text) in enumerate(files().items()):
        path, places = f"{room}/{number}.spi", []
        for at, word, wanted in tokens_of(text):
            for place in sorted({at, at + len(word) - 1}):
                line = text.count("\n", 0, place) + 1
                column = len(text[text.rfind("\n", 0, place) + 1:place].encode()) + 1
                places.append((line, column, word, wanted))
        with open(path, "w", encoding="utf-8") as file:
            file.write(text)
        with open(f"{path}.asked", "w", encoding="utf-8") as file:
            file.write("".join(f"{line} {column}\n" for line, column, _, _ in places))
        asked[path] = name, places
    with open(f"{room}/list", "w", encoding="utf-8") as file:
        file.write("".join(f"{path}\n" for path in asked))
    with open(f"{room}/ask.vim", "w", encoding="utf-8") as file:
        file.write(VIM_ASKS % {"folder": f"{ROOT}/editors/vim", "list": f"{room}/list"})
    words = ["--headless"] if program.endswith("nvim") else ["-e", "-s", "-N", "-i", "NONE"]
    ran = run([program, "-u", "NONE", *words, "-S", f"{room}/ask.vim"], limit=600)
    expect("Vim reads the syntax file", ran.returncode == 0 and not re.search(r"\bE\d+:", ran.stdout + ran.stderr),
           ran.stdout + ran.stderr)
    for path, (name, places) in asked.items():
        told = [""]
        if os.path.exists(f"{path}.told"):
            with open(f"{path}.told", encoding="utf-8") as file:
                told = file.read().split("\n")
        wrong = [f"{word!r} at {line}:{column} is {got or 'plain'}, not {wanted}"
                 for (line, column, word, wanted), got in zip(places, told[1:]) if VIM.get(got) != wanted]
        whole = told[0] == "cryptyc // %s" and len(told) > len(places)
        expect(f"Vim: {name}", whole and not wrong, "; ".join(wrong[:3]))


def run(words, given="", limit=LIMIT, **how):
    try:
        return subprocess.run(words, input=given, capture_output=True, text=True, timeout=limit, **how)
    except subprocess.TimeoutExpired:
        return subprocess.CompletedProcess(words, -1, "", f"not ended after {limit} s")


def test_emacs(room):
    if not shutil.which("emacs"):
        left_out("Emacs's mode", "emacs")
        return
    shutil.copy(f"{ROOT}/editors/emacs/cryptyc-mode.el", room)
    strict = ["--eval", "(setq byte-compile-error-on-warn t)", "-f", "batch-byte-compile"]
    ran = run(["emacs", "-Q", "--batch", *strict, f"{room}/cryptyc-mode.el"], limit=60)
    expect("Emacs compiles the mode", ran.returncode == 0, ran.stderr)
    with open(f"{room}/faces.spi", "w", encoding="utf-8") as file:
        file.write("version 2; free a; // end\nprocess endmany hash(a); new (ending: Un); stop")
    shows = """(progn (find-file "%s/faces.spi") (font-lock-ensure) (princ major-mode)
        (dolist (word '("version" "free" "end" "process" "endmany" "hash" "new" "ending" "Un"))
          (goto-char (point-min)) (re-search-forward (concat "\\\\_<" word "\\\\_>"))
          (princ (format " %%s" (get-text-property (match-beginning 0) 'face)))))""" % room
    ran = run(["emacs", "-Q", "--batch", "-l", f"{room}/cryptyc-mode.el", "--eval", shows], limit=60)
    faces = ["cryptyc-mode", *(f"font-lock-{it}-face" for it in ("keyword", "keyword", "comment", "keyword", "keyword",
                                                                 "keyword", "keyword")), "nil", "font-lock-type-face"]
    expect("Emacs's colours", ran.stdout.split() == faces, ran.stdout + ran.stderr)


# The language server

def frame(**message):
    body = json.dumps({"jsonrpc": "2.0", **message})
    return f"Content-Length: {len(body)}\r\n\r\n{body}"


class Client:
    """Drives a server: what it is asked, and what it says of its own accord."""

    def __init__(self, *words, **how):
        self.running = subprocess.Popen([sys.executable, SERVER, *words], stdin=subprocess.PIPE,
                                        stdout=subprocess.PIPE, **how)
        self.number, self.notes = 0, []
        self.watch = threading.Timer(120, self.running.kill)  # so a server that says nothing more fails its tests alone
        self.watch.start()
        self.ask("initialize", processId=None, rootUri=None, capabilities={})
        self.note("initialized")

    def put(self, **message):
        self.running.stdin.write(frame(**message).encode())
        self.running.stdin.flush()

    def get(self):
        length = 0
        while line := self.running.stdout.readline().strip():
            length = int(line.split(b":")[1])
        return json.loads(self.running.stdout.read(length) or "{}")

    def note(self, method, **params):
        self.put(method=method, params=params)

    def ask(self, method, **params):
        self.number += 1
        self.put(id=self.number, method=method, params=params)
        while (message := self.get()) and message.get("id") != self.number:
            self.notes.append(message)
        return message

    def wait(self, method, holds=lambda params: True):
        """The parameters of the next notification of a method that a test holds of."""
        while True:
            for at, message in enumerate(self.notes):
                if message.get("method") == method and holds(message["params"]):
                    del self.notes[at]
                    return message["params"]
            message = self.get()
            if not message:
                return {}
            self.notes.append(message)

    def open(self, text, name="a", ending=".spi"):
        file = {"uri": f"file:///{name}{ending}", "languageId": "cryptyc", "version": 1, "text": text}
        self.note("textDocument/didOpen", textDocument=file)
        return self.found(1, name, ending)

    def change(self, text, version, name="a"):
        file = {"uri": f"file:///{name}.spi", "version": version}
        self.note("textDocument/didChange", textDocument=file, contentChanges=[{"text": text}])
        return self.found(version, name)

    def found(self, version, name="a", ending=".spi"):
        def holds(params):
            return (params["uri"], params.get("version")) == (f"file:///{name}{ending}", version)
        return self.wait("textDocument/publishDiagnostics", holds).get("diagnostics")

    def at(self, method, line, character, name="a", ending=".spi"):
        file, place = {"uri": f"file:///{name}{ending}"}, {"line": line, "character": character}
        return self.ask(f"textDocument/{method}", textDocument=file, position=place).get("result")

    def end(self):
        self.ask("shutdown")
        self.put(method="exit")
        self.running.stdin.close()
        status = self.running.wait(LIMIT)
        self.watch.cancel()
        return status


def span(line, start, end, to=None):
    return {"start": {"line": line, "character": start}, "end": {"line": line if to is None else to, "character": end}}


def told(found):
    """Of diagnostics the numbers, the messages and the ranges."""
    return [(it.get("code"), it["message"], it["range"]) for it in found or []]


def test_diagnostics(program):
    client = Client(program)
    good, bad = read("examples/nonce_handshake.spi"), read("examples/unchecked_nonce.spi")
    expect("server: a yes", client.open(good) == [])
    wanted = (49, "no: 49 EffectEscapes: end (a, (b, m))", span(7, 26, 31))
    expect("server: a no", told(client.change(bad, 2)) == [wanted])
    hover = client.at("hover", 7, 28) or {}
    section = hover.get("contents", {}).get("value", "")
    expect("server: hover", section.startswith("## 49 EffectEscapes\n") and section.count("\n## ") == 0)
    expect("server: hover without links", section and "](" not in section)
    expect("server: hover's range", hover.get("range") == wanted[2])
    expect("server: no hover elsewhere", client.at("hover", 6, 28) is None and client.at("hover", 7, 32) is None)
    expect("server: mended", client.change(good, 3) == [] and client.at("hover", 7, 28) is None)
    cases = [
        ("behind characters of two units", "free 𝒳, a; process begin (𝒳, 𝒳); end é; stop", (30, span(0, 40, 41))),
        ("a name of two units", "free a;\r\nprocess out é 𝒳", (30, span(1, 12, 13))),
        ("a name of three units", "free a;\nprocess out a 𝒳y", (30, span(1, 14, 17))),
        ("at the end of the file", "free a; process begin a;\n", (20, span(1, 0, 0))),
        ("at a mark", "free é; process (begin é; stop)", (20, span(0, 30, 31))),
        ("at no token", "process stop // 𝒳\n ?", (11, span(1, 1, 2))),
        ("behind a lone CR", "// 𝒳\rprocess out a a\nprocess stop", None),
        ("a half of a character", "process stop // \ud800", (10, span(0, 16, 17))),
        ("no place", "free a; process stop" + " " * 2**24, (2, span(0, 0, 0))),
        ("nothing", "", (20, span(0, 0, 0))),
    ]
    for version, (shows, text, wanted) in enumerate(cases, 4):
        got = [(code, place) for code, _, place in told(client.change(text, version))]
        expect(f"server: {shows}", wanted is None or got == [wanted], f"{got}")
    client.note("textDocument/didClose", textDocument={"uri": "file:///a.spi"})
    expect("server: closed", client.found(None) == [])
    expect("server: unknown requests", client.ask("textDocument/rename").get("error", {}).get("code") == -32601)
    client.put(wrong=[])
    client.running.stdin.write(b"Content-Length: none\r\n\r\nContent-Length: 2\r\n\r\n[]Content-Length: 3\r\n\r\n{?}")
    client.note("textDocument/didChange", textDocument={})
    expect("server: it stays", client.open(good, "b") == [])
    told_run = read("protocols/wide_mouthed_frog/honest.nar")
    expect("server: a narration", client.open(told_run, "n", ".nar") == [])
    broken = told_run.replace("B: check nb is q;", "B: check kbs is q;")
    line = broken[:broken.index("B: check kbs")].count("\n")
    got = told(client.open(broken, "o", ".nar"))
    expect("server: a line that isn't ready", got == [(102, "refused: 102 LineNotReady", span(line, 0, 1))], f"{got}")
    section = (client.at("hover", line, 0, "o", ".nar") or {}).get("contents", {}).get("value", "")
    expect("server: hover in a narration", section.startswith("## 102 LineNotReady\n") and section.count("\n## ") == 0)
    got = told(client.open("free net; roles A;\nA to B on net: net as x;", "p", ".nar"))
    marked = told(client.open(read("examples/handshake.bench"), "q", ".bench"))
    wrong = [(None, f"{number} no: after this edit the parts aren't typed together", span(line, 0, 3))
             for number, line in ((2, 9), (4, 21))]
    expect("server: a bench", marked == wrong, f"{marked}")
    marked = told(client.open("put A { stop }\ndrop B;", "r", ".bench"))
    expect("server: a bench that is refused", marked == [(120, "refused: 120 UnknownPart: B", span(1, 5, 6))], f"{marked}")
    section = (client.at("hover", 1, 5, "r", ".bench") or {}).get("contents", {}).get("value", "")
    expect("server: hover in a bench", section.startswith("## 120 UnknownPart\n"), section[:40])
    expect("server: a role that isn't declared", got == [(100, "refused: 100 UnknownRole: B", span(1, 5, 6))], f"{got}")
    expect("server: shutdown", client.end() == 0)


def defined(marked):
    """A text without its marks, and the offsets where they stood."""
    plain, places = "", {}
    for part in re.split("(‹|›)", marked):
        if part in ("‹", "›"):
            places[part] = len(plain)
        else:
            plain += part
    return plain, places


def utf16(text, at):
    """The line and the character, as the protocol counts them."""
    return text.count("\n", 0, at), len(text[text.rfind("\n", 0, at) + 1:at].encode("utf-16-le")) // 2


WORDS_OF_PARTS = ("act", "talk", "shared", "roles", "to", "on", "as", "put", "drop")
DEFINITIONS = [  # ‹ stands before a binder, › before a use of it
    "free ‹a, b; process out ›a b",
    "free a, ‹b; process inp a (x: Un); out a ›b",
    "free ‹x; process inp x (x: Key(Nonce [end ›x])); out x x",
    "free x; process inp x (‹x: Un); out ›x x",
    "free a; process repeat inp a (‹x: Un); out a {(x, inl ›x)}a",
    "free a; process split a is (‹x: Un, y: Nonce [end ›x]); out a y",
    "free a; process split a is (‹x: Un, y: Un); out ›x y",
    "free a; process split a is (x: Un, ‹y: Un); out x ›y",
    "free ‹x; process match x is (x: Un = ›x, y: Un); stop",
    "free x; process match x is (‹x: Un = x, y: Nonce [end ›x]); stop",
    "free ‹x; process match x is (x: Un = x, y: Un); out ›x y",
    "free x; process match x is (z: Un = x, ‹x: Un); out ›x x",
    "free x; process case x is inl (‹x: Un); out ›x x is inr (y: Un); out x y",
    "free ‹x; process case x is inl (x: Un); out x x is inr (y: Un); out ›x y",
    "free a; process case a is inl (x: Un); case x is inl (y: Un); stop is inr (y: Un); stop is inr (‹y: Un); "
    "out a ›y",
    "free ‹x; process case x is inl (x: Un); check x is inr x; stop is inr (y: Un); out ›x x",
    "free a; process decrypt a is {‹x: Un}a; out a ›x",
    "free ‹x; process decrypt x is {x: Un}›x; out x x",
    "free a; process cast a is (‹x: Nonce []); check a is ›x; stop",
    "free a; process new (‹x: Un); (out a x | out a ›x)",
    "free ‹x; process (new (x: Un); out x x | out x ›x)",
    "free ‹x; process new (x: Un); stop | out x ›x",
    "free ‹x; process new (x: Un); stop opponent out x ›x",
    "free a; type ‹T = (x: Un, y: Un); process inp a (x: ›T); stop",
    "free a; type T = (‹x: Un, y: Key(Un), Nonce [end (a, ›x)]); process stop",
    "free ‹a; type T = Nonce [check ›a]; process stop",
    "version 2; free a; process new (‹m: Un); endmany hash(›m); stop",
    "free ‹hash; process out ›hash hash",
    "free ‹𝒳𝒴, b; process out b // 𝒳𝒴\n ›𝒳𝒴",
    "free net; process new (‹k: Key(Un)); inp net (c: Un); decrypt c is {x: Un}›k",
    "free net; process new (‹k: Un); split net is (a: Un,\n out net ›k",
    "free net; process new (k: Un); split net is (‹a: Un, b\n check ›a",
    "free net; process inp net (‹a: ); out net (›a, ",
    "free ‹net, process new (k: Un) out ›net",
    "free net; process ((new (‹k: Un); out net (k, ; out net ›k",
    "type ‹T = (x: Un; process new (x: Key(›T",
    "free net; shared ‹k: Key(Un); shared n: Nonce [check ›k]; roles A;",
    "free net; roles A, ‹B; A: new (x: Un); ›B: new (x: Un);",
    "free net; roles ‹A, B; B to ›A on net: net as x;",
    "free ‹net; roles A, B; A: new (net: Un); B to A on ›net: () as x;",
    "free net; roles A, B; A: new (‹x: Un); B: new (x: Un); A: check net is ›x;",
    "free net; roles A, B; A: new (‹x: Un); A to B on net: (›x, x) as x;",
    "free net; roles A, B; A: new (x: Un); A to B on net: x as ‹x; B: check ›x is x;",
    "shared ‹k: Key(Un); roles A; A: decrypt k is {k: Un}›k;",
    "free net; roles A, B; A: new (‹x: Un); A to B on net: (x, ; A: check ›x",
    "free a; shared ‹k: Key(Un); put A { out a {a}›k } put B { out a k }",
    "free a; put A { inp a (‹x: Un); (out a x | out a ›x) } put B { inp a (x: Un); stop }",
    "free a; put ‹A { inp a (x: Un); stop } put B { stop } put A { stop } drop ›A;",
    "free ‹put; put A { out put put } put B { out ›put put }",
    "free ‹a; process new (x: Un); } out ›a a } stop",
    "free ‹a; process new (x: Un); ) ›a",
]


def test_definitions(program):
    client = Client(program)
    for version, marked in enumerate(DEFINITIONS):
        text, places = defined(marked)
        name = re.compile(r"[^\W\d]\w*").match(text, places["‹"])[0]
        client.note("textDocument/didOpen", textDocument={"uri": "file:///a.spi", "version": version, "text": text})
        start, use, length = utf16(text, places["‹"]), utf16(text, places["›"]), len(name.encode("utf-16-le")) // 2
        wanted = {"uri": "file:///a.spi", "range": span(start[0], start[1], start[1] + length)}
        got = [client.at("definition", use[0], use[1] + more) for more in (0, length)]
        expect(f"definition: {marked!r}", got == [wanted, wanted], f"{got}")
    expect("definition: of a word", client.at("definition", 0, 1) is None)
    expect("definition: on a blank", client.at("definition", 0, 16) is None)
    expect("definition: behind the end", client.at("definition", 0, 99) is not None)
    client.open("free a; process out " + "(" * 100_000 + "a", "deep")
    expect("definition: too deep", client.at("definition", 0, 100_020, "deep") is None)
    for name, text in files().items():  # nothing that is cut off anywhere harms the server
        file = {"uri": f"file:///{name}", "version": 1, "text": text[:len(text) // 2]}
        client.note("textDocument/didOpen", textDocument=file)
    expect("server: shutdown after files cut in half", client.end() == 0)


def test_walk():
    """Each name of an accepted file has a binder, and no prefix of a file stops the walk."""
    sys.path.insert(0, f"{ROOT}/editors")
    import cryptyc_lsp
    for name, text in files().items():
        if name not in EXTRA and (not name.startswith("examples/mistakes/") or name.endswith(".mended.spi")):
            walk = cryptyc_lsp.Walk(text)
            missing = [word for kind, word, at in cryptyc_lsp.tokens_of(text)
                       if kind == "word" and at not in walk.binder and word not in WORDS_OF_PARTS]
            expect(f"definition: all names of {name}", not missing, f"{missing}")
    text = read("examples/nonce_handshake.spi")
    try:
        for end in range(len(text)):
            cryptyc_lsp.Walk(text[:end])
            cryptyc_lsp.Walk(text[end:])
        expect("definition: unfinished files", True)
    except Exception as error:
        expect("definition: unfinished files", False, repr(error))


def test_formatting(program):
    client = Client(program)
    text = "free a ;process\n  out a   a"
    client.open(text)
    edit = client.ask("textDocument/formatting", textDocument={"uri": "file:///a.spi"}).get("result")
    wanted = [{"range": span(0, 0, 11, 1), "newText": "free a;\nprocess out a a\n"}]
    expect("server: formatting", edit == wanted, f"{edit}")
    for version, (shows, text, said) in enumerate([("of a file with comments", "// a\nprocess stop", "comments"),
                                                   ("of a file that is none", "process", "20 Syntax")], 2):
        client.change(text, version)
        edit = client.ask("textDocument/formatting", textDocument={"uri": "file:///a.spi"}).get("result")
        told_why = client.wait("window/showMessage").get("message", "")
        expect(f"server: formatting {shows}", edit is None and said in told_why, told_why)
    client.end()


def first_message(found):
    return found[0]["message"] if found else ""


def write_program(path, text):
    with open(path, "w", encoding="utf-8") as file:
        file.write(f"#!/bin/bash\n{text}\n")
    os.chmod(path, 0o755)
    return path


def test_programs(room, program):
    """Programs that hang, fail or aren't there; and how the server finds one."""
    hangs = write_program(f"{room}/hangs", "sleep 100 & wait")
    began, client = time.time(), Client("--limit", "0.5", hangs)
    found = client.open("process stop")
    expect("server: a program that hangs", "no answer after 0.5 seconds" in first_message(found), f"{found}")
    expect("server: it was ended in time", time.time() - began < 5)
    client.end()
    client = Client(write_program(f"{room}/fails", "echo no compiler >&2; exit 70"))
    found = client.open("process stop")
    expect("server: a program that fails", "status 70: no compiler" in first_message(found), f"{found}")
    client.end()
    client = Client(f"{room}/nothing")
    found = client.open("process stop")
    expect("server: no program", "can't be started" in first_message(found), f"{found}")
    client.end()
    builds = 'echo building >&2; sleep 1; echo yes'
    client = Client("--limit", "0.5", write_program(f"{room}/builds", builds))
    expect("server: a program that is being built", client.open("process stop") == [])
    client.end()
    os.makedirs(f"{room}/bin", exist_ok=True)
    write_program(f"{room}/bin/cryptyc", f"exec '{program}' \"$@\"")
    plain = {key: value for key, value in os.environ.items() if key != "CRYPTYC"}
    for shows, environment in [("$CRYPTYC", {**plain, "CRYPTYC": program}),
                               ("the PATH", {**plain, "PATH": f"{room}/bin:{plain['PATH']}"})]:
        client = Client(env=environment)
        expect(f"server: the program by {shows}", told(client.open("process"))[0][0] == 20)
        client.end()


EXPLAINS = """[ "$*" = "explain --lines" ] || exit 6
cat <<'TEXT'
no: 41 DatumNotUn at 2:29: k
37-38 wrong: `k` is sent, and is no message for everybody
22-23 note: `k` is bound here
help: send it under another key
5-7 also: `é` is wrong too
TEXT
exit 1"""


def test_explained(room, program):
    """Where the program that explains is there, what it says comes behind the answer of check."""
    for folder in ("bin", "lib/cryptyc"):
        os.makedirs(f"{room}/{folder}")
    shutil.copy(f"{ROOT}/tools/installed", f"{room}/bin/cryptyc")
    os.symlink(program, f"{room}/lib/cryptyc/cryptyc")
    write_program(f"{room}/lib/cryptyc/cryptyc_explain", EXPLAINS)
    client = Client(f"{room}/bin/cryptyc")
    plain = client.open("free é;\nprocess new (k: Key(Un)); out é k")
    expect("explained: first check", told(plain) == [(41, "no: 41 DatumNotUn: k", span(1, 26, 29))], f"{plain}")
    found = client.found(1) or [{"message": ""}]
    words = ["no: 41 DatumNotUn: k", "wrong: `k` is sent, and is no message for everybody", "help: send it under another key"]
    expect("explained: the words", found[0]["message"] == "\n".join(words), f"{found}")
    notes = [{"location": {"uri": "file:///a.spi", "range": span(1, 13, 14)}, "message": "`k` is bound here"}]
    expect("explained: the notes", found[0].get("relatedInformation") == notes, f"{found}")
    expect("explained: a further place", told(found)[1:] == [(None, "`é` is wrong too", span(0, 5, 6))], f"{found}")
    section = (client.at("hover", 1, 27) or {}).get("contents", {}).get("value", "")
    expect("explained: hover", section.startswith("## 41 DatumNotUn\n"), section[:40])
    client.end()


EXTENSION = """
const handlers = {}, shown = new Map(), said = [];
class Range { constructor(a, b, c, d) { Object.assign(this, { at: [a, b, c, d] }); } }
class Diagnostic { constructor(range, message) { Object.assign(this, { range, message }); } }
class Pair { constructor(one, two) { Object.assign(this, { one, two }); } }
const text = require('fs').readFileSync(process.argv[3], 'utf8');
const uri = { toString: () => 'file:///a.spi' };
const document = { uri, languageId: 'cryptyc', version: 1, getText: () => text };
const on = (name) => (handler) => { handlers[name] = handler; return { dispose() {} }; };
const provider = (name) => (_, it) => { handlers[name] = Object.values(it)[0]; return { dispose() {} }; };
const vscode = {
  Range, Diagnostic, Hover: Pair, Location: Pair, MarkdownString: String, DiagnosticSeverity: { Error: 0, Warning: 1 },
  DiagnosticRelatedInformation: Pair,
  Uri: { parse: (it) => it }, TextEdit: { replace: (range, text) => ({ range, text }) },
  languages: {
    createDiagnosticCollection: () => ({ set: (uri, found) => shown.set(uri, found) }),
    registerHoverProvider: provider('hover'), registerDefinitionProvider: provider('definition'),
    registerDocumentFormattingEditProvider: provider('format'),
  },
  window: { showInformationMessage: (it) => said.push(it), showErrorMessage: (it) => said.push(it) },
  workspace: {
    getConfiguration: () => ({ get: (name) => (name === 'program' ? process.argv[4] : '') }), textDocuments: [document],
    onDidOpenTextDocument: on('open'), onDidChangeTextDocument: on('change'), onDidCloseTextDocument: on('close'),
  },
};
const Module = require('module'), load = Module._load;
Module._load = (name, ...more) => (name === 'vscode' ? vscode : load(name, ...more));
const extension = require(process.argv[2]);
(async () => {
  extension.activate({ subscriptions: [] });
  for (let i = 0; i < 200 && !shown.size; i++) await new Promise((done) => setTimeout(done, 50));
  const found = shown.get('file:///a.spi') || [];
  const hover = await handlers.hover(document, { line: 7, character: 27 });
  const definition = await handlers.definition(document, { line: 7, character: 33 });
  const edits = await handlers.format(document);
  await extension.deactivate();
  console.log(JSON.stringify([found.map((it) => [it.code, it.range.at]), String(hover && hover.one).slice(0, 5),
    definition && definition.two.at, edits.length, said.length]));
})();
"""


def test_extension_runs(room, program):
    if not shutil.which("node"):
        left_out("running the extension of VS Code", "node")
        return
    with open(f"{room}/extension.js", "w", encoding="utf-8") as file:
        file.write(EXTENSION)
    example = f"{ROOT}/examples/unchecked_nonce.spi"
    ran = run(["node", f"{room}/extension.js", f"{ROOT}/editors/vscode/extension.js", example, program])
    wanted = [[[49, [7, 26, 7, 31]]], "## 49", [7, 16, 7, 17], 0, 1]
    expect("the extension speaks with the server", ran.stdout.strip() == json.dumps(wanted, separators=(",", ":")),
           ran.stdout + ran.stderr)


# tools/sarif

def expect_sarif(shows, text):
    """Holds a log to what the standard asks of the objects that are in it."""
    try:
        import jsonschema
    except ImportError:
        left_out(f"sarif: the schema, for {shows}", "python3-jsonschema")
        return
    schema = json.loads(read("tests/sarif_2_1_0.json"))
    faults = list(jsonschema.Draft7Validator(schema).iter_errors(json.loads(text)))
    expect(f"sarif: the schema, for {shows}", not faults, "; ".join(it.message[:200] for it in faults[:3]))


def test_sarif(room, program):
    sarif = [f"{ROOT}/tools/sarif", "--program", program]
    wanted = []
    for path in [os.path.relpath(it, ROOT) for pattern in ("*.spi", "*/*.spi") for it in sorted(glob.glob(f"{ROOT}/examples/{pattern}"))]:
        said = run([program, "check"], read(path)).stdout.strip()
        if said != "yes":
            what, place, shown = re.fullmatch(r"(.*?) at (\d+:\d+)(.*)", said).groups()
            wanted.append(f"{path}:{place}: error: {what}{shown}\n")
    ran = run([*sarif, "--lines", "examples"], cwd=ROOT)
    expect("sarif: lines", (ran.returncode, ran.stdout) == (1, "".join(wanted)), ran.stdout + ran.stderr)
    ran = run([*sarif, "examples"], cwd=ROOT)
    expect_sarif("many files", ran.stdout)
    log = json.loads(ran.stdout)["runs"][0]
    lines = []
    for result in log["results"]:
        place = result["locations"][0]["physicalLocation"]
        line, column = place["region"]["startLine"], place["region"]["startColumn"]
        lines.append(f"{place['artifactLocation']['uri']}:{line}:{column}: error: {result['message']['text']}\n")
    expect("sarif: results", ran.returncode == 1 and lines == wanted)
    rules = log["tool"]["driver"]["rules"]
    expect("sarif: rules", all(rules[it["ruleIndex"]]["id"] == it["ruleId"] for it in log["results"]))
    expect("sarif: what rules say", all(len(it["fullDescription"]["text"]) > 25 for it in rules), f"{rules}")
    expect("sarif: no links in plain text", not any("](" in it["fullDescription"]["text"] for it in rules))
    expect("sarif: columns are characters", log["columnKind"] == "unicodeCodePoints")
    os.makedirs(f"{room}/told")
    for name, text in (("told.nar", "free net; roles A; A: new (x: Un);"), ("wrong.nar", "free a, b; roles A;\nA: check a is b;")):
        with open(f"{room}/told/{name}", "w", encoding="utf-8") as file:
            file.write(text)
    ran = run([*sarif, "--lines", "told"], cwd=room)
    wanted = "told/wrong.nar:2:1: error: refused: 102 LineNotReady\n"
    expect("sarif: narrations", (ran.returncode, ran.stdout) == (1, wanted), ran.stdout + ran.stderr)
    ran = run([*sarif, "--output", f"{room}/out.sarif", f"{ROOT}/examples/nonce_handshake.spi"])
    with open(f"{room}/out.sarif", encoding="utf-8") as file:
        written = file.read()
    expect("sarif: a yes", ran.returncode == 0 and json.loads(written)["runs"][0]["results"] == [])
    expect_sarif("a yes", written)
    with open(f"{room}/a name with blanks, é.spi", "w", encoding="utf-8") as file:
        file.write("process stop")
    expect_sarif("a name with blanks", run([*sarif, room]).stdout)
    fails = write_program(f"{room}/fails", "exit 5")
    hangs = write_program(f"{room}/hangs", "exec sleep 100")
    here = f"{ROOT}/examples/nonce_handshake.spi"
    for shows, words, status in [("a program that fails", ["--program", fails, here], 70),
                                 ("a program that hangs", ["--program", hangs, "--limit", "0.5", here], 70),
                                 ("no file", ["--program", program, f"{room}/nothing.spi"], 71),
                                 ("an empty folder", ["--program", program, f"{ROOT}/man"], 71),
                                 ("no program", ["--program", f"{room}/nothing", here], 72),
                                 ("no place to write", ["--program", program, "--output", f"{room}/no/out", here], 73),
                                 ("no words", [], 74)]:
        ran = run([f"{ROOT}/tools/sarif", *words])
        if ran.stdout:
            expect_sarif(shows, ran.stdout)
        told_why = f"{ran.returncode} {ran.stderr}"
        expect(f"sarif: {shows}", ran.returncode == status and "Traceback" not in ran.stderr, told_why)


# Completions, man pages, installing and packing

def test_completions():
    commands = set("check explain derive verify replay trace play print upgrade narrate load knows bench".split())
    for shell, name in [("bash", "cryptyc.bash"), ("zsh", "_cryptyc"), ("fish", "cryptyc.fish")]:
        path = f"tools/completion/{name}"
        expect(f"completion: the words for {shell}", all(word in read(path) for word in commands))
        if shutil.which(shell):
            expect(f"completion: {shell} reads it", run([shell, "-n", f"{ROOT}/{path}"]).returncode == 0)
        else:
            left_out(f"completion for {shell}", shell)
    asks = """source "$0"; COMP_WORDS=("$@"); COMP_CWORD=$(($# - 1)); _cryptyc; echo "${COMPREPLY[*]}" """
    for words, wanted in [(["cryptyc", "pr"], "print"), (["cryptyc", "play", ""], "--steps --player"),
                          (["cryptyc", "play", "--player", ""], "0 1 2"), (["cryptyc", "check", ""], ""),
                          (["cryptyc", "check", "<", "examples/n"], "examples/nonce_handshake.spi")]:
        ran = run(["bash", "-c", asks, f"{ROOT}/tools/completion/cryptyc.bash", *words], cwd=ROOT)
        expect(f"completion: {' '.join(words)}", ran.stdout == f"{wanted}\n", ran.stdout + ran.stderr)
    if shutil.which("fish"):
        ran = run(["fish", "--no-config", "-c", f"source {ROOT}/tools/completion/cryptyc.fish; complete -C 'cryptyc '"])
        told_words = {line.split("\t")[0] for line in ran.stdout.splitlines()}
        expect("completion: fish's words", commands == told_words, ran.stdout + ran.stderr)


def test_man():
    pages = sorted(glob.glob(f"{ROOT}/man/cryptyc.[15]"))
    expect("man: both pages", len(pages) == 2)
    usage = set(re.findall(r"^  (\w+) ", run(["bash", f"{ROOT}/cryptyc", "--help"]).stdout, re.M))
    page = read("man/cryptyc.1")
    missing = [word for word in usage if not re.search(rf"^\.(B|BI|BR) \"?{word}\b", page, re.M)]
    expect("man: all commands", usage and not missing, f"{missing}")
    numbers = set(re.findall(r"^## (\d+) (\w+)", read("docs/reasons.md"), re.M))
    expect("man: all reasons", all(f"{number} {name}" in page for number, name in numbers))
    page = read("man/cryptyc.5")
    expect("man: all words", all(re.search(rf"\b{word}\b", page) for word in KEYWORDS_2 | TYPES))
    if not shutil.which("groff"):
        left_out("the man pages' markup", "groff")
        return
    for path in pages:
        ran = run(["groff", "-ww", "-man", "-Tutf8", path])
        whole = ran.returncode == 0 and len(ran.stdout) > 2000
        expect(f"man: {os.path.basename(path)}", whole and not ran.stderr, ran.stderr)


def test_install(room, program):
    prefix = f"{room}/a prefix"
    explains = write_program(f"{room}/explains", 'echo "$@"')
    ran = run([f"{ROOT}/install", "--program", program, "--explain", explains, prefix], limit=60)
    expect("install", ran.returncode == 0, ran.stdout + ran.stderr)
    expect("install: it says which program", program in ran.stdout, ran.stdout)
    installed = f"{prefix}/bin/cryptyc"
    example = f"{prefix}/share/cryptyc/examples/nonce_handshake.spi"
    expect("install: the program", run(["bash", "-c", '"$0" check < "$1"', installed, example]).stdout == "yes\n")
    expect("install: explain", run([installed, "explain", "--lines", example]).stdout == f"explain --lines {example}\n")
    for name in ["man/man1/cryptyc.1", "man/man5/cryptyc.5", "bash-completion/completions/cryptyc",
                 "zsh/site-functions/_cryptyc", "fish/vendor_completions.d/cryptyc.fish", "doc/cryptyc/README.md",
                 "doc/cryptyc/docs/reasons.md", "doc/cryptyc/LICENSE", "vim/vimfiles/syntax/cryptyc.vim",
                 "emacs/site-lisp/cryptyc-mode.el", "cryptyc/editors/vscode/package.json",
                 "nvim/site/ftdetect/cryptyc.vim", "cryptyc/protocols/yahalom/protocol.spi",
                 "cryptyc/examples/handshake.bench"]:
        expect(f"install: {name}", os.path.isfile(f"{prefix}/share/{name}"))
    ran = run([f"{prefix}/bin/cryptyc-lsp", installed], frame(id=1, method="initialize", params={}))
    expect("install: the server", '"serverInfo"' in ran.stdout, ran.stderr)
    ran = run([f"{prefix}/bin/cryptyc-sarif", "--lines", example])
    expect("install: the tool for many files", (ran.returncode, ran.stdout) == (0, ""), ran.stdout + ran.stderr)
    expect("install: no words", run([f"{ROOT}/install"]).returncode == 74)


def test_package(room, program):
    if not shutil.which("dpkg-deb"):
        left_out("the package", "dpkg-deb")
        return
    ran = run([f"{ROOT}/tools/package", "--program", program, "--to", f"{room}/package"], limit=60)
    expect("package", ran.returncode == 0, ran.stdout + ran.stderr)
    debs = glob.glob(f"{room}/package/*.deb")
    expect("package: one file", len(debs) == 1)
    for deb in debs:
        told, inside = run(["dpkg-deb", "-I", deb]).stdout, run(["dpkg-deb", "-c", deb]).stdout
        expect("package: its name", " Package: cryptyc\n" in told, told)
        for name in ["bin/cryptyc", "lib/cryptyc/cryptyc", "bin/cryptyc-lsp", "share/man/man1/cryptyc.1.gz",
                     "share/man/man5/cryptyc.5.gz", "share/bash-completion/completions/cryptyc",
                     "share/cryptyc/protocols/yahalom/protocol.spi", "share/doc/cryptyc/docs/language.md",
                     "share/doc/cryptyc/copyright"]:
            expect(f"package: {name}", f" ./usr/{name}" in inside)
        expect("package: its owner", all(" root/root " in line for line in inside.splitlines()))
        run(["dpkg-deb", "-x", deb, f"{room}/out"])
        ran = run([f"{room}/out/usr/bin/cryptyc", "check"], read("examples/nonce_handshake.spi"))
        expect("package: its program", ran.stdout == "yes\n", ran.stdout + ran.stderr)
    expect("package: checksums", run(["sha256sum", "-c", "SHA256SUMS"], cwd=f"{room}/package").returncode == 0)


def kept():
    made = subprocess.run([f"{ROOT}/tools/keep.py", "cryptyc"], stdout=subprocess.PIPE, text=True)
    if made.returncode:
        sys.exit("there is no program to run")
    return made.stdout.strip()


def main():
    words = argparse.ArgumentParser()
    words.add_argument("--program", action="append", default=[])
    asked = words.parse_args()
    test_textmate()
    test_extension()
    test_walk()
    test_completions()
    test_man()
    tests = [test_diagnostics, test_definitions, test_formatting]
    tests_with_room = [test_programs, test_explained, test_extension_runs, test_sarif, test_install, test_package]
    with tempfile.TemporaryDirectory() as room:
        for number, test in enumerate([test_vim, test_emacs]):
            os.mkdir(f"{room}/{number}")
            test(f"{room}/{number}")
    for program in map(os.path.abspath, asked.program or [kept()]):
        for test in tests:
            test(program)
        for test in tests_with_room:
            with tempfile.TemporaryDirectory() as room:
                test(room, program)
    print(f"{passed} passed, {failed} failed")
    return 1 if failed or not passed else 0


sys.exit(main())
