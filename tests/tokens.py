"""The tokens of a file with their classes (docs/language.md, 'Tokens'), as whatever colours them should have them, and
the files that colours are tested on."""

import glob
import os
import re

ROOT = os.path.dirname(os.path.dirname(os.path.abspath(__file__)))
TOKEN = re.compile(r"(?P<comment>//[^\n]*)|(?P<number>[0-9]+)|(?P<mark>[][(){},;:=|+#])"
                   r"|(?P<name>[^\s\]\[(){},;:=|+#/]+)")
KEYWORDS = set("""free type process opponent schedule derivation out inp repeat split match case decrypt check begin end
    cast new stop is inl inr""".split())
KEYWORDS_2 = KEYWORDS | {"hash", "endmany", "many"}
TYPES = {"Un", "Key", "Nonce"}
RULE = re.compile(r"(Proc|Msg)[A-Z]\w*")


def read(path):
    with open(f"{ROOT}/{path}", encoding="utf-8") as file:
        return file.read()


def tokens_of(text):
    """Each token and comment: its offset, its spelling and the class that it should have."""
    found = [(it.start(), it[0], it.lastgroup) for it in TOKEN.finditer(text)]
    real = [word for _, word, kind in found if kind != "comment"]
    second = [word.lstrip("0") for word in real[:3]] == ["version", "2", ";"]
    part, depth, number = "", 0, 0
    for at, word, kind in found:
        number += kind != "comment"
        depth += {"[": 1, "]": -1}.get(word, 0)
        if kind == "name":
            if word in ("schedule", "derivation"):
                part = word
            if word in TYPES:
                kind = "type"
            elif word in (KEYWORDS_2 if second else KEYWORDS) or second and number == 1:
                kind = "keyword"
            elif part == "schedule" and word in ("act", "talk"):
                kind = "keyword"
            elif part == "derivation" and depth == 0 and RULE.fullmatch(word):
                kind = "rule"
        yield at, word, kind


EXTRA = {  # files for what no file of the repository has
    "words inside names": "free ending, Unit, 𝒳end, e\u0301nd, a\u00b7end, Keys, typeof, _new; // end\nprocess stop",
    "names that version 2 reserves": "free hash, many, endmany, version, act, talk, ProcEnd;\nprocess out hash many",
    "marks in the way": "free a;process out a(a,a)|stop\nopponent stop schedule act 0;talk 1 2;// schedule\nact 3;",
    "version 2": "// a comment\nversion 2; free a, version, hashes;\nprocess endmany hash(a); stop\nderivation\n"
                 "ProcSub [many hash(a), end #3]\nProcEndMany\nMsgHash\nProcStop",
    "version 2, with a zero": "version 02;\nfree many_a;\nprocess new (x: Nonce [many many_a]); stop",
    "a derivation of version 1": "free hash;\nprocess end hash; stop\nderivation ProcSub [end hash, check hash]\n"
                                 "ProcEnd MsgName ProcStop",
    "sums and matches": "free a;\ntype T = (Un + (x: Key(()), Nonce []));\nprocess match a is (x: Un = a, y: Un); stop",
}


def files():
    """Names and texts of all files that the grammars are held to, and of the derivations of some."""
    found = dict(EXTRA)
    for pattern in ("examples/*.spi", "examples/*/*.spi", "protocols/*/*.spi", "protocols/*/*.nar", "examples/*.bench"):
        for path in sorted(glob.glob(f"{ROOT}/{pattern}")):
            found[os.path.relpath(path, ROOT)] = read(os.path.relpath(path, ROOT))
    return found
