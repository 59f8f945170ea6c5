"""A small reader of TextMate grammars, as editors read them: expressions, regions, includes and captures."""

import json
import re

from tokens import read


def class_of_characters(holds):
    """The inside of a character class of Python's for all characters that a test holds of."""
    ranges, start = [], None
    for code in range(0x110001):
        inside = code < 0x110000 and holds(chr(code))
        if inside and start is None:
            start = code
        elif not inside and start is not None:
            ranges.append(f"\\U{start:08x}-\\U{code - 1:08x}")
            start = None
    return "".join(ranges)


class TextMate:
    """Reads a TextMate grammar as editors do: line by line, and at each place the rule that matches first."""

    def __init__(self, path):
        self.grammar, self.compiled, self.seen = json.loads(read(path)), {}, {}
        self.start = class_of_characters(lambda c: c != "_" and c.isidentifier())
        self.more = class_of_characters(lambda c: ("a" + c).isidentifier())

    def expression(self, text):
        if text not in self.compiled:
            python = text.replace("[\\p{XID_Start}_]", f"[{self.start}_]")
            self.compiled[text] = re.compile(python.replace("\\p{XID_Continue}", f"[{self.more}]"))
        return self.compiled[text]

    def search(self, text, line, at):
        """The next match in a line. What was found from an earlier place still holds, where it isn't passed."""
        found = self.seen.get(text, at)
        if isinstance(found, int) or found is not None and found.start() < at:
            found = self.seen[text] = self.expression(text).search(line, at)
        return found

    def rules(self, patterns):
        for rule in patterns:
            if "include" in rule:
                rule = self.grammar["repository"][rule["include"][1:]]
            if "match" in rule or "begin" in rule:
                yield rule
            else:
                yield from self.rules(rule["patterns"])

    def first(self, stack, line, at):
        """The rule that is next in a line, with its match; the end of the region comes before all others."""
        best = None
        region = stack[-1]
        if "end" in region:
            found = self.search(region["end"], line, at)
            best = (found.start(), "end", region, found) if found else None
        for rule in self.rules(region["patterns"]):
            found = self.search(rule.get("match", rule.get("begin")), line, at)
            if found and (best is None or found.start() < best[0]):
                best = (found.start(), "match" if "match" in rule else "begin", rule, found)
        return best

    def scopes(self, text):
        """The innermost scope of each character that has one, by its offset."""
        stack, found, base = [self.grammar], {}, 0

        def mark(start, end, name):
            for at in range(start, end) if name else ():
                found[base + at] = name

        for line in text.split("\n"):
            at, before, self.seen = 0, None, {}
            while at <= len(line):
                best = self.first(stack, line, at)
                if best is None:
                    break
                _, how, rule, match = best
                assert (match.end(), len(stack), how) != before, f"the grammar goes round in {line!r}"
                before = match.end(), len(stack), how
                captures = rule.get({"begin": "beginCaptures", "end": "endCaptures", "match": "captures"}[how], {})
                mark(match.start(), match.end(), rule.get("name"))
                for number, capture in captures.items():
                    mark(match.start(int(number)), match.end(int(number)), capture["name"])
                if how == "begin":
                    stack.append(rule)
                elif how == "end":
                    stack.pop()
                at = match.end() if match.end() > match.start() or how != "match" else at + 1
            base += len(line) + 1
        return found
