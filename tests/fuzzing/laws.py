"""Laws that hold of the program's answers, whatever the file: each asks the program alone, and needs no second one.

A law takes an `Ask` and the bytes of a file. It returns None where it holds, `UNASKED` where the file is none that it speaks
of, and else what is wrong. A law gives the same answer for the same bytes, so that what breaks it can be made smaller."""

import os
import random
import re
import signal

from knowledge import is_certified, run_of

from .terms import RESERVED, RESERVED_IN_2, tokens_of
from .wild import RULES
from .writing import SPELLINGS, TYPE_SPELLINGS, is_word, laid_out

SECONDS = 30
UNASKED = "unasked"
YES, NO, REFUSED = 0, 1, 2

PLACE = rb" at \d+:\d+"
LINE_OF_NO = re.compile(rb"no: (\d\d) (\w+)" + PLACE + rb"(: [^\n]*)?\n")
LINE_OF_REFUSAL = re.compile(rb"refused: (\d+) (\w+)(?:" + PLACE + rb")?(: [^\n]*)?\n")
OF_FILES = set(range(2, 38))  # the refusals of what is no file

# Each command on a file: its words, the statuses that it has, and the text of a yes. A command that comes to the program
# (of narrations, of many edits) gets its line here, and its laws below.
COMMANDS = {
    "check": (["check"], {YES, NO, REFUSED}, rb"yes\n"),
    "derive": (["derive"], {YES, NO, REFUSED}, rb"derivation\n([A-Za-z]+\n)+"),
    "verify": (["verify"], {YES, NO, REFUSED}, rb"yes\n"),
    "replay": (["replay"], {YES, NO, REFUSED}, rb"(\d+ (begin|end|endmany) [^\n]*\n)*paid\n"),
    "knows": (["knows", "0"], {YES, NO, REFUSED}, rb"known: #0\n(\d+ [^\n]* by \w+( \d+)*\n)+"),
    "play": (["play", "--steps", "40"], {YES, REFUSED}, rb"schedule\n((act \d+|talk \d+ \d+);\n)*"),
    "print": (["print"], {YES, REFUSED}, rb"(version 2;\n)?(free [^\n]*;\n)?process .*\n"),
    "upgrade": (["upgrade"], {YES, REFUSED}, rb"version 2;\n(free [^\n]*;\n)?process .*\n"),
}
# And each command on another text, of which a file is seldom one.
ON_OTHER_TEXTS = {"bench": (["bench"], {YES, NO, REFUSED}, rb"(\d+ (yes|no)\n)*")}
VERDICTS = re.compile(rb"(\d+ (yes|no)\n)*")
PLAYS = [["play", "--steps", "9", *who] for who in ([], ["--player", "0"], ["--player", "1"], ["--player", "2"])]
UNKNOWN = re.compile(rb"unknown: #\d+\n")
UNPAID = re.compile(rb"(\d+ (begin|end|endmany) [^\n]*\n)*unpaid at \d+\n")


class Ask:
    """Asks a program. What was asked of the files at hand is kept until `forget`."""

    def __init__(self, program):
        self.program, self.kept, self.runs = program, {}, 0
        self.streams = [os.memfd_create(name) for name in ("file", "written", "said")]
        signal.signal(signal.SIGALRM, lambda *_: os.kill(self.running, signal.SIGKILL))

    def forget(self):
        self.kept = {}

    def words(self, words, data):
        """What it writes and its status; None as the status of a run that doesn't end or says something beside."""
        key = (tuple(words), data)
        if key not in self.kept:
            self.runs += 1
            self.kept[key] = self.ran(words, data)
        return self.kept[key]

    def ran(self, words, data):
        """A run whose streams are files in memory, so that nothing has to wait but for its end."""
        for stream in self.streams:
            os.ftruncate(stream, 0)
            os.lseek(stream, 0, os.SEEK_SET)
        os.pwrite(self.streams[0], data, 0)
        duplicates = [(os.POSIX_SPAWN_DUP2, stream, number) for number, stream in enumerate(self.streams)]
        self.running = os.posix_spawn(self.program, [self.program, *words], os.environ, file_actions=duplicates)
        signal.alarm(SECONDS)
        _, ended = os.waitpid(self.running, 0)
        signal.alarm(0)
        written, said = (os.pread(stream, os.fstat(stream).st_size, 0) for stream in self.streams[1:])
        return written, None if said or os.WIFSIGNALED(ended) else os.waitstatus_to_exitcode(ended)

    def __getattr__(self, command):
        return lambda data: self.words(COMMANDS[command][0], data)


def number_of(answer):
    """The number of a no or a refusal; 0 where the answer is neither."""
    found = re.match(rb"(?:no|refused): (\d+) ", answer[0])
    return int(found[1]) if found else 0


def kind(answer):
    """An answer without its places and names: its status, the number of a no or a refusal, and the index of a wrong use."""
    number = number_of(answer)
    return (answer[1], number, answer[0].rsplit(b": ", 1)[-1] if number == 90 else b"")


def events(answer):
    return answer[0].splitlines()[:-1]


def is_missing(answer, part):
    return answer == (b"refused: 38 PartMissing: " + part + b"\n", REFUSED)


def every_call_ends(ask, data):
    """Each command has an answer: a status of its own, the line or text of that status, and nothing on standard error."""
    noes = {"replay": UNPAID, "knows": UNKNOWN, "bench": VERDICTS}
    for name, (words, statuses, yes) in {**COMMANDS, **ON_OTHER_TEXTS}.items():
        text, status = ask.words(words, data)
        forms = {YES: re.compile(yes, re.S), NO: noes.get(name, LINE_OF_NO), REFUSED: LINE_OF_REFUSAL}
        if status not in statuses or not forms[status].fullmatch(text):
            return f"{name} has status {status} and writes {text[:200]!r}"
    return None


def refusals_agree(ask, data):
    """What is no file is refused by all commands in the same words; what is one, by none of them for that."""
    checked = ask.check(data)
    for name in COMMANDS:
        answer = ask.words(COMMANDS[name][0], data)
        if checked[1] == REFUSED and answer != checked:
            return f"check writes {checked[0]!r}, and {name} writes {answer[0][:200]!r}"
        if checked[1] != REFUSED and answer[1] == REFUSED and number_of(answer) in OF_FILES:
            return f"check doesn't refuse, and {name} writes {answer[0][:200]!r}"
    return None


def same_answers(ask, data, text, commands):
    """The first command that answers otherwise on a text than on the data, or None."""
    for name in commands:
        of_data, of_text = ask.words(COMMANDS[name][0], data), ask.words(COMMANDS[name][0], text)
        exact = of_data[1] == YES or name == "replay" and of_data[1] == NO
        if of_data != of_text if exact else kind(of_data) != kind(of_text):
            return f"{name} writes {of_data[0][:200]!r}, and then {of_text[0][:200]!r}"
    return None


def a_print_prints_itself(ask, data):
    """The canonical text is that of itself, and has the answers of its file."""
    text, status = ask.print(data)
    if status != YES:
        return UNASKED
    if ask.print(text) != (text, YES):
        return f"print isn't read back: {ask.print(text)[0][:200]!r}"
    return same_answers(ask, data, text, ["check", "derive", "verify", "replay", "play", "upgrade"])


def an_upgrade_keeps_answers(ask, data):
    """The upgraded file is of version 2 and canonical, and has the answers of the first."""
    text, status = ask.upgrade(data)
    if status != YES:
        return UNASKED
    if ask.print(text) != (text, YES) or ask.upgrade(text) != (text, YES):
        return "the upgraded text isn't canonical"
    if ask.replay(data)[1] != ask.replay(text)[1]:
        return f"replay has status {ask.replay(data)[1]}, and then {ask.replay(text)[1]}"
    return same_answers(ask, data, text, ["check", "derive", "verify", "play"])


def a_derivation_is_verified(ask, data):
    """`derive` has a derivation exactly where `check` says yes, and it's verified behind its file."""
    checked, derived = ask.check(data), ask.derive(data)
    if checked[1] != YES:
        return UNASKED if checked[1] == REFUSED else None if derived == checked else f"derive writes {derived[0][:200]!r}"
    if number_of(derived) == 80:
        return UNASKED
    if derived[1] != YES:
        return f"check says yes, and derive writes {derived[0][:200]!r}"
    if not is_missing(ask.verify(data), b"derivation"):
        return UNASKED
    verified = ask.verify(data + b"\n" + derived[0])
    return None if verified == (b"yes\n", YES) else f"verify writes {verified[0]!r} behind what derive prints"


def what_is_verified_is_checked(ask, data):
    """Where `verify` says yes, so does `check`."""
    verified = ask.verify(data)
    if verified[1] == REFUSED:
        return UNASKED
    return "verify says yes, and check doesn't" if verified[1] == YES and ask.check(data)[1] != YES else None


def a_yes_has_no_attack(ask, data):
    """Where `check` or `verify` says yes, `replay` never says no."""
    if ask.check(data)[1] != YES and ask.verify(data)[1] != YES or ask.replay(data)[1] == REFUSED:
        return UNASKED
    return f"an attack on a yes: replay writes {ask.replay(data)[0][-200:]!r}" if ask.replay(data)[1] == NO else None


def what_is_known_is_certified(ask, data):
    """Each free name is known, and where a name is known, each line of its certificate follows; no other name is a name."""
    canonical, status = ask.print(data)
    if status != YES or ask.replay(data)[1] == REFUSED or number_of(ask.knows(data)) == 110:
        return UNASKED
    free, _, _, names = run_of(canonical.decode())
    for name in {0, len(free) - 1, len(free), names - 1, names} - {-1}:
        text, status = ask.words(["knows", str(name)], data)
        if (status == REFUSED) != (name >= names) or status == NO and name < len(free):
            return f"of {names} names, {len(free)} of them free, knows {name} writes {text[:200]!r}"
        if status == YES and not is_certified(canonical.decode(), name, text.decode()):
            return f"knows {name} writes {text[:400]!r}"
    return None


def keys_stay_unknown(ask, data):
    """After a yes, no name that is made at a Key type along the schedule is known."""
    canonical, status = ask.print(data)
    if status != YES or ask.replay(data)[1] == REFUSED:
        return UNASKED
    if ask.check(data)[1] != YES:
        return None
    keys = run_of(canonical.decode())[2]
    for name in keys[:3]:
        if ask.words(["knows", str(name)], data)[1] == YES:
            return f"the key {name} is known after a yes"
    return None


def ends_at(text, at, stop):
    """The index from `at` on of a text outside of all brackets, or the length."""
    depth = 0
    while at < len(text) and (depth or not text.startswith(stop, at)):
        depth += {"(": 1, "{": 1, "[": 1, ")": -1, "}": -1, "]": -1}.get(text[at], 0)
        at += 1
    return at


def benched(canonical):
    """The heading and the parts of a bench whose whole is the process of a canonical file: its first `new`s are shared."""
    heading, _, process = canonical.partition("process ")
    process = re.split(r"\n(?:opponent|schedule|derivation)\b", process)[0].strip()
    alone = ends_at(process, 0, "|") == len(process)
    for _ in range(16):
        if not (found := re.match(r"new \((\w+): ", process)) or not alone:
            break
        end = ends_at(process, found.end(), ")")
        heading += f"shared {found[1]}: {process[found.end():end]};\n"
        process = process[end:].removeprefix(");").strip()
    if process.startswith("(") and ends_at(process, 1, ")") == len(process) - 1:
        process = process[1:-1]
    parts = []
    while process:
        end = ends_at(process, 0, "|")
        parts.append(process[:end].strip())
        process = process[end + 1:].strip()
    return heading, parts


def a_bench_says_what_check_says(ask, data):
    """The whole of the parts of a file has the verdict of the file, whatever was put and dropped before. So has it where the
    last part is put before the others. A part that isn't there is refused."""
    text, status = ask.print(data)
    if status != YES or ask.check(data)[1] == REFUSED:
        return UNASKED
    heading, parts = benched(text.decode())
    if len(parts) > 300:
        return UNASKED
    puts = [f"put p{i} {{ {part} }}\n" for i, part in enumerate(parts)]
    for edits in ([*puts, "put q { stop } drop q;\n"], [puts[-1], *puts[:-1], puts[0]]):
        answer = ask.words(["bench"], (heading + "".join(edits)).encode())
        if number_of(answer) in (21, 123):  # a part may nest deeper than in its file, and parts that are put again are counted twice
            return UNASKED
        if answer[1] != ask.check(data)[1]:
            return f"check writes {ask.check(data)[0]!r}, and bench {answer[0][-200:]!r}"
    refused = ask.words(["bench"], (heading + "".join(puts) + "drop none;").encode())
    return None if number_of(refused) == 120 else f"bench writes {refused[0][-200:]!r} where a part is dropped that isn't there"


def a_play_is_replayed(ask, data):
    """The text of a play replays behind its file; and who plays longer plays the same first."""
    if not is_missing(ask.replay(data), b"schedule") or not is_missing(ask.verify(data), b"derivation"):
        return UNASKED
    for words in PLAYS:
        text, status = ask.words(words, data)
        replayed = ask.replay(data + b"\n" + text)
        if status == YES and replayed[1] not in (YES, NO):
            return f"replay writes {replayed[0][:200]!r} behind what {' '.join(words)} prints"
        longer, of_longer = ask.words([*words[:2], "23", *words[3:]], data)
        if status == YES == of_longer:
            if not longer.startswith(text):
                return f"{' '.join(words)} prints {text!r}, which 23 steps don't begin with"
            told = ask.replay(data + b"\n" + longer)
            if events(told)[: len(events(replayed))] != events(replayed):
                return f"the events of {' '.join(words)} aren't those of 23 steps"
    return None


def a_shorter_schedule_has_fewer_events(ask, data):
    """The steps up to some place replay with the events up to some place."""
    text, status = ask.print(data)
    if status != YES or ask.replay(data)[1] == REFUSED:
        return UNASKED
    head, _, steps = text.partition(b"\nschedule\n")
    steps = [line for line in steps.splitlines() if line.endswith(b";")]
    for many in {len(steps) // 3, len(steps) - 1, 0} - {-1}:
        cut = ask.replay(head + b"\nschedule\n" + b"\n".join(steps[:many]))
        if cut[1] == REFUSED or events(cut) != events(ask.replay(data))[: len(events(cut))]:
            return f"{many} of {len(steps)} steps have other events: {cut[0][:200]!r}"
    return None


def a_layout_means_nothing(ask, data):
    """Other blanks and comments, and another word for what is bound, leave the canonical text as it is."""
    canonical, status = ask.print(data)
    if status != YES or len(data) > 20_000:
        return UNASKED
    try:
        tokens = tokens_of(data.decode())
    except UnicodeDecodeError:
        return UNASKED
    if not all(it.isascii() or it in SPELLINGS + TYPE_SPELLINGS for it in tokens):
        return UNASKED
    rng = random.Random(len(data))
    if ask.print(laid_out(tokens, rng).encode()) != (canonical, YES):
        return "print differs with other blanks"
    fixed = RESERVED | RESERVED_IN_2 | set(RULES) | {"act", "talk", "version"} | set(free_names(canonical))
    words = sorted({it for it in tokens if is_word(it) and not it.isdigit()} - fixed)
    if words:
        word = rng.choice(words)
        other = laid_out(["renamed_here" if it == word else it for it in tokens]).encode()
        if "renamed_here" not in tokens and ask.print(other) != (canonical, YES):
            return f"print differs with another word for {word}"
    return None


def free_names(canonical):
    found = re.search(rb"^free (.*);$", canonical, re.M)
    return found[1].decode().split(", ") if found else []


def parts_of(canonical):
    """What stands before the process, the process, and the opponent or None, of a canonical text."""
    found = re.match(rb"(.*?)^process ([^\n]*)\n(?:opponent ([^\n]*)\n)?", canonical, re.M | re.S)
    return found.groups()


def beside(canonical, other=b"stop"):
    """Files that are safe exactly where a canonical text's is: beside a process, twice, and behind a replicated input."""
    head, process, _ = parts_of(canonical)
    channel = (free_names(canonical) or ["()"])[0].encode()
    yield "beside an opponent", head + b"process (" + process + b" | " + other + b")"
    yield "twice", head + b"process (" + process + b" | " + process + b")"
    yield "replicated", head + b"process repeat inp " + channel + b" (w_: Un); (" + process + b" | stop)"


def company_keeps_the_answer(ask, data):
    """A process has an answer of yes or no beside an opponent, beside itself, and behind a replicated input."""
    canonical, status = ask.print(data)
    if status != YES or len(data) > 20_000:
        return UNASKED
    opponent = parts_of(canonical)[2]
    if opponent is None or number_of(ask.play(data)) == 39:
        name = (free_names(canonical) or ["()"])[0].encode()
        opponent = b"inp " + name + b" (w_: Un); new (u_: Un); out " + name + b" {(u_, w_)}u_"
    for how, text in beside(canonical, opponent):
        answer = ask.check(text)
        if answer[1] != ask.check(data)[1] and not (answer[1] == REFUSED and number_of(answer) in (21, 36)):
            return f"{how}, check writes {answer[0][:200]!r}, and alone {ask.check(data)[0]!r}"
    return None


LAWS = [every_call_ends, refusals_agree, a_print_prints_itself, an_upgrade_keeps_answers, a_derivation_is_verified,
        what_is_verified_is_checked, a_yes_has_no_attack, what_is_known_is_certified, keys_stay_unknown, a_bench_says_what_check_says,
        a_play_is_replayed, a_shorter_schedule_has_fewer_events, a_layout_means_nothing, company_keeps_the_answer]
