"""Reads scripts by the grammar of docs/SCRIPT.md, and tells of one with a fault which line has which: `read`.

It is written from that page, and shares nothing with the program.
"""
import collections
import difflib
import re

MOST_LINES, LONGEST_LINE, MOST_KEYS = 100_000, 512, 256
MOST_NUMBER, MOST_HANDLE, MOST_VALUE = 4_294_967_295, 2_147_483_647, 1_000_000_000_000

# The settings that stand at most once, with their limits.
LIMITS = {"threads": 8, "managers": 8, "handles": 32, "queue": 64, "requests": 4096}

# What stands between the manager and the flags of a call.
VERBS = {
    **dict.fromkeys(["open", "close", "shut"], ()),
    **dict.fromkeys(["start", "end", "prepare", "commit", "rollback", "forget", "heurcom", "heurrb"], ("xid",)),
    "add": ("key", "delta"),
    "complete": ("handle",),
    "recover": ("count",),
}
FLAGS = set("async onephase fail nowait resume success suspend startrscan endrscan multiple join".split())

# A line that does something; thread 0 is that of `turn` and `reopen`. In `told` are the words between the manager and
# the flags; those of a `commitall` are its global transaction, its managers and its death.
Step = collections.namedtuple("Step", "line thread verb manager told flags")


# Where the coordinator of a `commitall` dies: `prepared`, `decided` or `told`, and how many answers of that round it has
# collected by then, None for all.
Death = collections.namedtuple("Death", "point answers")
# How many answers a line may name.
MOST_ANSWERS = 7


class Fault(Exception):
    """A fault of a script: its line and its text. A hint, which the program doesn't print, has the word that is wrong
    and what is allowed there."""

    def __init__(self, line, why, hint=""):
        super().__init__(line, why)
        self.hint = hint

    def __str__(self):
        return "line {}: {}".format(*self.args)


SETTINGS = [*LIMITS, "sync", "logfail", "logunknown", "key"]
ACTIONS = [*VERBS, "commitall", "resolve"]
NUMBERS = "a number has 1 to 18 digits"
COMMENT = "a comment has a line of its own, which begins with '#'"


def listed(words):
    return ", ".join(words)


def unknown(word, what, known):
    """The hint for a word that isn't among those that are known."""
    if word.startswith("#"):
        return COMMENT
    close = difflib.get_close_matches(word, known, 1)
    return f"'{word}'{f', perhaps {close[0]}' if close else ''}; {what} {listed(known)}"


class Words:
    """The words of a line, which are taken one by one."""

    def __init__(self, line, words):
        self.line, self.words = line, words

    def fail(self, why, hint=""):
        raise Fault(self.line, why, hint)

    def take(self, what):
        return self.words.pop(0) if self.words else self.fail("missing word", f"here stands {what}")

    def end(self):
        if self.words:
            word = self.words[0]
            self.fail("extra word", COMMENT if word.startswith("#") else f"'{word}': the line ends before it")

    def number_in(self, low, high, what, word=None):
        word = self.take(what) if word is None else word
        if not re.fullmatch("-?[0-9]{1,18}" if low < 0 else "[0-9]{1,18}", word):
            sign = ", with - before it where it is below 0" if low < 0 else ", and no sign"
            self.fail("bad number", f"'{word}' is no number: {NUMBERS}{sign}")
        return int(word) if low <= int(word) <= high else self.fail("out of range", f"{what} {word}: {low} to {high}")

    def named(self, pattern, why, what):
        word = self.take(what)
        return word if re.fullmatch(pattern, word) else self.fail(why, f"'{word}'; {what}")

    def one_of(self, what, *known):
        word = self.take(f"one of {listed(known)}")
        return word if word in known else self.fail("unknown word", unknown(word, what, known))

    def key(self):
        return self.named("[a-z0-9]{1,16}", "bad key", "a key of 1 to 16 characters, a to z and 0 to 9")

    def delta(self):
        return self.number_in(-MOST_VALUE, MOST_VALUE, "a change")

    def handle(self):
        return self.number_in(0, MOST_HANDLE, "handle")

    def count(self):
        return self.number_in(0, 64, "count")

    def xid(self):
        what = "an xid G.B, where G and B have 1 to 64 characters each, a to z and 0 to 9"
        return tuple(self.named("[a-z0-9]{1,64}[.][a-z0-9]{1,64}", "bad xid", what).split("."))

    def gtrid(self):
        return self.named("[a-z0-9]{1,64}", "bad xid", "a global transaction of 1 to 64 characters, a to z and 0 to 9")

    def flags(self):
        for word in self.words:
            if word not in FLAGS:
                self.fail("unknown word", unknown(word, "flags are", sorted(FLAGS)))
        return frozenset(self.words)


class Script:
    """What a script says: its settings, its keys with their values, and its steps."""

    def __init__(self):
        self.threads, self.managers, self.handles, self.queue, self.requests = 1, 1, 4, 8, 256
        self.were_set, self.keys, self.synchronous, self.steps = set(), {}, set(), []
        # Which append of a thread's log fails, and which has an unknown end and whether its record is kept.
        self.failing, self.unknown = {}, {}

    def set(self, words, name):
        """Takes the words after the name of a setting."""
        if self.steps:
            words.fail("setting after action", f"{name} and all settings stand above the first action")
        if name in self.were_set:
            words.fail("setting twice", f"{name} is set above")
        if name in LIMITS:
            number = words.number_in(1, LIMITS[name], name)
            words.end()
            setattr(self, name, number)
            self.were_set.add(name)
        elif name == "sync":
            manager = self.manager(words)
            words.end()
            self.synchronous.add(manager)
        elif name == "logfail":
            thread, append = self.thread(words), words.number_in(1, 1_000_000, "append")
            words.end()
            self.failing[thread] = append
        elif name == "logunknown":
            thread, append = self.thread(words), words.number_in(1, 1_000_000, "append")
            is_kept = words.one_of("its record is", "kept", "lost") == "kept"
            words.end()
            self.unknown[thread] = append, is_kept
        else:
            self.declare(words)

    def manager(self, words):
        """Takes the number of a manager that there is by this line."""
        by = "" if "managers" in self.were_set or self.steps else " here; the setting managers stands above"
        return self.one_of_them(words, "manager", self.managers, by)

    def thread(self, words, word=None):
        """Takes the number of a thread that there is by this line."""
        by = "" if "threads" in self.were_set or self.steps else " here; the setting threads stands above"
        return self.one_of_them(words, "thread", self.threads, by, word)

    @staticmethod
    def one_of_them(words, what, most, by, word=None):
        try:
            return words.number_in(1, most, what, word)
        except Fault as fault:
            raise Fault(*fault.args, fault.hint + by if fault.args[1] == "out of range" else fault.hint) from None

    def declare(self, words):
        """Takes the words after `key`."""
        manager, key, value = self.manager(words), words.key(), words.number_in(0, MOST_VALUE, "value")
        words.end()
        if (manager, key) in self.keys:
            words.fail("key twice", f"manager {manager} has {key} already")
        if sum(own == manager for own, _ in self.keys) == MOST_KEYS:
            words.fail("too many keys", f"a manager has at most {MOST_KEYS}")
        self.keys[manager, key] = value

    def turn(self, words, in_threads):
        """Takes the words after `turn`."""
        if in_threads:
            words.fail("turn in threads mode", "in threads each manager works by itself")
        manager = self.manager(words)
        words.end()
        self.steps.append(Step(words.line, 0, "turn", manager, (), frozenset()))

    def reopen(self, words, in_threads):
        """Takes the words after `reopen`."""
        if in_threads:
            words.fail("reopen in threads mode", "run it in turns")
        words.end()
        self.steps.append(Step(words.line, 0, "reopen", 0, (), frozenset()))

    def act(self, words, first):
        """Takes the words of a thread's line."""
        thread = self.thread(words, first)
        verb = words.take("a call, as open or commitall")
        manager, flags = 0, frozenset()
        if verb == "commitall":
            told = self.branches(words)
        elif verb == "resolve":
            told = ()
            words.end()
        elif verb in VERBS:
            manager = words.number_in(0, MOST_NUMBER, "manager")
            told = tuple(getattr(words, kind)() for kind in VERBS[verb])
            flags = words.flags()
        else:
            words.fail("unknown word", unknown(verb, "calls are", ACTIONS))
        self.steps.append(Step(words.line, thread, verb, manager, told, flags))

    def branches(self, words):
        """Takes the words after `commitall`."""
        gtrid, managers, death = words.gtrid(), [words.number_in(0, MOST_NUMBER, "manager")], None
        while words.words and words.words[0] != "dies":
            managers.append(words.number_in(0, MOST_NUMBER, "manager"))
        if words.words:
            words.take("dies")
            death = self.death(words)
        if managers != sorted(set(managers)) or not 1 <= managers[0] <= managers[-1] <= self.managers:
            words.fail("bad branches", f"its managers rise, each once, from 1 to {self.managers}")
        return gtrid, managers, death

    def death(self, words):
        """Takes the words after `dies`."""
        point, answers = words.one_of("a coordinator dies", "prepared", "decided", "told"), None
        if words.words and point != "decided":
            answers = words.number_in(0, MOST_ANSWERS, "answers")
        words.end()
        return Death(point, answers)


def lines_of(text):
    """The lines of a script's bytes, without their ends."""
    lines = text.split(b"\n")
    if not lines[-1]:
        lines.pop()
    return [line[:-1] if line.endswith(b"\r") else line for line in lines]


def bad_byte(number, line):
    """The hint for a byte that no script has."""
    if number == 1 and line.startswith(b"\xef\xbb\xbf"):
        return "the file begins with a byte order mark: save it without one"
    place = re.search(rb"[^ -~\t]", line).start()
    return f"the byte {line[place]} (0x{line[place]:02x}) in column {place + 1}; a line has printable ASCII and tabs"


def read(text, in_threads):
    """What the bytes of a script say; raises the first fault."""
    script = Script()
    for number, line in enumerate(lines_of(text), 1):
        if number > MOST_LINES:
            raise Fault(number, "too many lines", f"a script has at most {MOST_LINES}")
        if len(line) > LONGEST_LINE:
            raise Fault(number, "line too long", f"{len(line)} bytes: at most {LONGEST_LINE}")
        if re.search(rb"[^ -~\t]", line):
            raise Fault(number, "bad byte", bad_byte(number, line))
        words = Words(number, line.decode().split())
        if not words.words or words.words[0].startswith("#"):
            continue
        first = words.take("a setting or a thread")
        if first in LIMITS or first in ("sync", "logfail", "logunknown", "key"):
            script.set(words, first)
        elif first == "turn":
            script.turn(words, in_threads)
        elif first == "reopen":
            script.reopen(words, in_threads)
        elif first.isdigit():
            script.act(words, first)
        else:
            words.fail("unknown word", unknown(first, "a line begins with a thread's number or one of",
                                               [*SETTINGS, "turn", "reopen"]))
    return script
