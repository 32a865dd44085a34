"""Reads a transcript by docs/SCRIPT.md: `read`."""
import collections
import re

# What a line of the script was answered, what was collected of a thread after its last line, and a key's last value.
# Thread 0 is that of `turn` and `reopen`.
Answer = collections.namedtuple("Answer", "line thread words")
Ended = collections.namedtuple("Ended", "thread handle code")
Value = collections.namedtuple("Value", "manager key value")

SHAPES = [
    (re.compile(r"(\d+) (turn) (did|late|empty|blocked)"), lambda line, *words: Answer(int(line), 0, list(words))),
    (re.compile(r"(\d+) (reopened)"), lambda line, *words: Answer(int(line), 0, list(words))),
    (re.compile(r"(\d+) (\d+) (.+)"), lambda line, thread, rest: Answer(int(line), int(thread), rest.split(" "))),
    (re.compile(r"end (\d+) handle (\d+) retval (-?\d+)"), lambda *numbers: Ended(*map(int, numbers))),
    (re.compile(r"value (\d+) (\w+) (\d+)"), lambda manager, key, value: Value(int(manager), key, int(value))),
]


class Unread(Exception):
    """Why a transcript can't be read, or isn't that of its script."""


def read_line(line):
    for shape, make in SHAPES:
        found = shape.fullmatch(line)
        if found:
            return make(*found.groups())
    raise Unread(f"no line of a transcript reads so: {line!r}")


def read(text):
    """The lines of a transcript, in their order."""
    if text and not text.endswith("\n"):
        raise Unread("the last line has no end")
    return [read_line(line) for line in text.splitlines()]
