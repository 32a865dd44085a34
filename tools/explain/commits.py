"""What a `commitall` and a `resolve` were told: `Commit`, `outcomes`."""
import re

from tables import GONE

from .transcript import Unread

VOTE = re.compile(r"vote:(-?\d+)")
ENDING = re.compile(r"(committed|readonly|rolledback|indoubt)|(heur|left):(-?\d+)")
OUTCOME = re.compile(r"(\d+):(\w+)\.(\w+):(commit|rollback):(-?\d+)")


class Commit:
    """What a `commitall` was told: its kind, `refused`, `undecided`, `died` or `done`; the decision and whether it was
    logged, None where the transcript has none; and of the first branches the vote or the ending, a word and a code."""

    def __init__(self, step, words):
        self.gtrid, self.managers, self.death = step.told
        self.kind = words[0] if words[0] in ("refused", "undecided", "died") else "done"
        rest = words if self.kind == "done" else words[1:]
        self.decision = self.logged = None
        if rest[:1] in (["commit"], ["abort"]) and rest[1:2] in (["logged"], ["unlogged"]):
            self.decision, self.logged = rest[0], rest[1] == "logged"
            rest = rest[2:]
        shown = [read_branch(word) for word in rest]
        if len(shown) > len(self.managers) or self.kind == "done" and self.decision is None:
            raise Unread(f"a commitall isn't answered so: {' '.join(words)}")
        self.shown = dict(zip(self.managers, shown))

    def xid(self, manager):
        return self.gtrid, str(manager)

    def votes(self):
        """The votes that the answer shows, by manager, where it shows votes."""
        shown = {m: code for m, (word, code) in self.shown.items() if word == "vote"}
        return shown if len(shown) == len(self.managers) else {}

    def untold(self):
        """What the coordinator asked of branches before it died, and tells no answer to: the managers, of which those
        that the thread knew to be shut were asked nothing, and a verb."""
        if self.kind != "died" or self.death.point == "decided":
            return [], ""
        if self.death.point == "prepared":
            return self.managers[len(self.shown):], "prepare"
        told = [m for m, (word, code) in self.shown.items() if word == "vote" and code not in GONE]
        return told, "commit" if self.decision == "commit" else "rollback"

    def in_flight(self):
        """Those of them that hadn't answered by then."""
        managers, _ = self.untold()
        return managers if not managers or self.death.point == "prepared" else managers[self.death.answers:]


def read_branch(word):
    vote, ending = VOTE.fullmatch(word), ENDING.fullmatch(word)
    if vote:
        return "vote", int(vote[1])
    if ending:
        return ending[1] or ending[2], None if ending[3] is None else int(ending[3])
    raise Unread(f"a branch isn't told of so: {word}")


def outcomes(words):
    """What a `resolve` came to: of each branch that was left its manager, its xid, the verb and the code."""
    if words == ["refused"]:
        return []
    found = [OUTCOME.fullmatch(word) for word in words[1:]]
    if words[0] != "resolved" or not all(found):
        raise Unread(f"a resolve isn't answered so: {' '.join(words)}")
    return [(int(it[1]), (it[2], it[3]), it[4], int(it[5])) for it in found]
