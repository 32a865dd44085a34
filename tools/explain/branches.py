"""What became of each branch at each manager, as far as a transcript shows: `fates`."""
import collections

from tables import DECIDED, OK, READ_ONLY, ROLLED_BACK, SHUT, UNKNOWN

from .codes import ASKED, called
from .commits import outcomes
from .desk import Desk

# What a line shows of a branch. The kind is the state that the branch is in by then, `begun`, `active`,
# `rollback-only`, `prepared`, `decided`, `unknown` or `gone`; `noted` where it stays as it was; `absent` where there is
# no such branch; `reopened`; or `resolved`, where a resolve doesn't list it.
Sign = collections.namedtuple("Sign", "kind words line thread")

COMMITTED, ROLLED, READ = "committed", "rolled back", "only read"
FORGOTTEN, TOLD_TO_FORGET = "forgotten", "told to forget"
BY_ITSELF = {6: "decided by its manager: rolled back", 7: "decided by its manager: committed"}
IN_DOUBT = "in doubt: its manager was shut"
# What is said of a branch that was told no outcome.
NO_OUTCOME = {
    "begun": "no outcome: never prepared",
    "active": "no outcome: never prepared",
    "rollback-only": "no outcome: rollback-only",
    "prepared": "in doubt: prepared, and told no outcome",
}
# What a sign without words is called, where it isn't that of the branch's state.
JOINED = {"active": "joined"}


class Fate:
    """A branch from its beginning on: the state that it is in, and what the last line that counts says of it."""

    def __init__(self, manager, xid):
        self.manager, self.xid = manager, xid
        self.kind, self.words, self.line, self.is_old, self.decision = "unknown", None, None, False, None
        # The states that it was in, each with the line from which on.
        self.states = []

    def see(self, sign):
        """Takes the next sign of it."""
        self.take(sign)
        if self.line is not None and (not self.states or self.states[-1][1] != self.kind):
            self.states.append((sign.line, self.kind))

    def take(self, sign):
        if self.kind == "gone" or sign.words == IN_DOUBT and self.kind != "prepared":
            return
        if sign.kind == "reopened":
            self.open_again(sign)
        elif sign.kind == "resolved":
            self.go("it wasn't left", self.kind == "unknown" and self.is_old)
        elif sign.kind == "absent":
            self.be_absent(sign)
        elif sign.kind == self.kind == "rollback-only":
            # It is so from the first line that says so.
            return
        elif sign.kind != "noted" or self.kind != "decided":
            self.kind = self.kind if sign.kind == "noted" else sign.kind
            self.words, self.line = sign.words, sign.line
            self.decision = sign.words if sign.kind == "decided" else self.decision
            if sign.words == FORGOTTEN:
                self.words = f"{self.decision or 'decided by its manager'}; forgotten"

    def go(self, why, holds):
        if holds:
            self.kind, self.words = "gone", f"{self.words}; {why}"

    def be_absent(self, sign):
        """Its manager answers that there is no such branch."""
        if self.line is None:
            self.words, self.line = sign.words, sign.words and sign.line
        elif self.words and self.words.endswith(TOLD_TO_FORGET):
            self.kind, self.words = "gone", self.words.replace(TOLD_TO_FORGET, FORGOTTEN)
        else:
            self.go(f"gone by line {sign.line}", self.kind == "unknown")

    def open_again(self, sign):
        """A branch that is neither prepared nor decided is rolled back as its manager is opened again."""
        self.is_old = True
        if self.kind in ("begun", "active", "rollback-only"):
            self.kind, self.words, self.line = "gone", "rolled back by the reopening", sign.line

    def said(self):
        return self.words or NO_OUTCOME[self.kind]

    def told(self):
        """What became of it, with the line that says so."""
        return self.said() if self.line is None else f"{self.said()} (line {self.line})"


def after_vote(code):
    """What a vote shows of its branch: a kind, and words where that is an outcome."""
    if code == OK:
        return "prepared", None
    if code == READ_ONLY:
        return "gone", READ
    return ("gone", ROLLED) if code in ROLLED_BACK else None


def after_outcome(verb, code):
    """What the answer to a Commit or a Rollback shows of its branch."""
    if code == OK:
        return "gone", COMMITTED if verb == "commit" else ROLLED
    if code in ROLLED_BACK:
        return "gone", ROLLED
    if code in DECIDED:
        return "decided", BY_ITSELF[code]
    return ("noted", IN_DOUBT) if code == SHUT else None


def after_call(verb, flags, code):
    """What the code of a call shows of its branch."""
    if code == UNKNOWN:
        return "absent", None
    if verb == "prepare":
        return after_vote(code)
    if verb in ("commit", "rollback"):
        return after_outcome(verb, code)
    if code in ROLLED_BACK:
        return "rollback-only", None
    if code != OK or "resume" in flags:
        return None
    return {
        "start": ("active" if "join" in flags else "begun", None),
        "heurcom": ("decided", BY_ITSELF[7]),
        "heurrb": ("decided", BY_ITSELF[6]),
        "forget": ("gone", FORGOTTEN),
    }.get(verb)


def after_commit(word, code, has_died):
    """What the vote or the ending that a `commitall` shows says of its branch, one thing after the other."""
    plain = {"committed": COMMITTED, "readonly": READ, "rolledback": ROLLED}
    if word == "vote":
        return [after_vote(code)]
    if word in plain:
        return [("gone", plain[word])]
    if word == "indoubt":
        return [("prepared", None), ("noted", IN_DOUBT)]
    if word == "heur":
        return [("decided", BY_ITSELF[code] + ("" if has_died else f"; {TOLD_TO_FORGET}"))]
    return [("absent", "no such branch") if code == UNKNOWN else ("noted", f"left: {called(code)}")]


class Signs:
    """What a transcript shows of each branch, line by line: `of` has it by manager and xid."""

    def __init__(self, story):
        self.of = {}
        self.desks = {thread: Desk() for thread in story.hands}
        for told in story.told:
            self.look_at(told)

    def look_at(self, told):
        if told.step is None:
            return
        if told.step.verb == "reopen":
            self.reopen(told.step.line)
            return
        if told.commit is not None:
            self.commit(told, told.commit)
        elif told.step.verb == "resolve" and told.words != ["refused"]:
            self.resolve(told.step, outcomes(told.words))
        elif told.is_call:
            xid = told.xid or self.desks[told.thread].at.get(told.step.manager)
            self.add(told.step, told.step.manager, xid, after_call(told.step.verb, told.step.flags, told.code))
        if told.thread:
            self.desks[told.thread].follow(told)

    def add(self, step, manager, xid, shown):
        """Adds what a line shows of a branch, if it shows something."""
        if shown is not None and xid is not None:
            self.of.setdefault((manager, xid), []).append(Sign(*shown, step.line, step.thread))

    def reopen(self, line):
        for signs in self.of.values():
            signs.append(Sign("reopened", None, line, 0))
        for desk in self.desks.values():
            desk.open_again()

    def resolve(self, step, ended):
        for manager, xid, verb, code in ended:
            kind, words = after_call(verb, (), code) or ("noted", f"left: {called(code)}")
            self.add(step, manager, xid, (kind, f"{words}; {TOLD_TO_FORGET}" if kind == "decided" else words))
        for place in set(self.of) - {(manager, xid) for manager, xid, _, _ in ended}:
            self.of[place].append(Sign("resolved", None, step.line, 0))

    def commit(self, told, commit):
        for manager, (word, code) in commit.shown.items():
            for shown in after_commit(word, code, commit.kind == "died"):
                self.add(told.step, manager, commit.xid(manager), shown)
        self.death(told, commit)

    def death(self, told, commit):
        """What is shown of the branches to which a coordinator that died tells no answer."""
        flying = {request.manager: request for request in told.left}
        managers, verb = commit.untold()
        for manager in managers:
            if manager in flying:
                self.add(told.step, manager, commit.xid(manager), after_call(verb, (), flying[manager].code))
            elif manager not in told.known_shut:
                shown = "unknown", f"{ASKED[verb]}, its answer isn't shown"
                self.add(told.step, manager, commit.xid(manager), shown)


def fold(manager, xid, signs):
    """The branches of this name that there were at a manager, one after the other."""
    lives = []
    for sign in signs:
        if not lives or sign.kind == "begun" and lives[-1].kind == "gone":
            lives.append(Fate(manager, xid))
        lives[-1].see(sign)
    return [it for it in lives if it.line is not None]


def fold_threads(manager, xid, signs):
    """The same where several threads worked for them, each with lines of its own: their order isn't shown."""
    begun, gone = [[it for it in signs if it.kind == kind] for kind in ("begun", "gone")]
    if len(begun) == len(gone) == 1:
        fate, = fold(manager, xid, begun + [it for it in signs if it.kind not in ("begun", "gone")] + gone)
    else:
        fate = Fate(manager, xid)
        shown = [f"{it.words or JOINED.get(it.kind, it.kind)} (line {it.line})" for it in signs]
        fate.words = f"in an order that isn't shown: {', '.join(shown)}"
    fate.states = []
    return [fate]


def fates(story):
    """What became of each branch, in the order of their beginnings."""
    found = []
    for (manager, xid), signs in Signs(story).of.items():
        is_shared = story.in_threads and len({it.thread for it in signs} - {0}) > 1
        found += (fold_threads if is_shared else fold)(manager, xid, signs)
    return found
