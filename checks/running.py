"""Runs a script in turns, by docs/SCRIPT.md with the flags of docs/PROFILE.md: `run` gives the lines of its transcript.

It is written from these pages, and shares nothing with the program.
"""
import collections

from tables import ASYNC, DECIDED, GONE, HEURISTIC, INVALID, OK, PROTOCOL, READ_ONLY, RETRY, ROLLED_BACK, SHUT, SPENT
from tables import UNKNOWN, Manager

# The flags besides `async` that calls take: those of a line may stand alone or together, others not at all.
TAKES = {
    "start": [set(), {"join"}, {"resume"}],
    "end": [{"success"}, {"suspend"}, {"fail"}],
    "commit": [set(), {"onephase"}],
    "complete": [set(), {"multiple"}, {"nowait"}, {"multiple", "nowait"}],
    "recover": [set(), {"startrscan"}, {"endrscan"}, {"startrscan", "endrscan"}],
}


def takes(verb, flags):
    """Whether a call takes its flags."""
    if verb not in ("complete", "recover"):
        flags = flags - {"async"}
    return flags in TAKES.get(verb, [set()])


class Request:
    """A request to a manager, and its code once it is carried out."""

    def __init__(self, manager, *words):
        self.manager, self.words, self.code = manager, words, None


class Thread:
    """A thread of control: its log, and what it has in one opening."""

    def __init__(self):
        self.log, self.appends = {}, 0
        self.open_again({})

    def open_again(self, left):
        self.left, self.kept, self.sent, self.known_shut, self.scans = left, {}, collections.Counter(), set(), {}
        # Whether an append to the log has had an unknown end.
        self.has_lost = False


class Run:
    """A run of a script in turns."""

    def __init__(self, script):
        self.script, self.lines = script, []
        self.numbers = range(1, script.managers + 1)
        self.managers = {
            m: Manager({key: value for (own, key), value in script.keys.items() if own == m}) for m in self.numbers
        }
        self.queues = {m: collections.deque() for m in self.numbers}
        self.threads = {t: Thread() for t in range(1, script.threads + 1)}
        # The votes of each commit that was decided, by its line.
        self.votes = {}

    def tell(self, thread, *words):
        self.lines.append((thread, " ".join(map(str, words))))

    def turn(self, m):
        """What a manager did in its turn."""
        if not self.queues[m]:
            return "empty"
        request, was_shut = self.queues[m].popleft(), self.managers[m].shut
        request.code = self.managers[m].carry_out(*request.words)
        return "late" if was_shut else "did"

    def refusal(self, t, m):
        """Why nothing of the thread can reach the manager."""
        if m not in self.numbers:
            return INVALID
        return SHUT if m in self.threads[t].known_shut else None

    def room(self, t, m):
        return self.script.requests - self.threads[t].sent[m]

    def put(self, t, m, verb, told=(), flags=frozenset()):
        """Puts a request to a manager once there is a place."""
        while len(self.queues[m]) == self.script.queue:
            self.turn(m)
        request = Request(m, t, verb, told, flags)
        self.queues[m].append(request)
        self.threads[t].sent[m] += 1
        return request

    def collect(self, t, request):
        """Waits for a request, and collects its code."""
        while request.code is None:
            self.turn(request.manager)
        if request.code == SHUT:
            self.threads[t].known_shut.add(request.manager)
        return request.code

    def call(self, t, m, *words):
        """The answer of a synchronous call."""
        refusal = self.refusal(t, m)
        if refusal is not None:
            return refusal
        if self.room(t, m) == 0:
            return SPENT
        return self.collect(t, self.put(t, m, *words))

    def call_later(self, t, m, *words):
        """The answer of an asynchronous call."""
        kept = self.threads[t].kept
        refusal = self.refusal(t, m)
        if refusal is not None:
            return refusal
        if m in self.script.synchronous or len(kept) == self.script.handles:
            return ASYNC
        if self.room(t, m) == 0:
            return SPENT
        if len(self.queues[m]) == self.script.queue:
            return ASYNC
        return self.keep(t, self.put(t, m, *words))

    def keep(self, t, request):
        """Keeps a request under the least handle that is free."""
        kept = self.threads[t].kept
        handle = min(set(range(1, self.script.handles + 1)) - set(kept))
        kept[handle] = request
        return handle

    def carry_out(self, step):
        """Does what a line says, and tells what it answers."""
        line, t, verb, m, told, flags = step
        if verb == "turn":
            self.tell(0, line, "turn", self.turn(m))
        elif verb == "reopen":
            self.reopen(line)
        elif verb == "commitall":
            self.tell(t, line, t, *self.commit_all(line, t, *told))
        elif verb == "resolve":
            self.tell(t, line, t, *self.resolve(t))
        elif not takes(verb, flags):
            self.tell(t, line, t, INVALID)
        elif verb == "complete":
            self.tell(t, line, t, *self.complete(t, m, told[0], flags))
        elif verb == "recover":
            self.tell(t, line, t, *self.recover(t, m, told[0], flags))
        else:
            call = self.call_later if "async" in flags else self.call
            self.tell(t, line, t, call(t, m, verb, told, flags))

    def complete(self, t, m, handle, flags):
        kept = self.threads[t].kept
        wanted = self.numbers if m == 0 and "multiple" in flags else [m]
        if not set(wanted) <= set(self.numbers):
            return [INVALID]
        if "multiple" in flags:
            handles = sorted(it for it in kept if kept[it].manager in wanted)
            if not handles:
                return [PROTOCOL]
        elif handle not in kept or kept[handle].manager != m:
            return [INVALID]
        else:
            handles = [handle]
        while not (ready := [it for it in handles if kept[it].code is not None]):
            if "nowait" in flags:
                return [RETRY]
            for manager in wanted:
                self.turn(manager)
        return OK, "handle", ready[0], "retval", self.collect(t, kept.pop(ready[0]))

    def recover(self, t, m, count, flags):
        thread = self.threads[t]
        if m not in self.numbers:
            return [INVALID]
        place = 0 if "startrscan" in flags else thread.scans.get(m)
        if place is None:
            return [INVALID]
        code, found = self.call(t, m, "listed"), []
        if code != OK:
            return [code]
        for xid in thread.left.get(m, [])[place:]:
            if len(found) == count:
                break
            code = self.call(t, m, "listed", (xid,))
            if code not in (OK, UNKNOWN):
                return [code]
            if code == OK:
                found.append(xid)
            place += 1
        thread.scans[m] = None if "endrscan" in flags else place
        return len(found), *map(".".join, found)

    def ask_all(self, t, asked, answers=None):
        """Puts requests to managers, all before any is collected, and gives the code of each; or of so many, and then
        the others are kept."""
        known_shut = self.threads[t].known_shut
        sent = [(m, None if m in known_shut else self.put(t, m, verb, (xid,))) for m, verb, xid in asked]
        answers = len(sent) if answers is None else answers
        codes = {m: SHUT if request is None else self.collect(t, request) for m, request in sent[:answers]}
        for _, request in sent[answers:]:
            if request is not None:
                self.keep(t, request)
        return codes

    def commit_all(self, line, t, gtrid, managers, death):
        thread = self.threads[t]
        free = self.script.handles - len(thread.kept)
        if any(self.room(t, m) < 3 for m in managers) or free < len(managers) or gtrid in thread.log:
            return ["refused"]
        if thread.has_lost:
            return ["refused"]
        dies, answers = death or (None, None)
        xids = {m: (gtrid, str(m)) for m in managers}
        prepares = [(m, "prepare", xids[m]) for m in managers]
        votes = self.ask_all(t, prepares, answers if dies == "prepared" else None)
        told = [f"vote:{vote}" for vote in votes.values()]
        if dies == "prepared":
            return "died", *told
        self.votes[line] = votes
        commits, logged = all(vote in (OK, READ_ONLY) for vote in votes.values()), False
        if commits and OK in votes.values():
            commits = logged = self.append(t, gtrid, {m for m in managers if votes[m] == OK})
            if thread.has_lost:
                return "undecided", *told
        decision = "commit" if commits else "abort", "logged" if logged else "unlogged"
        if dies == "decided":
            return "died", *decision, *told
        second = [(m, "commit" if commits else "rollback", xids[m]) for m in managers if votes[m] not in GONE]
        codes = self.ask_all(t, second, answers)
        if answers is not None:
            return "died", *decision, *told
        ends = [ending(votes[m], codes.get(m), commits) for m in managers]
        if dies == "told":
            return "died", *decision, *ends
        self.ask_all(t, [(m, "forget", xids[m]) for m in managers if codes.get(m) in DECIDED])
        return *decision, *ends

    def append(self, t, gtrid, managers):
        """Whether the thread's log takes a record. Of one append nobody knows."""
        thread = self.threads[t]
        thread.appends += 1
        append, is_kept = self.script.unknown.get(t, (None, False))
        thread.has_lost = thread.appends == append
        takes_it = is_kept if thread.has_lost else thread.appends != self.script.failing.get(t)
        if takes_it:
            thread.log[gtrid] = managers
        return takes_it

    def resolve(self, t):
        thread = self.threads[t]
        if thread.has_lost:
            return ["refused"]
        if any(left and self.room(t, m) < 1 + 2 * len(left) for m, left in thread.left.items()):
            return ["refused"]
        outcomes = []
        for m, left in thread.left.items():
            if left:
                self.call(t, m, "open")
            for xid in left:
                verb = "commit" if m in thread.log.get(xid[0], ()) else "rollback"
                code = self.call(t, m, verb, (xid,))
                if code in DECIDED:
                    self.call(t, m, "forget", (xid,))
                outcomes.append(f"{m}:{'.'.join(xid)}:{verb}:{code}")
        return "resolved", *outcomes

    def close(self):
        """Collects what is outstanding."""
        for t, thread in self.threads.items():
            for handle in sorted(thread.kept):
                self.tell(t, "end", t, "handle", handle, "retval", self.collect(t, thread.kept.pop(handle)))

    def reopen(self, line):
        self.close()
        self.tell(0, line, "reopened")
        left = {m: manager.open_again() for m, manager in self.managers.items()}
        for thread in self.threads.values():
            thread.open_again(left)


def ending(vote, code, commits):
    """What the transcript has for a branch with this vote, and this code of its second phase, if it had one."""
    if vote == READ_ONLY:
        return "readonly"
    if vote in ROLLED_BACK:
        return "rolledback"
    if code is None:
        return f"left:{vote}"
    if code in HEURISTIC:
        return f"heur:{code}"
    if vote == OK:
        done = "committed" if commits else "rolledback"
        return done if code == OK else "indoubt" if code == SHUT else f"left:{code}"
    return "rolledback" if code == OK or code in ROLLED_BACK else f"left:{code}"


def run(script):
    """The answers and ends of a run, each a thread and its line: thread 0 for what no thread does. And the values."""
    it = Run(script)
    for step in script.steps:
        it.carry_out(step)
    it.close()
    values = [f"value {m} {key} {it.managers[m].values[key]}" for m, key in sorted(script.keys)]
    return it.lines, values
