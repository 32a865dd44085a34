"""Judges what the program came to with a script: `judge`.

A script with a fault has to be told of it, as reading.py finds it. In turns a transcript has to be that of running.py,
to the byte, and so it has to in threads where no schedule shows. Else it has to be that of some schedule: each thread's
answers have to be those of its own handles and requests, and at each manager there has to be an order of what all
threads asked, in which each keeps its own, that gives the codes and the values that are shown.
"""
import collections
import copy
import re

import reading
from running import ending, run, takes
from tables import ASYNC, DECIDED, GONE, INVALID, OK, PROTOCOL, READ_ONLY, RETRY, SHUT, SPENT, Manager

# In how many states of a manager an order is looked for, besides one for each request.
MOST_STATES = 4000

CODES = [0, *range(3, 9), *range(100, 108), *range(-9, -1)]
CODE = "|".join(map(str, CODES))
ENDING = re.compile(f"committed|readonly|rolledback|indoubt|heur:[5-8]|left:({CODE})")


class Wrong(Exception):
    """What is wrong with a transcript."""


class Unjudged(Exception):
    """Why a transcript can't be judged."""


class Asked:
    """A request, or the requests of a `commitall` to one manager, with the code or the word that came of it; None for a
    request the code of which isn't shown."""

    def __init__(self, verb, told, flags=frozenset(), came=None, may_be_left_out=False):
        self.verb, self.told, self.flags, self.came = verb, told, flags, came
        self.may_be_left_out = may_be_left_out


def want(holds, why):
    if not holds:
        raise Wrong(why)


def number(word):
    want(re.fullmatch("0|-?[1-9][0-9]*", word), f"{word!r} is no number")
    return int(word)


class Desk:
    """What a thread's answers tell of it in threads: its handles, and what it asked of each manager."""

    def __init__(self, script, thread):
        self.script, self.thread, self.kept, self.log = script, thread, {}, set()
        self.numbers = range(1, script.managers + 1)
        self.asked = {m: [] for m in self.numbers}
        # How many requests it sent to each manager, at least and at most.
        self.least, self.most = collections.Counter(), collections.Counter()
        # The managers that it knows to be shut, those that it may know to be shut, and those with a scan.
        self.shut, self.perhaps_shut, self.scanned = set(), set(), set()
        # Whether an append to its log has had an unknown end.
        self.has_lost = False

    def ask(self, m, verb, told, flags=frozenset(), came=None):
        """Notes a request, and what came of it if that is known."""
        left_out = m in self.perhaps_shut and came == SHUT
        asked = Asked(verb, told, flags, came, left_out)
        self.asked[m].append(asked)
        self.least[m] += not left_out
        self.most[m] += 1
        if came == SHUT:
            self.shut.add(m)
        return asked

    def refusals(self, m, later):
        """What has to refuse a call, and else what may."""
        if m not in self.numbers:
            return INVALID, []
        if m in self.shut:
            return SHUT, []
        script = self.script
        if later and (m in script.synchronous or len(self.kept) == script.handles):
            return ASYNC, []
        if self.least[m] >= script.requests:
            return SPENT, []
        may = [SPENT] if self.most[m] >= script.requests else []
        # What else can stand in the queue: of each other thread what its handles keep, and one more, which it waits for
        # or which is the mark of its end.
        if later and script.handles - 1 + (script.threads - 1) * (script.handles + 1) >= script.queue:
            may.append(ASYNC)
        return None, may

    def judge(self, step, words):
        """Judges the answer to a line."""
        _, _, verb, m, told, flags = step
        if verb == "commitall":
            self.commit_all(told, words)
        elif verb == "resolve":
            expected = ["refused"] if self.has_lost else ["resolved"]
            want(words == expected, "at the first opening nothing is left, and a log that isn't known isn't asked")
        elif not takes(verb, flags):
            want(words == [str(INVALID)], "the flags aren't the call's")
        elif verb == "complete":
            self.complete(m, told[0], flags, words)
        elif verb == "recover":
            self.recover(m, flags, words)
        else:
            want(len(words) == 1, "a call has one answer")
            self.call(m, verb, told, flags, number(words[0]))

    def call(self, m, verb, told, flags, answer):
        later = "async" in flags
        must, may = self.refusals(m, later)
        if must is not None:
            want(answer in [must] + [SHUT] * (m in self.perhaps_shut), f"it is refused with {must}")
        elif later and answer > 0:
            free = self.free_handle()
            want(answer == free, f"the least handle is {free}")
            self.kept[answer] = m, self.ask(m, verb, told, flags)
        elif answer not in may:
            want(not later or answer == SHUT and m in self.perhaps_shut, "it isn't refused")
            want(answer in CODES, "there is no such code")
            self.ask(m, verb, told, flags, answer)

    def free_handle(self):
        return min(set(range(1, self.script.handles + 1)) - set(self.kept))

    def collect(self, handle, words):
        """Judges `handle H retval R`, and takes the handle away."""
        want(len(words) == 4 and words[0] == "handle" and words[2] == "retval", "a handle and a code are shown")
        want(words[1] == str(handle), f"the handle is {handle}")
        m, asked = self.kept.pop(handle)
        asked.came = number(words[3])
        want(asked.came in CODES, "there is no such code")
        if asked.came == SHUT:
            self.shut.add(m)

    def complete(self, m, handle, flags, words):
        wanted = self.numbers if m == 0 and "multiple" in flags else [m]
        handles = [it for it, (own, _) in self.kept.items() if own in wanted]
        if not set(wanted) <= set(self.numbers):
            want(words == [str(INVALID)], "there is no such manager")
        elif "multiple" not in flags and handle not in handles:
            want(words == [str(INVALID)], "nothing is kept under the handle")
        elif not handles:
            want(words == [str(PROTOCOL)], "nothing is kept")
        elif words != [str(RETRY)] or "nowait" not in flags:
            want(len(words) == 5 and words[0] == str(OK), "an operation is collected")
            if "multiple" in flags:
                handle = number(words[2])
                want(handle in handles, "the handle is none of those kept")
            self.collect(handle, words[1:])

    def recover(self, m, flags, words):
        want(len(words) == 1, "at the first opening nothing is left")
        answer = number(words[0])
        if m not in self.numbers or m not in self.scanned and "startrscan" not in flags:
            want(answer == INVALID, "there is no such manager or no scan of it")
            return
        want(answer <= 0, "at the first opening nothing is left")
        self.call(m, "listed", (), frozenset(), answer)
        if answer == OK:
            (self.scanned.discard if "endrscan" in flags else self.scanned.add)(m)

    def commit_all(self, told, words):
        gtrid, managers, death = told
        free = self.script.handles - len(self.kept)
        must = free < len(managers) or gtrid in self.log or self.has_lost
        must = must or any(self.least[m] > self.script.requests - 3 for m in managers)
        may = must or any(self.most[m] > self.script.requests - 3 for m in managers)
        if words == ["refused"]:
            want(may, "it isn't refused")
            return
        want(not must, "it is refused")
        xids = {m: (gtrid, str(m)) for m in managers}
        if words[:1] == ["undecided"]:
            want(death is None or death.point != "prepared", "nothing was appended before the death")
            self.undecided(xids, words[1:])
            return
        if death is not None:
            want(words[:1] == ["died"], "the coordinator dies")
            words = words[1:]
        if death is not None and (death.point != "told" or death.answers is not None):
            self.die(xids, death, words)
            return
        want(len(words) == 2 + len(managers), "each branch has a word")
        decision, record, *ends = words
        want(all(ENDING.fullmatch(it) for it in ends), "there is no such word")
        self.decided(gtrid, decision, record, any(it != "readonly" for it in ends))
        for m, word in zip(managers, ends):
            self.branch(m, xids[m], decision == "commit", word, death is None)

    def next_appends(self):
        """Which append to its log the next one may be: one that failed isn't always seen."""
        taken, failing = len(self.log), self.script.failing.get(self.thread)
        return {taken + 1, taken + 2} if failing is not None and failing <= taken + 1 else {taken + 1}

    def decided(self, gtrid, decision, record, has_yes):
        """Judges a decision, and notes its record."""
        want(decision in ("commit", "abort"), "it is decided")
        needs_record = decision == "commit" and has_yes
        want(record == ("logged" if needs_record else "unlogged"), "a commit is logged unless all only read")
        if record == "logged":
            others = {self.script.failing.get(self.thread), self.script.unknown.get(self.thread, (None,))[0]}
            want(self.next_appends() - others, "that append isn't taken")
            self.log.add(gtrid)

    def undecided(self, xids, words):
        """Judges a commit for which the log can't tell whether it has the record."""
        votes = self.votes(xids, words)
        want(len(votes) == len(xids), "all branches have voted")
        want(set(votes.values()) <= {OK, READ_ONLY} and OK in votes.values(), "a record is wanted")
        append, _ = self.script.unknown.get(self.thread, (None, None))
        want(append in self.next_appends(), "the end of that append is known")
        self.has_lost = True

    def votes(self, xids, words):
        """Notes that branches were asked to prepare and have voted so: the first of them, one for each word."""
        votes = {}
        for (m, xid), word in zip(xids.items(), words):
            want(word.startswith("vote:"), "a vote is shown")
            votes[m] = vote = number(word[5:])
            want(vote in CODES, "there is no such code")
            if m in self.shut:
                want(vote == SHUT, "the manager is known to be shut")
                continue
            self.ask(m, "prepare", (xid,), came=vote)
            if vote != SHUT:
                self.perhaps_shut.discard(m)
        return votes

    def leave(self, m, verb, xid):
        """Notes a request that is in flight as the coordinator dies: it is kept under the least handle that is free."""
        if m in self.perhaps_shut:
            raise Unjudged("it may be that the manager is known to be shut, and was asked nothing")
        if m not in self.shut:
            self.kept[self.free_handle()] = m, self.ask(m, verb, (xid,))

    def die(self, xids, death, words):
        """Judges what a coordinator shows that died before it has heard of all endings."""
        if death.point == "prepared":
            answers = len(xids) if death.answers is None else min(death.answers, len(xids))
            want(len(words) == answers, "as many votes are shown as were collected")
            self.votes(xids, words)
            for m, xid in list(xids.items())[answers:]:
                self.leave(m, "prepare", xid)
            return
        want(len(words) == 2 + len(xids), "each branch has a word")
        decision, record, *words = words
        votes = self.votes(xids, words)
        wants_commit = set(votes.values()) <= {OK, READ_ONLY}
        has_failed = OK in votes.values() and self.script.failing.get(self.thread) in self.next_appends()
        may_abort = not wants_commit or has_failed
        want(wants_commit if decision == "commit" else may_abort, "the votes decide")
        self.decided(next(iter(xids.values()))[0], decision, record, OK in votes.values())
        if death.point == "told":
            second = [m for m in xids if votes[m] not in GONE]
            for m in second[: death.answers]:
                self.ask(m, "commit" if decision == "commit" else "rollback", (xids[m],))
                self.perhaps_shut.add(m)
            for m in second[death.answers :]:
                self.leave(m, "commit" if decision == "commit" else "rollback", xids[m])

    def branch(self, m, xid, commits, word, forgets):
        """Notes what a `commitall` asked of one manager, and whether it has it forget a decision of its own."""
        if m in self.shut:
            want(word == f"left:{SHUT}", "the manager is known to be shut")
            return
        left_out = m in self.perhaps_shut and word == f"left:{SHUT}"
        self.asked[m].append(Asked("commitall", (xid, commits, forgets), came=word, may_be_left_out=left_out))
        is_one = word == "readonly" or word == "rolledback" or word.startswith("left:")
        self.least[m] += 0 if left_out else 1 if is_one else 2
        self.most[m] += 1 if word == "readonly" else 3 if forgets and word.startswith("heur:") else 2
        if word in (f"left:{SHUT}", "indoubt"):
            self.shut.add(m)
        elif forgets and word.startswith("heur:"):
            self.perhaps_shut.add(m)


def key_of(manager):
    """All that a manager's next codes depend on."""
    branches = frozenset((xid, it.state, it.code, frozenset(it.sums.items())) for xid, it in manager.branches.items())
    at, values = frozenset(manager.at.items()), tuple(manager.values.values())
    return manager.shut, frozenset(manager.opened), at, frozenset(manager.suspended), branches, values


def carried_out(manager, thread, asked, vote):
    """Carries out what is next of this: whether that fits, whether more of it is asked, and the vote of its Prepare."""
    if asked.verb != "commitall":
        return asked.came in (None, manager.carry_out(thread, asked.verb, asked.told, asked.flags)), False, None
    xid, commits, forgets = asked.told
    if vote is None:
        vote = manager.carry_out(thread, "prepare", (xid,), frozenset())
        if commits and vote not in (OK, READ_ONLY):
            return False, False, None
        if vote in GONE:
            return ending(vote, None, commits) == asked.came, False, None
        return True, True, vote
    if vote == "decided":
        manager.carry_out(thread, "forget", (xid,), frozenset())
        return True, False, None
    code = manager.carry_out(thread, "commit" if commits else "rollback", (xid,), frozenset())
    fits = ending(vote, code, commits) == asked.came
    return (fits, True, "decided") if forgets and code in DECIDED else (fits, False, None)


def next_states(manager, asked, places):
    """The states after one in which each thread stands at a place, with the vote of a commit that is under way."""
    states = []
    for thread, (place, vote) in places.items():
        if place == len(asked[thread]):
            continue
        it, after = asked[thread][place], copy.deepcopy(manager)
        fits, more, vote_after = carried_out(after, thread, it, vote)
        if fits:
            state = after, {**places, thread: (place if more else place + 1, vote_after)}
            if it.came is not None and key_of(after) == key_of(manager) and not more and vote is None:
                # It changes nothing, so it may as well be carried out now: not so where its code was never shown, for
                # with another code it may change something later.
                return [state]
            states.append(state)
        if it.may_be_left_out and vote is None:
            states.append((manager, {**places, thread: (place + 1, None)}))
    return states


def has_order(manager, asked, values):
    """Whether the manager may have carried out what each thread asked, and come to these values. None where that isn't
    found out."""
    waiting, seen = [(manager, {thread: (0, None) for thread in asked})], set()
    most = MOST_STATES + sum(map(len, asked.values()))
    while waiting:
        manager, places = waiting.pop()
        if all(place == len(asked[thread]) for thread, (place, _) in places.items()) and manager.values == values:
            return True
        for state in next_states(manager, asked, places):
            key = key_of(state[0]), tuple(state[1].items())
            if key not in seen:
                seen.add(key)
                waiting.append(state)
        if len(seen) > most:
            return None
    return False


def judge_threads(script, lines):
    """Raises what is wrong with a transcript in threads. Whether an order was found at each manager."""
    lines, desks = collections.deque(lines), {}
    for t in range(1, script.threads + 1):
        desk = desks[t] = Desk(script, t)
        for step in script.steps:
            if step.thread == t:
                words = lines.popleft().split(" ") if lines else []
                want(words[:2] == [str(step.line), str(t)], f"the answer to line {step.line} is missing: {words}")
                try:
                    desk.judge(step, words[2:])
                except Wrong as why:
                    raise Wrong(f"{' '.join(words)!r}: {why}") from None
        for handle in sorted(desk.kept):
            words = lines.popleft().split(" ") if lines else []
            want(words[:2] == ["end", str(t)], f"the end of handle {handle} of thread {t} is missing: {words}")
            desk.collect(handle, words[2:])
    values = {m: {} for m in range(1, script.managers + 1)}
    for m, key in sorted(script.keys):
        words = lines.popleft().split(" ") if lines else []
        want(len(words) == 4 and words[:3] == ["value", str(m), key], f"value {m} {key} is missing: {words}")
        values[m][key] = number(words[3])
        want(0 <= values[m][key] <= reading.MOST_VALUE, f"{' '.join(words)!r} is outside the limits")
    want(not lines, f"{list(lines)[:3]} are too many")
    return all([is_in_order(script, desks, m, values[m]) for m in values])


def is_in_order(script, desks, m, values):
    """Whether an order was found at a manager; raises that there is none."""
    manager = Manager({key: value for (own, key), value in script.keys.items() if own == m})
    found = has_order(manager, {t: desk.asked[m] for t, desk in desks.items() if desk.asked[m]}, values)
    want(found is not False, f"no order of what the threads asked of manager {m} has these codes and values")
    return found is True


def shows_schedules(script):
    """Whether a transcript in threads may depend on the schedule."""
    users = {m: set() for m in range(1, script.managers + 1)}
    for _, thread, verb, m, told, flags in script.steps:
        if verb == "complete" and {"nowait", "multiple"} & flags:
            return True
        for manager in told[1] if verb == "commitall" else [m]:
            users.get(manager, set()).add(thread)
    # Each other thread puts the mark of its end in the queue.
    is_room = script.handles + script.threads - 1 <= script.queue
    return any(len(it) > 1 for it in users.values()) or not is_room and any("async" in it.flags for it in script.steps)


def judge(text, mode, came):
    """Judges what came of a run of a script's bytes: its status and its outputs. It gives `taken` or the text of the
    script's fault, what is wrong or None, and whether all was judged, which it is but for orders that aren't found."""
    try:
        script = reading.read(text, mode == "threads")
    except reading.Fault as fault:
        expected = 1, b"", f"{fault}\n".encode()
        return fault.args[1], None if came == expected else f"{shortened(came)}, not {expected}", True
    status, shown, told = came
    if (status, told) != (0, b""):
        return "taken", f"{shortened(came)}, and the script has no fault", True
    try:
        want(shown == b"" or shown.endswith(b"\n"), "the last line has no end")
        lines = shown.decode("ascii", "replace").split("\n")[:-1]
        if mode == "threads" and shows_schedules(script):
            return "taken", None, judge_threads(script, lines)
        answers, values = run(script)
        if mode == "threads":
            # The answers of each thread stand together, and keep their order.
            answers.sort(key=lambda it: it[0])
        judge_lines(lines, [line for _, line in answers] + values)
    except Wrong as why:
        return "taken", str(why), True
    except Unjudged:
        return "taken", None, False
    return "taken", None, True


def shortened(came):
    return f"status {came[0]}, {came[1][:200]!r} and {came[2][:200]!r}"


def judge_lines(lines, expected):
    for place, (line, other) in enumerate(zip(lines, expected), 1):
        want(line == other, f"line {place} of the transcript is {line!r}, not {other!r}")
    want(len(lines) == len(expected), f"the transcript has {len(lines)} lines, not {len(expected)}")
