"""What each line of a script was told: `Story` goes through a transcript beside its script, and finds for each handle
the line that got it and what collected it."""
import dataclasses

from running import Run
from tables import INVALID, SHUT

from .commits import Commit, outcomes
from .transcript import Ended, Unread, Value


@dataclasses.dataclass
class Request:
    """A request that is kept under a handle: which line put it, to which manager, to do what, and for which branch, or
    None where the transcript doesn't tell; its code, and what collected it."""
    told: object
    handle: int
    manager: int = None
    verb: str = None
    xid: tuple = None
    code: int = None
    by: object = None


@dataclasses.dataclass
class Told:
    """What a line of the script was told; without a step, what was collected of a thread as an opening ended, before a
    line that reopens or at the end."""
    step: object
    thread: int
    words: list
    before: int = None
    # The managers that its thread knew to be shut by then.
    known_shut: frozenset = frozenset()
    # The requests that the line left under handles, and the one that it collected.
    left: list = dataclasses.field(default_factory=list)
    collected: Request = None
    commit: Commit = None

    @property
    def code(self):
        """The code of a call, be it asynchronous or not."""
        return self.left[0].code if self.left else int(self.words[0])

    @property
    def is_call(self):
        """Whether it is a call of one manager, which answers with a code; xa_complete and xa_recover are others."""
        others = ("commitall", "resolve", "complete", "recover", "turn", "reopen")
        return self.step is not None and self.step.verb not in others

    @property
    def xid(self):
        """The branch that a call names."""
        return self.step.told[0] if self.is_call and self.step.told and self.step.verb != "add" else None


class Hands:
    """The handles that a thread keeps, by number, and the managers that it knows to be shut, or may know to be."""

    def __init__(self):
        self.kept, self.shut, self.perhaps_shut = {}, set(), set()

    def keep(self, request):
        request.handle = request.handle or self.free_handle()
        self.kept[request.handle] = request
        request.told.left.append(request)

    def free_handle(self):
        return next(handle for handle in range(1, len(self.kept) + 2) if handle not in self.kept)

    def hear(self, manager, code):
        """Notes what a manager answered."""
        if code == SHUT:
            self.shut.add(manager)
        elif code != INVALID:
            self.perhaps_shut.discard(manager)


def votes_in_turns(script):
    """The votes of each commit of a script that is run in turns, by its line and its managers."""
    it = Run(script)
    for step in script.steps:
        it.carry_out(step)
    return it.votes


class Story:
    """A script and its transcript, side by side: `told` in the order of the transcript."""

    def __init__(self, script, lines, in_threads):
        self.script, self.in_threads, self.told, self.values = script, in_threads, [], []
        self.steps = {step.line: step for step in script.steps}
        self.hands = {thread: Hands() for thread in range(1, script.threads + 1)}
        # What was collected as the present opening ended.
        self.ended = []
        # The votes of each commit by its line, where the order of lines tells them.
        self.votes = {} if in_threads else votes_in_turns(script)
        for line in lines:
            self.take(line)
        self.want_all()

    def take(self, line):
        """Takes a line of the transcript."""
        if isinstance(line, Value):
            self.values.append(line)
        elif isinstance(line, Ended):
            told = Told(None, line.thread, [])
            self.collect(told, line.handle, line.code)
            self.told.append(told)
            self.ended.append(told)
        else:
            self.told.append(self.answered(line))

    def answered(self, answer):
        step = self.steps.pop(answer.line, None)
        if step is None or step.thread != answer.thread:
            raise Unread(f"line {answer.line} of the script has no such answer: {' '.join(answer.words)}")
        told, hands = Told(step, step.thread, answer.words), self.hands.get(step.thread, Hands())
        told.known_shut = frozenset(hands.shut)
        try:
            self.follow(told, hands)
        except (ValueError, IndexError):
            raise Unread(f"line {answer.line} isn't answered so: {' '.join(answer.words)}") from None
        return told

    def follow(self, told, hands):
        """Notes what an answer tells of handles, and of managers that are shut."""
        step, words = told.step, told.words
        if step.verb == "reopen":
            self.reopen(step.line)
        elif step.verb == "commitall":
            self.commit(told, hands)
        elif step.verb == "resolve":
            for manager, _, _, code in outcomes(words):
                hands.hear(manager, code)
        elif step.verb == "complete" and len(words) == 5:
            self.collect(told, int(words[2]), int(words[4]))
        elif told.is_call and "async" in step.flags and int(words[0]) > 0:
            hands.keep(Request(told, int(words[0]), step.manager, step.verb, told.xid))
        elif step.verb != "turn":
            hands.hear(step.manager, int(words[0]))

    def reopen(self, line):
        for told in self.ended:
            told.before = line
        self.hands, self.ended = {thread: Hands() for thread in self.hands}, []

    def collect(self, told, handle, code):
        """Notes that this collected a handle."""
        hands = self.hands.get(told.thread)
        if hands is None or handle not in hands.kept:
            raise Unread(f"thread {told.thread} collects handle {handle}, and no line got it")
        told.collected = request = hands.kept.pop(handle)
        request.code, request.by = code, told
        hands.hear(request.manager, code)

    def commit(self, told, hands):
        """Notes what a `commitall` tells of managers, and the requests that it left in flight."""
        told.commit = commit = Commit(told.step, told.words)
        for manager, (word, code) in commit.shown.items():
            hands.hear(manager, SHUT if word == "indoubt" else INVALID if code is None else code)
            if word == "heur":
                hands.perhaps_shut.add(manager)
        (asked, verb), flying = commit.untold(), commit.in_flight()
        hands.perhaps_shut |= set(asked) - set(flying)
        sent = [manager for manager in flying if manager not in hands.shut]
        # Where it isn't known to which of them a request was sent, a handle may be that of any.
        is_known = not hands.perhaps_shut & set(sent)
        for manager in sent:
            request = Request(told, None, manager, verb, commit.xid(manager))
            hands.keep(request if is_known else Request(told, None))

    def want_all(self):
        if self.steps:
            raise Unread(f"line {min(self.steps)} of the script has no answer")
        if [(it.manager, it.key) for it in self.values] != sorted(self.script.keys):
            raise Unread("its values aren't those of the keys of the script")
