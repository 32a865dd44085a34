"""What is shown beside each line of a script: `rows`, from a story and the script's own lines."""
import dataclasses

from reading import Step
from tables import OK, READ_ONLY

from .codes import ASKED, called, meaning, name
from .commits import outcomes
from .desk import Desk


@dataclasses.dataclass
class Row:
    """A line of the script with its answer: a number, a name, what it means, and more lines of that. Where the script
    has no line for it, the line is None. The tone is `good`, `other` or `bad`, `still` where there is no answer."""
    line: int
    text: str
    thread: int = 0
    number: str = ""
    name: str = ""
    means: str = ""
    more: list = dataclasses.field(default_factory=list)
    tone: str = "still"
    told: object = None


def tone(code):
    return "good" if 0 <= code < 5 else "other" if code > 0 else "bad"


def named(xid):
    return ".".join(xid)


class Explained:
    """What each line was told, in words; it knows what each thread has at its desk by then."""

    def __init__(self, story):
        self.story, self.script = story, story.script
        self.desks = {thread: Desk(story.script.unknown.get(thread)) for thread in story.hands}
        # What a request that was kept under a handle came to, by the place of the request.
        self.said = {}
        self.rows = [self.row(told) for told in story.told]

    def row(self, told):
        desk = self.desks.get(told.thread)
        if desk is not None:
            desk.shut = told.known_shut
        row = self.ended(told) if told.step is None else self.answered(told, desk)
        row.told, row.thread = told, told.thread
        if desk is not None:
            desk.follow(told)
        elif told.step.verb == "reopen":
            for it in self.desks.values():
                it.open_again()
        return row

    def answered(self, told, desk):
        step = told.step
        if step.verb == "turn":
            return self.turn(step, told.words)
        if step.verb == "reopen":
            return Row(step.line, "", name="reopened", means="all ended, then opened again", tone="good")
        if step.verb == "commitall":
            return self.commit(step, told, desk)
        if step.verb == "resolve":
            return self.resolve(step, told.words, desk)
        if told.collected is not None:
            means = f"handle {told.collected.handle}, {self.origin(told.collected)}"
            return Row(step.line, "", number="0", name=name(OK), means=means, tone="good")
        if told.left:
            return self.handle(step, told, desk)
        if step.verb == "recover" and told.code >= 0:
            left = [f"{word} is left" for word in told.words[1:]] or ["none is left"]
            return Row(step.line, "", number=told.words[0], name="listed", means=left[0], more=left[1:], tone="good")
        means = meaning(step, told.code, self.script, desk)
        return Row(step.line, "", number=told.words[0], name=name(told.code), means=means, tone=tone(told.code))

    def turn(self, step, words):
        means = {
            "did": f"manager {step.manager} took one request", "late": "one request was late",
            "empty": "no request waits", "blocked": "no room for the answer",
        }
        tone_of = "bad" if words[1] in ("late", "blocked") else "good"
        return Row(step.line, "", name=words[1], means=means[words[1]], tone=tone_of)

    def handle(self, step, told, desk):
        request = told.left[0]
        self.said[id(request)] = means = meaning(step, request.code, self.script, desk)
        means = f"{self.later(request)}: {name(request.code)}, {means}"
        return Row(step.line, "", number=told.words[0], name="handle", means=means, tone=tone(request.code))

    def later(self, request):
        """Where a handle is collected."""
        by = request.by
        if by.step is not None:
            return f"on line {by.step.line}"
        return "at the end" if by.before is None else f"before line {by.before}"

    def origin(self, request, with_code=True):
        """What a handle that is collected stands for, and what that came to."""
        what = f" ({named(request.xid)}, {ASKED[request.verb]})" if request.told.commit and request.verb else ""
        said = [called(request.code)] if with_code else []
        said += [self.said.get(id(request), "in flight as its coordinator died")]
        return f"line {request.told.step.line}{what}: {', '.join(said)}"

    def ended(self, told):
        """What was collected of a thread as the opening ended."""
        request = told.collected
        means = f"handle {request.handle}, {self.origin(request, False)}"
        return Row(None, f"(end of thread {told.thread})", number=str(request.code), name=name(request.code),
                   means=means, tone=tone(request.code))

    def commit(self, step, told, desk):
        commit = told.commit
        for request in told.left:
            if request.verb is not None:
                asked = Step(step.line, step.thread, request.verb, request.manager, (request.xid,), frozenset())
                self.said[id(request)] = meaning(asked, request.code, self.script, desk)
        more = [self.branch(commit, desk, m, *it) for m, it in commit.shown.items()]
        more += [self.flying(it) for it in told.left]
        name_of = commit.decision if commit.kind == "done" else commit.kind
        tone_of = "good" if name_of == "commit" else "bad" if commit.kind == "refused" else "other"
        return Row(step.line, "", name=name_of, means=self.came_to(step, commit, desk), more=more, tone=tone_of)

    def came_to(self, step, commit, desk):
        """What a commit came to as a whole."""
        if commit.kind == "refused":
            return self.refused(commit, desk)
        if commit.kind == "undecided":
            return "the log can't tell of its record"
        if commit.decision is None:
            return f"nothing decided, {len(commit.shown)} of {len(commit.managers)} votes known"
        why = self.why_aborted(step, commit) if commit.decision == "abort" else None
        why = why or ("the log has its record" if commit.logged else "all only read: needs no record")
        return why if commit.kind == "done" else f"after its decision: {commit.decision}, {why}"

    def why_aborted(self, step, commit):
        """Why a commit aborts: the branches that voted against, or that the log refused its record."""
        votes = commit.votes() or self.story.votes.get(step.line, {})
        against = [f"{named(commit.xid(m))} voted {called(code)}" for m, code in votes.items()
                   if code not in (OK, READ_ONLY)]
        if against:
            return ", ".join(against)
        refuses = step.thread in self.script.failing
        if votes:
            return "all voted for it, and the log refused its record"
        whose = named(commit.xid(commit.managers[0])) if len(commit.managers) == 1 else "a branch"
        return f"{whose} voted against{', or the log refused its record' if refuses else ''}"

    def flying(self, request):
        """A request that was in flight as a coordinator died."""
        branch = "a branch" if request.verb is None else f"{named(request.xid)}, {ASKED[request.verb]}"
        return f"{branch}: handle {request.handle}, {self.later(request)}: {name(request.code)}"

    def branch(self, commit, desk, manager, word, code):
        """What a commit shows of a branch."""
        words = {
            "committed": "committed", "readonly": "only read", "rolledback": "rolled back",
            "indoubt": "in doubt, its manager is shut",
        }
        if word == "vote":
            asked = Step(0, 0, "prepare", manager, (commit.xid(manager),), frozenset())
            said = f"{name(code)}, {meaning(asked, code, self.script, desk)}"
        elif word == "heur":
            said = f"decided by its manager: {called(code)}"
        else:
            said = words[word] if code is None else f"left: {called(code)}"
        return f"{named(commit.xid(manager))}: {said}"

    def refused(self, commit, desk):
        """Why a commit was refused."""
        free = self.script.handles - len(desk.kept)
        whys = [
            (free < len(commit.managers), "handles are spent"),
            (commit.gtrid in desk.logged, f"the log has {commit.gtrid} already"),
            (desk.is_unknown, "the log isn't known"),
        ]
        return " and ".join(why for holds, why in whys if holds) or "requests are used up"

    def resolve(self, step, words, desk):
        if words == ["refused"]:
            means = "the log isn't known" if desk.is_unknown else "requests are used up"
            return Row(step.line, "", name="refused", means=means, tone="bad")
        ended = [self.outcome(step, desk, *it) for it in outcomes(words)]
        means = "what was left, by the log" if ended else "nothing was left"
        return Row(step.line, "", name="resolved", means=means, more=ended, tone="good")

    def outcome(self, step, desk, manager, xid, verb, code):
        """What a resolve asked of a branch that was left, and what that came to. It opens the manager first."""
        desk.opened.add(manager)
        asked = Step(step.line, step.thread, verb, manager, (xid,), frozenset())
        return f"{named(xid)}, {ASKED[verb]}: {name(code)}, {meaning(asked, code, self.script, desk)}"


def rows(story, lines):
    """All rows in the order of the script's lines, and what was collected at an end where that was."""
    shown, place = [], 0
    explained = Explained(story).rows
    if story.in_threads:
        explained.sort(key=lambda row: (row.line is None, row.line))
    for row, following in zip(explained, following_lines(explained, len(lines) + 1)):
        shown += [Row(n, lines[n - 1]) for n in range(place + 1, following)]
        place = max(place, following - 1)
        if row.line is not None:
            row.text, place = lines[row.line - 1], row.line
        shown.append(row)
    return shown + [Row(n, lines[n - 1]) for n in range(place + 1, len(lines) + 1)]


def following_lines(explained, following):
    """For each row its line, or that of the next row that has one."""
    lines = []
    for row in reversed(explained):
        following = following if row.line is None else row.line
        lines.append(following)
    return reversed(lines)


def rows_by_thread(story, lines):
    """All rows thread by thread: the settings, then the lines of each thread with the comments above them."""
    above, notes, settings = {}, [], 0
    for n, line in enumerate(lines, 1):
        words = line.split()
        if words and words[0].isdigit():
            above[n], notes = notes, []
        else:
            notes.append(Row(n, line))
            if words and not words[0].startswith("#"):
                settings = n
    shown = [note for notes_above in above.values() for note in notes_above if note.line <= settings]
    thread = None
    for row in Explained(story).rows:
        if row.thread != thread:
            thread = row.thread
            shown.append(Row(None, f"-- thread {thread} --"))
        if row.line is not None:
            shown += [note for note in above[row.line] if note.line > settings]
            row.text = lines[row.line - 1]
        shown.append(row)
    return shown + notes
