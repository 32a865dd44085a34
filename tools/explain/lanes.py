"""A lane for each thread and each manager: what is drawn in each, row by row: `Lanes`."""
import collections

from tables import RETRY

from .branches import COMMITTED, READ, ROLLED
from .codes import reaches
from .commits import outcomes
from .rows import named

# What is drawn in a cell: its class, how far from the lane's line it stands, what it says when it is pointed at, and
# what is written beside it.
Mark = collections.namedtuple("Mark", "kind slot title text", defaults=(0, "", ""))


def asks(told, script):
    """The managers that a line put requests to, None where it was refused."""
    step = told.step
    if told.words == ["refused"]:
        return None
    if told.commit is not None:
        return [m for m in told.commit.managers if m not in told.known_shut]
    if step.verb == "resolve":
        return sorted({m for m, _, _, _ in outcomes(told.words)} - told.known_shut)
    if step.verb == "complete" or step.manager in told.known_shut or not reaches(step, int(told.words[0]), script):
        return None
    return [step.manager]


def end_of(fate):
    """How a branch has ended: `committed`, rolled `back`, only `read`, or None where that isn't shown."""
    ends = [(COMMITTED, "committed"), (ROLLED, "back"), (READ, "read")]
    return next((kind for words, kind in ends if words in fate.said()), None)


def shortened(name):
    return name if len(name) <= 12 else f"{name[:11]}\N{HORIZONTAL ELLIPSIS}"


class Lanes:
    """The lanes of an explanation's rows: the threads from the left, then the managers."""

    def __init__(self, story, rows, fates):
        self.rows, self.script, self.threads = rows, story.script, story.script.threads
        self.heads = [f"thread {t}" for t in range(1, self.threads + 1)]
        self.heads += [f"manager {m}" for m in range(1, story.script.managers + 1)]
        self.cells = [[[] for _ in self.heads] for _ in rows]
        self.place = {row.line: place for place, row in enumerate(rows) if row.line is not None}
        self.place_of = {id(row.told): place for place, row in enumerate(rows) if row.told is not None}
        for place, row in enumerate(rows):
            if row.told is not None:
                self.draw(place, row)
        self.draw_branches(fates)

    def lane(self, manager):
        return self.threads + manager - 1

    def kind(self, lane):
        """The class of a lane's cells."""
        if lane < self.threads:
            return "lane thread"
        return "lane manager first" if lane == self.threads else "lane manager"

    def width(self, lane):
        """How wide a lane is, in pixels: all bars have room beside its line, with what is written there."""
        bars = [mark for cells in self.cells for mark in cells[lane] if mark.kind.startswith("bar")]
        if lane < self.threads:
            return max([70] + [40 + 10 * bar.slot for bar in bars])
        before = 56 if lane == self.threads else 14
        return before + max([60] + [30 + 16 * bar.slot + 7 * len(bar.text) for bar in bars])

    def mark(self, place, lane, *words):
        self.cells[place][lane].append(Mark(*words))

    def draw(self, place, row):
        """Draws what a line does."""
        told, verb = row.told, row.told.step and row.told.step.verb
        if verb == "turn":
            self.mark(place, self.lane(told.step.manager), f"turn {told.words[1]}", 0, row.means)
        elif told.collected is not None:
            self.back(place, told)
        elif verb != "reopen":
            self.ask(place, told)
        for request in told.left:
            self.keep(place, self.place_of[id(request.by)], told.thread - 1, request.handle)

    def ask(self, place, told):
        managers, own = asks(told, self.script), told.thread - 1
        if told.step.verb == "complete" and told.words == [str(RETRY)]:
            self.mark(place, own, "turn empty", 0, "nothing has come")
            return
        if managers is None:
            self.mark(place, own, "refused", 0, "it reaches no manager")
            return
        style = "later" if "async" in told.step.flags else "now"
        self.line(place, own, max(map(self.lane, managers), default=own), style)
        for manager in managers:
            self.mark(place, self.lane(manager), f"head {style}")

    def back(self, place, told):
        """An answer that comes to the thread under its handle."""
        own, manager = told.thread - 1, told.collected.manager
        if manager is not None:
            self.line(place, own, self.lane(manager), "later")
        self.mark(place, own, "tail later", 0, f"handle {told.collected.handle}")

    def line(self, place, first, last, style):
        if last == first:
            self.mark(place, first, "dot")
            return
        self.mark(place, first, f"begin {style}")
        for lane in range(first + 1, last):
            self.mark(place, lane, f"through {style}")
        self.mark(place, last, f"finish {style}")

    def keep(self, first, last, lane, handle):
        """A handle that is kept, from one row to another."""
        for place in range(first, last + 1):
            part = "lower" if place == first else "upper" if place == last else "whole"
            text = str(handle) if place == first else ""
            self.mark(place, lane, f"bar handle {part}", handle, f"handle {handle}", text)

    def draw_branches(self, fates):
        """Each branch is a bar beside the line of its manager, in the colour of its state."""
        taken = collections.defaultdict(list)
        for fate in fates:
            if not fate.states:
                continue
            states = [(self.place[line], kind) for line, kind in fate.states]
            last = states[-1][0] if states[-1][1] == "gone" else len(self.rows) - 1
            free = taken[fate.manager]
            slot = next((n for n, until in enumerate(free) if until < states[0][0]), len(free))
            free[slot:slot + 1] = [last]
            self.draw_branch(fate, states, last, slot)

    def draw_branch(self, fate, states, last, slot):
        name, lane, kinds = named(fate.xid), self.lane(fate.manager), dict(states)
        before = None
        for place in range(states[0][0], last + 1):
            after = kinds.get(place, before)
            parts = [(before, "whole")] if before == after else [(before, "upper"), (after, "lower")]
            for kind, part in parts:
                if kind not in (None, "gone"):
                    text = shortened(name) if before is None else ""
                    self.mark(place, lane, f"bar {kind} {part}", slot, f"{name}: {kind}", text)
            before = after
        if before == "gone" and end_of(fate):
            self.mark(last, lane, f"fate {end_of(fate)}", slot, f"{name}: {fate.said()}")
