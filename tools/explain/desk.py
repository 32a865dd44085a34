"""What a thread has by a line, as far as its answers tell: `Desk`."""
from tables import OK, ROLLED_BACK, SHUT

from .commits import outcomes


class Desk:
    """The handles that a thread keeps, the managers that it has open, and by manager the branch that it works for; the
    transactions that its log has a record of, and whether it isn't known what the log has."""

    def __init__(self, unknown=None):
        self.kept, self.opened, self.at = set(), set(), {}
        self.logged, self.is_unknown, self.undecided = set(), False, None
        self.keeps_unknown = unknown is not None and unknown[1]
        # The managers that it knows to be shut.
        self.shut = frozenset()

    def open_again(self):
        self.kept, self.opened, self.at = set(), set(), {}
        if self.is_unknown and self.keeps_unknown:
            self.logged.add(self.undecided)
        self.is_unknown = False

    def follow(self, told):
        """Notes what comes of a line."""
        self.kept |= {request.handle for request in told.left}
        if told.collected is not None:
            self.kept.discard(told.collected.handle)
        if told.commit is not None:
            self.log(told.commit)
        elif told.is_call:
            self.call(told)
        elif told.step is not None and told.step.verb == "resolve":
            self.opened |= {m for m, _, _, code in outcomes(told.words) if code != SHUT}

    def log(self, commit):
        if commit.logged:
            self.logged.add(commit.gtrid)
        if commit.kind == "undecided":
            self.is_unknown, self.undecided = True, commit.gtrid

    def call(self, told):
        verb, manager, code = told.step.verb, told.step.manager, told.code
        if verb == "open" and code == OK:
            self.opened.add(manager)
        elif verb == "close" and code == OK:
            self.opened.discard(manager)
        elif verb == "start" and code == OK:
            self.at[manager] = told.xid
        elif verb == "end" and (code == OK and "suspend" not in told.step.flags or code in ROLLED_BACK):
            self.at.pop(manager, None)
