"""The branch tables of a manager, by docs/PROFILE.md: `Manager`.

It is written from that page, and shares nothing with the program.
"""
from reading import MOST_VALUE

# The codes that managers and the switch answer.
OK, READ_ONLY, RETRY = 0, 3, 4
HEURISTIC_ROLLBACK, HEURISTIC_COMMIT = 6, 7
ROLLBACK, INTEGRITY, TRANSIENT = 100, 103, 107
ASYNC, SPENT, UNKNOWN, INVALID, PROTOCOL, SHUT, DUPLICATE = -2, -3, -4, -5, -6, -7, -8
ROLLED_BACK = range(100, 108)
HEURISTIC = range(5, 9)
DECIDED = (HEURISTIC_ROLLBACK, HEURISTIC_COMMIT)
# The votes after which a branch is asked for nothing more.
GONE = (READ_ONLY, UNKNOWN, SHUT, *ROLLED_BACK)


def by_xid(xid):
    """What xids are ordered by: the lengths come before the bytes."""
    return len(xid[0]), len(xid[1]), xid


class Branch:
    """A branch of a manager: its state, the reason or decision of one that is rollback-only or decided, its sums."""

    def __init__(self):
        self.state, self.code, self.sums = "active", OK, {}

    def becomes(self, state, code):
        self.state, self.code = state, code
        return code


class Manager:
    """The tables of one manager."""

    def __init__(self, values):
        self.values, self.branches = values, {}
        self.open_again()

    def open_again(self):
        """Keeps what was prepared or decided, and gives its xids."""
        self.shut, self.opened, self.at, self.suspended = False, set(), {}, set()
        self.branches = {xid: it for xid, it in self.branches.items() if it.state in ("prepared", "decided")}
        return sorted(self.branches, key=by_xid)

    def carry_out(self, thread, verb, told, flags):
        """The code of a request."""
        if self.shut:
            return SHUT
        if verb == "shut":
            self.shut = True
            return OK
        if verb == "open":
            self.opened.add(thread)
            return OK
        if verb == "close":
            return self.close(thread)
        if verb in ("heurcom", "heurrb"):
            return self.decide(told[0], verb == "heurcom")
        if thread not in self.opened:
            return PROTOCOL
        if verb == "add":
            return self.add(thread, *told)
        if verb == "listed":
            return self.listed(*told)
        return getattr(self, verb)(thread, told[0], flags)

    def is_somebody_at(self, xid):
        return xid in self.at.values()

    def leave(self, thread):
        del self.at[thread]
        self.suspended.discard(thread)

    def close(self, thread):
        if thread in self.at:
            return PROTOCOL
        self.opened.discard(thread)
        return OK

    def decide(self, xid, commits):
        branch = self.branches.get(xid)
        if branch is None:
            return UNKNOWN
        if branch.state != "prepared":
            return PROTOCOL
        if commits:
            self.settle(branch)
        branch.sums = {}
        branch.becomes("decided", HEURISTIC_COMMIT if commits else HEURISTIC_ROLLBACK)
        return OK

    def start(self, thread, xid, flags):
        branch = self.branches.get(xid)
        if "resume" in flags:
            if self.at.get(thread) == xid and thread in self.suspended:
                self.suspended.discard(thread)
                return OK
            return UNKNOWN if branch is None else PROTOCOL
        if thread in self.at:
            return PROTOCOL
        if "join" not in flags:
            if branch is not None:
                return DUPLICATE
            branch = self.branches[xid] = Branch()
        elif branch is None:
            return UNKNOWN
        elif branch.state in ("prepared", "decided"):
            return PROTOCOL
        elif branch.state == "rollback-only":
            return branch.code
        branch.state = "active"
        self.at[thread] = xid
        return OK

    def add(self, thread, key, delta):
        if thread not in self.at or thread in self.suspended:
            return PROTOCOL
        if key not in self.values:
            return INVALID
        branch = self.branches[self.at[thread]]
        if branch.state == "rollback-only":
            return branch.code
        if any(key in other.sums for other in self.branches.values() if other is not branch):
            return branch.becomes("rollback-only", TRANSIENT)
        branch.sums[key] = branch.sums.get(key, 0) + delta
        return OK

    def end(self, thread, xid, flags):
        branch = self.branches.get(xid)
        if self.at.get(thread) != xid:
            return UNKNOWN if branch is None else PROTOCOL
        if "suspend" in flags and thread in self.suspended:
            return PROTOCOL
        if branch.state == "rollback-only":
            self.leave(thread)
            return branch.code
        if "suspend" in flags:
            self.suspended.add(thread)
            return OK
        self.leave(thread)
        if "fail" in flags:
            return branch.becomes("rollback-only", ROLLBACK)
        if not self.is_somebody_at(xid):
            branch.state = "idle"
        return OK

    def fits(self, branch):
        """Whether each value that the branch touches stays within the limits."""
        return all(0 <= self.values[key] + delta <= MOST_VALUE for key, delta in branch.sums.items())

    def settle(self, branch):
        for key, delta in branch.sums.items():
            self.values[key] += delta

    def prepare(self, thread, xid, flags):
        branch = self.branches.get(xid)
        if branch is None:
            return UNKNOWN
        if branch.state != "idle":
            return PROTOCOL
        if not branch.sums or not self.fits(branch):
            del self.branches[xid]
            return INTEGRITY if branch.sums else READ_ONLY
        return branch.becomes("prepared", OK)

    def commit(self, thread, xid, flags):
        branch = self.branches.get(xid)
        if branch is None:
            return UNKNOWN
        if branch.state == "decided" and "onephase" not in flags:
            return branch.code
        if branch.state != ("idle" if "onephase" in flags else "prepared"):
            return PROTOCOL
        del self.branches[xid]
        if not self.fits(branch):
            return INTEGRITY
        self.settle(branch)
        return OK

    def rollback(self, thread, xid, flags):
        branch = self.branches.get(xid)
        if branch is None:
            return UNKNOWN
        if branch.state == "decided":
            return branch.code
        if self.is_somebody_at(xid):
            return PROTOCOL
        del self.branches[xid]
        return branch.code

    def forget(self, thread, xid, flags):
        branch = self.branches.get(xid)
        if branch is None:
            return UNKNOWN
        if branch.state != "decided":
            return PROTOCOL
        del self.branches[xid]
        return OK

    def listed(self, xid=None):
        if xid is None or xid in self.branches and self.branches[xid].state in ("prepared", "decided"):
            return OK
        return UNKNOWN
