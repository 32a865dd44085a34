"""What a code is called in `xa.h`, and what it says of the call that it answers: `name`, `meaning`."""
from running import takes
from tables import ASYNC, INVALID, PROTOCOL, SHUT, SPENT

from .transcript import Unread

NAMES = {
    0: "XA_OK", 3: "XA_RDONLY", 4: "XA_RETRY",
    5: "XA_HEURMIX", 6: "XA_HEURRB", 7: "XA_HEURCOM", 8: "XA_HEURHAZ",
    100: "XA_RBROLLBACK", 101: "XA_RBCOMMFAIL", 102: "XA_RBDEADLOCK", 103: "XA_RBINTEGRITY",
    104: "XA_RBOTHER", 105: "XA_RBPROTO", 106: "XA_RBTIMEOUT", 107: "XA_RBTRANSIENT",
    -2: "XAER_ASYNC", -3: "XAER_RMERR", -4: "XAER_NOTA", -5: "XAER_INVAL",
    -6: "XAER_PROTO", -7: "XAER_RMFAIL", -8: "XAER_DUPID", -9: "XAER_OUTSIDE",
}

# What a coordinator puts to a branch.
ASKED = {"prepare": "asked to prepare", "commit": "told to commit", "rollback": "told to roll back"}

# What a code says of a call, or of a call with a flag.
OF_CALL = {
    ("open", 0): "manager opened",
    ("close", 0): "manager closed",
    ("shut", 0): "manager is shut",
    ("start", 0): "works for the branch",
    ("start join", 0): "joins the branch",
    ("start resume", 0): "resumes the branch",
    ("add", 0): "added, not committed",
    ("add", 107): "key in use: rollback-only",
    ("end", 0): "work has ended",
    ("end suspend", 0): "work is suspended",
    ("end fail", 100): "work failed: rollback-only",
    ("prepare", 0): "votes yes: prepared",
    ("prepare", 3): "only read: gone",
    ("prepare", 103): "out of range: rolled back",
    ("commit", 0): "committed",
    ("commit onephase", 0): "committed in one phase",
    ("commit", 6): "had rolled back already",
    ("commit", 7): "had committed already",
    ("commit onephase", 103): "out of range: rolled back",
    ("rollback", 0): "rolled back",
    ("rollback", 6): "had rolled back already",
    ("rollback", 7): "had committed already",
    ("rollback", 100): "rolled back: work failed",
    ("rollback", 107): "rolled back: key in use",
    ("heurcom", 0): "committed by its manager",
    ("heurrb", 0): "rolled back by its manager",
    ("forget", 0): "decision is forgotten",
    ("complete", 4): "nothing has come yet",
    ("complete multiple", -6): "no handle is kept",
    ("start", -6): "has an association already",
    ("start join", -6): "has an association, or the branch is prepared or decided",
    ("start resume", -6): "isn't suspended there",
    ("add", -6): "works for no branch",
    ("end", -6): "isn't working for it",
    ("close", -6): "has an association",
    ("prepare", -6): "branch isn't idle",
    ("commit", -6): "branch isn't prepared",
    ("commit onephase", -6): "branch isn't idle",
    ("rollback", -6): "somebody is associated",
    ("heurcom", -6): "branch isn't prepared",
    ("heurrb", -6): "branch isn't prepared",
    ("forget", -6): "no heuristic decision",
}

# The one reason for XAER_INVAL that a manager finds, and not the switch.
NO_KEY = "no such key"

# What a code says of any other call.
OF_ANY = {
    3: "only read: gone", 5: "committed and rolled back", 6: "had rolled back already", 7: "had committed already",
    8: "perhaps decided already", -4: "no such branch", -8: "branch exists already",
    -9: "outside a transaction", **dict.fromkeys(range(100, 108), "rollback-only"), 107: "rollback-only: key in use",
    100: "rollback-only: work failed",
}


def name(code):
    if code not in NAMES:
        raise Unread(f"there is no code {code}")
    return NAMES[code]


def called(code):
    """A code with its number, as in `XA_OK (0)`."""
    return f"{name(code)} ({code})"


def meaning(step, code, script, desk):
    """What a code says of a line, by the line, the settings and what its thread has at its desk by then."""
    why = refusal(step, code, script, desk)
    if why:
        return why
    for call in (*(f"{step.verb} {flag}" for flag in sorted(step.flags)), step.verb):
        if (call, code) in OF_CALL:
            return OF_CALL[call, code]
    if code not in OF_ANY:
        raise Unread(f"line {step.line} can't be answered {called(code)}")
    return OF_ANY[code]


def refusal(step, code, script, desk):
    """Why the call was refused, where the script and the answers of its thread up to it tell."""
    if code == INVALID:
        return invalid(step, script)
    if code == ASYNC:
        return no_room(step, script, desk)
    if code == SPENT:
        return "requests are used up"
    if code == SHUT:
        return "known to be shut" if step.manager in desk.shut else "late: manager is shut"
    needs_open = step.verb not in ("open", "close", "shut", "heurcom", "heurrb", "complete")
    if code == PROTOCOL and needs_open and step.manager not in desk.opened:
        return "manager isn't opened"
    return None


def invalid(step, script):
    managers = range(0 if step.verb == "complete" and "multiple" in step.flags else 1, script.managers + 1)
    if not takes(step.verb, step.flags):
        return "flags don't fit"
    if step.manager not in managers:
        return "no such manager"
    return {"add": NO_KEY, "complete": "no such handle", "recover": "no scan begun"}.get(step.verb, "bad argument")


def reaches(step, code, script):
    """Whether a call with this answer was put to its manager, unless its thread knew that to be shut."""
    if code == INVALID:
        return invalid(step, script) == NO_KEY
    return code not in (ASYNC, SPENT) and 1 <= step.manager <= script.managers


def no_room(step, script, desk):
    if step.manager in script.synchronous:
        return "manager isn't asynchronous"
    return "handles are spent" if len(desk.kept) == script.handles else "queue is full"
