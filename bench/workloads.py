"""The scripts of the benchmarks, each as its lines and what its transcript has to show."""

import random
import subprocess
import sys
import tempfile
from collections import Counter
from typing import NamedTuple

LINES = 100_000
KEYS = 256
REQUESTS = 4096
# Global transactions of a thread: with 8 threads and 8 managers nearly as many as a script has lines for.
COMMITS = 490
# What each key has at first that is taken from.
FULL = 1_000_000


class Workload(NamedTuple):
    """The lines of a script; how many answers of each kind its transcript has to show, and no others; to how much all
    values have to come together; and which share of the answers has to be so in threads, where some calls may find
    something else than in turns."""

    lines: object
    answers: dict
    total: int = 0
    share_in_threads: float = 1.0


def transaction(thread, manager, xid, key):
    """A transaction of one key in two phases: five calls."""
    return (
        f"{thread} start {manager} {xid}",
        f"{thread} add {manager} {key} -1",
        f"{thread} end {manager} {xid} success",
        f"{thread} prepare {manager} {xid}",
        f"{thread} commit {manager} {xid}",
    )


def nothing():
    """Settings alone: what opening 8 managers for 8 threads takes, and in threads starting 16 of them."""
    return Workload(("threads 8", "managers 8", f"requests {REQUESTS}"), {})


def refused():
    """100,000 lines that no manager sees: what reading and printing a line takes."""
    return Workload(("1 open 9" for _ in range(LINES)), {"-5": LINES})


def long_refused():
    """100,000 lines of 145 bytes that no manager sees, each with the longest xid: what reading a line takes."""
    return Workload((f"1 start 9 {'g' * 64}.{'b' * 64} async" for _ in range(LINES)), {"-5": LINES})


def comments():
    """100,000 comments of 512 bytes, the longest that a line may have: what reading a byte takes."""
    text = "# " + " ".join(f"word{n}" for n in range(100))
    return Workload((text[:512] for _ in range(LINES)), {})


def opened():
    """100,000 lines of 8 threads at 8 managers, each of which does next to nothing: what the way to a
    manager and back takes."""

    def lines():
        yield from ("threads 8", "managers 8", f"requests {REQUESTS}")
        yield from (f"{call % 8 + 1} open {call // 8 % 8 + 1}" for call in range(LINES - 3))

    return Workload(lines(), {"0": LINES - 3})


def one_manager():
    """100,000 lines of one thread at one manager with 256 keys: transactions of five calls, of
    which those are carried out for which the thread has requests left; the others are refused."""

    def lines():
        yield from (f"key 1 k{key} {FULL}" for key in range(KEYS))
        yield "1 open 1"
        for call in range(LINES - KEYS - 1):
            number, place = divmod(call, 5)
            yield transaction(1, 1, f"g{number}.1", f"k{number % KEYS}")[place]

    carried_out = 256
    return Workload(lines(), {"0": carried_out, "-3": LINES - KEYS - carried_out}, KEYS * FULL - (carried_out - 1) // 5)


def eight_by_eight():
    """100,000 lines of 8 threads at 8 managers with 256 keys each: transactions of five calls, one
    after the other by thread and manager, each on a key of its thread's. All are carried out."""
    calls = LINES - 3 - 8 * KEYS - 64

    def lines():
        yield from ("threads 8", "managers 8", f"requests {REQUESTS}")
        yield from (f"key {m} k{key} {FULL}" for m in range(1, 9) for key in range(KEYS))
        yield from (f"{t} open {m}" for t in range(1, 9) for m in range(1, 9))
        for call in range(calls):
            number, place = divmod(call, 5)
            thread, manager = number % 8 + 1, number // 8 % 8 + 1
            key = thread - 1 + 8 * (number // 64 % (KEYS // 8))
            yield transaction(thread, manager, f"g{number}.{manager}", f"k{key}")[place]

    return Workload(lines(), {"0": 64 + calls}, 8 * KEYS * FULL - calls // 5)


def branches_alive(count):
    """8 threads at one manager, with all the requests that there can be: so many branches, a multiple of 8, are started
    and left idle, and then joined and ended in a random order, each by the thread that started it."""
    pairs = 8 * ((REQUESTS - 1) // 2)

    def lines():
        yield from ("threads 8", f"requests {REQUESTS}")
        yield from (f"{t} open 1" for t in range(1, 9))
        order = random.Random(1)
        for pair in range(pairs):
            place = pair % 8
            branch, join = (pair, "") if pair < count else (place + 8 * order.randrange(count // 8), " join")
            yield f"{place + 1} start 1 g{branch}.1{join}"
            yield f"{place + 1} end 1 g{branch}.1 success"

    return Workload(lines(), {"0": 8 + 2 * pairs})


def asynchronous(handles, calls):
    """8 threads at 8 managers, each with all of its handles taken: transactions of four asynchronous calls, and for
    each call another is collected, whichever comes first."""

    def lines():
        yield from ("threads 8", "managers 8", f"handles {handles}", "queue 64", f"requests {REQUESTS}")
        yield from (f"key {m} k{t} 0" for m in range(1, 9) for t in range(1, 9))
        yield from (f"{t} open {m}" for t in range(1, 9) for m in range(1, 9))
        for call in range(calls):
            thread, number = call % 8 + 1, call // 8
            branch, place = divmod(number, 4)
            manager, xid = branch % 8 + 1, f"t{thread}x{branch}.1"
            if number >= handles:
                yield f"{thread} complete 0 0 multiple"
            yield (
                f"{thread} start {manager} {xid} async",
                f"{thread} add {manager} k{thread} 1 async",
                f"{thread} end {manager} {xid} success async",
                f"{thread} commit {manager} {xid} onephase async",
            )[place]

    last = min(calls, 8 * handles)
    answers = {"0": 64, "handle": calls, "collected 0": calls - last, "ended 0": last}
    total = sum((calls + 7 - before) // 8 // 4 for before in range(8))
    # In threads a call may find the queue full.
    return Workload(lines(), {kind: many for kind, many in answers.items() if many}, total, share_in_threads=0.75)


def handles_full():
    """100,000 lines of 8 threads at 8 managers, each with all of its 32 handles taken."""
    return asynchronous(32, (LINES - 5 - 64 - 64 + 8 * 32) // 2)


def hot_manager():
    """8 threads at one manager, synchronous calls: 32,760 of transactions, each on a key of its thread's. All are
    carried out."""
    calls = 8 * (REQUESTS - 1)

    def lines():
        yield from ("threads 8", f"requests {REQUESTS}")
        yield from (f"key 1 k{t} {FULL}" for t in range(1, 9))
        yield from (f"{t} open 1" for t in range(1, 9))
        for call in range(calls):
            thread, number = call % 8 + 1, call // 8
            branch, place = divmod(number, 5)
            yield transaction(thread, 1, f"t{thread}x{branch}.1", f"k{thread}")[place]

    return Workload(lines(), {"0": 8 + calls}, 8 * FULL - calls // 5)


def global_commits(threads, managers):
    """Global transactions of so many threads, each with a branch at each of so many managers: three calls for each
    branch, and a commit of all of them. The branches of a thread have keys of their own. All are committed."""

    def lines():
        yield from (f"threads {threads}", f"managers {managers}", "handles 8", f"requests {REQUESTS}")
        yield from (f"key {m} k{t} {FULL}" for m in range(1, managers + 1) for t in range(1, threads + 1))
        yield from (f"{t} open {m}" for t in range(1, threads + 1) for m in range(1, managers + 1))
        everywhere = " ".join(str(m) for m in range(1, managers + 1))
        for number in range(COMMITS):
            for t in range(1, threads + 1):
                gtrid = f"t{t}x{number}"
                for m in range(1, managers + 1):
                    yield from transaction(t, m, f"{gtrid}.{m}", f"k{t}")[:3]
                yield f"{t} commitall {gtrid} {everywhere}"

    commits, branches = threads * COMMITS, threads * managers * COMMITS
    answers = {"0": threads * managers + 3 * branches, "commit logged" + " committed" * managers: commits}
    return Workload(lines(), answers, threads * managers * FULL - branches)


def kind_of(line):
    """The kind of an answer: what stands after its line and thread. Handles aren't told apart, nor branches."""
    words = line.split()
    answer = words[2:] or words[1:]
    if answer[0] == "resolved":
        endings = Counter(ending.split(":", 2)[2] for ending in answer[1:])
        return " ".join(["resolved", *(f"{many} {ending}" for ending, many in sorted(endings.items()))])
    if "handle" in answer:
        return f"{'ended' if words[0] == 'end' else 'collected'} {answer[-1]}"
    is_handle = len(answer) == 1 and answer[0].isdigit() and 1 <= int(answer[0]) <= 32
    return "handle" if is_handle else " ".join(answer)


def count_once(program, mode, script, workload):
    """Runs a script once and counts what its transcript shows. It ends with status 1 where that isn't what it has to
    be: what isn't carried out isn't worth being measured."""
    counts, total = Counter(), 0
    with tempfile.TemporaryFile("w+") as shown, open(script, "rb") as lines:
        status = subprocess.run([program, mode], stdin=lines, stdout=shown).returncode
        shown.seek(0)
        # Line by line: a process begins with the peak memory of the one that starts it.
        for line in shown:
            if line.startswith("value "):
                total += int(line.split()[3])
            else:
                counts[kind_of(line)] += 1
    if status != 0:
        sys.exit(f"{program} {mode} ended with status {status}")
    if mode == "threads" and workload.share_in_threads < 1:
        right = sum(min(counts[kind], many) for kind, many in workload.answers.items())
        is_right = right >= workload.share_in_threads * sum(workload.answers.values())
    else:
        is_right = (counts, total) == (Counter(workload.answers), workload.total)
    if not is_right:
        sys.exit(
            f"{program} {mode} shows {dict(counts)}, and values of {total} together, not {workload.answers} and"
            f" {workload.total}: what it has to carry out isn't carried out"
        )
