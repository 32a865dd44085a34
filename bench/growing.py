"""The scripts of the sweeps. At each point of a sweep there is a script, another one whose cost is taken off, and so
many units of work that are left then."""

import random
from typing import NamedTuple

from workloads import FULL, REQUESTS, Workload, asynchronous, transaction

# How many calls a script has whose lines aren't swept: nearly as many as one thread may put to 8 managers.
CALLS = 32_000
# The keys of a manager, and the commits of a script, where each commit has a key of its own.
KEYS = 250
# Commits of one thread between two openings, of 5 requests each: at each of 8 managers 800.
BETWEEN = 6_400
# How many commits are counted, over a log that has its records by then.
OVER = 800


class Point(NamedTuple):
    """What is measured at one value: a script, one that is taken off, and how many units of work the rest is; the
    settings of both by themselves, and how many units the first script has beside them."""

    whole: Workload
    less: Workload
    units: int
    settings: Workload
    all_units: int


class Sweep(NamedTuple):
    """What is swept, what a unit is, the values with what is measured at each, and how far the program's limits go."""

    title: str
    swept: str
    unit: str
    values: tuple
    at: object
    end: str

    def head(self):
        """The columns of its table."""
        return self.swept, f"instructions a {self.unit}", "peak memory, MB", f"bytes a {self.unit}"


def settings(threads, managers, keys):
    """The settings, with so many keys at each manager. All threads open all managers."""
    yield from (f"threads {threads}", f"managers {managers}", "handles 8", f"requests {REQUESTS}")
    yield from (f"key {m} k{key} {FULL}" for m in range(1, managers + 1) for key in range(keys))
    yield from (f"{t} open {m}" for t in range(1, threads + 1) for m in range(1, managers + 1))


def idle(threads, managers, keys):
    """The settings by themselves."""
    return Workload(settings(threads, managers, keys), {"0": threads * managers}, managers * keys * FULL)


def two_phases(threads, managers, calls):
    """Transactions in two phases, one after the other by thread and manager, each on a key of its thread's."""

    def lines():
        yield from settings(threads, managers, threads)
        for number in range(calls // 5):
            thread, manager = number % threads + 1, number // threads % managers + 1
            yield from transaction(thread, manager, f"g{number}.{manager}", f"k{thread - 1}")

    whole = Workload(lines(), {"0": threads * managers + calls}, threads * managers * FULL - calls // 5)
    less, settings_alone = (idle(threads, managers, threads) for _ in range(2))
    return Point(whole, less, calls, settings_alone, calls)


def at_lines(lines):
    return two_phases(8, 8, (lines - 4 - 64 - 64) // 5 * 5)


def at_handles(handles):
    # What is taken off has as many calls for all, so that as many lines are left.
    first, calls = 8 * 32, CALLS // 2
    whole, less, settings_alone = (asynchronous(handles, many) for many in (first + calls, first, 0))
    return Point(whole, less, 2 * calls, settings_alone, 2 * (first + calls) - 8 * handles)


def named(keys, size):
    """4,000 transactions of 8 threads at one manager, with so many keys in turn and xids of so many bytes."""
    calls = 20_000

    def lines():
        yield from settings(8, 1, keys)
        for number in range(calls // 5):
            xid = f"{number:0{size // 2}}.{'b' * (size // 2)}"
            yield from transaction(number % 8 + 1, 1, xid, f"k{number % keys}")

    whole = Workload(lines(), {"0": 8 + calls}, keys * FULL - calls // 5)
    less, settings_alone = (idle(8, 1, keys) for _ in range(2))
    return Point(whole, less, calls, settings_alone, calls)


def joined(alive, pairs):
    """8 threads at one manager start so many branches, a multiple of 8, and leave them idle. Then so many are joined
    and ended in a random order, each by the thread that started it."""

    def lines():
        yield from settings(8, 1, 0)
        order = random.Random(1)
        for pair in range(alive + pairs):
            place = pair % 8
            branch, join = (pair, "") if pair < alive else (place + 8 * order.randrange(alive // 8), " join")
            yield f"{place + 1} start 1 g{branch}.1{join}"
            yield f"{place + 1} end 1 g{branch}.1 success"

    return Workload(lines(), {"0": 8 + 2 * (alive + pairs)})


def at_branches_alive(alive):
    pairs = 8 * ((REQUESTS - 1) // 2) - 4_000
    return Point(joined(alive, pairs), joined(alive, 0), 2 * pairs, idle(8, 1, 0), 2 * (alive + pairs))


def beside(held, transactions):
    """One thread at one manager leaves so many branches idle, each of which holds a key, and carries out so many
    transactions in two phases on another key."""

    def lines():
        yield from settings(1, 1, 256)
        for number in range(held):
            yield from transaction(1, 1, f"h{number}.1", f"k{number}")[:3]
        for number in range(transactions):
            yield from transaction(1, 1, f"g{number}.1", "k255")

    return Workload(lines(), {"0": 1 + 3 * held + 5 * transactions}, 256 * FULL - transactions)


def at_keys_held(held):
    return Point(beside(held, 600), beside(held, 0), 3_000, idle(1, 1, 256), 3 * held + 3_000)


def committed(managers, ends):
    """Global transactions of one thread, each with a branch at each of so many managers and a key of its own. All are
    committed, or all are left idle."""

    def lines():
        yield from settings(1, managers, KEYS)
        everywhere = range(1, managers + 1)
        for number in range(KEYS):
            for m in everywhere:
                yield from transaction(1, m, f"g{number}.{m}", f"k{number}")[:3]
            if ends:
                yield f"1 commitall g{number} {' '.join(map(str, everywhere))}"

    answers = {"0": managers + 3 * managers * KEYS}
    if ends:
        answers["commit logged" + " committed" * managers] = KEYS
    return Workload(lines(), answers, managers * (KEYS * FULL - (KEYS if ends else 0)))


def at_branches_of_a_commit(managers):
    branches = managers * KEYS
    return Point(committed(managers, True), committed(managers, False), branches, idle(1, managers, KEYS), branches)


def logged(records):
    """One thread commits so many transactions, each with one branch, at 8 managers in turn. Where its requests are used
    up all is opened again."""

    def lines():
        yield from settings(1, 8, 1)
        for number in range(records):
            if number and number % BETWEEN == 0:
                yield "reopen"
                yield from (f"1 open {m}" for m in range(1, 9))
            manager = number % 8 + 1
            yield from transaction(1, manager, f"g{number}.{manager}", "k0")[:3]
            yield f"1 commitall g{number} {manager}"

    again = (records - 1) // BETWEEN
    answers = {"0": 8 * (1 + again) + 3 * records, "commit logged committed": records}
    if again:
        answers["reopened"] = again
    return Workload(lines(), answers, 8 * FULL - records)


def at_records(records):
    return Point(logged(records + OVER), logged(records), OVER, idle(1, 8, 1), records + OVER)


def decided(name, key, manager):
    """A branch that its manager rolls back by itself: it holds no key, and is left until it is forgotten."""
    xid = f"{name}.{manager}"
    return *transaction(1, manager, xid, key)[:4], f"1 heurrb {manager} {xid}"


def cut_short(number, managers):
    """A global transaction with a branch at each of so many managers, whose coordinator dies once it has the record."""
    for m in range(1, managers + 1):
        yield from transaction(1, m, f"g{number}.{m}", f"k{number}")[:3]
    yield f"1 commitall g{number} {' '.join(map(str, range(1, managers + 1)))} dies decided"


def reopened(left, last):
    """One branch is left decided at each of 8 managers, and then what is left beside these. All is opened again and
    resolved: last, or else when only the first 8 are there."""

    def lines():
        yield from settings(1, 8, 256)
        for m in range(1, 9):
            yield from decided("first", "k0", m)
        recovery = ("reopen", *(f"1 open {m}" for m in range(1, 9)), "1 resolve")
        yield from (*left, *recovery) if last else (*recovery, *left)

    return lines()


def left_prepared(branches, last):
    """So many branches are left prepared, as many of each global transaction as there are managers."""
    sizes = [8] * (branches // 8) + [branches % 8] * (branches % 8 > 0)
    left = [line for number, size in enumerate(sizes) for line in cut_short(number, size)]
    answers = {"0": 8 + 5 * 8 + 8 + 3 * branches, "reopened": 1}
    for size in sizes:
        answers["died commit logged" + " vote:0" * size] = sizes.count(size)
    commits = f"{branches} commit:0 " if last else ""
    answers[f"resolved {commits}8 rollback:6"] = 1
    return Workload(reopened(left, last), answers, 8 * 256 * FULL - (branches if last else 0))


def at_branches_prepared(branches):
    whole, less = left_prepared(branches, True), left_prepared(branches, False)
    return Point(whole, less, branches, idle(1, 8, 256), branches + 8)


def left_decided(branches, last):
    """So many branches are left decided, at 8 managers in turn."""
    left = [line for number in range(branches) for line in decided(f"g{number}", "k0", number % 8 + 1)]
    answers = {"0": 8 + 5 * 8 + 8 + 5 * branches, "reopened": 1}
    answers[f"resolved {branches + 8 if last else 8} rollback:6"] = 1
    return Workload(reopened(left, last), answers, 8 * 256 * FULL)


def at_branches_decided(branches):
    whole, less = left_decided(branches, True), left_decided(branches, False)
    return Point(whole, less, branches, idle(1, 8, 256), branches + 8)


SWEEPS = {
    "lines": Sweep(
        "Lines",
        "lines",
        "line",
        (1_000, 3_000, 10_000, 30_000, 100_000),
        at_lines,
        "A script has at most 100,000 lines.",
    ),
    "managers": Sweep(
        "Managers", "managers", "line", (1, 2, 4, 8), lambda m: two_phases(8, m, CALLS), "There are at most 8 managers."
    ),
    "threads": Sweep(
        "Threads", "threads", "line", (1, 2, 4, 8), lambda t: two_phases(t, 8, CALLS), "There are at most 8 threads."
    ),
    "handles": Sweep(
        "Handles", "handles of a thread", "line", (1, 2, 4, 8, 16, 32), at_handles, "A thread has at most 32 handles."
    ),
    "xids": Sweep(
        "Bytes of an xid",
        "bytes of an xid",
        "line",
        (8, 16, 32, 64, 128),
        lambda size: named(8, size),
        "A gtrid and a bqual have at most 64 bytes each.",
    ),
    "keys": Sweep(
        "Keys",
        "keys of a manager",
        "line",
        (1, 4, 16, 64, 256),
        lambda keys: named(keys, 8),
        "A manager has at most 256 keys.",
    ),
    "held": Sweep(
        "Keys held", "keys held", "line", (1, 4, 16, 64, 255), at_keys_held, "A manager has at most 256 keys."
    ),
    "alive": Sweep(
        "Branches alive",
        "branches alive",
        "line",
        (8, 80, 800, 4_000),
        at_branches_alive,
        "8 threads have room for 16,376 starts with their ends at one manager; 12,376 of them are joins, and counted.",
    ),
    "commit": Sweep(
        "Branches of a commit",
        "branches of a commit",
        "branch",
        (1, 2, 4, 8),
        at_branches_of_a_commit,
        "A commit has a branch at each of at most 8 managers.",
    ),
    "records": Sweep(
        "Records in the log",
        "records in the log",
        "commit",
        (10, 100, 1_000, 5_000, 24_000),
        at_records,
        "A script has at most 100,000 lines, and a record takes four of them.",
    ),
    "prepared": Sweep(
        "Branches left prepared",
        "branches left",
        "branch",
        (1, 8, 64, 512, 2_048),
        at_branches_prepared,
        "Each holds a key, and 8 managers have at most 256 keys each.",
    ),
    "decided": Sweep(
        "Branches left decided",
        "branches left",
        "branch",
        (1, 8, 64, 512, 4_000),
        at_branches_decided,
        "One thread may put 4,096 requests to each of 8 managers, and a branch takes five.",
    ),
}
