#!/usr/bin/env python3
"""Refuses memory and threads, one in each run: growths.py TOP XASWITCH XA_GROWTHS REFUSE.

TOP is the repository, the next two are its programs, and REFUSE is what refuse.c is compiled to. The first growth of
memory of a run is refused, then in another run the second, and so on, until a run meets no refusal. Each refusal has to
show: the program ends with status 3 and writes nothing but `out of memory`; a call of a library makes nothing, and
succeeds when it is made again. Then threads are refused in the same way. It prints how many growths and threads each
subject has, and fails where one was passed over and where there were none.
"""
import itertools
import os
import subprocess
import sys
import tempfile

# Seconds that one run may take.
TIME = 60

OUT_OF_MEMORY = (3, b"", b"out of memory\n")

# Scripts that are run whole, and how.
SCRIPTS = [
    ("turns", "examples/transfer"),
    ("threads", "examples/transfer"),
    ("turns", "tests/completing/any_completion_is_collected"),
    ("turns", "tests/shut/what_stands_after_a_shut_is_late"),
    ("turns", "tests/resolving/what_has_no_record_is_rolled_back"),
    ("turns", "tests/commitall/a_transfer_over_three_managers_commits"),
]

# The last of them shows this instead where memory for the record of its commit is refused: that is a failed append.
UNLOGGED = b"""18 1 abort unlogged rolledback readonly rolledback
19 1 -4
20 1 abort unlogged left:-4
value 1 a 5
value 3 c 5
"""

# What takes memory in the libraries, and what comes of it. Each is done again where it was refused.
THINGS = {
    "manager": b"made",
    "lane": b"made",
    "desk": b"made",
    "worker": b"made",
    "switch": b"made",
    "reopen": b"made",
    "resolve": b"made",
    "settle": b"made",
    "append": b"made",
    "commit": b"made",
}

# What takes none: all calls from an opening on, and pieces of two openings or without a worker, which aren't settled.
MEMORYLESS = {"calls": b"made", "strangers": b"stranger", "missing": b"missing"}


class Machine:
    """Runs programs that are refused memory or a thread."""

    def __init__(self, refuse, scratch):
        self.refuse, self.counts = refuse, f"{scratch}/counts"

    def run(self, words, script=b"", **refused):
        """A run's status and both its outputs, and how many growths and threads it had."""
        env = {"LD_PRELOAD": self.refuse, "COUNTS": self.counts} | {name: str(k) for name, k in refused.items()}
        ran = subprocess.run(words, input=script, capture_output=True, timeout=TIME, env=env)
        with open(self.counts) as counts:
            growths, threads = map(int, counts.read().split())
        os.remove(self.counts)
        return (ran.returncode, ran.stdout, ran.stderr), growths, threads

    def sweep(self, name, words, script, usual, refusals, what="REFUSED_GROWTH", **how):
        """Whether each refusal shows one of these, and each of these is shown, until a run has the usual end."""
        seen = set()
        for k in itertools.count(1):
            ran, *counts = self.run(words, script, **{what: k}, **how)
            count = counts[what == "REFUSED_THREAD"]
            if count < k:
                break
            if ran not in refusals:
                print(f"growths: {name}: number {k} was refused, and then {ran}")
                return False
            seen.add(ran)
        print(f"growths: {name}: {k - 1} refused")
        if ran != usual:
            print(f"growths: {name}: nothing was refused, and then {ran}")
        return ran == usual and len(seen) == len(refusals)


def main(top, xaswitch, test_growths, refuse, scratch):
    machine = Machine(refuse, scratch)

    def stored(path):
        return open(f"{top}/{path}.xa", "rb").read(), open(f"{top}/{path}.out", "rb").read()

    def sweeps():
        for mode, path in SCRIPTS:
            script, shown = stored(path)
            refusals = [OUT_OF_MEMORY]
            if path == SCRIPTS[-1][1]:
                head = b"".join(shown.splitlines(True)[:-5])
                refusals.append((0, head + UNLOGGED, b""))
            yield machine.sweep(f"{path} in {mode}", [xaswitch, mode], script, (0, shown, b""), refusals)
        usage = b"usage: xaswitch turns or threads\n"
        yield machine.sweep("a wrong word", [xaswitch, "turn"], b"", (2, b"", usage), [OUT_OF_MEMORY])
        fault = b"line 2: unknown word\n"
        yield machine.sweep("a faulty script", [xaswitch, "turns"], b"1 open 1\n1 fly 1\n", (1, b"", fault), [OUT_OF_MEMORY])
        for thing, line in THINGS.items():
            refusals = [(0, b"now\nrefused\n" + line + b"\n", b"")]
            if thing == "commit":
                refusals.append((0, b"now\naborted\n", b""))
            usual = (0, b"now\n" + line + b"\n", b"")
            yield machine.sweep(thing, [test_growths, thing], b"", usual, refusals, BETWEEN_LINES=1)
        # All threads of a script and its managers' workers, two and eight.
        for limit, count in ((1, 2), (8, 16)):
            script = f"threads {limit}\nmanagers {limit}\n".encode()
            name = f"{count} threads"
            yield machine.sweep(name, [xaswitch, "threads"], script, (0, b"", b""), [OUT_OF_MEMORY], "REFUSED_THREAD")
        for thing, line in MEMORYLESS.items():
            ran, growths, threads = machine.run([test_growths, thing], BETWEEN_LINES=1)
            print(f"growths: {thing}: {growths}")
            yield (ran, growths, threads) == ((0, b"now\n" + line + b"\n", b""), 0, 0)

    return 0 if all(list(sweeps())) else 1


if __name__ == "__main__":
    with tempfile.TemporaryDirectory() as folder:
        sys.exit(main(*sys.argv[1:], folder))
