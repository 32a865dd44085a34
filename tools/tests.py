#!/usr/bin/env -S python3 -B
"""Runs the tests of the crates that have tests alone, or proves them.

Usage: tests.py [--prove] [CRATE..]

Without the name of a crate those are taken whose tests ./test doesn't prove. The tests are compiled with nothing proved,
with checks that stop a test where a proof would have said no, and run. With --prove they are proved, and not run: that
each test returns, and calls every function as its contract wants. The last line is 'N passed, M failed'.
"""

import re
import sys
from concurrent.futures import as_completed

import rattle
from build import prove_libraries, size
from repository import ROOT, Sums, crates_below, crates_of_tests, crates_run_unproved, jobs

# For how many seconds the tests of a crate may run.
LIMIT = "300"


def run_tests(crate, run):
    """Runs the tests of a crate, and returns how many passed, how many failed, and what is said of them."""
    status, said = run.run(ROOT / "crates" / crate, "rt", "try", "--test", "--seconds", LIMIT)
    counted = re.findall(r"(?m)^test result: \w+\. (\d+) passed; (\d+) failed", said)
    passed, failed = map(int, counted[-1]) if counted else (0, 0)
    if not failed and (status or not passed):
        failed = 1
    return passed, failed, f"ended with status {status}:\n{said}" if failed else f"{passed} tests passed"


def prove_tests(crate, run):
    """Proves the tests of a crate over the libraries that are kept, and returns what run_tests does."""
    status, said = run.prove_tests(crate, crates_below(crate))
    proved = re.search(r"^logic=proved .*\btests=(\d+)", said.splitlines()[-1])
    if status or not proved:
        return 0, 1, f"its tests aren't proved:\n{said}"
    return int(proved[1]), 0, f"{proved[1]} tests are proved"


def main(words):
    if words in (["--help"], ["-h"]):
        print(__doc__.strip())
        return 0
    to_prove, words = words[:1] == ["--prove"], words[words[:1] == ["--prove"] :]
    known = crates_of_tests()
    if not {*words} <= {*known}:
        print(f"tests: these are the crates of tests: {' '.join(known)}", file=sys.stderr)
        return 2
    crates = sorted(words or crates_run_unproved(), key=size, reverse=True)
    passed = failed = 0
    with rattle.Processes() as run:
        if to_prove:
            prove_libraries("tests", {it for crate in crates for it in crates_below(crate)} - {*crates}, run, Sums())
        with run.threads(jobs()) as pool:
            tasks = {pool.submit(prove_tests if to_prove else run_tests, crate, run): crate for crate in crates}
            for task in as_completed(tasks):
                of_passed, of_failed, said = task.result()
                print(f"{tasks[task]}: {said}", flush=True)
                passed, failed = passed + of_passed, failed + of_failed
    print(f"{passed} passed, {failed} failed")
    return 1 if failed else 0


if __name__ == "__main__":
    try:
        sys.exit(main(sys.argv[1:]))
    except KeyboardInterrupt:
        sys.exit(130)
    except (OSError, rattle.Refused) as why:
        sys.exit(f"tests: {why}")
