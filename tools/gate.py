#!/usr/bin/env -S python3 -B
"""What ./test runs in a copy of the repository: every proof of the library and the programs from nothing, the program's
stored run as two compilers build it, the edits that must fail, the tests, each script of examples/ and of tests/ against
the transcript beside it, and the checks of checks/. The last line counts. It changes the folder that it stands in: it
isn't run here."""

import contextlib
import os
import re
import subprocess
import sys
import tempfile
import time
from pathlib import Path

import rattle
from repository import ROOT, Sums, crates_run_unproved, jobs, keep, lines, programs


def counted(*command):
    """Runs a command whose last line has `N passed, M failed`, and returns the two numbers. It is one more failure where
    the command ends with a status that isn't 0, where it says nothing of the kind, and where nothing passed."""
    begin, last = time.monotonic(), ""
    with subprocess.Popen(command, cwd=ROOT, stdin=subprocess.DEVNULL, stdout=subprocess.PIPE, stderr=subprocess.STDOUT,
                          text=True, errors="replace") as ran:
        for line in ran.stdout:
            print(line, end="", flush=True)
            last = line
    found = re.search(r"(\d+) passed, (\d+) failed", last)
    passed, failed = map(int, found.groups()) if found else (0, 0)
    if not failed and (ran.returncode or not passed):
        print(f"{' '.join(command)} ended with status {ran.returncode} and {passed} passed, which is a failure")
        failed = 1
    print(f"{' '.join(command)} took {time.monotonic() - begin:.0f} seconds", flush=True)
    return passed, failed


@contextlib.contextmanager
def set_aside():
    """Meanwhile edits and most crates of tests stand elsewhere, so that rt doesn't take them: it tries each edit in a
    check of its own, over a second proof of its crate, and proves tests before it runs them."""
    listed, tests = ROOT / "crates.txt", crates_run_unproved()
    text = listed.read_text()
    folders = [*(f"{it}/must-fail" for it in lines() if (ROOT / "crates" / it / "must-fail").is_dir()), *tests]
    # (outside of the copy, where rt would find files that no check reads)
    with tempfile.TemporaryDirectory(prefix="aside-", dir=ROOT.parent) as aside:
        for folder in folders:
            (Path(aside) / folder).parent.mkdir(parents=True, exist_ok=True)
            (ROOT / "crates" / folder).rename(Path(aside) / folder)
        listed.write_text("".join(line for line in text.splitlines(True) if re.split("[ :]", line)[0] not in tests))
        yield
        listed.write_text(text)
        for folder in folders:
            (Path(aside) / folder).rename(ROOT / "crates" / folder)


def keep_what_is_built(sums):
    """Keeps the programs and the libraries that rt ci has just proved and built, so that they aren't built again."""
    for name in programs():
        keep(name, "default", sums.of(name))
    for name in lines():
        built = ROOT / "crates" / name / "out" / "rlib" / f"{name}.rlib"
        if built.is_dir():
            rattle.keep_library(name, sums.of(name), built)


def main():
    # By rt's own estimate of memory the largest crate would be held back till last.
    os.environ["RT_JOBS"] = str(jobs())
    # rt ci builds for any processor, and what it has built is what is tested.
    os.environ["XA_LEVEL"] = "default"
    sums = Sums()
    with set_aside() if rattle.is_known() else contextlib.nullcontext():
        results = [counted("rt", "ci")]
    if results[0][1] == 0:
        keep_what_is_built(sums)
        # With another kit rt has tried the edits and run the tests.
        if rattle.is_known():
            results += [counted("tools/edits.py", "--proved"), counted("tools/tests.py")]
        results += [counted("tests/run"), counted("checks/run")]
    passed, failed = map(sum, zip(*results))
    print(f"{passed} passed, {failed} failed")
    return 1 if failed else 0


if __name__ == "__main__":
    sys.exit(main())
