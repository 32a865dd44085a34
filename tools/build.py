#!/usr/bin/env -S python3 -B
"""Proves a program of this repository and all that it stands on, and builds it for a level of processors: build.py NAME
LEVEL. Nothing is written to standard output; how far it is goes to standard error."""

import fcntl
import functools
import shutil
import sys
import time
from concurrent.futures import FIRST_COMPLETED, wait

import rattle
from rattle import Refused
from repository import LEVELS, PARTS, ROOT, Sums, crates_below, is_fresh, jobs, keep, program, programs

# What is said of a program that is built.
BUILT_FOR = {
    "default": "for any processor",
    "x86-64-v3": "for x86-64-v3, the level of this machine: older processors can't run it",
}


@functools.cache
def size(crate):
    """How much text a crate has. What has more takes longer to prove, by and large."""
    parts = (ROOT / "crates" / crate / part for part in PARTS)
    return sum(file.stat().st_size for part in parts for file in part.rglob("*") if file.is_file())


class Plan:
    """In which order crates are proved, as many at a time as there is room for."""

    def __init__(self, crates):
        self.below = {crate: [it for it in crates_below(crate) if it != crate] for crate in crates}
        self.room = jobs()

    def chain(self, crate):
        """How much there is to prove one after the other, from this crate up to the last that stands on it."""
        above = (self.chain(it) for it, below in self.below.items() if crate in below)
        return size(crate) + max(above, default=0)

    def ready(self, done, begun):
        """Those that can begin once these are done, those first on which the longest chain stands."""
        free = (it for it in self.below if it not in begun and done.issuperset(self.below[it]))
        return sorted(free, key=self.chain, reverse=True)


class Progress:
    """What is said of how far it is."""

    def __init__(self, name, total, done):
        self.name, self.total, self.done, self.begun = name, total, done, time.monotonic()

    def say(self, text):
        print(f"{self.name}: {text}", file=sys.stderr, flush=True)

    def begin(self):
        kept = f"; {self.done} of them were before, and are kept" if self.done else ""
        self.say(f"{self.total} crates have to be proved first{kept}")

    def proved(self, crate):
        self.done += 1
        self.say(f"{crate} is proved, {self.done} of {self.total}, after {self.time()}")

    def time(self):
        seconds = int(time.monotonic() - self.begun)
        return f"{seconds // 60} min {seconds % 60:02} s"


def prove(run, plan, kept, sums, progress):
    """Proves the plan's crates that aren't kept, each as soon as all below it are proved, and keeps their libraries.
    Each is one process, or two where there are processors enough for all that can be proved: two take three quarters of
    the time, and a fifth more of the processors', and four hardly less time than two."""
    lines, done, running = crates_below(*plan.below), set(kept), {}
    with run.threads(plan.room) as pool:
        while len(done) < len(plan.below):
            ready = plan.ready(done, done | {*running.values()})[: plan.room - len(running)]
            count = 2 if plan.room >= 2 * (len(running) + len(ready)) else 1
            running |= {pool.submit(run.build_library, crate, lines, sums, count): crate for crate in ready}
            for task in wait(running, return_when=FIRST_COMPLETED).done:
                task.result()
                done.add(running[task])
                progress.proved(running.pop(task))


def prove_libraries(name, crates, run, sums):
    """Proves these crates and all that they stand on, for what is called by this name, and keeps their libraries."""
    plan = Plan(crates_below(*crates))
    kept = {crate for crate in plan.below if rattle.has_library(crate, sums)}
    progress = Progress(name, len(plan.below), len(kept))
    if len(kept) < len(plan.below):
        progress.begin()
    prove(run, plan, kept, sums, progress)


def prove_program(name, level, run, sums):
    """Proves the program and all below it that isn't kept, and keeps the program."""
    below, folder, built = crates_below(name), ROOT / "crates" / name, program(name, level).with_suffix(".built")
    plan = Plan([crate for crate in below if crate != name])
    kept = {crate for crate in plan.below if rattle.has_library(crate, sums)}
    progress = Progress(name, len(below), len(kept))
    progress.begin()
    prove(run, plan, kept, sums, progress)
    run.build_program(folder, below[name], below, built, level, min(2, plan.room))
    if not all(sums.is_now(crate) for crate in below):
        raise Refused("files were changed meanwhile")
    keep(name, level, sums.of(name), built)
    built.unlink()
    progress.say(f"built {BUILT_FOR[level]}, after {progress.time()}")


def prove_by_rt(name, level, run, sums):
    """The same by rt's own words, which prove one crate after the other and keep their proofs too."""
    folder, made_of = ROOT / "crates" / name, sums.of(name)
    arguments = folder / "args"
    words = arguments.read_text().split() if arguments.exists() else ()
    print(f"{name}: rt proves it and what it stands on; this kit has no faster way", file=sys.stderr, flush=True)
    run.must(folder, "rt", "run", *(() if level == "default" else ("--cpu", level)), "--", *words)
    if not all(sums.is_now(crate) for crate in crates_below(name)):
        raise Refused("files were changed meanwhile")
    keep(name, level, made_of)


def refuse(why):
    """Ends with the status of words that aren't known."""
    print(f"build: {why}", file=sys.stderr)
    sys.exit(2)


def main(name, level):
    if name not in programs():
        refuse(f"{name} is no program; these are: {' '.join(programs())}")
    if level not in LEVELS:
        refuse(f"{level} is no level; these are: {' '.join(LEVELS)}")
    if not shutil.which("rt"):
        sys.exit(f"{name}: not built: the Rattle kit is needed, and its command rt isn't there")
    if is_fresh(name, level, Sums()):
        return
    (ROOT / "out").mkdir(exist_ok=True)
    with open(ROOT / "out" / "build.lock", "w") as lock:
        # One build at a time; whoever waited mostly finds the program built.
        try:
            fcntl.flock(lock, fcntl.LOCK_EX | fcntl.LOCK_NB)
        except BlockingIOError:
            print(f"{name}: waits for another build", file=sys.stderr, flush=True)
            fcntl.flock(lock, fcntl.LOCK_EX)
        sums = Sums()
        try:
            if not is_fresh(name, level, sums):
                with rattle.Processes() as run:
                    (prove_program if rattle.is_known() else prove_by_rt)(name, level, run, sums)
        except (OSError, Refused) as why:
            sys.exit(f"{name}: not built: {why}")


if __name__ == "__main__":
    try:
        main(*sys.argv[1:])
    except KeyboardInterrupt:
        sys.exit(130)
