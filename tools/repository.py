"""What the scripts of this repository know of it and of the machine: which crates stand on which, what the programs are
made of, and how many checks may run at once."""

import functools
import hashlib
import os
import re
import shutil
import subprocess
from pathlib import Path

ROOT = Path(__file__).resolve().parent.parent
# What programs are built for: any processor, as rt does where it is told nothing, and those with AVX2 and what goes with
# it.
LEVELS = ("default", "x86-64-v3")
# The crates of tests that it hardly pays to run unproved: with checks their tests take longer.
PROVED_TESTS = ("test_work", "test_bank_days", "test_log_file")
# The folders of a crate that its check reads.
PARTS = ("src", "specs", "proofs")


def lines():
    """The lines of crates.txt by their crate's name, without comments."""
    found = (line.partition("#")[0].strip() for line in (ROOT / "crates.txt").read_text().splitlines())
    return {re.split("[ :]", line)[0]: line for line in found if line}


def crates_below(*names):
    """The repository's crates that these stand on, and these, lowest first, each with its line of crates.txt."""
    known, found = lines(), {}

    def visit(name):
        if name in known and name not in found:
            for lower in known[name].partition(":")[2].split():
                visit(lower)
            found[name] = known[name]

    for name in names:
        visit(name)
    return found


def programs():
    """The names of the crates that are programs."""
    return [name for name in lines() if (ROOT / "crates" / name / "src" / "main.rt").is_file()]


def crates_of_tests():
    """The names of the crates that have tests and nothing else: these are no programs, and nothing stands on them."""
    known = lines()
    used = {name for line in known.values() for name in line.partition(":")[2].split()}
    return [name for name in known if name.startswith("test_") and name not in {*used, *programs()}]


def crates_run_unproved():
    """The crates of tests whose tests ./test runs without a proof: to prove them takes twice to seven times as long. Of the
    others rt proves the tests, and runs them."""
    return [name for name in crates_of_tests() if name not in PROVED_TESTS]


def level():
    """The level of processors that programs are built for on this machine."""
    return subprocess.run([ROOT / "tools" / "level"], check=True, stdout=subprocess.PIPE, text=True).stdout.strip()


@functools.cache
def kit():
    """The folder of the kit whose rt is at hand."""
    return Path(shutil.which("rt")).resolve().parent.parent


def text_sum(crate):
    """The sum of a crate's own text: its line of crates.txt, and the files that its check reads."""
    found = hashlib.sha256(lines()[crate].encode())
    for part in PARTS:
        for file in sorted((ROOT / "crates" / crate / part).rglob("*")):
            if file.is_file():
                text = file.read_bytes()
                found.update(f"\n{file.relative_to(ROOT)} {len(text)}\n".encode())
                found.update(text)
    return found.hexdigest()


class Sums:
    """What crates are made of, as it was when this was first asked for: the text of each is read once."""

    def __init__(self):
        self.texts = {}

    def text(self, crate):
        if crate not in self.texts:
            self.texts[crate] = text_sum(crate)
        return self.texts[crate]

    def of(self, crate):
        """The sum of all that is proved with a crate: the kit, its own text, and that of what it stands on."""
        below = "".join(f"{it} {self.text(it)}\n" for it in sorted(crates_below(crate)))
        return hashlib.sha256(((kit() / "KIT-ID").read_text() + below).encode()).hexdigest()

    def is_now(self, crate):
        """Whether the crate's own text is still the same."""
        return self.text(crate) == text_sum(crate)


def program(name, level):
    """Where the program of this crate is, as it is built for this level. One of another level stands apart."""
    return ROOT / "out" / level / name


def stamp(made_of, built):
    """What is written beside a program that is built of this: that, and the program's own sum."""
    return f"{made_of} {hashlib.sha256(built.read_bytes()).hexdigest()}\n"


def keep(name, level, made_of, built=None):
    """Keeps a program that was built of this for this level, by rt where no file is named, if it was built."""
    built, kept = built or ROOT / "crates" / name / "out" / name, program(name, level)
    if not built.is_file():
        return
    kept.parent.mkdir(parents=True, exist_ok=True)
    new = kept.with_name(f"{name}.new")
    shutil.copy2(built, new)
    kept.with_name(f"{name}.made").unlink(missing_ok=True)
    new.replace(kept)
    kept.with_name(f"{name}.made").write_text(stamp(made_of, kept))


def is_fresh(name, level, sums=None):
    """Whether the program was built for this level of what is there now."""
    kept = program(name, level)
    try:
        return kept.with_name(f"{name}.made").read_text() == stamp((sums or Sums()).of(name), kept)
    except FileNotFoundError:
        return False


def processors():
    """How many processors there are to use."""
    return len(os.sched_getaffinity(0))


def jobs():
    """How many checks may run at once: as many as there are processors, with 4 GB of free memory for each."""
    with open("/proc/meminfo") as memory:
        free = int(re.search(r"MemAvailable:\s+(\d+) kB", memory.read())[1])
    return max(1, min(processors(), free // 4_000_000))
