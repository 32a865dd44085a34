"""Counts the instructions of a script in turns by callgrind, and measures its memory by GNU time."""

import re
import statistics
import subprocess
import sys
import tempfile
from contextlib import contextmanager
from typing import NamedTuple

import workloads

# How many runs the peak memory is the median of.
RUNS = 9


class Script(NamedTuple):
    """A script's file, its lines and its bytes."""

    path: str
    lines: int
    length: int


@contextmanager
def checked(program, workload):
    """The script of a workload, once a run has shown that its calls are carried out. Where it hasn't the program ends
    with status 1."""
    with tempfile.NamedTemporaryFile("w", suffix=".xa") as script:
        lines, length = 0, 0
        for line in workload.lines:
            length += script.write(f"{line}\n")
            lines += 1
        script.flush()
        workloads.count_once(program, "turns", script.name, workload)
        yield Script(script.name, lines, length)


def run(words, script):
    """What a command says on standard error, with the script as its input."""
    with open(script.path, "rb") as lines:
        done = subprocess.run(words, stdin=lines, stdout=subprocess.DEVNULL, stderr=subprocess.PIPE, text=True)
    if done.returncode != 0:
        sys.exit(f"{words[0]} ended with status {done.returncode}:\n{done.stderr}")
    return done.stderr


def count_instructions(program, script):
    """How many instructions a run takes."""
    with tempfile.TemporaryDirectory() as folder:
        said = run(["valgrind", "--tool=callgrind", f"--callgrind-out-file={folder}/out", program, "turns"], script)
    collected = re.search(r"Collected : (\d+)", said)
    if collected is None:
        sys.exit(f"callgrind doesn't say what it collected:\n{said}")
    return int(collected[1])


def measure_memory(program, script):
    """The peak resident memory of a run in bytes. A process begins with the peak memory of the one that starts it, so
    GNU time, which is small, stands between."""
    words = ["/usr/bin/time", "--format=%M", program, "turns"]
    return 1024 * statistics.median(int(run(words, script)) for _ in range(RUNS))
