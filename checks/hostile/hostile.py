#!/usr/bin/env python3
"""Runs the program on hostile scripts, in turns and in threads: hostile.py PROGRAM SEED COUNT.

Each run has to end within its time. What it tells of a script with a fault has to be what the grammar says, and its
transcript of any other what the rules say (../transcript.py): in turns to the byte, and the same once more; in threads
what some order of all that the threads asked would show. The judge has to find nothing wrong with the transcripts that
are stored in the repository. It prints how many scripts there were, how many of them the program took, and how often
each fault was told. It fails where a run does something else, and where some fault was never told or some word never
shown. The scripts of one seed are always the same.
"""
import collections
import concurrent.futures
import functools
import glob
import itertools
import os
import random
import re
import subprocess
import sys

CHECKS = os.path.dirname(os.path.dirname(os.path.abspath(__file__)))
sys.path.insert(0, CHECKS)
sys.dont_write_bytecode = True

import transcript

# Seconds that one run may take: a script of 100,000 lines takes under one.
TIME = 30
# How many scripts are made at once.
BATCH = 1000

FAULTS = """line too long, bad byte, too many lines, unknown word, missing word, extra word, bad number, out of range,
bad key, bad xid, setting after action, setting twice, key twice, too many keys, bad branches, turn in threads mode,
reopen in threads mode"""
FAULTS = re.split(r",\s+", FAULTS)

# What transcripts have to show somewhere.
SHOWN = """refused committed readonly rolledback heur:6 heur:7 left:-4 left:-6 left:-7 logged unlogged
died undecided vote:0 vote:3 vote:-4 vote:-6 vote:-7 did late empty reopened resolved handle 0 6 7 100 103 107 -2 -3 -4 -5 -6 -7 -8""".split()

# Each line of the grammar, each word of which is replaced by each word below.
LINES = """threads 2
managers 2
handles 4
queue 8
requests 256
sync 1
logfail 1 1
logunknown 1 1 kept
logunknown 1 2 lost
key 1 a 100
1 open 1 async
1 close 1
1 start 1 g.1 join
1 start 1 g.1 resume async
1 add 1 a -30
1 end 1 g.1 success
1 end 1 g.1 suspend
1 end 1 g.1 fail
1 prepare 1 g.1
1 commit 1 g.1 onephase
1 rollback 1 g.1
1 forget 1 g.1 async
1 heurcom 1 g.1
1 heurrb 1 g.1 async
1 shut 1
1 complete 1 1 nowait
1 complete 0 0 multiple
1 commitall g 1 2
1 commitall g 1 2 dies prepared 1
1 commitall g 1 dies decided
1 commitall g 1 2 dies told 1
1 recover 1 4 startrscan endrscan
1 resolve
turn 1
reopen
# a comment""".split("\n")

LIMITS = [1, 2, 4, 8, 16, 32, 64, 256, 512, 4096, 100_000, 1_000_000, 10**12]
LIMITS += [2**31 - 1, 2**32 - 1, 10**18 - 1, 2**63, 2**64]
NUMBERS = sorted({str(limit + by) for limit in LIMITS for by in (-1, 0, 1)})
NUMBERS += ["-1", "-0", "00", "01", "+1", "1e3", "0x1", "--1", "1.", "-" + "9" * 18, "9" * 19, "0" * 18 + "1"]
NAMES = ["a", "z9", "0", "k" * 16, "k" * 17, "A", "g.1", "g", ".1", "g.", "g.1.1", "g.A", "g-1", "é"]
NAMES += ["g" * 64 + ".1", "g" * 65 + ".1", "g." + "b" * 64, "g." + "b" * 65]
WORDS = sorted({word for line in LINES for word in line.split()}) + NUMBERS + NAMES + ["#", "1#", ""]


def replaced():
    """Each line of the grammar with each word at each place, one left out, and one too many."""
    for line in LINES:
        words = line.split(" ")
        for place in range(len(words) + 1):
            for word in WORDS:
                yield " ".join(words[:place] + [word] + words[place + 1 :])
            yield " ".join(words[:place] + words[place + 1 :])


REPLACED = sorted(set(replaced()))


def stored():
    """The scripts of the repository, each with its name and its transcript."""
    top = os.path.dirname(CHECKS)
    for path in sorted(glob.glob(f"{top}/examples/*.xa") + glob.glob(f"{top}/tests/*/*.xa")):
        with open(path, "rb") as script, open(f"{path[:-3]}.out", "rb") as shown:
            yield path, script.read(), shown.read()


# The Rollback whose code died with its coordinator comes after thread 1's End, and before its Prepare.
LATE_ROLLBACK = b"""# In threads alone.
threads 2
managers 1
1 open 1
2 open 1
1 start 1 g.1
1 end 1 g.1 success
1 prepare 1 g.1
2 commitall g 1 dies told 1
"""
SHOWS_LATE_ROLLBACK = b"""4 1 0
6 1 0
7 1 0
8 1 -4
5 2 0
9 2 died abort unlogged vote:-6
"""


def count_misjudged():
    """How many of the stored transcripts, which were worked out by hand, are judged to be wrong."""
    count = 0
    for path, script, shown in (*stored(), ("a late Rollback", LATE_ROLLBACK, SHOWS_LATE_ROLLBACK)):
        mode = "threads" if b"# In threads alone." in script else "turns"
        what, why, _ = transcript.judge(script, mode, (0, shown, b""))
        if (what, why) != ("taken", None):
            print(f"hostile: {path}: judged to be wrong: {what}, {why}")
            count += 1
    return count


SCANS = ["", " startrscan", " startrscan", " startrscan endrscan", " endrscan"]
SETTINGS = ["sync 1", "sync 2", "logfail 1 1", "logfail 2 2", "key 1 a 5", "key 1 b 0", "key 2 a 1"]
SETTINGS += ["key 2 b 1000000000000", "logunknown 1 1 kept", "logunknown 2 1 lost", "logunknown 3 2 kept"]


def a_line(rnd):
    if rnd.random() < 0.4:
        return rnd.choice(REPLACED)
    words = rnd.choice(LINES).split(" ")
    while rnd.random() < 0.3:
        words[rnd.randrange(len(words))] = rnd.choice(WORDS)
    return " ".join(words)


def a_death(rnd):
    """Where the coordinator of a commit dies, if it does."""
    if rnd.random() < 0.6:
        return ""
    in_rounds = [f"prepared {rnd.randint(0, 2)}", f"told {rnd.randint(0, 2)}"]
    return " dies " + rnd.choice(["prepared", "decided", "told", *in_rounds, *in_rounds])


def a_call(rnd):
    """A line that is mostly in the grammar, for few threads, managers and branches, so that much of it comes to run."""
    t, m = rnd.choice("112233"), rnd.choice("111222" + "9" * (rnd.random() < 0.02))
    xid, flags = rnd.choice("gh") + "." + m, rnd.choice(["", "", "", " async", " async", " join"])
    other = f"{t} open {m}"
    return rnd.choice([
        f"{t} open {m}{flags}",
        f"{t} open {m}{flags}",
        f"{t} start {m} {xid}{flags}",
        f"{t} start {m} {xid}{flags}",
        f"{t} add {m} {rnd.choice('ab')} {rnd.randint(-3, 3)}{flags}",
        f"{t} end {m} {xid} {rnd.choice(['success', 'suspend', 'fail'])}{flags}",
        f"{t} end {m} {xid} success",
        f"{t} prepare {m} {xid}{flags}",
        f"{t} commit {m} {xid}{rnd.choice(['', ' onephase'])}{flags}",
        f"{t} rollback {m} {xid}{flags}",
        f"{t} {rnd.choice(['forget', 'heurcom', 'heurrb'])} {m} {xid}{flags}",
        f"{t} close {m}{flags}",
        f"{t} commitall {rnd.choice('gh')} 1 2{a_death(rnd)}",
        f"{t} commitall {xid[0]} {m}{a_death(rnd)}",
        f"{t} complete {m} {rnd.randint(0, 4)}{rnd.choice([' nowait', ' nowait multiple', ' multiple', ''])}",
        f"{t} complete 0 0 multiple{rnd.choice(['', ' nowait'])}",
        f"{t} shut {m}{flags}" if rnd.random() < 0.1 else other,
        f"turn {m}" if rnd.random() < 0.3 else "",
        f"{t} recover {m} {rnd.randint(0, 3)}{rnd.choice(SCANS)}",
        "reopen" if rnd.random() < 0.2 else other,
        f"{t} resolve" if rnd.random() < 0.5 else other,
    ])


def a_run(rnd):
    """A script of calls over small limits."""
    head = ["threads 3", "managers 2", f"handles {rnd.randint(1, 4)}", f"queue {rnd.randint(1, 3)}"]
    head += [f"requests {rnd.choice([3, 20, 256])}", *rnd.sample(SETTINGS, rnd.randint(0, 8))]
    calls = [a_call(rnd) for _ in range(rnd.randint(1, 120))]
    if rnd.random() < 0.5:
        # It comes to run in threads too.
        calls = [call for call in calls if not call.startswith(("turn", "reopen"))]
    return "\n".join(head + calls).encode()


def an_end(rnd, t, g):
    """What becomes of a transaction once a thread has worked for its branches."""
    commits, other = f"{t} commitall {g} 1 2{a_death(rnd)}", rnd.choice("123")
    at = [f"{g}.1", f"{g}.2"]
    prepares = [f"{t} prepare 1 {at[0]}", f"{other} prepare 2 {at[1]}"]
    decides = f"{other} {rnd.choice(['heurcom', 'heurrb'])} 1 {at[0]}"
    shuts = f"3 shut 2{rnd.choice(['', ' async'])}"
    outcome = rnd.choice(["commit", "rollback"])
    return rnd.choice([
        [commits, commits],
        [commits, f"{t} complete 0 0 multiple", f"{t} resolve"],
        [prepares[0], f"{t} commitall {g} 1 2 dies prepared 1", decides, f"{t} complete 2 1"],
        [prepares[0], decides, commits],
        [*prepares, decides, f"{other} {outcome} 1 {at[0]}", f"{t} forget 1 {at[0]}", f"{t} {outcome} 2 {at[1]}"],
        [shuts, commits, f"{t} open 2"],
        ["3 shut 2 async", f"{t} open 2 async", *["turn 2"] * 4],
        [prepares[1], shuts, f"{other} {outcome} 2 {at[1]} async", f"{t} open 2", commits],
        [*prepares, f"{other} resolve", f"{other} open 1", f"{other} recover 1 2 startrscan", f"{t} resolve"],
    ])


def a_history(rnd):
    """A script in which two threads work each for a transaction and bring it to its end, and a third comes between."""
    head = ["threads 3", "managers 2", f"queue {rnd.randint(1, 4)}"]
    head += [f"logunknown {rnd.choice('12')} 1 {rnd.choice(['kept', 'lost'])}"] * (rnd.random() < 0.5)
    head += [f"key {m} {key} 5" for m in "12" for key in "ab"]
    plans, lines = [], []
    for t, g in ("1g", "2h"):
        plan = [f"{t} open 1", f"{t} open 2"]
        for m in "12":
            work = f"{t} add {m} {rnd.choice('ab')} {rnd.randint(-6, 3)}"
            plan += [f"{t} start {m} {g}.{m}", *[work] * rnd.randint(0, 2), f"{t} end {m} {g}.{m} success"]
        plans.append(plan + an_end(rnd, t, g))
    between = ["turn 1", "turn 2", "reopen", "1 resolve"] if rnd.random() < 0.5 else ["3 open 1"]
    while plans := [plan for plan in plans if plan]:
        line = rnd.choice(plans).pop(0)
        is_call = "commitall" not in line and "resolve" not in line and "recover" not in line
        lines.append(line + " async" * (is_call and "async" not in line and rnd.random() < 0.2))
        lines += [rnd.choice([*between, a_call(rnd)])] * (rnd.random() < 0.2)
    return "\n".join(head + lines).encode()


def mutated(rnd, script):
    """A script with some bytes, lines or words changed."""
    script = bytearray(script)
    for _ in range(rnd.randint(1, 4)):
        at = rnd.randint(0, len(script))
        match rnd.randrange(7):
            case 0:
                script[at:at] = bytes([rnd.randrange(256)])
            case 1:
                del script[at : at + rnd.randint(1, 9)]
            case 2:
                script[at : at + 1] = bytes([rnd.randrange(256)])
            case 3:
                script[at:at] = rnd.choice([b"\r", b"\n", b"\r\n", b"\t", b"  ", b"\0", b"\n\n"])
            case 4:
                lines = script.split(b"\n")
                lines.insert(rnd.randint(0, len(lines)), rnd.choice(lines))
                script = bytearray(b"\n".join(lines))
            case 5:
                words = re.split(rb"(\s+)", bytes(script))
                words[rnd.randrange(len(words))] = rnd.choice(WORDS).encode()
                script = bytearray(b"".join(words))
            case 6:
                script = script[:at]
    return bytes(script)


def long_line(rnd):
    """A line about as long as one may be."""
    line = rnd.choice(["# ", "1 open 1 ", "1 open 1 async ", "key 1 a 1"]) + rnd.choice(["x", " ", "async "]) * 600
    line = line[: rnd.randint(510, 515)].encode()
    return rnd.choice([b"", b"1 open 1\n"]) + line + rnd.choice([b"", b"\n", b"\r", b"\r\n", b"\r\r\n", b"\x7f\n"])


def long_script(rnd):
    """A script of about as many lines as there may be."""
    line = rnd.choice([b"", b"#", b"turn 1", b"1 open 1", b"\r"])
    return (line + b"\n") * rnd.randint(99_999, 100_001) + rnd.choice([b"", b"\r", b"1 open 1", b"\x01"])


def bytes_alone(rnd):
    return bytes(rnd.randrange(256) for _ in range(rnd.randint(0, 40)))


def many_keys(rnd):
    """About as many keys as a manager may have, or a key that stands twice."""
    last = rnd.choice(["", "", f"key 1 k{rnd.randint(0, 250)} 1"])
    return "\n".join([f"key 1 k{n} 1" for n in range(rnd.randint(253, 258))] + [last, "1 open 1"]).encode()


# Faults that are rare in all other scripts.
RARE = [b"threads 2\nthreads 2", b"key 1 a 1\nkey 1 a 1", b"1 add 1 A 1", b"1 commitall g 2 1", b"key 1 a 1 1"]
RARE += [b"1 start 1 g", b"\n" * 100_000 + b"1 open 1", b"\n".join(b"key 1 k%d 1" % key for key in range(257))]


def scripts(seed, count):
    """The scripts of a seed."""
    rnd, known = random.Random(seed), [script for _, script, _ in stored()]
    ways = [
        (30, lambda: "\n".join(a_line(rnd) for _ in range(rnd.randint(1, 3))).encode()),
        (30, lambda: a_run(rnd)),
        (30, lambda: a_history(rnd)),
        (20, lambda: mutated(rnd, rnd.choice(known))),
        (5, lambda: mutated(rnd, a_run(rnd))),
        (6, lambda: long_line(rnd)),
        (2, lambda: bytes_alone(rnd)),
        (1, lambda: many_keys(rnd)),
        (0.2, lambda: long_script(rnd)),
        (6, lambda: rnd.choice(RARE)),
    ]
    for line in rnd.sample(REPLACED, min(len(REPLACED), count // 4)):
        yield line.encode()
    for _ in range(count - min(len(REPLACED), count // 4)):
        yield rnd.choices([way for _, way in ways], [weight for weight, _ in ways])[0]()


def run(program, mode, script):
    """A run's status and its outputs."""
    ran = subprocess.run([program, mode], input=script, capture_output=True, timeout=TIME)
    return ran.returncode, ran.stdout, ran.stderr


def judge(program, script):
    """What came of a script's runs: how often each fault was told and it was taken, the words that were shown, how many
    transcripts in threads were not judged to the end, and what is wrong."""
    told, shown, unjudged, wrong = collections.Counter(), set(), 0, []
    for mode in ("turns", "threads"):
        try:
            came = run(program, mode, script)
            is_same = mode == "threads" or came == run(program, mode, script)
        except subprocess.TimeoutExpired:
            wrong.append(f"{mode}: not ended after {TIME} seconds")
            continue
        what, why, is_judged = transcript.judge(script, mode, came)
        told[what] += 1
        for line in came[1].decode("latin-1").splitlines():
            words = line.split()
            shown.update([] if words[:1] == ["value"] else words[2:] + words[-1:])
        unjudged += not is_judged
        wrong += [f"{mode}: {why}"] if why else []
        wrong += [] if is_same else [f"{mode}: a second run showed something else"]
    return told, shown, unjudged, wrong


def main(program, seed, count):
    told, shown, unjudged, failed = collections.Counter(), set(), 0, count_misjudged()
    source = scripts(seed, count)
    with concurrent.futures.ProcessPoolExecutor(os.cpu_count()) as pool:
        while batch := list(itertools.islice(source, BATCH)):
            results = pool.map(functools.partial(judge, program), batch, chunksize=8)
            for script, (told_here, shown_here, unjudged_here, wrong) in zip(batch, results):
                told.update(told_here)
                shown |= shown_here
                unjudged += unjudged_here
                failed += bool(wrong)
                for why in wrong:
                    print(f"hostile: {why}, at {script[:400]!r}")
    never = [it for it in ["taken", *FAULTS] if not told[it]] + [it for it in SHOWN if it not in shown]
    counts = ", ".join(f"{it} {n}" for it, n in told.most_common())
    print(f"hostile: {count} scripts of seed {seed}, each in both modes; {counts}")
    print(f"hostile: {failed} scripts failed; of {unjudged} transcripts in threads the order wasn't found in time")
    if never:
        print(f"hostile: never told or shown: {', '.join(never)}")
    return 1 if failed or never or unjudged > told["taken"] // 20 else 0


if __name__ == "__main__":
    sys.exit(main(sys.argv[1], int(sys.argv[2]), int(sys.argv[3])))
