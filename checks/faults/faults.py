#!/usr/bin/env python3
"""Runs the program on scripts whose first fault is known, on others, and on wrong words: faults.py PROGRAM.

A fault is told in both modes, alone, with status 1 and nothing on standard output. What is shown of a script without
one is judged by ../transcript.py. Words other than `turns` or `threads` give the usage and status 2, and no script is
read: the one that stands there has a fault.
"""
import concurrent.futures
import os
import pathlib
import subprocess
import sys

sys.path.insert(0, os.path.dirname(os.path.dirname(os.path.abspath(__file__))))
sys.dont_write_bytecode = True

import transcript

HELP = pathlib.Path(__file__).resolve().parent.parent.parent / "tools" / "xaswitch.help"


def keys(count):
    """Lines that declare so many keys."""
    return "".join(f"key 1 k{n} {n}\n" for n in range(count))


FAULTY = [
    ("#" * 513, "line 1: line too long"),
    ("#" * 7 + "\x7f" + "#" * 505, "line 1: line too long"),
    ("#" * 512 + "\x7f", "line 1: line too long"),
    ("# \x7f", "line 1: bad byte"),
    ("\n#\x00\n", "line 2: bad byte"),
    ("1 open 1\r \n", "line 1: bad byte"),
    ("1 open 1\r\r\n", "line 1: bad byte"),
    ("# \x7f\nfly\n", "line 1: bad byte"),
    *(("\n" * 100_000 + last, "line 100001: too many lines") for last in ["\n", "\r", "#", "\x7f", "\x7f" * 600]),
    ("\n# a\n \t\r\nfoo\n", "line 4: unknown word"),
    ("thread 2\n", "line 1: unknown word"),
    ("1 shuts 1\n", "line 1: unknown word"),
    ("1 shut 1 g.1\n", "line 1: unknown word"),
    ("1 open 1 Join\n", "line 1: unknown word"),
    ("1 open 1 success 1\n", "line 1: unknown word"),
    ("1x open 1\n", "line 1: unknown word"),
    ("fly\n# \x7f\n", "line 1: unknown word"),
    ("1 commitalls t 1\n", "line 1: unknown word"),
    ("logfails 1 1\n", "line 1: unknown word"),
    ("logunknowns 1 1 kept\n", "line 1: unknown word"),
    ("logunknown 1 1 fly\n", "line 1: unknown word"),
    ("logunknown 1 1 Kept lost\n", "line 1: unknown word"),
    ("logunknown 1 1 1\n", "line 1: unknown word"),
    ("1 commitall t 1 dies fly\n", "line 1: unknown word"),
    ("1 commitall t 1 dies 1\n", "line 1: unknown word"),
    ("1 commitall t 1 dies dies\n", "line 1: unknown word"),
    ("1 commitall t 2 dies Told 8 8\n", "line 1: unknown word"),
    ("dies prepared\n", "line 1: unknown word"),
    ("1 dies prepared\n", "line 1: unknown word"),
    ("1 open 1 dies\n", "line 1: unknown word"),
    ("1 open 1 fast", "line 1: unknown word"),
    ("key\n", "line 1: missing word"),
    ("key 1 a\n", "line 1: missing word"),
    ("threads\n", "line 1: missing word"),
    ("1\n", "line 1: missing word"),
    ("1 open", "line 1: missing word"),
    ("1 start 1\n", "line 1: missing word"),
    ("1 rollback 1\n", "line 1: missing word"),
    ("1 forget 1", "line 1: missing word"),
    ("1 heurcom 1\n", "line 1: missing word"),
    ("1 heurrb", "line 1: missing word"),
    ("1 recover\n", "line 1: missing word"),
    ("1 recover 1", "line 1: missing word"),
    ("1 heur 1 g.1", "line 1: unknown word"),
    ("recover 1 4\n", "line 1: unknown word"),
    ("1 reopen\n", "line 1: unknown word"),
    ("resolve\n", "line 1: unknown word"),
    ("1 resolves\n", "line 1: unknown word"),
    ("1 recover 1 4 4", "line 1: unknown word"),
    ("1 recover 1 4 endscan", "line 1: unknown word"),
    ("1 forget 1 g", "line 1: bad xid"),
    ("1 heurcom x g.1", "line 1: bad number"),
    ("1 shut\n", "line 1: missing word"),
    ("1 add 1 a\n", "line 1: missing word"),
    ("1 commitall", "line 1: missing word"),
    ("1 commitall t\n", "line 1: missing word"),
    ("logfail\n", "line 1: missing word"),
    ("logfail 1", "line 1: missing word"),
    ("logunknown\n", "line 1: missing word"),
    ("logunknown 1\n", "line 1: missing word"),
    ("logunknown 1 1000000", "line 1: missing word"),
    ("1 commitall t 1 dies\n", "line 1: missing word"),
    ("1 commitall t 2 dies", "line 1: missing word"),
    ("key 1 a 1 2\n", "line 1: extra word"),
    ("managers 1 2\n", "line 1: extra word"),
    ("key 1 a 1\nkey 1 a 2 3\n", "line 2: extra word"),
    ("logfail 1 1 1\n", "line 1: extra word"),
    ("logfail 1 1 fly\n", "line 1: extra word"),
    ("logunknown 1 1 kept 1\n", "line 1: extra word"),
    ("logunknown 1 1 lost lost\n", "line 1: extra word"),
    ("1 commitall t 1 dies decided 1\n", "line 1: extra word"),
    ("1 commitall t 1 dies decided dies\n", "line 1: extra word"),
    ("1 commitall t 1 dies prepared 1 1\n", "line 1: extra word"),
    ("1 commitall t 2 dies told 7 x\n", "line 1: extra word"),
    ("1 resolve 1\n", "line 1: extra word"),
    ("1 resolve async", "line 1: extra word"),
    ("1234567890123456789 fly\n", "line 1: bad number"),
    ("threads two\n", "line 1: bad number"),
    ("managers -1\n", "line 1: bad number"),
    ("1 open x\n", "line 1: bad number"),
    ("1 add 1 a -\n", "line 1: bad number"),
    ("1 add 1 a --1\n", "line 1: bad number"),
    ("key -1 a 1\n", "line 1: bad number"),
    ("1 commitall t x\n", "line 1: bad number"),
    ("1 commitall t -1\n", "line 1: bad number"),
    ("1 commitall t 1 t.2\n", "line 1: bad number"),
    ("1 commitall t 1 async\n", "line 1: bad number"),
    ("1 commitall t 1234567890123456789\n", "line 1: bad number"),
    ("managers 2\n1 commitall t 2 1 x\n", "line 2: bad number"),
    ("logfail x 1\n", "line 1: bad number"),
    ("logfail 1 x\n", "line 1: bad number"),
    ("logfail 1 1234567890123456789\n", "line 1: bad number"),
    ("logunknown x 1 kept\n", "line 1: bad number"),
    ("logunknown 1 kept\n", "line 1: bad number"),
    ("logunknown 1 x fly\n", "line 1: bad number"),
    ("1 commitall t dies\n", "line 1: bad number"),
    ("1 commitall t dies told\n", "line 1: bad number"),
    ("1 commitall t 1 Dies told\n", "line 1: bad number"),
    ("1 commitall t 1 told dies told\n", "line 1: bad number"),
    ("1 commitall t 1 dies told x\n", "line 1: bad number"),
    ("1 commitall t 1 dies told -1\n", "line 1: bad number"),
    ("1 commitall t 2 dies prepared x 8\n", "line 1: bad number"),
    ("1 commitall t 1 dies prepared dies\n", "line 1: bad number"),
    ("1 commitall t 1 dies prepared 1234567890123456789\n", "line 1: bad number"),
    ("1 commitall t" + " 1" * 249 + "x", "line 1: bad number"),
    ("1 complete 1 x", "line 1: bad number"),
    ("1 recover 1 x", "line 1: bad number"),
    ("1 recover x\n", "line 1: bad number"),
    ("1 recover 1 -1\n", "line 1: bad number"),
    ("1 recover x 65\n", "line 1: bad number"),
    ("1 recover 1 startrscan 4\n", "line 1: bad number"),
    ("threads 0\n", "line 1: out of range"),
    ("threads 9 9\n", "line 1: out of range"),
    ("managers 9\n", "line 1: out of range"),
    ("requests 0\n", "line 1: out of range"),
    ("requests 4097\n", "line 1: out of range"),
    ("0 open 1\n", "line 1: out of range"),
    ("2 fly\n", "line 1: out of range"),
    ("threads 2\n3 open 1\n", "line 2: out of range"),
    ("1 open 4294967296\n", "line 1: out of range"),
    ("1 add 1 a 1000000000001\n", "line 1: out of range"),
    ("1 add 1 a -1000000000001 fly\n", "line 1: out of range"),
    ("key 2 A 1\n", "line 1: out of range"),
    ("managers 2\nkey 3 a 1\n", "line 2: out of range"),
    ("key 2 a 1\nmanagers 2\n", "line 1: out of range"),
    ("key 1 a 1000000000001\n", "line 1: out of range"),
    ("0 commitall T x\n", "line 1: out of range"),
    ("threads 2\n\n3 commitall\n", "line 3: out of range"),
    ("1 commitall t 4294967296\n", "line 1: out of range"),
    ("1 commitall t 1 4294967296\n", "line 1: out of range"),
    ("1 commitall t 9 1 4294967296\n", "line 1: out of range"),
    ("logfail 0 1\n", "line 1: out of range"),
    ("logfail 2 x\n", "line 1: out of range"),
    ("logfail 2 1\nthreads 2\n", "line 1: out of range"),
    ("threads 2\nlogfail 3 1\n", "line 2: out of range"),
    ("threads 8\nlogfail 9 1\n", "line 2: out of range"),
    ("1 recover 4294967296 x\n", "line 1: out of range"),
    ("1 recover 1 65", "line 1: out of range"),
    ("1 recover 1 65 fly\n", "line 1: out of range"),
    ("logfail 1 0\n", "line 1: out of range"),
    ("logfail 1 1000001\n", "line 1: out of range"),
    ("logfail 1 1000001 1\n", "line 1: out of range"),
    ("logunknown 0 1 kept\n", "line 1: out of range"),
    ("logunknown 2 x\n", "line 1: out of range"),
    ("logunknown 2 1 kept\nthreads 2\n", "line 1: out of range"),
    ("threads 8\nlogunknown 9 1 lost\n", "line 2: out of range"),
    ("logunknown 1 0 kept\n", "line 1: out of range"),
    ("logunknown 1 1000001 fly\n", "line 1: out of range"),
    ("1 commitall t 1 dies told 8\n", "line 1: out of range"),
    ("1 commitall t 2 dies prepared 8 8\n", "line 1: out of range"),
    ("1 commitall t 1 dies prepared 999999999999999999\n", "line 1: out of range"),
    ("1 commitall t 4294967296 dies fly\n", "line 1: out of range"),
    ("key 1 A x\n", "line 1: bad key"),
    ("1 add 1 abcdefghijklmnopq 1\n", "line 1: bad key"),
    ("1 start 1 g\n", "line 1: bad xid"),
    ("1 start 1 .1\n", "line 1: bad xid"),
    ("1 start 1 g.\n", "line 1: bad xid"),
    ("1 commit 1 g.1.2\n", "line 1: bad xid"),
    ("1 end 1 G.1\n", "line 1: bad xid"),
    ("1 commitall T\n", "line 1: bad xid"),
    ("1 commitall T x\n", "line 1: bad xid"),
    ("1 commitall aT 1\n", "line 1: bad xid"),
    ("1 commitall t.1 1\n", "line 1: bad xid"),
    ("1 commitall t-1 1\n", "line 1: bad xid"),
    (f"1 prepare 1 {'g' * 65}.1", "line 1: bad xid"),
    (f"1 commitall {'g' * 65} 1", "line 1: bad xid"),
    ("1 open 1\nkey 9 A\n", "line 2: setting after action"),
    ("1 open 1\n\nkey", "line 3: setting after action"),
    ("threads 2\n1 open 1\nthreads 9\n", "line 3: setting after action"),
    ("1 commitall t 1\nsync 1\n", "line 2: setting after action"),
    ("1 open 1\nlogfail\n", "line 2: setting after action"),
    ("1 open 1\nlogfail 9 0\n", "line 2: setting after action"),
    ("1 open 1\nlogunknown\n", "line 2: setting after action"),
    ("1 commitall t 1 dies told\nlogunknown 9 0 fly\n", "line 2: setting after action"),
    ("1 commitall t 1\nlogfail 1 1\n", "line 2: setting after action"),
    ("threads 2\nthreads 3\n", "line 2: setting twice"),
    ("threads 2\nthreads 9 9\n", "line 2: setting twice"),
    ("managers 1\nmanagers 1\n", "line 2: setting twice"),
    ("requests 9\nthreads 1\nrequests\n", "line 3: setting twice"),
    ("key 1 a 1\nkey 1 a 2\n", "line 2: key twice"),
    ("managers 2\nkey 1 a 1\nkey 2 a 1\nkey 2 a 1\n", "line 4: key twice"),
    (keys(257), "line 257: too many keys"),
    ("1 commitall t 0\n", "line 1: bad branches"),
    ("1 commitall t 0 1\n", "line 1: bad branches"),
    ("1 commitall t 2\n", "line 1: bad branches"),
    ("1 commitall t 1 4294967295\n", "line 1: bad branches"),
    ("managers 8\n1 commitall t 9\n", "line 2: bad branches"),
    ("managers 2\n1 commitall t 1 3\n", "line 2: bad branches"),
    ("managers 2\n1 commitall t 2 1\n", "line 2: bad branches"),
    ("managers 2\n1 commitall t 2 2\n", "line 2: bad branches"),
    ("managers 3\n1 commitall t 2 1 3\n", "line 2: bad branches"),
    ("managers 3\n1 commitall t 1 3 3", "line 2: bad branches"),
    ("1 commitall t 0 dies told\n", "line 1: bad branches"),
    ("managers 2\n1 commitall t 2 1 dies prepared 7\n", "line 2: bad branches"),
    ("managers 2\n1 commitall t 1 3 dies decided", "line 2: bad branches"),
    ("1 commitall t" + " 1" * 249, "line 1: bad branches"),
    # One beyond each limit, of which TAKEN has the last that is taken.
    ("threads 9\n", "line 1: out of range"),
    ("handles 0\n", "line 1: out of range"),
    ("handles 33\n", "line 1: out of range"),
    ("queue 0\n", "line 1: out of range"),
    ("queue 65\n", "line 1: out of range"),
    ("managers 0\n", "line 1: out of range"),
    ("threads 8\n9 open 1\n", "line 2: out of range"),
    ("managers 8\nsync 9\n", "line 2: out of range"),
    ("sync 0\n", "line 1: out of range"),
    ("managers 8\nkey 9 a 1\n", "line 2: out of range"),
    ("key 0 a 1\n", "line 1: out of range"),
    ("1 complete 1 2147483648\n", "line 1: out of range"),
    ("1 complete 4294967296 1\n", "line 1: out of range"),
    ("1 start 4294967296 g.1\n", "line 1: out of range"),
    ("1 shut 4294967296\n", "line 1: out of range"),
    ("1 open 999999999999999999\n", "line 1: out of range"),
    ("999999999999999999 open 1\n", "line 1: out of range"),
    ("1 complete 1 999999999999999999\n", "line 1: out of range"),
    ("1 recover 1 999999999999999999\n", "line 1: out of range"),
    ("1 add 1 a -999999999999999999\n", "line 1: out of range"),
    ("key 1 a 999999999999999999\n", "line 1: out of range"),
    ("logfail 1 999999999999999999\n", "line 1: out of range"),
    ("0000000000000000001 open 1\n", "line 1: bad number"),
    ("1 open 0000000000000000001\n", "line 1: bad number"),
    ("1 complete 1 0000000000000000001\n", "line 1: bad number"),
    ("1 recover 1 0000000000000000001\n", "line 1: bad number"),
    ("1 add 1 a 0000000000000000001\n", "line 1: bad number"),
    ("1 add 1 a -0000000000000000001\n", "line 1: bad number"),
    ("1 commitall t 0000000000000000001\n", "line 1: bad number"),
    ("threads 0000000000000000001\n", "line 1: bad number"),
    ("key 1 a 0000000000000000001\n", "line 1: bad number"),
    ("logfail 1 0000000000000000001\n", "line 1: bad number"),
    (f"key 1 {'k' * 17} 1\n", "line 1: bad key"),
    (f"1 start 1 g.{'b' * 65}\n", "line 1: bad xid"),
    (f"1 forget 1 {'g' * 65}.{'b' * 64}\n", "line 1: bad xid"),
    ("1 open 1" + " " * 505, "line 1: line too long"),
    ("1 open 1" + " " * 505 + "\r\n", "line 1: line too long"),
]

# Faults of lines that stand in no script that is run in threads.
FAULTY_IN_TURNS = [
    ("turn 1 1", "line 1: extra word"),
    ("reopen 1", "line 1: extra word"),
    ("reopen startrscan\n", "line 1: extra word"),
    ("turn 1\nlogfail 1 1\n", "line 2: setting after action"),
    ("reopen\nlogfail 1 1\n", "line 2: setting after action"),
    ("reopen\nlogunknown 1 1 kept\n", "line 2: setting after action"),
    ("reopen\nthreads 9\n", "line 2: setting after action"),
    ("turn\n", "line 1: missing word"),
    ("turn 0\n", "line 1: out of range"),
    ("managers 8\nturn 9\n", "line 2: out of range"),
    ("turn 0000000000000000001\n", "line 1: bad number"),
    ("turn 999999999999999999 fly\n", "line 1: out of range"),
]

FAULTY_IN_THREADS = [
    ("1 open 1\nturn 1", "line 2: turn in threads mode"),
    ("turn x 1\n", "line 1: turn in threads mode"),
    ("1 open 1\nreopen", "line 2: reopen in threads mode"),
    ("reopen 1\n", "line 1: reopen in threads mode"),
]

TAKEN = [
    "",
    "\r",
    "\r\n\t \n  # fly",
    "#fly\r\n1 open 1 success\r\n1 open 1 success success\r",
    "\tkey\t 1  a 000000000000000001 \n001\topen 4294967295\n",
    "key 1 abcdefghijklmnop 1000000000000\nkey 1 0 0\n",
    "1 add 1 a -1000000000000\n1 add 9 z 1000000000000\n1 add 1 a -0\n",
    "1 start 1 0g.z9\n",
    "requests 4096\nkey 1 a 1\nmanagers 8\nthreads 8\nkey 8 a 1\n8 open 8\n",
    "threads 1\nmanagers 1\nrequests 1\n",
    "1 open 1 onephase fail nowait resume success suspend multiple join join\n",
    "#" * 512 + "\r",
    "\n" * 100_000,
    keys(256),
    f"1 commitall {'g' * 64} 1",
    f"managers 8\n1 commitall {'g' * 64} 1 2 3 4 5 6 7 8 dies told 7",
    "1 commitall dies 1\n1 commitall told 1 dies told\n1 commitall g 1 dies prepared 000000000000000007\n",
    "1 commitall g 1 dies\tprepared 0\n1 commitall g 1 dies prepared\n1 commitall g 1 dies decided\n",
    "threads 8\nlogunknown 8 1000000 kept\nlogunknown 8 1 lost\nlogfail 8 1\n8 commitall g 1\n",
    "1 recover 1 0\n1 recover 9 64 startrscan endrscan async join\n1 open 1 endrscan\n",
    # The last that each limit lets through.
    "1 complete 1 2147483647\n",
    "1 complete 4294967295 0 multiple\n1 start 4294967295 g.1\n1 shut 4294967295\n1 recover 4294967295 64 startrscan\n",
    "1 recover 1 64 startrscan\n1 open 1\n1 recover 1 64 startrscan\n",
    "threads 8\nmanagers 8\nhandles 32\nqueue 64\nrequests 4096\nsync 8\nlogfail 8 1000000\n8 open 8\n8 open 7 async\n",
    "threads 1\nmanagers 1\nhandles 1\nqueue 1\nrequests 1\nlogfail 1 1\n1 open 1 async\n1 open 1\n",
    "000000000000000001 open 000000000000000001\n1 complete 1 000000000000000001\n1 commitall g 000000000000000001\n",
    "threads 000000000000000001\nlogfail 1 000000000000000001\n1 add 1 a -000000000000000001\n",
    "managers 000000000000000008\nsync 000000000000000008\n1 recover 8 000000000000000064 startrscan\n",
    f"key 1 {'k' * 16} 0\n1 open 1\n1 start 1 g.1\n1 add 1 {'k' * 16} 1000000000000\n1 end 1 g.1 success\n"
    "1 commitall g 1\n",
    f"1 open 1\n1 start 1 {'g' * 64}.{'b' * 64}\n1 end 1 {'g' * 64}.{'b' * 64} success\n",
    "managers 2\n" + keys(256) + keys(256).replace("key 1", "key 2"),
    "1 open 1" + " " * 504 + "\n1 close 1" + " " * 503 + "\r",
    "key 1 a 1\n1 open 1\n1 start 1 g.1\n1 add 1 a 1000000000000\n1 add 1 a -1000000000000\n1 end 1 g.1 success\n"
    "1 commit 1 g.1 onephase",
]

TAKEN_IN_TURNS = [
    "managers 8\nturn 8\nturn 000000000000000008\nreopen\n",
    "1 open 1 async\nturn 1\nreopen\n1 resolve\n1 recover 1 64 startrscan",
    "1 open 1\n" * 99_999 + "turn 1\n",
]

WORDS = ["", "turns turns", "turns -h", "-- turns", "threads turns", "turn", "turnss", "TURNS", "help", "-h", "--help turns"]
WORDS = [it.split() for it in [*WORDS, "--turns", "-", "--"]] + [[""], ["turns "], ["turns", ""], [b"turns\xff"]]


def runs(program, words, script):
    ran = subprocess.run([program, *words], input=script.encode(), capture_output=True, timeout=60)
    return ran.returncode, ran.stdout, ran.stderr


def is_right(program, script, mode, expected):
    """Whether the program tells this fault, or where it is `taken`, shows what a judge of transcripts lets through. The
    judge reads the script too, and has to find the same."""
    came = runs(program, [mode], script)
    told, why, is_judged = transcript.judge(script.encode(), mode, came)
    if expected.endswith(told) and why is None and is_judged:
        if told == "taken" or came == (1, b"", f"{expected}\n".encode()):
            return True
    print(f"faults: {mode}: {why or transcript.shortened(came)}, not {expected}, at {script[:200]!r}")
    return False


def gives_usage(program, words):
    came = runs(program, words, "fly")
    if came == (2, b"", b"usage: xaswitch turns or threads\n"):
        return True
    print(f"faults: {came}, at the words {words}")
    return False


def helps(program):
    """`--help` alone shows what ./xaswitch shows of it."""
    came = runs(program, ["--help"], "fly")
    if came == (0, HELP.read_bytes(), b""):
        return True
    print(f"faults: {came}, at --help")
    return False


def rows():
    """Each script with a mode and what is expected of it."""
    for mode, faulty, taken in [("turns", FAULTY_IN_TURNS, TAKEN_IN_TURNS), ("threads", FAULTY_IN_THREADS, [])]:
        yield from ((script, mode, text) for script, text in FAULTY + faulty)
        yield from ((script, mode, "taken") for script in TAKEN + taken)


def main(program):
    with concurrent.futures.ProcessPoolExecutor(os.cpu_count()) as pool:
        waiting = [pool.submit(is_right, program, *row) for row in rows()]
        waiting += [pool.submit(gives_usage, program, words) for words in WORDS]
        waiting.append(pool.submit(helps, program))
        failed = sum(not it.result() for it in waiting)
    faulty, taken = len(FAULTY + FAULTY_IN_TURNS + FAULTY_IN_THREADS), len(TAKEN + TAKEN_IN_TURNS)
    counts = f"{faulty} scripts with a fault and {taken} without, {len(WORDS)} wrong words"
    print(f"faults: {counts}, {failed} runs were wrong")
    return 1 if failed else 0


if __name__ == "__main__":
    sys.exit(main(sys.argv[1]))
