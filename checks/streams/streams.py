#!/usr/bin/env python3
"""Runs the program with standard streams that fail: streams.py PROGRAM.

Whatever stream fails, and how, the status and what is told have to be those of the table of exit statuses in
docs/SCRIPT.md, in both modes: 4 with `input failed` and nothing on standard output where a read failed, 4 with
`output failed` where a write did. A standard error that takes nothing changes no status and no output. Where nothing
fails, input that comes in pieces and output that is taken late are as any other.
"""
import os
import socket
import struct
import subprocess
import sys
import tempfile
import threading
import time

# Seconds that one run may take.
TIME = 60

SCRIPT = b"key 1 a 5\n1 open 1\n1 start 1 g.1\n1 add 1 a 1\n1 end 1 g.1 success\n1 commit 1 g.1 onephase\n"
SHOWN = b"2 1 0\n3 1 0\n4 1 0\n5 1 0\n6 1 0\nvalue 1 a 6\n"
# What is shown of the second is more than a pipe holds.
SILENT, LONG = b"# nothing is shown\nthreads 1\n", b"1 open 9\n" * 50_000
LONG_SHOWN = b"".join(b"%d 1 -5\n" % line for line in range(1, 50_001))
FAULTY, FAULT = b"1 open 1\nfly\n", b"line 2: unknown word\n"

INPUT_FAILED, OUTPUT_FAILED = b"input failed\n", b"output failed\n"
USAGE = b"usage: xaswitch turns or threads\n"


def finish(child):
    """A run's status, and what came of its outputs: None where that isn't a pipe."""
    try:
        shown, told = child.communicate(timeout=TIME)
    except subprocess.TimeoutExpired:
        child.kill()
        child.communicate()
        return f"not ended after {TIME} seconds", None, None
    return child.returncode, shown, told


def run(words, script=None, redirected="", **streams):
    """Runs the program with these streams, and pipes for those that aren't given; bash redirects what has no file."""
    if redirected:
        words = ["bash", "-c", f'exec "$@" {redirected}', "bash", *words]
    if script is not None:
        with tempfile.TemporaryFile() as file:
            file.write(script)
            file.seek(0)
            return run(words, stdin=file, **streams)
    return finish(subprocess.Popen(words, **{"stdout": subprocess.PIPE, "stderr": subprocess.PIPE, **streams}))


def with_pieces(words, pieces):
    """A run whose input comes in these pieces, with time between them."""
    child = subprocess.Popen(words, stdin=subprocess.PIPE, stdout=subprocess.PIPE, stderr=subprocess.PIPE, bufsize=0)
    try:
        for piece in pieces:
            child.stdin.write(piece)
            time.sleep(0.003)
    except BrokenPipeError:
        # It ended before its input did, which its status shows.
        pass
    return finish(child)


def with_broken_input(words, begin):
    """A run whose input breaks after this begin: its connection is reset."""
    with socket.create_server(("127.0.0.1", 0)) as server:
        ours, theirs = socket.create_connection(server.getsockname()), server.accept()[0]
    ours.sendall(begin)
    child = subprocess.Popen(words, stdin=theirs, stdout=subprocess.PIPE, stderr=subprocess.PIPE)
    theirs.close()
    time.sleep(0.2)
    # With no time to linger, a close resets the connection.
    ours.setsockopt(socket.SOL_SOCKET, socket.SO_LINGER, struct.pack("ii", 1, 0))
    ours.close()
    return finish(child)


def with_reader(words, script, take):
    """A run whose output is a pipe, which this takes from: with what it took."""
    reader, writer = os.pipe()
    took = []
    taker = threading.Thread(target=lambda: took.append(take(reader)))
    taker.start()
    came = run(words, script, stdout=writer)
    os.close(writer)
    taker.join()
    return came[0], took[0], came[2]


def with_no_reader(words, script):
    """A run whose output is a pipe that nobody takes from any more."""
    reader, writer = os.pipe()
    os.close(reader)
    came = run(words, script, stdout=writer)
    os.close(writer)
    return came


def take_a_little(reader):
    os.read(reader, 10)
    os.close(reader)


def take_late(reader):
    time.sleep(0.3)
    with open(reader, "rb") as pipe:
        return pipe.read()


def with_full_pipe(words, script):
    """A run whose output is a pipe that nobody takes from, and on which it doesn't wait."""
    reader, writer = os.pipe()
    os.set_blocking(writer, False)
    came = run(words, script, stdout=writer)
    os.close(writer)
    os.close(reader)
    return came


def whole_cases(words):
    """Cases in which no stream fails. A case is its name, what came, and what has to come: the status, what is shown
    and what is told, with None where that isn't seen."""
    yield "all is well", run(words, SCRIPT), 0, SHOWN, b""
    yield "all is well, and long", run(words, LONG), 0, LONG_SHOWN, b""
    yield "the input is empty", run(words, b""), 0, b"", b""
    bytes_alone = [SCRIPT[place : place + 1] for place in range(len(SCRIPT))]
    yield "the input comes byte by byte", with_pieces(words, bytes_alone), 0, SHOWN, b""
    yield "the input ends before its last line does", run(words, SCRIPT[:-1]), 0, SHOWN, b""
    begin = SCRIPT[: SCRIPT.index(b"1 commit")]
    told = b"line 6: missing word\n"
    yield "the input ends in the middle of a line", with_pieces(words, [begin, b"1 com", b"mit"]), 1, b"", told
    yield "the input ends in the middle of a word", run(words, begin + b"1 com"), 1, b"", b"line 6: unknown word\n"
    yield "the reader comes late", with_reader(words, LONG, take_late), 0, LONG_SHOWN, b""


def input_cases(words, wrong, folder):
    """Cases in which the input fails, if it is read."""
    expected = 4, b"", INPUT_FAILED
    yield "the input is a folder, a wrong word", run(wrong, stdin=folder), 2, b"", USAGE
    yield "the input is closed", run(words, redirected="<&-"), *expected
    yield "the input is a folder", run(words, stdin=folder), *expected
    with open("/dev/null", "wb") as unreadable:
        yield "the input can't be read", run(words, stdin=unreadable), *expected
    yield "the input breaks", with_broken_input(words, SCRIPT + b"1 op"), *expected


def output_cases(words, wrong, full):
    """Cases in which the output fails."""
    with open("/dev/null", "rb") as unwritable:
        for name, streams in [
            ("is full", {"stdout": full}),
            ("is closed", {"redirected": ">&-"}),
            ("can't be written", {"stdout": unwritable}),
        ]:
            unseen = b"" if "redirected" in streams else None
            for script in (SCRIPT, LONG):
                yield f"the output {name}", run(words, script, **streams), 4, unseen, OUTPUT_FAILED
            yield f"the output {name}, nothing is shown", run(words, SILENT, **streams), 0, unseen, b""
            yield f"the output {name}, a fault", run(words, FAULTY, **streams), 1, unseen, FAULT
            yield f"the output {name}, a wrong word", run(wrong, SCRIPT, **streams), 2, unseen, USAGE
    for script in (SCRIPT, LONG):
        yield "the reader has gone", with_no_reader(words, script), 4, None, OUTPUT_FAILED
    yield "the reader goes early", with_reader(words, LONG, take_a_little), 4, None, OUTPUT_FAILED
    yield "the pipe is full", with_full_pipe(words, LONG), 4, None, OUTPUT_FAILED


def error_cases(words, wrong, full, folder):
    """Cases in which nothing can be told: that changes no status."""
    for name, streams in [("full", {"stderr": full}), ("closed", {"redirected": "2>&-"})]:
        unseen = b"" if "redirected" in streams else None
        yield f"the errors' stream is {name}", run(words, SCRIPT, **streams), 0, SHOWN, unseen
        yield f"the errors' stream is {name}, a fault", run(words, FAULTY, **streams), 1, b"", unseen
        yield f"the errors' stream is {name}, a wrong word", run(wrong, SCRIPT, **streams), 2, b"", unseen
        yield f"the errors' stream is {name}, no input", run(words, stdin=folder, **streams), 4, b"", unseen
        came = run(words, SCRIPT, stdout=full, **streams)
        yield f"the errors' stream is {name}, no output", came, 4, None, unseen


def cases(program, mode):
    words, wrong = [program, mode], [program, "fly"]
    folder = os.open("/", os.O_RDONLY)
    with open("/dev/full", "wb") as full:
        yield from whole_cases(words)
        yield from input_cases(words, wrong, folder)
        yield from output_cases(words, wrong, full)
        yield from error_cases(words, wrong, full, folder)
    os.close(folder)


def main(program):
    count, failed = 0, 0
    for mode in ("turns", "threads"):
        for name, came, *expected in cases(program, mode):
            count += 1
            if came != tuple(expected):
                failed += 1
                print(f"streams: {mode}: {name}: {shortened(came)}, not {shortened(expected)}")
    print(f"streams: {count} runs with streams of all kinds, {failed} were wrong")
    return 1 if failed else 0


def shortened(came):
    status, shown, told = came
    return f"status {status} with {shown and shown[:80]!r} and {told and told[:80]!r}"


if __name__ == "__main__":
    sys.exit(main(sys.argv[1]))
