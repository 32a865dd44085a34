"""The command `explain`: its words, the run of the program, and what is printed: `main`."""
import argparse
import os
import signal
import subprocess
import sys
from pathlib import Path

import reading

from .explanation import Explanation
from .page import page
from .plain import plain
from .transcript import Unread

ROOT = Path(__file__).resolve().parent.parent.parent
# What the statuses of the program say, besides 0 and 1 (docs/SCRIPT.md).
STATUSES = {
    2: "the program wasn't run: it takes one of the words turns and threads",
    3: "the run didn't end: want of memory, or of a thread",
    4: "the run didn't end: a read or a write failed",
    5: "nothing was run: there is no program, since it couldn't be proved or built; --try proves nothing, and "
       "--transcript needs no program",
}


def words():
    """The words of the command line."""
    parser = argparse.ArgumentParser(prog="explain", description="Runs a script of XA calls, and says beside each line "
                                     "what it was answered and what that means.")
    parser.add_argument("script", type=Path, help="the script, as in examples/transfer.xa")
    parser.add_argument("mode", nargs="?", choices=["turns", "threads"], help="how it is run: turns, unless it says "
                        "of itself '# In threads alone.'")
    parser.add_argument("--transcript", type=Path, metavar="FILE", help="explain this transcript, and run nothing")
    parser.add_argument("--try", dest="is_try", action="store_true", help="run ./try, which proves nothing, and not "
                        "./xaswitch")
    parser.add_argument("--html", metavar="FILE", help="write a page there, and print nothing else; - is standard "
                        "output")
    return parser.parse_args()


def run(text, mode, is_try):
    """The transcript of the script's bytes; ends with the program's status where there is none."""
    ran = subprocess.run([ROOT / ("try" if is_try else "xaswitch"), mode], input=text, stdout=subprocess.PIPE)
    if ran.returncode != 0:
        print(f"explain: {STATUSES.get(ran.returncode, f'the program ended with status {ran.returncode}')}",
              file=sys.stderr)
        sys.exit(ran.returncode if 0 < ran.returncode < 128 else 4)
    return ran.stdout.decode("ascii")


def faulty(text, fault):
    """What is printed of a script that has a fault."""
    line, why = fault.args
    lines = reading.lines_of(text)
    told = lines[line - 1].decode("ascii", "replace") if line <= len(lines) else ""
    more = f" ({fault.hint})" if fault.hint else ""
    return f"explain: nothing is run of a script that has a fault\nline {line}: {why}{more}\n{line:>4}  {told[:200]}"


def is_coloured():
    return sys.stdout.isatty() and not os.environ.get("NO_COLOR") and os.environ.get("TERM") != "dumb"


def explain(told):
    """The explanation that the words of the command line ask for."""
    text = told.script.read_bytes()
    mode = told.mode or ("threads" if b"# In threads alone." in text.splitlines() else "turns")
    reading.read(text, mode == "threads")
    shown = told.transcript.read_text("ascii") if told.transcript else run(text, mode, told.is_try)
    explanation = Explanation(text, shown, mode)
    if told.html == "-":
        print(page(explanation, told.script.name), end="")
    elif told.html:
        Path(told.html).write_text(page(explanation, told.script.name))
    else:
        print("\n".join(plain(explanation, is_coloured())))


def main():
    # Whoever reads may stop reading, as `| head` does.
    signal.signal(signal.SIGPIPE, signal.SIG_DFL)
    told = words()
    try:
        explain(told)
    except reading.Fault as fault:
        print(faulty(told.script.read_bytes(), fault), file=sys.stderr)
        return 1
    except (Unread, OSError, UnicodeDecodeError) as why:
        print(f"explain: {why}", file=sys.stderr)
        return 2
    except KeyboardInterrupt:
        return 130
    return 0
