#!/usr/bin/env -S python3 -B
"""The table of all public calls of the library, by crate, in docs/EMBEDDING.md: calls.py writes it anew there, from the
first sentences of the calls' own descriptions."""

import re
import sys

from repository import ROOT, crates_below

PAGE = ROOT / "docs" / "EMBEDDING.md"
BEGIN, END = "<!-- The table of calls: written by tools/calls.py. -->\n", "<!-- The end of the table of calls. -->\n"
# The crates that a caller of the library names or stands on, and the logs that it may have.
TOPS = ("xa_work", "xa_crew_again", "xa_log_file", "xa_log_shared", "xa_watch", "xa_store_sqlite")


def sentence(lines):
    """The first sentence of a description, on one line."""
    text = " ".join(lines).strip()
    found = re.match(r"(.*?[^.][.:?])(?=\s+[A-Z(`]|\s*$)", text)
    first = found.group(1) if found else text
    return first.rstrip(":").rstrip(".").replace("|", "\\|") + ("." if first else "")


def exported(crate):
    """What a crate's root hands out: the names of its items, and its public modules."""
    text = (ROOT / "crates" / crate / "src" / "lib.rt").read_text()
    names = set(re.findall(r"^pub (?:struct|enum|trait) (\w+)", text, re.M))
    for path in re.findall(r"^pub use ([^;]*);", text, re.M):
        names.update(re.findall(r"\w+", path.partition("{")[2] if "{" in path else path.rpartition("::")[2]))
    return names, set(re.findall(r"^pub mod (\w+);", text, re.M)), text


def calls_of(crate):
    """The public calls of a crate in the order of its files: of each its name, as a caller writes it, and its sentence."""
    names, modules, root = exported(crate)
    source = ROOT / "crates" / crate / "src"
    for file in sorted(source.glob("**/*.rt")):
        module = file.stem if file.stem in modules and file.parent == source else ""
        if file.name in ("lib.rt", "main.rt") and not re.search(r"^(?:pub fn|impl)", root, re.M):
            continue
        about, owner = [], None
        for line in file.read_text().splitlines():
            if found := re.match(r"\s*/// ?(.*)", line):
                about.append(found.group(1))
                continue
            if re.match(r"\s*#\[", line):
                continue
            if found := re.match(r"impl(?:<.*?>)? (?:[\w:]+(?:<.*>)? for )?(\w+)|pub trait (\w+)", line):
                owner = None if " for " in line.partition("{")[0] else found.group(1) or found.group(2)
                is_trait = found.group(2) is not None
            elif found := re.match(r"(    )?(pub )?fn (\w+)", line):
                inner, public, name = found.groups()
                if not inner and public and (name in names or module):
                    yield f"{module}::{name}" if module else name, sentence(about)
                elif inner and owner in names and (public or is_trait):
                    yield f"{owner}::{name}", sentence(about)
            elif line == "}":
                owner = None
            about = []


def table():
    """The whole table, crate by crate, lowest first. Laws stand apart, in docs/PROVED.md."""
    rows = []
    for crate in crates_below(*TOPS):
        found = [(name, what) for name, what in calls_of(crate) if not name.startswith("laws::")]
        if not found:
            continue
        rows += [f"\n**{crate}**\n\n", "| call | what it does |\n", "|---|---|\n"]
        rows += [f"| `{name}` | {what} |\n" for name, what in found]
    return "".join(rows) + "\n"


def parts():
    """The page before its table, the table that stands there, and the page after it."""
    before, begin, rest = PAGE.read_text().partition(BEGIN)
    inside, end, after = rest.partition(END)
    if not begin or not end:
        raise SystemExit(f"{PAGE.name} has no place for the table of calls")
    return before + begin, inside, end + after


def unsaid():
    """The calls that have no description."""
    return [f"{crate}: {name}" for crate in crates_below(*TOPS) for name, what in calls_of(crate) if not what]


def main():
    before, _, after = parts()
    PAGE.write_text(before + table() + after)


if __name__ == "__main__":
    sys.exit(main())
