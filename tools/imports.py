#!/usr/bin/env -S python3 -B
"""Proofs name the words of a crate's definitions by the crate, as `use Rattle.xa_words.specs.{Op, XidName}`, and general
lemmas and the common words of std by `Rattle.xa_base.proofs`: whatever specs/Lib.antt of a crate, or proofs/Lib.antt of
xa_base, passes on. imports.py writes the imports of all proofs so, and prints how many files it changed."""

import re

from layout import WIDTH
from repository import ROOT, lines

CRATES = ROOT / "crates"
BASE = "Rattle.xa_base.proofs"
# What passes on most of std.
STD = ("Rattle.std.proofs.Common", "Rattle.std.specs.Prelude")
IMPORT = re.compile(r"(use|pub use|unfoldable pub use) ([^{}\s]+)\.\{([^}]*)\}")
UNFOLDED = re.compile(r"\bunfold(?:ing)? (.*?)(?: in |$)")


def first(name):
    """A name as its home has it: `a` of `a as b`."""
    return name.partition(" as ")[0]


def filled(head, names):
    """Imports of these names from one module, in lines that are as full as they may be."""
    held = []
    for name in names:
        if held and len(f"{head}.{{{', '.join([*held, name])}}}") > WIDTH:
            yield f"{head}.{{{', '.join(held)}}}"
            held = []
        held.append(name)
    if held:
        yield f"{head}.{{{', '.join(held)}}}"


def passed_on(lib):
    """The root file's module, and the home of each name that it passes on."""
    module = ".".join(("Rattle", *lib.relative_to(CRATES).parent.parts))
    homes = {}
    for found in filter(None, map(IMPORT.fullmatch, lib.read_text().splitlines())):
        home = found[2] if found[2].startswith("Rattle.") else f"{module}.{found[2]}"
        homes |= {name: home for name in found[3].split(", ")}
    return module, homes


class Plan:
    """What the imports of each file of proofs are to be."""

    def __init__(self):
        base = CRATES / "xa_base" / "proofs" / "Lib.antt"
        libs = dict(map(passed_on, [*sorted(CRATES.glob("*/specs/Lib.antt")), base]))
        self.files = {path: path.read_text().splitlines() for path in sorted(CRATES.glob("*/proofs/**/*.antt"))}
        del self.files[base]
        self.standing_on = {name: line.partition(":")[2].split() for name, line in lines().items()}
        self.libs = libs
        self.face = {(home, name): module for module, homes in libs.items() for name, home in homes.items()}
        # What std itself passes on, by the names of two modules.
        for name, home in libs[BASE].items():
            for other in STD if home in STD or home.startswith("Rattle.std.") else ():
                self.face.setdefault((other, name), BASE)

    def homes(self, line):
        """The names that a line imports, each with its home, or None where it imports no names."""
        found = IMPORT.fullmatch(line)
        if not found or found[1] != "use":
            return None
        homes = self.libs.get(found[2], {})
        return [(homes.get(first(name), found[2]), name) for name in found[3].split(", ")]

    def imported(self, path, text):
        """A file of proofs with its imports as they are to be."""
        crate = path.relative_to(CRATES).parts[0]
        unfolded = {name for line in text for found in UNFOLDED.findall(line) for name in found.split()}
        groups, out = {}, []
        for line in text:
            homes = self.homes(line)
            if homes is None:
                out.append(line)
                continue
            for home, name in homes:
                face = self.face.get((home, first(name)), home)
                if face == BASE and (crate == "xa_base" or "xa_base" not in self.standing_on[crate]):
                    face = home
                # What is unfolded is named by its own module.
                if home.startswith("Rattle.std.") and name.rpartition(" as ")[2] in unfolded:
                    face = home
                if face not in groups:
                    groups[face] = []
                    out.append(groups[face])
                if name not in groups[face]:
                    groups[face].append(name)
        modules = {id(names): module for module, names in groups.items()}
        written = []
        for line in out:
            written += filled(f"use {modules[id(line)]}", line) if isinstance(line, list) else [line]
        return written

    def changes(self):
        """The files that are to change, with their text."""
        for path, text in self.files.items():
            if (new := self.imported(path, text)) != text:
                yield path, "\n".join([*new, ""])


def main():
    changes = list(Plan().changes())
    for path, text in changes:
        path.write_text(text)
    print(f"{len(changes)} files have other imports")


if __name__ == "__main__":
    main()
