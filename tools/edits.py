#!/usr/bin/env -S python3 -B
"""Tries the edits of crates/*/must-fail: each is a wrong body or a wrong definition, which the prover has to refuse.

Usage: edits.py [--proved] [CRATE [EDIT..]]

Without words all edits of all crates are tried, as ./test does; with the name of a crate its own, and with names of its
edits, as xa_words codes_swapped, these alone. What they change has to be proved as it stands, which is looked at too,
unless --proved says that it is. The last line is 'N passed, M failed'.

Edits in different functions of a crate are tried in one check, and each has to be refused by a goal of the function
that it changes. That is as strict as to try each by itself: those who call a function see its contract alone, so what
is said of one function rests on the body of no other. An edit is tried by itself where it isn't in the body of a
function, and where its function is refused in company only since it calls another that isn't proved.
"""

import re
import shutil
import sys
import tempfile
from concurrent.futures import as_completed
from dataclasses import dataclass
from pathlib import Path

import rattle
from build import prove_libraries, size
from repository import PARTS, ROOT, Sums, crates_below, jobs, kit, lines

# What the prover says of a proof that cites what isn't there, or isn't proved: it has refused no goal.
CITED = re.compile(r"has no field|is not in scope|has no `|was not admitted")


def is_error(said):
    """Whether what is said of a place in a proof refuses something there. It says much else of places: hints, and which
    terms are large."""
    return said.startswith("error") and not CITED.search(said)


@dataclass(frozen=True)
class Function:
    """A function of a crate: the file that it stands in, and the end of its name as the prover has it, which is that of
    its type, as `Key::new`, since a type may have functions in several files; or, without one, of its module."""

    file: str
    name: str
    has_type: bool

    def is_named(self, name):
        """Whether this name of the prover's is the function's, or that of a closure in it, as `a::fn::f::any` in `f`."""
        path = f"::{name.replace('fn::', '')}::"
        own = f"::{self.name}::"
        is_own = path.endswith(own) if self.has_type else path == own
        return is_own or "fn::" in name and (own in path if self.has_type else path.startswith(own))


def module(file):
    """The path of the module that a file of sources is, which is empty for the crate's root and for other files."""
    first, *inner = Path(file).with_suffix("").parts
    return "::".join(inner) if first == "src" and inner not in (["lib"], ["main"]) else ""


def functions(file, text):
    """The functions of a file of sources: each with where it begins, where its body begins, and where it ends."""
    types = [(0, "")]
    for found in re.finditer(r"(?m)^(?:pub(?:\([\w:]+\))? )?(?:impl\b(.*)|trait (\w+).*)$|^\}", text):
        types.append((found.start(), found[2] or (of_impl(found[1]) if found[1] else "")))
    for found in re.finditer(r"(?m)^( *)(?:pub(?:\([\w:]+\))? )?(?:const )?(?:unsafe )?fn (\w+)", text):
        indent = found[1]
        end = re.compile(rf"(?m)^{indent}\}}$").search(text, found.end())
        body = end and re.compile(rf"(?m)^{indent}\{{$| \{{$").search(text, found.end(), end.end())
        if body:
            type = [name for start, name in types if start <= found.start()][-1]
            name = "::".join(it for it in (type or module(file), found[2]) if it)
            yield Function(file, name, bool(type)), found.start(), body.end(), end.end()


def of_impl(head):
    """The prover's name for what the functions of an impl belong to: the type, and after it the trait, if there is one,
    as KeyPartialEq."""
    # The impl's own parameters stand first, and may have angle brackets inside.
    depth = at = 0
    for at, letter in enumerate(head.replace("->", "--")):
        depth += {"<": 1, ">": -1}.get(letter, 0)
        if depth == 0:
            break
    parameters, rest = head[: at + 1], re.sub(r"'\w+,? ?", "", head[at + 1 :].partition(" where")[0].removesuffix(" {"))
    own = re.findall(r"[<,]\s*(?:const )?(\w+)", parameters)
    of_trait, _, type = rest.strip().rpartition(" for ")
    arguments = [it for of in re.findall(r"<(.*)>", of_trait) for it in of.split(",")]
    # A drop is named by its type alone.
    named = (type,) if of_trait == "Drop" else (type, of_trait)
    return "".join([*(spelled(it, own) for it in named), *(spelled_whole(it, own) for it in arguments)])


def spelled(type, own):
    """How a type or a trait is spelled in such a name, without its arguments and without parameters of the impl."""
    type = type.strip()
    if type.startswith("&"):
        return "Ref" + spelled(type[1:].removeprefix("mut "), own)
    if type.startswith("["):
        return "Slice" + spelled(type[1:-1], own)
    name = type.partition("<")[0].rpartition("::")[2]
    return "" if name in own else name


def spelled_whole(type, own):
    """How an argument of a trait is spelled in it: with its path, as IoError for io::Error."""
    *path, last = type.strip().split("::")
    return "".join(f"{it[:1].upper()}{it[1:]}" for it in path) + spelled(last, own)


@dataclass(frozen=True)
class Edit:
    """An edit of a crate: in which files it puts one text in the place of another, each in one place."""

    crate: str
    name: str
    changes: tuple

    @staticmethod
    def read(crate, name):
        changes, path, old = [], None, None
        for line in (ROOT / "crates" / crate / "must-fail" / f"{name}.edit").read_text().split("\n"):
            if line.startswith("file: "):
                path = line.removeprefix("file: ").strip()
            elif line.startswith("old: "):
                old = line.removeprefix("old: ")
            elif line.startswith("new:"):
                changes.append((path, old, line.removeprefix("new:").removeprefix(" ")))
        return Edit(crate, name, tuple(changes))

    def places(self, folder):
        """The functions in whose bodies it stands, or none where it isn't in such bodies alone."""
        found = set()
        for path, old, _ in self.changes:
            text = (folder / path).read_text()
            at = text.index(old)
            begin, end = at + len(old) - len(old.lstrip()), at + len(old.rstrip())
            inside = [it for it, _, body, last in functions(path, text) if body <= begin and end <= last]
            if not inside:
                return frozenset()
            found.add(inside[-1])
        return frozenset(found)

    def fault(self, folder):
        """Why it can't be applied, if it can't."""
        for path, old, new in self.changes:
            file = folder / path
            if not file.is_file() or not path.startswith(PARTS):
                return f"there is no file {path}"
            if file.read_text().count(old) != 1 or old == new:
                return f"{old!r} isn't in {path} once, or isn't changed"
        return None if self.changes else "it changes nothing"


def groups(edits):
    """The edits in groups that can be tried at once: no two of a group are in one function."""
    left = list(edits)
    while left:
        group, taken = [], set()
        for edit, places in left:
            if taken.isdisjoint(places):
                group.append((edit, places))
                taken |= places
        left = [it for it in left if it not in group]
        yield group


@dataclass(frozen=True)
class Said:
    """What the prover said of a crate with edits: its status, its lines, and where the functions stand in the files
    that the edits changed, each by its first line and its last."""

    status: int
    lines: list
    places: dict

    def refusal(self, crate, function):
        """How a goal of the function, or of a closure in it, was refused, or None where none was."""
        names = re.findall(rf"(?m)^fn {crate}::(\S+): (.*)$", "\n".join(self.lines))
        told = [said for name, said in names if function.is_named(name) and said != "proved"]
        first, last = self.places[function]
        for line in self.lines if told else ():
            at = re.match(r"(?:note: )?(?:\./)?(\S+?):(\d+):\d+: (.*)", line)
            is_in_it = at and at[1] == function.file and first <= int(at[2]) <= last
            is_of_it = at and at[1].startswith("proofs/") and f"/{function.name.replace('::', '/')}/" in at[1]
            if is_in_it and "it is not proved that" in at[3] or is_of_it and is_error(at[3]):
                return line
        return next((said for said in told if "did not prove" in said), None)

    def any_refusal(self):
        """How something was refused, or None where nothing was, or only since something that is cited isn't there."""
        places = (re.match(r"(?:note: )?\S+?:\d+:\d+: (.*)", line) for line in self.lines)
        told = [at[0] for at in places if at and ("it is not proved that" in at[1] or is_error(at[1]))]
        is_refused = self.status == 1 and re.match("logic=not-proved|only=", self.lines[-1])
        return told[0] if is_refused and told else None


class Trial:
    """The edits of one crate, tried one check after the other. A check takes what is the same from those before it."""

    def __init__(self, crate, run, kept):
        self.crate, self.run, self.kept = crate, run, kept
        self.folder, self.below = ROOT / "crates" / crate, crates_below(crate)

    def check(self, edits, only):
        """Checks the crate with these edits, and of it the functions of these names, or all of it."""
        with tempfile.TemporaryDirectory() as room:
            folder = Path(room) / self.crate
            for part in PARTS:
                if (self.folder / part).is_dir():
                    shutil.copytree(self.folder / part, folder / part)
            changes = [change for edit in edits for change in edit.changes]
            for path, old, new in changes:
                (folder / path).write_text((folder / path).read_text().replace(old, new))
            places = {}
            for path in {path for path, _, _ in changes if path.startswith("src/")}:
                text = (folder / path).read_text()
                for function, begin, _, end in functions(path, text):
                    places[function] = text.count("\n", 0, begin) + 1, text.count("\n", 0, end) + 1
            words = [*rattle.asked(folder, self.below[self.crate], self.below), "--jobs", "1"]
            words += [word for name in sorted(only) for word in ("--only", name)]
            words = [kit() / "bin" / "rattle", "check", *words, "--incremental", self.kept]
            status, said = self.run.run(folder, *map(str, words))
        if only and status == 2:
            # The prover knows one of them by another name.
            return self.check(edits, ())
        return Said(status, said.splitlines(), places)

    def tried(self, group):
        """For each edit of a group, with the functions that it changes, how it was refused, or None. An edit that isn't
        in functions is a group of its own."""
        edits, changed = [edit for edit, _ in group], {it.name for _, places in group for it in places}
        if changed:
            said = self.check(edits, changed)
            refusals = [[said.refusal(self.crate, it) for it in places] for _, places in group]
            return [next(filter(None, of_edit), None) for of_edit in refusals], said
        # A goal of its own module mostly refuses it.
        modules = {module(path) for path, _, _ in edits[0].changes}
        said = self.check(edits, modules) if all(modules) else None
        if not said or not said.any_refusal():
            said = self.check(edits, ())
        return [said.any_refusal()], said

    def is_proved(self, placed):
        """Whether what these edits change is proved as it stands."""
        names = {it.name for _, places in placed for it in places}
        return self.check((), names if all(places for _, places in placed) else ()).status == 0

    def results(self, names, is_proved):
        """For each edit whether it was refused, and what is said of it."""
        edits = [Edit.read(self.crate, name) for name in names]
        faults = {edit: edit.fault(self.folder) for edit in edits}
        yield from ((edit, False, f"can't be applied: {why}") for edit, why in faults.items() if why)
        placed = [(edit, edit.places(self.folder)) for edit in edits if not faults[edit]]
        if not is_proved and placed and not self.is_proved(placed):
            yield from ((edit, False, f"{self.crate} isn't proved as it stands") for edit, _ in placed)
            return
        alone = [it for it in placed if not it[1]]
        for group in groups(it for it in placed if it[1]):
            for it, refusal in zip(group, self.tried(group)[0]):
                if refusal:
                    yield it[0], True, f"refused: {refusal}"
                else:
                    alone.append(it)
        for it in alone:
            (refusal,), said = self.tried([it])
            lines = "\n".join(said.lines[-20:])
            yield it[0], bool(refusal), f"refused by itself: {refusal}" if refusal else f"NOT REFUSED:\n{lines}"


def try_all(names, is_proved, run):
    """Tries these edits, given by their crates, several crates at once, and returns how many were refused, and not."""
    def try_crate(crate):
        with tempfile.TemporaryDirectory() as kept:
            return [*Trial(crate, run, kept).results(names[crate], is_proved)]

    passed = failed = 0
    with run.threads(jobs()) as pool:
        order = sorted(names, key=size, reverse=True)
        for task in as_completed([pool.submit(try_crate, crate) for crate in order]):
            for edit, is_refused, said in task.result():
                print(f"must-fail {edit.crate}/{edit.name}: {said[:200] if is_refused else said}", flush=True)
                passed, failed = passed + is_refused, failed + (not is_refused)
    return passed, failed


def edits_of(crate):
    """The names of a crate's edits."""
    return sorted(file.stem for file in (ROOT / "crates" / crate / "must-fail").glob("*.edit"))


def main(words):
    if words in (["--help"], ["-h"]):
        print(__doc__.strip())
        return 0
    is_proved, words = words[:1] == ["--proved"], words[words[:1] == ["--proved"] :]
    if words and (words[0] not in lines() or not {*words[1:]} <= {*edits_of(words[0])}):
        print(f"edits: no such edits: {' '.join(words)}; --help says what is taken", file=sys.stderr)
        return 2
    names = {words[0]: words[1:] or edits_of(words[0])} if words else {it: edits_of(it) for it in lines()}
    names = {crate: edits for crate, edits in names.items() if edits}
    with rattle.Processes() as run:
        below = {lower for crate in names for lower in crates_below(crate) if lower != crate}
        prove_libraries("edits", below, run, Sums())
        passed, failed = try_all(names, is_proved, run)
    print(f"{passed} passed, {failed} failed")
    return 1 if failed else 0


if __name__ == "__main__":
    try:
        sys.exit(main(sys.argv[1:]))
    except KeyboardInterrupt:
        sys.exit(130)
    except (OSError, rattle.Refused) as why:
        sys.exit(f"edits: {why}")
