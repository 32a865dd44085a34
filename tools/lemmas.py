"""The lemmas of this repository: where each stands, what it states, and whether another line names it."""

import re
from collections import defaultdict
from functools import cached_property

from repository import ROOT, crates_of_tests

CRATES = ROOT / "crates"
# A name, as antt reads it: it may have signs in it, as in `length-push`.
NAME = r"[^\W\d][^\s:.,;(){}]*"
NAMED = re.compile(r"[^\s:.,;(){}\[\]]+")
SIGNATURE = re.compile(rf" *(?:abbrev )?(?:pub )?({NAME})((?: [({{].*[)}}])?) : (.*)")
DEFINED = re.compile(rf" *(?:abbrev (?:pub )?|(?:pub )?(?:record|data) )({NAME})[ :].*")
MODULE = re.compile(r" *module _ (.*) where")
IMPORT = re.compile(r"(?:pub )?use ([^{}\s]+?)(?:\.\{(.*)\}| as (\S+))?")
GROUP = re.compile(r"([({])([^(){}:]+?) : ([^(){}]*)([)}])")
BOUND = re.compile(r"[({]([^(){}:]+?) : |λ ([^.()]+)\.")
WORD = re.compile(r"[\w'\-]+|[^\w\s]+")


class Lemma:
    """A statement with its proof, or a definition of a file of proofs: on which lines of the file it stands, from 0."""

    def __init__(self, file, name, given, stated, lines):
        self.file, self.name, self.given, self.stated, self.lines = file, name, given, stated, lines

    def __str__(self):
        return f"{self.file.path.relative_to(CRATES)} {self.name}"

    @property
    def is_definition(self):
        return self.file.lines[self.lines.start].lstrip().startswith("abbrev ")

    @property
    def answers_a_goal(self):
        """Whether its statement is a goal's of a function, which the check of that function names."""
        return self.stated.startswith("goal.")

    @property
    def is_general(self):
        """Whether its statement names nothing but what it binds and what xa_base and std have."""
        return not self.answers_a_goal and not self.file.own_words & set(NAMED.findall(f"{self.given} {self.stated}"))

    @cached_property
    def states(self):
        """What it states, with numbers for the names that it binds, and with each of these bound by itself."""
        whole = f"{self.given} {self.stated}"
        bound = [name for names in BOUND.findall(whole) for name in "".join(names).split()]
        numbers = {name: f"#{number}" for number, name in enumerate(dict.fromkeys(bound))}
        apart = GROUP.sub(lambda it: " ".join(f"{it[1]}{name} : {it[3]}{it[4]}" for name in it[2].split()), whole)
        return " ".join(numbers.get(word, word) for word in WORD.findall(re.sub(r"([)}]) → ", r"\1 ", apart)))


class File:
    """A file of proofs: its lemmas, what it imports, and on which lines it names what."""

    def __init__(self, path):
        self.path = path
        self.crate = path.relative_to(CRATES).parts[0]
        self.module = ".".join(("Rattle", *path.relative_to(CRATES).with_suffix("").parts))
        # The root file above it, which may pass its lemmas on.
        self.root = self.module.rpartition(".")[0]
        self.lines = path.read_text().splitlines()
        self.lemmas = list(self._lemmas())
        self.imports, self.named = [], defaultdict(set)
        for number, line in enumerate(self.lines):
            imported = IMPORT.fullmatch(line)
            if imported:
                self.imports.append(imported.groups())
            elif not line.lstrip().startswith("--"):
                for name in NAMED.findall(line):
                    self.named[name].add(number)

    @cached_property
    def own_words(self):
        """The words that neither xa_base nor std has: what is defined here, and what is imported from other crates."""
        words = {found[1] for found in map(DEFINED.fullmatch, self.lines) if found}
        for module, names, alias in self.imports:
            if not module.startswith(("Rattle.xa_base.", "Rattle.std.")):
                whole = alias or module.rpartition(".")[2]
                words |= {name.rpartition(" as ")[2] for name in names.split(", ")} if names else {whole}
        return words

    def _lemmas(self):
        # How far in the lemmas of each module stand that is open here, and what the modules are given.
        modules, header, found, begun = [(0, "")], "", None, 0
        for number, line in enumerate([*self.lines, "end"]):
            depth = len(line) - len(line.lstrip())
            if found and line and depth <= modules[-1][0] and not _goes_on(line, found[1]):
                yield self._lemma(found, modules[-1], begun, number)
                found = None
            if found or not line:
                continue
            while depth < modules[-1][0]:
                modules.pop()
            if header or line.lstrip().startswith("module "):
                header = f"{header} {line.strip()}".strip()
                module = MODULE.fullmatch(header)
                if module:
                    modules.append((modules[-1][0] + 2, f"{modules[-1][1]} {module[1]}"))
                    header = ""
            elif depth == modules[-1][0]:
                found, begun = SIGNATURE.fullmatch(line), number

    def _lemma(self, found, module, begun, end):
        stated = [found[3]]
        for line in self.lines[begun + 1 : end]:
            if len(line) - len(line.lstrip()) <= module[0]:
                break
            stated.append(line.strip())
        return Lemma(self, found[1], f"{module[1]}{found[2]}", " ".join(stated), range(begun, end))

    def names(self, lemma):
        """Whether a line of this file names the lemma, apart from the lemma's own lines and from imports."""
        if lemma.file is self:
            return not self.named[lemma.name] <= set(lemma.lines)
        for module, names, alias in self.imports:
            if module != lemma.file.module and (names is None or module != lemma.file.root):
                continue
            if names is None:
                within = f"{alias or module.rpartition('.')[2]}.{lemma.name}"
                return any(within in line for line in self.lines)
            for name in names.split(", "):
                first, _, other = name.partition(" as ")
                if first == lemma.name and self.named[other or first]:
                    return True
        return False


def _goes_on(line, name):
    """Whether this line, which isn't further in than a lemma's first, belongs to it."""
    return bool(re.match(rf"\s*(?:{re.escape(name)}(?: |$)|unfolding |[}}\])])", line))


def files():
    """All files of proofs."""
    return [File(path) for path in sorted(CRATES.glob("*/proofs/**/*.antt"))]


def unused(known):
    """The lemmas and definitions of these files that no other line names."""
    importing = defaultdict(list)
    for file in known:
        for module in {module for module, _, _ in file.imports}:
            importing[module].append(file)
    clauses = "\n".join(path.read_text() for path in sorted(CRATES.glob("*/src/**/*.rt")))
    return [
        lemma
        for file in known
        if file.path.name != "Invariants.antt"
        for lemma in file.lemmas
        if not lemma.answers_a_goal
        if not any(other.names(lemma) for other in (file, *importing[file.module], *importing[file.root]))
        if f"::proofs::{file.path.stem}::{lemma.name}" not in clauses
    ]


def twice(known):
    """For each statement that stands more than once, its lemmas. Goals of functions and definitions are left out."""
    stated = defaultdict(list)
    for file in known:
        for lemma in file.lemmas:
            if not lemma.answers_a_goal and not lemma.is_definition:
                stated[lemma.states].append(lemma)
    return [lemmas for lemmas in stated.values() if len(lemmas) > 1]


def away(known):
    """The general lemmas that stand in a crate, and that another one but those of tests uses: their home is xa_base."""
    tests = set(crates_of_tests())
    importing = defaultdict(list)
    for file in known:
        for module in {module for module, _, _ in file.imports}:
            importing[module].append(file)
    return [
        lemma
        for file in known
        for lemma in file.lemmas
        if file.crate != "xa_base" and not lemma.is_definition and lemma.is_general
        if any(other.crate not in (file.crate, *tests) and other.names(lemma) for other in importing[file.module])
    ]
