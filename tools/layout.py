#!/usr/bin/env -S python3 -B
"""Breaks the lines of proofs that have more than 120 columns: before an arrow, after `in` or `=`, before a step of a
chain, and else between two words, in as few brackets as may be. layout.py lays out all proofs, and prints how many
lines it broke."""

import re
from pathlib import Path

WIDTH = 120
CRATES = Path(__file__).resolve().parent.parent / "crates"
IMPORT = re.compile(r"((?:pub )?use [^{]+\{)([^}]*)\}")
# `name : type`, also of several names, with the words before it.
STATEMENT = re.compile(r"(?:abbrev |unfoldable )*(?:pub )?[^\s(){}\[\]=:]+(?: [^\s(){}\[\]=:]+)* : ")
# A record's field, and what begins a term and no equation.
FIELD = re.compile(r"[\w-]+ = .*;")
TERM = re.compile(r"[|∙λ(\[]|(?:ap|by_if|elim|record|rw|subst) ")
# Where a word may begin a line: no operator's sign, and nothing that says how what is before it is read.
SPACE = re.compile(r"(?<![=:→↦∙×≡∷λ])(?<!record) (?![=:|↦≡]|in\b|of\b|where\b)")


def outside(text, mark):
    """Where this mark stands between two spaces and outside of brackets, up to a bracket that was opened before."""
    places, depth = [], 0
    for place, sign in enumerate(text):
        if sign in "([{":
            depth += 1
        elif sign in ")]}":
            depth -= 1
            if depth < 0:
                break
        elif depth == 0 and text.startswith(f" {mark} ", place):
            places.append(place + 1)
    return places


def binders(text):
    """Where the brackets of a section's binders begin, but for the first."""
    places, depth = [], 0
    for place, sign in enumerate(text):
        if sign in "([{":
            if depth == 0:
                places.append(place)
            depth += 1
        elif sign in ")]}":
            depth -= 1
    return places[1:]


def filled(text, places, indent, deeper):
    """The text in lines that are as full as they may be, begun anew at some of these places."""
    starts = [0, *places]
    first, *rest = [text[a:b].rstrip() for a, b in zip(starts, [*places, len(text)])]
    lines = [indent + first]
    for part in rest:
        if len(lines[-1]) + 1 + len(part) <= WIDTH:
            lines[-1] += " " + part
        else:
            lines.append(deeper + part)
    return lines


def imports(head, names):
    """One import in several of the same module."""
    lines, held = [], []
    for name in names.split(","):
        if held and len(f"{head}{', '.join([*held, name.strip()])}}}") > WIDTH:
            lines.append(f"{head}{', '.join(held)}}}")
            held = []
        held.append(name.strip())
    return [*lines, f"{head}{', '.join(held)}}}"]


def words(text, indent, deeper):
    """The text in two lines, begun anew where as few brackets are open as may be, at a sign or else at a word."""
    places, depth = [], 0
    for place, sign in enumerate(text[: WIDTH - len(indent) + 1]):
        if sign in "([{":
            depth += 1
        elif sign in ")]}":
            depth -= 1
        elif sign == " " and len(deeper) < place + len(indent) and SPACE.match(text, place):
            at_sign = text[place - 1] == ";" or text.startswith(("→ ", "∙ "), place + 1)
            places.append((depth, not at_sign, -place))
    if not places:
        return [indent + text]
    place = -min(places)[2]
    return [indent + text[:place], deeper + text[place + 1 :]]


def comment(text, indent):
    """A comment in lines that are as full as they may be."""
    lines = [indent + "--"]
    for word in text[2:].split():
        if len(lines[-1]) + 1 + len(word) > WIDTH:
            lines.append(indent + "--")
        lines[-1] += " " + word
    return lines


def broken(line):
    """A wide line in two or more, or itself where it is one word."""
    text = line.lstrip()
    indent = line[: len(line) - len(text)]
    deeper = indent + "    "
    if text.startswith("--"):
        return comment(text, indent)
    if found := IMPORT.fullmatch(text):
        return imports(indent + found[1], found[2])
    parts = [line]
    if text.startswith("module _ "):
        parts = filled(text, binders(text), indent, deeper)
    elif text.startswith("→ "):
        parts = filled(text, outside(text, "→"), indent, indent)
    elif text.startswith("let "):
        if ends := [place + 3 for place in outside(text, "in") if text[place + 3 :].strip()]:
            parts = [indent + text[: ends[0]].rstrip(), indent + text[ends[0] :]]
        elif text.endswith(" in") and (starts := outside(text, "=")):
            parts = [indent + text[: starts[0] + 1], deeper + text[starts[0] + 2 :]]
    elif STATEMENT.match(text):
        parts = filled(text, outside(text, "→"), indent, deeper)
    elif FIELD.fullmatch(text):
        parts = filled(text, outside(text, "∙"), indent, deeper)
    elif not TERM.match(text) and (starts := outside(text, "=")):
        parts = [indent + text[: starts[0] + 1], deeper + text[starts[0] + 2 :]]
    else:
        parts = filled(text, outside(text, "∙"), indent, indent)
    if len(parts) > 1:
        return parts
    return words(text, indent, indent if text.startswith("∙ ") else deeper)


def laid_out(lines):
    """These lines, each wide one broken as long as it can be."""
    left = list(reversed(lines))
    while left:
        line = left.pop()
        parts = broken(line) if len(line) > WIDTH else [line]
        if len(parts) == 1:
            yield line
        else:
            left += reversed(parts)


def proofs():
    return sorted(CRATES.glob("*/proofs/**/*.antt"))


def main():
    count = 0
    for file in proofs():
        lines = file.read_text().splitlines()
        laid = list(laid_out(lines))
        if laid != lines:
            file.write_text("\n".join(laid) + "\n")
            count += sum(len(line) > WIDTH for line in lines) - sum(len(line) > WIDTH for line in laid)
    print(f"layout: {count} lines of proofs were broken")


if __name__ == "__main__":
    main()
