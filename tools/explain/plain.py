"""The plain form of what is explained: `plain`, the lines of a text, with colours where they are wanted."""
from .rows import named

# How many columns a line of the script takes beside its answer, at least and at most.
LEAST, MOST = 16, 40
COLOURS = {"good": "32", "other": "33", "bad": "31", "still": "2", "head": "1"}


def coloured(text, tone, in_colour):
    return f"\033[{COLOURS[tone]}m{text}\033[0m" if in_colour and text.strip() else text


def table(rows, width, in_colour):
    """The rows, the line of the script to the left and its answer to the right."""
    names = max((len(row.name) for row in rows), default=0)
    digits = max([4] + [len(str(row.line)) for row in rows if row.line is not None])
    for row in rows:
        line = f"{row.line or '':>{digits}}  "
        if row.tone == "still":
            yield line + coloured(row.text, "still", in_colour and row.text.startswith("#"))
            continue
        if len(row.text) > width:
            yield line + row.text
            line = " " * (digits + 2 + width)
        else:
            line += f"{row.text:<{width}}"
        yield f"{line}  {row.number:>3}  {coloured(f'{row.name:<{names}}', row.tone, in_colour)}  {row.means}"
        yield from (" " * (digits + width + names + 11) + more for more in row.more)


def columns(cells):
    """Cells in columns, each as wide as its widest."""
    widths = [max(map(len, column)) for column in zip(*cells)]
    return ["  ".join(f"{cell:<{width}}" for cell, width in zip(row, widths)) for row in cells]


def plain(told, in_colour):
    """The whole text, of an `Explanation`."""
    shown = [row for row in told.rows if row.tone != "still"]
    width = min(MOST, max([LEAST] + [len(row.text) for row in shown]))
    lines = list(table(told.rows, width, in_colour))
    ends = columns([(named(it.xid), f"manager {it.manager}", it.told()) for it in told.fates])
    values = columns([(f"manager {it.manager}", it.key, f"{told.opening[it.manager, it.key]} -> {it.value}")
                      for it in told.values])
    for head, found in (("branches", ends), ("values", values)):
        if found:
            lines += ["", coloured(head, "head", in_colour), *(f"  {line}" for line in found)]
    return [line.rstrip() for line in lines]
