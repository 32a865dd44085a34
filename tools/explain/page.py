"""The page of what is explained: `page`, an HTML text that stands alone."""
import re
from html import escape
from pathlib import Path

from .lanes import Lanes
from .rows import named

STYLE = Path(__file__).resolve().parent / "page.css"
# What is drawn in the lanes, and what it stands for.
LEGEND = [
    ("bar begun", "a branch at work"), ("bar prepared", "prepared"), ("bar rollback-only", "rollback-only"),
    ("bar decided", "decided by its manager"), ("bar unknown", "not shown"), ("dot-of committed", "committed"),
    ("dot-of back", "rolled back"), ("dot-of read", "only read"), ("bar handle", "a handle that is kept"),
    ("arrow", "a call, and its answer"), ("arrow later", "an asynchronous call, or its answer"),
    ("square", "a turn of a manager, or a line that asks no manager"), ("square empty", "nothing had come"),
    ("cross", "refused: it reached no manager"),
]
# What a screen reader reads of a mark that has no title.
READ = {"begin now": "calls", "begin later": "calls asynchronously", "head now": "is called",
        "head later": "is called asynchronously", "tail later": "collects"}
ORDER = {
    "turns": "Run in turns: one thread did all, line by line. A bar changes its colour at the line that asked for "
             "that, and a manager carries it out when it comes to it.",
    "threads": "Run in threads: nothing orders the lines of two threads, which stand here as in the script. A bar "
               "changes its colour at the line that asked for that; a branch that threads share has none.",
}


def element(tag, inner, **attributes):
    said = "".join(f' {name.rstrip("_").replace("_", "-")}="{escape(str(value))}"'
                   for name, value in attributes.items() if value != "")
    return f"<{tag}{said}>{inner}</{tag}>"


def linked(text):
    """A text in which each line that it names is a link to it."""
    return re.sub(r"\bline (\d+)", r'<a href="#line\1">line \1</a>', escape(text))


def drawn(mark):
    text = element("b", escape(mark.text)) if mark.text else ""
    slot = f"--slot:{mark.slot}" if mark.slot else ""
    return element("i", text, class_=mark.kind, style=slot, title=mark.title, aria_hidden="true")


def read_out(marks):
    """What a screen reader reads of a cell: of a bar where it begins or changes, and not on each row that it passes."""
    said = [mark.title or READ.get(mark.kind, "") for mark in marks if not mark.kind.endswith(" whole")]
    words = "; ".join(dict.fromkeys(filter(None, said)))
    return element("span", escape(words), class_="read-out") if words else ""


def lane_cells(lanes, cells):
    for place, marks in enumerate(cells):
        yield element("td", "".join(map(drawn, marks)) + read_out(marks), class_=lanes.kind(place))


def table_row(row, lanes, cells):
    line = "" if row.line is None else row.line
    means = "<br>".join(map(linked, [row.means, *row.more]))
    kind = f"{row.tone}{' reopened' if row.name == 'reopened' else ''}{' end' if row.line is None else ''}"
    # On a narrow screen the answer stands under its line, and not in columns of its own.
    answer = [element("span", row.number, class_="number"), element("span", escape(row.name), class_="name"),
              element("span", means, class_="means")]
    under = element("div", " ".join(answer), class_="under") if row.name else ""
    inner = [
        element("th", line and f'<a href="#line{line}">{line}</a>', class_="line", scope="row"),
        element("td", escape(row.text) + under, class_="script"),
        element("td", row.number, class_="answer number"),
        element("td", escape(row.name), class_="answer name"),
        element("td", means, class_="answer means"),
        *lane_cells(lanes, cells),
    ]
    return element("tr", "".join(inner), id=f"line{line}" if line else "", class_=kind)


def run_table(explanation):
    rows = explanation.in_order_of_lines()
    lanes = Lanes(explanation.story, rows, explanation.fates)
    heads = [element("th", head, class_=lanes.kind(place), scope="col", style=f"min-width:{lanes.width(place)}px")
             for place, head in enumerate(lanes.heads)]
    fixed = [element("th", head, class_=kind, scope="col") for head, kind in (
        ("line", "line"), ("script", "script"), ("code", "answer number"), ("name", "answer name"),
        ("meaning", "answer means"))]
    head = "".join(fixed + heads)
    body = "\n".join(table_row(row, lanes, cells) for row, cells in zip(rows, lanes.cells))
    caption = "<caption>Each line of the script, its answer, and what it did</caption>"
    table = f'<table class="run">\n{caption}\n<thead><tr>{head}</tr></thead>\n<tbody>\n{body}\n</tbody>\n</table>'
    return element("div", table, class_="lanes", tabindex="0", role="region", aria_label="the run, line by line")


def small_table(title, heads, rows):
    """A table with a title, nothing where it has no rows."""
    if not rows:
        return ""
    head = element("tr", "".join(element("th", it, scope="col") for it in heads))
    body = "\n".join(element("tr", element("th", row[0], scope="row") + "".join(element("td", it) for it in row[1:]))
                     for row in rows)
    return f'<table class="small">\n<caption>{title}</caption>\n{head}\n{body}\n</table>'


def page(explanation, name):
    legend = "".join(element("span", f'<b class="{kind}"></b>{said}') for kind, said in LEGEND)
    branches = [(element("span", named(it.xid), class_="xid"), f"manager {it.manager}",
                 linked(it.told())) for it in explanation.fates]
    values = [(f"manager {it.manager}", it.key, explanation.opening[it.manager, it.key], it.value)
              for it in explanation.values]
    parts = [
        f"<h1>{escape(name)}</h1>",
        element("p", ORDER[explanation.mode]),
        element("div", legend, class_="legend"),
        run_table(explanation),
        small_table("What became of each branch", ("branch", "where", "what the answers show"), branches),
        small_table("Values", ("where", "key", "before", "after"), values),
    ]
    return "\n".join([
        "<!DOCTYPE html>", '<html lang="en">', "<head>", '<meta charset="utf-8">',
        '<meta name="viewport" content="width=device-width, initial-scale=1">', f"<title>{escape(name)}</title>",
        f"<style>\n{STYLE.read_text()}</style>", "</head>", "<body>", *parts, "</body>", "</html>", "",
    ])
