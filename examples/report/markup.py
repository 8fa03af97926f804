"""Parts of pages: tables, bars, links, texts of times."""
import html
import json
import os

from report import figures

HERE = os.path.dirname(os.path.realpath(__file__))
ROWS = 4000  # rows of a table in a page; report.json has all
POLICY = "default-src 'none'; style-src 'unsafe-inline'; script-src 'unsafe-inline'; img-src data:"


def escape(text):
    return html.escape(str(text), quote=True)


def below(name, root):
    """A name without the directory that all have in common."""
    return name[len(root):] if root and name.startswith(root) else name


def part(name):
    with open(os.path.join(HERE, name), encoding="utf-8") as file:
        return file.read()


def page(title, parent, links, body, data):
    """A whole page, with its style, script and data."""
    text = json.dumps(data, separators=(",", ":")).replace("<", "\\u003c").replace("&", "\\u0026")
    return f"""<!DOCTYPE html>
<html lang="en">
<head>
<meta charset="utf-8">
<meta name="viewport" content="width=device-width, initial-scale=1">
<meta http-equiv="Content-Security-Policy" content="{POLICY}">
<title>{escape(title)} - {escape(parent)}</title>
<style>
{part("page.css")}</style>
</head>
<body>
<a class="skip" href="#main">To the content</a>
<header>
<h1>{escape(parent)}: {escape(title)}</h1>
<nav aria-label="Pages">{links}</nav>
</header>
<main id="main">
<noscript><p><b>The timeline and the search need JavaScript. report.json has the same numbers.</b></p></noscript>
{body}
</main>
<script type="application/json" id="data">{text}</script>
<script>
{part("page.js")}</script>
</body>
</html>
"""


class Row(list):
    """A row of a table with attributes of its own."""

    def __init__(self, cells, attributes):
        super().__init__(cells)
        self.attributes = attributes


def cell(it, kind):
    """A cell: text, or markup in a tuple."""
    return f"<td{kind}>{it[0] if isinstance(it, tuple) else escape(it)}</td>"


def table(heads, rows, caption, more="", name=""):
    """A table. A head that ends in # has numbers below it, one that ends in ~ names of files."""
    if not rows:
        return '<p class="soft">None.</p>\n'
    kinds = [{"#": ' class="n"', "~": ' class="m"'}.get(it[-1:], "") for it in heads]
    head = "".join(f'<th scope="col"{kind}>{escape(it.rstrip("#~"))}</th>' for it, kind in zip(heads, kinds))
    body = "\n".join(f"<tr{getattr(row, 'attributes', '')}>" + "".join(map(cell, row, kinds)) + "</tr>" for row in rows[:ROWS])
    if len(rows) > ROWS:
        caption += f"; the first {ROWS} of {len(rows)}, report.json has all"
    return (f'<p class="soft">{escape(caption)}</p>{more}'
            f'<div class="wide tall" tabindex="0" role="region" aria-label="{escape(caption)}">'
            f'<table{f" id={name}" if name else ""}>\n<thead><tr>{head}</tr></thead>\n<tbody>\n{body}\n</tbody></table></div>\n')


def find(rows, label):
    """A field that hides the rows of a table that do not have its text."""
    return f'<p><label>{escape(label)} <input type="search" data-rows="{rows}" autocomplete="off"></label></p>'


def some(texts, most):
    """The first texts of a list, and how many more there are."""
    return ", ".join(texts[:most]) + (f" and {len(texts) - most} more" if len(texts) > most else "")


def time(moment):
    return (f'<time data-m="{moment}">{figures.text_of(moment)}</time>',)


def length(seconds):
    days, rest = divmod(seconds, 86400)
    hours, rest = divmod(rest, 3600)
    texts = [f"{days} d"] * (days > 0) + [f"{hours} h"] * (days + hours > 0) + [f"{rest // 60:02} min"]
    return " ".join(texts + [f"{rest % 60} s"] * (rest % 60 > 0))


def link(satellite, moment):
    """A satellite, with the way to its day in the timeline."""
    day = f"{figures.date_of(moment):%Y-%m-%d}"
    return (f'<a href="{day[:7]}.html#s={satellite}&amp;d={day}">{satellite}</a>',)


def strip(seconds, whole, text, satellite=""):
    """Coverage by day as a row of bars: full height is all of a day."""
    step = max(1, -(-len(seconds) // 740))
    levels = []
    for at in range(0, len(seconds), step):
        of_these = seconds[at:at + step]
        levels.append(round(sum(of_these) * 20 / (whole * len(of_these)), 1))
    path, at = "", 0
    while at < len(levels):
        end = at
        while end < len(levels) and levels[end] == levels[at]:
            end += 1
        if levels[at]:
            path += f"M{at} 20v-{levels[at]:g}h{end - at}v{levels[at]:g}z"
        at = end
    sat = f' data-sat="{satellite}"' if satellite else ""
    return (f'<svg class="strip" viewBox="0 0 {len(levels)} 20" preserveAspectRatio="none" role="img" data-days="{len(seconds)}"{sat} '
            f'aria-label="{escape(text)}"><title>{escape(text)}</title><path d="{path}"/></svg>',)


def tiles(pairs):
    return '<ul class="tiles">' + "".join(f"<li><b>{escape(value)}</b>{escape(what)}</li>" for what, value in pairs) + "</ul>\n"


SCALE = ('<span class="bar" role="group" aria-label="Time scale">'
         '<button type="button" data-utc="0" aria-pressed="true">GPS time</button>'
         '<button type="button" data-utc="1" aria-pressed="false">UTC</button></span>')
