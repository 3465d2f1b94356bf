"""The first page of a study, index.html: its story, the best lines with their texts, the best functions, and links to curves."""
import html
import os
import urllib.parse

from study.curves import margin
from study.names import readable
from study.pictures import Axis, picture_of

SHOWN = 20
LONGEST = 120
STYLE = """
:root { color-scheme: light dark; --ink: #1d2125; --paper: #fff; --faint: #c8ced6; --link: #0a5fbf; }
@media (prefers-color-scheme: dark) { :root { --ink: #e4e7ea; --paper: #17191c; --faint: #454c55; --link: #74b7ff; } }
body { margin: 1rem auto; max-width: 72rem; padding: 0 .75rem; background: var(--paper); color: var(--ink); font: 1rem/1.45 system-ui, sans-serif; }
h1 { font-size: 1.35rem; }
h2 { font-size: 1.1rem; }
p, td { overflow-wrap: anywhere; }
table { border-collapse: collapse; width: 100%; }
th, td { border-bottom: 1px solid var(--faint); padding: .2rem 0; text-align: left; }
th + th, td + td { padding-left: 1rem; text-align: right; white-space: nowrap; font-variant-numeric: tabular-nums; }
a { color: var(--link); }
svg { display: inline-block; vertical-align: middle; }
polyline { fill: none; stroke: var(--link); stroke-width: 1.5; }
polyline.zero { stroke: var(--faint); stroke-width: 1; }
polygon { fill: var(--link); fill-opacity: .2; }
.wide { overflow-x: auto; }
"""


class Texts:
    """The texts of lines, from the files below a folder. A line without a file has none."""

    def __init__(self, folder):
        self.folder, self.files = folder, {}

    def of(self, label):
        file, _, number = label.rpartition(":")
        if file not in self.files:
            try:
                with open(os.path.join(self.folder, urllib.parse.unquote(file)), encoding="utf-8", errors="replace") as text:
                    self.files[file] = text.read().splitlines()
            except OSError:
                self.files[file] = []
        lines = self.files[file]
        return lines[int(number) - 1].strip()[:LONGEST] if int(number) <= len(lines) else ""


def cell(text):
    return f"<td>{text}</td>"


def number(value, error):
    """A value in per cent, with its interval if it has one."""
    if value is None:
        return "absent"
    return f"{value:.2f}%" + (f" &plusmn; {margin(error):.2f}" if error is not None else "")


def row_of(row, speedups, texts, path, axis):
    text = texts.of(row.label) if texts else ""
    name = html.escape(row.label) + (f"<br><code>{html.escape(text)}</code>" if text else "")
    steps = {it.speedup: (it.value / 100, None if it.error is None else it.error / 100) for it in row.steps}
    numbers = [(row.mean, row.error), *(steps.get(it, (None, None)) for it in speedups), (row.cost, None),
               (path.get(row.label, 0), None)]
    return "<tr>" + "".join(map(cell, [name, *(number(*it) for it in numbers), picture_of(row, axis)])) + "</tr>"


class Table:
    """Rows of lines or functions with their shares of the critical path, and the page of their curves."""

    def __init__(self, noun, rows, path, file, speedups, texts=None):
        self.noun, self.rows, self.path, self.file, self.speedups, self.texts = noun, rows, path, file, speedups, texts

    def table(self, rows):
        names = (self.noun, "Mean gain", *(f"At {it}%" for it in self.speedups), "Cost", "Critical path", "0 to 100%")
        heads, axis = "".join(f"<th>{it}</th>" for it in names), Axis(rows)
        rows = "\n".join(row_of(it, self.speedups, self.texts, self.path, axis) for it in rows)
        return f'<div class="wide">\n<table>\n<tr>{heads}</tr>\n{rows}\n</table>\n</div>'

    def others(self):
        """The rows of several schedules that are no gains."""
        known = [it for it in self.rows if it.error is not None]
        harms, unknown = [it for it in known if it.is_harm()], [it for it in known if not it.is_gain() and not it.is_harm()]
        told = [f"<h2>{self.noun}s that make the program slower where they are faster</h2>\n{self.table(harms)}"] if harms else []
        if unknown:
            names = ", ".join(html.escape(it.label) for it in unknown)
            told.append(f"<p>The gain of these {self.noun.lower()}s cannot be told from 0: {names}.</p>")
        return told

    def html(self):
        gains = [it for it in self.rows if it.error is None or it.is_gain()][:SHOWN]
        told = [f"<h2>{self.noun}s by what they gain</h2>",
                f'<p><a href="{self.file}">The curves of the {self.noun.lower()}s</a></p>']
        told += [self.table(gains)] if gains else []
        return "\n".join([*told, *self.others()])


def page_of(program, paragraphs, tables, schedules):
    """The page, whose names of C++ are as their sources write them."""
    name = html.escape(os.path.basename(program))
    told = "\n".join(f"<p>{html.escape(it)}</p>" for it in paragraphs)
    shown = "\n".join(it.html() for it in tables if it.rows)
    text = f"""<!DOCTYPE html>
<html lang="en">
<head>
<meta charset="utf-8">
<meta name="viewport" content="width=device-width, initial-scale=1">
<title>coz: what to make faster in {name}</title>
<style>{STYLE}</style>
</head>
<body>
<h1>What to make faster in {name}</h1>
{told}
{shown}
<p>Gains are those of {schedules}; &plusmn; is two standard errors. The mean gain is that of all speedups. The
pictures of a table have one axis of values; their bands are the intervals. Gains, costs and shares are in per cent of the net
time; the cost is that of all threads together.</p>
</body>
</html>
"""
    return readable(text, html.escape)


def linked(text):
    """A page of curves with a link to the first page."""
    return text.replace("<body>\n", '<body>\n<p><a href="index.html">The story</a></p>\n', 1)
