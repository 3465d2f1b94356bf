"""coz-study export DIR: all curves of a study as CSV or JSON."""
import csv
import json
import os
import sys

from study.books import Book
from study.curves import Row, margin
from study.told import Stop

PROFILES = ("functions", "lines")
COLUMNS = ["profile", "line", "point", "speedup", "value", "low", "high", "schedules", "net", "visits", "end", "starts", "cost"]


def books_of(folder):
    """The profiles of a study that are whole, by their names."""
    found = {it: Book(folder, it) for it in PROFILES if os.path.isfile(os.path.join(folder, f"{it}.profile"))}
    if not found:
        begun = os.path.isfile(os.path.join(folder, "study.json"))
        raise Stop(f"{folder} has no whole profile yet: start the study again by the same words" if begun else
                   f"{folder} is no folder of a study: coz-study PROG makes PROG.study")
    return found


def rounded(number):
    return None if number is None else round(number, 4)


def interval(value, error):
    """The ends of an interval, of a value and its error in per cent; None of one schedule."""
    return (None, None) if error is None or value is None else (rounded(value - margin(error)), rounded(value + margin(error)))


def steps_of(book, label):
    """Each step of a line, by point and speedup: its value with its interval in per cent, and what one run says."""
    for number, point in enumerate(book.points):
        for step in book.curve(label, number):
            value, error = (None if it is None else it / 100 for it in (step.value, step.error))
            low, high = interval(value, error)
            found = {"speedup": step.speedup, "value": value, "low": low, "high": high}
            block = step.block
            one = {"net": block.net, "visits": block.visits[number], "end": block.end, "starts": block.starts} if block else {}
            yield point, {**found, **one}


def write_csv(books, out):
    writer = csv.DictWriter(out, COLUMNS, lineterminator="\n")
    writer.writeheader()
    for name, book in books.items():
        for label in book.lines:
            whole = {"profile": name, "line": label, "cost": rounded(book.cost(label)), "schedules": book.schedules(label)}
            writer.writerows({**whole, "point": point, **step} for point, step in steps_of(book, label))


def line_of(book, label):
    row = Row(book, label)
    line = {"line": label, "cost": rounded(row.cost), "schedules": book.schedules(label), "curves": []}
    if row.known:
        low, high = interval(row.mean, row.error)
        line.update(mean=rounded(row.mean), low=low, high=high, best=row.best, worst=row.worst, above_cost=row.above)
    for point, step in steps_of(book, label):
        if not line["curves"] or line["curves"][-1]["point"] != point:
            line["curves"].append({"point": point, "steps": []})
        line["curves"][-1]["steps"].append(step)
    return line


def write_json(books, out):
    told = {name: {"points": book.points, "lines": [line_of(book, it) for it in book.lines]} for name, book in books.items()}
    json.dump(told, out, indent=1)
    out.write("\n")


def carry_out(asked):
    books = books_of(asked.dir)
    {"csv": write_csv, "json": write_json}[asked.format](books, sys.stdout)
    sys.stdout.flush()
