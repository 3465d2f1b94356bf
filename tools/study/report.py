"""What a study has found: its tables, its pages and its story."""
import html
import os

from study import page, story
from study.curves import margin, rows_of
from study.latencies import latencies_of, tell_latency
from study.names import readable
from study.places import call, write_whole
from study.told import say, several

BEST, WORST = 10, 5
COLUMNS = 4
# The speedups whose values a table shows, if a profile has more.
SHOWN = (25, 50, 75, 95)


# ---- tables

def shown_of(speedups):
    """The speedups that have columns of their own."""
    if len(speedups) <= COLUMNS:
        return speedups
    return sorted({min(speedups, key=lambda it: abs(it - wanted)) for wanted in SHOWN})


def number(value, error):
    """A value in per cent, with the half of its interval if it has one."""
    return f"{value:.2f}%" if error is None else f"{value:.2f} +-{margin(error):5.2f}"


def cells(row, speedups):
    """The mean of a row and its values at some speedups."""
    steps = {it.speedup: it for it in row.steps}
    found = [number(row.mean, row.error)]
    for it in speedups:
        step = steps.get(it)
        found.append(number(step.value / 100, None if step.error is None else step.error / 100) if step else "absent")
    return found


def table_of(rows, speedups):
    width = 8 if rows[0].error is None else 15
    heads = ["mean", *(f"at {it}%" for it in speedups)]
    told = [" ".join(it.rjust(width) for it in heads) + "     cost  line"]
    for it in rows:
        cost = f"{it.cost:7.2f}%" if it.cost is not None else "       -"
        told.append(" ".join(found.rjust(width) for found in cells(it, speedups))
                    + f" {cost}  {it.label}{' *' if it.above else ''}")
    return "\n".join(told)


def show(rows, title, speedups):
    say(readable(f"{title}\n{table_of(rows, shown_of(speedups))}"))
    if any(it.above for it in rows):
        schedule = "it is an accident of this one schedule. Look whether its curve rises steadily, and try another input." \
            if rows[0].error is None else "the threads meet in another order."
        say("  * gains more than the time that is taken from the line itself: it holds a lock shorter, so that others wait less,")
        say(f"    or {schedule}")


def tell_functions(study, course):
    """Says which functions gain most."""
    if not course.functions:
        return
    rows = [it for it in rows_of(course.functions) if it.is_gain()][:study.functions]
    if rows:
        show(rows, f"functions by what they gain in the mean of the speedups{course.interval()}:", study.speedups)
    else:
        say("no function gains anything at the progress point that can be told from 0")


def tell_lines(study, course, rows):
    """Says which lines gain most, which hurt, and of how many it cannot be told."""
    gained = [it for it in rows if it.is_gain()]
    if gained:
        show(gained[:BEST], f"lines by what they gain in the mean of the speedups{course.interval()}:", study.speedups)
    else:
        say("no line gains anything at the progress point" + (" that can be told from 0" if course.several else ""))
    hurt = sorted((it for it in rows if it.is_harm()), key=lambda it: it.mean if course.several else it.worst)[:WORST]
    if hurt:
        show(hurt, "lines that make the program slower where they are faster:", study.speedups)
    unknown = [it for it in rows if not it.is_gain() and not it.is_harm()]
    if course.several:
        left = course.lines_of_first - len(rows)
        say(f"of {several(len(unknown), 'line')} the gain cannot be told from 0; {several(left, 'line')} gained less on the first "
            "schedule and were not tried on the others")


# ---- pages

def write_page(study, name, options=()):
    """Leaves the page of a profile's curves, which names the program and its input."""
    title = f"{name} of {os.path.basename(study.program)}" + (f" with {os.path.basename(study.fed)}" if study.fed else "")
    title += ", on the first schedule" if study.course.several else ""
    options = [f"--title={title}", *options]
    text = call([study.page, study.path(f"{name}.profile"), *options], 0).decode(errors="surrogateescape")
    write_whole(study.path(f"{name}.html"), readable(page.linked(text), html.escape).encode(errors="surrogateescape"))


def write_front(study, course, rows, told):
    """Leaves the first page: the story, and tables of the lines and functions."""
    selection = course.selection
    tables = [page.Table("Line", rows, selection.weights.path, "lines.html", shown_of(study.speedups), page.Texts(study.source or "."))]
    if course.functions:
        tables.append(page.Table("Function", rows_of(course.functions), selection.functions.weights.path, "functions.html",
                                 shown_of(study.speedups)))
    text = page.page_of(study.program, told, tables, course.schedules())
    write_whole(study.path("index.html"), text.encode(errors="surrogateescape"))


def report(study, course):
    """Prints the lines that gain most and those that hurt, how long requests take, and the story, and leaves the pages."""
    if course.functions:
        write_page(study, "functions")
    write_page(study, "lines", [f"--source={study.source or '.'}"])
    rows = rows_of(course.lines)
    latencies = latencies_of(study, rows)
    tell_functions(study, course)
    tell_lines(study, course, rows)
    for it in latencies:
        tell_latency(it)
    told = story.Story(study, rows, rows_of(course.functions) if course.functions else [], latencies).paragraphs()
    write_front(study, course, rows, told)
    say(f"page: {study.path('index.html')}")
    story.tell(told)
