"""The story of a study, in sentences with numbers: what to make faster, what not, what hurts, and who has the critical path."""
import collections
import textwrap

from study.curves import margin
from study.machine import COSTS
from study.names import readable
from study.paths import MOST_EVENTS
from study.told import listed, say
from study.weigh import kind_of

WIDTH = 100
HALF, QUARTER = 50, 25
# In per cent: what is a gain, what is dear, and what hurts.
WORTH, DEAR, HURTS = 1.0, 5.0, 0.5
# A dear line gains little if it gains less than this part of what is taken from it; two values differ if by more than this.
LITTLE, APART = 0.1, 0.5
GAINS, LEFT, HARMS, THREADS = 3, 2, 2, 4
PARTS = {25: "at three quarters of its cost", 50: "at half its cost", 75: "at a quarter of its cost"}

CAUTION = ("Each gain is that of one line alone, and all of this is said of the one schedule that coz runs. Another input, another "
           "number of threads or another machine has another schedule: try a second input before you build on a gain.")
ALONE = ("Each gain is that of one line alone, and all of this is said of one input, and of coz's costs of instructions, without "
         "caches: try a second input before you build on a gain.")

SEVERAL = ("Each gain is that of one line alone, as a mean of {machine}; the brackets hold two standard errors on both sides. Another "
           "input or another number of threads can gain otherwise: try a second input before you build on a gain.")

# The value of a row at a speedup.
Near = collections.namedtuple("Near", "speedup value error")


def at(speedup):
    return PARTS.get(speedup, f"at {speedup} per cent less cost")


def interval(value, error):
    """The interval of a value, in brackets; nothing of one schedule."""
    return "" if error is None else f" ({value - margin(error):.1f} to {value + margin(error):.1f})"


def takes(value, error=None):
    """How much less time something takes, of a value in per cent."""
    less = value > 0
    if abs(value) < 0.05:
        return f"takes as long as before{interval(value, error)}"
    return f"takes {abs(value):.1f} per cent {'less' if less else 'more'} time{interval(value if less else -value, error)}"


def nearest_of(steps, speedup):
    """The step whose speedup is nearest to this one."""
    return min(steps, key=lambda it: (abs(it.speedup - speedup), it.speedup))


def nearest(row, speedup):
    """The speedup of a row that is nearest to this one, its value in per cent, and the error of that."""
    step = nearest_of(row.steps, speedup)
    return Near(step.speedup, step.value / 100, None if step.error is None else step.error / 100)


def is_sound(row, cost):
    """Whether no value of a curve is much less than the one at the speedup before, and none more than all that the line costs."""
    values = [it.value / 100 for it in row.steps]
    rises = all(a - b <= max(APART, LITTLE * row.best) for a, b in zip(values, values[1:]))
    return rises and row.best <= cost + APART


class Story:
    """The paragraphs of a study, of its rows of lines and of functions, and of the latencies of its requests."""

    def __init__(self, study, lines, functions, latencies):
        self.study, self.lines, self.functions, self.latencies = study, lines, functions, latencies
        self.course, self.selection = study.course, study.course.selection
        self.weights, self.alone, self.several = self.selection.weights, study.first.harts == 1, self.course.several
        self.best = [it for it in lines if self.is_worth(it)][:GAINS]

    def paragraphs(self):
        gains = [self.gain(it, it is self.best[0]) for it in self.best] or [self.no_gain()]
        told = [*gains, *self.whole_function(), *self.at_other_costs(), *map(self.latency, self.latencies), *self.unsound(),
                *self.leave(), self.hurt(), self.path()]
        told.append(ALONE if self.alone else SEVERAL.format(machine=self.course.schedules()) if self.several else CAUTION)
        return [readable(it) for it in told]

    def unit(self, row):
        """What takes less time at the point of a row."""
        label = self.study.points[row.point]
        if self.study.visits[row.point] == 1:
            return "the run"
        names = [it for it in self.study.names_of(label) if it != label]
        return f"a visit of {label}" + (f" ('{names[0]}')" if names else "")

    def weights_of(self, row):
        return self.selection.functions.weights if row in self.functions else self.weights

    def cost(self, row):
        """What a line or function costs in the run as it is, in per cent of the net time."""
        if row.cost is not None:
            return row.cost
        return 100 * self.weights_of(row).ticks.get(row.label, 0) / max(self.study.first.net, 1)

    def is_sound(self, row):
        """Whether a gain can be built on: of several schedules every one whose interval is above 0."""
        return row.is_gain() if self.several else is_sound(row, self.cost(row))

    def is_worth(self, row):
        """Whether a row gains enough at half its cost, and not by chance."""
        near = nearest(row, HALF)
        return near.value >= WORTH and near.value > margin(near.error) and self.is_sound(row)

    # ---- what to make faster

    def is_own(self, row):
        """Whether a line or a function is the user's own, and not of a library."""
        entries = self.selection.functions.lines.entries if row in self.functions else self.study.lines.entries
        return self.study.is_own(row.label, entries[row.label])

    def name(self, row):
        """The name of a line or a function, and of which library it is."""
        path, _, number = row.label.rpartition(":")
        if row in self.functions and "/" not in path and number == "1":
            entry = min(self.selection.functions.lines.entries[row.label])
            return f"the function {path} ({kind_of(path, entry, self.study.library)})"
        library = "" if self.is_own(row) else " (library of C++)" if path.startswith("cxx/") else " (C library)"
        return f"{'the function ' if row in self.functions else ''}{row.label}{library}"

    def gain(self, row, is_first):
        half, value, error = nearest(row, HALF)
        do = f"make {row.label} faster" if self.is_own(row) else f"spend less in {self.name(row)}"
        do = do[0].upper() + do[1:] if is_first else f"Then {do}"
        text = f"{do}: {at(half)}, {self.unit(row)} {takes(value, error)}"
        less, its, error = nearest(row, QUARTER)
        if less < half and its < value - min(APART, LITTLE * value):
            is_more = its >= 0.05 and its > margin(error)
            none = "no gain can be told from 0" if self.several else "nothing is gained"
            text += f", and {at(less)} {its:.1f} per cent less{interval(its, error)}" if is_more else f", but {at(less)} {none}"
        return f"{text}. {self.shape(row)}{self.share(row)}"

    def shape(self, row):
        """What the steps of a curve say, beside its value at the half."""
        if row.above:
            return ("That is more than is taken from the line itself: others wait less, as for a lock that it holds, or "
                    + ("the threads then meet in another order. " if self.several else "it is an accident of this one schedule. "))
        first = next(it for it in row.steps if it.value / 100 >= row.best - min(APART, LITTLE * row.best))
        if first.speedup < row.steps[-1].speedup:
            return f"More than {first.speedup} per cent less cost gains nothing more, for then something else is waited for. "
        return ""

    def share(self, row):
        if self.alone:
            return f"It has {self.cost(row):.1f} per cent of the time."
        if row.label in self.selection.charged:
            return "The code without lines that it calls counts as its own. "
        if row.label not in self.weights.path:
            return "" if self.whole() else "It is not on the critical path of the first instructions. "
        return f"It has {self.weights.path[row.label]:.1f} per cent of the critical path{self.first()}."

    def no_gain(self):
        points = listed(self.study.points, 2)
        return (f"No line alone gains {WORTH:g} per cent or more at half its cost, at {points}. The time is spread over many lines, "
                "or it passes in code that has none, or the threads wait for something else.")

    def whole_function(self):
        """The function that gains most, if it gains more than its lines do."""
        rows = [it for it in self.functions if self.is_worth(it)]
        most = max((nearest(it, HALF)[1] for it in self.best), default=0)
        if not rows or nearest(rows[0], HALF)[1] < most + max(APART, LITTLE * most):
            return []
        half, value, error = nearest(rows[0], HALF)
        return [f"As a whole, {self.name(rows[0])} gains most: {at(half)}, {self.unit(rows[0])} {takes(value, error)}."]

    def at_other_costs(self):
        """Whether the best lines stay the best ones where some instructions cost more."""
        told = [self.at_costs(what, self.course.verdicts(name), name) for name, what in COSTS.items() if self.course.verdicts(name)]
        return [" ".join(told)] if told else []

    def at_costs(self, what, verdicts, name):
        fail = [it for it in verdicts if not it.stays]
        row = self.course.first_at(name)
        first = f", but there {self.name(row)} gains most: {row.mean:.1f} per cent in the mean{interval(row.mean, row.error)}" \
            if row.label != verdicts[0].label else ""
        best = "The line that gains most does so" if len(verdicts) == 1 else f"The {len(verdicts)} lines that gain most do so"
        if not fail:
            return f"{best} too {what}{first}."
        lines = [f"{it.label} gains {it.mean:.1f} per cent in the mean{interval(it.mean, it.error)}" if it.known else
                 f"nothing is known of {it.label}" for it in fail]
        others = f" The others are still{first}." if len(fail) < len(verdicts) else ""
        those = "are" if len(fail) > 1 else "is"
        return f"{what[0].upper()}{what[1:]}, {' and '.join(lines)}, and {those} not one of the best lines.{others}"

    def latency(self, latency):
        """How long a request takes, and with which line least."""
        base = latency.base
        text = f"Of the requests '{latency.pair.name}', {base.departures:,} of {base.arrivals:,} are done"
        if base.mean is None:
            return f"{text}."
        if not base.mean:
            return f"{text}, and no time passes from their begin to their end."
        text += f", after {base.mean:,} ticks each in the mean."
        halves = [(latency.change(nearest_of(steps[1:], HALF)), nearest_of(steps[1:], HALF).speedup, label)
                  for label, steps in latency.lines.items()]
        known = [it for it in halves if it[0] is not None]
        if not known:
            return text
        change, half, label = min(known)
        return f"{text} With {label} {at(half)}, a request {takes(-change)}."

    # ---- what not

    def unsound(self):
        """The lines whose gains are accidents of the schedule."""
        if self.several:
            return []
        rows = [self.name(it) for it in self.lines if it.best >= WORTH and not self.is_sound(it)]
        if not rows:
            return []
        they, gain, cost = ("they", "gain", "cost") if len(rows) > 1 else ("it", "gains", "costs")
        return [f"Do not build on {listed(rows, GAINS)}: {they} {gain} more than all that {they} {cost}, or less at a greater speedup "
                "than at a smaller one, as an accident of one schedule does."]

    def leave(self):
        """The lines that cost much and gain little, and then the functions that do, without those of these lines."""
        dear = [it for it in self.lines if self.is_dear(it)]
        told = {it.label for it in [*self.best, *dear]}
        lines_of = self.selection.functions.lines_of if self.functions else None
        dear += [it for it in self.functions if self.is_dear(it) and not told & lines_of([it.label])]
        dear.sort(key=lambda it: -self.cost(it))
        return [self.left_as_it_is(it) for it in dear[:LEFT]]

    def is_dear(self, row):
        half, value, _ = nearest(row, HALF)
        cost = self.cost(row)
        return cost >= DEAR and value < min(LITTLE * cost * half / 100, WORTH)

    def left_as_it_is(self, row):
        half, value, error = nearest(row, HALF)
        cost, path = self.cost(row), self.weights_of(row).path.get(row.label, 0)
        text = (f"Leave {self.name(row)} as it is: it costs {cost:.1f} per cent of the net time, all threads together, and yet "
                f"{at(half)} {self.unit(row)} {takes(value, error)}.")
        if path < 0.05:
            return f"{text} It has no part in the critical path{self.first()}: nothing waits for it."
        text += f" It has {path:.1f} per cent of the critical path{self.first()}"
        if path < cost * LITTLE:
            return f"{text}: mostly nothing waits for it."
        if -0.05 <= value < path * half / 200:
            return f"{text}: where it is faster, other work takes as long."
        return f"{text}."

    def hurt(self):
        if self.several:
            return self.hurt_on_all()
        rows = sorted((it for it in self.lines if it.worst <= -HURTS), key=lambda it: it.worst)[:HARMS]
        if not rows:
            return f"No profiled line makes the program slower by {HURTS:g} per cent or more if it is faster itself."
        told = [f"{self.name(it)} (by up to {-it.worst:.1f} per cent)" for it in rows]
        return f"Beware of {' and '.join(told)}: on this schedule, a visit takes more time if such a line is faster."

    def hurt_on_all(self):
        rows = sorted((it for it in self.lines if it.is_harm() and it.mean <= -HURTS), key=lambda it: it.mean)[:HARMS]
        if not rows:
            return f"No line that was tried on all schedules makes the program slower by {HURTS:g} per cent or more if it is faster itself."
        told = [f"{self.name(it)}, by {-it.mean:.1f} per cent in the mean{interval(-it.mean, it.error)}" for it in rows]
        return f"Beware of {' and '.join(told)}: a visit takes more time if such a line is faster."

    # ---- the critical path

    def whole(self):
        """Whether the critical path is that of the whole run."""
        return self.study.first.retired <= MOST_EVENTS

    def first(self):
        return "" if self.whole() else f" of the first {MOST_EVENTS:,} instructions"

    def path(self):
        if self.alone:
            return "The program has one thread, so all that it does is on the critical path."
        critical = self.weights.critical
        if not self.whole():
            return (f"Who has the critical path of the whole run is not known: the run has {self.study.first.retired:,} instructions, "
                    f"and the path is known of the first {MOST_EVENTS:,}.")
        net = max(critical.net, 1)
        names = {0: "the main thread"}
        threads = [f"{names.get(it, f'thread {it}')} has {100 * ticks / net:.1f} per cent"
                   for it, ticks in critical.of_threads().most_common()]
        text = f"Of the critical path, {listed(threads, THREADS)}"
        changes = len(critical.segments) - 1
        text += f"; it goes to another thread {changes:,} time{'' if changes == 1 else 's'}." if changes else "."
        more = [f"{100 * ticks / net:.1f} per cent of it is {what}" for ticks, what in (
            (critical.bare, "code without a line, such as the C library"), (critical.asleep, "sleep")) if 100 * ticks >= net]
        return text + (f" {' and '.join(more)}." if more else "")


def tell(paragraphs):
    """Prints the paragraphs with a blank line ahead of each."""
    for it in paragraphs:
        say("\n" + textwrap.fill(it, WIDTH, break_long_words=False, break_on_hyphens=False))
