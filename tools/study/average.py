"""Averages of the profiles of several schedules, with their errors, in whole numbers: the text of a table, and what it says.

The profiles are of the same lines, points and speedups, on machines that differ in their seeds alone. A profile that has the
speedup 0 alone adds to the base. The one of seed 0 among others has the exact schedule, and no part in the averages.
"""
import collections
import fractions
import math

from study.curves import Block, Mean, Profile, Step, base_of, value_of

# An exact value is rough if it differs from the average by more than so many hundredths of a per cent, and so many errors.
ROUGH, ERRORS = 200, 3
EXACT_SEED = 0

# A line of the table: its mean over the speedups above 0, and the error of it, its cost, and its steps. All in hundredths of a
# per cent, or None.
Curve = collections.namedtuple("Curve", "area error cost steps")


def variance(values):
    """The variance of some numbers, with one less than their number below; None of fewer than two."""
    if len(values) < 2 or None in values:
        return None
    mean = fractions.Fraction(sum(values), len(values))
    return sum((it - mean) ** 2 for it in values) / (len(values) - 1)


def root(number):
    """The whole part of a square root."""
    return math.isqrt(number.numerator // number.denominator)


def summed(blocks):
    """The base of some runs: the sums of their net times and of their visits."""
    visits = [sum(them) for them in zip(*(it.visits for it in blocks))]
    return Block(None, sum(it.net for it in blocks), None, None, None, visits)


def spread(blocks, point):
    """The variance of the value of a run against the base of all of them; None of fewer than two."""
    base = summed(blocks)
    return variance([value_of(base, it, point) for it in blocks])


class Averages:
    """The averages of some profiles, point by point."""

    def __init__(self, profiles):
        self.exact = next((it for it in profiles if it.seed == EXACT_SEED), None) if len(profiles) > 1 else None
        self.used = [it for it in profiles if it is not self.exact]
        self.full = [it for it in self.used if any(max(them) for them in it.lines.values())]
        first = self.full[0]
        self.labels, self.points = list(first.lines), range(len(first.points))
        self.speedups = sorted(next(iter(first.lines.values())))
        blocks = [base_of(it) for it in self.used]
        self.base = summed(blocks)
        found = [spread(blocks, point) for point in self.points]
        self.spreads = [None if it is None else it / len(blocks) for it in found]

    def error(self, values, point):
        """The standard error of the mean of some values against the base."""
        of_values = variance(values)
        if of_values is None or self.spreads[point] is None:
            return None
        return root(fractions.Fraction(of_values) / len(values) + self.spreads[point])

    def values(self, label, speedup, point):
        """The value of each schedule."""
        if not speedup:
            return [0] * len(self.full)
        return [value_of(self.base, it.lines[label][speedup], point) for it in self.full]

    def step(self, label, speedup, point):
        values = self.values(label, speedup, point)
        if None in values:
            return Step(speedup, None, None, None)
        error = self.error(values, point)
        return Step(speedup, sum(values) // len(values), 0 if error is not None and not speedup else error, None)

    def curve(self, label, point):
        steps = [self.step(label, it, point) for it in self.speedups]
        above = [it.value for it in steps if it.speedup]
        if not above or None in above:
            return Curve(None, None, self.cost(label), steps)
        all_of = zip(*(self.values(label, it, point) for it in self.speedups if it))
        means = [fractions.Fraction(sum(it), len(it)) for it in all_of]
        return Curve(sum(above) // len(above), self.error(means, point), self.cost(label), steps)

    def cost(self, label):
        """What the line costs, as a part of the base: its mean delay at the greatest speedup, over that speedup."""
        greatest = max(self.speedups)
        if not greatest or not self.base.net:
            return None
        delays = sum(it.lines[label][greatest].delay for it in self.full)
        return delays * 100 * len(self.used) * 10000 // (len(self.full) * greatest * self.base.net)

    def exactness(self, label, point, steps):
        """Whether the exact schedule gains what the average gains; absent without that schedule."""
        if self.exact is None:
            return "absent"
        exact = {it.speedup: it.value for it in self.exact.curve(label, point)}
        differ = any(it.speedup and None not in (it.value, exact[it.speedup])
                     and abs(exact[it.speedup] - it.value) > max(ROUGH, ERRORS * (it.error or 0)) for it in steps)
        return "rough" if differ else "smooth"


def told(value):
    return "absent" if value is None else str(value)


def table_of(profiles):
    """The table of averages of some profiles: by point, then by falling mean, absent ones last, then in the order of lines."""
    averages = Averages(profiles)
    rows = [f"average\tseeds={len(averages.full)}\tbase={len(averages.used)}\tpoints={len(averages.points)}"]
    for point in averages.points:
        curves = [(it, averages.curve(it, point)) for it in averages.labels]
        for label, curve in sorted(curves, key=lambda it: (it[1].area is None, -(it[1].area or 0))):
            rows.append(f"curve\tpoint={point}\tselected={label}\tarea={told(curve.area)}\terror={told(curve.error)}"
                        f"\tcost={told(curve.cost)}\texact={averages.exactness(label, point, curve.steps)}")
            rows += [f"step\tspeedup={it.speedup}\tvalue={told(it.value)}\terror={told(it.error)}" for it in curve.steps]
    return "".join(f"{it}\n" for it in rows)


def averaged(paths):
    """The table of averages of the profiles in some files. This is the one place in which tables are made."""
    return table_of([Profile(it) for it in paths])


def number(word):
    return None if word == "absent" else int(word)


class Average:
    """What a table of averages says, with the names of its points: the curve of each line at each of them."""

    def __init__(self, text, points):
        self.points, self.lines, self.curves, self.schedules = points, {}, {}, {}
        for row in text.splitlines():
            word, *rest = row.split("\t")
            fields = dict(it.partition("=")[::2] for it in rest)
            if word == "average":
                seeds = int(fields["seeds"])
            elif word == "curve":
                label, steps = fields["selected"], []
                self.lines.setdefault(label, len(self.lines))
                self.schedules[label] = seeds
                numbers = (number(fields[it]) for it in ("area", "error", "cost"))
                self.curves[label, int(fields["point"])] = Curve(*numbers, steps)
            elif word == "step":
                steps.append(Step(int(fields["speedup"]), number(fields["value"]), number(fields["error"]), None))

    def take(self, other):
        """Takes the curves of some lines from a table of more schedules."""
        self.curves.update(other.curves)
        self.schedules.update(other.schedules)

    def cost(self, label):
        """What the line costs, in per cent of the net time; None if no run says it."""
        cost = self.curves[label, 0].cost
        return None if cost is None else cost / 100

    def curve(self, label, point):
        return self.curves[label, point].steps

    def mean(self, label, point):
        """The mean of the values above speedup 0 in per cent, and its error; None if nothing can be said."""
        curve = self.curves[label, point]
        if curve.area is None:
            return None
        return Mean(curve.area / 100, None if curve.error is None else curve.error / 100)
