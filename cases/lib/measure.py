"""Measures a case: what the change costs, what the machine predicts of it, and what it brings."""
import os

from . import average, catalogue, machine

MOST = 95  # The greatest speedup that coz-gain takes.
SLACK = 100  # A hundred hundredths are one point.


class Variant:
    """A program of a case, before or after the change: its file, its progress point, and its selected lines.

    A line is None if the program has no code of the selected lines.
    """

    def __init__(self, case, name, words):
        program = case.program
        regions = [it.region(program, name) for it in case.selected if not isinstance(it, str)]
        self.point = program.point.region(program, name).line
        os.makedirs(f"{catalogue.OUT}/run", exist_ok=True)
        to = f"{catalogue.OUT}/run/{program.name}.{name}.{os.getpid()}"
        kept = f"{catalogue.OUT}/{program.name}." + ("before" if case.part or case.environment else name)
        there = {it.text for it in regions if machine.has_lines(kept, it.text)}
        self.file = machine.prepare(kept, to, self.point, [it.text for it in regions if it.text in there], (case.charged, case.shown))
        names = iter(it.line if it.text in there else None for it in regions)
        self.lines = [machine.line_of(to, it) if isinstance(it, str) else next(names) for it in case.selected]
        machine.start(to, words, program.files, case.environment if name == "after" else ())

    def remove(self):
        """Removes the files that were made of the program."""
        for made in (self.file, f"{self.file}.own"):
            os.remove(made)


class Row:
    """What came of a case: cost after over before and speedup of each selection, and the two estimates."""

    def __init__(self, case, parts, speedups, predicted, real):
        self.case, self.parts, self.speedups, self.predicted, self.real = case, parts, speedups, predicted, real

    def error(self):
        """Returns the prediction less what came, in hundredths of a per cent."""
        return self.predicted.value - self.real.value

    def is_met(self):
        """Whether what came lies in the predicted interval, or at most a point from it."""
        return self.predicted.holds(self.real.value, SLACK)

    def text(self):
        """Returns the row of the table."""
        shares = " ".join(f"{100 * it:.1f}" for it in self.parts)
        cells = [self.case.name, self.case.about, shares, spread(self.predicted), spread(self.real), hundredths(self.error())]
        return "| " + " | ".join(cells) + (" |" if self.is_met() else " **off** |")


def hundredths(value):
    """Returns a number of hundredths as text."""
    return f"{value / 100:.2f}"


def spread(estimate):
    """Returns a mean and half its interval as text."""
    return f"{hundredths(estimate.value)} +- {hundredths(estimate.reach())}"


def speedup_of(part):
    """Returns the speedup that coz-gain takes for a cost after over cost before."""
    return min(MOST, max(0, round(100 * (1 - part))))


def measure(case, seeds, jobs):
    """Returns the row of a case."""
    before, after = Variant(case, "before", case.words), Variant(case, "after", case.after)
    many = machine.Machine(case.options, seeds, jobs)
    parts, speedups, predicted, base = [], [], [], []
    for old, new in zip(before.lines, after.lines):
        left = many.cost(after.file, new, after.point) if new and not case.part else 0
        part = case.part or left / many.cost(before.file, old, before.point)
        speedup = speedup_of(part)
        runs = many.runs(before.file, old, before.point, sorted({0, speedup}))
        base = [it[0].pair() for it in runs]
        parts.append(part)
        speedups.append(speedup)
        predicted.append(average.estimate([it[speedup].pair() for it in runs], base))
    any_line = next(filter(None, after.lines))
    changed = [it[0].pair() for it in many.runs(after.file, any_line, after.point, [0])]
    before.remove()
    after.remove()
    return Row(case, parts, speedups, average.total(predicted), average.estimate(changed, base))
