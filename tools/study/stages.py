"""The stages of a study: what is profiled in each, chosen by what the stages before found.

Of one schedule there are two, the functions and the lines. Of several these are of the first schedule, and the best functions
and lines are tried on all of them. The last stage tries the best lines on more schedules and at other costs.
"""
import collections
import os

from study.curves import ERRORS, Profile, rows_of
from study.machine import FINE, MORE, OTHERS
from study.selection import Selection, finalists
from study.shards import Part, Stage, planned_left, runs_of
from study.told import Stop, say, several
from study.tries import Tries, spread_of, tried_runs

# Beside those that gain most on the first schedule, so many of the dearest functions and lines are tried on all schedules, and
# so many lines that hurt.
DEAR, HARMS = 4, 2
DEAR_FUNCTIONS = 2
# Lines whose error is over so many per cent are tried on more schedules, at most so many of them.
COARSE, MOST_COARSE = 0.5, 10
# How many runs are made may differ from how many were said by one part of so many.
SLACK = 20
# The best lines are tried at other costs, with some that could take their places, on so many schedules with such a base.
BEST, RIVALS, SEEDS, BASE = 5, 3, 4, 8
HALF = 50

# Whether a line stays one of the best at other costs, and what it gains there in the mean, if that is known.
Verdict = collections.namedtuple("Verdict", "label stays known mean error")


class Course:
    """The stages of a study, one after the other, and what they found."""

    def __init__(self, study):
        self.study, self.machine = study, study.machine
        self.selection = Selection(study)
        self.functions, self.lines = None, None
        self.function_tries, self.line_tries, self.more = None, None, None
        self.best, self.others, self.lines_of_first = [], {}, 0
        self.spread, self.said = 0.0, 0
        self.several = self.machine.schedules > 1

    def stages(self):
        """Each stage must be made before the next is asked for."""
        stage = self.function_stage()
        if stage:
            yield stage
        yield self.line_stage()
        if self.several:
            yield self.schedule_stage()
            stage = self.last_stage()
            if stage.shards:
                yield stage
            self.settle()
        else:
            self.lines = Profile(self.study.path("lines.profile"))

    def is_last(self, stage):
        return stage.name == ("checks" if self.several else "lines")

    def first(self, name, program, labels):
        """The profile of the first schedule."""
        words = self.machine.words(program, self.machine.seeds()[0])
        return Part(self.study, name, words, labels, self.study.speedups)

    def on(self):
        return " on the first schedule" if self.several else ""

    def interval(self):
        """What the numbers of a table are."""
        return f", in per cent, +- {ERRORS} standard errors" if self.several else ""

    def schedules(self):
        """On which machine gains were found, in words."""
        return self.machine.told()

    # ---- functions

    def function_stage(self):
        labels = self.selection.function_labels()
        if not labels:
            return None
        part = self.first("functions", self.selection.functions.program, labels)
        return Stage(self.study, "functions", f"{several(len(labels), 'function')}{self.on()}", [part])

    def best_functions(self):
        """The functions that gain most on the first schedule; with several schedules they are tried on all."""
        path = self.study.path("functions.profile")
        if not self.selection.functions or not os.path.exists(path):
            return []
        self.functions = Profile(path)
        rows = rows_of(self.functions)
        if self.several:
            labels = finalists(rows, self.study.functions, DEAR_FUNCTIONS, 0)
            self.function_tries = self.tries("functions", self.selection.functions.program,
                                             [it for it in self.selection.functions.labels if it in labels])
        return [it.label for it in self.selection.functions.best(rows)]

    def tries(self, name, program, labels, times=MORE):
        """Lines on all schedules, of which the first is there, with a base of so many times as many."""
        seeds, more = self.machine.seeds(), self.machine.seeds(times)
        kept = {seeds[0]: self.study.path(f"{name}.profile")}
        return Tries(self.study, name, program, labels, seeds, more[len(seeds):], kept)

    # ---- lines

    def line_stage(self):
        labels = self.selection.lines(self.best_functions())
        if not labels:
            raise Stop("the run starts no line that could matter: compile the program with -g, or give a smaller --least")
        self.lines_of_first = len(labels)
        parts, told = [self.first("lines", self.study.program, labels)], f"{several(len(labels), 'line')}{self.on()}"
        if self.function_tries:
            parts += self.function_tries.parts()
            told += f", and {several(len(self.function_tries.labels), 'function')} on all {self.machine.schedules}"
        return Stage(self.study, "lines", told, parts)

    def schedule_stage(self):
        if self.function_tries:
            self.functions = self.function_tries.average()
        rows = rows_of(Profile(self.study.path("lines.profile")))
        labels = self.study.in_order(finalists(rows, self.study.best, DEAR, HARMS))
        self.line_tries = self.tries("lines", self.study.program, labels, self.machine.times_for(self.spread))
        told = f"{several(len(self.line_tries.labels), 'line')} on all {self.machine.schedules} schedules"
        return Stage(self.study, "schedules", told, self.line_tries.parts())

    def last_stage(self):
        self.lines = self.line_tries.average()
        rows = rows_of(self.lines)
        coarse, more = self.study.in_order(self.coarse_of(rows)), self.machine.seeds(MORE)
        base = [it for it in self.line_tries.base if it not in more]
        self.more = Tries(self.study, "more", self.study.program, coarse, more, base,
                          {it: self.line_tries.path(it) for it in [*self.line_tries.seeds, *base]})
        best = [it.label for it in rows if it.is_gain()][:BEST]
        rivals = [it.label for it in rows if it.label not in best][:BEST + RIVALS - len(best)] if best else []
        self.best = best
        self.others = {name: self.at_costs(name, costs, best + rivals) for name, costs in OTHERS.items()}
        parts = [part for it in [self.more, *self.others.values()] for part in it.parts()]
        told = f"{several(len(best + rivals), 'line')} at other costs"
        if coarse:
            told += f", and {several(len(coarse), 'line')} with an error over {COARSE:g} on {len(more)} schedules"
        return Stage(self.study, "checks", told, parts)

    def coarse_of(self, rows):
        """The lines that are tried on more schedules: those whose error is too great. So that the runs in all are about as many as
        was said, the last ones are left out, or those with the next greatest errors are among them."""
        coarse = [it.label for it in rows if it.error is not None and it.error > COARSE]
        expected, slack = self.expected_coarse(), self.said // SLACK // self.each_coarse()
        if len(coarse) > expected + slack:
            say(f"errors over {COARSE:g} are left of {several(len(coarse) - expected - slack, 'line')}: a greater --schedules lowers them")
        by_error = sorted((it for it in rows if it.label not in coarse and it.error), key=lambda it: -it.error)
        others = [it.label for it in by_error[:max(0, expected - slack - len(coarse))]]
        return [*coarse[:expected + slack], *others]

    def expected_coarse(self):
        """How many lines are expected to have an error that is too great, of how much the runs without a faster line differ. The
        values of a line at different speedups are no independent ones, so they count as half as many."""
        values = self.machine.schedules * max(1, len(self.study.speedups) / 2)
        return MOST_COARSE if self.spread ** 2 / values + FINE ** 2 > COARSE ** 2 else 0

    def at_costs(self, name, costs, labels):
        seeds = self.machine.seeds(MORE)
        cut = min(SEEDS, self.machine.schedules)
        return Tries(self.study, name, self.study.program, self.study.in_order(labels), seeds[:cut], seeds[cut:BASE],
                     speedups=self.few_speedups(), costs=costs)

    def few_speedups(self):
        """The speedup that is nearest to the half, and the greatest one."""
        speedups = self.study.speedups
        return sorted({min(speedups, key=lambda it: abs(it - HALF)), speedups[-1]})

    def settle(self):
        """Takes what the last stage found."""
        if self.more.labels:
            self.lines.take(self.more.average())
        self.others = {name: it.average() for name, it in self.others.items() if it.labels}

    def verdicts(self, name):
        """Of each of the best lines, whether it stays one at other costs: it gains there beyond its interval, and is as high."""
        if name not in self.others:
            return []
        rows = rows_of(self.others[name])
        places = {it.label: k for k, it in enumerate(rows)}
        found = []
        for label in self.best:
            row = rows[places[label]] if label in places else None
            stays = row is not None and row.is_gain() and places[label] < BEST
            found.append(Verdict(label, stays, row is not None, row and row.mean, row and row.error))
        return found

    def first_at(self, name):
        """The line that gains most at other costs."""
        return rows_of(self.others[name])[0]

    # ---- how many runs

    def measure(self):
        """Makes the runs of all schedules without a faster line, and says how much they differ."""
        if self.several:
            self.spread = spread_of(self.study)
            say(f"a run takes {self.spread:.1f} per cent more or less time on other schedules (standard deviation)")

    def expected(self):
        """The runs of each stage after that of the functions, as they are expected before it, or as they are planned already."""
        study, lines = self.study, self.selection.expected()
        if lines is None:
            lines = len(self.selection.lines([]))
        found = {"lines": runs_of(lines, study.speedups)}
        if self.several:
            schedules, functions = self.machine.schedules, len(self.selection.function_labels())
            tried = min(functions, study.functions + DEAR_FUNCTIONS)
            base = (MORE - 1) * schedules
            found["lines"] += tried_runs(tried, study.speedups, schedules - 1, base)
            tried = min(lines, study.best + DEAR + HARMS)
            found["schedules"] = tried_runs(tried, study.speedups, schedules - 1, base)
            seeds = min(SEEDS, schedules)
            found["checks"] = len(OTHERS) * tried_runs(min(lines, BEST + RIVALS), self.few_speedups(), seeds,
                                                       len(self.machine.seeds(MORE)[seeds:BASE]))
            found["checks"] += min(self.expected_coarse(), lines) * self.each_coarse()
            found["schedules"] += (self.machine.times_for(self.spread) - MORE) * schedules
        self.said = sum(found.values()) + (runs_of(len(self.selection.function_labels()), study.speedups))
        planned = {name: planned_left(study, name) for name in found}
        return {name: runs if planned[name] is None else planned[name] for name, runs in found.items()}

    def each_coarse(self):
        """The runs that a line takes whose error is too great."""
        return (MORE - 1) * self.machine.schedules * len(self.study.speedups)
