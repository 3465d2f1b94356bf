"""How much more time the work takes in one build of a program than in another, over the schedules of the same seeds."""
import collections
import concurrent.futures
import fractions
import os
import tempfile

from study.average import root, summed, variance
from study.builds import both
from study.curves import Profile, base_of, value_of
from study.machine import Machine
from study.places import call, write_whole

# How much more time something takes, in per cent, with the standard error of that; None of one schedule.
Change = collections.namedtuple("Change", "what per_cent error")
THE_RUN = "the run"


class Schedules:
    """The runs of both builds on the schedules of some seeds, in the order of the seeds."""

    def __init__(self, comparison, asked):
        self.comparison, self.jobs = comparison, asked.jobs
        builds = comparison.old, comparison.new
        self.machines = {it: Machine(it, asked, max(build.harts for build in builds)) for it in builds}
        self.machine = self.machines[comparison.new]
        self.runs = {it: [] for it in builds}

    def is_several(self):
        return self.machine.schedules > 1

    def run(self, times):
        """Makes the runs of so many times as many schedules that are not made yet."""
        seeds = self.machine.seeds(times)
        both(lambda build: self.run_build(build, seeds[len(self.runs[build]):]), list(self.runs))

    def run_build(self, build, seeds):
        side = 0 if build is self.comparison.old else 1
        points = build.in_order([it[side] for it in self.comparison.points])
        with tempfile.TemporaryDirectory() as folder, concurrent.futures.ThreadPoolExecutor(max(1, self.jobs // 2)) as pool:
            made = list(pool.map(lambda seed: self.one_run(build, seed, points, folder), seeds))
        places = [points.index(it[side]) for it in self.comparison.points]
        self.runs[build] += [it._replace(visits=[it.visits[k] for k in places] or [1]) for it in made]

    def one_run(self, build, seed, points, folder):
        """The run of a seed."""
        words = [*self.machines[build].words(build.program, seed), "--lines", next(iter(build.lines.entries)), "--speedups", "0",
                 "--workers", "1"]
        path = os.path.join(folder, str(seed))
        write_whole(path, call(words + (["--progress", ",".join(points)] if points else [])))
        return base_of(Profile(path))

    def changes(self):
        """How much more time a visit of each point takes in the new build, or without points the run."""
        comparison = self.comparison
        points = comparison.visited()
        whats = [f"a visit of {comparison.points[it][0]}" for it in points] or [THE_RUN]
        return [self.change(what, point) for what, point in zip(whats, points or [0])]

    def change(self, what, point):
        olds, news = self.runs[self.comparison.old], self.runs[self.comparison.new]
        sides = [[value_of(summed(olds), it, point) for it in them] for them in (olds, news)]
        error = root(sum(variance(it) / len(it) for it in sides))
        times = [fractions.Fraction(sum(it.net for it in them), sum(it.visits[point] for it in them)) for them in (olds, news)]
        return Change(what, 100 * float(times[1] / times[0] - 1), error / 100)
