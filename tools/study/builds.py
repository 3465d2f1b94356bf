"""Two builds of a program that are compared: a run of each, and what their lines or functions have of it."""
import collections
import concurrent.futures
import fractions
import os
import tempfile
import types

from study import program
from study.lines import Lines
from study.matching import ByFunction, BySource, Place
from study.paths import MOST_EVENTS, path_of
from study.places import call, tool
from study.points import marked
from study.target import Target
from study.told import Stop, say, several
from study.weigh import costs_of

BARE, ASLEEP = "code without a line", "asleep"

# What is measured of both builds: what it is, both numbers of ticks, and how much greater the second one is in per cent.
Measure = collections.namedtuple("Measure", "what old new per_cent")


class Build(Target):
    """One of the two builds: its lines or functions with their cost, and their shares of the critical path if it is whole."""

    def __init__(self, asked, path):
        words = types.SimpleNamespace(program=path, input=asked.input, budget=asked.budget, jobs=1)
        super().__init__(words)
        self.net, self.retired, self.harts, self.visits = 0, 0, 0, []
        self.said, self.problem, self.labels, self.costs, self.path = "", None, list(self.lines.entries), None, None

    def count(self, points):
        """Makes the run in which the visits of the points are counted."""
        ordered = self.in_order(points)
        run, seconds = self.run(ordered)
        self.net, self.retired, self.harts = run.net, run.retired, run.harts
        self.visits = [run.visits[ordered.index(it)] for it in points]
        self.said = (f"{self.program}: {run.retired:,} instructions, {several(run.harts, 'thread')}, net time {run.net:,}, "
                     f"end {run.end}, {seconds:.1f} s")
        self.problem = self.why_not_exited(run)

    def weigh(self, by_function):
        """Finds what the lines have of the run, or the functions."""
        with tempfile.TemporaryDirectory() as folder:
            path = self.program
            if by_function and not program.functions_of(self.data):
                raise Stop(f"{self.program} has no functions in its symbol table: do not strip it, or match lines, with --source")
            if by_function:
                path = os.path.join(folder, "functions")
                with open(path, "wb") as file:
                    file.write(call([tool("coz-functions"), self.program], 0))
                self.labels = list(Lines(self.coz, path).entries)
            self.costs = costs_of(tool("coz-hot"), path, self.options)
            if self.retired <= MOST_EVENTS:
                self.path = path_of(self.coz, path, self.options, self.budget)


def both(make, *lists):
    """Does the same for both builds, beside each other."""
    with concurrent.futures.ThreadPoolExecutor(2) as pool:
        return list(pool.map(make, *lists))


class Comparison:
    """The two builds, how their lines are matched, and what each place has of them."""

    def __init__(self, asked, profile=None):
        self.old, self.new = builds = both(lambda path: Build(asked, path), (asked.old, asked.new))
        self.match = BySource(*(it.labels for it in builds), asked.source) if asked.source else None
        self.points = self.pairs(asked.progress or (profile and ",".join(profile.points)))
        both(Build.count, builds, list(zip(*self.points)) or [[], []])
        for it in builds:
            say(it.said)
        self.judge(asked.anyway)
        both(lambda it: it.weigh(self.match is None), builds)
        if self.match is None:
            self.match = ByFunction(*(it.labels for it in builds))
        self.by_path = all(it.path for it in builds)
        self.is_whole = self.by_path or all(it.harts == 1 and it.costs.total == it.net for it in builds)

    # ---- points

    def pairs(self, named):
        """The points as lines of both builds: those that are named, or else those of coz.h, or none."""
        old, new = self.old, self.new
        if self.match:
            found = [(it, self.moved(it)) for it in (old.resolve(named) if named else marked(old))]
        elif named:
            found = [it for piece in old.pieces(named) for it in self.pair(piece, old.resolve(piece), new.resolve(piece))]
        else:
            kinds = [program.PROGRESS, program.END]
            found = next(filter(None, map(self.pairs_of_marks, kinds)), [])
        return list(dict.fromkeys(found))

    def pair(self, piece, olds, news):
        if len(olds) != len(news):
            raise Stop(f"the point '{piece}' is {several(len(olds), 'line')} of {self.old.program} and {len(news)} of "
                       f"{self.new.program}: name lines")
        return zip(olds, news)

    def moved(self, label):
        """The line of the new build that is this point of the old one."""
        found = self.match.of_old(label).new
        if found not in self.new.lines.entries:
            raise Stop(f"the point {label} of {self.old.program} is no line of {self.new.program}: choose another with --progress")
        return found

    def pairs_of_marks(self, kind):
        """The lines of the names that the macros of a kind have in both builds. A single name may differ, since it may be
        that of a line."""
        olds, news = (sorted({it.name for it in build.marks if it.kind == kind}) for build in (self.old, self.new))
        same = [(it, it) for it in olds if it in news] if (len(olds), len(news)) != (1, 1) else [(olds[0], news[0])]
        return [pair for a, b in same for pair in self.pair(a, self.old.resolve(a), self.new.resolve(b))]

    def judge(self, anyway):
        """Stops if a build says nothing, or warns of it if the user wants to go on."""
        problems = [f"{it.program}: {it.problem}" for it in (self.old, self.new) if it.problem]
        for k, build in enumerate((self.old, self.new)):
            problems += [f"{build.program}: the point {pair[k]} is never visited: choose another line with --progress"
                         for pair, visits in zip(self.points, build.visits) if not visits]
        for it in problems:
            if not anyway:
                raise Stop(f"{it}\n(--anyway goes on all the same)")
            say(f"warning: {it}")

    # ---- what is measured

    def visited(self):
        """The points that both builds visit, by their places in the list."""
        return [k for k in range(len(self.points)) if self.old.visits[k] and self.new.visits[k]]

    def measures(self):
        """The time of each visit at each point, or without points the net time."""
        old, new = self.old, self.new
        found = [measure(f"a visit of {self.points[k][0]}", fractions.Fraction(old.net, old.visits[k]),
                         fractions.Fraction(new.net, new.visits[k])) for k in self.visited()]
        return found or [measure("net time", old.net, new.net)]

    def work(self):
        """How many units of work each build does: visits of the first point, or one run. Equal numbers count as one run."""
        counts = next(((self.old.visits[k], self.new.visits[k]) for k in self.visited()), (1, 1))
        return (1, 1) if counts[0] == counts[1] else counts

    def parts(self, build, of_label):
        """What each place has: of the critical path, or of the cost if a path isn't whole. It adds up to the whole."""
        found = collections.Counter()
        shares, bare = (build.path.shares, build.path.bare) if self.by_path else (build.costs.cost, build.costs.bare)
        for label, ticks in shares.items():
            found[of_label(label)] += ticks
        found[Place(BARE, BARE, False)] += bare
        if self.by_path:
            found[Place(ASLEEP, ASLEEP, False)] += build.path.asleep
        return found

    def both_parts(self):
        return self.parts(self.old, self.match.of_old), self.parts(self.new, self.match.of_new)


def measure(what, old, new):
    return Measure(what, old, new, 100 * float((new - old) / fractions.Fraction(old)) if old else 0.0)
