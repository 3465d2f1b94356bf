"""coz-study points PROG: the lines that are proposed as progress points.

A progress point is visited once for each unit of work. So a line is proposed if its visits fill the run evenly.
"""
import collections
import concurrent.futures
import os
import statistics

from study import program
from study.places import tool
from study.target import Target, tell_marks
from study.told import Stop, listed, say, several
from study.weigh import costs_of

MOST_POINTS, MOST_VISITS = 64, 1_000_000
FEWEST, MANY = 5, 200_000
CELLS = 20
SHOWN, OTHERS = 10, 4


class Proposal:
    """A line, its visits, and how evenly they fill the run: the greater the score, the more evenly."""

    def __init__(self, label, visits, net, entries):
        times = sorted(time for _, _, time in visits)
        gaps = [after - before for before, after in zip(times, times[1:])]
        mean = statistics.mean(gaps) if gaps else 0
        self.label, self.visits = label, len(visits)
        self.harts = len({hart for _, hart, _ in visits})
        self.cells = len({min(CELLS - 1, it * CELLS // max(net, 1)) for it in times}) / CELLS
        self.vary = statistics.pstdev(gaps) / mean if mean else 9.0
        self.score = self.cells / (1 + self.vary)
        self.score *= 1 if entries == 1 else 0.5
        self.score *= 1 if self.visits * MANY <= net else 0.3
        self.score *= 1 if self.visits >= 8 else 0.6
        self.last = times[-1]
        self.alike = []

    def place(self):
        path, _, number = self.label.rpartition(":")
        return path, int(number)

    def told(self):
        """The sentence about it."""
        filled = self.cells * CELLS / min(CELLS, self.visits)
        if self.visits < FEWEST:
            filled = "too few to fill the run"
        elif filled >= 0.9:
            filled = "evenly over the run" if self.vary < 0.5 else "all over the run"
        else:
            filled = f"in {100 * filled:.0f} per cent of the run"
        return f"{self.label}, {several(self.visits, 'visit')} by {several(self.harts, 'thread')}, {filled}"


def in_runs(labels, starts):
    """The lines in groups that one run can have as points."""
    groups, room = [], 0
    for label in labels:
        if not groups or len(groups[-1]) == MOST_POINTS or room + starts[label] > MOST_VISITS:
            groups.append([])
            room = 0
        groups[-1].append(label)
        room += starts[label]
    return groups


def visits_of(target, labels, starts):
    """The visits of lines in a run, and the net time of the run."""
    groups = in_runs(labels, starts)
    with concurrent.futures.ThreadPoolExecutor(target.jobs) as pool:
        runs = list(pool.map(lambda group: target.run(group)[0], groups))
    visits = collections.defaultdict(list)
    for group, run in zip(groups, runs):
        for it in run.visited:
            visits[group[it[0]]].append(it)
    return visits, runs[0].net if runs else 0


def proposals(target):
    """The best line of each group of lines with equally many visits, the best group first."""
    costs = costs_of(tool("coz-hot"), target.program, target.options)
    labels = [it for it in target.lines.entries if it in costs.starts and target.is_own(it) and costs.starts[it] <= MANY]
    often = [it for it in labels if costs.starts[it] >= FEWEST]
    visits, net = visits_of(target, often or labels, costs.starts)
    found = [Proposal(it, them, net, len(target.lines.entries[it])) for it, them in visits.items()]
    even = [it for it in found if it.visits >= FEWEST]
    if not even:
        return sorted(found, key=lambda it: -it.last)[:1]
    groups = collections.defaultdict(list)
    for it in even:
        groups[it.visits].append(it)
    best = []
    for group in groups.values():
        first = max(group, key=lambda it: (it.score, it.place()))
        first.alike = sorted((it for it in group if it is not first), key=Proposal.place)
        best.append(first)
    return sorted(best, key=lambda it: (-it.score, it.place()))


def marked(target):
    """The points of coz.h: those of COZ_PROGRESS, or without one those of COZ_END."""
    labels = target.labels_of(program.PROGRESS) or target.labels_of(program.END) or target.labels_of(program.BEGIN)
    if len(labels) > MOST_POINTS:
        raise Stop(f"{len(labels)} lines have points of coz.h, and coz takes {MOST_POINTS}: name some with --progress")
    return target.in_order(labels)


def chosen(target):
    """The points of a study whose user named none."""
    if target.marks:
        say("progress points:")
        tell_marks(target)
        return marked(target)
    found = proposals(target)
    if not found:
        raise Stop("no line of the program's own files is visited: compile them with -g, or name a point with --progress")
    others = "; others: " + ", ".join(f"{it.label} ({it.visits:,})" for it in found[1:1 + OTHERS]) if found[1:] else ""
    say(f"progress point: {found[0].told()}{others}")
    say("  if another line is passed once for each unit of work, name it with --progress")
    return [found[0].label]


def carry_out(asked):
    target = Target(asked)
    problem = target.why_not_exited(target.run([])[0])
    if problem:
        say(f"warning: {problem}")
    if target.marks:
        say(f"{target.program}: the points of coz.h")
        tell_marks(target)
    found = proposals(target)
    say(f"{target.program}: {'lines' if found else 'no line'} of its own files, by how evenly their visits fill the run")
    for it in found[:SHOWN]:
        alike = f"; as often: {listed((os.path.basename(a.label) for a in it.alike), 6)}" if it.alike else ""
        say(f"  {it.told()}{alike}")
