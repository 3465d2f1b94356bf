"""Which functions and lines are profiled, and how many runs that are."""
from study import weigh
from study.calls import callers
from study.lines import Lines
from study.places import call, tool, write_whole
from study.program import functions_of

# Of the lines that call code without lines so many are profiled at most.
MOST_CHARGED = 20


class Functions:
    """The program in which each function is one line, and what its functions weigh."""

    def __init__(self, study):
        self.study, self.program = study, study.path("functions")
        write_whole(self.program, call([tool("coz-functions"), study.program, "--keep", ",".join(study.points)], 0))
        self.lines = Lines(study.coz, self.program)
        self.labels = [it for it in self.lines.entries if it not in study.points]
        self.weights = weigh.Weights(study.coz, study.hot, self.program, study.options, study.budget)
        self.sizes = functions_of(study.data)

    def lines_of(self, labels):
        """The lines that begin in these functions."""
        addresses = [it for label in labels for it in self.lines.entries[label] if it in self.sizes]
        ranges = [range(it, it + self.sizes[it]) for it in addresses]
        return {label for label, entries in self.study.lines.entries.items()
                if any(it in some for it in entries for some in ranges)}

    def heaviest(self):
        """The functions with the greatest parts of the critical path."""
        return sorted(self.weights.path, key=lambda it: -self.weights.path[it])[:self.study.functions]

    def best(self, rows):
        return [it for it in rows if it.mean > 0 or it.best > 0][:self.study.functions]


class Selection:
    """Which functions and lines are profiled."""

    def __init__(self, study):
        self.study, self.charged = study, []
        self.weights = weigh.Weights(study.coz, study.hot, study.program, study.options, study.budget)
        self.functions = Functions(study) if study.functions else None
        if self.functions:
            self.functions.weights.tell_left_out("functions", self.functions.labels, study.least)
        if self.weights.bare < study.least:
            study.machine.without_charges()
        elif study.machine.charges:
            self.charge()
        self.weights.tell_left_out("lines", list(study.lines.entries), study.least)
        if self.functions:
            weigh.tell_without_lines(self.functions.weights, self.functions.lines.entries, study.library)

    def charge(self):
        """Finds the lines to which code without lines is charged, those that start most often."""
        starts = self.weights.starts
        found = [it for it in callers(self.study.data, self.study.lines) if starts.get(it)]
        self.charged = sorted(found, key=lambda it: -starts[it])[:MOST_CHARGED]
        self.weights.charge(self.charged)

    def wanted(self, functions):
        """The lines of these functions and of the critical path that can matter, and those that are charged."""
        path = sorted(self.weights.path, key=lambda it: -self.weights.path[it])[:self.study.top]
        wanted = set(path) | set(self.charged) | (self.functions.lines_of(functions) if self.functions else set())
        return self.weights.kept(self.study.in_order(wanted), self.study.least)

    def expected(self):
        """As many lines as are wanted if the functions with most of the critical path are those that gain most."""
        return len(self.wanted(self.functions.heaviest())) if self.functions else None

    def lines(self, functions):
        """The lines that are wanted, with the heaviest others or without the lightest, so that the runs in all are by at most
        a tenth more or fewer than was expected."""
        wanted, expected = self.wanted(functions), self.expected()
        if expected is None:
            return wanted
        slack = (expected + len(self.function_labels())) // 10
        heavy = sorted(wanted, key=lambda it: -self.weights.of(it))[:expected + slack]
        others = [it for it in self.weights.kept(self.study.lines.entries, self.study.least) if it not in set(wanted)]
        others.sort(key=lambda it: -self.weights.of(it))
        return self.study.in_order({*heavy, *others[:max(0, expected - slack - len(heavy))]})

    def function_labels(self):
        return self.functions.weights.kept(self.functions.labels, self.study.least) if self.functions else []


def finalists(rows, gains, dear, harms):
    """The labels that are tried on all schedules, so many in all if there are as many: those that gain most on the first one, the
    dearest, and those that hurt most."""
    by_cost = sorted(rows, key=lambda it: -(it.cost or 0))
    wanted = [*rows[:gains], *by_cost[:dear], *(rows[-harms:] if harms else []), *rows]
    return list(dict.fromkeys(it.label for it in wanted))[:gains + dear + harms]
