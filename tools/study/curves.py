"""What a profile says: its blocks, and the curve of each line at each progress point."""
import collections

# A run of a profile: its net time, and the visits of each point.
Block = collections.namedtuple("Block", "end net retired starts delay visits")
# What is gained at a speedup, and the standard error of that, in hundredths of a per cent; None if nothing can be said, and
# the error of one schedule alone. The block is None in an average of several.
Step = collections.namedtuple("Step", "speedup value error block")
# The mean of a curve over the speedups above 0 and its standard error, in per cent.
Mean = collections.namedtuple("Mean", "value error")
ABOVE, SLACK = 1.02, 0.05
# An interval is the mean and so many standard errors on both sides.
ERRORS = 2


class Profile:
    """The text of `coz profile` or `coz-gain`: its seed, the names of its points, and the blocks of each line by speedup."""

    def __init__(self, path):
        self.points, self.lines, self.seed = [], {}, 0
        with open(path, encoding="utf-8", errors="replace") as file:
            for row in file:
                word, *rest = row.rstrip("\n").split("\t")
                fields = dict(it.partition("=")[::2] for it in rest)
                if word == "coz-timing":
                    self.seed = int(fields["seed"])
                elif word == "point":
                    self.points.append(fields["name"])
                elif word == "experiment":
                    number = {it: int(fields[it]) for it in ("time", "delay", "retired", "starts")}
                    block = Block(fields["end"], number["time"] - number["delay"], number["retired"], number["starts"],
                                  number["delay"], [])
                    self.lines.setdefault(fields["selected"], {})[int(fields["speedup"])] = block
                elif word == "throughput-point":
                    block.visits.append(int(fields["delta"]))

    def cost(self, label):
        """What the line costs, in per cent of the net time; None if no run says it."""
        blocks = self.lines[label]
        greatest = max(blocks)
        if not greatest or 0 not in blocks or not blocks[0].net:
            return None
        return blocks[greatest].delay * 10000 / greatest / blocks[0].net

    def curve(self, label, point):
        """The steps of a line at a point, as `coz plot` prints them."""
        blocks = self.lines[label]
        return [Step(speedup, value_of(blocks.get(0), block, point), None, block) for speedup, block in sorted(blocks.items())]

    def mean(self, label, point):
        """The mean of the values above speedup 0, without an error; None if nothing can be said."""
        values = [it.value for it in self.curve(label, point) if it.speedup and it.value is not None]
        return Mean(sum(values) / len(values) / 100, None) if values else None


def base_of(profile):
    """The run of a profile in which no line is faster."""
    return next(iter(profile.lines.values()))[0]


def value_of(base, block, point):
    """How much less net time a visit takes, in hundredths of a per cent, rounded down."""
    if base is None or not base.net or not base.visits[point] or not block.visits[point]:
        return None
    whole = base.net * block.visits[point]
    return 10000 * (whole - block.net * base.visits[point]) // whole


def margin(error):
    """The half of an interval, of an error; 0 of one schedule alone."""
    return ERRORS * (error or 0)


class Row:
    """What a profile or an average says of a line, in per cent: the mean of its values above speedup 0 with its error, its best
    and its worst value, its cost.

    With several points it is said of the one at which the line gains most, `point`, with the steps of its curve; the worst is
    that of all.
    """

    def __init__(self, book, label):
        curves = {point: [it for it in book.curve(label, point) if it.speedup and it.value is not None]
                  for point in range(len(book.points))}
        means = {point: it for point in curves if (it := book.mean(label, point))}
        self.label, self.cost, self.known = label, book.cost(label), bool(means)
        if means:
            self.point = max(means, key=lambda it: means[it].value - margin(means[it].error))
            self.mean, self.error = means[self.point]
            self.steps = curves[self.point]
            self.best = max(it.value for it in self.steps) / 100
            self.worst = min(it.value for curve in curves.values() for it in curve) / 100
            self.above = self.cost is not None and any(
                (it.value - margin(it.error)) / 100 > ABOVE * self.cost * it.speedup / 100 + SLACK for it in self.steps)

    def is_gain(self):
        """Whether the line gains: at some speedup of one schedule, or in the mean of several beyond its interval."""
        return self.best > 0 if self.error is None else self.mean > margin(self.error)

    def is_harm(self):
        return self.worst < 0 if self.error is None else self.mean < -margin(self.error)


def rows_of(book):
    """The rows of a profile or an average, those that gain most in the mean first."""
    rows = [it for it in (Row(book, label) for label in book.lines) if it.known]
    return sorted(rows, key=lambda it: -it.mean)
