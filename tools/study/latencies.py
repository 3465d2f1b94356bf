"""How long requests take from COZ_BEGIN to COZ_END, and what the best lines do to that."""
import collections

from study.names import readable
from study.places import call
from study.told import say

LATENCY_LINES = 3

# A step of `coz latency`: its speedup, how many requests arrived, are done, stray or open, and their mean in ticks, if there is one.
Step = collections.namedtuple("Step", "speedup arrivals departures stray open mean")


class Latency:
    """The latencies between the macros of a pair: the first step of each line is the run as it is."""

    def __init__(self, study, pair, rows):
        self.pair, self.lines = pair, {}
        begins, ends = (",".join(study.in_order(it)) for it in (pair.begins, pair.ends))
        for row in rows:
            text = call([study.coz, "latency", study.program, *study.options, "--line", row.label, "--arrive", begins,
                         "--depart", ends, "--speedups", ",".join(map(str, study.speedups))]).decode()
            self.lines[row.label] = [step_of(dict(zip(it[1::2], it[2::2]))) for it in map(str.split, text.splitlines())]
        self.base = next(iter(self.lines.values()))[0]

    def change(self, step):
        """How much more the mean of a step is than that of the run as it is, in per cent; None if one is absent."""
        return 100 * (step.mean / self.base.mean - 1) if self.base.mean and step.mean is not None else None


def step_of(fields):
    numbers = [int(fields[it]) for it in Step._fields[:-1]]
    return Step(*numbers, None if fields["mean"] == "absent" else int(fields["mean"]))


def latencies_of(study, rows):
    """The latencies of the names that have both COZ_BEGIN and COZ_END in lines of their own, with the best lines faster."""
    best = [it for it in rows if it.best > 0][:LATENCY_LINES] or rows[:1]
    return [Latency(study, it, best) for it in study.pairs() if it.begins.isdisjoint(it.ends)] if best else []


def tell_latency(latency):
    """Prints how long requests take, and what the lines do to that."""
    base = latency.base
    stray = f", {base.stray} stray" if base.stray else ""
    still = f", {base.open} open" if base.open else ""
    mean = "absent" if base.mean is None else base.mean
    say(f"latency of '{latency.pair.name}': {base.departures} of {base.arrivals} done{stray}{still}, mean {mean} ticks, on the one "
        "schedule of coz latency; with a line faster:")
    if base.mean:
        for label, steps in latency.lines.items():
            say("  " + ", ".join(shorter(latency, it) for it in steps[1:]) + f"  {readable(label)}")


def shorter(latency, step):
    if step.mean is None:
        return f"{step.speedup} %: absent"
    return f"at {step.speedup} %: {step.mean:,} ({latency.change(step):+.1f} %)"
