"""The machine on which lines are tried: several schedules of one with the user's processors, or the one schedule of `coz profile`."""
import math
import os

from study.places import tool
from study.told import several

# How many times as many schedules the base has as the lines, and those lines that are not known well enough. If the error of the
# base is over so many per cent, it has more, at most so many times as many.
MORE, MOST = 4, 16
FINE = 0.2
# An average is of so many profiles at most.
MOST_PROFILES = 1_000
# Machines on which the best lines are tried too, by their names: an instruction of a class costs so many cycles.
OTHERS = {"atomic": "atomic=100", "ecall": "ecall=1000"}
COSTS = {"atomic": "where an atomic instruction costs 100 cycles", "ecall": "where a system call costs 1,000 cycles"}


class Machine:
    """How many schedules are tried, and with which words a profile of one is made.

    A program of one thread has one schedule, whose instructions have no jitter then. With --schedules 1 it is that of `coz
    profile`, on which code without lines is nobody's. A plain machine is that of `coz profile`, which makes runs sooner.
    """

    def __init__(self, study, asked, harts):
        self.options, self.alone = study.options, harts == 1
        processors = asked.cores or os.cpu_count() or 1
        self.cores = processors if harts > processors and (asked.cores or asked.schedules > 1) else None
        self.is_plain = asked.schedules == 1 and not self.cores
        self.charges = asked.schedules > 1
        self.schedules = 1 if self.alone else asked.schedules
        self.first = asked.seed
        self.program = tool("coz") if self.is_plain else tool("coz-gain")

    def without_charges(self):
        """Says that no line calls code without lines that matters, so a program of one thread has a plain machine."""
        if self.alone:
            self.is_plain, self.charges, self.program = True, False, tool("coz")

    def seeds(self, times=1):
        """The seeds of the schedules that are tried, or of so many times as many."""
        return [0] if self.schedules == 1 else list(range(self.first, self.first + times * self.schedules))

    def times_for(self, spread):
        """How many times as many schedules the base of the lines has, of the standard deviation of a run in per cent."""
        return max(MORE, min(MOST, MOST_PROFILES // self.schedules, math.ceil((spread / FINE) ** 2 / self.schedules)))

    def words(self, program, seed, costs=None):
        """The command that profiles a program on one schedule."""
        if self.is_plain:
            return [self.program, "profile", program, *self.options]
        words = [self.program, program, *self.options]
        words += ["--charge", "last"] if self.charges else []
        words += ["--cores", str(self.cores)] if self.cores else []
        words += ["--costs", costs] if costs else []
        return words + (["--seed", str(seed)] if seed else [])

    def told(self, times=1):
        """Which schedules are tried, or so many times as many, in words."""
        cores = f" on {several(self.cores, 'processor')}" if self.cores else ""
        if self.schedules == 1:
            return "the one schedule of a program with one thread" if self.alone else \
                "the one schedule of coz profile" if self.is_plain else f"one schedule{cores}"
        seeds = self.seeds(times)
        return f"{len(seeds)} schedules{cores}, of the seeds {seeds[0]} to {seeds[-1]}"
