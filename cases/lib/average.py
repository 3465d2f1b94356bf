"""Averages of runs over seeds: the value of a line with its standard error, in hundredths of a per cent.

A run is a pair of its net time, in ticks, and its visits of the progress point. The base is the net time of all runs without
a speedup over all their visits. The value of a run is how much less net time a visit takes than in the base, rounded down,
and that of several runs the mean of their values, rounded down. Its error is the root of the variance of the values over
their number and that of the base's values over theirs, added, rounded down.
"""
from fractions import Fraction
from math import floor, isqrt

WHOLE = 10000
ERRORS = 2  # An interval is the mean with so many errors on either side.


class Estimate:
    """A mean of values and its standard error, in hundredths of a per cent."""

    def __init__(self, value, error):
        self.value, self.error = value, error

    def reach(self):
        """Returns half the width of the interval."""
        return ERRORS * self.error

    def holds(self, value, slack):
        """Whether a value lies in the interval or at most `slack` from it."""
        return abs(value - self.value) <= self.reach() + slack


def base_of(runs):
    """Returns the ticks of a visit, over all runs without a speedup."""
    return Fraction(sum(net for net, _ in runs), sum(visits for _, visits in runs))


def value_of(run, base):
    """Returns how much less a visit of this run takes than in the base."""
    net, visits = run
    return floor((1 - Fraction(net, visits) / base) * WHOLE)


def variance(values):
    """Returns the variance of two or more values, with one less than their number below."""
    mean = Fraction(sum(values), len(values))
    return sum((it - mean) ** 2 for it in values) / (len(values) - 1)


def root(number):
    """Returns the root of a fraction, rounded down."""
    return isqrt(number.numerator // number.denominator)


def estimate(runs, base_runs):
    """Returns the estimate of runs, one for each seed, against the runs of the base. Both are two or more."""
    base = base_of(base_runs)
    values, own = [value_of(it, base) for it in runs], [value_of(it, base) for it in base_runs]
    error = root(variance(values) / len(values) + variance(own) / len(own))
    return Estimate(sum(values) // len(values), error)


def total(estimates):
    """Returns the sum of estimates, as of one change in several lines. The errors are taken to be apart from each other."""
    return Estimate(sum(it.value for it in estimates), isqrt(sum(it.error ** 2 for it in estimates)))
