"""What a profile predicted of the lines that changed, beside what they gained."""
import collections
import fractions
import os

from study.books import Book
from study.curves import Profile, margin
from study.names import readable
from study.told import Stop, say

SHOWN, WORTH = 5, 0.01


def expected_of(asked):
    """The profile that --expect names; of a study's folder it is that of its lines, or without sources that of its functions."""
    path = asked.expect
    try:
        profile = Book(path, "lines" if asked.source else "functions") if os.path.isdir(path) else Profile(path)
    except (KeyError, ValueError):
        raise Stop(f"{path} is a profile that was cut off or changed: make it anew")
    if not profile.lines or not profile.points:
        raise Stop(f"{path} is no profile with a progress point: coz profile prints one, and a study keeps some in its folder")
    return profile


def costs_of(comparison):
    """What each place costs in both builds, for one unit of work."""
    work, found = comparison.work(), []
    for build, of_label, units in zip((comparison.old, comparison.new), (comparison.match.of_old, comparison.match.of_new), work):
        costs = collections.Counter()
        for label, ticks in build.costs.cost.items():
            costs[of_label(label)] += fractions.Fraction(ticks, units)
        found.append(costs)
    return found


def changed(olds, news):
    """The places that changed: in their sources, or in their cost by a hundredth of the whole. The greatest change is first."""
    least = WORTH * sum(olds.values())
    found = [it for it in olds | news if olds[it] != news[it] and (it.changed or abs(news[it] - olds[it]) >= least)]
    return sorted(found, key=lambda it: -abs(news[it] - olds[it]))[:SHOWN]


def predicted(steps, less):
    """The value of a curve where a line costs `less` per cent less, in per cent, between the two speedups beside it, and half of
    its interval, which is the greater one of theirs; None if the curve has no value, or is of one schedule."""
    known = [(it.speedup, it.value / 100, None if it.error is None else margin(it.error) / 100) for it in steps if it.value is not None]
    below = max((it for it in known if it[0] <= less), default=None)
    above = min((it for it in known if it[0] > less), default=below)
    if below is None:
        return None, None
    part = (less - below[0]) / (above[0] - below[0]) if above != below else 0
    halves = [it[2] for it in (below, above)]
    return below[1] + part * (above[1] - below[1]), None if None in halves else max(halves)


def steps_of(comparison, profile, place, point):
    """The curve of a place of the old build at a point, if the profile has it, and otherwise why there is none."""
    labels = [it for it in comparison.old.costs.cost if comparison.match.of_old(it) == place]
    if len(labels) != 1:
        return None, f"{len(labels)} {comparison.match.what}s changed together, and a profile has each of them alone"
    if labels[0] not in profile.lines:
        return None, "the profile does not have it, so nothing was predicted"
    return profile.curve(labels[0], point), None


def of_place(comparison, profile, place, point, costs):
    """The sentence about a place: what it costs now, and what the profile predicted."""
    old, new = (float(it[place]) for it in costs)
    if not old:
        return f"{place}: it is not in the old build, so nothing was predicted"
    if new >= old:
        return f"{place} costs {100 * (new / old - 1):.1f} per cent more: a profile predicts only what less cost gains"
    less = 100 * (1 - new / old)
    steps, why = steps_of(comparison, profile, place, point)
    value, half = predicted(steps, less) if steps else (None, None)
    interval = "" if half is None else f" ({value - half:.2f} to {value + half:.2f})"
    told = why or "the profile says nothing of this point" if value is None else \
        f"by the profile this gains {value:.2f} per cent{interval}"
    return f"{place} costs {less:.1f} per cent less: {told}"


def tell_expected(comparison, profile):
    """Says what the profile predicted of the lines that changed, and what is gained really."""
    costs = costs_of(comparison)
    places = changed(*costs)
    label = next((comparison.points[k][0] for k in comparison.visited()), None)
    if label not in profile.points:
        other = label or "that of the comparison"
        raise Stop(f"the profile of --expect has the points {', '.join(profile.points)}, and not {other}")
    point = profile.points.index(label)
    say(readable(f"what the profile predicted at {label}:"))
    for it in places:
        say(readable(f"  {of_place(comparison, profile, it, point, costs)}"))
    if not places:
        say(f"  no {comparison.match.what} costs more or less than before")
    say(f"  really gained: {round(-comparison.measures()[0].per_cent, 2) + 0.0:.2f} per cent")
    if len(places) > 1:
        say("  The gains of several do not add up: each is predicted with the others as they were.")
