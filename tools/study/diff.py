"""coz-study diff OLD NEW: what changed from one build of a program to another, and in which lines."""
import fractions

from study.builds import Comparison
from study.expect import expected_of, tell_expected
from study.names import readable
from study.paths import MOST_EVENTS
from study.told import change, say, several

SHOWN = 12


class Part:
    """What a line or a function has of both builds, in ticks of one unit of work."""

    def __init__(self, place, old, new):
        self.place, self.old, self.new, self.change = place, old, new, new - old


def parts_of(comparison):
    """The parts of all lines or functions, those that changed most first, in ticks of one unit of work."""
    work = comparison.work()
    olds, news = comparison.both_parts()
    parts = [Part(it, fractions.Fraction(olds[it], work[0]), fractions.Fraction(news[it], work[1])) for it in olds | news]
    return sorted(parts, key=lambda it: (-abs(it.change), str(it.place)))


def ticks(number):
    return f"{int(number):,}" if number.denominator == 1 else f"{float(number):,.1f}"


def signed(number):
    return f"{'+' if number > 0 else ''}{ticks(number)}"


def row_of(part, whole, name):
    share = 100 * float(part.change / whole) if whole else 0
    return f"{signed(part.change):>16} {share:+8.2f}% {ticks(part.old):>16} {ticks(part.new):>16}  {name}"


def summed(parts):
    return Part(None, sum(it.old for it in parts), sum(it.new for it in parts))


def table(comparison, parts, shown):
    """The rows of some parts, of all others together, and of their sum."""
    whole = summed(parts)
    rows = [f"{'change':>16} {'of old':>9} {'old':>16} {'new':>16}  {comparison.match.what}"]
    rows += [row_of(it, whole.old, str(it.place)) for it in shown]
    others = [it for it in parts if it not in shown]
    if others:
        rows.append(row_of(summed(others), whole.old, several(len(others), f"other {comparison.match.what}")))
    rows.append(row_of(whole, whole.old, "all together"))
    return readable("\n".join(rows))


def division(comparison):
    """How the change is divided among the lines, in words."""
    if comparison.by_path:
        return f"by the {comparison.match.what}s of the critical path, whose shares add up to the net time"
    if comparison.is_whole:
        return f"by what each {comparison.match.what} costs, which of one thread adds up to the net time"
    return (f"by what each {comparison.match.what} costs in all threads together. The critical path is known of runs of at most "
            f"{MOST_EVENTS:,} instructions, so this adds up to the cost and not to the net time")


def tell_totals(comparison):
    """Says how much more or less both builds take."""
    old, new = comparison.old, comparison.new
    say(f"net time: {change(old.net, new.net, 'more', 'less')}")
    say(f"instructions: {change(old.retired, new.retired, 'more', 'fewer')}")
    if comparison.by_path:
        counts = [len(it.path.segments) - 1 for it in (old, new)]
        say(f"changes of thread on the critical path: {counts[0]:,} -> {counts[1]:,}")
    for k, pair in enumerate(comparison.points):
        now = "" if pair[0] == pair[1] else f", now {pair[1]}"
        say(readable(f"visits of {pair[0]}{now}: {old.visits[k]:,} -> {new.visits[k]:,}"))
    for it in comparison.measures() if comparison.visited() else []:
        say(readable(f"{it.what}: {change(round(it.old), round(it.new), 'more', 'less', it.per_cent)}"))


def tell_parts(comparison, parts):
    unit = "ticks" if comparison.work() == (1, 1) else f"ticks for each visit of {comparison.points[comparison.visited()[0]][0]}"
    say(readable(f"where the change is, in {unit}, {division(comparison)}:"))
    say(table(comparison, parts, [it for it in parts if it.change][:SHOWN]))


def carry_out(asked):
    profile = expected_of(asked) if asked.expect else None
    comparison = Comparison(asked, profile)
    tell_totals(comparison)
    tell_parts(comparison, parts_of(comparison))
    if profile:
        tell_expected(comparison, profile)
