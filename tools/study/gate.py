"""coz-study gate OLD NEW: fails if the work got slower by more than a limit."""
from study.builds import Comparison
from study.curves import margin
from study.diff import division, parts_of, table, tell_totals
from study.machine import MORE
from study.names import readable
from study.seeded import THE_RUN, Change, Schedules
from study.told import Stop, say

SHOWN, WORTH = 5, 0.01


def takes(change):
    """How much more or less time something takes, with its interval."""
    way, size = ("more", change.per_cent) if change.per_cent >= 0 else ("less", -change.per_cent)
    interval = "" if change.error is None else f" ({size - margin(change.error):.2f} to {size + margin(change.error):.2f})"
    return f"takes {size:.2f} per cent {way} time{interval}" if size else f"takes as long as before{interval}"


def slower(comparison, parts):
    """Names the lines that take more in the new build, by at least a hundredth of the whole change."""
    least = WORTH * abs(sum(it.change for it in parts))
    more = [it for it in parts if it.change > least][:SHOWN]
    say(f"what takes more, in ticks{'' if comparison.work() == (1, 1) else ' for each visit'}, {division(comparison)}:")
    say(table(comparison, parts, more))


def exact_worst(comparison):
    """What got slower most on the one schedule of coz run."""
    worst = max(comparison.measures(), key=lambda it: it.per_cent)
    return Change(worst.what if comparison.visited() else THE_RUN, worst.per_cent, None)


def worst_of(comparison, asked):
    """What got slower most, on all schedules. They are four times as many if the limit lies in the interval."""
    schedules = Schedules(comparison, asked)
    if not schedules.is_several():
        return exact_worst(comparison), ""
    for times in (1, MORE):
        schedules.run(times)
        worst = max(schedules.changes(), key=lambda it: it.per_cent)
        if abs(worst.per_cent - asked.limit) > margin(worst.error):
            break
    return worst, f", over {schedules.machine.told(times)}"


def carry_out(asked):
    comparison = Comparison(asked)
    tell_totals(comparison)
    worst, over = worst_of(comparison, asked)
    said = readable(f"{worst.what} {takes(worst)} in {asked.new}{over}")
    if worst.per_cent > asked.limit:
        slower(comparison, parts_of(comparison))
        raise Stop(f"slower: {said}, over the limit of {asked.limit:g} per cent")
    say(f"within the limit of {asked.limit:g} per cent: {said}")
