"""The critical path of a run, as `coz path` prints it."""
import collections

from study.places import call

MOST_EVENTS = 4_000_000

# A part of the path on one hart: where it begins and ends in net time, and how the path came to the hart.
Segment = collections.namedtuple("Segment", "hart begin end by")


class Path:
    """The shares of the lines, which with code without a line and with sleep add up to the net time, and the segments."""

    def __init__(self, text):
        self.end, self.net, self.retired = "", 0, 0
        self.shares, self.bare, self.asleep, self.segments = {}, 0, 0, []
        for row in text.splitlines():
            word, _, value = row.partition(" ")
            if word == "end":
                self.end = value
            elif word == "net":
                self.net = int(value)
            elif word == "retired":
                self.retired = int(value)
            elif word == "sleep":
                self.asleep = int(value)
            elif word == "share":
                self.share(*value.rsplit(" ", 1))
            elif word == "segment":
                words = value.split()
                self.segments.append(Segment(int(words[0]), int(words[2]), int(words[4]), words[6]))

    def share(self, label, ticks):
        if label == "none":
            self.bare = int(ticks)
        else:
            self.shares[label] = int(ticks)

    def of_threads(self):
        """What each hart has of the path, in ticks."""
        found = collections.Counter()
        for it in self.segments:
            found[it.hart] += it.end - it.begin
        return found


def path_of(coz, program, options, budget):
    """The critical path of a run, or of the first instructions of it if it has more than `coz path` takes."""
    capped = options[:]
    capped[capped.index("--budget") + 1] = str(min(budget, MOST_EVENTS))
    return Path(call([coz, "path", program, *capped]).decode())
