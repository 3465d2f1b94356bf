"""What the folder of a study keeps of its functions or lines: averages of all schedules, and the curves of the first one."""
import os

from study.average import Average
from study.curves import Profile

# The tables of averages of a profile, by its name; lines that were tried on more schedules are in the second one.
TABLES = {"functions": ["functions"], "lines": ["lines", "more"]}


class Book:
    """The curves of a study: the average of a line that was tried on several schedules, and otherwise that of the first one."""

    def __init__(self, folder, name):
        self.profile, self.averages = Profile(os.path.join(folder, f"{name}.profile")), {}
        self.points, self.lines = self.profile.points, self.profile.lines
        for it in TABLES[name]:
            path = os.path.join(folder, f"{it}.average")
            if os.path.isfile(path):
                with open(path, encoding="utf-8", errors="replace") as file:
                    average = Average(file.read(), self.points)
                self.averages.update(dict.fromkeys(average.lines, average))

    def of(self, label):
        return self.averages.get(label, self.profile)

    def schedules(self, label):
        return self.averages[label].schedules[label] if label in self.averages else 1

    def cost(self, label):
        return self.of(label).cost(label)

    def curve(self, label, point):
        return self.of(label).curve(label, point)

    def mean(self, label, point):
        return self.of(label).mean(label, point)
