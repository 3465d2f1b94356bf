"""Lines on several schedules: their profiles, which the stages of a study make, and the average of these."""
import concurrent.futures
import os

from study.average import Average, averaged, spread
from study.curves import Profile, base_of
from study.machine import MORE
from study.places import call, write_whole
from study.shards import SHARDS, Part, runs_of


def shards_of(seeds):
    """How many shards a profile of one of so many schedules has at most."""
    return max(1, SHARDS // (2 * max(1, seeds)))


def tried_runs(count, speedups, seeds, base):
    """How many runs the profiles of so many lines make on so many schedules, and in so many more that add to the base."""
    return seeds * runs_of(count, speedups, shards_of(seeds)) + (base if count else 0)


def only(text, labels):
    """The profile of some of its lines."""
    head, *blocks = text.split("\nexperiment\t")
    kept = [it for it in blocks if it.partition("\t")[0].removeprefix("selected=") in labels]
    return "\nexperiment\t".join([head, *(it.removesuffix("\n") for it in kept)]) + "\n"


def spread_of(study):
    """The standard deviation of a run without a faster line on the schedules of a study and more, in per cent. Of several points
    it is the greatest."""
    def made(seed):
        path = study.path(f"base.seed{seed}.profile")
        if not os.path.exists(path):
            words = [*study.machine.words(study.program, seed), "--progress", ",".join(study.points)]
            write_whole(path, call([*words, "--lines", study.points[0], "--speedups", "0", "--workers", "1"]))
        return base_of(Profile(path))
    with concurrent.futures.ThreadPoolExecutor(study.jobs) as pool:
        blocks = list(pool.map(made, study.machine.seeds(MORE)))
    found = [spread(blocks, point) for point in range(len(study.points))]
    return max((float(it) ** 0.5 / 100 for it in found if it is not None), default=0.0)


class Tries:
    """Some lines of a program on the schedules of some seeds, and on those of a base in which no line is faster.

    Of the seeds in `kept` a profile is there that has these lines and perhaps others.
    """

    def __init__(self, study, name, program, labels, seeds, base=(), kept=None, speedups=None, costs=None):
        self.study, self.name, self.program, self.labels = study, name, program, list(labels)
        self.seeds, self.base, self.kept, self.costs = list(seeds), list(base), kept or {}, costs
        self.speedups = speedups or study.speedups

    def path(self, seed):
        return self.study.path(f"{self.name}.seed{seed}.profile")

    def part(self, seed, speedups, most=1):
        words = self.study.machine.words(self.program, seed, self.costs)
        return Part(self.study, f"{self.name}.seed{seed}", words, self.labels, speedups, most)

    def parts(self):
        """The profiles that are to be made."""
        seeds, base = ([it for it in them if it not in self.kept] for them in (self.seeds, self.base))
        if not self.labels:
            return []
        return [*(self.part(it, self.speedups, shards_of(len(seeds))) for it in seeds), *(self.part(it, []) for it in base)]

    def average(self):
        """The average of the profiles, which are all there; it is kept as a file."""
        for seed, path in self.kept.items():
            if not os.path.exists(self.path(seed)):
                with open(path, encoding="utf-8", errors="surrogateescape") as file:
                    cut = only(file.read(), set(self.labels))
                write_whole(self.path(seed), cut.encode(errors="surrogateescape"))
        paths = [self.path(it) for it in [*self.seeds, *self.base]]
        text = averaged(paths)
        write_whole(self.study.path(f"{self.name}.average"), text.encode())
        return Average(text, Profile(paths[0]).points)
