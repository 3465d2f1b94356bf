"""Makes a profile in shards: each is a file that has its name only when it is whole, so that an interruption keeps it."""
import collections
import concurrent.futures
import glob
import json
import os
import subprocess
import sys
import threading
import time

from study.places import call, write_whole
from study.told import Stop, several, span

LONGEST_WORD = 100_000
MOST_RUNS = 100_000
SHARDS, FEWEST = 48, 3
MINUTE = 60

# A command that prints a part of a profile: the file that keeps it, the whole profile of which it is a part, its lines, the
# words of the command, and the runs that it makes.
Shard = collections.namedtuple("Shard", "file whole labels words runs")


def size_of(count, speedups, most):
    """How many of so many lines a shard has at most, if there are to be at most so many shards, and none without need of a few."""
    return min(max(FEWEST, -(-count // most)), MOST_RUNS // (len(speedups) + 1))


def cut(labels, speedups, most=SHARDS):
    """The labels in shards, each within the limits of a word and of a profile. They don't depend on the jobs."""
    size = size_of(len(labels), speedups, most)
    shards, room = [], 0
    for label in labels:
        if not shards or len(shards[-1]) == size or room + len(label) + 1 > LONGEST_WORD:
            shards.append([])
            room = 0
        shards[-1].append(label)
        room += len(label) + 1
    return shards


def runs_of(count, speedups, most=SHARDS):
    """How many runs a profile of so many lines makes: each shard makes the one in which no line is faster."""
    return count * len(speedups) + -(-count // size_of(count, speedups, most)) if count else 0


class Part:
    """A profile that is to be made: some lines of a program at some speedups on one schedule. Without speedups it is the run in
    which no line is faster."""

    def __init__(self, study, name, words, labels, speedups, most=SHARDS):
        self.whole, self.join = study.path(f"{name}.profile"), study.join
        shards = cut(labels, speedups, most if speedups else 1)
        self.shards = []
        for k, them in enumerate(shards):
            file = self.whole if len(shards) == 1 else study.path(f"{name}.{k}.profile")
            full = [*words, "--progress", ",".join(study.points), "--lines", ",".join(them), "--speedups",
                    ",".join(map(str, speedups or [0])), "--workers", "1"]
            self.shards.append(Shard(file, self.whole, them, full, len(them) * len(speedups) + 1))

    def finish(self):
        """Joins the shards, which are all there."""
        if not os.path.exists(self.whole):
            write_whole(self.whole, call([self.join, *(it.file for it in self.shards)]))


def is_left(file, whole):
    return not os.path.exists(whole) and not os.path.exists(file)


class Stage:
    """Profiles that are made together, in the shards that are not there yet."""

    def __init__(self, study, name, told, parts):
        self.study, self.name, self.told, self.parts = study, name, told, parts
        self.shards = [shard for part in parts for shard in part.shards]
        self.check()
        self.left = [it for it in self.shards if is_left(it.file, it.whole)]

    def check(self):
        """Keeps the plan of the shards, or sees that it is the one by which the files were made."""
        path = self.study.path(f"{self.name}.plan")
        plan = [[os.path.basename(it.file), os.path.basename(it.whole), it.labels, it.runs] for it in self.shards]
        if not os.path.exists(path):
            write_whole(path, json.dumps(plan).encode())
            return
        with open(path, encoding="utf-8") as file:
            if json.load(file) != plan:
                raise Stop(f"{self.study.dir} has files of other {self.name}: name another folder with --dir")

    def runs(self):
        return sum(it.runs for it in self.shards)

    def runs_left(self):
        return sum(it.runs for it in self.left)

    def make(self, progress):
        """Makes the shards that are left, and joins those of each profile."""
        pool = Pool(self.study.jobs)
        pool.run([lambda it=it: self.make_shard(pool, progress, it) for it in self.left])
        for it in self.parts:
            it.finish()
        remove(self.study.dir, "*.half")

    def make_shard(self, pool, progress, shard):
        part = shard.file + ".part"
        try:
            with open(part, "wb") as out:
                status, said = pool.child(shard.words, out)
            if pool.stopped:
                return
            if status not in (0, 1):
                raise Stop(f"{os.path.basename(shard.words[0])}: {said or f'status {status}'}")
            os.replace(part, shard.file)
            progress.step(shard.runs)
        finally:
            if os.path.exists(part):
                os.unlink(part)


def planned_left(study, name):
    """How many runs of a stage whose plan is kept are left; None without a plan."""
    try:
        with open(study.path(f"{name}.plan"), encoding="utf-8") as file:
            plan = json.load(file)
    except FileNotFoundError:
        return None
    return sum(runs for file, whole, _, runs in plan if is_left(study.path(file), study.path(whole)))


def remove(folder, pattern):
    """Removes the files of a folder whose names have a pattern."""
    for it in glob.glob(os.path.join(glob.escape(folder), pattern)):
        os.unlink(it)


class Pool:
    """Some threads, each with one program at a time. If one fails or the user stops the study, all programs are ended."""

    def __init__(self, jobs):
        self.jobs, self.stopped = jobs, False
        self.lock, self.children = threading.Lock(), set()

    def run(self, tasks):
        with concurrent.futures.ThreadPoolExecutor(self.jobs) as pool:
            waiting = [pool.submit(it) for it in tasks]
            try:
                for it in concurrent.futures.as_completed(waiting):
                    it.result()
            except BaseException:
                for it in waiting:
                    it.cancel()
                self.stop()
                raise

    def child(self, words, out):
        """Runs a program in a session of its own, which the terminal does not interrupt: its status, and what it reports."""
        with self.lock:
            if self.stopped:
                return None, ""
            running = subprocess.Popen(words, stdin=subprocess.DEVNULL, stdout=out, stderr=subprocess.PIPE,
                                       start_new_session=True)
            self.children.add(running)
        said = running.communicate()[1].decode(errors="replace").strip()
        with self.lock:
            self.children.discard(running)
        return running.returncode, said

    def stop(self):
        with self.lock:
            self.stopped = True
            for it in self.children:
                it.terminate()


class Progress:
    """The runs that are done and the time left: on a terminal in one line that changes, elsewhere a line each minute."""

    def __init__(self, total, out=None, minute=MINUTE):
        self.total, self.done, self.began = total, 0, time.monotonic()
        self.out = out or sys.stderr
        self.terminal = self.out.isatty()
        self.over = threading.Event()
        self.ticker = threading.Thread(target=self.tick, args=(1 if self.terminal else minute,), daemon=True)

    def __enter__(self):
        self.ticker.start()
        return self

    def __exit__(self, *_):
        self.over.set()
        self.ticker.join()
        if self.terminal:
            self.out.write("\r\033[K")
            self.out.flush()

    def step(self, runs):
        self.done += runs

    def told(self):
        if not self.done:
            return f"{several(self.total, 'run')} to go"
        left = (time.monotonic() - self.began) / self.done * (self.total - self.done)
        return f"{self.done:,} of {several(self.total, 'run')}, about {span(left)} left"

    def tick(self, seconds):
        while not self.over.wait(seconds):
            self.out.write(f"\r{self.told()}\033[K" if self.terminal else f"{self.told()}\n")
            self.out.flush()
