"""coz-study PROG: from a program to the lines that are worth making faster."""
import hashlib
import json
import os
import time

from study import points, report
from study.machine import Machine
from study.places import call, tool, write_whole
from study.program import functions_of
from study.shards import Progress, remove
from study.stages import Course
from study.target import Target, tell_marks
from study.told import Stop, say, several, span

PLAN = 4


class Study(Target):
    def __init__(self, asked):
        super().__init__(asked)
        self.asked, self.anyway = asked, asked.anyway
        self.speedups, self.functions, self.top, self.least = asked.speedups, asked.functions, asked.top, asked.least
        self.fed = asked.input
        self.dir, self.source = asked.dir or asked.program + ".study", asked.source
        self.schedules, self.seed, self.best = asked.schedules, asked.seed, asked.best
        self.hot, self.join, self.page = None, None, None
        self.first, self.visits, self.machine, self.course = None, [], None, None
        if self.source is not None and not os.path.isdir(self.source):
            raise Stop(f"{self.source} is no folder: --source names the one in which the paths of the lines begin")
        self.kept = self.read_kept()
        self.points = self.resolve(asked.progress) if asked.progress else self.kept.get("points")

    def same(self):
        """What a study must have in common with the one that it goes on with."""
        return {"plan": PLAN, "program": digest(self.data), "input": digest(self.input), "points": self.points,
                "budget": self.budget, "speedups": self.speedups, "functions": self.functions, "top": self.top,
                "least": self.least, "schedules": self.schedules, "seed": self.seed, "cores": self.machine.cores, "best": self.best}

    def path(self, name):
        return os.path.join(self.dir, name)

    def read_kept(self):
        """What the folder says of the study that is in it; nothing if there is none."""
        try:
            with open(self.path("study.json"), encoding="utf-8") as file:
                return json.load(file)
        except FileNotFoundError:
            return {}
        except ValueError:
            raise Stop(f"{self.path('study.json')} is no study's: name another folder with --dir")

    def open(self):
        """Makes the folder, or goes on in it if it is of the same study. The jobs may differ."""
        os.makedirs(self.dir, exist_ok=True)
        remove(self.dir, "*.part")
        same = self.same()
        if not self.kept:
            write_whole(self.path("study.json"), json.dumps(same).encode())
            return
        names = {"plan": "version of coz-study", "least": "--least", "speedups": "list of speedups", "schedules": "--schedules",
                 "seed": "--seed", "cores": "--cores", "best": "--best"}
        other = [names.get(it, it) for it in same if self.kept.get(it) != same[it]]
        if other:
            raise Stop(f"{self.dir} is a study with another {', '.join(other)}: name another folder with --dir")
        say(f"going on in {self.dir}")


def digest(data):
    return hashlib.sha256(data).hexdigest() if data is not None else None


def first_run(study):
    """Runs the program once, and judges whether a study of it says anything."""
    run, seconds = study.run(study.points)
    study.first, study.visits = run, [run.visits[k] for k in range(len(study.points))]
    say(f"{study.program}: {run.retired:,} instructions, {several(run.harts, 'thread')}, net time {run.net:,}, end {run.end}, "
        f"{seconds:.1f} s")
    problems = [it for it in [study.why_not_exited(run)] if it]
    for number, label in enumerate(study.points):
        names = [it for it in study.names_of(label) if it != label]
        say(f"  point {label}{f' ({names[0]})' if names else ''}: {several(run.visits[number], 'visit')}")
        if not run.visits[number]:
            problems.append(f"the point {label} is never visited, so no line can gain anything at it: choose another line")
        if run.visits[number] == 1:
            say("    One visit: its values are what the whole run gains. A line that is visited once for each unit of work says more.")
    judge(study, problems)
    return seconds


def judge(study, problems):
    """Stops at the first problem, or warns of all if the user wants to go on."""
    for it in problems:
        if not study.anyway:
            raise Stop(f"{it}\n(--anyway goes on all the same)")
        say(f"warning: {it}")


def choose_points(study):
    """Sees to it that the study has points: those that were named or kept, or else those that are proposed."""
    if study.points is None:
        judge(study, [it for it in [study.why_not_exited(study.run([])[0])] if it])
        study.points = points.chosen(study)
    elif study.marks:
        tell_marks(study)


def one_run(study, seconds):
    """How long a run on the machine takes, in seconds. It is made, unless its schedule is that of `coz run`, whose time is given."""
    machine = study.machine
    if machine.is_plain:
        return seconds
    began = time.monotonic()
    words = machine.words(study.program, machine.seeds()[0])
    text = call([*words, "--progress", ",".join(study.points), "--lines", study.points[0], "--speedups", "0", "--workers", "1"])
    if b"\tend=exited:" not in text:
        judge(study, [f"on the schedules of {os.path.basename(machine.program)} the run does not exit: give more with --budget, since "
                      "threads that wait can take more instructions there"])
    return time.monotonic() - began


def tell_all(study, stage, seconds):
    """Says beforehand how many runs all stages make, and how long they take at most."""
    seconds = one_run(study, seconds)
    study.course.measure()
    expected = study.course.expected()
    left = stage.runs_left() + sum(runs for name, runs in expected.items() if name != stage.name)
    if left:
        say(f"about {several(left, 'run')} are left, at most {span(left * seconds / study.jobs)} with {study.jobs} at a time")


def tell_stage(stage):
    left = stage.runs_left()
    some = " left" if left < stage.runs() else ""
    say(f"{stage.told}: {several(left, 'run')}{some}" if left else f"{stage.told}: all runs are made")


def make(stage):
    with Progress(stage.runs_left()) as progress:
        stage.make(progress)


def stages(study):
    """The stages of a study. What is profiled in one is chosen by what the others found, so each must be made before the next is
    asked for."""
    choose_points(study)
    seconds = first_run(study)
    study.hot, study.join, study.page = tool("coz-hot"), tool("coz-join"), tool("coz-page")
    if study.functions and not functions_of(study.data):
        raise Stop(f"{study.program} has no functions in its symbol table: do not strip it, or profile lines alone, with --functions 0")
    study.machine = Machine(study, study.asked, study.first.harts)
    study.open()
    study.course = Course(study)
    say(f"lines are tried on {study.machine.told()}")
    for number, stage in enumerate(study.course.stages()):
        if not number:
            tell_all(study, stage, seconds)
        tell_stage(stage)
        yield stage


def carry_out(asked):
    study = Study(asked)
    for stage in stages(study):
        make(stage)
    report.report(study, study.course)
