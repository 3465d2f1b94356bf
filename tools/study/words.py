"""The words of coz-study: one table of its commands and options, by which words are read, help is printed, and shells complete."""
import difflib
import os

from study.places import PAGES

VERSION = "coz-study 5"


# ---- what a value may be

def text(value):
    return value


def count(value):
    number = value.replace("_", "").replace(",", "")
    if not number.isdigit() or int(number) < 1:
        raise ValueError("a number from 1 on")
    return int(number)


def count_or_none(value):
    return 0 if value == "0" else count(value)


def up_to(most):
    """A number from 1 to the greatest one."""
    def read_number(value):
        try:
            found = count(value)
        except ValueError:
            found = most + 1
        if found > most:
            raise ValueError(f"a number from 1 to {most}")
        return found
    return read_number


def numbers(value):
    found = [int(it) for it in value.split(",") if it.isdigit()]
    if len(found) != value.count(",") + 1 or not all(it <= 95 for it in found):
        raise ValueError("numbers from 0 to 95 with commas between, as in 25,50,75,95")
    return sorted(set(found) - {0}) or [50]


def per_cent(value):
    whole, _, part = value.partition(".")
    if not (whole + part).isdigit() or not 0 <= float(value) <= 100:
        raise ValueError("a number from 0 to 100, as in 0.1")
    return float(value)


def one_of(*choices):
    def read(value):
        if value not in choices:
            raise ValueError("one of " + ", ".join(choices))
        return value
    read.choices = choices
    return read


# ---- the table

class Option:
    """An option: its name, what its values are called (None if it has none), how each is read, what it is without one, its help."""

    def __init__(self, name, value, read, default, help_text, completes=None):
        self.name, self.value, self.read, self.default, self.help = name, value, read, default, help_text
        self.completes = completes or ("choices" if hasattr(read, "choices") else None)
        self.values = len(value.split()) if value else 0


class Command:
    """A command: its word, what its other words are called and name, a line about it, its page, and its options."""

    def __init__(self, name, wants, completes, about, page, options):
        self.name, self.wants, self.completes, self.about, self.page = name, wants, completes, about, page
        self.options = {it.name: it for it in options}


PROGRESS = Option("progress", "LIST", text, None,
                  "the progress points: lines as PATH:NUMBER, or names of coz.h, with commas between")
INPUT = Option("input", "FILE", text, None, "what the program reads from its standard input", "file")
BUDGET = Option("budget", "N", count, 100_000_000, "the most instructions of a run (100000000)")
JOBS = Option("jobs", "N", count, os.cpu_count() or 1, "how many runs are made at a time (the number of processors)")
SCHEDULES = Option("schedules", "N", up_to(250), 8, "how many schedules are tried; 1 is the one of coz profile (8)")
SEED = Option("seed", "S", up_to(1_000_000_000), 1, "the seed of the first schedule; the others have the next ones (1)")
CORES = Option("cores", "C", up_to(256), None, "the processors of the machine, if the program has more threads (those of this one)")
ANYWAY = Option("anyway", None, None, False, "goes on although a run does not exit, or a point is never visited")

STUDIED = [
    PROGRESS, INPUT, BUDGET,
    Option("speedups", "NUMBERS", numbers, [25, 50, 75, 95], "in per cent, with commas between (25,50,75,95)"),
    Option("functions", "N", count_or_none, 5, "the functions whose lines are profiled, by what they gain; 0 profiles none (5)"),
    Option("top", "N", count, 60, "the lines of the critical path that are profiled, by their share (60)"),
    SCHEDULES, SEED, CORES,
    Option("best", "N", count, 10, "how many lines are tried on all schedules, by what they gain on the first (10)"),
    Option("least", "PERCENT", per_cent, 0.1, "leaves out what has less of the cost and of the critical path (0.1)"),
    Option("source", "SRC", text, None,
           "the folder in which the paths of the lines begin: the pages show their texts (the folder in which you are)", "folder"),
    Option("dir", "DIR", text, None, "where the study is kept (PROG.study)", "folder"), JOBS, ANYWAY]

COMPARED = [
    PROGRESS, INPUT, BUDGET,
    Option("source", "OLD NEW", text, None, "the sources of both builds, as two folders or two files, by which lines are matched",
           "file"), ANYWAY]

COMMANDS = {it.name: it for it in (
    Command("study", "PROG", "file", "tells which lines of a program are worth making faster", """
PROG is a program that coz runs. The study
1. looks at PROG, at its progress points, and at one run, and says what is wrong with them and how to mend it;
2. finds by a counting run which functions and lines can matter, and leaves out the others;
3. profiles each of the functions as if it were one line, and finds those that gain most;
4. profiles the lines of these functions, and the lines with the greatest shares of the critical path;
5. tries the best of them on several schedules, and those that gain most at other costs of instructions;
6. prints the best and the worst lines, and leaves the pages of the curves in DIR/functions.html and DIR/lines.html;
7. ends with a story in sentences: what to make faster and what not, what hurts, and who has the critical path. The page
   DIR/index.html has the story, the best lines with their texts, and links to the pages of curves.

Without --progress, the points are those of coz.h's macros in the program. Without these, it is the line of the program's own
files whose visits fill the run most evenly; `coz-study points PROG` lists the others.

A schedule is the order in which threads meet. Each of the --schedules has a seed, by which some instructions take twice as
long (coz-gain). Steps 3 and 4 are of the first seed. The functions and lines that gain most there, the dearest, and the lines
that hurt most are tried on all schedules. A gain is the mean of these, against the mean of at least four times as many runs
without a faster line. It is printed with two standard errors on both sides. If this interval holds 0, the line is not listed as
a gain. Lines whose error is over 0.5 per cent are tried on four times as many schedules, about as many of them as was said
beforehand. Time in code without lines is counted as that of the line that called it. If the program has more threads than
--cores, threads wait for processors.

A program of one thread has one schedule. With --schedules 1 it is that of coz profile: its numbers are exact, they have no
intervals, and code without lines is nobody's.

Before it profiles, it says how many runs it will make, and about how long they take. Lines and functions that have less than
--least per cent of the cost and of the critical path are left out; it says how many. The critical path is that of the first
4,000,000 instructions, on the schedule of coz profile.

Lines are ranked by the mean of their values over the speedups above 0. A line whose value is more than what is taken from the
line itself is marked, and the mark explained.

The runs are made in shards, and each shard is a file in DIR that is renamed when it is whole. A study that was interrupted
goes on where it was, if it is started again by the same words; --jobs may differ. It writes the runs that are done and the
time left to standard error: on a terminal in one line, elsewhere once a minute.
""", STUDIED),
    Command("plan", "PROG", "file", "prints the runs that are next as shell commands, for other machines", """
PROG and the options are those of `coz-study PROG`, which goes on from what the commands leave. A study has four stages: the
functions, the lines, the schedules, and the checks of the best lines. With --schedules 1 it has the first two. The plan is that
of the stage that is next. So plan again until no runs are left:

  coz-study plan PROG > runs
  parallel < runs
  coz-study plan PROG > runs
  parallel < runs

and so on, and then

  coz-study PROG

Each line is a command for any shell. It makes one shard and leaves it as a file in DIR, whole or not at all. It does nothing if
the file is there, so all of them may be run again. The machines must share PROG, DIR, the file of --input and coz, with the
same paths. What the plan has to say goes to standard error. If no runs are left, it prints no command.
""", STUDIED),
    Command("points", "PROG", "file", "lists the lines that are proposed as progress points", """
A progress point is a line that is passed once for each unit of work. The lines of the program's own files are listed by how
evenly their visits fill the run, one for each group of lines that are visited equally often. The points of coz.h's macros are
listed first. `coz-study PROG` takes the macros, or without them the first line.
""", [INPUT, BUDGET, JOBS]),
    Command("diff", "OLD NEW", "file", "says what changed from one build of a program to another, and in which lines", """
OLD and NEW are two builds of a program. Both are run with the same input, and the change is exact: another day or another
machine gives the same numbers. It prints how much more or less time and how many more or fewer instructions NEW takes, and
divides the change among the lines by their shares of the critical path. These add up to the net time, and so do their changes.
Of a run of more than 4,000,000 instructions no whole critical path is known: its change is divided by what each line costs in
all threads together, which adds up to the cost and not to the net time.

With --source, lines are matched by a diff of the sources, so that a comment that is added moves nothing. OLD and NEW are then
two folders in which the paths of the lines begin, as `coz lines` prints them, or the two files that the builds are made of.
Without it the change is divided among functions, by their names.

The points are those of --progress in OLD, or those of PROFILE, or those of coz.h's macros. With a point, it says how much more
or less a visit takes. With --expect, a profile of OLD says beforehand what a line gains if it costs less: this is put beside
what was gained really.
""", [*COMPARED, Option("expect", "PROFILE", text, None,
                        "a profile of OLD, or the folder of a study of it: what it predicted of the lines that changed", "file")]),
    Command("gate", "OLD NEW", "file", "fails if a build of a program is slower than another by more than a limit", """
OLD and NEW are two builds of a program, compared as `coz-study diff` compares them. If a visit of a progress point, or without
points the run, takes more than --limit per cent more time in NEW, it names the lines that take more and ends with status 1.
With several points each of them counts.

A program of one thread is run once, and its numbers are exact. Of one with threads the time is the mean over the schedules of
the same seeds (coz-study --help says what these are), with two standard errors on both sides. If the limit lies in this
interval, four times as many are tried. With --schedules 1 the time is that of the one schedule of coz run. The same builds
have the same numbers every time, on every machine, so a gate that failed fails again; --cores says on how many processors, if
the program has more threads than the machine. What the lines have of the change is that of the schedule of coz run.
""" + f"{PAGES}/CI.md has recipes for make and for a runner.",
            [*COMPARED, Option("limit", "PERCENT", per_cent, 1.0, "how much slower NEW may be (1)"), SCHEDULES, SEED, CORES, JOBS]),
    Command("export", "DIR", "folder", "prints all curves of a study as CSV or JSON", """
DIR is where `coz-study PROG` keeps its study. Values and costs are in per cent, net times in ticks. A value says how much less
net time a visit of the point takes; it is empty, or null, if nothing can be said. Of a line that was tried on several schedules
it is their mean, from low to high with two standard errors on both sides. Of a line of one schedule there is no low and high,
but what its runs say: net time, visits, end and starts.
""", [Option("format", "FORMAT", one_of("csv", "json"), "csv", "csv, a row for each line, point and speedup, or json (csv)")]),
    Command("completions", "SHELL", ("bash", "zsh"), "prints a script that completes the words of coz-study", """
SHELL is bash or zsh. For bash, write the script to ~/.local/share/bash-completion/completions/coz-study. For zsh, write it as
_coz-study into a folder of fpath.
""", []),
    Command("help", "COMMAND", None, "prints the page of a command", """
Without COMMAND it is the page of a study, with the list of commands.
""", []),
)}


def nearest(word, known):
    found = difflib.get_close_matches(word, known, 1, 0.5)
    return found[0] if found else None
