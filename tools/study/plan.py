"""coz-study plan PROG: the runs of the stage that is next, as shell commands for other machines."""
import contextlib
import os
import shlex
import sys

from study.study import Study, make, stages
from study.told import say, several

# Keeps what the other words print as the file of the first one, whole or not at all. Status 1 says that a run did not exit.
# A file that is half has a name of its machine and process, and is removed at the end, unless the shell is killed.
KEEP = ('f=$1 p=$1.$(uname -n).$$.half; shift; [ -e "$f" ] || { trap "rm -f \\"\\$p\\"" EXIT; trap "exit 1" HUP INT TERM; '
        '"$@" > "$p" || [ $? = 1 ] && mv -f "$p" "$f"; }')
PLAN_AGAIN = "when they are done, plan again by the same words"
TELL = "when they are done, the same words without plan tell what they found"


def kept(file, words):
    """A command of any shell that leaves what the words print as a file."""
    return shlex.join(["sh", "-c", KEEP, "-", file, *words])


def commands(study):
    """The commands of the first stage that has runs left."""
    for stage in stages(study):
        if stage.left:
            say(f"{several(len(stage.left), 'command')}: {TELL if study.course.is_last(stage) else PLAN_AGAIN}")
            return [kept(it.file, it.words) for it in stage.left]
        make(stage)
    say("no runs are left: the same words without plan tell what they found")
    return []


def carry_out(asked):
    for it in ("program", "input", "dir"):
        if getattr(asked, it) is not None:
            setattr(asked, it, os.path.abspath(getattr(asked, it)))
    with contextlib.redirect_stdout(sys.stderr):
        planned = commands(Study(asked))
    for it in planned:
        say(it)
