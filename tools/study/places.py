"""Where things are: in the repository, or below the folder of `make install`.

In the repository this package is tools/study. Installed it is lib/coz/study, beside lib/coz/guests; the programs are in
bin, and the pages in share/doc/coz.
"""
import os
import shutil
import subprocess

from study.told import Stop

HERE = os.path.dirname(os.path.realpath(__file__))
TOP = os.path.normpath(os.path.join(HERE, "..", ".."))
PREFIX = os.path.normpath(os.path.join(HERE, "..", "..", ".."))
IN_REPOSITORY = os.path.isfile(os.path.join(TOP, "guests", "coz-cc"))

COMPILER = "guests/coz-cc" if IN_REPOSITORY else "coz-cc"
PAGES = "docs" if IN_REPOSITORY else os.path.join(PREFIX, "share", "doc", "coz")
BUILD = f"build it with {COMPILER}, as {PAGES}/GUESTS.md says"


def tool(name):
    """The whole path of a program of coz."""
    folders = [os.path.join(TOP, "tools"), os.path.join(TOP, "build")] if IN_REPOSITORY else [os.path.join(PREFIX, "bin")]
    for folder in folders:
        path = os.path.join(folder, name)
        if os.path.isfile(path) and os.access(path, os.X_OK):
            return path
    found = shutil.which(name)
    if not found:
        where = "in build/ nor on the path: run make, or make quick" if IN_REPOSITORY else "beside coz-study nor on the path"
        raise Stop(f"{name} is neither {where}")
    return os.path.abspath(found)


def call(words, most=1):
    """What a program of coz prints. It may end with a status up to `most`."""
    done = subprocess.run(words, stdout=subprocess.PIPE, stderr=subprocess.PIPE, check=False)
    if done.returncode > most or done.returncode < 0:
        said = done.stderr.decode(errors="replace").strip() or f"status {done.returncode}"
        raise Stop(f"{' '.join(words[:2])}: {said}")
    return done.stdout


def write_whole(path, data):
    """Writes a file that has its name only when it is whole."""
    part = path + ".part"
    try:
        with open(part, "wb") as out:
            out.write(data)
        os.replace(part, path)
    except BaseException:
        if os.path.exists(part):
            os.unlink(part)
        raise
