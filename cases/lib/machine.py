"""Programs and runs on the machine of coz-gain: what lines cost, and how long a visit of the progress point takes."""
import os
import re
import struct
import subprocess
from concurrent.futures import ThreadPoolExecutor

TOP = os.path.realpath(f"{os.path.dirname(os.path.realpath(__file__))}/../..")
BUILD = os.environ.get("COZ_BUILD", f"{TOP}/build")
BUDGET = 1000000000
# With a speedup of 1 per cent a run's delay is the cost of the selected line, in cycles.
COST_SPEEDUP = 1
SYMTAB, FUNC, TYPE = 2, 2, 15


class Failure(Exception):
    """Why a case can't be run."""


def call(*words):
    """Returns what a command prints, or raises Failure with what it said."""
    done = subprocess.run(words, stdout=subprocess.PIPE, stderr=subprocess.PIPE, check=False)
    if done.returncode:
        raise Failure(f"{' '.join(words)}: status {done.returncode}: {done.stderr.decode(errors='replace').strip()}")
    return done.stdout


def write(path, data):
    """Writes a program, and returns its path."""
    with open(path, "wb") as file:
        file.write(data)
    os.chmod(path, 0o755)
    return path


def sections(image):
    """Returns the kind, the place in the file, the length and the linked section of each section of an ELF file."""
    at, size, count = struct.unpack_from("<Q", image, 40)[0], *struct.unpack_from("<HH", image, 58)
    heads = range(at, at + size * count, size)
    return [(*struct.unpack_from("<I", image, it + 4), *struct.unpack_from("<QQI", image, it + 24)) for it in heads]


def functions(image):
    """Yields the place in the file, the name and the address of each function among the symbols of an ELF file."""
    found = sections(image)
    for kind, place, length, names in found:
        for at in range(place, place + length if kind == SYMTAB else place, 24):
            if image[at + 4] & TYPE == FUNC:
                start = found[names][1] + struct.unpack_from("<I", image, at)[0]
                yield at, bytes(image[start:image.index(0, start)]).decode(), struct.unpack_from("<Q", image, at + 8)[0]


def hide(program, charged, shown, to):
    """Writes the program without the symbols of functions that are named in `charged`, or have no lines and aren't in `shown`.

    So coz-functions gives these no lines, and --charge last counts them for the line that called them.
    """
    starts = {int(it, 16) for it in re.findall(rb"\b0x([0-9a-f]+)", call(f"{BUILD}/coz", "lines", program))}
    with open(program, "rb") as file:
        image = bytearray(file.read())
    for at, name, address in list(functions(image)):
        if name in charged or address not in starts and name not in shown:
            image[at + 4] &= ~TYPE
    return write(to, bytes(image))


def has_lines(program, region):
    """Whether a program has code of a region, PATH:FROM-TO."""
    path, _, ends = region.rpartition(":")
    first, last = map(int, ends.split("-"))
    labels = re.findall(r"^(.*):(\d+)\t", call(f"{BUILD}/coz", "lines", program).decode(), re.MULTILINE)
    return any((it == path or it.endswith(f"/{path}")) and first <= int(number) <= last for it, number in labels)


def line_of(program, function):
    """Returns the line that a function is in a program of coz-functions."""
    for label in call(f"{BUILD}/coz", "lines", program).decode().split("\n"):
        if re.search(rf"(^|/){re.escape(function)}:\d+\t", label):
            return label.partition("\t")[0]
    raise Failure(f"{program} has no function {function}")


def prepare(program, to, point, regions, hidden):
    """Writes the program with its functions, and each region, as one line. `hidden` is what `hide` takes, two tuples."""
    own = hide(program, *hidden, f"{to}.own")
    words = ["--keep", point] + (["--regions", ",".join(regions)] if regions else [])
    return write(to, call(f"{BUILD}/coz-functions", own, *words))


def start(program, words, files, environment):
    """Gives the program its words, its files as NAME=PATH, and its environment as NAME=VALUE."""
    given = [it for file in files for it in ("--file", file)] + [it for pair in environment for it in ("--env", pair)]
    return write(program, call(f"{TOP}/guests/coz-args", *given, program, *map(str, words)))


class Run:
    """The summary of a run: net time and delay in ticks, retired instructions, visits of the progress point."""

    def __init__(self, fields, visits):
        if fields["end"] != "exited:0":
            raise Failure(f"a run ended as {fields['end']}")
        self.delay, self.retired, self.visits = int(fields["delay"]), int(fields["retired"]), int(visits)
        self.net = int(fields["time"]) - self.delay

    def pair(self):
        """Returns what an average takes of a run."""
        return self.net, self.visits


def read_profile(text):
    """Returns the runs of a profile of one line and one point, by speedup."""
    runs, fields = {}, {}
    for row in text.decode().splitlines():
        word, *rest = row.split("\t")
        named = dict(it.partition("=")[::2] for it in rest)
        if word == "experiment":
            fields = named
        elif word == "throughput-point":
            runs[int(fields["speedup"])] = Run(fields, named["delta"])
    return runs


class Machine:
    """A machine of the timing model with its seeds, and how many runs it makes at a time."""

    def __init__(self, options, seeds, jobs):
        self.options, self.seeds, self.jobs = options, seeds, jobs

    def profile(self, program, line, point, speedups, seed):
        """Returns the runs of a program at some speedups of a line, with one seed."""
        words = ["--lines", line, "--progress", point, "--speedups", ",".join(map(str, speedups)), "--seed", str(seed)]
        fixed = ["--charge", "last", "--workers", "1", "--budget", str(BUDGET)]
        return read_profile(call(f"{BUILD}/coz-gain", program, *words, *fixed, *self.options))

    def runs(self, program, line, point, speedups):
        """Returns a dictionary of runs for each seed."""
        with ThreadPoolExecutor(self.jobs) as pool:
            return list(pool.map(lambda seed: self.profile(program, line, point, speedups, seed), self.seeds))

    def cost(self, program, line, point):
        """Returns what a line costs in all runs together, in cycles."""
        return sum(it[COST_SPEEDUP].delay for it in self.runs(program, line, point, [COST_SPEEDUP]))
