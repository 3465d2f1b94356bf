"""The program that is studied: its bytes, its lines, its points, and how it is run."""
import collections
import re
import time

from study import program
from study.lines import Lines
from study.places import call, tool
from study.runs import Run, why_not_exited
from study.told import Stop, say

# Paths of the C library's own files, as builds of musl name them, and of the headers of C++.
LIBRARY = re.compile(
    r"^(musl/|cxx/include/|src/(thread|string|stdio|malloc|internal|env|exit|errno|ctype|stdlib|unistd|time|signal|locale|multibyte|math|"
    r"misc|process|mman|prng|ldso|linux|complex|regex|network|conf|aio|stat|fcntl|sched|select|termios|temp|search|passwd|mq|"
    r"ipc|fenv|dirent|crypt|setjmp|legacy|coz)/|\./(arch|src|include|obj)/|crt/|\.\./)")

# A pair of COZ_BEGIN and COZ_END of one name, as labels of lines.
Pair = collections.namedtuple("Pair", "name begins ends")


class Target:
    def __init__(self, asked):
        self.program, self.budget, self.jobs = asked.program, asked.budget, asked.jobs
        self.options = ["--budget", str(asked.budget)] + (["--input", asked.input] if asked.input else [])
        self.data = program.read_program(asked.program)
        self.input = program.read_file(asked.input) if asked.input else None
        self.coz = tool("coz")
        self.lines = Lines(self.coz, asked.program)
        self.marks = program.marks_of(self.data)
        self.library = program.end_of_program(self.data)

    def is_own(self, label, entries=None):
        """Whether a line is one of the user's own files, and not of the C library's. The entries of a function are its own."""
        if self.library is not None and all(it >= self.library for it in entries or self.lines.entries[label]):
            return False
        return not LIBRARY.match(label)

    def line_of(self, mark):
        label = self.lines.of_address(mark.address)
        if label is None:
            raise Stop(f"the point '{mark.name}' of coz.h is in code without lines: compile it with -g")
        return label

    def labels_of(self, kind, name=None):
        """The lines of the marks of a kind, and of a name if one is given."""
        return {self.line_of(it) for it in self.marks if it.kind == kind and name in (None, it.name)}

    def names_of(self, label):
        """The names that macros give to a line."""
        return sorted({it.name for it in self.marks if self.line_of(it) == label})

    def pairs(self):
        """The names that have both COZ_BEGIN and COZ_END."""
        begun, ended = ({it.name for it in self.marks if it.kind == kind} for kind in (program.BEGIN, program.END))
        names = begun & ended
        return [Pair(it, self.labels_of(program.BEGIN, it), self.labels_of(program.END, it)) for it in sorted(names)]

    def pieces(self, text):
        """The lines and names of a list; a name of coz.h may have commas."""
        return [text] if any(it.name == text for it in self.marks) else text.split(",")

    def resolve(self, text):
        """The labels of a list of lines, or of names of coz.h's points, in the order of the lines."""
        named = set()
        for piece in self.pieces(text):
            marked = {self.line_of(it) for it in self.marks if it.name == piece}
            named |= marked or {self.lines.resolve(piece, program.names_of_functions(self.data))}
        return self.in_order(named)

    def in_order(self, labels):
        return [it for it in self.lines.entries if it in labels]

    def run(self, points):
        """A run with these progress points, and how long it took in seconds."""
        began = time.monotonic()
        words = ["--progress", ",".join(points)] if points else []
        run = Run(call([self.coz, "run", self.program, *self.options, *words]))
        return run, time.monotonic() - began

    def why_not_exited(self, run):
        """What ended a run that did not exit, in words; None if it exited."""
        return why_not_exited(run, self.lines, self.budget)


def tell_marks(target):
    """Says which lines the macros of coz.h name, and where a line has more than one point or other code too."""
    lines = collections.defaultdict(set)
    for it in target.marks:
        lines[target.line_of(it)].add(it)
    for label, them in lines.items():
        macros = sorted({(it.kind, it.name) for it in them})
        say(f"  {label}: " + ", ".join(f'{program.MACROS[kind]}("{name}")' for kind, name in macros))
        if len(macros) > 1:
            say(f"  warning: {len(macros)} points are in the line {label}, and coz counts them as one: "
                "write them in lines of their own")
        elif not set(target.lines.entries[label]) <= {it.address for it in them}:
            say(f"  warning: the line {label} has other code than its point, which is visited too: "
                "write the macro in a line of its own")
