"""One run of the program, and whether a study of it can say anything."""
import collections
import re

from study.places import PAGES

CALLS = {17: "getcwd", 19: "eventfd2", 20: "epoll_create1", 23: "dup", 25: "fcntl", 48: "faccessat", 56: "openat",
         73: "ppoll", 79: "newfstatat", 80: "fstat", 98: "futex", 113: "clock_gettime", 123: "sched_getaffinity",
         129: "kill", 130: "tkill", 134: "rt_sigaction", 198: "socket", 203: "connect", 220: "clone", 221: "execve",
         260: "wait4", 278: "getrandom"}


class Run:
    """What `coz run` prints. A visit is the number of its point, its hart, and its net time."""

    def __init__(self, text):
        head, _, rest = text.partition(b"\noutput ")
        fields = collections.defaultdict(list)
        for row in head.decode().splitlines():
            word, _, value = row.partition(" ")
            fields[word].append(value)
        self.end = fields["end"][0]
        self.net, self.retired = int(fields["net"][0]), int(fields["retired"][0])
        self.harts = len(fields["hart"])
        words = [it.split() for it in fields["visit"]]
        self.visited = [(int(it[0]), int(it[2]), int(it[-1])) for it in words]
        self.visits = collections.Counter(it[0] for it in self.visited)
        self.output = rest


def why_not_exited(run, lines, budget):
    """What ended a run that did not exit, in words; None if it exited."""
    kind, *parts = run.end.split(":")
    if kind == "exited":
        return None
    if kind == "unsupported":
        number = int(parts[0])
        told = re.search(rb"unsupported system call \d+ (\S+) from (0x[0-9a-f]+)", run.output)
        where = lines.of_address(int(told.group(2), 16)) if told else None
        name = told.group(1).decode() if told else CALLS.get(number, "of that number")
        return (f"the program makes the system call {number}, {name}{f', from {where}' if where else ''}, "
                f"which coz does not support: {PAGES}/GUESTS.md has what programs can do")
    if kind == "trapped":
        where = lines.of_address(int(parts[2], 16))
        return (f"the program is stopped by a trap ({parts[0]}) in thread {parts[1]} at {parts[2]}"
                f"{f', in {where}' if where else ''}")
    return {"spent": f"the budget of {budget:,} instructions ended the run: give more with --budget",
            "stalled": "no thread of the program runs or sleeps: a deadlock",
            "output-full": "the program wrote 4,194,304 bytes, the most that coz keeps: give it less to do",
            "visits-full": "the progress points have 1,048,576 visits, the most that coz keeps: choose rarer points",
            "clock": "the program sleeps past 10^16 ticks"}.get(kind, f"the run ended as {run.end}")
