"""Runs the variants of cases on the host, in turn, and prints the medians of their times."""
import os
import platform
import statistics
import subprocess
import time

from . import catalogue

HEAD = ("| Case | Runs | Median before, s | Median after, s | Gain, % |", "|---|---|---|---|---|")


def seconds(words):
    """Returns how long a command takes."""
    start = time.perf_counter()
    subprocess.run(words, stdout=subprocess.DEVNULL, check=True)
    return time.perf_counter() - start


def processor():
    """Returns the name of the host's processor, if the system tells it."""
    try:
        with open("/proc/cpuinfo", encoding="utf-8") as file:
            return next((row.partition(": ")[2].strip() for row in file if row.startswith("model name")), platform.machine())
    except OSError:
        return platform.machine()


def run(cases, rounds):
    """Prints a row for each case that the host can run, and what the host is. The two variants take turns in going first."""
    print(*HEAD, sep="\n")
    for case in [it for it in cases if it.native]:
        times = {"before": [], "after": []}
        for turn in range(rounds):
            for variant in sorted(times, reverse=turn % 2 == 0):
                program = f"{catalogue.OUT}/{case.program.name}.{variant}.host"
                times[variant].append(seconds([program, *map(str, case.native)]))
        before, after = (statistics.median(times[it]) for it in ("before", "after"))
        print(f"| {case.name} | {rounds} | {before:.4f} | {after:.4f} | {100 * (1 - after / before):.1f} |", flush=True)
    print(f"\n{processor()}, {os.cpu_count()} processors, load {os.getloadavg()[0]:.1f} at the end")
    return 0
