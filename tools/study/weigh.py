"""What can matter: what each line or function costs in one run, and what it has of the critical path."""
import re

from study.names import readable
from study.paths import path_of
from study.places import call
from study.told import listed, say

NAMED, WORTH_NAMING = 5, 1.0
FLOATS_WARNED = 2.0

# libgcc's routines for float (sf) and double (df), which a machine with float registers has as instructions. It has none for
# the 128 bits of long double (tf).
SOFT_FLOAT = re.compile(
    r"__((add|sub|mul|div|neg|cmp|eq|ne|lt|le|gt|ge|unord)(sf|df)[23]?|fix(uns)?(sf|df)(si|di)|float(un)?(si|di)(sf|df)"
    r"|extendsfdf2|truncdfsf2)$")
SOFT_QUAD = re.compile(r"__((add|sub|mul|div|neg|cmp|eq|ne|lt|le|gt|ge|unord)tf[23]?|fix(uns)?tf(si|di)|float(un)?(si|di)tf"
                       r"|extend(sf|df)tf2|trunctf(sf|df)2)$")
COMPILER = re.compile(r"__((u?(div|mod|divmod)|mul|ash[lr]|lshr|c[lt]z|popcount|parity|bswap|ffs|neg|cmp|ucmp)[dts]i\d?"
                      r"|riscv_\w+|atomic_\w+|sync_\w+|pow[is]\w+|(mul|div)[sdt]c3)$")


class Costs:
    """What `coz-hot` prints: starts and cost of each line that starts, of code without a line, and of all instructions."""

    def __init__(self, text):
        self.starts, self.cost, self.bare, self.total = {}, {}, 0, 0
        for row in text.splitlines():
            word, _, rest = row.partition(" ")
            if word == "line":
                label, _, starts, _, cost, _, _ = rest.rsplit(" ", 6)
                self.starts[label], self.cost[label] = int(starts), int(cost)
                self.total += int(cost)
            elif word == "none":
                self.bare = int(rest.split()[1])
                self.total += self.bare


def costs_of(hot, program, options):
    return Costs(call([hot, program, *options]).decode())


class Weights:
    """The cost and the part of the critical path of each line of a program, in per cent."""

    def __init__(self, coz, hot, program, options, budget):
        costs = costs_of(hot, program, options)
        self.started, self.starts, self.charged = set(costs.starts), costs.starts, set()
        self.bare = 100 * costs.bare / max(costs.total, 1)
        self.cost = {it: 100 * cost / max(costs.total, 1) for it, cost in costs.cost.items()}
        self.critical = path_of(coz, program, options, budget)
        self.ticks, net = costs.cost, max(self.critical.net, 1)
        self.path = {it: 100 * ticks / net for it, ticks in self.critical.shares.items()}

    def of(self, label):
        """The greater of the two."""
        return max(self.cost.get(label, 0), self.path.get(label, 0))

    def kept(self, labels, least):
        """Those that have at least so many per cent of one of the two, or more than is known since other code is charged to them."""
        return [it for it in labels if it in self.started and (self.of(it) >= least or it in self.charged)]

    def charge(self, labels):
        self.charged = set(labels)

    def tell_left_out(self, what, labels, least):
        kept, started = len(self.kept(labels, least)), sum(it in self.started for it in labels)
        say(f"{len(labels):,} {what}: {len(labels) - started:,} never start, {started - kept:,} have less than {least:g} "
            f"per cent of the cost and of the critical path, and {kept:,} can matter")


def kind_of(name, address, library):
    """What a function without lines is."""
    if SOFT_FLOAT.match(name):
        return "soft float"
    if SOFT_QUAD.match(name):
        return "soft float of long double"
    if COMPILER.match(name):
        return "the compiler's library"
    if name.startswith("_Z") and library is not None and address >= library:
        return "library of C++"
    return "C library" if library is None or address >= library else "code without -g"


def tell_without_lines(weights, entries, library):
    """Names the functions that cost most but have no lines, and what of them is soft float.

    The label of such a function is its name, without a slash, and the number 1.
    """
    bare = {it: it.rpartition(":")[0] for it in weights.cost if "/" not in it and it.endswith(":1")}
    most = sorted(bare, key=lambda it: -weights.cost[it])
    named = [it for it in most if weights.cost[it] >= WORTH_NAMING]
    if named:
        kinds = {it: kind_of(bare[it], min(entries.get(it, [0])), library) for it in named}
        told = [f"{bare[it]} {weights.cost[it]:.1f} per cent ({kinds[it]})" for it in named]
        say(readable(f"functions without lines that cost most: {listed(told, NAMED)}"))
    floats = sum(weights.cost[it] for it in bare if SOFT_FLOAT.match(bare[it]))
    if floats > FLOATS_WARNED:
        say(f"warning: {floats:.1f} per cent of the cost are routines for floats, since coz has no float registers: "
            "on a machine that has them this share all but vanishes, and what other lines gain grows")
