"""Which lines or functions of two builds are the same: by a diff of their sources, or by the names of functions."""
import collections
import difflib
import os
import re
import urllib.parse

from study.told import Stop

EXACT = 5_000
CLONE = re.compile(r"\.(constprop|isra|part|cold|lto_priv|localalias)(\.\d+)?")


class Place(collections.namedtuple("Place", "old new changed")):
    """A line, some lines or a function of both builds, or of one of them, and whether its source has changed."""

    def __str__(self):
        if self.old is None:
            return f"{self.new}, new"
        if self.new is None:
            return f"{self.old}, gone"
        if self.old == self.new:
            return self.old
        path, _, number = self.new.rpartition(":")
        same = path == self.old.rpartition(":")[0]
        return f"{self.old}, now {number if same else self.new}"


def without_number(label):
    return label.rpartition(":")[0]


def parts_of(path):
    return os.path.normpath(path).split(os.sep)


def tail_of(file, other):
    """How many parts of two paths are equal, from the end on."""
    count = 0
    for a, b in zip(parts_of(file)[::-1], parts_of(other)[::-1]):
        if a != b:
            break
        count += 1
    return count


# ---- by sources

class Sources:
    """The sources of a build: a folder in which the paths of the lines begin, or the one file that it is made of."""

    def __init__(self, path):
        if not os.path.exists(path):
            raise Stop(f"{path}: No such file or directory: --source names two folders in which the paths of the lines begin, "
                       "or two files")
        self.path, self.one = path, not os.path.isdir(path)

    def path_of(self, file):
        """The path of a file whose name is that of labels, in which some bytes are written by their numbers."""
        return self.path if self.one else os.path.join(self.path, urllib.parse.unquote(file))

    def has(self, file):
        if self.one:
            return tail_of(self.path, urllib.parse.unquote(file)) == min(map(len, map(parts_of, (self.path, file))))
        return os.path.isfile(self.path_of(file))

    def read(self, file):
        """The lines of a file, without the blanks around them."""
        with open(self.path_of(file), encoding="utf-8", errors="replace") as text:
            return [it.strip() for it in text]


def differences(old, new):
    """The parts in which two lists of lines are equal or differ, as difflib names them; a comment that is added moves nothing."""
    head = 0
    while head < min(len(old), len(new)) and old[head] == new[head]:
        head += 1
    tail = 0
    while tail < min(len(old), len(new)) - head and old[-1 - tail] == new[-1 - tail]:
        tail += 1
    middles = old[head:len(old) - tail], new[head:len(new) - tail]
    parts = difflib.SequenceMatcher(None, *middles, autojunk=max(map(len, middles)) > EXACT).get_opcodes()
    return [("equal", 0, head, 0, head),
            *((kind, a + head, b + head, c + head, d + head) for kind, a, b, c, d in parts),
            ("equal", len(old) - tail, len(old), len(new) - tail, len(new))]


def lines_named(file, begin, end):
    """The lines of a file that have the places from begin on up to end, as a label."""
    if begin == end:
        return None
    return f"{file}:{begin + 1}" if end == begin + 1 else f"{file}:{begin + 1}-{end}"


def places_of(old_file, new_file, parts):
    """The place of each line of two files, by the labels of the old file and by those of the new one."""
    of_old, of_new = {}, {}
    for kind, a, b, c, d in parts:
        if b - a == d - c:
            for k in range(b - a):
                old, new = f"{old_file}:{a + k + 1}", f"{new_file}:{c + k + 1}"
                of_old[old] = of_new[new] = Place(old, new, kind != "equal")
        else:
            place = Place(lines_named(old_file, a, b), lines_named(new_file, c, d), True)
            of_old.update({f"{old_file}:{k + 1}": place for k in range(a, b)})
            of_new.update({f"{new_file}:{k + 1}": place for k in range(c, d)})
    return of_old, of_new


def files_of(labels):
    return list(dict.fromkeys(map(without_number, labels)))


def same_file(file, others):
    """The file of the other build that is this one: that of its path, or the only one with most of its path's end."""
    if file in others:
        return file
    best = max((tail_of(file, it) for it in others), default=0)
    found = [it for it in others if best and tail_of(file, it) == best]
    return found[0] if len(found) == 1 else None


class BySource:
    """Lines of two builds, matched by a diff of their files. Lines without a source are matched by their labels."""

    what = "line"

    def __init__(self, old, new, of_sources):
        sources = [Sources(it) for it in of_sources]
        files = [[file for file in files_of(labels) if its.has(file)] for its, labels in zip(sources, (old, new))]
        for its, found in zip(sources, files):
            if not found:
                raise Stop(f"--source {its.path}: no line of the program is in it: it is the folder in which the paths of the "
                           "lines begin, as `coz lines` prints them, or the one file that the program is made of")
            if its.one and len(found) > 1:
                raise Stop(f"--source {its.path}: the program has several such files, write more of its path: {', '.join(found)}")
        self.old, self.new = {}, {}
        for file in files[0]:
            other = files[1][0] if all(it.one for it in sources) else same_file(file, files[1])
            if other is not None:
                of_old, of_new = places_of(file, other, differences(sources[0].read(file), sources[1].read(other)))
                self.old.update(of_old)
                self.new.update(of_new)

    def of_old(self, label):
        return self.old.get(label, Place(label, label, False))

    def of_new(self, label):
        return self.new.get(label, Place(label, label, False))


# ---- by functions

class ByFunction:
    """Functions of two builds, matched by their files and names, and otherwise by their names alone."""

    what = "function"

    def __init__(self, old, new):
        names = [{self.name_of(it) for it in labels} for labels in (old, new)]
        self.moved = {}
        alone = [collections.defaultdict(list) for _ in names]
        for own, other, found in zip(names, names[::-1], alone):
            for it in own - other:
                found[it.rpartition("/")[2]].append(it)
        for bare in alone[0].keys() & alone[1].keys():
            if len(alone[0][bare]) == len(alone[1][bare]) == 1:
                place = Place(alone[0][bare][0], alone[1][bare][0], False)
                self.moved[0, place.old] = self.moved[1, place.new] = place
        self.names = names

    @staticmethod
    def name_of(label):
        """The name of a function without its line; what the compiler splits off a function is of that function."""
        return CLONE.sub("", without_number(label))

    def place(self, side, label):
        name = self.name_of(label)
        known = [name if name in it else None for it in self.names]
        return self.moved.get((side, name)) or Place(*known, False)

    def of_old(self, label):
        return self.place(0, label)

    def of_new(self, label):
        return self.place(1, label)
