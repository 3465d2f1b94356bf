"""The lines of a program, as `coz lines` prints them, and how a user names them."""
import bisect
import os
import re

from study.places import call
from study.told import Stop


class Lines:
    """The lines of a program, with their entry addresses."""

    def __init__(self, coz, path):
        rows = call([coz, "lines", path], 0).decode().splitlines()[1:]
        self.entries = {}
        for row in rows:
            label, _, entries = row.partition("\t")
            self.entries[label] = [int(it, 16) for it in entries.split(",") if it]
        if not self.entries:
            raise Stop(f"{path} has a line table without lines: compile it with -g")
        self.starts = sorted((address, label) for label, them in self.entries.items() for address in them)

    def of_address(self, address):
        """The line whose entry is the last one up to an address, if there is one."""
        place = bisect.bisect_right(self.starts, (address, "\U0010ffff"))
        return self.starts[place - 1][1] if place else None

    def found(self, path, number):
        """The labels of that number whose path is this one, or ends with a slash and this one."""
        exact = f"{path}:{number}"
        if exact in self.entries:
            return [exact]
        return [it for it in self.entries if it.endswith("/" + exact)]

    def resolve(self, piece, functions=()):
        """The label that a piece of a list names. The functions are those of the program, with their addresses."""
        if piece != piece.strip() or not piece:
            raise Stop(f"--progress: write the list without blanks: '{piece}'")
        match = re.fullmatch(r"(.+):(\d+)", piece)
        if not match:
            raise Stop(f"--progress: a piece is PATH:NUMBER, one line of a file, and '{piece}' is not{self.hint(piece, functions)}")
        path, number = match.group(1), int(match.group(2))
        tried = [path, os.path.normpath(path)]
        if path.startswith(("/", "./", "../")):
            tried += [path.split("/", k)[-1] for k in range(1, path.count("/") + 1)]
        for it in tried:
            found = self.found(it, number)
            if len(found) > 1:
                raise Stop(f"--progress: '{piece}' is a line of several files, write more of its path: " + ", ".join(found))
            if found:
                return found[0]
        raise Stop(f"--progress: {self.missing(os.path.basename(path), number, piece)}")

    def hint(self, piece, functions):
        """The lines that may be meant: the first one of a function, those of a number, or some of a file."""
        begins = self.of_address(functions[piece]) if piece in functions else None
        if begins and functions[piece] in self.entries[begins]:
            return f"; the function {piece} begins in the line {begins}"
        same = [it for it in self.entries if it.endswith(f":{piece}")][:3]
        if same:
            return f"; do you mean {' or '.join(same)}?"
        name = os.path.basename(re.split(r":", piece)[0])
        near = [it for it in self.entries if os.path.basename(it.rpartition(":")[0]) == name][:3]
        return f"; lines of it are {', '.join(near)}" if near else f"; the program has lines of {self.some_files()}"

    def some_files(self):
        files = {it.rpartition(":")[0] for it in self.entries}
        return ", ".join(sorted(files, key=lambda it: (it.count("/"), it))[:6])

    def missing(self, name, number, piece):
        """Why a piece names no line."""
        files = {it.rpartition(":")[0] for it in self.entries}
        same = [it for it in files if os.path.basename(it).lower() == name.lower()]
        if not same:
            return f"the program has no lines of a file {name}; it has lines of {self.some_files()}"
        numbers = sorted(int(it.rpartition(":")[2]) for it in self.entries if it.rpartition(":")[0] in same)
        below = [it for it in numbers if it < number][-1:]
        above = [it for it in numbers if it > number][:1]
        near = " and ".join(f"{same[0]}:{it}" for it in below + above)
        return f"'{piece}' is a line without code; the nearest lines with code are {near}"
