"""A model of coz's guest and of its two machines, written from docs/FORMATS.md, without the code: it shares nothing with the crates.

It interprets a source in assembly line by line, as far as the tests need it: the instructions and calls that their programs use,
with no rights of pages but that of execution. `Run` is one run. tools/check-tables compares it with the tables of the tests.
"""
import hashlib
import re
import struct

TICKS_PER_CYCLE = 100
WORD = (1 << 64) - 1
TEXT, STACK, STACK_TOP = 0x10000, 0x3FFFF00000, 0x4000000000
OUTPUT_LIMIT, VISIT_LIMIT, LATEST = 4194304, 1048576, 10**16
PIPE_ROOM, PIPE_PIECE, MOST_PIPES, MOST_HARTS = 65536, 4096, 64, 256
EBADF, EAGAIN, EACCES, EFAULT, EINVAL, EMFILE, EPIPE = -9, -11, -13, -14, -22, -24, -32
PAGE = 4096
THREAD_FLAGS, SETTLS, PARENT_SETTID, CHILD_CLEARTID, CHILD_SETTID = 0x10F00, 0x80000, 0x100000, 0x200000, 0x1000000
KNOWN_FLAGS = THREAD_FLAGS | 0xFF | 0x440000 | SETTLS | PARENT_SETTID | CHILD_CLEARTID | CHILD_SETTID
# Cycles of the instructions that take other than one.
CYCLES = {"jal": 2, "jalr": 2, "fence": 2, "ecall": 40, "div": 20}
CYCLES |= dict.fromkeys("lb lbu lw ld mul".split(), 3)
REGISTERS = {"zero": 0, "ra": 1, "sp": 2, "gp": 3, "tp": 4, "fp": 8} | {f"x{i}": i for i in range(32)}
REGISTERS |= {f"t{i}": i + (5 if i < 3 else 25) for i in range(7)} | {f"s{i}": i + (8 if i < 2 else 16) for i in range(12)}
REGISTERS |= {f"a{i}": i + 10 for i in range(8)}
OPERATIONS = {
    "add": lambda a, b: a + b, "sub": lambda a, b: a - b, "mul": lambda a, b: a * b, "and": lambda a, b: a & b,
    "or": lambda a, b: a | b, "xor": lambda a, b: a ^ b, "slt": lambda a, b: signed(a) < signed(b),
    "sltu": lambda a, b: a < b, "div": lambda a, b: quotient(signed(a), signed(b)),
}
WIDTHS = {"b": 1, "bu": 1, "w": 4, "d": 8}


def signed(number, bits=64):
    number &= (1 << bits) - 1
    return number - (1 << bits) if number >> (bits - 1) else number


def quotient(a, b):
    return -1 if b == 0 else abs(a) // abs(b) * (1 if (a < 0) == (b < 0) else -1)


def pages(count):
    """The bytes of the pages that hold this many."""
    return -(-count // PAGE) * PAGE


class Program:
    """A source: its instructions, each with its line, its data, and the addresses of its labels."""

    def __init__(self, source):
        self.text, self.data, self.labels, self.is_text, later = [], bytearray(), {}, True, []
        for number, line in enumerate(source.split("\n"), 1):
            line = line.split("#")[0].strip()
            while label := re.match(r"(\w+)\s*:\s*", line):
                self.labels[label[1]] = self.is_text, len(self.text) * 4 if self.is_text else len(self.data)
                line = line[label.end():]
            if line:
                self.add(number, *(line.split(None, 1) + [""])[:2], later)
        self.data_start = TEXT + pages(4 * len(self.text))
        for place, label in later:
            self.data[place:place + 8] = self.address(label).to_bytes(8, "little")
        is_text, place = self.labels.get("_start", (False, 0))
        self.entry = TEXT + (place if is_text and place < 4 * len(self.text) else 0)

    def add(self, line, name, rest, later):
        """Adds a statement. `later` gets the places of the data that are addresses of labels."""
        words = [it.strip() for it in rest.split(",")] if rest else []
        if name in (".text", ".data"):
            self.is_text = name == ".text"
        elif name == ".zero":
            self.data += bytes(int(rest, 0))
        elif name == ".ascii":
            self.data += rest[1:-1].encode().decode("unicode_escape").encode("latin-1")
        elif name in (".byte", ".word", ".dword"):
            width = {".byte": 1, ".word": 4, ".dword": 8}[name]
            for word in words:
                is_label = re.match(r"[A-Za-z_]", word)
                later += [(len(self.data), word)] if is_label else []
                self.data += (0 if is_label else int(word, 0) & ((1 << 8 * width) - 1)).to_bytes(width, "little")
        else:
            self.text += [(line, *it) for it in self.instructions(name, words)]

    @staticmethod
    def instructions(name, words):
        """The instructions of a statement of the text, one or two. `auipc` of `la` leaves all to the `addi` after it."""
        if name == "la":
            return [("auipc", words), ("address", words)]
        if name == "li":
            number = int(words[1], 0)
            low = signed(number, 12)
            if number == low:
                return [("addi", [words[0], "x0", words[1]])]
            return [("lui", [words[0], str((number - low >> 12) & 0xFFFFF)]), ("addiw", [words[0], words[0], str(low)])]
        short = {"mv": ("addi", [*words, "0"]), "nop": ("addi", ["x0", "x0", "0"]), "j": ("jal", ["x0", *words])}
        return [short.get(name, (name, words))]

    def address(self, label):
        is_text, place = self.labels[label]
        return (TEXT if is_text else self.data_start) + place

    def entries(self, line):
        """The entry addresses of a line."""
        lines = [None, *(it[0] for it in self.text)]
        return [TEXT + 4 * i for i in range(len(self.text)) if lines[i + 1] == line != lines[i]]


class Hart:
    def __init__(self, pc, registers):
        self.pc, self.x, self.clear, self.state = pc, registers, 0, "runs"


class Ended(Exception):
    """The run ends with this retirement."""


class Guest:
    """The harts, the memory, the pipes and the output of a program."""

    def __init__(self, program, given=b""):
        self.program, self.given, self.output = program, given, bytearray()
        self.data, self.stack = bytearray(program.data), {}
        self.harts, self.waiting = [Hart(program.entry, [0] * 32)], []
        self.harts[0].x[2] = STACK_TOP - 0xB0
        # The pages of the text that were given other rights, so that nothing in them is executed.
        self.lost = set()
        # Each open end: its pipe and its kind. The pipes are kept, since one is known by its id.
        self.ends, self.pipes, self.woken = {}, [], []

    def instruction(self, hart):
        """The line, the name and the operands of a hart's next instruction; None if there is none."""
        pc = self.harts[hart].pc
        place = (pc - TEXT) // 4
        is_there = pc % 4 == 0 and 0 <= place < len(self.program.text) and pc // PAGE not in self.lost
        return self.program.text[place] if is_there else None

    def line(self, hart):
        found = self.instruction(hart)
        return found[0] if found else None

    def ticks(self, hart):
        found = self.instruction(hart)
        return TICKS_PER_CYCLE * (CYCLES.get(found[1], 1) if found else 1)

    def has(self, address, count, to_write=False):
        """Whether these bytes may be read, or written."""
        places = [(self.program.data_start, pages(len(self.data))), (STACK, STACK_TOP - STACK)]
        places += [] if to_write else [(TEXT, pages(4 * len(self.program.text)))]
        return count == 0 or any(start <= address and address + count <= start + size for start, size in places)

    def read(self, address, count):
        place = address - self.program.data_start
        if 0 <= place and place + count <= len(self.data):
            return bytes(self.data[place:place + count])
        return bytes(self.stack.get(address + i, 0) for i in range(count))

    def write(self, address, data):
        place = address - self.program.data_start
        if 0 <= place and place + len(data) <= len(self.data):
            self.data[place:place + len(data)] = data
        else:
            self.stack |= {address + i: byte for i, byte in enumerate(data)}

    def wake(self, place, most=MOST_HARTS):
        """Wakes the oldest harts that wait there, and returns how many."""
        found = [it for it in self.waiting if it[0] == place][:most]
        self.waiting = [it for it in self.waiting if it not in found]
        for _, hart in found:
            self.harts[hart].state = "runs"
        self.woken += [hart for _, hart in found]
        return len(found)

    def retire(self, number, net):
        """Retires the next instruction of a hart. Returns when the hart wakes, if it sleeps, and the harts that it made or woke."""
        hart, self.woken = self.harts[number], []
        found = self.instruction(number)
        if not found:
            is_text = TEXT <= hart.pc < TEXT + pages(4 * len(self.program.text)) and hart.pc // PAGE not in self.lost
            is_there = hart.pc % 4 == 0 and is_text
            self.trap("illegal" if is_there else "fetch", number)
        _, name, words = found
        if name == "ecall":
            return self.call(number, net), self.woken
        hart.pc = self.execute(number, name, words)
        return None, self.woken

    def trap(self, cause, number):
        raise Ended(f"trapped:{cause}:{number}:{self.harts[number].pc:#x}")

    def execute(self, number, name, words):
        """The effect of an instruction other than ecall. Returns the next pc."""
        hart = self.harts[number]
        value, result, following = (lambda word: hart.x[REGISTERS[word]]), None, hart.pc + 4
        place = re.fullmatch(r"(-?\d*)\((\w+)\)", words[1]) if len(words) == 2 else None
        place = (int(place[1] or "0") + value(place[2])) & WORD if place else None
        if name in OPERATIONS:
            result = OPERATIONS[name](value(words[1]), value(words[2]))
        elif name in ("addi", "addiw"):
            result = signed(value(words[1]) + int(words[2], 0), 64 if name == "addi" else 32)
        elif name in ("slli", "srli"):
            result = value(words[1]) << int(words[2], 0) if name == "slli" else value(words[1]) >> int(words[2], 0)
        elif name == "sltiu":
            result = value(words[1]) < int(words[2], 0) & WORD
        elif name == "lui":
            result = signed(int(words[1], 0) << 12, 32)
        elif name == "address":
            result = self.program.address(words[1])
        elif name in ("beq", "bne"):
            following = self.program.address(words[2]) if (value(words[0]) == value(words[1])) == (name == "beq") else following
        elif name in ("jal", "jalr"):
            result, following = following, self.program.address(words[1]) if name == "jal" else place & ~1
            if following % 4:
                self.trap("misaligned", number)
        elif name == "ebreak":
            self.trap("break", number)
        elif name[0] in "ls":
            width = WIDTHS[name[1:]]
            if not self.has(place, width, name[0] == "s"):
                self.trap("access", number)
            if name[0] == "s":
                self.write(place, (value(words[0]) & ((1 << 8 * width) - 1)).to_bytes(width, "little"))
            else:
                result = int.from_bytes(self.read(place, width), "little", signed=not name.endswith("u"))
        elif name != "auipc":
            raise ValueError(f"the model has no {name}")
        if result is not None and REGISTERS[words[0]]:
            hart.x[REGISTERS[words[0]]] = int(result) & WORD
        return following

    def call(self, number, net):
        """A system call. Returns when the hart wakes, if it sleeps."""
        hart = self.harts[number]
        calls = {
            57: self.close, 59: self.pipe2, 63: self.read_call, 64: self.write_call, 93: self.exit, 98: self.futex, 101: self.nanosleep,
            113: self.clock, 124: lambda *_: 0, 178: lambda number, *_: number + 1, 220: self.clone, 226: self.mprotect,
        }
        if hart.x[17] == 94:
            raise Ended(f"exited:{hart.x[10] & 255}")
        if hart.x[17] not in calls:
            self.unsupported(number)
        result = calls[hart.x[17]](number, net, *hart.x[10:15])
        wakes = None
        if isinstance(result, tuple):
            wakes, result = result[0], 0
        if result is not None:
            hart.x[10], hart.pc = result & WORD, hart.pc + 4
        return wakes

    def unsupported(self, number):
        raise Ended(f"unsupported:{self.harts[number].x[17]}")

    def exit(self, number, _net, code, *_):
        hart = self.harts[number]
        hart.state = "gone"
        if hart.clear:
            if self.has(hart.clear, 4, True):
                self.write(hart.clear, bytes(4))
            self.wake(hart.clear, 1)
        if all(it.state == "gone" for it in self.harts):
            raise Ended(f"exited:{code & 255}")
        return 0

    def clone(self, number, _net, flags, stack, parent_word, thread_pointer, child_word):
        if flags & THREAD_FLAGS != THREAD_FLAGS or flags & ~KNOWN_FLAGS:
            self.unsupported(number)
        if len(self.harts) >= MOST_HARTS:
            return EAGAIN
        hart = self.harts[number]
        child = Hart(hart.pc + 4, list(hart.x))
        child.x[10] = 0
        child.x[2] = stack or child.x[2]
        child.x[4] = thread_pointer if flags & SETTLS else child.x[4]
        child.clear = child_word if flags & CHILD_CLEARTID else 0
        self.harts.append(child)
        self.woken.append(len(self.harts) - 1)
        for flag, address in ((PARENT_SETTID, parent_word), (CHILD_SETTID, child_word)):
            if flags & flag and self.has(address, 4, True):
                self.write(address, len(self.harts).to_bytes(4, "little"))
        return len(self.harts)

    def futex(self, number, _net, address, operation, value, timeout, *_):
        if operation not in (0, 1, 128, 129) or operation in (0, 128) and timeout:
            self.unsupported(number)
        if address % 4:
            return EINVAL
        if operation in (1, 129):
            return self.wake(address, max(1, signed(value, 32)))
        if not self.has(address, 4):
            return EFAULT
        if int.from_bytes(self.read(address, 4), "little") != value & 0xFFFFFFFF:
            return EAGAIN
        self.harts[number].state = "waits"
        self.waiting.append((address, number))
        return 0

    def mprotect(self, _number, _net, address, length, protection, *_):
        if address % PAGE:
            return EINVAL
        if length == 0:
            return 0
        if protection & 4:
            return EACCES
        if not TEXT <= address < address + length <= TEXT + pages(4 * len(self.program.text)):
            raise ValueError("the model has no rights of pages that are not of the text")
        self.lost |= set(range(address // PAGE, -(-(address + length) // PAGE)))
        return 0

    def nanosleep(self, number, net, address, *_):
        if not self.has(address, 16):
            return EFAULT
        seconds, nanoseconds = struct.unpack("<qq", self.read(address, 16))
        if seconds < 0 or not 0 <= nanoseconds < 10**9:
            return EINVAL
        wakes = net + 100 * (10**9 * seconds + nanoseconds)
        if wakes > LATEST:
            raise Ended("clock")
        self.harts[number].state = "sleeps"
        return (wakes,)

    def clock(self, number, net, clock, address, *_):
        if clock not in (0, 1):
            self.unsupported(number)
        if not self.has(address, 16, True):
            return EFAULT
        self.write(address, struct.pack("<QQ", *divmod(net // 100, 10**9)))
        return 0

    def pipe2(self, number, _net, address, flags, *_):
        if flags not in (0, 0x80000):
            self.unsupported(number)
        if not self.has(address, 8, True):
            return EFAULT
        free = [it for it in range(3, 131) if it not in self.ends]
        if len({id(pipe) for pipe, _ in self.ends.values()}) >= MOST_PIPES or len(free) < 2:
            return EMFILE
        pipe = bytearray()
        self.pipes.append(pipe)
        self.ends |= {free[0]: (pipe, "reads"), free[1]: (pipe, "writes")}
        self.write(address, struct.pack("<II", *free[:2]))
        return 0

    def is_open(self, pipe, kind):
        return any(it is pipe and its == kind for it, its in self.ends.values())

    def close(self, number, _net, end, *_):
        if end in (0, 1, 2):
            self.unsupported(number)
        if end not in self.ends:
            return EBADF
        pipe, _ = self.ends.pop(end)
        self.wake(("bytes", id(pipe)))
        self.wake(("room", id(pipe)))
        return 0

    def wait_for(self, number, what, pipe):
        self.harts[number].state = "waits"
        self.waiting.append(((what, id(pipe)), number))

    def read_call(self, number, _net, end, address, most, *_):
        if end == 0:
            piece = self.given[:most]
            if not self.has(address, len(piece), True):
                return EFAULT
            self.write(address, piece)
            self.given = self.given[len(piece):]
            return len(piece)
        pipe, kind = self.ends.get(end, (None, None))
        if kind != "reads":
            return EBADF
        if most == 0 or not pipe and not self.is_open(pipe, "writes"):
            return 0
        if not pipe:
            return self.wait_for(number, "bytes", pipe)
        piece = bytes(pipe[:most])
        if not self.has(address, len(piece), True):
            return EFAULT
        self.write(address, piece)
        del pipe[:most]
        self.wake(("room", id(pipe)))
        return len(piece)

    def write_call(self, number, _net, end, address, count, *_):
        pipe, kind = self.ends.get(end, (None, None))
        if end not in (1, 2) and kind != "writes":
            return EBADF
        if pipe is not None and count == 0:
            return 0
        if pipe is not None and not self.is_open(pipe, "reads"):
            return EPIPE
        if not self.has(address, count):
            return EFAULT
        if pipe is None:
            self.output += self.read(address, count)
            if len(self.output) >= OUTPUT_LIMIT:
                del self.output[OUTPUT_LIMIT:]
                raise Ended("output-full")
            return count
        room = PIPE_ROOM - len(pipe)
        if room < min(count, PIPE_PIECE):
            return self.wait_for(number, "room", pipe)
        pipe += self.read(address, min(count, room))
        self.wake(("bytes", id(pipe)))
        return min(count, room)


class Run:
    """One run: of the delayed machine, or of the shortened one, in which the selected line costs less and nothing is delayed."""

    def __init__(self, source, is_delayed=True, line=None, speedup=0, points=(), given=b"", budget=10**8):
        self.program = Program(source)
        self.guest = Guest(self.program, given)
        self.is_delayed, self.selected, self.speedup, self.budget = is_delayed, line, speedup, budget
        self.points = {at: i for i, it in reversed([*enumerate(points)]) for at in self.program.entries(it)}
        self.now = self.delay = self.retired = self.starts = 0
        # Of each hart that runs or sleeps, the ticks of work and of pause before its turn.
        self.work, self.pause = {}, {}
        # Of each hart, what it raised itself, paused, and was credited.
        self.accounts = {0: [0, 0, 0]}
        self.visits, self.events, self.begun, self.ending = [], [], {}, None
        self.origin, self.last = {0: None}, {}
        self.begin([0])

    @property
    def net(self):
        return self.now - self.delay

    def cut(self, hart):
        """What the speedup takes off the hart's next instruction."""
        is_selected = self.selected is not None and self.guest.line(hart) == self.selected
        return self.guest.ticks(hart) * self.speedup // 100 if is_selected else 0

    def begin(self, harts):
        for hart in harts:
            ticks, line = self.guest.ticks(hart), self.guest.line(hart)
            self.work[hart], self.pause[hart] = ticks - (0 if self.is_delayed else self.cut(hart)), 0
            count, cost = self.begun.get(line, (0, 0))
            self.begun[line] = count + 1, cost + ticks
        for hart in (it for it in harts if self.selected is not None and self.guest.line(it) == self.selected):
            self.starts += 1
            self.raise_delay(hart, self.cut(hart) if self.is_delayed else 0)

    def raise_delay(self, hart, ticks):
        self.delay += ticks
        self.accounts[hart][0] += ticks
        for other in self.work:
            self.pause[other] += ticks if other != hart else 0

    def turn(self):
        """The turn of the hart that is due first: it wakes, or it retires an instruction."""
        hart = min(self.work, key=lambda it: (self.work[it] + self.pause[it], it))
        passed = self.work[hart] + self.pause[hart]
        self.now += passed
        for other in self.work:
            paused = min(passed, self.pause[other])
            self.pause[other] -= paused
            self.accounts[other][1] += paused
            self.work[other] -= passed - paused
        del self.work[hart], self.pause[hart]
        if self.guest.harts[hart].state == "sleeps":
            self.guest.harts[hart].state = "runs"
            self.begin([hart])
        else:
            self.retire(hart)

    def retire(self, hart):
        pc = self.guest.harts[hart].pc
        if pc in self.points:
            self.visits.append((self.points[pc], hart, self.now, self.delay))
        self.note_event(hart)
        self.retired += 1
        try:
            wakes, others = self.guest.retire(hart, self.net)
        except Ended as ended:
            self.ending = str(ended)
            return
        goes = self.guest.harts[hart].state == "runs"
        for other in others:
            self.origin[other] = len(self.events) - 1
            self.accounts.setdefault(other, [0, 0, 0])
        if len(self.visits) >= VISIT_LIMIT:
            self.ending = "visits-full"
        elif not (goes or wakes is not None or others or self.work):
            self.ending = "stalled"
        elif self.retired >= self.budget:
            self.ending = "spent"
        if self.ending:
            return
        for other in others:
            account = self.accounts[other]
            account[2] += max(0, sum(self.accounts[hart]) - sum(account))
        if wakes is not None:
            self.work[hart], self.pause[hart] = wakes - self.net, 0
        self.begin(([hart] if goes else []) + others)

    def note_event(self, hart):
        """Notes the retirement: its hart and line, its cost, its *from*, its due moment, and whether the hart has none before it."""
        cost, origin = self.guest.ticks(hart) - (0 if self.is_delayed else self.cut(hart)), self.origin[hart]
        slept = self.net - cost - (self.events[origin][4] if origin is not None else 0)
        self.events.append((hart, self.guest.line(hart), cost, origin, self.net, slept, hart not in self.last))
        self.origin[hart] = self.last[hart] = len(self.events) - 1

    def finish(self):
        while not self.ending:
            self.turn()
        return self

    def text(self):
        """What `run` prints, or `really`."""
        lines = [f"end {self.ending}"]
        lines += [f"time {self.now}", f"delay {self.delay}"] if self.is_delayed else []
        lines += [f"net {self.net}", f"retired {self.retired}", f"starts {self.starts}"]
        if self.is_delayed:
            lines += [f"hart {it} own {own} paused {paused} credited {credited}"
                      for it, (own, paused, credited) in sorted(self.accounts.items())]
        for point, hart, time, delay in self.visits:
            moment = f"time {time} delay {delay} net {time - delay}" if self.is_delayed else f"net {time}"
            lines.append(f"visit {point} hart {hart} {moment}")
        return "\n".join([*lines, f"output {len(self.guest.output)}", ""]).encode() + bytes(self.guest.output) + b"\n"

    def path_text(self, name):
        """What `path` prints of the run."""
        chain, at = [], len(self.events) - 1
        while at is not None:
            chain.append(self.events[at])
            at = self.events[at][3]
        segments, shares, slept, came = [], {}, 0, 0
        for hart, line, cost, _, due, sleep, is_first in reversed(chain):
            if not segments or segments[-1][0] != hart:
                segments.append([hart, came, due, "start" if not segments else "clone" if is_first else "wake"])
            segments[-1][2] = came = due
            shares[line] = shares.get(line, 0) + cost
            slept += sleep
        lines = [f"end {self.ending}", f"net {self.net}", f"retired {self.retired}", f"segments {len(segments)}"]
        lines += [f"segment {hart} from {start} to {end} by {by}" for hart, start, end, by in segments]
        ranked = sorted((it for it in shares.items() if it[0] is not None), key=lambda it: (-it[1], it[0]))
        lines += [f"share {name}:{line} {ticks}" for line, ticks in ranked]
        lines += [f"share none {shares[None]}"] if None in shares else []
        return "\n".join([*lines, *([f"sleep {slept}"] if slept else []), ""]).encode()

    def latency_text(self, arrive, depart):
        """A line of `latency`, from the ending on, for two lists of points."""
        arrivals = departures = stray = area = 0
        moments = []
        for point, _, time, delay in self.visits:
            if point in arrive:
                arrivals += 1
                moments.append(time - delay)
            if point in depart and moments:
                departures += 1
                area += time - delay - moments.pop(0)
            elif point in depart:
                stray += 1
        area += sum(self.net - it for it in moments)
        mean = area // departures if departures else "absent"
        return (f"end {self.ending} net {self.net} arrivals {arrivals} departures {departures} stray {stray} open {len(moments)} "
                f"area {area} mean {mean}\n").encode()

    def visits_digest(self):
        """The digest of the visits in a profile."""
        visits = b"".join(struct.pack("<HHQ", point, hart, time - delay) for point, hart, time, delay in self.visits)
        return hashlib.sha256(visits).hexdigest()
