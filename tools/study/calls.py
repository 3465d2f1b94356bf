"""Which lines call code without lines, whose time is theirs on a machine that charges it to them."""
import bisect
import struct

from study.program import functions_of, sections_of

JAL, JALR, AUIPC, RETURN_ADDRESS = 0x6F, 0x67, 0x17, 1
EXECUTABLE = 0x4


def signed(value, bits):
    return value - (1 << bits) if value >> (bits - 1) else value


def jump_of(word):
    """How far a jump with a fixed distance goes."""
    value = (word >> 31) << 20 | (word >> 12 & 0xFF) << 12 | (word >> 20 & 1) << 11 | (word >> 21 & 0x3FF) << 1
    return signed(value, 21)


def target_of(word, before, address):
    """Where a call goes; None if the word is none, or if that is known only in the run."""
    if word & 0x7F == JAL and word >> 7 & 31 == RETURN_ADDRESS:
        return address + jump_of(word)
    is_pair = before & 0x7F == AUIPC and before >> 7 & 31 == word >> 15 & 31
    if word & 0x7F == JALR and word >> 7 & 31 == RETURN_ADDRESS and is_pair:
        return address - 4 + signed(before & 0xFFFFF000, 32) + signed(word >> 20, 12)
    return None


def calls_of(data):
    """The address and the target of each call in the program's code."""
    for _, header in sections_of(data):
        start, place, size = header[3:6]
        if not header[2] & EXECUTABLE or place + size > len(data):
            continue
        before = 0
        for k, (word,) in enumerate(struct.iter_unpack("<I", data[place:place + size // 4 * 4])):
            target = target_of(word, before, start + 4 * k)
            if target is not None:
                yield start + 4 * k, target
            before = word


def callers(data, lines):
    """The lines whose functions have lines, and which call functions that have none."""
    sizes = functions_of(data)
    starts = sorted(sizes)
    entries = [address for address, _ in lines.starts]

    def has_lines(address):
        """Whether the function at an address has lines; None if it is in no function."""
        place = bisect.bisect_right(starts, address) - 1
        if place < 0 or address >= starts[place] + sizes[starts[place]]:
            return None
        first = bisect.bisect_left(entries, starts[place])
        return first < len(entries) and entries[first] < starts[place] + sizes[starts[place]]
    found = {lines.of_address(address) for address, target in calls_of(data)
             if has_lines(target) is False and has_lines(address)}
    return found - {None}
