"""The program's file: whether coz runs it, its functions, and the points that coz.h put into it."""
import collections
import os
import struct

from study.places import BUILD, COMPILER
from study.told import Stop

LONGEST_PROGRAM = 33_554_432
RISCV = 243
MACHINES = {3: "x86", 40: "ARM", 62: "x86-64", 183: "AArch64", 243: "RISC-V"}
COMPRESSED_CODE, FLOATS_IN_REGISTERS = 0x1, 0x6
INTERPRETER, COMPRESSED_SECTION = 3, 0x800
SYMBOL_BYTES, FUNCTION = 24, 2
NOTES, OWNER, PROGRESS, BEGIN, END = ".note.coz", b"coz\0", 1, 2, 3
MACROS = {PROGRESS: "COZ_PROGRESS_NAMED", BEGIN: "COZ_BEGIN", END: "COZ_END"}

# A use of a macro of coz.h: its kind (PROGRESS, BEGIN, END), its name, and its address.
Mark = collections.namedtuple("Mark", "kind name address")


def read_file(path):
    try:
        with open(path, "rb") as file:
            return file.read()
    except IsADirectoryError:
        raise Stop(f"{path} is a folder, not a program")
    except OSError as error:
        raise Stop(f"{path}: {error.strerror}")


def check_header(path, data):
    """Says in words what is wrong with a file that coz does not run."""
    if len(data) > LONGEST_PROGRAM:
        raise Stop(f"{path} has {len(data):,} bytes, and coz takes programs of at most {LONGEST_PROGRAM:,}")
    if data[:4] != b"\x7fELF" or len(data) < 64:
        source = path.endswith((".c", ".cc", ".cpp", ".rs", ".go", ".s"))
        raise Stop(f"{path} is {'a source' if source else 'no ELF program'}: {BUILD}")
    kind, machine = struct.unpack_from("<HH", data, 16)
    if machine != RISCV:
        raise Stop(f"{path} is a program for {MACHINES.get(machine, f'machine {machine}')}, and coz runs RISC-V: {BUILD}")
    if data[4] != 2:
        raise Stop(f"{path} is a 32-bit program, and coz runs 64-bit ones (-march=rv64ima): {BUILD}")
    if kind == 1:
        raise Stop(f"{path} is an object file: link it, with {COMPILER} -o PROG {os.path.basename(path)}")
    if kind == 3:
        raise Stop(f"{path} is position-independent or a shared object: link it with -static -no-pie, or {BUILD}")
    flags, = struct.unpack_from("<I", data, 48)
    if flags & COMPRESSED_CODE:
        raise Stop(f"{path} has compressed code: compile all of it with -march=rv64ima, or {BUILD}")
    if flags & FLOATS_IN_REGISTERS:
        raise Stop(f"{path} has floats in registers: compile all of it with -march=rv64ima -mabi=lp64, or {BUILD}")


def sections_of(data):
    """Name, header of each section."""
    start, = struct.unpack_from("<Q", data, 40)
    size, count, names = struct.unpack_from("<HHH", data, 58)
    if not count or start + size * count > len(data):
        return []
    headers = [struct.unpack_from("<IIQQQQIIQQ", data, start + size * k) for k in range(count)]
    text = headers[names][4] if names < count else 0
    return [(data[text + it[0]:data.find(b"\0", text + it[0])].decode(errors="replace"), it) for it in headers]


def check_sections(path, data):
    start, = struct.unpack_from("<Q", data, 32)
    size, count = struct.unpack_from("<HH", data, 54)
    for k in range(count):
        if struct.unpack_from("<I", data, start + size * k)[0] == INTERPRETER:
            raise Stop(f"{path} is linked dynamically: link it with -static, or {BUILD}")
    tables = dict(sections_of(data))
    if ".debug_line" not in tables:
        raise Stop(f"{path} has no line table: compile it with -g, and do not strip it")
    if tables[".debug_line"][2] & COMPRESSED_SECTION:
        raise Stop(f"{path} has compressed debug sections: link it with -Wl,--compress-debug-sections=none")


def read_program(path):
    """The bytes of a program that coz runs and that has a line table."""
    data = read_file(path)
    check_header(path, data)
    check_sections(path, data)
    return data


def symbols_of(data):
    """Name, type, address and size of each symbol that has a section."""
    headers = dict(sections_of(data))
    if ".symtab" not in headers or ".strtab" not in headers:
        return []
    start, size = headers[".symtab"][4:6]
    names = headers[".strtab"][4]
    found = []
    for k in range(min(size, len(data) - start) // SYMBOL_BYTES):
        name, info, _, section, address, length = struct.unpack_from("<IBBHQQ", data, start + SYMBOL_BYTES * k)
        if section:
            text = data[names + name:data.find(b"\0", names + name)]
            found.append((text.decode(errors="replace"), info % 16, address, length))
    return found


def functions_of(data):
    """The size of each function of the symbol table, by its address. Of several at one address the first counts."""
    sizes = {}
    for _, kind, address, length in symbols_of(data):
        if kind == FUNCTION and length:
            sizes.setdefault(address, length)
    return sizes


def names_of_functions(data):
    """The address of each function of the symbol table, by its name."""
    return {name: address for name, kind, address, _ in symbols_of(data) if kind == FUNCTION}


def end_of_program(data):
    """Where the program's own code ends and the C library begins, if coz-cc marked it."""
    return next((address for name, _, address, _ in symbols_of(data) if name == "__coz_program_end"), None)


def marks_of(data):
    """The uses of the macros of coz.h, in the order of their addresses."""
    header = dict(sections_of(data)).get(NOTES)
    if not header:
        return []
    notes, at, found = data[header[4]:header[4] + header[5]], 0, []
    while at + 16 <= len(notes):
        owner, length, kind = struct.unpack_from("<III", notes, at)
        body = at + 12 + (owner + 3) // 4 * 4
        if notes[at + 12:at + 12 + owner] == OWNER and length > 8 and kind in (PROGRESS, BEGIN, END):
            address, = struct.unpack_from("<Q", notes, body)
            found.append(Mark(kind, notes[body + 8:body + length].rstrip(b"\0").decode(errors="replace"), address))
        at = body + (length + 3) // 4 * 4
    return sorted(set(found), key=lambda it: it.address)
