"""What the scripts beside this file share: the programs, crates.txt, and the toolchain's folder.

Run by itself it prints the names of the programs, which is where the Makefile has them from.
"""
import os
import subprocess

TOP = os.path.realpath(f"{os.path.dirname(os.path.realpath(__file__))}/..")
# Each program that is installed, with its crate. The first one is built first.
PROGRAMS = {
    "coz": "coz",
    "coz-page": "coz_page",
    "coz-join": "coz_join",
    "coz-hot": "coz_hot",
    "coz-functions": "coz_functions",
    "coz-gain": "coz_gain",
}


PARTS = ("src", "specs", "proofs")


def stored_words(program):
    """Returns the arguments of the stored run of a program, with its files as they are called from its crate's folder."""
    with open(f"{TOP}/crates/{PROGRAMS[program]}/args", encoding="utf-8") as lines:
        words = lines.read().split("\n")[:-1]
    return [f"data/{it}" if os.path.isfile(f"{TOP}/crates/{PROGRAMS[program]}/data/{it}") else it for it in words]


def is_newer(file, crates, folder):
    """Whether a file is newer than each source of the crates, each folder of sources, and the toolchain."""
    try:
        made = os.stat(file).st_mtime
    except OSError:
        return False
    parts = [f"{TOP}/crates/{crate}/{part}" for crate in crates for part in PARTS]
    found = [f"{at}/{name}" for part in parts for at, _, names in os.walk(part) for name in [".", *names]]
    return all(os.stat(it).st_mtime < made for it in [*found, f"{TOP}/crates.txt", f"{folder}/KIT-ID"])


def kit():
    """Returns the folder of the toolchain."""
    page = subprocess.run(["rt", "doc"], stdout=subprocess.PIPE, text=True, check=True).stdout
    return os.path.dirname(page.strip())


def libraries():
    """Returns each crate of crates.txt with the libraries that it uses, the toolchain's too."""
    with open(f"{TOP}/crates.txt", encoding="utf-8") as lines:
        pairs = [line.partition("#")[0].partition(":") for line in lines]
    return {name.split()[0]: uses.split() for name, _, uses in pairs if name.split()}


def reached(crate, uses):
    """Returns a crate of the repository and all others that it reaches."""
    found = [crate]
    for name in found:
        found += [it for it in uses[name] if it in uses and it not in found]
    return found


def add_programs(reader):
    """Has a reader of arguments take names of programs. None stands for all."""
    reader.add_argument("programs", nargs="*", metavar="PROGRAM", help=", ".join(PROGRAMS))


def programs_of(reader, words):
    """Returns the programs that the arguments name, in the order of PROGRAMS."""
    for name in words.programs:
        if name not in PROGRAMS:
            reader.error(f"{name} is no program: the programs are {', '.join(PROGRAMS)}")
    return [it for it in PROGRAMS if it in words.programs or not words.programs]


if __name__ == "__main__":
    print(*PROGRAMS)
