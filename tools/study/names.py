"""Names of functions in C++, as their sources write them."""
import re
import shutil
import subprocess

FILTERS = ("c++filt", "riscv64-unknown-elf-c++filt")
MANGLED = re.compile(r"\b_Z\w+")


def demangled(names):
    """What the mangled names are without their parameters, if a program of binutils is there that says it."""
    found = next(filter(None, map(shutil.which, FILTERS)), None)
    if not names or not found:
        return {}
    done = subprocess.run([found, "--no-params"], input="\n".join(names), stdout=subprocess.PIPE, text=True, check=False)
    said = done.stdout.splitlines()
    return dict(zip(names, said)) if len(said) == len(names) else {}


def readable(text, escape=str):
    """A text with each mangled name in it demangled, and escaped as the text needs it."""
    known = demangled(sorted(set(MANGLED.findall(text))))
    return MANGLED.sub(lambda it: escape(known.get(it.group(), it.group())), text)
