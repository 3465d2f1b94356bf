"""Reads the words of coz-study, and calls the module of the command that they name."""
import importlib
import os
import signal
import sys

from study import help as pages
from study.reading import HELP, VERSIONS, command_of, read
from study.told import Stop, Wrong
from study.words import VERSION


def interrupted(*_):
    raise KeyboardInterrupt


def main(arguments):
    for it in (signal.SIGTERM, signal.SIGHUP):
        signal.signal(it, interrupted)
    command, rest = command_of(arguments)
    words = rest[:rest.index("--")] if "--" in rest else rest
    if HELP & set(words):
        print(pages.page_of(command))
        return 0
    if VERSIONS & set(words) or words == ["version"]:
        print(VERSION)
        return 0
    try:
        importlib.import_module(f"study.{command.name}").carry_out(read(command, rest))
        return 0
    except Wrong as wrong:
        print(f"coz-study: {wrong}", file=sys.stderr)
        return 2
    except Stop as stop:
        print(f"coz-study: {stop}", file=sys.stderr)
    except BrokenPipeError:
        os.dup2(os.open(os.devnull, os.O_WRONLY), sys.stdout.fileno())
    except OSError as error:
        print(f"coz-study: {error.filename or ''}: {error.strerror}", file=sys.stderr)
    except KeyboardInterrupt:
        on = "; the same words go on from here" if command.name == "study" else ""
        print(f"\ncoz-study: interrupted{on}", file=sys.stderr)
        return 130
    return 1
