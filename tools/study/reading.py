"""Reads the words of the command line, by the table of words."""
import types

from study.told import Wrong
from study.words import COMMANDS, nearest

HELP, VERSIONS = {"--help", "-h"}, {"--version", "-V"}


def called(command):
    return "coz-study" if command.name == "study" else f"coz-study {command.name}"


def command_of(arguments):
    """The command that the first word names, and the other words. Without such a word it is a study."""
    if arguments and arguments[0] in COMMANDS:
        return COMMANDS[arguments[0]], arguments[1:]
    return COMMANDS["study"], arguments


def read_option(command, word, value, rest):
    """The option that a word names, and its value, or the list of its values. They are the next words, or one is given."""
    option = command.options.get(word)
    if option is None:
        near = nearest(word, [*command.options, "help", "version"])
        known = f"; do you mean --{near}?" if near else f"; {called(command)} --help lists them"
        raise Wrong(f"--{word} is no option of {called(command)}{known}")
    given = [] if value is None else [value]
    if given and not option.values:
        raise Wrong(f"--{word} has no value")
    while len(given) < option.values:
        if not rest or rest[0].startswith("--"):
            raise Wrong(f"--{word} wants its {option.value}: {option.help}")
        given.append(rest.pop(0))
    values = [read_value(option, it) for it in given]
    return option, values if option.values > 1 else values[0] if values else True


def read_value(option, value):
    try:
        return option.read(value)
    except ValueError as error:
        raise Wrong(f"--{option.name} wants {error}, and '{value}' is not")


def read(command, arguments):
    """What the words ask of a command, by the names of its options and the name of its other word."""
    asked = {it.name: it.default for it in command.options.values()}
    rest, others, given = list(arguments), [], set()
    while rest:
        word = rest.pop(0)
        if word == "--":
            others += rest
            break
        if not word.startswith("-") or word == "-":
            others.append(word)
            continue
        name, equals, value = word.partition("=")
        if not name.startswith("--"):
            raise Wrong(f"{word} is no option of {called(command)}: its options begin with two hyphens, and a path with ./")
        option, asked_value = read_option(command, name[2:], value if equals else None, rest)
        if option.name in given:
            raise Wrong(f"{name} is given twice")
        given.add(option.name)
        asked[option.name] = asked_value
    return with_others(command, others, asked)


def too_much(command, others):
    """What is said if there are more other words than a command takes."""
    wants = command.wants.split()
    near = nearest(others[0], COMMANDS) if command.name == "study" else None
    means = f"; do you mean the command {near}?" if near else ""
    words = "; a program gets its words by coz-args" if "PROG" in wants and not means else ""
    wanted = f"one {wants[0]} is" if len(wants) == 1 else f"{' and '.join(wants)} are"
    return f"{wanted} wanted, and '{others[len(wants)]}' is too much{means}{words}"


def with_others(command, others, asked):
    """All that is asked for: the options, and the other words by their names."""
    wants = command.wants.split()
    if len(others) > len(wants):
        raise Wrong(too_much(command, others))
    if len(others) < len(wants) and command.name != "help":
        raise Wrong(f"{wants[len(others)]} is required; {called(command)} --help says more")
    for k, it in enumerate(wants):
        asked[{"PROG": "program"}.get(it, it.lower())] = others[k] if k < len(others) else None
    return types.SimpleNamespace(**asked)
