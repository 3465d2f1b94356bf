"""coz-study help: the pages of the commands, made from the table of words."""
from study.told import Wrong, say
from study.words import COMMANDS, nearest

WIDTH = 22


def usage_of(command):
    words = "" if command.name == "study" else f" {command.name}"
    options = " [options]" if command.options else ""
    wants = f"[{command.wants}]" if command.name == "help" else command.wants
    return f"coz-study{words} {wants}{options}"


def options_of(command):
    rows = [(f"--{it.name}{f' {it.value}' if it.value else ''}", it.help) for it in command.options.values()]
    rows.append(("--help, --version", "print this text, or the version"))
    return "\n".join(f"  {name.ljust(WIDTH)} {about}" for name, about in rows)


def commands():
    rows = [(usage_of(it).replace(" [options]", ""), it.about) for it in COMMANDS.values()]
    return "\n".join(f"  {usage.ljust(2 * WIDTH - 6)} {about}" for usage, about in rows)


def page_of(command):
    text = f"{command.about[0].upper()}{command.about[1:]}.\n\nusage: {usage_of(command)}\n\n{command.page.strip()}\n\n"
    text += f"{options_of(command)}\n\n"
    if command.name in ("study", "help"):
        text += f"commands:\n{commands()}\n\n"
    fails = " or the gate fails" if command.name == "gate" else ""
    return text + (f"The exit status is 0 if all is done, 1 if something stands in the way{fails}, 2 if the words are wrong, "
                   "130 if interrupted.")


def carry_out(asked):
    name = asked.command or "study"
    if name not in COMMANDS:
        near = nearest(name, COMMANDS)
        raise Wrong(f"{name} is no command of coz-study{f'; do you mean {near}?' if near else ''}")
    say(page_of(COMMANDS[name]))
