"""coz-study completions SHELL: completion scripts for bash and zsh, made from the table of words."""
from study.told import Wrong, say
from study.words import COMMANDS, nearest


def values_of(command, option):
    """How bash completes the value of an option."""
    if option.completes == "choices":
        return f'compgen -W "{" ".join(option.read.choices)}" -- "$word"'
    return {"file": 'compgen -f -- "$word"', "folder": 'compgen -d -- "$word"'}.get(option.completes)


def others_of(command):
    """How bash completes the other word of a command."""
    if isinstance(command.completes, tuple):
        return f'compgen -W "{" ".join(command.completes)}" -- "$word"'
    if command.name == "help":
        return f'compgen -W "{" ".join(COMMANDS)}" -- "$word"'
    return f'compgen -{"d" if command.completes == "folder" else "f"} -- "$word"'


def bash_case(command):
    rows = [f"    {command.name})", '        case $before in']
    for it in command.options.values():
        if it.value:
            rows.append(f"            --{it.name}) found=$({values_of(command, it) or ':'});;")
    options = " ".join(f"--{it}" for it in [*command.options, "help"])
    rows += ['            *) case $word in', f'                -*) found=$(compgen -W "{options}" -- "$word");;',
             f"                *) found=$({others_of(command)});;", "            esac;;", "        esac;;"]
    return "\n".join(rows)


def bash():
    names = " ".join(it for it in COMMANDS if it != "study")
    first = f'[ "$COMP_CWORD" = 1 ] && found="$found $(compgen -W "{names} --version" -- "$word")"'
    cases = "\n".join(bash_case(it) for it in COMMANDS.values())
    return f"""# Completes the words of coz-study, in bash; made by coz-study completions bash.
_coz_study() {{
    local word=${{COMP_WORDS[COMP_CWORD]}} before=${{COMP_WORDS[COMP_CWORD - 1]}} found= command=study
    case ${{COMP_WORDS[1]}} in {"|".join(COMMANDS)}) [ "$COMP_CWORD" -gt 1 ] && command=${{COMP_WORDS[1]}};; esac
    case $command in
{cases}
    esac
    {first}
    local IFS=$' \\t\\n'
    COMPREPLY=($found)
}}
complete -o filenames -F _coz_study coz-study"""


def zsh_value(option):
    if option.completes == "choices":
        return f"({' '.join(option.read.choices)})"
    return {"file": "_files", "folder": "_files -/"}.get(option.completes, " ")


def quoted(value):
    """A word of zsh in single quotes, as a part of what _arguments takes."""
    return value.replace("\\", "\\\\").replace("[", "\\[").replace("]", "\\]").replace(":", "\\:").replace("'", "'\\''")


def zsh_option(option):
    values = "".join(f":{it}:{zsh_value(option)}" for it in (option.value or "").split())
    return f"'--{option.name}{'=' if option.values == 1 else ''}[{quoted(option.help)}]{values}'"


def zsh_words(command):
    words = [zsh_option(it) for it in command.options.values()]
    words.append("'(- *)--help[print the page of the command]'")
    if isinstance(command.completes, tuple):
        other = f"({' '.join(command.completes)})"
    elif command.name == "help":
        other = f"({' '.join(COMMANDS)})"
    else:
        other = "_files -/" if command.completes == "folder" else "_files"
    return " ".join([*words, *(f"'{k}:{it}:{other}'" for k, it in enumerate(command.wants.split(), 1))])


def zsh():
    cases = "\n".join(f"        {it.name}) _arguments {zsh_words(it)};;" for it in COMMANDS.values() if it.name != "study")
    described = " ".join(f"'{it.name}:{quoted(it.about)}'" for it in COMMANDS.values())
    return f"""#compdef coz-study
# Completes the words of coz-study, in zsh; made by coz-study completions zsh.
_coz_study() {{
    local -a commands
    commands=({described})
    if (( CURRENT > 2 )) && (( ${{+commands[(r)$words[2]:*]}} )); then
        local command=$words[2]
        shift words
        (( CURRENT-- ))
        case $command in
{cases}
        study) _arguments {zsh_words(COMMANDS["study"])};;
        esac
        return
    fi
    (( CURRENT == 2 )) && _describe command commands
    _arguments {zsh_words(COMMANDS["study"])}
}}
_coz_study "$@\""""


def carry_out(asked):
    made = {"bash": bash, "zsh": zsh}
    if asked.shell not in made:
        near = nearest(asked.shell, made)
        raise Wrong(f"completions are for bash and zsh, and not for {asked.shell}{f'; do you mean {near}?' if near else ''}")
    say(made[asked.shell]())
