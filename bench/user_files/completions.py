"""The completions of the command line for bash, zsh and fish."""

MADE = "Made by bench/user-files of what jm says of itself."
# What stands for a value, by the word that the help has for it: a file whose name has one of some ends, any file, or a directory.
# Of other values nothing is known but the words that the help lists.
KINDS = {"FILE": (".class", ".j"), "IN": (".j",), "OUT": (".class",), "RECORD": (), "DIR": "directory"}


def kind(option):
    """Returns what stands for the value of an option or an argument: ends of names, `directory`, or None where nothing is known."""
    return () if option.names and option.value == "FILE" else KINDS.get(option.value)


def numbers(jm, command):
    """Returns the numbers that a command takes as its argument, each with its name, or with its meaning where it is a status alone."""
    told = [(number, *text.split(": ", 1)) for number, text in jm.numbers] if command.name == "explain" else []
    return [(number, meaning if name == "status" else name) for number, name, meaning in told]


def quoted(text):
    """Returns a text as one word of a shell."""
    return "'" + text.replace("'", "'\\''") + "'"


# ---- bash

BASH = r"""
_jm_words() {
    mapfile -t COMPREPLY < <(compgen -W "$*" -- "$word")
}
_jm_directories() {
    compopt -o filenames 2> /dev/null
    mapfile -t COMPREPLY < <(compgen -d -- "${word//\\/}")
}
# The files whose names end so, and directories.
_jm_files() {
    local end
    compopt -o filenames 2> /dev/null
    (($#)) || set -- ""
    mapfile -t COMPREPLY < <({ for end; do compgen -f -X "!*$end" -- "${word//\\/}"; done; compgen -d -- "${word//\\/}"; } | sort -u)
}
# How many arguments stand before the word, behind the command: neither options nor their values.
_jm_arguments_before() {
    local at count=0
    for ((at = 2; at < COMP_CWORD; at++)); do
        if [[ " $valued " == *" ${COMP_WORDS[at]} "* ]]; then
            ((at++))
            [[ ${COMP_WORDS[at]} != = ]] || ((at++))
        elif [[ ${COMP_WORDS[at]} != -* ]]; then
            ((count++))
        fi
    done
    echo "$count"
}
_jm() {
    local word=${COMP_WORDS[COMP_CWORD]} before=${COMP_WORDS[COMP_CWORD - 1]} names="" valued="" more="" at
    local -a rest=()
    COMPREPLY=()
    if [[ $word == = ]]; then
        word=""
    elif [[ $before == = ]]; then
        before=${COMP_WORDS[COMP_CWORD - 2]}
    fi
    if ((COMP_CWORD == 1)); then
        _jm_words @first@
        return
    fi
    case ${COMP_WORDS[1]} in
@cases@
    esac
    if [[ $word == -* ]]; then
        _jm_words $names
        return
    fi
    at=$(_jm_arguments_before)
    [[ -z $more ]] || ((at < ${#rest[@]})) || at=$((${#rest[@]} - 1))
    ${rest[at]}
}
complete -F _jm jm
"""


def bash_value(option):
    """Returns the words that complete a value, or `:`."""
    known = kind(option)
    if option.values:
        return f"_jm_words {' '.join(option.values)}"
    if known == "directory":
        return "_jm_directories"
    return ":" if known is None else " ".join(["_jm_files", *known])


def bash_values(options):
    """Yields the lines that complete the values of options, those that are completed alike together."""
    for how in dict.fromkeys(map(bash_value, options)):
        yield f"{' | '.join(name for it in options if bash_value(it) == how for name in it.names)})"
        yield from (f"    {it}" for it in (how, "return", ";;"))


def bash_case(jm, command):
    """Returns the lines of a command."""
    valued = [it for it in command.options if it.value]
    listed = " ".join(number for number, _ in numbers(jm, command))
    rest = [f"_jm_words {listed}"] if listed else [bash_value(it) for it in command.arguments]
    lines = [f"{command.name})", f'    names="{" ".join(name for it in command.options for name in it.names)}"']
    if valued:
        lines.append(f'    valued="{" ".join(name for it in valued for name in it.names)}"')
        lines += ["    case $before in", *(f"        {it}" for it in bash_values(valued)), "    esac"]
    lines.append(f"    rest=({' '.join(map(quoted, rest))})")
    lines += ["    more=1"] if any(it.is_list for it in command.arguments) else []
    return "\n".join(f"        {it}" for it in [*lines, "    ;;"])


def bash(jm):
    """Returns the completion for bash."""
    first = [it.name for it in jm.commands] + [name for it in jm.options for name in it.names]
    cases = "\n".join(bash_case(jm, it) for it in jm.commands)
    head = f"# Completion of jm for bash, to be sourced, or as ~/.local/share/bash-completion/completions/jm. {MADE}"
    return head + BASH.replace("@first@", " ".join(first)).replace("@cases@", cases)


# ---- zsh

ZSH = r"""
_jm_numbers() {
  local -a numbers
  numbers=(
@numbers@
  )
  _describe -V -t numbers number numbers
}

_jm() {
  local curcontext=$curcontext state line
  typeset -A opt_args
  local -a commands
  commands=(
@commands@
  )
  _arguments -C @options@ '1: :->command' '*:: :->arguments'
  case $state in
    command)
      _describe -t commands command commands
      ;;
    arguments)
      curcontext=${curcontext%:*:*}:jm-$words[1]:
      case $words[1] in
@cases@
      esac
      ;;
  esac
}

_jm "$@"
"""


# Options behind which nothing follows.
ENDING = ("--help", "--version")


def escaped(text):
    """Returns a text in which no sign parts what zsh reads."""
    for sign in "\\:[]":
        text = text.replace(sign, f"\\{sign}")
    return text


def zsh_value(option):
    """Returns what stands behind the name of a value: how it is completed."""
    known = kind(option)
    if option.values:
        return f"({' '.join(option.values)})"
    if known == "directory":
        return "_files -/"
    return " " if known is None else "_files" if not known else f'_files -g "*.({"|".join(it[1:] for it in known)})(-.)"'


def zsh_option(option):
    """Returns the words of an option."""
    told = f"[{escaped(option.help)}]"
    if not option.value:
        alone = "(- *)" if option.names[-1] in ENDING else f"({' '.join(option.names)})"
        names = f"{{{','.join(option.names)}}}" if len(option.names) > 1 else option.names[0]
        return f"{quoted(alone)}{names}{quoted(told)}"
    return quoted(f"{'*' if option.is_list else ''}{option.names[-1]}={told}:{option.value}:{zsh_value(option)}")


def zsh_case(jm, command):
    """Returns the lines of a command."""
    words = [zsh_option(it) for it in command.options]
    for at, it in enumerate(command.arguments, 1):
        how = "_jm_numbers" if numbers(jm, command) else zsh_value(it)
        words.append(quoted(f"{'*' if it.is_list else at}:{it.value}:{how}"))
    spread = " \\\n".join(["          _arguments -s -S", *(f"            {it}" for it in words)])
    return f"        {command.name})\n{spread}\n          ;;"


def zsh(jm):
    """Returns the completion for zsh."""
    listed = [it for command in jm.commands for it in numbers(jm, command)]
    numbered = "\n".join(f"    {quoted(f'{number}:{name}')}" for number, name in listed)
    commands = "\n".join(f"    {quoted(f'{it.name}:{it.about}')}" for it in jm.commands)
    cases = "\n".join(zsh_case(jm, it) for it in jm.commands)
    made = ZSH.replace("@numbers@", numbered).replace("@commands@", commands).replace("@cases@", cases)
    made = made.replace("@options@", " ".join(map(zsh_option, jm.options)))
    return f"#compdef jm\n# Completion of jm for zsh, for a folder of $fpath. {MADE}\n{made}"


# ---- fish

FISH = r"""
# The files whose names end so, and directories.
function __jm_files
    set -l found (complete -C "__fish_command_without_completions "(commandline -ct))
    for end in $argv
        string match -- "*$end" $found
    end
    string match -- '*/' $found
end
"""

def fish_value(option):
    """Returns the words that complete a value."""
    known = kind(option)
    if option.values:
        return f"-x -a {quoted(' '.join(option.values))}"
    if known == "directory":
        return "-x -a '(__fish_complete_directories)'"
    return "-x" if known is None else "-r -F" if not known else f"-x -a '(__jm_files {' '.join(known)})'"


def fish_option(seen, option):
    """Returns the line of an option."""
    names = " ".join(f"-l {name[2:]}" if name.startswith("--") else f"-s {name[1:]}" for name in option.names)
    return f"{seen} {names} {fish_value(option) + ' ' if option.value else ''}-d {quoted(option.help)}"


def fish_command(jm, command):
    """Yields the lines of a command."""
    seen = f"complete -c jm -n '__fish_seen_subcommand_from {command.name}'"
    yield from (fish_option(seen, it) for it in command.options)
    for number, name in numbers(jm, command):
        yield f"{seen} -k -a {number} -d {quoted(name)}"
    kinds = [kind(it) for it in command.arguments if kind(it) is not None]
    if () in kinds:
        yield f"{seen} -F"
    elif kinds:
        yield f"{seen} -a '(__jm_files {' '.join(dict.fromkeys(end for it in kinds for end in it))})'"


def fish(jm):
    """Returns the completion for fish."""
    first = "complete -c jm -n __fish_use_subcommand"
    lines = [f"# Completion of jm for fish, for ~/.config/fish/completions. {MADE}{FISH}", "complete -c jm -f", *(fish_option(first, it) for it in jm.options)]
    lines += [f"{first} -a {it.name} -d {quoted(it.about)}" for it in jm.commands]
    lines += [line for it in jm.commands for line in fish_command(jm, it)]
    return "\n".join(lines) + "\n"
