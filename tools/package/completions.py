"""Completion of the installed commands, for bash, fish and zsh, by their words."""

import re


def ways(command, above=()):
    """Each command, with the names of the subcommands that lead to it, itself first."""
    yield above, command
    for below in command.commands:
        yield from ways(below, (*above, below.name))


def quoted(text):
    """A text as one word of a shell."""
    return "'" + text.replace("'", "'\\''") + "'"


def function_of(name):
    """The name of a command's function."""
    return "_" + re.sub(r"\W", "_", name)


# bash: the subcommand is looked for among the words before, and decides what may follow.

BASH = """\
# completion of {name} for bash
{function}() {{
    local cur=${{COMP_WORDS[COMP_CWORD]}} prev=${{COMP_WORDS[COMP_CWORD - 1]}} way=/ at
    local words='' files='' kinds='' names=''
    for ((at = 1; at < COMP_CWORD; at++)); do
        case $way${{COMP_WORDS[at]}} in
{ways}        esac
    done
    if [[ $cur == = ]]; then cur=''; elif [[ $prev == = ]]; then prev=${{COMP_WORDS[COMP_CWORD - 2]}}; fi
    case $way:$prev in
{values}    *)
        case $way in
{words}        esac
        ;;
    esac
    if [[ -n $kinds ]]; then
        for at in "${{COMP_WORDS[@]:1}}"; do
            [[ -f ${{at//\\/}} ]] || continue
            names=$("${{COMP_WORDS[0]}}" --names "$kinds" "${{at//\\/}}" 2>/dev/null)
            break
        done
    fi
    mapfile -t COMPREPLY < <(compgen -W "$words" -- "$cur"; [[ -z $names ]] || compgen -W "$names" -- "${{cur^^}}"
        [[ -z $files ]] || compgen -f -- "$cur")
    [[ -z $files ]] || compopt -o filenames 2>/dev/null
}}
complete -F {function} {name}
"""


def bash(name, command):
    """The file of a command for bash."""
    lead, values, words = [], [], []
    for way, one in ways(command):
        path = "/" + "".join(f"{step}/" for step in way)
        lead += [f"        {quoted(path + below.name)}) way={path}{below.name}/ ;;\n" for below in one.commands]
        for option in one.options:
            if option.metavar is not None:
                patterns = " | ".join(quoted(f"{path}:{given}") for given in option.names)
                offers = bash_offers([*option.choices, *option.offered], option.is_file, option.kinds)
                values.append(f"    {patterns}) {offers} ;;\n")
        offered = [below.name for below in one.commands]
        offered += [given for option in one.options for given in option.names]
        offered += [choice for place in one.places for choice in [*place.choices, *place.offered]]
        offers = bash_offers(offered, any(place.is_file for place in one.places), kinds_of(one.places))
        words.append(f"        {quoted(path)}) {offers} ;;\n")
    lead = lead or ["        *) ;;\n"]
    return BASH.format(name=name, function=function_of(name), ways="".join(lead), values="".join(values),
                       words="".join(words))


def bash_offers(words, takes_files, kinds):
    """What sets the words that are offered, whether files are, and of which kinds the names of the plan."""
    return f"words={quoted(' '.join(words))} files={'1' if takes_files else ''} kinds={','.join(kinds)}"


def kinds_of(places):
    """The kinds of names that are offered for words in their places."""
    return list(dict.fromkeys(kind for place in places for kind in place.kinds))


# fish: each word stands by itself, under the condition that its subcommands were given.

FISH_NAMES = """\
function {function}_names
    set -l given (commandline -opc)
    for one in $given[2..]
        if test -f $one
            $given[1] --names $argv[1] $one 2>/dev/null
            return
        end
    end
end
"""


def fish(name, command):
    """The file of a command for fish."""
    lines = [f"# completion of {name} for fish", *FISH_NAMES.format(function=function_of(name)).splitlines(),
             f"complete -c {name} -f"]
    for way, one in ways(command):
        given = "; and ".join(f"__fish_seen_subcommand_from {step}" for step in way)
        further = f"not __fish_seen_subcommand_from {' '.join(below.name for below in one.commands)}"
        condition = "; and ".join(part for part in (given, further if one.commands else "") if part)
        when = f"complete -c {name}" + (f" -n {quoted(condition)}" if condition else "")
        lines += [f"{when} -a {below.name} -d {quoted(below.summary)}" for below in one.commands]
        lines += [f"{when} -a {quoted(' '.join([*place.choices, *place.offered]))}" for place in one.places
                  if place.choices or place.offered]
        if kinds := kinds_of(one.places):
            lines.append(f"{when} -a {quoted(fish_names(function_of(name), kinds))}")
        lines += [f"{when} -F"] * any(place.is_file for place in one.places)
        lines += [f"{when} {fish_option(option, function_of(name))}" for option in one.options]
    return "\n".join(lines) + "\n"


def fish_names(function, kinds):
    """What prints the names of a plan of some kinds."""
    return f"({function}_names {','.join(kinds)})"


def fish_option(option, function):
    """The words of `complete` for an option."""
    names = [f"-l {given[2:]}" if given.startswith("--") else f"-s {given[1:]}" for given in option.names]
    value = []
    offered = [*option.choices, *option.offered, *([fish_names(function, option.kinds)] if option.kinds else [])]
    if offered:
        value = ["-x", "-a", quoted(" ".join(offered))]
    elif option.metavar is not None:
        value = ["-r", "-F"] if option.is_file else ["-x"]
    return " ".join([*names, *value, "-d", quoted(option.about)])


# zsh: a function for each command, with the words of _arguments.

ZSH_NAMES = """\
{function}_names() {{
    local one
    local -a own=("${{(@)argv[(i)--,-1]}}") offered
    for one in ${{(Q)${{(z)BUFFER}}}}; do
        if [[ -f $one ]]; then
            offered=(${{(f)"$({name} --names $own[2] $one 2>/dev/null)"}})
            break
        fi
    done
    offered+=("${{(@)own[3,-1]}}")
    compadd -M 'm:{{a-z}}={{A-Z}}' -a offered
}}
"""

ZSH_WAY = """\
    local at
    for ((at = 2; at < CURRENT; at++)); do
        case ${{words[at]}} in
        {names})
            local way=${{words[at]//-/_}}
            shift $((at - 1)) words
            ((CURRENT -= at - 1))
            {function}_$way
            return
            ;;
        esac
    done
    local -a commands=(
{found}
    )
    _describe -t commands subcommand commands
"""


def zsh(name, command):
    """The file of a command for zsh."""
    lines = [f"#compdef {name}", f"# completion of {name} for zsh", "",
             *ZSH_NAMES.format(function=function_of(name), name=name).splitlines(), ""]
    for way, one in ways(command):
        function = function_of("_".join([name, *way]))
        specs = [spec for option in one.options for spec in zsh_option(option, function_of(name))]
        specs += [zsh_place(place, function_of(name)) for place in one.places]
        lines += [f"{function}() {{", *(zsh_way(one, function) if one.commands else [])]
        lines += [" \\\n        ".join(["    _arguments -s", *specs]), "}", ""]
    return "\n".join([*lines, f'{function_of(name)} "$@"', ""])


def zsh_way(command, function):
    """The lines that hand on to the subcommand that is among the words, and offer the subcommands where none is."""
    names = " | ".join(below.name for below in command.commands)
    found = [f"        {quoted(zsh_text(below.name) + ':' + below.summary)}" for below in command.commands]
    return ZSH_WAY.format(names=names, function=function, found="\n".join(found)).splitlines()


def zsh_option(option, top):
    """The specs of an option, one for each of its names; a name excludes the others."""
    others = "(" + " ".join(option.names) + ")" if len(option.names) > 1 else ""
    value = "" if option.metavar is None else f":{zsh_text(option.metavar)}:{zsh_values(option, top)}"
    return [quoted(f"{others}{given}[{zsh_text(option.about)}]{value}") for given in option.names]


def zsh_place(place, top):
    """The spec of a word in its place."""
    head = "*:" if place.is_repeated else "::" if place.is_optional else ":"
    return quoted(f"{head}{zsh_text(place.metavar)}:{zsh_values(place, top)}")


def zsh_values(word, top):
    """What may be given: some words, names of the plan, files, or anything."""
    if word.kinds:
        return f"{top}_names -- {','.join(word.kinds)} {' '.join(word.offered)}".rstrip()
    if word.choices or word.offered:
        return f"({' '.join([*word.choices, *word.offered])})"
    return "_files" if word.is_file else " "


def zsh_text(text):
    """A text in a spec of _arguments."""
    return re.sub(r"([\\:\[\]])", r"\\\1", text)
