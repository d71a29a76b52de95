"""The words of the installed commands, as their man pages and completions need them: of ./plan by the parsers of its
subcommands, of opcplan by what its --help prints."""

import argparse
import importlib
import re
import subprocess
import sys
from dataclasses import dataclass, field, replace
from pathlib import Path

TOP = Path(__file__).resolve().parents[2]
OPTION = re.compile(r"  (?:(-\w), |    )(--[\w-]+)(?: <(\w+)>)?  +(\S.*)")


@dataclass
class Word:
    """An option, with its names, or a word in its place, without; `metavar` is None where no value belongs to it.
    `offered` is what a shell completes beside choices, and `kinds` of which kinds the names of a plan."""

    names: list
    metavar: str
    about: str
    choices: list
    is_file: bool
    is_repeated: bool = False
    is_optional: bool = True
    offered: list = field(default_factory=list)
    kinds: list = field(default_factory=list)


@dataclass
class Command:
    """A command with its words, its usage in one line, and the commands below it."""

    name: str
    usage: str
    summary: str
    about: str
    options: list
    places: list
    commands: list = field(default_factory=list)


def plan_module():
    """./plan as a module."""
    sys.dont_write_bytecode = True
    sys.path.insert(1, str(TOP / "python"))
    return importlib.import_module("opcplan.__main__")


def of_plan(plan):
    """./plan as a Command, whose commands are its subcommands."""
    help_word = Word(["-h", "--help"], None, "show this help", [], False)
    version_word = Word(["-V", "--version"], None, "show the version", [], False)
    head, _, about = plan.__doc__.partition(": ")
    commands = [of_parser(name, plan.module_of(name).SUMMARY, plan.parser_of(name)) for name in plan.SUBCOMMANDS]
    return Command("./plan", head, about.splitlines()[0], about, [help_word, version_word], [], commands)


def of_parser(name, summary, parser):
    """A parser of argparse as a Command, with the parsers below it."""
    usage = " ".join(parser.format_usage().split()).removeprefix("usage: ")
    found = Command(name, usage, summary, parser.description or summary, [], [])
    for action in parser._actions:
        if isinstance(action, argparse._SubParsersAction):
            seen = {choice.dest: choice.help or "" for choice in action._choices_actions}
            found.commands = [of_parser(one, seen.get(one, ""), below) for one, below in action.choices.items()]
        elif action.help is not argparse.SUPPRESS:
            (found.options if action.option_strings else found.places).append(word_of(parser, action))
    return found


def word_of(parser, action):
    """An action of argparse as a Word. What is read by a type of its own is no file, but where that is of files."""
    formatter = parser._get_formatter()
    default = formatter._get_default_metavar_for_optional if action.option_strings else (
        formatter._get_default_metavar_for_positional)
    metavar = None if action.nargs == 0 else formatter._metavar_formatter(action, default(action))(1)[0]
    is_file = metavar is not None and not action.choices and getattr(action.type, "__name__", "file") == "file"
    about = formatter._expand_help(action) if action.help else ""
    is_repeated = action.nargs in ("*", "+", argparse.REMAINDER)
    is_optional = bool(action.option_strings) or action.nargs in ("?", "*", argparse.REMAINDER)
    choices = [str(choice) for choice in action.choices or []]
    is_application = getattr(action.type, "__name__", "") == "name" and action.type.__module__ == "opcplan.cli.words"
    kinds = getattr(action, "names", ["applications"] if is_application else [])
    offered = getattr(action, "offered", [])
    return Word(list(action.option_strings), metavar, about, choices, is_file, is_repeated, is_optional, offered, kinds)


def of_program(program):
    """The program as a Command; `about` is all of its help but the options."""
    text = subprocess.run([program, "--help"], capture_output=True, encoding="utf-8", check=True).stdout
    about, _, rest = text.partition("\n\nUsage: ")
    usage, _, rest = rest.partition("\n\nOptions:\n")
    listed, _, more = rest.partition("\n\n")
    options = []
    for line in listed.splitlines():
        short, long, metavar, found = OPTION.fullmatch(line).groups()
        names = [name for name in (short, long) if name]
        options.append(Word(names, metavar, found, [], metavar is not None))
    return Command("./opcplan", f"./{usage}", about, f"{about}\n\n{more}", options, [])


def in_words(command, say):
    """A command whose texts `say` has put into other words."""
    def word(one):
        return replace(one, about=say(one.about))

    return replace(command, name=say(command.name), usage=say(command.usage), summary=say(command.summary),
                   about=say(command.about), options=[word(one) for one in command.options],
                   places=[word(one) for one in command.places],
                   commands=[in_words(below, say) for below in command.commands])
