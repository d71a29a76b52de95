"""The rules of a watch, from a file of TOML: whom it calls, and for what. No I/O."""

import re
import tomllib
import urllib.parse
from collections.abc import Mapping, Sequence
from typing import Any, NamedTuple

from opcplan.errors import UsageError
from opcplan.rules.naming_words import meant_text
from opcplan.rules.toml_lines import Lines
from opcplan.watch.state import Route

NAME = re.compile(r"[A-Za-z0-9][A-Za-z0-9_.-]{0,39}")
NAME_FORM = "must have 1 to 40 letters, digits, hyphens, dots and underscores, and begin with a letter or digit"
WAYS = ("command", "mail", "webhook")
ROUTE = ("then", "minutes", "acknowledge")
SENDMAIL = "/usr/sbin/sendmail"
ANY = "any"
# by the kind of needs that a rule is `on`: the words that it may have besides `on`, `name` and `call`
WORDS: dict[str, tuple[str, ...]] = {
    ANY: ("apps",),
    "error": ("apps", "minutes"),
    "unstarted": ("apps", "minutes"),
    "unknown": ("apps", "minutes"),
    "late": ("apps", "minutes"),
    "risk": ("apps",),
    "roll": ("hours",),
    "plan-end": ("hours",),
    "long-term-end": ("days",),
    "definitions": ("days",),
    "settings": ("minutes",),
    "agent": ("minutes", "names"),
    "desk": ("minutes",),
    "etcd": ("minutes",),
    "disk": ("path", "percent"),
    "call": ("minutes",),
}
LONGEST = 1_000_000
USUAL_PERCENT = 90.0
# for how long a target is tried before those after it are called
USUAL_ROUTE_MINUTES = 10.0
# between two heartbeats
USUAL_BEAT_MINUTES = 5.0
# by kind how many minutes a need lasts before somebody is called, unless the rule says so
USUAL_MINUTES = {"late": 15.0, "agent": 5.0, "desk": 5.0, "etcd": 5.0}


# the words that some rules may have
OF_RULES = tuple(dict.fromkeys(word for words in WORDS.values() for word in words))


class InvalidRules(UsageError):
    """What is wrong with a file of rules, and in which table and key."""

    def __init__(self, why: str, *place: str | int) -> None:
        super().__init__(why)
        self.place = place

    def at_line(self, lines: Lines) -> "InvalidRules":
        """The same with the line of its place."""
        return InvalidRules(lines.told(self, *self.place))


class Part(NamedTuple):
    """A table of the file: its place, and how sentences name it."""

    place: tuple[str | int, ...]
    name: str

    def wrong(self, why: str, word: str = "") -> InvalidRules:
        """What is wrong with it, or with a word of it."""
        return InvalidRules(f"{self.name}{why}", *self.place, *([word] if word else []))


WHOLE = Part((), "the file")


class Target(NamedTuple):
    """Somebody who can be called in one way: by a command with its words, by mail to an address, or by a webhook,
    perhaps with a secret in a file; and who is called after that."""

    name: str
    command: tuple[str, ...] = ()
    mail: str = ""
    webhook: str = ""
    secret: str = ""
    route: Route = Route()

    @property
    def way(self) -> str:
        """How it is called, in words."""
        return f"mail to {self.mail}" if self.mail else f"POST {self.webhook}" if self.webhook else \
            f"run {self.command[0]}"


class Heartbeat(NamedTuple):
    """Who gets a heartbeat, and each how many minutes."""

    target: str
    minutes: float


class Rule(NamedTuple):
    """For what somebody is called: needs of some `kinds`. With a `path` it is about the disk of that path on the
    machine of the watch. `minutes`, `hours` and `days` are None or 0 if the rule doesn't say them."""

    name: str
    kinds: tuple[str, ...]
    call: tuple[str, ...]
    apps: tuple[str, ...] = ("*",)
    minutes: float | None = None
    hours: float = 0
    days: float = 0
    names: tuple[str, ...] = ("*",)
    path: str = ""
    percent: float = USUAL_PERCENT

    def minutes_of(self, kind: str) -> float:
        """How many minutes a need of a kind lasts before somebody is called."""
        return USUAL_MINUTES.get(kind, 0.0) if self.minutes is None else self.minutes


class Rulebook(NamedTuple):
    """Targets by name, rules, the program that sends mail, and heartbeats; and the lines of all that in the file."""

    targets: dict[str, Target]
    rules: tuple[Rule, ...]
    sendmail: str = SENDMAIL
    heartbeats: tuple[Heartbeat, ...] = ()
    lines: Lines = Lines()

    def calls(self) -> dict[str, tuple[str, ...]]:
        """Whom each rule calls, by its name."""
        return {rule.name: rule.call for rule in self.rules}

    def routes(self) -> dict[str, Route]:
        """The route of each target that rules call, or that comes after one of these."""
        found: dict[str, Route] = {}
        left = [name for rule in self.rules for name in rule.call]
        while left:
            if (name := left.pop()) not in found:
                found[name] = self.targets[name].route
                left += found[name].then
        return dict(sorted(found.items()))


def of_text(text: str) -> Rulebook:
    """The rules of a text. Raises InvalidRules."""
    try:
        found = tomllib.loads(text)
    except (tomllib.TOMLDecodeError, RecursionError) as error:
        raise InvalidRules(f"the file isn't valid TOML: {error}") from None
    lines = Lines(text)
    try:
        return of_tables(found, lines)
    except InvalidRules as why:
        raise why.at_line(lines) from None


def of_tables(found: Mapping[str, Any], lines: Lines) -> Rulebook:
    """The rules of the tables of a file. Raises InvalidRules."""
    check_words(WHOLE, found, ("who", "rule", "heartbeat", "sendmail"))
    who, listed, beats = found.get("who", {}), found.get("rule", []), found.get("heartbeat", [])
    if not isinstance(who, dict) or not isinstance(listed, list) or not who or not listed:
        raise InvalidRules("the file needs a table [who.NAME] for somebody to call, and a table [[rule]], at least one "
                           "of each")
    if not isinstance(beats, list):
        raise InvalidRules("`heartbeat` must be a table [[heartbeat]]", "heartbeat")
    targets = {name: target_of(name, one) for name, one in who.items()}
    for name, target in targets.items():
        check_names(part_of(name), "then", [one for one in target.route.then if one != name], targets)
    rules: list[Rule] = []
    for place, one in enumerate(listed, 1):
        rules.append(rule_of(place, one, targets, [rule.name for rule in rules]))
    heartbeats: list[Heartbeat] = []
    for place, one in enumerate(beats, 1):
        heartbeats.append(heartbeat_of(place, one, targets, [beat.target for beat in heartbeats]))
    return Rulebook(targets, tuple(rules), text_of(WHOLE, found, "sendmail", SENDMAIL), tuple(heartbeats), lines)


def part_of(name: str) -> Part:
    """The table of somebody."""
    return Part(("who", name), f"[who.{name}]")


def check_words(part: Part, table: Any, known: Sequence[str]) -> None:
    """Checks that a table has known words only. Raises InvalidRules."""
    if not isinstance(table, dict):
        raise part.wrong(" must be a table")
    for word in table:
        if word not in known:
            raise part.wrong(f" can't have the word `{word}`{meant_text(word, known)}; it may have "
                             f"{', '.join(known)}", word)


def target_of(name: str, table: Any) -> Target:
    """The Target of a table. Raises InvalidRules."""
    part = part_of(name)
    if not NAME.fullmatch(name):
        raise part.wrong(f": the name {NAME_FORM}")
    check_words(part, table, (*WAYS, "secret", *ROUTE))
    ways = [way for way in WAYS if way in table]
    if len(ways) != 1:
        raise part.wrong(f" must have exactly one of {', '.join(WAYS)}", *ways[1:2])
    if "secret" in table and ways != ["webhook"]:
        raise part.wrong(": only a webhook has a secret; remove the line `secret`", "secret")
    mail, webhook = text_of(part, table, "mail", ""), text_of(part, table, "webhook", "")
    if "mail" in table and not re.fullmatch(r"[!-~]{1,200}@?[!-~]{0,200}", mail) or mail.startswith("-"):
        raise part.wrong(f": {mail!r} is not a mail address", "mail")
    if "webhook" in table:
        check_url(part, webhook)
    command = texts_of(part, table, "command", ())
    return Target(name, command, mail, webhook, text_of(part, table, "secret", ""), route_of(part, name, table))


def route_of(part: Part, name: str, table: Mapping[str, Any]) -> Route:
    """The Route of a table of somebody. Raises InvalidRules."""
    then = texts_of(part, table, "then", ())
    if name in then:
        raise part.wrong(f": `then` names {name!r} itself; name somebody else", "then")
    if not then and (lacking := [word for word in ROUTE if word in table]):
        raise part.wrong(f": `{lacking[0]}` needs the line `then`, which names who is called next", lacking[0])
    acknowledge = table.get("acknowledge", False)
    if not isinstance(acknowledge, bool):
        raise part.wrong(": `acknowledge` must be true or false", "acknowledge")
    minutes = number_of(part, table, "minutes", USUAL_ROUTE_MINUTES, LONGEST)
    return Route(tuple(dict.fromkeys(then)), 60 * minutes, acknowledge)


def check_names(part: Part, word: str, names: Sequence[str], targets: Mapping[str, Target]) -> None:
    """Checks that there are targets of the names of a word. Raises InvalidRules."""
    for one in names:
        if one not in targets:
            via = f": `{word}`" if word != "call" else ""
            raise part.wrong(f"{via} calls {one!r}{meant_text(one, targets)}, but there is no table [who.{one}]", word)


def heartbeat_of(place: int, table: Any, targets: Mapping[str, Target], before: Sequence[str]) -> Heartbeat:
    """The Heartbeat of a table. Raises InvalidRules."""
    part = Part(("heartbeat", place), f"heartbeat {place}")
    check_words(part, table, ("call", "minutes"))
    if "call" not in table:
        raise part.wrong(" lacks the line `call`")
    name = text_of(part, table, "call", "")
    check_names(part, "call", [name], targets)
    if name in before:
        raise part.wrong(f": another heartbeat calls {name!r}; remove one of the two", "call")
    minutes = number_of(part, table, "minutes", USUAL_BEAT_MINUTES, LONGEST)
    if minutes < 1:
        raise part.wrong(": `minutes` must be 1 at least", "minutes")
    return Heartbeat(name, minutes)


def check_url(part: Part, text: str) -> None:
    """Checks that a text is the address of a webhook. Raises InvalidRules."""
    try:
        found = urllib.parse.urlsplit(text)
        is_good = found.scheme in ("http", "https") and bool(found.hostname) and (found.port or 1) > 0
    except ValueError:
        is_good = False
    if not is_good or not re.fullmatch("[!-~]+", text) or "@" in found.netloc or found.fragment:
        raise part.wrong(f": {text!r} is not the address of a webhook such as https://host.example/path", "webhook")


def rule_of(place: int, table: Any, targets: Mapping[str, Target], before: Sequence[str]) -> Rule:
    """The Rule of a table. Raises InvalidRules."""
    part = Part(("rule", place), f"rule {place}")
    kinds = kinds_of(part, table if isinstance(table, dict) else {})
    may = [word for word in OF_RULES if all(word in WORDS[kind] for kind in kinds)]
    of_kinds = part._replace(name=f"{part.name} on {', '.join(kinds)}")
    check_words(of_kinds, table, ("on", "name", "call", *may))
    if "call" not in table:
        raise of_kinds.wrong(" lacks the line `call`")
    if "percent" in table and "path" not in table:
        raise of_kinds.wrong(" lacks the line `path`: `percent` is about a disk of this machine", "percent")
    name = text_of(part, table, "name", kinds[0])
    if not NAME.fullmatch(name):
        raise part.wrong(f": `name` is {name!r}; it {NAME_FORM}", "name")
    if name in before:
        raise part.wrong(f": another rule has the name {name!r}; give this one a `name` of its own", "name")
    call = texts_of(part, table, "call", ())
    check_names(part, "call", call, targets)
    minutes = number_of(part, table, "minutes", 0, LONGEST) if "minutes" in table else None
    return Rule(
        name, tuple(WORDS)[1:] if ANY in kinds else kinds, tuple(dict.fromkeys(call)),
        tuple(one.upper() for one in texts_of(part, table, "apps", ("*",))), minutes,
        number_of(part, table, "hours", 0, LONGEST), number_of(part, table, "days", 0, LONGEST),
        texts_of(part, table, "names", ("*",)), text_of(part, table, "path", ""),
        number_of(part, table, "percent", USUAL_PERCENT, 100))


def kinds_of(part: Part, table: Mapping[str, Any]) -> tuple[str, ...]:
    """The kinds of needs that a rule is on. Raises InvalidRules."""
    found = table.get("on")
    listed = found if isinstance(found, list) else [found]
    for one in listed or [None]:
        if not isinstance(one, str) or one not in WORDS:
            raise part.wrong(f": `on` is {one!r}{meant_text(str(one), WORDS)}; it must be one of "
                             f"{', '.join(WORDS)}, or a list of these", "on")
    return tuple(dict.fromkeys(listed))


def text_of(part: Part, table: Mapping[str, Any], word: str, usual: str) -> str:
    """The text of a word. Raises InvalidRules."""
    found = table.get(word, usual)
    if not isinstance(found, str) or word in table and not found or "\0" in found:
        raise part.wrong(f": `{word}` must be a text in quotes", word)
    return found


def texts_of(part: Part, table: Mapping[str, Any], word: str, usual: tuple[str, ...]) -> tuple[str, ...]:
    """The texts of a word; one text alone counts as a list of it. Raises InvalidRules."""
    found = table.get(word, list(usual))
    found = [found] if isinstance(found, str) else found
    if not isinstance(found, list) or word in table and not found or \
            not all(isinstance(one, str) and one and "\0" not in one for one in found):
        raise part.wrong(f": `{word}` must be a text in quotes, or a list of such texts", word)
    return tuple(found)


def number_of(part: Part, table: Mapping[str, Any], word: str, usual: float, most: float) -> float:
    """The number of a word. Raises InvalidRules."""
    found = table.get(word, usual)
    if isinstance(found, bool) or not isinstance(found, (int, float)) or not 0 <= found <= most:
        raise part.wrong(f": `{word}` must be a number from 0 to {most:,}", word)
    return float(found)
