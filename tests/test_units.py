"""The files for systemd: their commands and words are those of ./plan, their users and folders are made by sysusers.d
and tmpfiles.d, and each service is hardened as docs/use/INSTALL.md says."""

import re
import shlex
import shutil
import subprocess
import tempfile
import unittest
from collections.abc import Iterator
from pathlib import Path
from typing import NamedTuple

from support import TOP

from opcplan import __main__ as commands
from opcplan.commands import roll
from opcplan.errors import UsageError

FOLDER = TOP / "tools" / "package" / "systemd"
PAGE = TOP / "docs" / "use" / "INSTALL.md"
DESK, AGENT, WATCH, ROLL, BACKUP = (f"opcplan-{name}@.service" for name in ("desk", "agent", "watch", "roll", "backup"))
SERVICES = {DESK, AGENT, WATCH, ROLL, BACKUP}
TIMERS = {"opcplan-roll@.timer", "opcplan-backup@.timer"}
# what each service has
EVERYWHERE = {
    "CapabilityBoundingSet": "", "NoNewPrivileges": "true", "ProtectControlGroups": "true", "ProtectHostname": "true",
    "ProtectKernelLogs": "true", "ProtectKernelModules": "true", "ProtectKernelTunables": "true",
    "RestrictRealtime": "true", "RestrictSUIDSGID": "true",
}
# what the agent lacks, for its jobs
STRICT = {
    "LockPersonality": "true", "MemoryDenyWriteExecute": "true", "PrivateDevices": "true", "PrivateTmp": "true",
    "ProtectClock": "true", "ProtectHome": "true", "ProtectProc": "invisible", "ProtectSystem": "strict",
    "RemoveIPC": "true", "RestrictNamespaces": "true", "SystemCallArchitectures": "native",
    "SystemCallFilter": "@system-service ~@privileged", "UMask": "0077",
}
# a desk knows callers by their users and by /proc/net
NEVER = {DESK: {"PrivateUsers", "ProcSubset"}, AGENT: {*STRICT, "PrivateNetwork", "PrivateUsers"} - {"ProtectSystem"},
         WATCH: {"PrivateNetwork"}}
MOST_EXPOSED = {DESK: 2.5, AGENT: 6.0, WATCH: 2.5, ROLL: 2.5, BACKUP: 2.5}
FIELD = re.compile(r"([A-Za-z]+)=(.*)")


class Unit(NamedTuple):
    """A unit: the values of its fields, by their names, in their order."""

    name: str
    fields: dict[str, list[str]]

    def one(self, field: str) -> str:
        """The values of a field as one text, empty where there is none."""
        return " ".join(self.fields.get(field, []))

    def commands(self) -> list[list[str]]:
        """The words of each command, of an instance `main`."""
        return [shlex.split(line.replace("%i", "main")) for line in self.fields.get("ExecStart", [])]


def unit_of(path: Path) -> Unit:
    """A unit as it is in its file. Raises ValueError for a line that is none of a unit."""
    fields: dict[str, list[str]] = {}
    for line in path.read_text(encoding="utf-8").splitlines():
        if not line or line.startswith(("#", "[")):
            continue
        found = FIELD.fullmatch(line)
        if found is None:
            raise ValueError(f"{path.name}: {line!r}")
        fields.setdefault(found[1], []).append(found[2])
    return Unit(path.name, fields)


def units() -> dict[str, Unit]:
    """All units, by their names."""
    return {path.name: unit_of(path) for path in FOLDER.glob("*@.*")}


def lines_of(name: str) -> list[list[str]]:
    """The words of each line of the file for users or for folders."""
    text = (FOLDER / f"{name}.conf").read_text(encoding="utf-8")
    return [shlex.split(line) for line in text.splitlines() if line and not line.startswith("#")]


def users() -> set[str]:
    """The users that are made."""
    return {words[1] for words in lines_of("sysusers")}


def folders() -> dict[str, str]:
    """The folders that are made, and whose they are."""
    return {words[1]: words[3] for words in lines_of("tmpfiles")}


def of_plan(words: list[str]) -> bool:
    """Whether a command is one of ./plan."""
    return Path(words[0]).name == "opcplan-plan"


def page_text() -> str:
    """The page on installing."""
    return PAGE.read_text(encoding="utf-8")


def page_commands() -> Iterator[list[str]]:
    """The words of each command of ./plan that the page has, in blocks, units and spans of code."""
    for line in re.findall(r"\bopcplan-plan ([a-z][^`\n]*)", page_text()):
        yield shlex.split(re.split(r" [|<>] ", line)[0])


class Units(unittest.TestCase):
    def setUp(self) -> None:
        self.units = units()
        self.services = {name: self.units[name] for name in SERVICES}

    def test_there_are_these(self) -> None:
        self.assertEqual(set(self.units), SERVICES | TIMERS)

    def test_words_are_those_of_the_commands(self) -> None:
        """Words that a plan's settings add stand in the page, and belong to the same command."""
        added = {name: line.split() for name, line in re.findall(r"^OPCPLAN_(\w+)_OPTIONS=(.+)$", page_text(), re.M)}
        self.assertLessEqual({"DESK", "AGENT", "ROLL"}, set(added))
        for unit in self.services.values():
            for words in filter(of_plan, unit.commands()):
                if words[-1].startswith("$"):
                    self.assertEqual(words.pop(), f"$OPCPLAN_{words[1].upper()}_OPTIONS", unit.name)
                    self.assertIn(f"OPCPLAN_{words[1].upper()}_OPTIONS=", unit.fields["Environment"], unit.name)
                    commands.parser_of(words[1]).parse_args(words[2:] + added.get(words[1].upper(), []))
                commands.parser_of(words[1]).parse_args(words[2:])

    def test_a_wrong_word_is_seen(self) -> None:
        """The parser by which the units are read refuses what isn't a word."""
        with self.assertRaises(UsageError):
            commands.parser_of("roll").parse_args(["--at-once"])

    def test_users_are_made(self) -> None:
        self.assertEqual({unit.one("User") for unit in self.services.values()}, users())
        self.assertLessEqual(set(folders().values()), {"root", *users()})

    def test_folders_are_made(self) -> None:
        """Each path of a service is in a folder that is made, and one that it writes in is its own."""
        for name, unit in self.services.items():
            own = {f"/var/lib/{unit.one('StateDirectory')}", f"/run/{unit.one('RuntimeDirectory')}"}
            for path in own - {"/var/lib/", "/run/"}:
                self.assertEqual(Path(path).name, "%i", name)
                self.assertIn(str(Path(path).parent), folders(), name)
            text = " ".join([unit.one("ExecStart"), unit.one("LoadCredential")])
            for path in re.findall(r"(?<![\w%])/(?:etc|run|var)/[\w./@%-]+", text):
                self.assertTrue({str(folder) for folder in Path(path).parents} & set(folders()), f"{name}: {path}")
                if path.startswith("/var/lib/"):
                    self.assertTrue(any(path == one or path.startswith(f"{one}/") for one in own), f"{name}: {path}")
        self.assertIn(self.units[BACKUP].one("ReadWritePaths"), folders())

    def test_all_speak_with_the_socket_of_the_desk(self) -> None:
        (desk,) = self.units[DESK].commands()
        socket = desk[desk.index("--socket") + 1].replace("main", "%i")
        for name in (AGENT, WATCH, ROLL):
            self.assertIn(f"OPCPLAN_DESK={socket}", self.units[name].fields["Environment"], name)
            self.assertIn("opcplan-desk@%i.service", self.units[name].one("After"), name)

    def test_a_token_is_in_no_environment(self) -> None:
        """A token comes by a file of systemd, and where there is none it is a blank line, which no caller sends."""
        for name in (AGENT, WATCH):
            unit = self.units[name]
            self.assertIn("OPCPLAN_TOKEN_FILE=%d/token", unit.fields["Environment"], name)
            self.assertRegex(unit.one("LoadCredential"), r"^token:/etc/opcplan/%i/\w+\.token$")
            self.assertEqual(unit.one("SetCredential"), "token:\\n", name)
        for unit in self.units.values():
            self.assertNotRegex(unit.one("Environment"), r"OPCPLAN_TOKEN=")

    def test_they_begin_anew_but_not_for_wrong_words(self) -> None:
        for name in SERVICES - {BACKUP}:
            unit = self.units[name]
            self.assertIn(unit.one("Restart"), ("on-failure", "always"), name)
            # what a watch needs to call somebody may come back
            prevented = "" if name == WATCH else str(UsageError.exit_status)
            self.assertEqual(unit.one("RestartPreventExitStatus"), prevented, name)
            self.assertEqual(unit.one("StartLimitIntervalSec"), "0", name)
            self.assertGreaterEqual(int(unit.one("RestartSec")), 5, name)
        self.assertNotEqual(roll.StillDue.exit_status, UsageError.exit_status)

    def test_hardening(self) -> None:
        for name, unit in self.services.items():
            wanted = EVERYWHERE | ({} if name == AGENT else STRICT)
            self.assertEqual({field: unit.one(field) for field in wanted if field in unit.fields}, wanted, name)
            self.assertEqual(NEVER.get(name, set()) & set(unit.fields), set(), name)
            self.assertTrue(unit.one("LimitNOFILE"), name)
        for name in (DESK, ROLL, BACKUP):
            self.assertEqual(self.units[name].one("PrivateNetwork"), "true", name)
            self.assertEqual(self.units[name].one("RestrictAddressFamilies"), "AF_UNIX", name)
        self.assertEqual((self.units[AGENT].one("KillMode"), self.units[AGENT].one("OOMPolicy")),
                         ("process", "continue"))
        for name in (DESK, WATCH):
            self.assertEqual(self.units[name].one("KillMode"), "mixed", name)
        self.assertIn("network-online.target", self.units[WATCH].one("Wants"))
        self.assertIn("network-online.target", self.units[WATCH].one("After"))

    def test_timers_have_services(self) -> None:
        for name in TIMERS:
            self.assertIn(name.replace(".timer", ".service"), self.units)
            self.assertEqual(self.units[name].one("Persistent"), "true")
            self.assertNotIn("WantedBy", self.units[name.replace(".timer", ".service")].fields)
            self.assertEqual(self.units[name].one("WantedBy"), "timers.target")


@unittest.skipUnless(shutil.which("systemd-analyze"), "there is no systemd-analyze")
class BySystemd(unittest.TestCase):
    """What systemd's own tools say of the files."""

    def setUp(self) -> None:
        room = tempfile.TemporaryDirectory(prefix="units-")
        self.addCleanup(room.cleanup)
        self.room = Path(room.name)
        for path in FOLDER.glob("*@.*"):
            text = re.sub(r"(?m)^(ExecStart=)/usr/bin/\S+", r"\1/bin/true", path.read_text(encoding="utf-8"))
            (self.room / path.name).write_text(re.sub(r"(?m)^Documentation=.*\n", "", text), encoding="utf-8")

    def ran(self, *words: str) -> "subprocess.CompletedProcess[str]":
        """What a command answers in the folder of the units."""
        return subprocess.run(words, cwd=self.room, capture_output=True, encoding="utf-8", check=False, timeout=120)

    def test_it_has_nothing_to_say(self) -> None:
        said = self.ran("systemd-analyze", "verify", *(f"./{name}" for name in sorted(SERVICES | TIMERS)))
        self.assertEqual([line for line in said.stderr.splitlines() if "opcplan" in line], [])

    def test_exposure_is_no_more_than_the_page_says(self) -> None:
        told = {f"opcplan-{name}@.service": float(most) for name, most in
                re.findall(r"^\| `opcplan-(\w+)@\.service` \|.* \| ([0-9.]+) \|$", page_text(), re.M)}
        self.assertEqual(set(told), SERVICES)
        for name, most in MOST_EXPOSED.items():
            said = self.ran("systemd-analyze", "security", "--offline=true", f"./{name}").stdout
            found = re.search(r"exposure level for .*: ([0-9.]+) ", said)
            assert found is not None, said
            self.assertLessEqual(float(found[1]), most, name)
            self.assertLessEqual(abs(float(found[1]) - told[name]), 0.5, name)  # versions of systemd differ a little

    @unittest.skipUnless(shutil.which("systemd-sysusers") and shutil.which("systemd-tmpfiles"), "no systemd-sysusers")
    def test_users_and_folders_can_be_made(self) -> None:
        root = self.room / "root"
        (root / "etc").mkdir(parents=True)
        for name in ("sysusers", "tmpfiles"):
            shutil.copy(FOLDER / f"{name}.conf", self.room)
        made = self.ran("systemd-sysusers", f"--root={root}", str(self.room / "sysusers.conf"))
        self.assertEqual(made.returncode, 0, made.stderr)
        names = {line.split(":")[0] for line in (root / "etc" / "passwd").read_text(encoding="utf-8").splitlines()}
        self.assertEqual(names, users())


class Page(unittest.TestCase):
    """docs/use/INSTALL.md: what it has to type are words of ./plan, and its paths are those of the units."""

    def test_commands_have_these_words(self) -> None:
        found = list(page_commands())
        for words in found:
            with self.subTest(words=words):
                commands.parser_of(words[0]).parse_args(words[1:])
        self.assertLessEqual({"init", "status", "run", "send", "log"}, {words[0] for words in found})

    def test_folders_are_those_of_the_units(self) -> None:
        for path in re.findall(r"(?<![\w./])/(?:etc|run|var/lib|var/backups)/opcplan[\w-]*", page_text()):
            self.assertIn(path, folders())

    def test_units_that_are_named_are_there(self) -> None:
        named = set(re.findall(r"\bopcplan-\w+@(?:main|NAME)?(?:\.service|\.timer)?", page_text()))
        found = {re.sub("@(main|NAME)", "@", name) for name in named}
        known = SERVICES | TIMERS | {name.removesuffix(".service") for name in SERVICES}
        self.assertEqual(found - known, set())
        self.assertGreater(len(found), 5)


if __name__ == "__main__":
    unittest.main()
