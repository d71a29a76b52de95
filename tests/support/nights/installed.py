"""What docs/use/INSTALL.md and the units install on one machine, below a folder in place of the root: the files that
the page prints, and the words of each unit's command with its options, as systemd makes them."""

import re
import shlex
from pathlib import Path

from test_units import page_text, units

# the places of a machine that are below the folder
PLACES = re.compile(r"(?<![\w.])/(?=(etc|run|var/lib|var/backups)/opcplan|usr/bin/)")
SECTION = re.compile(r"^## One machine\n(.*?)^## ", re.M | re.S)
FENCE = re.compile(r"^```[a-z]*\n(.*?)^```$", re.M | re.S)
FILE = re.compile(r"# (/etc/opcplan/main/[a-z.]+)\n(.*)", re.S)
HERE = re.compile(r"\$ cat > first\.in <<END\n(.*?)^> END$", re.M | re.S)
USERS = re.compile(r"\$ printf '(.*)' > /etc/opcplan/main/users")
NAME = "main"
# the fields of units by which systemd makes folders, and where
DIRECTORIES = ("StateDirectory", "/var/lib"), ("RuntimeDirectory", "/run")


def fences():
    """The texts of the blocks of "One machine"."""
    return FENCE.findall(SECTION.search(page_text())[1])


def files():
    """The files that the page prints, by their paths."""
    found = [FILE.fullmatch(text) for text in fences()]
    return {one[1]: one[2] for one in found if one}


def users():
    """The file `users`, as the page has it typed."""
    return USERS.search("\n".join(fences()))[1].replace("\\n", "\n")


def first_stream(begin, end):
    """The page's first stream, for days in place of those of the clock."""
    text = re.sub("^> ", "", HERE.search("\n".join(fences()))[1], flags=re.M)
    return text.replace("$(date +%F)", begin).replace("$(date -d '90 days' +%F)", end)


class Files:
    """The files of a machine, below a folder."""

    def __init__(self, root):
        self.root = Path(root)
        for path, text in files().items():
            self.write(path, text)
        self.write(f"/etc/opcplan/{NAME}/users", users())
        folders = [f"{base}/{one.replace('%i', NAME)}" for unit in units().values() for field, base in DIRECTORIES
                   for one in unit.fields.get(field, [])]
        for folder in (f"/etc/opcplan/{NAME}/jobs", *folders, "/usr/bin"):
            self.path(folder).mkdir(parents=True, exist_ok=True, mode=0o755)

    def path(self, name):
        """Where a path of the machine is."""
        return self.root / name.lstrip("/")

    def placed(self, text):
        """A text whose paths are those below the folder."""
        return PLACES.sub(f"{self.root}/", text)

    def write(self, name, text, mode=0o644):
        """Writes a file of the machine."""
        path = self.path(name)
        path.parent.mkdir(parents=True, exist_ok=True, mode=0o755)
        path.write_text(self.placed(text), encoding="utf-8")
        path.chmod(mode)

    def printed(self, name):
        """The text of a file as the page prints it; empty if it prints none."""
        return files().get(name, "")

    def environment(self, unit):
        """The variables that a unit sets, and those of settings.env behind them."""
        found = dict(line.split("=", 1) for line in unit.fields.get("Environment", []))
        settings = self.path(f"/etc/opcplan/{NAME}/settings.env").read_text(encoding="utf-8")
        found |= dict(line.split("=", 1) for line in settings.splitlines() if line and not line.startswith("#"))
        return {name: self.placed(value.replace("%i", NAME)) for name, value in found.items()
                if "%d" not in value}  # a credential that the page doesn't make is an empty line

    def command(self, name):
        """The words of a unit's command behind `opcplan-plan`, and its environment."""
        unit = units()[f"opcplan-{name}@.service"]
        environment = self.environment(unit)
        words = []
        for word in shlex.split(unit.fields["ExecStart"][0].replace("%i", NAME)):
            words += environment[word[1:]].split() if word.startswith("$") else [self.placed(word)]
        assert Path(words[0]).name == "opcplan-plan", words
        return words[1:], environment
