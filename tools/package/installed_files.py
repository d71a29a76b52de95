"""What `make install` puts below a prefix: the program, ./plan as opcplan-plan with its package, man pages, completion,
pages and examples, and files for systemd. Texts say there how a command is called and where a page stands."""

import os
import re
from dataclasses import dataclass
from pathlib import Path

import command_words
import completions
import man_pages

TOP = Path(__file__).resolve().parents[2]
DATA = TOP / "crates" / "test_streams" / "data"
EXAMPLES = ["first-days", "monday", "tuesday"]
# not installed, as docs/DECISIONS.md: only somebody who has the sources needs these pages
FOR_SOURCES = {"ARCHITECTURE.md", "CLAIMS.md", "CONTRIBUTING.md", "DEFINITIONS.md", "KIT.md"}
# by name, which no two have: all are in one folder where they are installed
PAGES = {path.name: path for path in sorted((TOP / "docs").glob("*/*.md")) if path.name not in FOR_SOURCES}
# what is beside a page, for other programs
BESIDE = {f"monitoring/{path.name}": path for path in sorted((TOP / "docs" / "use" / "monitoring").iterdir())}
# of a page of docs/
OF_CODE = {"Where it is in the code"}
# units, users and folders for systemd, by their path below the prefix
SYSTEMD = TOP / "tools" / "package" / "systemd"
UNITS = {f"lib/systemd/system/{path.name}": path for path in sorted(SYSTEMD.glob("*@.*"))}
SERVICES = {**UNITS, **{f"lib/{name}.d/opcplan.conf": SYSTEMD / f"{name}.conf" for name in ("sysusers", "tmpfiles")}}
UNIT_COMMAND = re.compile(r"(?m)^(Exec\w+=)/usr(/bin/opcplan-plan) ")
VIEWS = "python/opcplan/plans/views.sql"
SHARE, DOC = "share/opcplan", "share/doc/opcplan"
CALLED = {"./plan": "opcplan-plan", "./opcplan": "opcplan"}
COMMAND = re.compile(r"(?<![\w./-])\./(?:opc)?plan(?![\w/-]|\.\w)")
PAGE = re.compile(rf"(?<![\w./-])docs/(?:\w+/)?(?=(?:{'|'.join(map(re.escape, PAGES))})\b)")
# what pages say of the folder of the sources, and what is right where the commands are installed
LINKS = re.compile(r' && ln -s (?:"\$PWD/\w+" )+"\$\w+"')
OF_TOP = {
    "The top folder of this repository has two commands.": "There are two commands.",
    "For this page you put both commands into a new folder,": "For this page you use a new folder,",
    "Type the first line in the top folder. It makes": "The first line makes",
    "Type the first line in the top folder of this repository: it makes the new folder, puts both commands there, and":
    "The first line makes the new folder, and",
}
# what is compiled of the package is put there with it, and nothing is added later
WRITES_BYTECODE = re.compile(r"(?m)^# a checkout of one's own keeps [^\n]*\nsys\.dont_write_bytecode = [^\n]*\n")
STREAM = re.compile(rf"(?<![\w./-])crates/test_streams/data/(?=(?:{'|'.join(EXAMPLES)})\.in\b)")


@dataclass
class File:
    """The bytes of a file, and whether it is run."""

    data: bytes
    is_run: bool = False


@dataclass
class Link:
    """A symbolic link to a path from its own folder."""

    to: str


def version():
    """The version that the file VERSION has."""
    return (TOP / "VERSION").read_text(encoding="utf-8").strip()


def day_of(name):
    """The day of a version, by the changelog."""
    text = (TOP / "CHANGELOG.md").read_text(encoding="utf-8")
    found = re.search(rf"^## \[{re.escape(name)}\] - (\d{{4}}-\d\d-\d\d)$", text, re.M)
    if not found:
        raise SystemExit(f"CHANGELOG.md has no day for version {name}")
    return found[1]


def said(text, prefix):
    """A text as it is right where it is installed."""
    text = LINKS.sub("", text)
    for of_top, installed in OF_TOP.items():
        text = text.replace(of_top, installed)
    text = COMMAND.sub(lambda it: CALLED[it[0]], text)
    text = PAGE.sub(f"{prefix}/{DOC}/", text).replace("docs/use/monitoring/", f"{prefix}/{DOC}/monitoring/")
    text = STREAM.sub(f"{prefix}/{DOC}/examples/", text)
    return text.replace(VIEWS, f"{prefix}/{SHARE}/{VIEWS}")


def files(prefix, python, zsh):
    """All that is installed: by the path below the prefix a File or a Link. `python` is the command that runs ./plan,
    `zsh` the folder of completion for zsh."""
    found = {"bin/opcplan": File((TOP / "release" / "opcplan").read_bytes(), True),
             "bin/opcplan-plan": Link(f"../{SHARE}/plan")}
    found.update(of_package(prefix, python))
    found.update(of_pages(prefix))
    for place, path in SERVICES.items():
        found[place] = as_file(of_unit(path.read_text(encoding="utf-8"), prefix))
    plan = command_words.plan_module()
    commands = {"opcplan": command_words.of_program(TOP / "release" / "opcplan"),
                "opcplan-plan": command_words.of_plan(plan)}
    commands = {name: command_words.in_words(command, lambda text: said(text, prefix))
                for name, command in commands.items()}
    found.update(manual(commands, said(plan.END, prefix), prefix))
    for name, command in commands.items():
        found[f"share/bash-completion/completions/{name}"] = as_file(completions.bash(name, command))
        found[f"share/fish/vendor_completions.d/{name}.fish"] = as_file(completions.fish(name, command))
        found[f"{zsh}/_{name}"] = as_file(completions.zsh(name, command))
    return found


def as_file(text):
    """A text as a File."""
    return File(text.encode("utf-8"))


def of_package(prefix, python):
    """./plan and its package in python/, as the repository has them, with the program beside them."""
    text = said((TOP / "plan").read_text(encoding="utf-8"), prefix).partition("\n")[2]
    text = WRITES_BYTECODE.sub("sys.dont_write_bytecode = True\n", text)
    found = {f"{SHARE}/plan": File(f"#!{python}\n{text}".encode(), True),
             f"{SHARE}/VERSION": File((TOP / "VERSION").read_bytes()),
             f"{SHARE}/release/SOURCES": File((TOP / "release" / "SOURCES").read_bytes()),
             f"{SHARE}/release/opcplan": Link("../../../bin/opcplan")}
    for folder, below, names in os.walk(TOP / "python" / "opcplan"):
        below[:] = sorted(name for name in below if name != "__pycache__" and not name.startswith("."))
        for name in sorted(names):
            path = Path(folder) / name
            if not name.startswith("."):
                place = f"{SHARE}/{path.relative_to(TOP)}"
                found[place] = File(in_words(path.read_bytes(), prefix), os.access(path, os.X_OK))
    return found


def compiled_names(files, tag):
    """The paths of what Python compiles of these files, by the tag of its version."""
    return {f"{Path(name).parent}/__pycache__/{Path(name).stem}.{tag}.pyc"
            for name in files if name.startswith(f"{SHARE}/python/") and name.endswith(".py")}


def in_words(data, prefix):
    """The bytes of a file, where they are a text as it is right there."""
    try:
        return said(data.decode("utf-8"), prefix).encode("utf-8")
    except UnicodeDecodeError:
        return data


def of_unit(text, prefix):
    """A file for systemd, whose commands are those below the prefix; a path with a blank stands in quotes."""
    quote = '"' if " " in prefix else ""
    return UNIT_COMMAND.sub(lambda it: f"{it[1]}{quote}{prefix}{it[2]}{quote} ", text)


def of_pages(prefix):
    """The pages for operators, the changelog and some streams."""
    found = {f"{DOC}/{name}": File(in_words(path.read_bytes(), prefix)) for name, path in {**PAGES, **BESIDE}.items()}
    found[f"{DOC}/CHANGELOG.md"] = File((TOP / "CHANGELOG.md").read_bytes())
    for name in EXAMPLES:
        found[f"{DOC}/examples/{name}.in"] = File((DATA / f"{name}.in").read_bytes())
    return found


def manual(commands, end, prefix):
    """The man pages."""
    name, day = version(), day_of(version())
    statements = said(PAGES["STATEMENTS.md"].read_text(encoding="utf-8"), prefix)
    about = "the statements of a job stream, which opcplan answers"
    pages = {
        "man1/opcplan.1": man_pages.program_page(commands["opcplan"], name, day),
        "man1/opcplan-plan.1": man_pages.plan_page(commands["opcplan-plan"], end, name, day),
        "man5/opcplan-statements.5": man_pages.document_page(
            "opcplan-statements", about, statements, OF_CODE, name, day),
    }
    return {f"share/man/{place}": as_file(text) for place, text in pages.items()}
