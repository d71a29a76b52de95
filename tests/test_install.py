"""The program and ./plan as they are installed: by make install, as a Debian package, by links; their man pages,
completion and versions; and when ./opcplan takes the sums of its sources."""

import os
import re
import shlex
import shutil
import sqlite3
import subprocess
import tempfile
import time
import unittest
from contextlib import closing
from pathlib import Path

from support import plans
from test_commands import plan_program

TOP = plans.TOP
DEBIAN = "/usr/bin/python3"
MONDAY = plans.DATA / "monday"
MAN = {"MANROFFSEQ": "", "MANWIDTH": "80", "LC_ALL": "C.UTF-8"}


def ran(*given, text=None, **how):
    """What a command answers, as texts."""
    return subprocess.run(given, input=text, capture_output=True, encoding="utf-8", check=False, timeout=240, **how)


def make(target, **words):
    """What make answers, with these words."""
    return ran("make", "-C", TOP, target, *(f"{name}={value}" for name, value in words.items()))


def below(folder):
    """All paths below a folder."""
    return sorted(str(path.relative_to(folder)) for path in Path(folder).rglob("*"))


def has(*commands):
    """Skips where none of these commands is there."""
    return unittest.skipUnless(any(map(shutil.which, commands)), f"there is no {' or '.join(commands)}")


@has("make")
class Installed(unittest.TestCase):
    @classmethod
    def setUpClass(cls):
        room = tempfile.TemporaryDirectory(prefix="install-")
        cls.addClassCleanup(room.cleanup)
        cls.prefix, cls.folder = Path(room.name) / "a prefix", Path(room.name) / "elsewhere"
        cls.folder.mkdir()
        cls.said = make("install", PREFIX=cls.prefix)
        cls.subcommands = plan_program().SUBCOMMANDS
        cls.helps = {name: cls.asked("opcplan-plan", name, "--help") for name in cls.subcommands}

    @classmethod
    def asked(cls, name, *given, **how):
        """What an installed command answers from another folder."""
        return ran(cls.prefix / "bin" / name, *map(str, given), cwd=cls.folder, **how)

    def test_it_says_nothing(self):
        self.assertEqual((self.said.returncode, self.said.stderr), (0, ""))
        self.assertEqual([line for line in self.said.stdout.splitlines() if not line.startswith("make: ")], [])

    def test_program_runs_from_another_folder(self):
        answered = self.asked("opcplan", "--db", "monday.db", text=plans.stream("monday").decode())
        self.assertEqual((answered.returncode, answered.stdout), (0, MONDAY.with_suffix(".out").read_text()))

    def test_subcommands_run_from_another_folder(self):
        listed = self.asked("opcplan-plan", "--help").stdout.splitlines()
        self.assertEqual([line.split()[0] for line in listed if line.startswith("  ")], self.subcommands)
        for name, answered in self.helps.items():
            self.assertEqual((answered.returncode, answered.stderr), (0, ""), name)
            self.assertTrue(answered.stdout.startswith(f"usage: opcplan-plan {name} "), answered.stdout)
            self.assertNotRegex(answered.stdout, r"\./(opc)?plan\b|docs/", name)
        wrong = self.asked("opcplan-plan", "why")
        self.assertEqual(wrong.returncode, 2)
        self.assertRegex(wrong.stderr, "^opcplan-plan: .*; opcplan-plan why --help says more\n$")

    def test_subcommand_finds_the_installed_program(self):
        plans.copy_of(plans.of_worked("monday"), self.folder, "trial.db")
        tuesday = self.prefix / "share/doc/opcplan/examples/tuesday.in"
        answered = self.asked("opcplan-plan", "what-if", "trial.db", tuesday)
        # the plain planner refuses one of Tuesday's five statements
        self.assertEqual((answered.returncode, answered.stdout.splitlines()[0]), (1, "4 accepted, 1 refused"))

    def test_versions_agree(self):
        version = (TOP / "VERSION").read_text(encoding="utf-8").strip()
        sources, kit = (TOP / "release" / "SOURCES").read_text(encoding="utf-8").strip().split(" ", 1)
        with closing(sqlite3.connect(plans.copy_of(plans.of_worked("monday"), self.folder, "version.db"))) as db:
            (schema,) = db.execute("SELECT version FROM plan_meta").fetchone()
        found = f"schema {schema}\nsources {sources}\nkit {kit}\n"
        self.assertEqual(plans.plan("--version").stdout, f"plan {version}\n{found}")
        self.assertEqual(self.asked("opcplan-plan", "--version").stdout, f"opcplan-plan {version}\n{found}")
        released = re.findall(r"^## \[([0-9.]+)\] - \d{4}-\d\d-\d\d$", (TOP / "CHANGELOG.md").read_text("utf-8"), re.M)
        self.assertEqual(released[0], version)
        if "--version" in self.asked("opcplan", "--help").stdout:
            said = f"opcplan {version}\nschema {schema}\nsources {sources}\n"
            self.assertEqual(self.asked("opcplan", "--version").stdout, said)

    def test_completion_is_read_by_its_shell(self):
        for shell, place in (("bash", "share/bash-completion/completions/{}"), ("zsh", "share/zsh/site-functions/_{}"),
                             ("fish", "share/fish/vendor_completions.d/{}.fish")):
            for name in ("opcplan", "opcplan-plan"):
                file = self.prefix / place.format(name)
                text = file.read_text(encoding="utf-8")
                for word in self.subcommands if name == "opcplan-plan" else ["db", "sums"]:
                    self.assertIn(word, text, file)
                if shutil.which(shell):
                    read = ran(shell, "-n", file)
                    self.assertEqual((read.returncode, read.stdout, read.stderr), (0, "", ""), file)

    @has("bash")
    def test_bash_completes(self):
        """Words, files, and names of a plan, in capitals or not; of a file that is no plan none."""
        (self.folder / "a plan.db").touch()
        plans.copy_of(plans.of_worked("monday"), self.folder, "monday.db")
        defined = plans.planner_of(plans.stream("monday")).defined
        names = {name for kind in ("calendars", "periods") for name in defined[kind] if name.startswith("D")}
        self.assertTrue(names)
        path = {**os.environ, "PATH": f"{self.prefix / 'bin'}:{os.environ['PATH']}"}
        for line, wanted in (
            (["opcplan-plan", ""], {*self.subcommands, "-h", "--help", "-V", "--version"}),
            (["opcplan-plan", "why-"], {"why-day"}),
            (["opcplan-plan", "export", "a plan.db", "--set", ""], {"ltp", "cp", "history", "deletions"}),
            (["opcplan-plan", "export", "--set", "=", "hi"], {"history"}),
            (["opcplan-plan", "why", "--no"], {"--now"}),
            (["opcplan-plan", "why", "--now", ""], set()),
            (["opcplan-plan", "page", "a "], {"a plan.db"}),
            (["opcplan-plan", "send", "--db", "a plan.db", "sta"], {"start"}),
            (["opcplan-plan", "send", "--db", "a plan.db", "cp-c"], {"cp-complete"}),
            (["opcplan-plan", "rows", "a plan.db", "--status", "in"], {"in-error"}),
            (["opcplan-plan", "edit", "a plan.db", "calendar", "DEFAULT", "2024-12-24", "f"], {"free"}),
            (["opcplan-plan", "edit", "monday.db", "predecessor", "LEDGER", "a"], {"add"}),
            (["opcplan-plan", "why", "monday.db", "l"], {"LEDGER"}),
            (["opcplan-plan", "rows", "monday.db", "--app", "re"], {"REPORT"}),
            (["opcplan-plan", "cal", "monday.db", "d"], names),
            (["opcplan-plan", "why", "a plan.db", "l"], set()),
            (["opcplan", "--db", "a "], {"a plan.db"}),
            (["opcplan", "--su"], {"--sums"}),
        ):
            file = self.prefix / "share/bash-completion/completions" / line[0]
            script = ('. "$1"; shift; COMP_WORDS=("$@"); COMP_CWORD=$(($# - 1)); words=$(complete -p "$1"); '
                      'words=${words#complete -F }; ${words% *}; printf "%s\\n" "${COMPREPLY[@]}"')
            answered = ran("bash", "-c", script, "bash", file, *line, cwd=self.folder, env=path)
            self.assertEqual((set(answered.stdout.split("\n")) - {""}, answered.stderr), (wanted, ""), line)

    @has("fish")
    def test_fish_completes(self):
        file = self.prefix / "share/fish/vendor_completions.d/opcplan-plan.fish"
        home = {**os.environ, "HOME": str(self.folder)}
        for line, wanted in (("opcplan-plan why-", {"why-day"}), ("opcplan-plan export --set h", {"history"}),
                             ("opcplan-plan why --n", {"--now"}), ("opcplan-plan why --now ", set())):
            answered = ran("fish", "-c", 'source $argv[1]; complete -C $argv[2]', file, line, cwd=self.folder, env=home)
            self.assertEqual({one.split("\t")[0] for one in answered.stdout.splitlines()}, wanted, line)

    @has("man", "mandoc")
    def test_man_pages_are_read_without_a_warning(self):
        pages = sorted((self.prefix / "share/man").rglob("*.[15]"))
        self.assertEqual([page.name for page in pages], ["opcplan-plan.1", "opcplan.1", "opcplan-statements.5"])
        for page in pages:
            if shutil.which("man"):
                read = ran("man", "--warnings", "-E", "UTF-8", "-l", "-Tutf8", "-Z", page, env={**os.environ, **MAN})
                self.assertEqual((read.returncode, read.stderr), (0, ""), page)
            if shutil.which("mandoc"):
                read = ran("mandoc", "-T", "lint", "-W", "warning", page)
                self.assertEqual((read.returncode, read.stdout), (0, ""), page)

    def test_man_page_has_what_help_has(self):
        text = (self.prefix / "share/man/man1/opcplan-plan.1").read_text(encoding="utf-8").replace("\\-", "-")
        self.assertNotIn("./plan", text)
        parts = dict(zip(*[iter(re.split(r'(?m)^\.SS "(.*)"$', text)[1:])] * 2))
        self.assertEqual(list(parts), self.subcommands)
        for name in self.subcommands:
            for flag in re.findall(r"(?m)^  (?:-\w, )?(--?[a-z][\w-]*)", self.helps[name].stdout):
                if flag not in ("-h", "--help"):
                    self.assertIn(flag, parts[name], name)

    def test_what_an_earlier_install_had_goes_and_what_is_others_stays(self):
        prefix = self.folder / "again"
        (prefix / "bin").mkdir(parents=True)
        (prefix / "bin" / "mine").touch()
        self.assertEqual(make("install", PREFIX=prefix).returncode, 0)
        whole = below(prefix)
        old, own = prefix / "share/opcplan/python/opcplan/gone.py", prefix / "share/opcplan/python/opcplan/own.py"
        for file in (old, own):
            file.touch()
        listed = prefix / "share/opcplan/INSTALLED"
        listed.write_text(f"{listed.read_text()}share/opcplan/python/opcplan/gone.py\n../elsewhere.txt\n/etc/nothing\n")
        beside = self.folder / "elsewhere.txt"
        beside.touch()
        self.assertEqual(make("install", PREFIX=prefix).returncode, 0)
        self.assertEqual(below(prefix), sorted([*whole, "share/opcplan/python/opcplan/own.py"]))
        own.unlink()
        self.assertEqual(make("uninstall", PREFIX=prefix).returncode, 0)
        self.assertEqual((below(prefix), beside.exists()), (["bin", "bin/mine"], True))
        self.assertNotEqual(make("uninstall", PREFIX=prefix).returncode, 0)

    def test_what_a_failed_install_leaves_is_taken_away(self):
        prefix = self.folder / "failed"
        (prefix / "share/man").mkdir(parents=True)
        (prefix / "share/man/man5").write_text("no folder")
        failed = make("install", PREFIX=prefix)
        self.assertNotEqual(failed.returncode, 0)
        self.assertRegex(failed.stderr, r"\Ainstall: .*man5.*: [^\n]+\nmake: ")
        self.assertIn("bin/opcplan", below(prefix))
        self.assertEqual(make("uninstall", PREFIX=prefix).returncode, 0)
        self.assertEqual(below(prefix), ["share", "share/man", "share/man/man5"])

    def test_modules_are_compiled_and_taken_as_they_are(self):
        """A start compiles nothing, and a module that somebody changes counts all the same."""
        package = self.prefix / "share/opcplan/python/opcplan"
        modules = {path.relative_to(package) for path in package.rglob("*.py")}
        compiled = {path.relative_to(package) for path in package.rglob("*.pyc")}
        self.assertEqual({path.parent.parent / f"{path.name.partition('.')[0]}.py" for path in compiled}, modules)
        listed = set((self.prefix / "share/opcplan/INSTALLED").read_text(encoding="utf-8").splitlines())
        self.assertLessEqual({f"share/opcplan/python/opcplan/{path}" for path in compiled}, listed)
        said = ran("python3", "-v", self.prefix / "share/opcplan/plan", "ready", "--help", cwd=self.folder).stderr
        taken = [line for line in said.splitlines() if "code object from" in line and str(package) in line]
        self.assertGreater(len(taken), 5)
        self.assertEqual([line for line in taken if ".pyc" not in line], [])
        before = {path: path.stat().st_mtime_ns for path in package.rglob("*.pyc")}
        path = package / "commands" / "ready.py"
        text, stat = path.read_text(encoding="utf-8"), path.stat()
        self.addCleanup(path.write_text, text, encoding="utf-8")
        path.write_text(text.replace("what may be started now", "what may be STARTED now"), encoding="utf-8")
        os.utime(path, ns=(stat.st_atime_ns, stat.st_mtime_ns))
        self.assertIn("STARTED", self.asked("opcplan-plan", "--help").stdout)
        self.assertEqual({path: path.stat().st_mtime_ns for path in package.rglob("*.pyc")}, before)

    def test_destdir_stands_for_the_root(self):
        root = self.folder / "root"
        self.assertEqual(make("install", PREFIX="/opt/plans", DESTDIR=root).returncode, 0)
        self.assertEqual(below(root / "opt/plans"), below(self.prefix))
        for path in root.rglob("*"):
            if path.is_file():
                self.assertNotIn(bytes(root), path.read_bytes(), path)
        self.assertIn("/opt/plans/share/doc", (root / "opt/plans/share/man/man1/opcplan.1").read_text(encoding="utf-8"))

    def test_nothing_goes_out_of_destdir(self):
        root = self.folder / "within" / "root"
        root.mkdir(parents=True)
        for prefix in ("/../e", "/opt/../../e", "/.."):
            for what in ("install", "uninstall"):
                said = make(what, PREFIX=prefix, DESTDIR=root)
                self.assertNotEqual(said.returncode, 0)
                self.assertIn("has a part `..`", said.stderr)
        self.assertEqual(below(root.parent), ["root"])

    def test_pages_link_no_folder_of_the_sources(self):
        for name in ("GUIDE.md", "RECIPES.md"):
            text = (self.prefix / "share" / "doc" / "opcplan" / name).read_text(encoding="utf-8")
            self.assertNotIn("ln -s", text)
            self.assertNotIn("top folder", text)
            self.assertEqual(text.count("$(mktemp -d) && cd "), 1, name)

    def test_files_for_systemd(self):
        """All units, users and folders are there, and each command is the one that was installed."""
        sources = TOP / "tools" / "package" / "systemd"
        system = self.prefix / "lib" / "systemd" / "system"
        self.assertEqual(below(system), sorted(path.name for path in sources.glob("*@.*")))
        for name in ("sysusers", "tmpfiles"):
            self.assertEqual((self.prefix / "lib" / f"{name}.d" / "opcplan.conf").read_bytes(),
                             (sources / f"{name}.conf").read_bytes())
        commands = [line for name in below(system) for line in (system / name).read_text("utf-8").splitlines()
                    if "opcplan-plan" in line and line.startswith("Exec")]
        self.assertEqual(len(commands), 5)
        for line in commands:
            self.assertEqual(shlex.split(line.partition("=")[2])[0], str(self.prefix / "bin" / "opcplan-plan"))
        self.assertNotIn("/usr/bin/opcplan", "".join((system / name).read_text("utf-8") for name in below(system)))

    @has("systemd-analyze")
    def test_units_are_taken_where_they_stand(self):
        system = self.prefix / "lib" / "systemd" / "system"
        said = ran("systemd-analyze", "verify", "--man=no", *(system / name for name in below(system)))
        self.assertEqual([line for line in said.stderr.splitlines() if "opcplan" in line and "sqlite3" not in line], [])

    def test_pages_that_are_named_are_there(self):
        named = 0
        for path in self.prefix.rglob("*"):
            if path.is_file() and path.suffix in (".py", ".md", ".1", ".5", ".fish"):
                text = path.read_text(encoding="utf-8").replace("\\-", "-")
                for page in re.findall(re.escape(str(self.prefix)) + r"/share/[\w/.-]*\w", text):
                    named += 1
                    self.assertTrue(os.path.exists(page), f"{path}: {page}")
        self.assertGreater(named, 5)

    @has("dpkg-deb")
    def test_package_has_what_is_installed(self):
        made = ran(TOP / "tools" / "package" / "deb", self.folder)
        self.assertEqual((made.returncode, made.stderr), (0, ""))
        package = made.stdout.strip()
        field = ran("dpkg-deb", "-f", package).stdout
        for line in (r"Depends: .*python3", r"Recommends: python3-aiohttp, python3-icalendar", r"Architecture: amd64"):
            self.assertRegex(field, f"(?m)^{line}")
        root = self.folder / "package"
        self.assertEqual(ran("dpkg-deb", "-R", package, root).returncode, 0)
        self.assertEqual(below(root / "DEBIAN"), ["control", "md5sums", "postinst", "prerm"])
        for script, does in (("postinst", "py3compile -p opcplan /usr/share/opcplan/python\n"),
                             ("prerm", "py3clean -p opcplan\n")):
            self.assertEqual(ran("sh", "-n", root / "DEBIAN" / script).returncode, 0)
            self.assertIn(does, (root / "DEBIAN" / script).read_text(encoding="utf-8"))
        self.assertIn("systemd-sysusers opcplan.conf", (root / "DEBIAN" / "postinst").read_text(encoding="utf-8"))
        zsh = {name.replace("site-functions", "vendor-completions") for name in below(self.prefix)
               if "__pycache__" not in name}
        more = {"share/doc/opcplan/changelog.gz", "share/doc/opcplan/copyright"}
        self.assertEqual({name.removesuffix(".gz") if "/man" in name else name for name in below(root / "usr")},
                         zsh - {"share/opcplan/INSTALLED"} | more)
        answered = ran("/usr/bin/env", "python3", root / "usr/share/opcplan/plan", "--version")
        self.assertTrue(answered.stdout.startswith("opcplan-plan "), answered.stderr)


def has_pip():
    """Whether Debian's Python can install a package from its sources without a network."""
    asked = [DEBIAN, "-c", "import setuptools, wheel, pip"]
    return os.path.exists(DEBIAN) and ran(*asked).returncode == 0


@unittest.skipUnless(has_pip(), "python3-pip, python3-setuptools or python3-wheel isn't there")
class ByPip(unittest.TestCase):
    """The package alone, as pip puts it among Python's packages."""

    @classmethod
    def setUpClass(cls):
        room = tempfile.TemporaryDirectory(prefix="pip-")
        cls.addClassCleanup(room.cleanup)
        cls.sources, cls.target = Path(room.name) / "sources", Path(room.name) / "packages"
        shutil.copytree(TOP / "python", cls.sources / "python", ignore=shutil.ignore_patterns("__pycache__"))
        for name in ("pyproject.toml", "VERSION"):
            shutil.copy(TOP / name, cls.sources)
        cls.made = ran(DEBIAN, "-m", "pip", "install", "--no-index", "--no-build-isolation", "--no-compile", "--target",
                       cls.target, cls.sources, cwd=room.name)
        cls.env = {**os.environ, "PYTHONPATH": str(cls.target), "PYTHONDONTWRITEBYTECODE": "1"}

    def asked(self, *given):
        """What the package answers from another folder."""
        return ran(DEBIAN, "-m", "opcplan", *map(str, given), env=self.env, cwd="/")

    def test_it_has_all_files(self):
        self.assertEqual(self.made.returncode, 0, self.made.stderr)
        self.assertEqual(below(self.target / "opcplan"), [
            name for name in below(TOP / "python" / "opcplan") if "__pycache__" not in name])

    def test_it_answers_as_the_repository_does(self):
        file = plans.of_worked("monday")
        for words in (["late", file, "--now", "2024-01-02/12.00"], ["page", file, "--now", "2024-01-02/12.00"],
                      ["why", file, "LEDGER", "2024-01-01/18.00"], ["--help"]):
            here, there = ((without_time(one.stdout), one.stderr) for one in (plans.plan(*words), self.asked(*words)))
            self.assertEqual(there, here, words)

    def test_it_reports_its_version(self):
        version = (TOP / "VERSION").read_text(encoding="utf-8").strip()
        self.assertEqual(self.asked("--version").stdout, f"plan {version}\nschema 2\n")
        answered = ran(DEBIAN, self.target / "bin" / "opcplan-plan", "--version", env=self.env, cwd="/")
        self.assertEqual(answered.stdout, f"plan {version}\nschema 2\n")


def without_time(text):
    """A page without the moment in which it was made."""
    return re.sub(r'"made":[0-9]+', '"made":0', re.sub(r"[Mm]ade [0-9-]+ [0-9.]+", "made", text))


class Wrapper(unittest.TestCase):
    """./opcplan in a small repository, whose release tells its words, and where a proof says so and fails."""

    def setUp(self):
        room = tempfile.TemporaryDirectory(prefix="wrapper-")
        self.addCleanup(room.cleanup)
        self.room = Path(room.name)
        self.top = self.room / "top"
        for name in ("tools/proof", "release", "crates/opcplan/src", "crates/lower/src"):
            (self.top / name).mkdir(parents=True)
        for name in ("opcplan", "tools/proof/crates-below"):
            shutil.copy(TOP / name, self.top / name)
        shutil.copy(TOP / "tools" / "proof" / "sources-sum", self.top / "tools" / "proof" / "real-sum")
        here = '"$(dirname "$0")'
        self.program("tools/proof/sources-sum", f'echo summed >>{here}/../../../sums"; exec {here}/real-sum"')
        self.program("release/opcplan", 'echo "release: $*"')
        self.program("../rt", "echo no proof is made here; exit 1")
        self.program("../date", f'cat "{self.room}/clock"')
        self.clock(3600)
        (self.top / "crates.txt").write_text("lower:\nopcplan: lower\n")
        self.source = self.top / "crates/lower/src/lib.rt"
        self.source.write_text("one")
        (self.top / "crates/opcplan/src/main.rt").write_text("main")
        (self.top / "release/SOURCES").write_text(f"{ran(self.top / 'tools/proof/real-sum').stdout.strip()} kit\n")

    def program(self, name, text):
        (self.top / name).write_text(f"#!/bin/sh\n{text}\n")
        (self.top / name).chmod(0o755)

    def clock(self, ahead):
        """Sets the clock that the wrapper asks, so many seconds ahead."""
        (self.room / "clock").write_text(f"{int(time.time()) + ahead}\n")

    def runs(self, path=None, *given):
        """Whether the release is run, and how often sums were taken so far."""
        env = {**os.environ, "PATH": f"{self.room}:{os.environ['PATH']}"}
        answered = ran(path or self.top / "opcplan", *given, env=env, cwd="/")
        sums = self.room / "sums"
        taken = len(sums.read_text().splitlines()) if sums.exists() else 0
        if answered.returncode == 0:
            self.assertEqual((answered.stdout, answered.stderr), (f"release: {' '.join(given)}\n", ""))
            return True, taken
        self.assertEqual((answered.returncode, "no proof is made here" in answered.stderr), (8, True), answered.stderr)
        return False, taken

    def test_it_is_found_by_links(self):
        (self.room / "one").symlink_to("top/opcplan")
        (self.room / "two").symlink_to("one")
        (self.room / "whole").symlink_to(self.top)
        for path in ("one", "two", "whole/opcplan"):
            self.assertTrue(self.runs(self.room / path, "--db", "a b")[0], path)

    def test_sums_are_taken_where_something_may_have_changed(self):
        self.clock(-1)
        self.assertEqual([self.runs(), self.runs()], [(True, 1), (True, 2)], "what is young may change unseen")
        self.clock(3600)
        self.assertEqual([self.runs(), self.runs(), self.runs()], [(True, 3)] * 3)
        before = self.source.stat()
        self.source.write_text("two")
        os.utime(self.source, ns=(before.st_atime_ns, before.st_mtime_ns))
        self.assertEqual(self.runs(), (False, 4), "of another content, as long and as old")
        self.assertEqual(self.runs(None, "--help"), (True, 5), "help waits for no proof")
        self.source.write_text("one")
        self.assertEqual([self.runs(), self.runs()], [(True, 6)] * 2)
        (self.top / "crates/lower/specs").mkdir()
        (self.top / "crates/lower/specs/A.antt").touch()
        self.assertEqual(self.runs(), (False, 7), "another file")
        shutil.rmtree(self.top / "crates/lower/specs")
        (self.top / "release/SOURCES").write_text("0 kit\n")
        self.assertEqual(self.runs(), (False, 8), "another release")

    def test_it_runs_where_nothing_can_be_kept(self):
        (self.top / "out").write_text("no folder")
        self.assertEqual([self.runs(), self.runs()], [(True, 1), (True, 2)])


if __name__ == "__main__":
    unittest.main()
