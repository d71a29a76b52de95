"""What an agent obeys: nothing that somebody else may write, and no jobs.toml that lost its settings. The owners are
real ones, so most of it needs root."""

import contextlib
import dataclasses
import errno
import io
import os
import pwd
import re
import stat
import subprocess
import sys
import tempfile
import unittest
from pathlib import Path
from unittest import mock

from support import plans
from support.agents import day_stream, PlainDesk, Room
from support.traced import stopped_at

from opcplan.agent import jobs, needs, record, remembered, runner, trusted_paths
from opcplan.agent.record import Record
from opcplan.agent.trusted_paths import NotTrusted

OTHER = "nobody"
IS_ROOT = not os.geteuid()
BY_ROOT = unittest.skipUnless(IS_ROOT, "only root gives files away, and runs jobs as others")
AS_OTHER = f'[AA]\nuser = "{OTHER}"\n'
# of a folder or a file: the mode, and whether it is trusted
MODES = {0o755: True, 0o700: True, 0o555: True, 0o775: False, 0o757: False, 0o720: False, 0o702: False, 0o777: False}


def user_id():
    return pwd.getpwnam(OTHER).pw_uid


class Paths(unittest.TestCase):
    """A file below folders, one of which is wrong."""

    def setUp(self):
        self.room = Path(self.enterContext(tempfile.TemporaryDirectory(prefix="trust-")))
        self.folders = [self.room, self.room / "a", self.room / "a" / "b"]
        for folder in self.folders[1:]:
            folder.mkdir(mode=0o755)
        self.file = self.folders[-1] / "file"
        self.file.write_bytes(b"what it has")
        self.file.chmod(0o644)

    def why(self, path=None):
        """Why the file isn't trusted, empty if it is."""
        try:
            self.assertEqual(trusted_paths.content(str(path or self.file), trusted_paths.users(), 100), b"what it has")
        except NotTrusted as why:
            return str(why)
        return ""

    def test_a_mode_by_which_others_may_write(self):
        for path in (*self.folders, self.file):
            before = stat.S_IMODE(path.stat().st_mode)
            for mode, is_good in MODES.items():
                path.chmod(mode)
                with self.subTest(path=path, mode=oct(mode)):
                    why = self.why()
                    self.assertEqual(why == "", is_good, why)
                    if why:
                        what = "file" if path == self.file else "folder"
                        self.assertRegex(why, f"^{re.escape(str(path))}: others than .* may write this {what}, because "
                                              f"it belongs to .* and has mode {mode:04o}; run `chmod go-w {path}`$")
            path.chmod(before)
        self.assertEqual(self.why(), "")

    @BY_ROOT
    def test_an_owner_who_is_somebody_else(self):
        for path in (*self.folders, self.file):
            os.chown(path, user_id(), -1)
            self.assertEqual(self.why(), f"{path}: others than root may write this "
                             f"{'file' if path == self.file else 'folder'}, because it belongs to {OTHER} and has mode "
                             f"{stat.S_IMODE(path.stat().st_mode):04o}; run `chown root {path}`")
            os.chown(path, 0, -1)
        os.chown(self.file, 0, user_id())  # the group may not write
        self.assertEqual(self.why(), "")
        with mock.patch.object(os, "geteuid", return_value=user_id()):  # it trusts root and itself
            self.assertEqual(self.why(), "")
            os.chown(self.file, user_id(), -1)
            self.assertEqual(self.why(), "")
            os.chown(self.file, user_id() - 1, -1)
            self.assertIn(f"others than root and {OTHER} may write", self.why())

    def test_a_sticky_folder_passes_above_a_folder_alone(self):
        self.folders[1].chmod(0o1777)
        self.assertEqual(self.why(), "")
        self.folders[2].chmod(0o1777)  # somebody may link a file of root there
        self.assertIn(f"{self.folders[2]}: others than", self.why())
        self.assertRaises(NotTrusted, trusted_paths.ask, str(self.folders[2]), trusted_paths.users())
        trusted_paths.ask("/usr/bin/env", trusted_paths.users())

    @BY_ROOT
    def test_a_sticky_folder_of_somebody_else(self):
        self.folders[1].chmod(0o1777)
        os.chown(self.folders[1], user_id(), -1)
        self.assertIn(f"{self.folders[1]}: others than", self.why())

    def test_links_are_followed_and_asked_too(self):
        (self.room / "to-b").symlink_to("a/../a/./b")
        (self.room / "far").symlink_to(self.room / "to-b" / "file")
        self.assertEqual(self.why(self.room / "far"), "")
        self.assertEqual(self.why(self.room / "to-b" / ".." / "b" / "file"), "")
        self.folders[1].chmod(0o777)
        self.assertIn(f"{self.folders[1]}: others than", self.why(self.room / "far"))
        self.folders[1].chmod(0o755)
        (self.room / "loop").symlink_to("loop")
        with self.assertRaises(OSError) as caught:
            self.why(self.room / "loop")
        self.assertEqual(caught.exception.errno, errno.ELOOP)
        if IS_ROOT:
            os.chown(self.room / "to-b", user_id(), -1, follow_symlinks=False)
            self.assertIn(f"{self.room}/to-b: others than root may write this link", self.why(self.room / "far"))
        self.folders[1].chmod(0o1777)  # who may write there exchanges a link
        (self.folders[1] / "link").symlink_to("b")
        self.assertIn(f"{self.folders[1]}: others than", self.why(self.folders[1] / "link" / "file"))

    def test_what_is_no_file(self):
        os.mkfifo(self.room / "pipe", 0o600)
        for path, number in ((self.room / "pipe", errno.EINVAL), (self.room / "a", errno.EINVAL),
                             (self.room / "none", errno.ENOENT), (self.file / "below", errno.ENOTDIR),
                             (self.room / "none" / "file", errno.ENOENT)):
            with self.subTest(path), self.assertRaises(OSError) as caught:
                self.why(path)
            self.assertEqual(caught.exception.errno, number)
        self.file.write_bytes(b"x" * 101)
        self.assertRaises(OSError, self.why)

    def test_no_descriptor_is_left(self):
        (self.room / "far").symlink_to(self.file)
        before = sorted(os.listdir("/proc/self/fd"))
        for _ in range(3):
            self.why(self.room / "far")
            self.test_a_mode_by_which_others_may_write()
        self.test_what_is_no_file()
        self.assertEqual(sorted(os.listdir("/proc/self/fd")), before)

    def test_a_name_that_is_exchanged_meanwhile(self):
        """At each system call of the check a folder is exchanged for one of somebody else, or for a link to it: what is
        read is the old content, or nothing."""
        evil = self.room / "evil"
        evil.mkdir()
        (evil / "file").write_bytes(b"what is evil")
        evil.chmod(0o777)
        (evil / "file").chmod(0o666)
        aside, is_link, count = self.room / "aside", False, 0

        def exchange():
            self.folders[2].rename(aside)
            if is_link:
                self.folders[2].symlink_to(evil)
            else:
                evil.rename(self.folders[2])

        def read():
            try:
                data = trusted_paths.content(str(self.file), trusted_paths.users(), 100)
            except (NotTrusted, OSError):
                return
            if data != b"what it has":
                (self.room / "caught").touch()

        for is_link in (False, True):
            number, came = 1, True
            while came:
                came = stopped_at(number, read, exchange)
                if came:
                    if is_link:
                        self.folders[2].unlink()
                    else:
                        self.folders[2].rename(evil)
                    aside.rename(self.folders[2])
                    self.assertFalse((self.room / "caught").exists(), "what is evil was read")
                    number, count = number + 1, count + 1
        self.assertGreater(count, 40)


class Described(Room):
    """Rooms with a file of jobs, a desk, and a job that says who runs it."""

    def setUp(self):
        super().setUp()
        self.room.chmod(0o755)
        self.toml = Path(f"{self.jobs}.toml")
        self.desk = PlainDesk(day_stream({"AA": ""}))
        self.job("AA", "id -un")

    def describe(self, text):
        if self.toml.is_dir():
            self.toml.rmdir()
        elif not self.toml.is_file():
            self.toml.unlink(missing_ok=True)
        self.toml.write_text(text, encoding="utf-8")
        self.toml.chmod(0o644)


class Settings(Described):
    """Agents in this process, with runners of their own."""

    def ran_as(self):
        """Who ran the job, by its log."""
        text = (self.logs / "000000001.log").read_text(encoding="utf-8")
        return re.findall(r"\n(\S+)\n== agent: ended", text)[-1]

    def looked(self, agent, count=3):
        """What an agent says in some looks."""
        return "".join(self.until(lambda: True, agent) for _ in range(count))

    def taken(self):
        """Ways in which a file loses its settings, each with what is said."""
        def gone():
            self.toml.unlink()

        def empty():
            self.toml.write_bytes(b"")

        def hollow():
            self.toml.write_bytes(b"# PAY comes back on Monday\n\n")

        def torn():
            self.toml.write_bytes(b"[AA")

        def folder():
            self.toml.unlink()
            self.toml.mkdir(mode=0o755)

        def dangling():
            self.toml.unlink()
            self.toml.symlink_to("nowhere")

        def pipe():
            self.toml.unlink()
            os.mkfifo(self.toml, 0o600)

        def looping():
            self.toml.unlink()
            self.toml.symlink_to("jobs.toml")

        def writable():
            self.toml.chmod(0o664)

        def large():
            self.toml.write_bytes(b"#" * (jobs.MOST_BYTES + 1))
        return {gone: "the file is gone; put it back, or restart", empty: "the file is empty; put its settings back",
                hollow: "the file is empty", torn: "the file isn't valid TOML", folder: "this isn't a regular file",
                dangling: "the file is gone", pipe: "this isn't a regular file", looping: "it can't be read: Too many",
                writable: "may write this file, because", large: "it has more than"}

    @BY_ROOT
    def test_settings_stay_in_force_whatever_becomes_of_the_file(self):
        for take, says in self.taken().items():
            with self.subTest(take.__name__):
                self.desk = PlainDesk(day_stream({"AA": ""}))
                self.describe(AS_OTHER)
                agent = self.agent(self.desk, most=0)
                self.looked(agent, 1)
                take()
                agent.given = dataclasses.replace(agent.given, most=1)
                said = self.until(lambda: self.desk.status("AA") == "C", agent)
                self.assertEqual(self.ran_as(), OTHER)
                self.assertEqual(said.count(says), 1, said)
                (need,) = agent.needs.values()
                self.assertEqual((need["name"], says in need["text"]), (needs.JOBS_TOML, True))
                self.assertIn("the agent goes on with what the file had before", need["text"])
                self.describe(AS_OTHER)
                self.assertEqual(self.looked(agent), f"agent: {self.toml}: the agent reads this file again\n")
                self.assertEqual(agent.needs.values(), [])

    @BY_ROOT
    def test_a_file_of_somebody_else_changes_nothing(self):
        self.describe(AS_OTHER)
        agent = self.agent(self.desk)
        self.describe("[AA]\ntries = 2\n")
        os.chown(self.toml, user_id(), -1)
        self.looked(agent, 1)
        self.until(lambda: self.desk.status("AA") == "C", agent)
        self.assertEqual(self.ran_as(), OTHER)
        os.chown(self.toml, 0, -1)
        self.looked(agent, 1)
        self.assertEqual((agent.jobs.of("AA").user, agent.jobs.of("AA").tries), (None, 2))

    def test_another_content_of_the_same_size_and_time_counts(self):
        self.describe("[AA]\ntries = 2\n")
        before = self.toml.stat()
        agent = self.agent(self.desk, most=1)
        self.describe("[AA]\ntries = 3\n")
        os.utime(self.toml, ns=(before.st_atime_ns, before.st_mtime_ns))
        after = self.toml.stat()
        self.assertEqual((before.st_size, before.st_mtime_ns, before.st_ino),
                         (after.st_size, after.st_mtime_ns, after.st_ino))
        agent.read_jobs()
        self.assertEqual(agent.jobs.of("AA").tries, 3)

    def test_a_job_that_others_may_write_is_not_started(self):
        self.describe("[AA]\ntries = 2\n")
        for path in (self.jobs / "AA", self.jobs, self.room):
            with self.subTest(path):
                agent = self.agent(self.desk)
                mode = stat.S_IMODE(path.stat().st_mode)
                path.chmod(mode | stat.S_IWGRP)
                said = self.looked(agent)
                self.assertEqual(said.count(f"run `chmod go-w {path}`; until then"), 1, said)
                found = {need["name"]: need["text"] for need in agent.needs.values()}
                self.assertIn(f"{path}: others than", found["job AA" if path.name == "AA" else "folder"])
                self.assertEqual((self.desk.log, record.serials(self.logs)), ([], []))
                path.chmod(mode)
        self.until(lambda: self.desk.status("AA") == "C", agent)
        self.assertEqual(agent.needs.values(), [])

    def test_logs_that_others_may_write_start_nothing(self):
        agent = self.agent(self.desk)
        self.logs.chmod(0o777)
        self.assertIn(f"{self.logs}: others than", self.looked(agent))
        self.assertEqual((self.desk.log, [need["name"] for need in agent.needs.values()]), ([], ["folder"]))
        self.logs.chmod(0o755)
        self.until(lambda: self.desk.status("AA") == "C", agent)

    def test_a_record_that_others_may_write_is_not_obeyed(self):
        record.write(str(self.logs), Record(1, "AA", "2024-01-01/08.00", "k", 0, None))
        os.chmod(record.path_of(str(self.logs), 1), 0o666)
        self.assertRaisesRegex(record.InvalidRecord, "may write this file", record.read, str(self.logs), 1)
        with contextlib.redirect_stderr(io.StringIO()) as stderr:
            self.assertEqual(self.agent(self.desk).state.records, {})
        self.assertIn("may write this file", stderr.getvalue())

    @BY_ROOT
    def test_the_owner_of_a_program(self):
        """A job file belongs to root; the program of a command to root, or to the user as whom it runs."""
        program = self.room / "program"
        program.write_text("#!/bin/sh\nid -un\n", encoding="utf-8")
        program.chmod(0o755)
        for text, path, is_run in ((AS_OTHER, self.jobs / "AA", False),
                                   (f'[AA]\ncommand = ["{program}"]\n', program, False),
                                   (f'[AA]\nuser = "daemon"\ncommand = ["{program}"]\n', program, False),
                                   (f'{AS_OTHER}command = ["{program}"]\n', program, True)):
            with self.subTest(text):
                os.chown(path, user_id(), -1)
                self.describe(text)
                agent = self.agent(self.desk)
                if is_run:
                    self.until(lambda: self.desk.status("AA") == "C", agent)
                    self.assertEqual(self.ran_as(), OTHER)
                else:
                    self.assertIn(f"{path}: others than ", self.looked(agent))
                    self.assertEqual(self.desk.log, [])
                os.chown(path, 0, -1)

    def test_the_runner_checks_again(self):
        one = Record(1, "AA", "2024-01-01/08.00", "k", 0, None)
        (self.jobs / "AA").chmod(0o777)
        status, why = runner.outcome(one, str(self.jobs), str(self.logs / "log"))
        self.assertEqual((status, "it can't be run: " in why, "may write this file" in why), (None, True, True))


class Start(Described):
    """Agents as processes that don't come to their desk."""

    def started(self, *more, folder=None):
        """Status and message of an agent that starts; the desk isn't there, so it is ended once it says so."""
        words = ["agent", "--desk", self.room / "nowhere", "--jobs", folder or self.jobs, "--logs", self.logs, *more]
        with subprocess.Popen([sys.executable, plans.TOP / "plan", *map(str, words)], stderr=subprocess.PIPE,
                              encoding="utf-8") as agent:
            said = ""
            for line in agent.stderr:
                said += line
                if line.endswith("; the agent tries again\n"):
                    agent.terminate()
                    return None, said
        return agent.returncode, said

    def test_a_folder_that_had_settings_and_has_none(self):
        self.assertEqual(self.started()[0], None)  # there never was a file
        for take in (self.toml.unlink, lambda: self.toml.write_bytes(b"# none\n")):
            self.describe("[AA]\ntries = 2\n")
            self.assertEqual(self.started()[0], None)
            take()
            for _ in range(2):
                found, said = self.started()
                self.assertEqual((found, said), (2, f"plan: agent: {self.toml}: this file had settings for the "
                                 "jobs, and now it is gone or empty; put it back, or start the agent once with "
                                 "--without-jobs-toml to run the jobs without settings\n"))
        found, said = self.started("--without-jobs-toml")
        self.assertEqual(found, None, said)
        self.assertEqual(self.started()[0], None)  # it has been told
        self.describe("[AA]\ntries = 2\n")
        found, said = self.started("--without-jobs-toml")
        self.assertEqual((found, said.count("\n")), (2, 1))
        self.assertIn("this file has settings, and --without-jobs-toml says that there are none", said)

    def test_each_folder_is_remembered_by_itself(self):
        other = self.room / "other"
        other.mkdir(mode=0o755)
        self.describe("classes.db = 2\n")
        self.assertEqual(self.started()[0], None)
        self.assertEqual(self.started(folder=other)[0], None)
        self.toml.unlink()
        self.assertEqual(self.started(folder=other)[0], None)
        self.assertEqual(self.started()[0], 2)
        link = self.room / "link"
        link.symlink_to(self.jobs)
        self.assertEqual(self.started(folder=link)[0], 2)

    def test_a_link_that_leads_to_another_folder_without_the_file(self):
        """As a new version of the jobs that is put in place by a link, and whose settings were forgotten."""
        new, link = self.room / "new", self.room / "link"
        new.mkdir(mode=0o755)
        link.symlink_to(self.jobs)
        self.describe("classes.db = 2\n")
        self.assertEqual(self.started(folder=link)[0], None)
        link.unlink()
        link.symlink_to(new)
        found, said = self.started(folder=link)
        self.assertEqual((found, said.partition(": this file")[0]), (2, f"plan: agent: {new}.toml"))
        self.assertEqual(self.started("--without-jobs-toml", folder=link)[0], None)
        self.assertEqual(self.started(folder=link)[0], None)

    def test_what_is_remembered_is_no_list(self):
        for text in ("{}", "[1]", "[", '"x"'):
            (self.logs / remembered.NAME).write_text(text, encoding="utf-8")
            found, said = self.started()
            self.assertEqual((found, said.count("\n")), (1, 1))
            self.assertIn(f"{self.logs / remembered.NAME}: this isn't an agent's list", said)

    def test_paths_that_others_may_write(self):
        self.describe("[AA]\ntries = 2\n")
        for path in (self.toml, self.jobs, self.logs, self.room):
            mode = stat.S_IMODE(path.stat().st_mode)
            path.chmod(mode | stat.S_IWOTH)
            found, said = self.started()
            self.assertEqual((found, said.count("\n")), (1, 1), said)
            self.assertTrue(said.startswith(f"plan: agent: {path}: others than"), said)
            path.chmod(mode)
        self.assertEqual(self.started()[0], None)


if __name__ == "__main__":
    unittest.main()
