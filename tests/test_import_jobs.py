"""./plan import --cron --jobs: the job files of a crontab's lines, run as an agent runs them, and what lines are
called."""

import getpass
import os
import subprocess
import tempfile
import unittest
from pathlib import Path

from support import plans

from opcplan.commands import cron_jobs, crontab, import_cron

BASE = "define periods --job 1\nDAY,A,1972-01-01,1\n/*\n"
# of each command of a line the name of its application
NAMES = (
    ("python3 /srv/etl/run.py --all", "ETLRUN"),
    ("python3 -m billing.main", "BILLINGMAIN"),
    ("python3 -m billing", "BILLING"),
    ("/usr/local/bin/fetch-rates.sh", "FETCHRATES"),
    ("/usr/local/bin/backup", "BACKUP"),
    ("cd /srv/shop && ./backup.sh >/dev/null 2>&1", "SHOPBACKUP"),
    ("cd /srv/shop && ./invoices.sh", "INVOICES"),
    ("sudo -u etl nice -n 10 /opt/etl/load.sh", "ETLLOAD"),
    ("test -x /usr/sbin/anacron || /opt/cron/daily.sh", "CRONDAILY"),
    ("/opt/a-very-long-folder-name/run", "AVERYLONGFOLDERN"),
    ("./run.sh", "RUN"),
    ("/1/2", "CRON1"),
)


class Jobs(unittest.TestCase):
    def setUp(self):
        room = tempfile.TemporaryDirectory(prefix="jobs-")
        self.addCleanup(room.cleanup)
        self.room = Path(room.name)
        self.plan = plans.copy_of(plans.of_stream(BASE), self.room)
        self.jobs = self.room / "jobs"

    def asked(self, text, *words):
        (self.room / "crontab").write_text(text, encoding="utf-8")
        return plans.plan_in_here("import", "--cron", self.room / "crontab", *words, self.plan)

    def output(self, app, **env):
        """What a job file prints, run as an agent runs it, and its status."""
        ran = subprocess.run([self.jobs / app, app, "2027-01-04/18.00", "1"], stdin=subprocess.DEVNULL, cwd=self.jobs,
                             capture_output=True, text=True, check=False, env={"HOME": "/", **env})
        return ran.returncode, ran.stdout

    def test_names_say_what_a_line_runs(self):
        for command, name in NAMES:
            self.assertEqual(import_cron.name_of(crontab.read(1, f"0 4 * * * {command}", False)), name, command)

    def test_a_job_file_runs_the_command_as_cron_does(self):
        home = os.path.expanduser(f"~{getpass.getuser()}")
        ran = self.asked("GREETING=\"hello 'there'\"\nSHELL=/bin/bash\nMAILTO=root\n"
                         "0 4 * * * echo $GREETING; pwd; echo ${BASH_VERSION:+bash} $PATH\n"
                         "PATH=/opt/bin:/bin:/usr/bin\nSHELL=/bin/sh\n"
                         "1 4 * * * cat - ; echo 100\\% \"$PATH\"%one%two\n"
                         "2 4 * * * exit 7\n", "--jobs", self.jobs)
        self.assertEqual(ran.returncode, 0, ran.stderr)
        self.assertEqual(sorted(os.listdir(self.jobs)), ["CAT", "ECHO", "EXIT"])
        self.assertIn(f"{self.jobs}: 3 job files, ECHO, CAT, EXIT.", ran.stderr)
        self.assertEqual(self.output("ECHO"), (0, f"hello 'there'\n{home}\nbash /usr/bin:/bin\n"))
        self.assertEqual(self.output("CAT"), (0, "one\ntwo\n100% /opt/bin:/bin:/usr/bin\n"))
        self.assertEqual(self.output("EXIT"), (7, ""))
        for app in os.listdir(self.jobs):
            seen = (self.jobs / app).stat()
            self.assertEqual(seen.st_mode & 0o777, 0o755)

    def test_a_user_runs_a_line_of_a_system_crontab(self):
        me = getpass.getuser()
        ran = self.asked(f"0 4 * * * {me} id -un\n", "--system", "--jobs", self.jobs)
        self.assertIn(f"a user ({me}) run their command by `runuser`", ran.stderr)
        self.assertEqual(self.output("ID", PATH=os.environ["PATH"]), (0, f"{me}\n"))
        if os.geteuid() == 0:
            self.jobs.chmod(0o755)
            self.room.chmod(0o755)
            (self.room / "other").mkdir()
            self.jobs = self.room / "other"
            self.asked("0 4 * * * nobody id -un\n", "--system", "--jobs", self.jobs)
            self.assertEqual(self.output("ID", PATH=os.environ["PATH"]), (0, "nobody\n"))

    def test_lines_with_another_environment_are_other_jobs(self):
        ran = self.asked("A=1\n0 4 * * * echo $A\nA=2\n0 5 * * * echo $A\n0 6 * * * echo $A\n", "--jobs", self.jobs)
        self.assertEqual(ran.stdout.count("ECHO2,"), 3, ran.stdout)
        self.assertEqual([self.output(app)[1] for app in ("ECHO", "ECHO2")], ["1\n", "2\n"])

    def test_no_file_is_written_over(self):
        self.jobs.mkdir()
        (self.jobs / "CAT").write_text("mine")
        ran = self.asked("0 4 * * * echo\n1 4 * * * cat\n", "--jobs", self.jobs)
        self.assertEqual((ran.returncode, ran.stdout), (1, ""))
        self.assertIn("nothing was written, because CAT is there already", ran.stderr)
        self.assertEqual([*os.listdir(self.jobs), (self.jobs / "CAT").read_text()], ["CAT", "mine"])
        for words in (["--jobs", self.room / "crontab"], ["--jobs", "/dev/null/jobs"]):
            self.assertEqual(self.asked("0 4 * * * echo\n", *words).stdout, "")

    def test_a_percent_sign_begins_the_input(self):
        for command, parts in (("a", ("a", None)), ("a%", ("a", "\n")), ("a%b", ("a", "b\n")), (r"a\%b", ("a%b", None)),
                               (r"a%b\%c%d", ("a", "b%c\nd\n"))):
            self.assertEqual(cron_jobs.parted(command), parts)


if __name__ == "__main__":
    unittest.main()
