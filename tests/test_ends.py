"""How ./plan ends: standard output and error that take nothing, signals, and what has no end or is no file."""

import contextlib
import os
import resource
import shutil
import signal
import socket
import subprocess
import tempfile
import threading
import time
import unittest
from pathlib import Path

from support import journals, plans

# of each subcommand words with which it prints something, with PLAN, STREAM and OUTPUT for files
PRINTERS = {
    "page": ["PLAN"],
    "cancel": ["PLAN", "LEDGER", "2024-01-05", "--dry-run"],
    "add": ["PLAN", "LEDGER", "2024-01-05/19.00", "--due", "20.00", "--dry-run"],
    "why": ["PLAN", "LEDGER", "2024-01-01/18.00"],
    "why-day": ["PLAN", "LEDGER", "2024-01-01"],
    "late": ["PLAN", "--now", "2024-01-01/12.00"],
    "ready": ["PLAN", "--now", "2024-01-02/12.00"],
    "rows": ["PLAN"],
    "next-job": ["PLAN"],
    "what-if": ["PLAN", "STREAM", "--program", str(plans.PROGRAM)],
    "check": ["PLAN", "STREAM", "--program", str(plans.PROGRAM)],
    "run": ["PLAN", "STREAM", "--program", str(plans.PROGRAM)],
    "backup": ["PLAN", "COPY", "--force", "--program", str(plans.PROGRAM)],
    "export": ["PLAN", "--csv"],
    "dump": ["PLAN"],
    "status": ["PLAN", "--now", "2024-01-01/12.00"],
    "cal": ["PLAN", "DEFAULT", "2024"],
    "days": ["PLAN", "--from", "2024-01-01"],
    "next": ["PLAN", "LEDGER", "--now", "2024-01-01/12.00"],
    "day": ["PLAN", "2024-01-02", "--now", "2024-01-01/12.00"],
    "init": ["COPY", "--stream", "--years", "2024"],
    "explain": ["STREAM", "OUTPUT"],
    "lint": ["SLIP"],
    "journal": ["PLAN", "--journal", "JOURNAL"],
    "--help": [],
}
OF_STREAMS = {"what-if": ["PLAN", "STREAM"], "check": ["PLAN", "STREAM"], "explain": ["STREAM", "OUTPUT"],
              "lint": ["STREAM"]}
SLIP = b"define calendars --job 1\nOTHER,SAT,FREE\n/*\ndefine applications --job 2\nA,A,\n/*\n"
ENTRIES = [("2024-01-01/18.00", "me", None, 500_000_001,
            "cp-start --app LEDGER --ia 2024-01-01/18.00 --job 500000001\n", "ok serial 1 status S")]
# what a command may take: memory and the bytes of a file, and seconds of a processor
MOST_MEMORY, MOST_OF_FILE, MOST_TIME = 600 << 20, 90 << 20, 60


class Ends(unittest.TestCase):
    def setUp(self):
        room = tempfile.TemporaryDirectory(prefix="ends-")
        self.addCleanup(room.cleanup)
        self.room = Path(room.name)
        self.temporary = self.room / "temporary"
        self.temporary.mkdir()
        (self.room / "plan").mkdir()
        self.plan = plans.copy_of(plans.of_worked("monday"), self.room / "plan")
        self.files = {"PLAN": self.plan, "STREAM": self.room / "stream.in", "OUTPUT": self.room / "stream.out",
                      "SLIP": self.room / "slip.in", "COPY": self.room / "copy.db",
                      "JOURNAL": self.room / "plan.journal"}
        self.files["STREAM"].write_bytes(plans.stream("tuesday"))
        self.files["OUTPUT"].write_bytes((plans.DATA / "tuesday.out").read_bytes())
        self.files["SLIP"].write_bytes(SLIP)
        journals.write(self.files["JOURNAL"], [], ENTRIES)

    def words(self, name, given, **other):
        files = {**self.files, **other}
        return [str(plans.TOP / "plan"), name, *(str(files.get(word, word)) for word in given)]

    def environment(self):
        return {**os.environ, "TMPDIR": str(self.temporary)}

    def ran(self, words, **how):
        how = {"stdout": subprocess.PIPE, "stderr": subprocess.PIPE, "stdin": subprocess.DEVNULL, **how}
        found = subprocess.run(words, env=self.environment(), timeout=300, check=False, **how)
        self.assertEqual(os.listdir(self.temporary), [], words)
        return found

    def check_reported(self, ran, *said):
        """Asks that one line was told, without a traceback."""
        text = ran.stderr.decode()
        self.assertEqual((ran.returncode, text.count("\n")), (1, 1), text)
        self.assertTrue(text.startswith("plan: "), text)
        for one in said:
            self.assertIn(one, text)

    def test_standard_output_that_is_full(self):
        for name, given in PRINTERS.items():
            with self.subTest(name), open("/dev/full", "wb") as full:
                self.check_reported(self.ran(self.words(name, given), stdout=full), "standard output", "No space left")

    def test_standard_output_that_is_closed(self):
        for name, given in PRINTERS.items():
            with self.subTest(name):
                ran = self.ran(["sh", "-c", '"$0" "$@" >&-', *self.words(name, given)])
                self.check_reported(ran, "standard output: it is closed")

    def test_what_prints_nothing_needs_no_standard_output(self):
        out = self.room / "page.html"
        ran = self.ran(["sh", "-c", '"$0" "$@" >&- 2>&- <&-', *self.words("page", ["PLAN", "-o", str(out)])])
        self.assertEqual(ran.returncode, 0)
        self.assertTrue(out.read_text(encoding="utf-8").endswith("</html>\n"))

    def test_standard_error_that_takes_nothing(self):
        """What is told goes nowhere then, neither to standard output nor to a file of the command's own."""
        for name, given in (("late", ["nowhere.db"]), ("no-such", []), ("page", []), ("lint", ["nowhere.in"])):
            wanted = self.ran(self.words(name, given)).returncode
            for tail in ("2>&-", "2>/dev/full"):
                with self.subTest(name, error=tail):
                    ran = self.ran(["sh", "-c", f'"$0" "$@" {tail}', *self.words(name, given)])
                    self.assertEqual((ran.returncode, ran.stdout), (wanted, b""))

    def test_a_reader_that_has_enough(self):
        for name in ("page", "dump"):
            read, write = os.pipe()
            os.close(read)
            ran = self.ran(self.words(name, PRINTERS[name]), stdout=write)
            os.close(write)
            self.assertEqual((ran.returncode, ran.stderr), (0, b""))

    def test_standard_input_that_is_closed(self):
        ran = self.ran(["sh", "-c", '"$0" "$@" <&-', *self.words("what-if", ["PLAN", "-"])])
        self.check_reported(ran, "standard input: it can't be read")

    def test_signals_take_the_copy_away(self):
        """A pipe that nobody reads, or a stream that nobody writes, holds the command while it has its copy."""
        os.mkfifo(self.room / "pipe")
        for number in (signal.SIGTERM, signal.SIGHUP, signal.SIGINT):
            for name, given in (("page", ["PLAN", "-o", "PIPE"]), ("what-if", ["PLAN", "PIPE"])):
                with self.subTest(name, signal=number):
                    before = plans.prints(self.plan)
                    words = self.words(name, given, PIPE=self.room / "pipe")
                    with subprocess.Popen(words, stdout=subprocess.PIPE, stderr=subprocess.PIPE,
                                          env=self.environment(), preexec_fn=heed) as ran:
                        wait_for(lambda: name == "page" or os.listdir(self.temporary))
                        time.sleep(2 if name == "page" else 0.1)
                        ran.send_signal(number)
                        _, errors = ran.communicate(timeout=60)
                    self.assertEqual((ran.returncode, errors), (-number, b""))
                    self.assertEqual(os.listdir(self.temporary), [])
                    self.assertEqual(plans.prints(self.plan), before)

    def test_a_signal_stops_the_planner_too(self):
        program = self.room / "waits"
        program.write_text(f"#!/bin/sh\necho $$ > {self.room}/number\nexec sleep 300\n")
        program.chmod(0o755)
        words = self.words("what-if", ["PLAN", "STREAM", "--program", str(program)])
        with subprocess.Popen(words, stdout=subprocess.PIPE, stderr=subprocess.PIPE, env=self.environment(),
                              preexec_fn=heed) as ran:
            wait_for(lambda: (self.room / "number").exists() and (self.room / "number").read_text().strip())
            ran.send_signal(signal.SIGTERM)
            _, errors = ran.communicate(timeout=60)
        self.assertEqual((ran.returncode, errors, os.listdir(self.temporary)), (-signal.SIGTERM, b"", []))
        with self.assertRaises(ProcessLookupError):
            os.kill(int((self.room / "number").read_text()), 0)

    def test_a_signal_that_is_ignored_stays_so(self):
        ran = self.ran(["sh", "-c", 'trap "" HUP; "$0" "$@" & sleep 0.2; kill -HUP $!; wait $!',
                        *self.words("late", PRINTERS["late"])])
        self.assertNotEqual(ran.stdout, b"")

    def bounded(self, words, **how):
        """Runs a command with no more memory than it should need, and asks what it took of a processor."""
        before = resource.getrusage(resource.RUSAGE_CHILDREN)
        ran = self.ran(words, preexec_fn=limit, **how)
        after = resource.getrusage(resource.RUSAGE_CHILDREN)
        self.assertLess(after.ru_utime + after.ru_stime - before.ru_utime - before.ru_stime, MOST_TIME)
        return ran

    def test_a_stream_without_an_end(self):
        for name, given in OF_STREAMS.items():
            for file in ("/dev/zero", "/dev/full"):
                with self.subTest(name, file=file):
                    self.check_reported(self.bounded(self.words(name, given, STREAM=file)), file, "more than 64 MiB")
        self.check_reported(self.bounded(self.words("explain", ["STREAM", "/dev/zero"])), "/dev/zero: ", "1,024 MiB")

    def test_a_line_of_a_hundred_megabytes(self):
        zeros = self.room / "zeros"
        with open(zeros, "wb") as file:
            file.truncate(100_000_000)
        for name, given in OF_STREAMS.items():
            self.check_reported(self.bounded(self.words(name, given, STREAM=zeros)), str(zeros), "more than 64 MiB")
        with open(zeros, "wb") as file:
            file.truncate(60_000_000)
        ran = self.bounded(self.words("what-if", ["PLAN", "STREAM", "--program", str(plans.PROGRAM)], STREAM=zeros))
        self.assertEqual((ran.returncode, ran.stderr), (1, b""))
        self.assertIn(b"the line has 60,000,000 bytes", ran.stdout)

    def test_a_hundred_megabytes_of_zeros_as_a_plan(self):
        """It is refused before it is copied."""
        zeros = self.room / "zeros"
        with open(zeros, "wb") as file:
            file.truncate(100_000_000)
        for name in ("what-if", "page", "late"):
            ran = self.bounded(self.words(name, PRINTERS[name], PLAN=zeros))
            self.check_reported(ran, str(zeros), "not a database")

    def test_more_lines_than_are_read(self):
        stream = self.room / "lines.in"
        stream.write_bytes(b"\n" * 1_000_001)
        for name, given in OF_STREAMS.items():
            self.check_reported(self.bounded(self.words(name, given, STREAM=stream)), "1,000,000 lines")

    def test_what_is_no_file(self):
        fifo, folder, place = self.room / "fifo", self.room / "folder", self.room / "socket"
        os.mkfifo(fifo)
        folder.mkdir()
        with contextlib.closing(socket.socket(socket.AF_UNIX)) as held:
            held.bind(str(place))
            files = [fifo, folder, place, "/dev/zero", "/dev/full", "/dev/null"]
            reads_none = {"explain", "journal", "lint", "init", "--help"}
            for turn, name in enumerate(sorted(PRINTERS.keys() - reads_none)):
                for file in (files[turn % 6], files[(turn + 3) % 6]):
                    with self.subTest(name, plan=file):
                        self.check_reported(self.ran(self.words(name, PRINTERS[name], PLAN=file)),
                                            f"{file}: it is not a file")
            for file in files:
                with self.subTest("journal", journal=file):
                    self.check_reported(self.ran(self.words("journal", PRINTERS["journal"], JOURNAL=file)),
                                        f"{file}: it is not a file")
            for name, given in OF_STREAMS.items():
                for file in (folder, place):
                    with self.subTest(name, stream=file):
                        self.check_reported(self.ran(self.words(name, given, STREAM=file)), f"{file}: it can't be read")

    def test_a_log_that_is_no_file(self):
        log = Path(f"{self.plan}-wal")
        log.unlink(missing_ok=True)
        os.symlink("/dev/zero", log)
        self.check_reported(self.bounded(self.words("late", PRINTERS["late"])), str(self.plan),
                            "plan.db-wal beside it is not a file")

    def test_a_stream_from_a_pipe(self):
        os.mkfifo(self.room / "pipe")
        text = plans.stream("tuesday")
        for name, given in (("lint", ["STREAM"]), ("what-if", PRINTERS["what-if"])):
            wanted = self.ran(self.words(name, given))
            writer = threading.Thread(target=(self.room / "pipe").write_bytes, args=(text,))
            writer.start()
            found = self.ran(self.words(name, given, STREAM=self.room / "pipe"))
            writer.join()
            self.assertEqual((found.returncode, found.stdout), (wanted.returncode, wanted.stdout))

    def test_names_that_are_empty(self):
        for name, given in PRINTERS.items():
            for place, word in enumerate(given):
                if word in self.files or word == str(plans.PROGRAM):
                    ran = self.ran(self.words(name, [*given[:place], "", *given[place + 1 :]]))
                    self.assertEqual((ran.returncode, ran.stdout, ran.stderr.count(b"\n")), (2, b"", 1), ran.stderr)
        for words in (["page", "PLAN", "--since", ""], ["page", "PLAN", "-o", ""]):
            ran = self.ran(self.words(words[0], words[1:]))
            self.assertEqual((ran.returncode, ran.stdout, ran.stderr.count(b"\n")), (2, b"", 1), ran.stderr)

    def test_names_that_a_terminal_would_obey(self):
        for name in ("\x1b[31mred", "two\nlines", "\x9bcsi", "back\u202ewards", os.fsdecode(b"\xff\xfe")):
            for words in (["late", name], ["lint", name], [name], ["dump", "PLAN", name]):
                stderr = self.ran(self.words(words[0], words[1:])).stderr.decode()
                self.assertTrue(stderr.startswith("plan: ") and stderr.removesuffix("\n").isprintable(), ascii(stderr))

    def test_no_folder_for_the_copy(self):
        for place in (self.room / "nowhere", "/proc"):
            words = ["env", "-C", str(self.room / "plan"), f"TMPDIR={place}", *self.words("late", ["plan.db"])]
            ran = subprocess.run(words, capture_output=True, check=False)
            self.assertNotIn(b"Traceback", ran.stderr)

    def test_a_disk_without_room_for_the_copy(self):
        """A file may have no more than 10,000 bytes, as on a disk that is full: nothing is left."""
        limit = lambda: resource.setrlimit(resource.RLIMIT_FSIZE, (10_000, 10_000))  # noqa: E731
        for name in ("late", "what-if"):
            ran = self.ran(self.words(name, PRINTERS[name]), preexec_fn=limit)
            self.check_reported(ran, str(self.plan), "can't be read")

    def test_a_defect_is_reported_in_a_sentence(self):
        """With a module that is wrong, and so with the traceback only where it is asked for."""
        wrong = self.room / "wrong"
        shutil.copytree(plans.TOP / "python", wrong / "python")
        shutil.copy(plans.TOP / "plan", wrong)
        text = "SUMMARY = ''\ndef add_words(parser): pass\ndef run(given): return [][1]\n"
        (wrong / "python" / "opcplan" / "commands" / "late.py").write_text(text)
        words = [str(wrong / "plan"), "late"]
        ran = self.ran(words)
        self.assertEqual((ran.returncode, ran.stdout, ran.stderr.count(b"\n")), (3, b"", 1), ran.stderr)
        self.assertIn(b"defect of ./plan: IndexError", ran.stderr)
        asked = self.ran(["env", "PLAN_TRACEBACK=1", *words])
        self.assertIn(b"Traceback", asked.stderr)


def heed():
    """Takes each signal as it is by itself, also where these tests run with some ignored, as under nohup."""
    for number in (signal.SIGTERM, signal.SIGHUP, signal.SIGINT):
        signal.signal(number, signal.SIG_DFL)


def limit():
    """Bounds a process: without it a command that copies what has no end would fill the disk."""
    resource.setrlimit(resource.RLIMIT_AS, (MOST_MEMORY, MOST_MEMORY))
    resource.setrlimit(resource.RLIMIT_FSIZE, (MOST_OF_FILE, MOST_OF_FILE))


def wait_for(condition):
    """Waits until a condition holds, half a minute at most."""
    for _ in range(300):
        if condition():
            return
        time.sleep(0.1)
    raise AssertionError("nothing came in half a minute")


if __name__ == "__main__":
    unittest.main()
