"""./plan desk: lists as lines of JSON. Each is made once, given again while nothing changes, and holds nobody up."""

import asyncio
import contextlib
import json
import re
import socket
import tempfile
import threading
import time
import unittest
from contextlib import closing

from support import desks, plans

from opcplan.desk import errors, lists, rows

# each changes the plan where they come in this order, again and again
START, FAIL, RESET = CHANGES = [f"cp-{what} --app APP00 --ia 2024-01-01/08.00" for what in ("start", "fail", "reset")]
# runs ./plan, once something of a desk is changed
CHANGED = f"""
import sys
sys.path.insert(0, {str(plans.TOP / "python")!r})
sys.dont_write_bytecode = True
from opcplan.__main__ import run_words
from opcplan.desk import connections, lists
%s
run_words()
"""
# a list has to be sent within a second
HASTY = CHANGED % "connections.BODY, connections.BYTES_A_SECOND = 1.0, 1 << 40"
# the first word names the program that makes long lists
BY_MAKER = CHANGED % "lists.PROCESS[0] = sys.argv.pop(1)"
LISTS = "ltp", "cp", "history", "deletions", "dependencies", "links"


def words_of(row):
    """A row in words, as a line of its list has them."""
    return " ".join((f"{value:09}" if name in ("serial", "successor", "predecessor") and isinstance(value, int)
                     else str(value).replace("/", " ")) for name, value in row.items() if value is not None)


@unittest.skipIf(desks.why_not(), desks.why_not())
class Kept(desks.Case):
    def asked(self, desk):
        """How many lists opcplan was asked for."""
        answers = desk.asked("GET", "/metrics")[2]
        found = re.search(r'answers_total\{[^}]*statement="list",reply="ok"\} ([0-9]+)', answers)
        return int(found[1]) if found else 0

    def test_a_list_is_given_again_while_nothing_changes(self):
        desk = self.desk()
        first = desk.asked("GET", "/rows?list=cp")
        self.assertEqual(desk.asked("GET", "/rows?list=cp")[2], first[2])
        self.assertEqual(desk.asked("GET", "/rows?list=cp&status=W&to=2024-01-01")[0], 200)
        self.assertEqual(self.asked(desk), 1)
        self.assertEqual(desk.posted(RESET)[2], "refused 29\n")
        again = desk.asked("GET", "/rows?list=cp")
        self.assertEqual((again[2], again[1]["ETag"], self.asked(desk)), (first[2], first[1]["ETag"], 1))
        desk.posted(START)
        later = desk.asked("GET", "/rows?list=cp")
        self.assertEqual((json.loads(later[2].split("\n")[0])["status"], later[1]["X-Opcplan-Position"]), ("S", "2"))
        self.assertEqual((self.asked(desk), later[1]["ETag"] == first[1]["ETag"]), (2, False))
        self.end(desk)

    def test_whoever_has_the_state_asks_opcplan_nothing(self):
        desk = self.desk()
        tag = desk.posted("list cp --app APP00\n")[1]["ETag"]
        status, heads, body = desk.asked("GET", "/rows?list=cp", If_None_Match=tag)
        self.assertEqual((status, heads["ETag"], body, self.asked(desk)), (304, tag, "", 1))
        desk.posted(START)
        self.assertEqual(desk.asked("GET", "/rows?list=cp", If_None_Match=tag)[0], 200)
        self.end(desk)

    def test_a_list_has_what_its_caller_was_answered_before(self):
        """Also where others have the same list made all the time."""
        desk, stop = self.desk(), threading.Event()
        others = [threading.Thread(target=lambda: [desk.asked("GET", "/rows?list=cp")
                                                   for _ in iter(stop.is_set, True)]) for _ in range(3)]
        for other in others:
            other.start()
        try:
            for turn in range(30):
                self.assertTrue(desk.posted(CHANGES[turn % 3])[2].endswith(f"status {'SEW'[turn % 3]}\n"))
                first = desk.asked("GET", "/rows?list=cp")[2].split("\n")[0]
                self.assertEqual(json.loads(first)["status"], "SEW"[turn % 3], turn)
        finally:
            stop.set()
            for other in others:
                other.join()
        self.end(desk)


@unittest.skipIf(desks.why_not(), desks.why_not())
class Made(desks.Case):
    """A plan of 3,600 rows, whose lists are longer than those that the desk makes itself."""

    TEXT = desks.CENTRE.replace(b"--to 2024-01-31", b"--to 2024-06-28")

    def test_rows_are_the_lines_that_opcplan_shows(self):
        desk = self.desk()
        desk.posted(f"{START}\ncp-delete --app APP02 --ia 2024-01-02/08.02")
        for name in LISTS:
            body = [json.loads(line) for line in desk.asked("GET", f"/rows?list={name}")[2].splitlines()]
            lines = desk.posted(f"list {name}\n")[2].splitlines()[:-1]
            self.assertEqual([words_of(row) for row in body], [" ".join(line.split()) for line in lines], name)
        found = desk.asked("GET", "/rows?list=ltp&from=2024-02-01&to=2024-03-31")[2].splitlines()
        self.assertEqual(len(found), (29 + 31) * len(desks.APPS))
        self.assertEqual({json.loads(line)["ia"][:7] for line in found}, {"2024-02", "2024-03"})
        self.end(desk)

    def test_a_long_list_is_not_made_by_the_desk_itself(self):
        """Each is made by a process of its own, which notes that it was; the desk passes its file on. What that takes
        of the desk's processor, `tools/soak/seconds lists` prints."""
        maker, made = self.room / "maker", self.room / "made"
        maker.write_text(f'#!/bin/sh\necho "$*" >> {made}\nexec /usr/bin/python3 "$@"\n', encoding="ascii")
        maker.chmod(0o755)
        desk = self.desk(command=("/usr/bin/python3", "-c", BY_MAKER, maker))
        for turn in range(3):
            self.assertTrue(desk.posted(CHANGES[turn])[2].startswith("ok"))
            for _ in range(2):  # given again while nothing changes
                self.assertGreater(desk.asked("GET", "/rows?list=ltp")[2].count("\n"), 3_500)
            self.assertEqual(desk.asked("GET", "/rows?list=cp")[2].count("\n"), 40)
        found = [line.partition(" -m ")[2] for line in made.read_text(encoding="ascii").splitlines()]
        self.assertEqual([line.split()[:1] for line in found], 3 * [["opcplan.desk.rows_process"]])
        self.end(desk)


@unittest.skipIf(desks.why_not(), desks.why_not())
class Long(desks.Case):
    """A plan of 29,000 rows, whose lists are longer than what a connection holds."""

    TEXT = desks.CENTRE.replace(b"--to 2024-01-31", b"--to 2027-12-30")

    def test_whoever_reads_too_slowly_is_cut_off(self):
        desk = self.desk(command=("/usr/bin/python3", "-c", HASTY))
        with closing(socket.socket()) as slow:
            slow.setsockopt(socket.SOL_SOCKET, socket.SO_RCVBUF, 4096)
            slow.settimeout(60)
            slow.connect(("127.0.0.1", desk.port))
            slow.sendall(f"GET /rows?list=ltp HTTP/1.0\r\nHost: 127.0.0.1:{desk.port}\r\n\r\n".encode())
            self.assertTrue(slow.recv(1))
            time.sleep(3)
            with slow.makefile("rb") as lines, contextlib.suppress(ConnectionResetError):
                self.assertLess(sum(map(len, lines)), 29_000 * 100)
        self.assertEqual(desk.posted(START)[2], "ok serial 1 status S\n")
        self.end(desk)
        self.assertEqual([line for line in desk.said if "listening" not in line], [])

    def test_callers_who_hang_up_leave_no_traceback(self):
        desk = self.desk()
        for turn, wait in enumerate((0, 0.01, 0.05, 0.2, 0.5)):
            text = f"GET /rows?list=ltp HTTP/1.1\r\nHost: 127.0.0.1:{desk.port}\r\n\r\n" * 3
            with closing(desks.raw(desk.port, text.encode())) as one:
                time.sleep(wait)
                one.setsockopt(socket.SOL_SOCKET, socket.SO_LINGER, b"\1\0\0\0\0\0\0\0")
            desk.posted(CHANGES[turn % 3])
        self.assertGreater(desk.asked("GET", "/rows?list=ltp")[2].count("\n"), 29_000)
        self.end(desk)
        self.assertEqual([line for line in desk.said if "listening" not in line], [])


class Turned(unittest.TestCase):
    """The process that turns lines into JSON."""

    def turn(self, text, selection):
        with tempfile.TemporaryFile() as lines, tempfile.TemporaryFile() as found:
            lines.write(text)
            lines.flush()
            asyncio.run(lists.turned(lines.fileno(), found.fileno(), selection))
            found.seek(0)
            return found.read()

    def test_blanks_are_null(self):
        self.assertEqual(self.turn(b"APP1             APP2             \nAPP1             APP22              24\n",
                                   rows.Selection("links")),
                         b'{"app": "APP1", "predecessor": "APP2", "within": null}\n'
                         b'{"app": "APP1", "predecessor": "APP22", "within": 24}\n')
        line = b"000000007 APP1             A          2024-01-01 08.00 2024-01-01 20.00\n"
        self.assertEqual(json.loads(self.turn(line, rows.Selection("ltp"))), {
            "serial": 7, "app": "APP1", "origin": "A", "run_cycle": None, "ia": "2024-01-01/08.00",
            "deadline": "2024-01-01/20.00"})

    def test_lines_of_another_form_are_refused_in_a_sentence(self):
        line = b"000000007 APP1             A RC       2024-01-01 08.00 2024-01-01 20.00\n"
        for text in (line + b"000000008 APP1\n", line * 20_000 + b"x\n"):
            with self.assertRaisesRegex(errors.StatementRejected, "^the desk can't make the list: opcplan prints the "
                                        "list `ltp`") as one:
                self.turn(text, rows.Selection("ltp"))
            self.assertEqual((one.exception.status, str(one.exception).count("\n")), (503, 0))


if __name__ == "__main__":
    unittest.main()
