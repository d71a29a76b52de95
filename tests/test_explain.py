"""./plan explain: each refusal of the worked streams has its line and its reason, held against the plain planner."""

import collections
import csv
import io
import re
import shutil
import tempfile
import unittest
from pathlib import Path

from support import plans
from support.plans import plain

from opcplan.plans import stream_state
from opcplan.rules import blocks, explanations, record_fields
from opcplan.rules.stream import MOST_OF_BLOCK


# the plain planner takes its time over these: their lines are held, and not what stands behind them
SLOW = {"full-plan", "no-work-day-rule-1", "no-work-day-rule-2", "run-cycles-row-by-row", "longest-list"}
# a good value for each field, whatever stands in the fields beside it
GOOD = {
    "calendars": ("C", "2031-07-09", "FREE"),
    "periods": ("P", "A", "2031-07-09", "7"),
    "applications": ("A", "A", ""),
    "run-cycles": ("A", "R", "N", "P", "E", "1", "2031-07-09", "", "08.00", "0", "18.00"),
    "predecessors": ("A", "B", "12"),
}


def worked():
    """The worked streams: name, text, output."""
    return [(path.stem, path.read_bytes(), path.with_suffix(".out").read_bytes())
            for path in sorted(plans.DATA.glob("*.in"))]


def with_returns():
    """The names of the worked streams that are answered alike with a carriage return before each line feed."""
    listed = (plans.DATA / "streams.txt").read_text(encoding="utf-8")
    return set(re.findall(r"(?m)^([a-z][^ ]*) [0-9] both", listed))


def answered(text):
    """What a stream has to answer for, by the plain planner's reading: number of the line, line, block."""
    lines, number, before, found = plain.lines_of(text), 0, 0, []
    for line, place in lines:
        number = text.count(b"\n", 0, place - 1) + 1 if text[place - 1 : place] == b"\n" else text.count(b"\n") + 1
        has_data = plain.first_word(line[:1024]) == b"define"
        if not has_data and plain.is_skipped(line):
            continue
        begin, before, block = place, place, None
        for data_line, place in lines if has_data else ():
            if data_line == b"/*":
                block = text[begin:before]
                break
            before = place
        found.append((number, line, block))
    return found


def replies_of(output):
    """The reply lines of an output."""
    return re.findall(r"(?m)^(?:ok|refused|fault)(?: .*)?$", output.decode("latin-1").replace("\r", ""))


def parts(lines):
    """The explanations by line of the stream: the reply and the sentences."""
    found = {}
    for part in "\n".join(lines).split("\n\n"):
        head, _, rest = part.strip("\n").partition("\n")
        if head.startswith("line "):
            reply, _, seen = rest.strip().partition("\n")
            number, _, head = head.removeprefix("line ").partition(": ")
            found[int(number)] = head, reply, " ".join(seen.split())
    return found


def explained(text, output, is_whole=False):
    known = stream_state.Known(is_whole)
    return explanations.explained(plans.items_of(text), plans.source_of(output), known)


class Worked(unittest.TestCase):
    def test_each_refusal_has_its_line(self):
        seen, both = collections.Counter(), with_returns()
        self.assertGreater(len(both), 100)
        for name, text, output in worked():
            for given in (text, text.replace(b"\n", b"\r\n")) if name in both else (text,):
                with self.subTest(name):
                    self.check_lines(given, output, seen)
        self.assertEqual(set(seen), set("10 11 12 13 20 21 22 23 24 25 26 27 28 29 30 31 32".split()))

    def check_lines(self, text, output, seen):
        replies = replies_of(output)
        refused = {number: (line, reply) for (number, line, _), reply in zip(answered(text), replies)
                   if reply.startswith("refused")}
        lines, count, of_all = explained(text, output)
        found = parts(lines)
        self.assertEqual({number: reply for number, (_, reply) in refused.items()},
                         {number: reply for number, (_, reply, _) in found.items()})
        self.assertEqual((count, of_all), (len(refused), len(replies)))
        for number, (head, reply, sentences) in found.items():
            line = refused[number][0]
            self.assertTrue(sentences)
            if all(32 <= byte < 127 or byte == 9 for byte in line):
                self.assertTrue(head.startswith(" ".join(line.decode().split())[:90]), head)
            seen[reply.split()[1]] += 1
            self.check_record_line(text, sentences)

    def check_record_line(self, text, sentences):
        """The line of a faulty record is the line that is shown."""
        found = re.search(r"record [0-9]+ of its data, line ([0-9]+), is faulty `(.*?)`", sentences)
        line = text.split(b"\n")[int(found.group(1)) - 1].rstrip(b"\r") if found else b""
        if found and all(32 < byte < 127 for byte in line):
            self.assertEqual(line[:90].decode().split("`")[0], found.group(2))

    def test_what_is_said_holds_by_the_plain_planner(self):
        """Over a new plan, and where no plan is known."""
        for self.is_whole in (True, False):
            seen = collections.Counter()
            for name, text, output in worked():
                # one goes on with the plan of another
                if name not in SLOW and not (self.is_whole and name == "tuesday"):
                    self.check_worked(name, text, output, seen)
            numbers = (11, 12, 13, *range(20, 31), 32)  # 31 stands in a slow one
            self.assertTrue(all(seen[number] > 3 for number in numbers), seen)

    def check_worked(self, name, text, output, seen):
        found, planner = parts(explained(text, output, self.is_whole)[0]), plain.Planner()
        if name == "tuesday":
            plain.run(plans.stream("monday"), planner)
        for number, line, block in answered(text):
            words = line.decode("latin-1").split()
            before = planner.copy()
            readable = len(line) <= 1024 and all(byte == 9 or 32 <= byte <= 126 for byte in line)
            lines = plain.answer(planner, words, block) if readable and words else ["refused 10"]
            if lines[-1].startswith("refused"):
                with self.subTest(name, line=number):
                    self.assertEqual(found[number][1], lines[-1])
                    self.check(before, plain.read_statement(words) if readable else None, block, found[number], seen)

    def check(self, planner, statement, block, message, seen):
        """Holds one explanation against what the plain planner knows before the statement."""
        _, reply, text = message
        number, detail = int(reply.split()[1]), reply.split()[2:]
        seen[number] += 1
        if number == 10:
            self.assertIsNone(statement)
            self.assertTrue(text.startswith("it isn't a statement: "))
            return
        _, word, values = statement
        if "gets the same answer again" in text:
            self.assertIn(values["job"], planner.jobs)
            return
        getattr(self, f"check_{number}", lambda *_: None)(planner, word, values, block, detail, text)

    def check_11(self, _planner, kind, _values, block, detail, text):
        if detail == ["0"]:
            self.assertIn("have no end" if block is None else f"{len(block):,} bytes", text)
        else:
            self.assertIn(f"record {detail[0]} of its data", text)
            self.assertNotIn("the output names", text)
            self.assertNotIn("finds no fault in it", text)

    def check_12(self, planner, _word, values, *_):
        self.assertIn(values["job"], planner.jobs)

    def check_13(self, planner, kind, values, _block, _detail, text):
        self.assertNotIn(values["name"], planner.defined[kind])
        self.assertIn(values["name"], text)

    def check_20(self, planner, *_):
        self.assertIsNone(planner.bounds)

    def check_21(self, planner, *rest):
        self.assertIsNotNone(planner.bounds)
        self.assertRegex(rest[-1], "since line [0-9]")

    def check_22(self, planner, _word, _values, _block, detail, text):
        calendar = planner.defined["applications"][detail[0]][1]
        self.assertIn(f"{detail[0]} names the calendar {calendar} (line ", text)
        self.assertNotIn(calendar, planner.defined["calendars"])

    def check_23(self, planner, _word, _values, _block, detail, text):
        found = re.findall(r"([A-Z0-9@#$]+) names the period ([A-Z0-9@#$]+) \(line [0-9]+\)", text)
        lacking = [(name, cycle["period"]) for name, cycle in sorted(planner.defined["run-cycles"][detail[0]].items())
                   if cycle["period"] not in planner.defined["periods"]]
        self.assertEqual(found, lacking[:5])

    def check_24(self, planner, _word, values, *rest):
        self.check_bounds(planner, rest[-1])

    check_32 = check_24

    def check_28(self, planner, _word, values, _block, _detail, text):
        self.assertIn(f"{values['app']} {plain.moment_text(values['ia'])}", text)
        self.check_bounds(planner, text)

    def check_bounds(self, planner, text):
        if planner.bounds:
            first, last, end = planner.bounds
            said = f"long-term plan: {plain.day_text(first)} to {plain.day_text(last)}; end of the current plan: "
            # what is counted by a calendar isn't known by a stream alone
            if self.is_whole or "long-term plan:" in text:
                self.assertIn(said + plain.moment_text(end), text)
            self.assertEqual("(by this stream alone, " in text, not self.is_whole and "long-term plan: " in text)

    def check_25(self, planner, _word, values, _block, detail, text):
        ring, lists = text.partition(f"includes {detail[0]}: ")[2].split(" waits for "), planner.defined["predecessors"]
        if "app" in values:  # a modification of one puts its list alone into force
            lists = {**planner.in_force, values["app"]: lists.get(values["app"], {})}
        self.assertGreater(len(ring), 2)
        self.assertEqual((ring[0], ring[-1]), (detail[0], detail[0]))
        for app, predecessor in zip(ring, ring[1:]):
            self.assertIn(predecessor, lists[app])

    def check_26(self, planner, _word, values, _block, _detail, text):
        known = values["app"] in planner.defined["applications"]
        self.assertIn("is pending (line " if known else "isn't defined", text)

    def check_27(self, planner, _word, values, *_):
        self.assertIn((values["app"], values["ia"]), {row[1:3] for row in planner.live()})

    def check_29(self, planner, _word, values, _block, _detail, text):
        said = re.search(r"it has the status ([WSECD])", text)
        if said:
            held = {row[1:3]: status for row, status in planner.current.values() if status != "D"}
            self.assertEqual(held[values["app"], values["ia"]], said.group(1))

    def check_30(self, planner, _word, _values, _block, detail, text):
        said = re.search(r"serial ([0-9]+)(?:, ([A-Z0-9@#$]+) ([0-9-]+ [0-9.]+))?;", text)
        self.assertEqual(said.group(1), detail[0])
        if said.group(2):
            row = planner.current[int(detail[0])][0]
            self.assertEqual((said.group(2), said.group(3)), (row[1], plain.moment_text(row[2])))


class Fields(unittest.TestCase):
    """The field that is named is the first at fault: with it and those behind it made good, the record is taken."""

    def test_the_field_that_is_named_is_at_fault(self):
        seen = collections.Counter()
        for name, text, _ in worked():
            for item in plans.items_of(text):
                if item.statement and item.data is not None and len(item.data) <= MOST_OF_BLOCK:
                    block = blocks.read(item.statement.alone, item.data)
                    with self.subTest(name, line=item.line):
                        self.assertEqual(block.fault.record if block.fault else None, plain_fault(item))
                        if block.fault and block.fault.field and item.statement.alone != "options":
                            self.check(item, block.fault, seen)
        for kind, (fields, _) in record_fields.KINDS.items():
            for field in fields:
                self.assertTrue(seen[kind, field], (kind, field))

    def check(self, item, fault, seen):
        kind = item.statement.alone
        fields = record_fields.KINDS[kind][0]
        at = fields.index(fault.field)
        seen[kind, fault.field] += 1
        records = [record for record in plain_records(item.data) if record]
        record = records[fault.record - 1]
        good = GOOD[kind][: len(record)]
        if kind == "periods" and record[1] == "N":
            good = ("P", "N", "2031-07-09", "")
        text = item.data.removeprefix(plain.BYTE_ORDER_MARK).split(b"\n")[fault.line].decode("latin-1")
        self.assertEqual(record[at].encode("latin-1").decode("utf-8", "backslashreplace"), fault.value)
        if "\r" not in text.rstrip("\r") and '"' not in text:
            self.assertEqual(next(csv.reader([text.rstrip("\r")])), record)
        with_good = records[: fault.record - 1] + [record[: at + 1] + list(good[at + 1 :])]
        self.assertEqual(fault_of(kind, with_good), fault.record)
        if fault.field in ("origin", "type") and "record" in fault.wrong:
            return  # it is at fault beside an earlier record
        self.assertIsNone(fault_of(kind, [record[:at] + list(good[at:])]))


def plain_records(data):
    return list(csv.reader(io.StringIO(data.removeprefix(plain.BYTE_ORDER_MARK).decode("latin-1"), newline="")))


def plain_fault(item):
    """The number of the faulty record, by the plain planner."""
    csv.field_size_limit(MOST_OF_BLOCK + 1)
    try:
        plain.read_block(item.statement.alone, item.data)
    except plain.Refusal as refused:
        return int(refused.line.split()[2])
    return None


def fault_of(kind, records):
    """The number of the first faulty one of some records, by the plain planner."""
    found, (widths, take) = {}, plain.RECORDS[kind]
    for number, fields in enumerate(records, 1):
        try:
            plain.check(len(fields) in widths)
            widths = [len(fields)]
            take(found, fields)
        except plain.Faulty:
            return number
    return None


class Command(unittest.TestCase):
    def setUp(self):
        self.room = Path(tempfile.mkdtemp(prefix="explain-"))
        self.addCleanup(shutil.rmtree, self.room)

    def ask(self, text, output, status, error=""):
        (self.room / "x.in").write_bytes(text)
        (self.room / "x.out").write_bytes(output)
        ran = plans.plan("explain", self.room / "x.in", self.room / "x.out")
        self.assertEqual(ran.returncode, status, ran)
        self.assertIn(error, ran.stderr)
        return " ".join(ran.stdout.split())

    def test_all_accepted(self):
        name = "first-days"
        output = (plans.DATA / f"{name}.out").read_bytes()
        self.assertEqual(self.ask(plans.stream(name), output, 0), "5 statements, none refused.")

    PLAN = ("define calendars --job 1\nDEFAULT,SAT,FREE\nDEFAULT,SUN,FREE\n/*\ndefine periods --job 2\n"
            "DAY,A,2027-01-01,1\n/*\ndefine applications --job 3\nA,A,\n/*\ndefine run-cycles --job 4\n"
            "A,R,N,DAY,E,1,2027-01-01,,08.00,0,18.00\n/*\n")
    OPTIONS = 'define options --job 15\ndefault_calendar = "DEFAULT"\n/*\n'
    CALENDAR = "define calendars --job 16\nDEFAULT,SAT,FREE\nDEFAULT,SUN,FREE\n/*\n"
    STREAM = ("ltp-create --from 2027-01-01 --to 2027-02-28 --job 10\ndp-extend --days 4 --count W --job 11\n"
              "ltp-add --app A --ia 2027-01-06/12.00 --job 12\nltp-extend --to 2027-02-01 --job 13\n"
              "cp-start --app A --ia 2027-02-01/09.00 --job 14\n")

    def test_what_may_be_in_the_plan_alone_is_not_reported(self):
        """Days are counted by the calendar of the plan: 4 work days after Friday, 1 January 2027, with that one."""
        for more, is_reported in (("", False), (self.OPTIONS, False), (self.CALENDAR, False),
                                  (self.OPTIONS + self.CALENDAR, True)):
            text = more + self.STREAM
            planner = plans.planner_of(self.PLAN).copy()
            replies = plain.run(text.encode(), planner)
            self.assertEqual(plain.moment_text(planner.bounds[2]), "2027-01-07 00.00")
            self.assertEqual([reply[:10] for reply in replies[-3:]], ["refused 24", "refused 24", "refused 28"])
            output = self.ask(text.encode(), "".join(f"{reply}\n" for reply in replies).encode(), 1)
            self.assertEqual(output.count("end of the current plan: "), 3 if is_reported else 0, output)
            self.assertEqual(output.count("(by this stream alone, long-term plan: 2027-01-01 to 2027-02-28; end of the "
                                          "current plan: 2027-01-07 00.00)"), 3 if is_reported else 0, output)
            self.assertIn("it arrives before the current plan's end or after the last day of the long-term plan",
                          output)

    def test_jobs_that_a_plan_may_keep_say_nothing_of_now(self):
        """The first two were answered as in an earlier run; since then another stream went on."""
        first = "ltp-create --from 2027-01-01 --to 2027-02-28 --job 10\ndp-extend --to 2027-01-02/00.00 --job 11\n"
        planner = plans.planner_of(self.PLAN).copy()
        since = "dp-extend --to 2027-01-04/00.00 --job 20\ncp-start --app A --ia 2027-01-01/08.00 --job 21\n"
        plain.run((first + since).encode(), planner)
        text = (first + "cp-add --app A --ia 2027-03-03/09.00 --job 12\nltp-extend --to 2027-02-01 --job 13\n"
                "cp-start --app A --ia 2027-01-01/08.00 --job 14\n")
        replies = plain.run(text.encode(), planner)
        self.assertEqual([reply[:8] for reply in replies], ["ok made ", "ok moved", *["refused "] * 3])
        output = self.ask(text.encode(), "".join(f"{reply}\n" for reply in replies).encode(), 1)
        self.assertEqual(output.count("2027-01-02 00.00"), output.count("(by this stream alone, "), output)
        self.assertIn("it has another status", output)

    def test_nothing(self):
        self.assertEqual(self.ask(b"", b"", 0), "0 statements, none refused.")

    def test_a_line_that_only_looks_like_an_end(self):
        output = self.ask(b"define calendars --job 1\nC,SAT,FREE\n/* \nlist cp\n", b"refused 11 0\n", 1)
        self.assertIn("line 3 only looks like such a line", output)
        self.assertIn("1 of 1 statement was refused.", output)

    def test_a_fault_and_an_output_that_is_cut(self):
        text = b"list cp\n* again\nlist ltp\n"
        output = self.ask(text, b"ok rows 0\nfault 41\n", 1)
        self.assertIn("fault 41: ", output)
        self.assertIn("The run ended before line 3 was answered.", output)
        self.assertIn("before line 3 is answered: list ltp", self.ask(text, b"ok rows 0\n", 1))
        self.assertIn("fault 50: ", self.ask(text, b"fault 50\n", 1))

    def test_an_output_of_another_stream(self):
        for text, output in (("list cp", "ok rows 0\nok rows 0"), ("list cp", "ok undefined"), ("list", "ok rows 0"),
                             ("list cp", "refused 10"), ("list cp", "refused 12"), ("", "ok undefined")):
            said = self.ask(f"{text}\n".encode(), f"{output}\n".encode(), 1, "isn't the output of")
            self.assertEqual(said, "")

    def test_replies_that_no_statement_of_the_kind_gets(self):
        """Numbers by what docs/rules/REFUSALS.md says they are asked by, and what stands behind them."""
        start, extend = "cp-start --app A --ia 2024-01-01/08.00 --job 1", "dp-extend --to 2024-01-02/00.00 --job 1"
        wrong = [("list cp", f"refused {number}") for number in (11, 12, 13, *range(20, 33))]
        wrong += [(start, f"refused {number}") for number in (21, "22 A", "23 A", 24, "25 A", 26, 27, 31, 32)]
        wrong += [(extend, f"refused {number}") for number in (13, 21, 24, 26, 27, 28, 29, "30 1", 31)]
        wrong += [(start, reply) for reply in ("refused", "refused x", "refused 30", "refused 30 A", "refused 30 1 2",
                                               "refused 20 A", "refused 20 ", "refused 30 -1", "ok serial x status S")]
        wrong += [("define periods --job 1\n/*", reply) for reply in ("refused 11", "refused 11 A", "refused 11 1 1")]
        wrong += [("ltp-modify-all --job 1", reply) for reply in ("refused 22", "refused 22 1", "refused 22 a")]
        wrong += [("define periods --job 1\nP,A,2024-01-01,1", reply) for reply in ("ok defined 1", "refused 12")]
        wrong += [("list cp\nlist cp", "fault 41\nok rows 0"), ("list cp\nlist cp", "fault 41\nfault 41")]
        for text, output in wrong:
            with self.subTest(text, output=output), self.assertRaises(explanations.OutputMismatch):
                explained(f"{text}\n".encode(), f"{output}\n".encode())

    def test_options_that_no_reader_of_toml_likes(self):
        """Each is faulty, whatever its reader makes of its depth or its length."""
        deep, long = "a = " + "[" * 100_000, "max_extension_hours = " + "9" * 5000
        hexadecimal = "max_extension_hours = 0x" + "f" * 5000
        for data in (deep, deep + "]" * 100_000, long, hexadecimal, "a = 2024-99-99", "\x00", "a.b.c = 1; b"):
            output = self.ask(f"define options --job 1\n{data}\n/*\n".encode(), b"refused 11 1\n", 1)
            self.assertIn("record 1 of its data, line 2, is faulty", output)
            self.assertIn("1 of 1 statement was refused", output)

    def test_wrong_words_and_files(self):
        for given in ((), (self.room / "x.in",), ("a", "b", "c")):
            ran = plans.plan("explain", *given)
            self.assertEqual((ran.returncode, ran.stdout), (2, ""))
        ran = plans.plan("explain", self.room / "none.in", self.room / "none.out")
        self.assertEqual((ran.returncode, ran.stdout), (1, ""))
        self.assertIn("can't be read", ran.stderr)


if __name__ == "__main__":
    unittest.main()
