"""Bugs that a test has to catch: each is planted into a copy of the package, over which the test runs and has to fail.

A bug is here if it once passed the tests beside it, or breaks a promise that only a process from outside can see."""

import importlib.util
import os
import re
import shutil
import subprocess
import sys
import tempfile
from pathlib import Path
from typing import NamedTuple

from support import TOP

# what is copied; all else of the repository is linked
COPIED = ("plan", "python", "tests")
PAIRS = r"AssertionError: (\{[0-9]+: |'(ok|refused) )"  # a world has other pairs, or another reply
LONGEST = 1500  # seconds for one bug that hangs


class Bug(NamedTuple):
    """What is wrong, the file below python/opcplan with a text that it has once, the text with the bug, the test that
    catches it, and what that test then shows, as a regular expression."""

    name: str
    file: str
    old: str
    new: str
    test: str
    shows: str


BUGS = (
    # acts of the live page
    Bug("a part goes on after its refusal", "webpage/page_parts/live_doing.js",
        "    if (!isOk(reply)) part.closed = whyRefused(reply) + ' (' + reply + ')';\n", "",
        "test_page_doing.Doing.test_every_interleaving", "no statement of a part is done after a refused one"),
    Bug("what is left goes under a key of its own", "webpage/page_parts/live_doing.js",
        "  if (isSame) return { ...progress, done, isBegun: true };",
        "  if (isSame) return { ...progress, done, isBegun: true, key: 'act-' + newKey() };",
        "test_page_doing.Doing.test_every_interleaving", "what the page counts is what was done"),
    Bug("an act isn't continued after the desk ended", "webpage/page_parts/live_doing.js",
        "isPartOf(order, found) && found.answers.length > known;", "false;",
        "test_page_doing.Doing.test_every_interleaving", "one press does it"),
    Bug("what the page does may be other than what it showed", "webpage/page_parts/live_doing.js",
        "    if (!again.act || !sameAct(act, again.act)) return tell(again);",
        "    if (!again.act) return tell(again);",
        "test_page_doing.Doing.test_every_interleaving", "no statement of a part is done after a refused one"),
    Bug("the search takes a run of history before a planned one", "webpage/page_parts/search.js",
        "GROUPS = ['ESRBFC', 'L', 'H', 'Dowp']", "GROUPS = ['ESRBFC', 'H', 'L', 'Dowp']",
        "test_page_search.Search.test_it_finds_what_the_command_line_finds", "Lists differ"),
    # the agent's jobs
    Bug("root's groups are kept", "agent/runner.py", "extra_groups=user.groups)", "extra_groups=None)",
        "test_agent_skin.Users.test_a_job_has_the_groups_of_its_user_and_no_others", r"Lists differ: \[4, 24, 27"),
    Bug("a job lacks the groups of its user", "agent/runner.py", "os.getgrouplist(name, found.pw_gid))",
        "[found.pw_gid])", "test_agent_skin.Users.test_a_user_with_groups_of_its_own", r"Lists differ: .*70001"),
    Bug("SIGKILL to one process of a group", "agent/runner.py", "    signaled(job.pid, signal.SIGKILL)\n",
        "    job.kill()\n", "test_agent_skin.Processes.test_at_its_limit_the_whole_group_ends",
        r"Lists differ: \[[0-9, ]+\] != \[\]"),
    Bug("SIGKILL at once to who ends by itself", "agent/runner.py", "while is_left and time", "while False and time",
        "test_agent_skin.Processes.test_at_its_limit_the_whole_group_ends", "False is not true"),
    Bug("the pause counts from the begin of a try", "agent/executor.py", "fromisoformat(one.ended).timestamp()",
        "fromisoformat(one.began).timestamp()", "test_agent_jobs.Tries.test_a_pause_lasts_from_the_end_of_a_try",
        "it is tried again within its pause"),
    Bug("OPCPLAN_TOKEN_FILE in a job", "agent/runner.py", '"OPCPLAN_TOKEN_FILE", "CRED', '"CRED',
        "test_agent_skin.Environments.test_a_token_in_a_file", r"Lists differ: \['OPCPLAN_TOKEN_FILE'\]"),
    Bug("CREDENTIALS_DIRECTORY in a job", "agent/runner.py", ', "CREDENTIALS_DIRECTORY")', ")",
        "test_agent_skin.Environments.test_a_token_in_a_file", r"Lists differ: \['CREDENTIALS_DIRECTORY'\]"),
    # its settings
    Bug("jobs.toml is compared by size", "agent/jobs.py", "text == self.text:", "len(text) == len(self.text or b''):",
        "test_agent_trust.Settings.test_another_content_of_the_same_size_and_time_counts", "2 != 3"),
    Bug("settings fall away with jobs.toml", "agent/jobs.py", "            if not self.has_settings:\n",
        "            self.found, self.rules = {}, Rules()\n            if not self.has_settings:\n",
        "test_agent_trust.Settings.test_settings_stay_in_force_whatever_becomes_of_the_file", "'root' != 'nobody'"),
    Bug("an agent starts without its jobs.toml", "agent/remembered.py", "if self.paths & self.own and not",
        "if False and not", "test_agent_trust.Start.test_a_folder_that_had_settings_and_has_none",
        r"Tuples differ: \(None, "),
    Bug("the group may write", "agent/trusted_paths.py", "stat.S_IWGRP | stat.S_IWOTH", "stat.S_IWOTH",
        "test_agent_trust.Paths.test_a_mode_by_which_others_may_write", "mode='0o775'"),
    Bug("a name is checked, and not what was opened", "agent/trusted_paths.py",
        "    number = Walk(trusted).opened(path, READ)\n    try:\n",
        "    ask(path, trusted)\n    number = os.open(path, os.O_RDONLY)\n    try:\n",
        "test_agent_trust.Paths.test_a_name_that_is_exchanged_meanwhile", "what is evil was read"),
    # what is stored, synced and sent
    Bug("no sync before a rename", "plans/atomic_files.py", "        os.fsync(number)\n    os.replace",
        "    os.replace", "test_agent_skin.Order.test_an_agent_stores_before_it_sends_and_before_it_runs",
        "got its name before its content was synced"),
    Bug("no sync of a name", "plans/atomic_files.py", "    sync_folder(os.path.dirname(path))\n", "",
        "test_agent_skin.Order.test_an_agent_stores_before_it_sends_and_before_it_runs",
        "the name of .* wasn't synced before the next send"),
    Bug("no sync of a file that a command writes", "cli/output.py", "            os.fsync(target.fileno())\n", "",
        "test_synced.Synced.test_a_file_that_is_written", "got its name before its content was synced"),
    Bug("no sync of a backup", "plans/checked_copy.py", "        os.fsync(number)\n", "",
        "test_synced.Synced.test_backup_and_restore", "got its name before its content was synced"),
    Bug("no sync of the name of a pruned journal", "plans/journal_prune.py",
        "        sync(os.path.dirname(path))\n", "", "test_synced.Synced.test_a_journal_that_is_pruned",
        "the name of .* wasn't synced before the next end"),
    Bug("a job begins before that is stored", "agent/runner.py", "    keep(folder, begun)\n", "",
        "test_agent_skin.Order.test_a_runner_stores_that_the_job_begins_before_it_does", "Lists differ: .*'start'"),
    Bug("a journal that isn't synced", "plans/journal.py", "'NORMAL' if is_copy else 'FULL'", "'NORMAL'",
        "test_agent_skin.Order.test_a_journal_has_an_entry_on_the_disk_before_it_returns", "Tuples differ: .*'write'"),
    # answers with a fault
    Bug("roll takes a fault on the last line for done", "commands/roll.py",
        'sum(not reply.startswith("fault") for reply in replies)', "len(replies)",
        "test_roll.Roll.test_a_fault_in_place_of_the_last_answer_is_reported", "4 != 8"),
    Bug("a client takes a fault on the last line for done", "desk/client.py",
        'return last if last.startswith("fault") else ""', 'return ""', "test_faults.Faults.test_send",
        "Tuples differ"),
    Bug("an agent takes a fault for an answer", "agent/desk_queries.py", "if fault := client.fault_of(found):",
        'if fault := "":', "test_agent_skin.Faults.test_a_fault_is_no_answer", "the desk answers `fault"),
    Bug("a desk takes a fault for a reply", "desk/planner.py", 'line.startswith("fault") or not self', "not self",
        "test_desk.Ends.test_a_statement_that_faults_each_time_stops_the_desk", r"Tuples differ: \(200"),
    # several desks
    Bug("digests aren't compared", "desk/digests.py", "if known.get(seq, digest) != digest), default",
        "if False), default", "test_digest_states.States.test_walks_at_random_through_a_larger_world",
        "is on, and not (held|stopped)"),
    Bug("a copy's mark isn't compared", "desk/digests.py", "mark.jobs == plan.jobs", "mark.jobs <= plan.jobs",
        "test_digest_states.Parts.test_what_a_plan_begins_with", "Start.seq=5"),
    Bug("a stop isn't kept", "plans/journal.py", "UPDATE begun SET stopped = ?", "UPDATE begun SET stopped = 0 * ?",
        "test_etcd_words.Kept.test_it_begins_where_the_plan_does", "LogStart.* != .* 700, 701, None"),
    Bug("the keys of a stream end early", "plans/journal.py", 'f"{key}$")', 'f"{key}#1")',
        "test_key_states.Parts.test_keys_of_a_journal_and_before_it", r"{1: Entry.* != {0: None"),
    Bug("memory drops what the journal lacks", "desk/state.py", "while over < self.kept - self.recent_from and",
        "while over < count and", "test_desk_states.States.test_walks_at_random_through_a_larger_world",
        "the journal has replies up to entry"),
    Bug("a copy while a change has no answer", "desk/snapshot.py", "if not stands.is_exact:", "if False:",
        "test_desk_true.Positions.test_a_desk_that_begins_is_not_ahead_of_its_plan", "200 != 503"),
    Bug("lists stay after a change", "desk/core.py", "                self.lists.changed()\n", "                pass\n",
        "test_desk_lists.Kept.test_a_list_is_given_again_while_nothing_changes", "First differing element 0:\n'W'"),
    # definitions
    Bug("edit undefines a period in use", "edits/periods.py", "if is_gone and users:", "if False:",
        "test_edit.Edit.test_the_last_interval_of_a_period_in_use_stays", r"Tuples differ: \(0, 'undefine"),
    # acts
    Bug("of two runs that are as near the later deadline counts", "rules/usual_due.py", "return min(found)[1]",
        "return min(found, key=lambda one: (one[0], -one[1]))[1]",
        "test_usual_due.Rule.test_of_two_that_are_as_near_the_earlier_deadline_counts", "2024-01-06/08.00"),
    Bug("a run of the same minute is no predecessor", "acts/world.py", "(ia + (other != app), 0)", "(ia, 0)",
        "test_acts.Worlds.test_a_world_does_what_the_planner_does", PAIRS),
    Bug("a run at the limit is no predecessor", "acts/world.py", "within * 60 < ia:", "within * 60 <= ia:",
        "test_acts.Worlds.test_a_world_does_what_the_planner_does", PAIRS),
    Bug("pairs are lost when a row closes", "acts/world.py", "self.kept[row.serial] = self.before(row)", "pass",
        "test_acts.Worlds.test_a_world_does_what_the_planner_does", PAIRS),
    Bug("a closed row gets its pairs anew", "acts/world.py", "if row.place in CLOSED:\n            return",
        "if False:\n            return", "test_acts.Worlds.test_a_world_does_what_the_planner_does", PAIRS),
    Bug("an inverse is offered without its trial", "acts/inverses.py", "lack = lack_of(world, back)", "lack = ''",
        "test_acts.Acts.test_an_act_does_what_its_preview_says", "False is not true"),
    Bug("an inverse is offered whatever its pairs", "acts/inverses.py",
        "if keys_of(old, old.before(before)) != keys_of(new, new.before(row)):", "if False:",
        "test_acts.Inverses.test_a_reset_whose_run_would_follow_others_has_none", "would have other predecessors"),
    Bug("run cycles of one day aren't tried", "acts/one_day.py",
        "    check_alone(world, found, app, ia, deadline, old)\n", "",
        "test_acts.Acts.test_an_act_does_what_its_preview_says", "it is due |is made, and not"),
    Bug("run cycles of one day take in what else is defined", "acts/one_day.py",
        "if Difference(world, trial).rows or trial.in_force != world.in_force:", "if False:",
        "test_acts.Acts.test_an_act_does_what_its_preview_says", "another list of predecessors is in force|it changes"),
    Bug("a deadline is kept by run cycles of two days", "acts/one_day.py", "[place.offset], day, day + 1, minute, due)",
        "[place.offset], day, day + 2, minute, due)", "test_acts.Acts.test_an_act_does_what_its_preview_says",
        "the deadline could be kept"),
    Bug("a chain ends before its root", "acts/chains.py", "reversed(world.open_before(here)) if here.place == \"W\"]",
        "reversed(world.open_before(here)) if here is row]", "test_acts.Acts.test_an_act_does_what_its_preview_says",
        "refused 30"),
    Bug("a chain follows one predecessor of each run", "acts/chains.py", "reversed(world.open_before(here)) if",
        "reversed(world.open_before(here)[:1]) if", "test_acts.Acts.test_an_act_does_what_its_preview_says",
        "refused 30"),
    Bug("undo ignores what others did to a run", "acts/undoing.py", "    elif row.place not in after(name):",
        "    elif False:", "test_undoing.Cases.test_what_has_changed_since_is_not_undone", "does not match"),
    Bug("undo ignores what others defined", "acts/undoing.py", "if world.defined.run_cycles.get(app) != cycles:",
        "if False:", "test_undoing.Cases.test_a_move_by_run_cycles_that_others_changed_is_not_undone",
        "the run cycles of AA have"),
    Bug("undo ignores what others did to a moved run", "acts/undoing.py",
        "    for app, was, now in modified(world, done, entries):\n", "    for app, was, now in ():\n",
        "test_undoing.Cases.test_a_move_by_run_cycles_that_others_changed_is_not_undone",
        "isn't made again"),
    Bug("an act at a desk goes on after a refusal", "desk/feed.py", "if ask.is_after_refusal and", "if False and",
        "test_act_stops.Stops.test_an_act_goes_no_further_than_its_first_refusal", "Lists differ"),
    Bug("an act over a file goes on after a refusal", "plans/own_runs.py", "or not replies.is_accepted:", "or False:",
        "test_acting.OverAFile.test_an_act_goes_no_further_than_its_first_refusal", "!="),
    Bug("what was taken back is gone on with", "acts/rest.py", "row is None or row.place in GONE:", "False:",
        "test_acting.OverAFile.test_somebody_changes_the_plan_between_a_kill_and_the_same_call", "0 != 1"),
    Bug("undo isn't tried", "acts/undoing.py", '        if not reply.startswith("ok"):\n            raise',
        "        if False:\n            raise", "test_undoing.Cases.test_what_has_changed_since_is_not_undone",
        "NotDoable not raised"),
    Bug("what was in error waits once its deletion is undone", "acts/undoing.py", 'return "E" if statuses',
        'return "W" if statuses', "test_undoing.Cases.test_what_was_in_error_is_again", "Lists differ"),
)


def why_passed(bug: Bug) -> str:
    """Why a planted bug counts as not caught; empty if its test fails as it has to, and "skipped" if it can't run."""
    with tempfile.TemporaryDirectory(prefix="planted-") as folder:
        top = Path(folder)
        copied(top)
        path = top / "python" / "opcplan" / bug.file
        text = path.read_text(encoding="utf-8")
        if text.count(bug.old) != 1:
            return f"{bug.file} has its text {text.count(bug.old)} times"
        path.write_text(text.replace(bug.old, bug.new), encoding="utf-8")
        Path(importlib.util.cache_from_source(str(path))).unlink(missing_ok=True)
        ran = run(top, bug.test)
    if "(skipped=" in ran.stderr:
        return "skipped"
    if ran.returncode == 0:
        return f"{bug.test} passes"
    if not re.search(bug.shows, ran.stderr):
        return f"{bug.test} doesn't show `{bug.shows}`, but: {ran.stderr}"
    return ""


def run(top: Path, test: str) -> subprocess.CompletedProcess[str]:
    """A test's run over a copy of the repository."""
    words = [sys.executable, "-B", "-W", "ignore", "-m", "unittest", "--failfast", test]
    return subprocess.run(words, cwd=top / "tests", capture_output=True, encoding="utf-8", check=False, timeout=LONGEST,
                          env={**os.environ, "OPCPLAN": str(program())})


def program() -> Path:
    """The program that the tests take."""
    return Path(os.environ.get("OPCPLAN") or TOP / "crates" / "opcplan" / "out" / "opcplan")


def copied(top: Path) -> None:
    """Puts a copy of the repository's package and tests into a folder, with what is compiled of them, and links to all
    else."""
    for one in TOP.iterdir():
        if one.name == "python" or one.name == "tests":
            shutil.copytree(one, top / one.name)
        elif one.name in COPIED:
            shutil.copy(one, top / one.name)
        elif not one.name.startswith("."):
            (top / one.name).symlink_to(one)
